"""The FRAM controller: how long an access to FRAM waits (MACHINE.md, The FRAM controller)."""

from collections.abc import Callable

from latch import Latch
from registers_of_units import merged
from system import READ_PASSWORD, Cause

FRCTL0 = 0x0140
GCCTL0 = 0x0144
GCCTL1 = 0x0146
PLAIN_REGISTERS = (GCCTL0, GCCTL1)

WAITS_BITS = 0x0070
WAITS_SHIFT = 4


class Fram:
    addresses = (FRCTL0, *PLAIN_REGISTERS)

    def __init__(self, request: Callable[[Cause], None]):
        self.latch = Latch(request, Cause.FRAM_PASSWORD)
        self.reset()

    def reset(self) -> None:
        self.latch.close()
        self.control = 0
        self.plain = dict.fromkeys(PLAIN_REGISTERS, 0)

    def waits(self) -> int:
        """NWAITS: the cycles that each access takes besides."""
        return self.control >> WAITS_SHIFT

    def read(self, address: int) -> int:
        if address == FRCTL0:
            return READ_PASSWORD | self.control
        return self.plain[address]

    def write(self, address: int, value: int, mask: int) -> None:
        if address == FRCTL0:
            if self.latch.lower_byte_takes_effect(value, mask):
                self.control = value & WAITS_BITS
        elif self.latch.is_open:
            self.plain[address] = merged(self.plain[address], value, mask)
