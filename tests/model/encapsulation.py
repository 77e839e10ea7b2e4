"""IP Encapsulation: its registers, the area between its borders, and who reaches into that.

The registers stand behind the latch of the memory protection unit (MACHINE.md).
"""

from dataclasses import dataclass

from latch import Latch
from memory import Region, region_of
from registers_of_units import merged
from right import Right
from seals import NO_SEAL, Seal, seal_between
from system import CAUSES_OF_BOR, Cause

MPUIPC0 = 0x05AA
MPUIPSEGB2 = 0x05AC
MPUIPSEGB1 = 0x05AE

RESET_BIT = 0x0020  # VS
ENABLE_BIT = 0x0040
LOCK_BIT = 0x0080
KEPT_BITS = {MPUIPC0: RESET_BIT | ENABLE_BIT | LOCK_BIT, MPUIPSEGB2: 0xFFC0, MPUIPSEGB1: 0xFFC0}

BYTES_OF_A_BORDER = 16  # the register times this is the address
NEVER_INSIDE = range(0xFF80, 0x10000)  # signatures and vectors
BYTES_WITHOUT_DATA = 8  # instructions so near to the first border read and write nothing inside


@dataclass(frozen=True)
class Borders:
    """What a boot installs: MPUIPC0, MPUIPSEGB2 and MPUIPSEGB1."""

    control: int = 0
    second: int = 0
    first: int = 0


class Encapsulation:
    addresses = tuple(KEPT_BITS)

    def __init__(self, latch: Latch):
        self.latch = latch
        self.kept = NO_SEAL  # stands until a boot ends or LOCK is set, without power too
        self.reset(Cause.POWER_ON)

    def reset(self, cause: Cause) -> None:
        if cause in CAUSES_OF_BOR:
            self.registers = dict.fromkeys(KEPT_BITS, 0)

    # Registers

    def read(self, address: int) -> int:
        return self.registers[address]

    def write(self, address: int, value: int, mask: int) -> None:
        if self.latch.is_open and not self.locked():
            word = merged(self.registers[address], value, mask)
            self.registers[address] = word & KEPT_BITS[address]
            if self.locked() and self.enabled():
                self.kept = self.seal()

    def install(self, borders: Borders) -> None:
        """What the end of a boot does. No latch or lock is asked."""
        self.registers = {MPUIPC0: borders.control, MPUIPSEGB2: borders.second,
                          MPUIPSEGB1: borders.first}
        self.kept = self.seal()

    def control(self) -> int:
        return self.registers[MPUIPC0]

    def enabled(self) -> bool:
        return self.registers[MPUIPC0] & ENABLE_BIT != 0

    def locked(self) -> bool:
        return self.registers[MPUIPC0] & LOCK_BIT != 0

    def resets(self) -> bool:
        """Whether a violation asks for a reset."""
        return self.registers[MPUIPC0] & RESET_BIT != 0

    # The area

    def first_border(self) -> int:
        return self.registers[MPUIPSEGB1] * BYTES_OF_A_BORDER

    def second_border(self) -> int:
        return self.registers[MPUIPSEGB2] * BYTES_OF_A_BORDER

    def holds(self, address: int) -> bool:
        """Whether an address lies in the area."""
        if not self.enabled() or address in NEVER_INSIDE:
            return False
        if region_of(address) is not Region.MAIN:
            return False
        return self.first_border() <= address < self.second_border()

    def seals(self, address: int) -> bool:
        """Whether an address lies in the seal, which is the area where LOCK is set."""
        return self.locked() and self.holds(address)

    def seal(self) -> Seal:
        """All that is sealed."""
        return seal_between(self.first_border(), self.second_border(), self.seals)

    # Rights

    def refuses(self, address: int, right: Right, instruction: int | None) -> bool:
        """`instruction` is where that of the processor begins. Other agents have none."""
        if not self.holds(address):
            return False
        if instruction is None or not self.holds(instruction):
            return True
        if right is Right.FETCH:
            return False
        return instruction < self.first_border() + BYTES_WITHOUT_DATA
