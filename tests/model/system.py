"""The registers of SFR, PMM, PM5CTL0, CS and SYS, and the causes of resets (MACHINE.md, Resets)."""

from collections.abc import Callable
from enum import IntEnum

from registers_of_units import HIGH_HALF, WORD, merged


class Cause(IntEnum):
    POWER_ON = 0x02
    DEBUG_RESET = 0x04
    SOFTWARE_BOR = 0x06
    SOFTWARE_POR = 0x14
    WATCHDOG_INTERVAL = 0x16
    WATCHDOG_PASSWORD = 0x18
    FRAM_PASSWORD = 0x1A
    PERIPHERAL_FETCH = 0x1E
    POWER_PASSWORD = 0x20
    PROTECTION_PASSWORD = 0x22
    ENCAPSULATION_VIOLATION = 0x26
    INFORMATION_VIOLATION = 0x28
    SEGMENT_1_VIOLATION = 0x2A
    SEGMENT_2_VIOLATION = 0x2C
    SEGMENT_3_VIOLATION = 0x2E
    RESERVED_WORD = 0x40


CAUSES_OF_BOR = (Cause.POWER_ON, Cause.DEBUG_RESET, Cause.SOFTWARE_BOR)

SFRIE1 = 0x0100
SFRIFG1 = 0x0102
PMMCTL0 = 0x0120
PM5CTL0 = 0x0130
CLOCK_CONTROLS = range(0x0160, 0x016E, 2)
SYSCTL = 0x0180
SYSSNIV = 0x019C
SYSRSTIV = 0x019E

PLAIN_REGISTERS = (SFRIE1, SFRIFG1, *CLOCK_CONTROLS, SYSCTL)

WATCHDOG_BIT = 0x0001  # WDTIE of SFRIE1 and WDTIFG of SFRIFG1
PASSWORD = 0xA500
READ_PASSWORD = 0x9600
SOFTWARE_BOR_BIT = 0x0004
SOFTWARE_POR_BIT = 0x0008
LOCK_BIT = 0x0001


class System:
    addresses = (*PLAIN_REGISTERS, PMMCTL0, PM5CTL0, SYSRSTIV)

    def __init__(self, request: Callable[[Cause], None]):
        self.request = request
        self.plain = dict.fromkeys(PLAIN_REGISTERS, 0)
        self.locked = True
        self.power_latch_open = False
        self.reset_cause = 0

    def reset(self, cause: Cause) -> None:
        self.plain = dict.fromkeys(PLAIN_REGISTERS, 0)
        self.power_latch_open = False
        self.reset_cause = int(cause)
        if cause in CAUSES_OF_BOR:
            self.locked = True

    def read(self, address: int) -> int:
        if address == PMMCTL0:
            return READ_PASSWORD
        if address == PM5CTL0:
            return LOCK_BIT if self.locked else 0
        if address == SYSRSTIV:
            cause = self.reset_cause
            self.reset_cause = 0
            return cause
        return self.plain[address]

    def write(self, address: int, value: int, mask: int) -> None:
        if address == PMMCTL0:
            self.write_power_control(value, mask)
        elif address == PM5CTL0:
            lock = LOCK_BIT if self.locked else 0
            self.locked = merged(lock, value, mask) & LOCK_BIT != 0
        elif address == SYSRSTIV:
            self.reset_cause = 0
        elif address in self.plain:
            self.plain[address] = merged(self.plain[address], value, mask)

    def write_power_control(self, value: int, mask: int) -> None:
        right = value & HIGH_HALF == PASSWORD
        if mask == WORD:
            if right:
                self.power_latch_open = True
                self.take_power_bits(value)
            else:
                self.request(Cause.POWER_PASSWORD)
        elif mask == HIGH_HALF:
            self.power_latch_open = right
        elif self.power_latch_open:
            self.take_power_bits(value)

    def take_power_bits(self, value: int) -> None:
        if value & SOFTWARE_BOR_BIT:
            self.request(Cause.SOFTWARE_BOR)
        elif value & SOFTWARE_POR_BIT:
            self.request(Cause.SOFTWARE_POR)

    def set_watchdog_flag(self) -> None:
        self.plain[SFRIFG1] |= WATCHDOG_BIT

    def clear_watchdog_flag(self) -> None:
        self.plain[SFRIFG1] &= ~WATCHDOG_BIT

    def watchdog_line(self) -> bool:
        return self.plain[SFRIE1] & self.plain[SFRIFG1] & WATCHDOG_BIT != 0
