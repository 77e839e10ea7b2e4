"""The watchdog: WDTCTL, its counter and its interval (MACHINE.md, The watchdog)."""

from collections.abc import Callable

from clocks import Edges
from registers_of_units import HIGH_HALF, WORD
from system import Cause

WDTCTL = 0x015C
PASSWORD = 0x5A00
READ_PASSWORD = 0x6900

HOLD_BIT = 0x0080
SOURCE_BITS = 0x0060
INTERVAL_TIMER_BIT = 0x0010
CLEAR_BIT = 0x0008
INTERVAL_BITS = 0x0007
KEPT_BITS = HOLD_BIT | SOURCE_BITS | INTERVAL_TIMER_BIT | INTERVAL_BITS

CONTROL_AFTER_RESET = 0x0004
EXPONENTS = (31, 27, 23, 19, 15, 13, 9, 6)


class Watchdog:
    addresses = (WDTCTL,)

    def __init__(self, request: Callable[[Cause], None], set_flag: Callable[[], None]):
        self.request = request
        self.set_flag = set_flag
        self.reset()

    def reset(self) -> None:
        self.control = CONTROL_AFTER_RESET
        self.counter = 0

    def read(self, address: int) -> int:
        return READ_PASSWORD | self.control

    def write(self, address: int, value: int, mask: int) -> None:
        if mask != WORD or value & HIGH_HALF != PASSWORD:
            self.request(Cause.WATCHDOG_PASSWORD)
            return
        self.control = value & KEPT_BITS
        if value & CLEAR_BIT:
            self.counter = 0

    def interval(self) -> int:
        return 1 << EXPONENTS[self.control & INTERVAL_BITS]

    def take(self, edges: Edges) -> bool:
        """Takes the edges of a tick, and says whether an interval ended."""
        if self.control & HOLD_BIT:
            return False
        if not (edges.aclk if self.control & SOURCE_BITS else edges.smclk):
            return False
        self.counter += 1
        if self.counter < self.interval():
            return False
        self.counter = 0
        self.set_flag()
        if not self.control & INTERVAL_TIMER_BIT:
            self.request(Cause.WATCHDOG_INTERVAL)
        return True
