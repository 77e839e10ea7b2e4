"""The timers TA0, TA1 and TB0, of one kind but for the count of their compare registers."""

from collections import Counter
from collections.abc import Callable
from enum import IntEnum

from clocks import Edges
from registers_of_units import WORD, merged

BLOCK_SIZE = 0x30

CTL = 0x00
FIRST_CCTL = 0x02
R = 0x10
FIRST_CCR = 0x12
EX0 = 0x20
IV = 0x2E

MODE_SHIFT = 4
DIVIDER_SHIFT = 6
SOURCE_SHIFT = 8
CLEAR_BIT = 0x0004
ENABLE_BIT = 0x0002
FLAG_BIT = 0x0001
CONTROL_BITS = 0x03F3  # CLR isn't kept
EXPANSION_BITS = 0x0007

COMPARE_ENABLE_BIT = 0x0010
COMPARE_FLAG_BIT = 0x0001

ACLK = 1
SMCLK = 2
IV_OF_OVERFLOW = 0x0E

Trigger = Callable[[str, int], None]  # gets a timer's name and the n of a CCRn


class Mode(IntEnum):
    STOPPED = 0
    UP = 1
    CONTINUOUS = 2
    UP_DOWN = 3


class Timer:
    def __init__(
        self, name: str, base: int, compares: int, statistics: Counter, trigger: Trigger
    ):
        self.name = name
        self.trigger = trigger
        self.base = base
        self.compares = compares
        self.statistics = statistics
        self.addresses = range(base, base + BLOCK_SIZE, 2)
        self.reset()

    def reset(self) -> None:
        self.control = 0
        self.count = 0
        self.expansion = 0
        self.compare_controls = [0] * self.compares
        self.compare_values = [0] * self.compares
        self.prescaler = 0
        self.upward = True

    # Registers

    def read(self, address: int) -> int:
        distance = address - self.base
        if distance == CTL:
            return self.control
        if distance == R:
            return self.count
        if distance == EX0:
            return self.expansion
        if distance == IV:
            return self.take_interrupt_number()
        bank, index = self.compare_register(distance)
        return bank[index] if bank else 0

    def write(self, address: int, value: int, mask: int) -> None:
        distance = address - self.base
        if distance == CTL:
            self.write_control(value, mask)
        elif distance == R:
            self.count = merged(self.count, value, mask)
        elif distance == EX0:
            self.expansion = merged(self.expansion, value, mask) & EXPANSION_BITS
        elif distance == IV:
            self.take_interrupt_number()
        else:
            bank, index = self.compare_register(distance)
            if bank:
                bank[index] = merged(bank[index], value, mask)

    def compare_register(self, distance: int) -> tuple[list[int] | None, int]:
        """The list of CCTLn or of CCRn that a distance lies in, and its n."""
        for bank, first in ((self.compare_controls, FIRST_CCTL), (self.compare_values, FIRST_CCR)):
            index = (distance - first) // 2
            if 0 <= index < self.compares:
                return bank, index
        return None, 0

    def write_control(self, value: int, mask: int) -> None:
        self.control = merged(self.control, value, mask) & CONTROL_BITS
        if value & mask & CLEAR_BIT:
            self.count = 0
            self.prescaler = 0
            self.upward = True

    # Interrupts

    def interrupt_number(self) -> int:
        both = COMPARE_ENABLE_BIT | COMPARE_FLAG_BIT
        for index in range(1, self.compares):
            if self.compare_controls[index] & both == both:
                return 2 * index
        both = ENABLE_BIT | FLAG_BIT
        return IV_OF_OVERFLOW if self.control & both == both else 0

    def take_interrupt_number(self) -> int:
        number = self.interrupt_number()
        if number == IV_OF_OVERFLOW:
            self.control &= ~FLAG_BIT
        elif number:
            self.compare_controls[number // 2] &= ~COMPARE_FLAG_BIT
        return number

    def first_line(self) -> bool:
        both = COMPARE_ENABLE_BIT | COMPARE_FLAG_BIT
        return self.compare_controls[0] & both == both

    def clear_first_flag(self) -> None:
        self.compare_controls[0] &= ~COMPARE_FLAG_BIT

    def other_line(self) -> bool:
        return self.interrupt_number() != 0

    # Counting

    def mode(self) -> Mode:
        return Mode(self.control >> MODE_SHIFT & 3)

    def divisor(self) -> int:
        return (1 << (self.control >> DIVIDER_SHIFT & 3)) * (self.expansion + 1)

    def take(self, edges: Edges) -> None:
        if self.control >> MODE_SHIFT & 3 == Mode.STOPPED:
            return
        source = self.control >> SOURCE_SHIFT & 3
        if not (source == ACLK and edges.aclk or source == SMCLK and edges.smclk):
            return
        self.prescaler += 1
        if self.prescaler >= self.divisor():
            self.prescaler = 0
            self.step()

    def step(self) -> None:
        mode = self.mode()
        limit = self.compare_values[0]
        self.tell(f"step of {mode.name}")
        if mode is Mode.CONTINUOUS:
            self.step_up_to(WORD)
        elif limit == 0:
            self.tell(f"step of {mode.name} with CCR0 of 0")
            return
        elif mode is Mode.UP:
            self.step_up_to(limit)
        elif self.upward:
            self.step_upward(limit)
        else:
            self.step_downward()
        self.compare()

    def step_up_to(self, limit: int) -> None:
        if self.count < limit:
            self.count += 1
        else:
            self.count = 0
            self.overflow()

    def step_upward(self, limit: int) -> None:
        if self.count < limit:
            self.count += 1
        else:
            self.count -= 1
            self.upward = False

    def step_downward(self) -> None:
        if self.count > 1:
            self.count -= 1
        else:
            self.count = 0
            self.upward = True
            self.overflow()

    def overflow(self) -> None:
        self.control |= FLAG_BIT
        self.tell("IFG set")

    def compare(self) -> None:
        for index, value in enumerate(self.compare_values):
            if value == self.count:
                self.compare_controls[index] |= COMPARE_FLAG_BIT
                self.tell(f"CCIFG{index} set")
                self.trigger(self.name, index)

    def tell(self, what: str) -> None:
        self.statistics[f"timer {self.name}: {what}"] += 1


def three_timers(statistics: Counter, trigger: Trigger) -> tuple[Timer, Timer, Timer]:
    """TA0, TA1 and TB0, in the order in which they take the edges of a tick."""
    return (
        Timer("TA0", 0x0340, 3, statistics, trigger),
        Timer("TA1", 0x0380, 3, statistics, trigger),
        Timer("TB0", 0x03C0, 7, statistics, trigger),
    )
