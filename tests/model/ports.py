"""The ports P1 to P4, their pins and their flags (MACHINE.md, Ports).

Two ports share one block of addresses, and each word register but IV holds both: bits 7:0 are those
of the odd-numbered port, and bits 15:8 those of the even-numbered one.
"""

from dataclasses import dataclass

from registers_of_units import merged

BLOCK_SIZE = 0x20

IN = 0x00
OUT = 0x02
DIR = 0x04
REN = 0x06
SEL0 = 0x0A
SEL1 = 0x0C
IV_OF_ODD = 0x0E
SELC = 0x16
IES = 0x18
IE = 0x1A
IFG = 0x1C
IV_OF_EVEN = 0x1E

STORED = (OUT, DIR, REN, SEL0, SEL1, SELC, IES, IE, IFG)
SHIFT_OF_PORT = {IV_OF_ODD: 0, IV_OF_EVEN: 8}


@dataclass(frozen=True)
class Levels:
    """What the chip drives on the pins of one port: which of them it drives, and how."""

    driven: int
    high: int


class PortPair:
    def __init__(self, base: int):
        self.addresses = range(base, base + BLOCK_SIZE, 2)
        self.base = base
        self.external = 0
        self.reset()

    def reset(self) -> None:
        self.stored = dict.fromkeys(STORED, 0)

    def inputs(self, locked: bool) -> int:
        if locked:
            return self.external
        direction = self.stored[DIR]
        return self.stored[OUT] & direction | self.external & ~direction

    def set_external(self, bit: int, level: int, locked: bool) -> None:
        """One event: `bit` counts over both ports, 0 to 15."""
        pin = 1 << bit
        before = self.inputs(locked) & pin
        self.external = self.external & ~pin | level << bit
        after = self.inputs(locked) & pin
        if before == after or locked:
            return
        wants_fall = self.stored[IES] & pin != 0
        if wants_fall == (after == 0):
            self.stored[IFG] |= pin

    def interrupt_number(self, shift: int) -> int:
        """What IV reads: 2 for pin 0, up to 16 for pin 7, and 0 where no pin has a say."""
        pending = (self.stored[IFG] & self.stored[IE]) >> shift & 0xFF
        for pin in range(8):
            if pending >> pin & 1:
                return 2 * (pin + 1)
        return 0

    def take_interrupt_number(self, shift: int) -> int:
        number = self.interrupt_number(shift)
        if number:
            self.stored[IFG] &= ~(1 << shift + number // 2 - 1)
        return number

    def read(self, address: int, locked: bool) -> int:
        distance = address - self.base
        if distance == IN:
            return self.inputs(locked)
        if distance in SHIFT_OF_PORT:
            return self.take_interrupt_number(SHIFT_OF_PORT[distance])
        return self.stored.get(distance, 0)

    def write(self, address: int, value: int, mask: int) -> None:
        distance = address - self.base
        if distance in SHIFT_OF_PORT:
            self.take_interrupt_number(SHIFT_OF_PORT[distance])
        elif distance in self.stored:
            self.stored[distance] = merged(self.stored[distance], value, mask)

    def levels(self, shift: int, locked: bool) -> Levels:
        if locked:
            return Levels(driven=0, high=0)
        driven = self.stored[DIR] >> shift & 0xFF
        return Levels(driven, high=self.stored[OUT] >> shift & driven)


@dataclass(frozen=True)
class Pin:
    port: int  # 1 to 4
    bit: int  # 0 to 7

    def name(self) -> str:
        return f"P{self.port}.{self.bit}"


class Ports:
    """Both pairs. The lock is a register of another unit, which says how it stands."""

    def __init__(self, is_locked):
        self.is_locked = is_locked
        self.pairs = (PortPair(0x0200), PortPair(0x0220))
        self.addresses = (*self.pairs[0].addresses, *self.pairs[1].addresses)

    def reset(self) -> None:
        for pair in self.pairs:
            pair.reset()

    def pair_of_address(self, address: int) -> PortPair:
        return self.pairs[0] if address in self.pairs[0].addresses else self.pairs[1]

    def pair_and_shift(self, port: int) -> tuple[PortPair, int]:
        return self.pairs[(port - 1) // 2], 8 * ((port - 1) % 2)

    def read(self, address: int) -> int:
        return self.pair_of_address(address).read(address, self.is_locked())

    def write(self, address: int, value: int, mask: int) -> None:
        self.pair_of_address(address).write(address, value, mask)

    def drive_from_outside(self, pin: Pin, level: int) -> None:
        pair, shift = self.pair_and_shift(pin.port)
        pair.set_external(shift + pin.bit, level, self.is_locked())

    def line(self, port: int) -> bool:
        pair, shift = self.pair_and_shift(port)
        return pair.interrupt_number(shift) != 0

    def what_drives(self) -> tuple:
        """All that the levels depend on. It is compared in each tick, so it has to be short."""
        first, second = self.pairs[0].stored, self.pairs[1].stored
        return self.is_locked(), first[OUT], first[DIR], second[OUT], second[DIR]

    def levels(self) -> tuple[Levels, ...]:
        locked = self.is_locked()
        answers = []
        for port in range(1, 5):
            pair, shift = self.pair_and_shift(port)
            answers.append(pair.levels(shift, locked))
        return tuple(answers)
