"""Makes random instructions for test programs: docs/INSTRUCTIONS.md, First words and Operands.

It makes words and doesn't decide where they stand. It shares no table with decode.py, so a slip
in one of them shows as a difference between them.
"""

from collections.abc import Mapping, Sequence
from dataclasses import dataclass, field

INTERESTING_VALUES = (
    0x00000, 0x00001, 0x00002, 0x0007F, 0x00080, 0x000FF, 0x07FFF, 0x08000, 0x0FFFF,
    0x10000, 0x7FFFF, 0x80000, 0xFFFFE, 0xFFFFF, 0x00099, 0x09999, 0x99999, 0x0ABCD,
)

# How often each family of instructions is made.
WEIGHTS = {
    "two_operands": 30,
    "extended_two_operands": 22,
    "one_operand": 10,
    "extended_one_operand": 9,
    "jump": 8,
    "move_address": 9,
    "address_arithmetic": 5,
    "shift": 4,
    "several_registers": 5,
    "call": 2,
    "call_address": 2,
    "return_from_interrupt": 0.3,
    "reserved": 0.5,
    "wild": 0.5,
}


@dataclass(frozen=True)
class Knobs:
    """What a caller prefers; shares are from 0 to 1."""

    # The share of registers that are R4 to R15; the others are any of the 16.
    working_registers: float = 0.93
    # Where addresses, and indexes with them, point: pairs of the first and the last address.
    ranges: Sequence[tuple[int, int]] = ()
    # The share of addresses that do so.
    in_ranges: float = 0.95
    # Where CALL, CALLA and branches with an immediate go; without any, to `ranges`.
    code_ranges: Sequence[tuple[int, int]] = ()
    # What registers hold where the instruction runs, as far as it is known. R0 is its address.
    # A register that isn't named gets a short index instead of one that leads into a range.
    expected: Mapping[int, int] = field(default_factory=dict)
    # The longest index on a register whose value isn't known, forward or backward.
    longest_index: int = 16
    # The longest jump forward, in words, and the share of jumps that go back as far.
    longest_jump: int = 8
    backward_jumps: float = 0.03
    # Weights of families that differ from WEIGHTS.
    weights: Mapping[str, float] = field(default_factory=dict)


def random_instruction(rng, **knobs):
    """The 1 to 4 words of an instruction. The knobs are the fields of Knobs."""
    return InstructionMaker(rng, Knobs(**knobs)).instruction()


class InstructionMaker:
    """Makes many instructions with the same knobs, which is faster than random_instruction."""

    def __init__(self, rng, knobs):
        self.rng = rng
        self.knobs = knobs
        weights = {**WEIGHTS, **knobs.weights}
        self.families = [getattr(self, family) for family in weights]
        self.weights = list(weights.values())

    def instruction(self):
        family, = self.rng.choices(self.families, self.weights)
        return family()

    # Parts of instructions

    def bits(self, number):
        return self.rng.getrandbits(number)

    def chance(self, share):
        return self.rng.random() < share

    def register(self):
        if self.chance(self.knobs.working_registers):
            return self.rng.randint(4, 15)
        return self.bits(4)

    def address(self, width=20, ranges=None):
        """An address of 16 or 20 bits, mostly within the ranges, and mostly even."""
        ranges = ranges or self.knobs.ranges
        limit = 1 << width
        reachable = [(first, last) for first, last in ranges if first < limit]
        if not reachable or not self.chance(self.knobs.in_ranges):
            return self.bits(width)
        first, last = self.rng.choice(reachable)
        last = min(last, limit - 1)
        address = self.rng.choice((first, last, self.rng.randint(first, last)))
        return address & ~1 if self.chance(0.7) else address

    def value(self, width=20):
        """An immediate: often an address, which a later instruction may use."""
        kind = self.rng.randrange(4)
        if kind == 0:
            return self.address(width)
        if kind == 1:
            return self.rng.choice(INTERESTING_VALUES) & (1 << width) - 1
        if kind == 2:
            return self.bits(5)
        return self.bits(width)

    def code_target(self, width=20):
        return self.address(width, self.knobs.code_ranges)

    def index(self, register, word_number, width):
        """An index of 16 or 20 bits on a register, in the word of that number from 0."""
        base = self.expected_base(register, word_number)
        if base is None:
            longest = self.knobs.longest_index
            index = self.rng.randint(-longest, longest)
        else:
            index = self.address(16 if width == 16 and base < 0x10000 else 20) - base
        return index & (1 << width) - 1

    def signed_index(self, register):
        """The index of 16 bits with a sign of MOVA and CALLA, which doesn't wrap at 64 KB."""
        base = self.expected_base(register, 1)
        if base is not None:
            for _ in range(8):
                index = self.address() - base
                if -0x8000 <= index < 0x8000:
                    return index & 0xFFFF
        longest = self.knobs.longest_index
        return self.rng.randint(-longest, longest) & 0xFFFF

    def expected_base(self, register, word_number):
        if register == 3:
            return 0
        base = self.knobs.expected.get(register)
        if base is not None and register == 0:
            base = base + 2 * word_number & 0xFFFFF
        return base

    def source_value(self, as_bits, register, word_number, width):
        """What a source's word and its higher bits say, or None where it has no word."""
        if as_bits == 1 and register == 2:
            return self.address(width)
        if as_bits == 1 and register != 3:
            return self.index(register, word_number, width)
        if as_bits == 3 and register == 0:
            return self.value(width)
        return None

    def source(self):
        """As and a register, with more immediates, constants and addresses than by chance."""
        chosen = self.rng.random()
        if chosen < 0.12:
            return 3, 0
        if chosen < 0.22:
            return 1, 2
        if chosen < 0.32:
            return self.bits(2), self.rng.choice((2, 3))
        if chosen < 0.34:
            return self.bits(2), self.bits(4)
        return self.bits(2), self.register()

    def destination(self):
        """Ad and a register, with more absolute addresses than by chance."""
        if self.chance(0.12):
            return 1, 2
        return self.bits(1), self.register()

    def destination_value(self, ad_bit, register, word_number, width):
        if ad_bit == 0:
            return None
        if register == 2:
            return self.address(width)
        return self.index(register, word_number, width)

    # Families without an extension word

    def two_operands(self):
        as_bits, source = self.source()
        ad_bit, destination = self.destination()
        word = (
            self.rng.randint(4, 15) << 12 | source << 8 | ad_bit << 7 | self.bits(1) << 6
            | as_bits << 4 | destination
        )
        words = [word]
        value = self.source_value(as_bits, source, 1, 16)
        if value is not None:
            words.append(value)
        value = self.destination_value(ad_bit, destination, len(words), 16)
        if value is not None:
            words.append(value)
        return words

    def one_operand_word(self, operation, byte):
        """As, a register, and an instruction word that isn't reserved."""
        while True:
            as_bits, register = self.source()
            written = operation < 4
            constant = register == 3 or (register == 2 and as_bits >= 2)
            if not written or not (constant or (register == 0 and as_bits == 3)):
                word = 0x1000 | operation << 7 | byte << 6 | as_bits << 4 | register
                return as_bits, register, word

    def one_operand(self):
        """RRC, SWPB, RRA, SXT and PUSH."""
        operation = self.rng.randrange(5)
        byte = self.bits(1) if operation in (0, 2, 4) else 0
        as_bits, register, word = self.one_operand_word(operation, byte)
        value = self.source_value(as_bits, register, 1, 16)
        return [word] if value is None else [word, value]

    def call(self):
        if self.chance(0.7):
            return [0x12B0, self.code_target(16)]
        as_bits, register, word = self.one_operand_word(5, 0)
        value = self.source_value(as_bits, register, 1, 16)
        return [word] if value is None else [word, value]

    def jump(self):
        longest = self.knobs.longest_jump
        if self.chance(self.knobs.backward_jumps):
            distance = self.rng.randint(-longest - 1, -1)
        else:
            distance = self.rng.randint(0, longest)
        return [0x2000 | self.bits(3) << 10 | distance & 0x3FF]

    def return_from_interrupt(self):
        return [0x1300]

    # Families of addresses and of several registers

    def move_address(self):
        selector = self.rng.choice((0, 1, 2, 3, 6, 7, 8, 12))
        source, destination = self.register(), self.register()
        value = None
        if selector in (2, 6):
            value = self.address()
        elif selector in (3, 7):
            value = self.signed_index(source if selector == 3 else destination)
        elif selector == 8:
            value = self.code_target() if destination == 0 else self.value()
        if selector in (2, 8):
            source = value >> 16
        if selector == 6:
            destination = value >> 16
        word = source << 8 | selector << 4 | destination
        return [word] if value is None else [word, value & 0xFFFF]

    def address_arithmetic(self):
        selector = self.rng.choice((9, 10, 11, 13, 14, 15))
        if selector >= 12:
            return [self.register() << 8 | selector << 4 | self.register()]
        value = self.value()
        return [value >> 16 << 8 | selector << 4 | self.register(), value & 0xFFFF]

    def shift(self):
        return [self.bits(4) << 8 | (4 | self.bits(1)) << 4 | self.register()]

    def several_registers(self):
        """PUSHM or POPM, where it can be from working registers alone."""
        pops = self.bits(1)
        register = self.register()
        if register >= 4 and self.chance(self.knobs.working_registers):
            longest = 16 - register if pops else register - 3
        else:
            longest = 16
        count = self.rng.randint(1, longest)
        return [0x1400 | pops << 9 | self.bits(1) << 8 | count - 1 << 4 | register]

    def call_address(self):
        if self.chance(0.6):
            target = self.code_target()
            return [0x13B0 | target >> 16, target & 0xFFFF]
        selector = self.rng.choice((4, 5, 6, 7, 8, 9))
        low, value = self.register(), None
        if selector == 5:
            value = self.signed_index(low)
        elif selector in (8, 9):
            value = self.address() if selector == 8 else self.index(0, 1, 20)
            low = value >> 16
        word = 0x1300 | selector << 4 | low
        return [word] if value is None else [word, value & 0xFFFF]

    # Families behind an extension word

    def extension_word(self, named_bits, is_address_size):
        """An extension word; bits that its form doesn't name may be anything."""
        ignored = self.bits(11) if self.chance(0.3) else 0
        return 0x1800 | ignored & 0x030 | named_bits | (0 if is_address_size else 0x40)

    def repeat_bits(self):
        """ZC, # and the count or its register."""
        if self.chance(0.25):
            low = 0
        elif self.chance(0.5):
            low = self.rng.randrange(4)
        else:
            low = self.bits(4)
        by_register = self.chance(0.3)
        if by_register:
            low = self.register()
        ignored = self.bits(2) << 9 if self.chance(0.3) else 0
        return ignored | self.bits(1) << 8 | by_register << 7 | low

    def width_bits(self):
        """Whether the width is 20 bits, and B/W."""
        return self.rng.choice(((True, 1), (True, 1), (False, 0), (False, 1)))

    def extended_two_operands(self):
        is_address_size, byte = self.width_bits()
        as_bits, source = self.source()
        ad_bit, destination = self.destination()
        if self.chance(0.35):
            as_bits, ad_bit = 0, 0
        word = (
            self.rng.randint(4, 15) << 12 | source << 8 | ad_bit << 7 | byte << 6
            | as_bits << 4 | destination
        )
        if as_bits == 0 and ad_bit == 0:
            return [self.extension_word(self.repeat_bits(), is_address_size), word]
        operand_words = []
        named_bits = self.bits(4) << 7 | self.bits(4) if self.chance(0.3) else 0
        value = self.source_value(as_bits, source, 2, 20)
        if value is not None:
            named_bits = named_bits & ~0x780 | value >> 16 << 7
            operand_words.append(value & 0xFFFF)
        value = self.destination_value(ad_bit, destination, 2 + len(operand_words), 20)
        if value is not None:
            named_bits = named_bits & ~0x00F | value >> 16
            operand_words.append(value & 0xFFFF)
        return [self.extension_word(named_bits, is_address_size), word] + operand_words

    def extended_one_operand(self):
        operation = self.rng.randrange(5)
        is_address_size, byte = self.width_bits()
        if operation in (1, 3):
            is_address_size, byte = False, 0
        as_bits, register, word = self.one_operand_word(operation, byte)
        if as_bits == 0:
            return [self.extension_word(self.repeat_bits(), is_address_size), word]
        named_bits = self.bits(4) << 7 if self.chance(0.3) else 0
        value = self.source_value(as_bits, register, 2, 20)
        if value is None:
            named_bits |= self.bits(4) if self.chance(0.3) else 0
            return [self.extension_word(named_bits, is_address_size), word]
        named_bits |= value >> 16
        return [self.extension_word(named_bits, is_address_size), word, value & 0xFFFF]

    # Words that are reserved, or anything

    def reserved(self):
        return self.rng.choice((
            self.unassigned, self.bytes_without, self.constant_written, self.not_extended,
            self.reserved_without, self.no_width, self.one_width,
        ))()

    def unassigned(self):
        first, last = self.rng.choice(((0x1301, 0x133F), (0x13A0, 0x13AF), (0x13C0, 0x13FF)))
        return [self.rng.randint(first, last)]

    def bytes_without(self):
        """SWPB, SXT or CALL of a byte."""
        return [0x1040 | self.rng.choice((1, 3, 5)) << 7 | self.bits(6)]

    def constant_written(self):
        """RRC, SWPB, RRA or SXT on an immediate or a constant."""
        mode = self.rng.choice((0x30, 0x22, 0x32, 0x03 | self.bits(2) << 4))
        return [0x1000 | self.rng.randrange(4) << 7 | mode]

    def not_extended(self):
        second = self.rng.choice((
            self.bits(12), 0x1280 | self.bits(6), 0x1300 | self.bits(8), 0x1400 | self.bits(10),
            0x1800 | self.bits(11), 0x2000 | self.bits(13),
        ))
        return [0x1800 | self.bits(11), second]

    def reserved_without(self):
        return [0x1800 | self.bits(11), self.rng.choice((
            self.unassigned, self.bytes_without, self.constant_written,
        ))()[0]]

    def no_width(self):
        return [0x1800 | self.bits(11) & ~0x40, self.two_operands()[0] & ~0x40]

    def one_width(self):
        """SWPB or SXT of 20 bits or of bytes."""
        operation = self.rng.choice((1, 3))
        return [0x1800 | self.bits(11), self.one_operand_word(operation, 1)[2]]

    def wild(self):
        return [self.bits(16) for _ in range(self.rng.randint(1, 4))]
