"""Pairs whose runs differ first in one item, while all else of the tick is the same.

Few pairs do so by chance: most items come with another one, or with a way out at another tick.
"""

import random
from collections.abc import Callable
from dataclasses import dataclass, field

import actions
import assembler
import protection_actions
import structures
from assembler import absolute, immediate, indirect, register, two
from bench import Bench, Event
from debug import Reset, WriteWord
from encapsulation_actions import ENA, LOCK
from image import Segment
from layout import words_as_bytes
from memory import ADDRESS_MASK
from protection_actions import GRAIN, PASSWORD

START = 0x4400
BEHIND = 0x4480  # code outside, for those that come back
STRUCTURE = 0x10  # behind the first border
DOOR = 0x40
OTHER_DOOR = 0x80
DATA = 0x200
END_OF_A_RUN = 200

PC, SP, SR = assembler.PC, assembler.SP, assembler.SR
STAY = 0x3FFF
CALL_BY_VECTOR = 0x1292
WATCHDOG_VECTOR = 0xFFF2
RESET_VECTOR = 0xFFFE
PORT, DIRECTION = 0x0202, 0x0204
WITHOUT_WRITES = 0x5555  # of MPUSAM


@dataclass
class Two:
    """The words of both images by their addresses. Where `other` has none they are the same."""

    first: int  # the borders
    end: int
    structure: int
    words: dict[int, list[int]] = field(default_factory=dict)
    other: dict[int, list[int]] = field(default_factory=dict)

    def put(self, at: int, *parts: list[int]) -> None:
        self.words[at] = [word for part in parts for word in part]

    def put_other(self, at: int, words: list[int]) -> None:
        self.other[at] = words

    def segments(self) -> list[Segment]:
        return [Segment(at, words_as_bytes(words)) for at, words in self.words.items()]

    def changes(self) -> list[Segment]:
        return [Segment(at, words_as_bytes(words)) for at, words in self.other.items()]


def words_of_structure(first: int, end: int) -> list[int]:
    words = [ENA | LOCK, end >> 4, first >> 4]
    return [*words, structures.right_check(words)]


def begin(rng: random.Random, structure_is_inside: bool = True) -> Two:
    """A seal of one KB or two with its structure, and a start that goes to the door."""
    first = rng.randrange(0x4C00, 0xF000, GRAIN)
    end = first + GRAIN * rng.choice((1, 2))
    structure = first + STRUCTURE if structure_is_inside else 0x1800
    pair = Two(first, end, structure)
    pair.put(structure, words_of_structure(first, end))
    pair.put(structures.SIGNATURE_ADDRESS,
             [structures.SIGNATURE, structure // structures.GRAIN_OF_PLACES])
    pair.put(RESET_VECTOR, [START])
    pair.put(START, start(), assembler.set_register(PC, first + DOOR))
    pair.put(BEHIND, show(actions.SFRIFG1), show(actions.SYSRSTIV), [STAY])
    return pair


def start() -> list[int]:
    return [
        *assembler.store(actions.WDTCTL, 0x5A80), *assembler.store(actions.PM5CTL0, 0),
        *assembler.store(DIRECTION, 0xFFFF), *assembler.set_register(SP, 0x2400),
    ]


def show(address: int) -> list[int]:
    return assembler.copy(address, PORT)


def go_out() -> list[int]:
    return assembler.set_register(PC, BEHIND)


# Items

def entry(rng: random.Random) -> Two:
    """An entry, or a call by its vector from the first bytes, which clears no flag.

    With a wait for each access to FRAM both take as long. Both are refused to write their stack.
    """
    pair = begin(rng)
    first, stack = pair.first, pair.first + DATA
    ask = [*two("BIS", immediate(1), absolute(actions.SFRIE1)),
           *two("BIS", immediate(1), absolute(actions.SFRIFG1))]
    waits = assembler.store(protection_actions.FRCTL0, PASSWORD | 0x10)
    pair.put(START, start(), waits, ask, assembler.set_register(PC, first + DOOR))
    pair.put(first, [assembler.NOP, CALL_BY_VECTOR, WATCHDOG_VECTOR])
    pair.put(first + OTHER_DOOR, [assembler.ENABLE_INTERRUPTS, assembler.NOP])
    pair.put(first + DOOR, assembler.set_register(SP, stack),
             assembler.set_register(PC, first + OTHER_DOOR))
    pair.put_other(first + DOOR, [*assembler.set_register(SP, stack - 2),
                                  *assembler.set_register(PC, first)])
    pair.put(WATCHDOG_VECTOR, [BEHIND])
    return pair


def fetch(rng: random.Random) -> Two:
    """A number that lies behind the border, or a jump over it."""
    pair = begin(rng)
    number, value = rng.randrange(4, 16), rng.randrange(0x10000)
    pair.put(pair.first + DOOR, two("MOV", immediate(value), register(number)),
             assembler.set_register(PC, pair.end - 2))
    pair.put(pair.end - 2, two("MOV", immediate(value), register(number)), go_out())
    pair.put_other(pair.end - 2, [0x3C01])
    return pair


def flags(rng: random.Random) -> Two:
    """A write within the seal that a segment refuses, or a read that it allows."""
    pair = begin(rng)
    place = pair.first + DATA
    arm = [*assembler.store(protection_actions.MPUCTL0, PASSWORD | 1),
           *assembler.store(protection_actions.MPUSAM, WITHOUT_WRITES)]
    pair.put(pair.first + DOOR, arm, two("MOV", absolute(place), register(4)),
             two("MOV", register(3), register(4)), go_out())
    pair.put_other(pair.first + DOOR + 2 * len(arm), two("MOV", register(4), absolute(place)))
    pair.put(BEHIND, show(protection_actions.MPUCTL1), [STAY])
    return pair


def reset(rng: random.Random) -> Two:
    """A reserved word, or a way out to where a reset begins."""
    pair = begin(rng)
    last = pair.end - 2
    pair.put(RESET_VECTOR, [pair.end])
    pair.put(pair.end, start(), show(actions.SYSRSTIV), assembler.set_register(PC, last))
    pair.put(last, [assembler.RESERVED])
    pair.put_other(last, [assembler.NOP])
    return pair


def power(rng: random.Random) -> Two:
    """A clock stops a while, or doesn't."""
    pair = begin(rng)
    bit = rng.choice((0x20, 0x40, 0x80))
    pair.put(pair.first + DOOR, two("BIS", immediate(bit), register(SR)),
             [assembler.NOP] * rng.randrange(40),
             two("BIC", immediate(bit), register(SR)), go_out())
    pair.put_other(pair.first + DOOR, two("BIS", immediate(0), register(SR)))
    return pair


def exit_with_a_register(rng: random.Random) -> Two:
    pair = begin(rng)
    number = rng.choice((rng.randrange(4, 16), 15))
    value = rng.randrange(1 << 20)
    pair.put(pair.first + DOOR, assembler.set_register(number, value), go_out())
    pair.put_other(pair.first + DOOR,
                   assembler.set_register(number, value ^ 1 << rng.randrange(20)))
    return pair


def write(rng: random.Random) -> Two:
    """Two words, of which one alone differs, or a byte."""
    pair = begin(rng)
    value = rng.randrange(1 << 20)
    if rng.random() < 0.5:
        store = [0x0060 | 4 << 8, 0x1C90]  # MOVA R4, &1C90h
    else:
        store = two("MOV", register(4), absolute(PORT), as_byte=True)
    pair.put(pair.first + DOOR, assembler.set_register(4, value), store,
             two("MOV", register(3), register(4)), go_out())
    pair.put_other(pair.first + DOOR, assembler.set_register(4, value ^ 1 << rng.randrange(20)))
    return pair


def read(rng: random.Random) -> Two:
    """At one of two addresses, which hold the same; one of them is a register that it clears."""
    pair = begin(rng)
    places = rng.sample((0x1C90, 0x1C92, actions.SYSRSTIV), 2)
    load = two("MOV", indirect(5), register(4))
    pair.put(pair.first + DOOR, assembler.set_register(5, places[0]), load,
             two("MOV", register(3), register(4)), two("MOV", register(3), register(5)), go_out())
    pair.put_other(pair.first + DOOR, assembler.set_register(5, places[1]))
    return pair


def structure(rng: random.Random) -> Two:
    """Bits that no boot keeps, in two words, one of which may be the check."""
    pair = begin(rng)
    words = words_of_structure(pair.first, pair.end)
    bits = 1 << rng.randrange(4)
    for index in rng.sample(range(structures.WORDS), 2):
        words[index] ^= bits
    pair.put_other(pair.structure, words)
    return pair


def opened(rng: random.Random) -> Two:
    """The debugger moves a border, and a boot opens what is secret, or doesn't."""
    pair = begin(rng, structure_is_inside=False)
    pair.put(pair.first + DOOR, go_out())
    at = rng.randrange(pair.first + DATA, pair.end, 2)
    pair.put_other(at, [rng.randrange(0xFFFF)])
    return pair


ITEMS: tuple[Callable[[random.Random], Two], ...] = (
    entry, fetch, flags, reset, power, exit_with_a_register, write, read, structure, opened,
)


def random_two(rng: random.Random) -> tuple[str, Two, Bench]:
    make = rng.choice(ITEMS)
    pair = make(rng)
    bench = Bench(END_OF_A_RUN, rng.choice((0, 0xFF)))
    if make is opened:
        tick = rng.randrange(20, 60)
        words = words_of_structure(*other_borders(rng, pair))
        bench.events = [Event(tick, WriteWord(pair.structure + 2 * index & ADDRESS_MASK, word))
                        for index, word in enumerate(words)]
        bench.events.append(Event(tick + 1, Reset()))
    return make.__name__, pair, bench


def other_borders(rng: random.Random, pair: Two) -> tuple[int, int]:
    return rng.choice((
        (pair.first, pair.end - GRAIN), (pair.first + GRAIN, pair.end),
        (pair.first, pair.end + GRAIN), (0, 0),
    ))
