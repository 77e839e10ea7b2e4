"""Libraries: sealed code that works with secrets, in two versions that show the same outside.

The versions have their parts at the same addresses and take as many ticks. What differs is secret:
data, numbers and instructions of the code, and where a branch goes. Each part of a library cleans
what it used before it goes on, but for a few parts that let something out.
"""

import random
from collections.abc import Callable, Sequence

import actions
import assembler
import boot_actions
import dma_actions
import encapsulation_actions
import encapsulation_routines
import protection_actions
import protection_situations
import structures
import timer_actions
from assembler import Operand, absolute, immediate, register, two
from encapsulation_actions import ENA, LOCK, VS
from layout import VAULT_DATA_SIZE, Code, Places, Program
from protection_actions import GRAIN
from structures import POINTER_ADDRESS, SIGNATURE, SIGNATURE_ADDRESS

SECRET_REGISTERS = range(4, 10)
POINTING = 11  # a register that holds addresses, which are no secret
PC, SR = assembler.PC, assembler.SR
FLAGS_OF_RESULTS = 0x0107
NEXT = 0x3C00  # a jump to what lies behind it
WORDS_OF_A_DOOR = 170
OPERATIONS = ("ADD", "ADDC", "SUBC", "SUB", "DADD", "BIC", "BIS", "XOR", "AND")
SHARE_OF_LEAKS = 0.06

SHARE_OF_USUAL_AREAS = 0.9
SHARE_OF_WIDE_AREAS = 0.3
SHARE_OF_AREAS_WITH_VECTORS = 0.07
SHARE_OF_STRUCTURES_INSIDE = 0.5
SHARE_OF_SECRET_FIRST_WORDS = 0.4


class Twin:
    """Code of both versions. Of the second the words that differ are kept, by their addresses."""

    def __init__(self, code: Code, other_words: dict[int, int]):
        self.code = code
        self.other_words = other_words
        self.secret: list[int] = []  # the registers that hold something secret

    def put(self, words: list[int], others: list[int] | None = None) -> None:
        if others is not None:
            assert len(words) == len(others)
            for index, (word, other) in enumerate(zip(words, others)):
                if word != other:
                    self.other_words[self.code.here + 2 * index] = other
        self.code.put(words)

    def put_number(self, rng: random.Random, name: str, number: int) -> None:
        """An operation of two numbers, one for each version."""
        first, second = (immediate(rng.randrange(0x10000)) for _ in range(2))
        as_byte = rng.random() < 0.2
        self.put(two(name, first, register(number), as_byte),
                 two(name, second, register(number), as_byte))

    def a_secret(self, rng: random.Random) -> int:
        """A register that holds something secret; the first one loads it."""
        if not self.secret:
            load(rng, self)
        return rng.choice(self.secret)

    def hold(self, number: int) -> None:
        if number not in self.secret:
            self.secret.append(number)


Part = Callable[[random.Random, Twin], None]
Work = Sequence[tuple[Callable[[random.Random, Code], None], float]]  # and how often each comes


# Data

def write_library(rng: random.Random, program: Program, work: Work) -> None:
    """`work` is what it does that has nothing to do with secrets."""
    vault = program.places.vault
    write_structures(rng, program)
    data = Twin(program.code(vault.data, VAULT_DATA_SIZE), program.other_words)
    for _ in range(VAULT_DATA_SIZE // 2):
        word = rng.randrange(0x10000)
        data.put([word], [rng.randrange(0x10000) if rng.random() < 0.6 else word])
    twin = Twin(program.code(vault.first, vault.data - vault.first), program.other_words)
    if rng.random() < SHARE_OF_SECRET_FIRST_WORDS:
        write_way_over_the_border(rng, program, twin)
    encapsulation_routines.write_first_words(rng, twin.code, vault)
    for _ in range(rng.randrange(3, 8)):
        if twin.code.rest < WORDS_OF_A_DOOR:
            break
        write_door(rng, twin, work)


def write_way_over_the_border(rng: random.Random, program: Program, twin: Twin) -> None:
    """An instruction outside whose last word would be the first of the library, a secret."""
    vault = program.places.vault
    twin.put([rng.randrange(0x10000)], [rng.randrange(0x10000)])
    words = rng.choice((
        [0x1230], [0x4030], [0x4030 | rng.choice(SECRET_REGISTERS)],  # PUSH, MOV to PC or elsewhere
        two("MOV", register(4), absolute(0))[:1], [0x40B2, rng.randrange(0x10000)],
    ))
    way = vault.first - 2 * len(words)
    vault.doors.append(way)
    for index, word in enumerate(words):
        program.single_words[way + 2 * index] = word


def write_structures(rng: random.Random, program: Program) -> None:
    """The one that the first boot finds, and another one."""
    places = program.places
    inside = places.vault.data + structures.GRAIN_OF_PLACES * rng.randrange(6)
    first = structures.random_place(rng, places, 0)
    if rng.random() < SHARE_OF_STRUCTURES_INSIDE:
        first = inside
    places.structures = [first, structures.random_place(rng, places, 0)]
    structures.put_words(program, places.structures[1], structures.random_words(rng, places, 0))
    structures.put_words(program, first, words_of_structure(rng, places))
    program.single_words[SIGNATURE_ADDRESS] = SIGNATURE
    program.single_words[POINTER_ADDRESS] = first // structures.GRAIN_OF_PLACES


def words_of_structure(rng: random.Random, places: Places) -> list[int]:
    if rng.random() >= SHARE_OF_USUAL_AREAS:
        return structures.random_words(rng, places, 0)
    control = ENA | LOCK | (VS if rng.random() < 0.1 else 0)
    first, end = places.vault.first, places.vault.end
    if rng.random() < SHARE_OF_AREAS_WITH_VECTORS:  # which aren't sealed
        first, end = min(first, 0xFC00), max(end, rng.choice((0x10000, 0x10400, 0x14000)))
    elif rng.random() < SHARE_OF_WIDE_AREAS:  # other code lies in it too
        first, end = max(first - GRAIN * rng.randrange(3), 0), end + GRAIN * rng.randrange(3)
    words = [control, end >> 4 & 0xFFFF, first >> 4]
    return [*words, structures.right_check(words)]


def free_address(rng: random.Random, code: Code) -> int:
    """Of a word of data that isn't of a structure."""
    vault = code.places.vault
    rows = [row for row in range(vault.data, vault.end, structures.GRAIN_OF_PLACES)
            if row not in code.places.structures]
    return rng.choice(rows) + 2 * rng.randrange(structures.GRAIN_OF_PLACES // 2)


# Doors

def write_door(rng: random.Random, twin: Twin, work: Work) -> None:
    code = twin.code
    code.places.vault.doors.append(code.here)
    last = code.here + 2 * (WORDS_OF_A_DOOR - 100)
    for _ in range(rng.randrange(1, 5)):
        if code.here > last:
            break
        if rng.random() < 0.3:
            act, = rng.choices(*zip(*work))
            act(rng, code)
        elif rng.random() < 0.2:
            move_secrets(rng, twin)
        else:
            work_with_secrets(rng, twin)
    code.put([encapsulation_routines.RETURN])


def work_with_secrets(rng: random.Random, twin: Twin) -> None:
    """No interrupt comes while registers or flags hold something secret."""
    twin.put([assembler.DISABLE_INTERRUPTS])
    for _ in range(rng.randrange(1, 3)):
        load(rng, twin)
    for _ in range(rng.randrange(1, 7)):
        part, = rng.choices(*zip(*PARTS))
        part(rng, twin)
    if rng.random() < SHARE_OF_LEAKS:
        rng.choice(LEAKS)(rng, twin)
    clean(rng, twin)
    if rng.random() < 0.6:
        twin.put([assembler.ENABLE_INTERRUPTS])


def clean(rng: random.Random, twin: Twin) -> None:
    for number in twin.secret:
        if rng.random() < 0.7:
            twin.put(assembler.set_register(number, rng.randrange(1 << 20)))
        else:
            twin.put(two("MOV", register(3), register(number)))
    twin.secret = []
    twin.put(two("BIC", immediate(FLAGS_OF_RESULTS), register(SR)))


# What loads a secret

def load(rng: random.Random, twin: Twin) -> None:
    code = twin.code
    number = rng.choice(SECRET_REGISTERS)
    address = free_address(rng, code)
    kind = rng.randrange(6)
    if kind == 0:
        twin.put_number(rng, "MOV", number)
    elif kind == 1:
        twin.put([0x0020 | address >> 16 << 8 | number, address & 0xFFFF])  # MOVA &address
    elif kind == 2:
        twin.put([0x0030 | number, address - code.here - 2 & 0xFFFF])  # MOVA x(PC)
    elif kind == 3:
        first, second = (assembler.set_register(number, rng.randrange(1 << 20)) for _ in range(2))
        twin.put(first, second)
    else:
        twin.put(assembler.set_register(POINTING, address))
        source = Operand(POINTING, rng.choice((2, 3)))
        twin.put(two("MOV", source, register(number), rng.random() < 0.3))
    twin.hold(number)


# What works with secrets, and shows nothing

def operation(rng: random.Random, twin: Twin) -> list[int]:
    """One word and one tick, on a register that holds a secret."""
    number = rng.choice(twin.secret)
    kind = rng.randrange(5)
    if kind == 0:
        name = rng.choice(("RRC", "RRA", "SXT", "SWPB"))
        as_byte = name in ("RRC", "RRA") and rng.random() < 0.3
        return assembler.one(name, register(number), as_byte)
    if kind == 1:
        return [rng.choice((0x00C0, 0x00E0, 0x00F0)) | rng.choice(twin.secret) << 8 | number]
    if kind == 2:
        return [assembler.NOP]
    name, source = rng.choice(OPERATIONS), rng.choice(twin.secret)
    return two(name, register(source), register(number), rng.random() < 0.2)


def compute(rng: random.Random, twin: Twin) -> None:
    twin.a_secret(rng)
    words = operation(rng, twin)
    twin.put(words, operation(rng, twin) if rng.random() < 0.5 else words)


def compute_with_a_number(rng: random.Random, twin: Twin) -> None:
    twin.put_number(rng, rng.choice(OPERATIONS), twin.a_secret(rng))


def shift(rng: random.Random, twin: Twin) -> None:
    """By as many bits in both versions, since each of them takes a tick."""
    number, count = twin.a_secret(rng), rng.randrange(4)
    first, second = ([0x0040 | rng.randrange(2) << 4 | rng.randrange(4) << 8 | count << 10 | number]
                     for _ in range(2))
    twin.put(first, second)


def repeat(rng: random.Random, twin: Twin) -> None:
    """An operation behind an extension word."""
    twin.a_secret(rng)
    number, source = rng.choice(twin.secret), rng.choice(twin.secret)
    extension = 0x1840 | rng.choice((0, 0x100)) | rng.randrange(6)
    first, second = (two(rng.choice(OPERATIONS), register(source), register(number))
                     for _ in range(2))
    twin.put([extension, *first], [extension, *second])


def keep(rng: random.Random, twin: Twin) -> None:
    """Writes a secret into the seal."""
    number = twin.a_secret(rng)
    address = free_address(rng, twin.code)
    if rng.random() < 0.3:
        twin.put([0x0060 | number << 8 | address >> 16, address & 0xFFFF])  # MOVA Rn, &address
        return
    twin.put(assembler.set_register(POINTING, address))
    name = rng.choice(("MOV", "ADD", "XOR", "SUB", "BIC"))
    twin.put(two(name, register(number), assembler.indexed(POINTING, 0), rng.random() < 0.3))


def look_up(rng: random.Random, twin: Twin) -> None:
    """A word of the data, whose place is secret."""
    number, other = twin.a_secret(rng), rng.choice(SECRET_REGISTERS)
    twin.put(two("AND", immediate(structures.GRAIN_OF_PLACES - 1), register(number)))
    row = free_address(rng, twin.code) & -structures.GRAIN_OF_PLACES
    twin.put([0x00A0 | row >> 16 << 8 | number, row & 0xFFFF])  # ADDA #row
    if rng.random() < 0.5:
        twin.put(two("MOV", assembler.indirect(number), register(other), rng.random() < 0.3))
        twin.hold(other)
    else:
        twin.put(two("XOR", register(number), assembler.indexed(number, 0), rng.random() < 0.5))


def branch(rng: random.Random, twin: Twin) -> None:
    """Two ways of three ticks each, by the flags that a secret left."""
    compute_with_a_number(rng, twin)
    code = twin.code
    code.jump(rng.choice(("JEQ", "JNE", "JC", "JNC", "JN", "JGE", "JL")), code.here + 6)
    twin.put(operation(rng, twin), operation(rng, twin))
    code.jump("JMP", code.here + 8)
    for _ in range(3):
        twin.put(operation(rng, twin), operation(rng, twin))


def go_two_ways(rng: random.Random, twin: Twin) -> None:
    """Each version has its own code, at its own place, of as many ticks. Both lie in both."""
    twin.a_secret(rng)
    code = twin.code
    count = rng.randrange(1, 4)
    words_of_a_way = 2 * count + 2  # operations, NOPs of the same number, and a jump of two words
    first = code.here + 4
    second = first + 2 * words_of_a_way
    end = second + 2 * words_of_a_way
    twin.put(assembler.set_register(PC, first), assembler.set_register(PC, second))
    for _ in range(2):
        for _ in range(count):
            twin.put(operation(rng, twin), operation(rng, twin))
        twin.put([assembler.NOP] * count)
        twin.put(assembler.set_register(PC, end))


def write_or_go_on(rng: random.Random, twin: Twin) -> None:
    """One version sets a bit of a word inside, the other makes two jumps to what comes next."""
    address = free_address(rng, twin.code)
    if address < 0x10000:
        twin.put([0xD392, address], [NEXT, NEXT])


def judge(rng: random.Random, twin: Twin) -> None:
    """Whether a code is the secret one, which it seldom is: that is shown."""
    number = twin.a_secret(rng)
    twin.put_number(rng, rng.choice(("CMP", "SUB", "XOR")), number)
    result = rng.choice((12, number))
    twin.put(two("MOV", register(SR), register(result)))
    twin.put(two("AND", immediate(2), register(result)))
    twin.put(two("MOV", register(result), absolute(rng.choice(actions.PORT_OUTPUTS))))


PARTS: tuple[tuple[Part, float], ...] = (
    (load, 2), (compute, 5), (compute_with_a_number, 2), (shift, 1.5), (repeat, 1), (keep, 4),
    (look_up, 2), (branch, 2.5), (go_two_ways, 1.5), (write_or_go_on, 1), (judge, 1.2),
)


def move_secrets(rng: random.Random, twin: Twin) -> None:
    """From word to word, with interrupts between them: no register or flag tells of it."""
    if rng.random() < 0.6:
        twin.put([assembler.ENABLE_INTERRUPTS])
    for _ in range(rng.randrange(1, 5)):
        source, target = (free_address(rng, twin.code) for _ in range(2))
        twin.put(assembler.set_register(POINTING, target))
        name = rng.choice(("MOV", "BIC", "BIS"))
        words = protection_actions.far(name, protection_actions.at(source),
                                       protection_actions.at(target), rng.choice((8, 16)))
        twin.put(words)
        if rng.random() < 0.3:
            encapsulation_routines.be_interrupted(rng, twin.code)


# What lets something out: all of it, or a bit that is the same in both versions now and then

def show_all(rng: random.Random, twin: Twin) -> None:
    number = twin.a_secret(rng)
    if rng.random() < 0.3:
        twin.put([0x0060 | number << 8, 0x1C90])  # MOVA, which writes two words
        return
    twin.put(two("MOV", register(number), absolute(rng.choice((*actions.PORT_OUTPUTS, 0x1C90)))))


def show_a_bit(rng: random.Random, twin: Twin) -> None:
    number = twin.a_secret(rng)
    twin.put(two("AND", immediate(1 << rng.randrange(16)), register(number)))
    show_all(rng, twin)


def leave_in_a_register(rng: random.Random, twin: Twin) -> None:
    number = twin.a_secret(rng)
    if rng.random() < 0.5:
        twin.put(two("MOV", register(number), register(rng.randrange(12, 16))))
    else:
        twin.secret.remove(number)


def leave_in_a_stack(rng: random.Random, twin: Twin) -> None:
    twin.put(assembler.one("PUSH", register(rng.choice((SR, twin.a_secret(rng))))))
    twin.put(two("ADD", immediate(2), register(assembler.SP)))


def take_longer(rng: random.Random, twin: Twin) -> None:
    number = twin.a_secret(rng)
    twin.put(two("BIT", immediate(1 << rng.randrange(16)), register(number)))
    twin.code.jump("JEQ", twin.code.here + 4)
    twin.put([assembler.NOP])


def read_outside(rng: random.Random, twin: Twin) -> None:
    """At one of two places."""
    number = twin.a_secret(rng)
    twin.put(two("AND", immediate(2), register(number)))
    twin.put(two("ADD", immediate(rng.choice((0x1C90, 0x4400, 0x0200))), register(number)))
    twin.put(two("MOV", assembler.indirect(number), register(12)))


def change_a_clock(rng: random.Random, twin: Twin) -> None:
    number = twin.a_secret(rng)
    twin.put(two("AND", immediate(rng.choice((0x0040, 0x0080, 0x0020))), register(number)))
    twin.put(two("BIS", register(number), register(SR)))
    twin.put(two("BIC", immediate(0x00E0), register(SR)))


def ask_for_a_reset(rng: random.Random, twin: Twin) -> None:
    """One of two ways to reset, or none."""
    number = twin.a_secret(rng)
    twin.put(two("AND", immediate(rng.choice((0x0004, 0x000C))), register(number)))
    twin.put(two("BIS", immediate(0xA500), register(number)))
    twin.put(two("MOV", register(number), absolute(actions.PMMCTL0)))


def spoil_the_structure(rng: random.Random, twin: Twin) -> None:
    """Whatever it does, the check stays as it was. The next boot reads the structure."""
    number = twin.a_secret(rng)
    address = twin.code.places.structures[0]
    twin.put(two("AND", immediate(rng.choice((0x0001, 0x001F, 0x0020))), register(number)))
    for index in rng.sample(range(structures.WORDS), 2):
        twin.put(assembler.set_register(POINTING, address + 2 * index))
        twin.put(two("XOR", register(number), assembler.indexed(POINTING, 0)))


LEAKS: tuple[Part, ...] = (
    show_all, show_a_bit, show_a_bit, leave_in_a_register, leave_in_a_stack, take_longer,
    read_outside, change_a_clock, ask_for_a_reset, spoil_the_structure,
)


# What has nothing to do with secrets

def use_own_stack(rng: random.Random, code: Code) -> None:
    """A stack in the seal, on which an entry leaves no trace outside."""
    code.put([0x0060 | assembler.SP << 8, encapsulation_routines.KEPT_STACK])
    code.put(assembler.set_register(assembler.SP, free_address(rng, code)))
    for _ in range(rng.randrange(1, 4)):
        if rng.random() < 0.5:
            encapsulation_routines.be_interrupted(rng, code)
        else:
            code.put(assembler.one("PUSH", register(rng.randrange(16)), rng.random() < 0.4))
    code.put([0x0020 | assembler.SP, encapsulation_routines.KEPT_STACK])


CALM_WORK = (
    (use_own_stack, 2), (encapsulation_routines.be_interrupted, 2),
    (encapsulation_routines.stay, 0.5), (encapsulation_routines.call_helper, 1),
    (encapsulation_routines.call_own_words, 1), (actions.act_on_ports, 2),
    (actions.show_register, 1), (timer_actions.set_up, 0.5), (protection_actions.set_waits, 0.2),
    (encapsulation_actions.show_violation, 1),
)
WORK = (
    *CALM_WORK, (encapsulation_routines.stay, 1.5), (encapsulation_routines.sleep, 0.3),
    (encapsulation_routines.use_other_stack, 0.2), (encapsulation_routines.violate_segments, 0.7),
    (encapsulation_actions.write_registers, 0.4), (encapsulation_routines.ask_for_reset, 0.15),
    (encapsulation_routines.ask_for_two_resets, 0.15),
    (dma_actions.set_up, 1.5), (timer_actions.set_up, 1), (boot_actions.act_on_boots, 0.4),
    (protection_situations.write_one, 1),
)
