"""What a case's program writes so that a cut may part it: in one tick, or in a row of ticks.

What is written differs from run to run most often, since it holds the count of the starts, or
changes what was there. Else a write that is absent would leave the word that it writes.
"""

import random

import actions
import assembler
import dma_actions
import encapsulation_actions
import protection_situations
from assembler import absolute, immediate, indirect, register, two
from boot_actions import show_word
from layout import INFORMATION, INFORMATION_SIZE, Code
from protection_actions import at, far, free_address_in_fram

SP = assembler.SP
USUAL_STACK = 0x2400
HELPER = 12
RLAM_BY_4 = 0x0E40  # of 20 bits
# Above or below them something is written, and on the other side nothing.
BORDERS_OF_MEMORY = (0x1800, 0x1A00, 0x1C00, 0x2400, 0x4400, 0x14000)


# Places and values

def random_target(rng: random.Random, code: Code) -> int:
    vault = code.places.vault
    chance = rng.random()
    if chance < 0.25:
        return free_address_in_fram(rng, code)
    if chance < 0.45:
        return INFORMATION + rng.randrange(INFORMATION_SIZE)
    if chance < 0.65:
        return rng.choice((vault.end, vault.end, vault.first)) + rng.randrange(-4, 3)
    if chance < 0.75:
        return rng.choice(BORDERS_OF_MEMORY) + rng.randrange(-4, 3)
    if chance < 0.85:
        return 0x1C40 + rng.randrange(0x780)
    return rng.choice((0xFF7C, 0xFF7E, 0x10000)) + rng.randrange(-2, 3)


def new_value(rng: random.Random, code: Code, number: int) -> None:
    """A register that differs from start to start, in its lower bits and in bits 19:16."""
    value = rng.randrange(1 << 20)
    code.put(two("MOV", absolute(code.places.counter), register(HELPER)))
    code.put(two("MOV", register(HELPER), register(number)))
    code.put([RLAM_BY_4 | HELPER] * 4)
    code.put([0x00E0 | HELPER << 8 | number])  # ADDA
    code.put([0x00A0 | value >> 16 << 8 | number, value & 0xFFFF])  # ADDA #value


def show_target(rng: random.Random, code: Code, address: int) -> None:
    if rng.random() < 0.3:
        show_word(rng, code, address & ~1)


# Several writes in one instruction

def store_20_bits(rng: random.Random, code: Code) -> None:
    """By MOVA, or by an extended instruction that reads both words before."""
    target = random_target(rng, code) & 0xFFFFF
    number = rng.randrange(4, 11)
    kind = rng.randrange(4)
    if kind == 0:
        new_value(rng, code, number)
        code.put([0x0060 | number << 8 | target >> 16, target & 0xFFFF])
    elif kind == 1:
        new_value(rng, code, number)
        code.put(assembler.set_register(12, target))
        code.put([0x0070 | number << 8 | 12, 0])  # MOVA Rn, 0(R12)
    elif kind == 2:
        name = rng.choice(("ADD", "XOR", "SUB", "DADD"))
        value = rng.randrange(1, 0x10000)
        code.put(far(name, (immediate(value), rng.randrange(16)), at(target), 20))
    else:
        code.put(assembler.set_register(12, target))
        code.put([0x1800, *assembler.one(rng.choice(("RRC", "RRA")), indirect(12), True)])
    show_target(rng, code, target)


def push_many(rng: random.Random, code: Code) -> None:
    """PUSHM, with its stack where something of it is written."""
    stack = random_target(rng, code) + rng.choice((4, 8, 16, 32, 40))
    for number in rng.sample(range(4, 11), 2):
        new_value(rng, code, number)
    code.put(assembler.set_register(SP, stack & 0xFFFFF))
    width = rng.choice((0x0000, 0x0000, 0x0100))
    count = rng.choice((1, 2, 3, 4, 8, 16, 16))
    code.put([0x1400 | width | count - 1 << 4 | rng.choice((15, 10, 9, 4))])
    code.put(assembler.set_register(SP, USUAL_STACK))
    show_target(rng, code, stack - 2 * rng.randrange(1, 8))


def push_and_call(rng: random.Random, code: Code) -> None:
    """One push after another on a stack in FRAM: of bytes, words and 20 bits, CALL and CALLA."""
    stack = random_target(rng, code) + rng.randrange(8)
    number = rng.randrange(4, 11)
    new_value(rng, code, number)
    code.put(assembler.set_register(SP, stack & 0xFFFFF))
    for _ in range(rng.randrange(1, 4)):
        kind = rng.randrange(3)
        if kind == 0:
            code.put(assembler.one("PUSH", register(number), rng.random() < 0.5))
        elif kind == 1:
            code.put([0x1800, *assembler.one("PUSH", register(number), True)])
        else:
            target = code.here + 4
            code.put([0x13B0 | target >> 16, target & 0xFFFF])
    code.put(assembler.set_register(SP, USUAL_STACK))
    show_target(rng, code, stack - 2)


def be_interrupted(rng: random.Random, code: Code) -> None:
    """The entry's two writes, on a stack in FRAM."""
    stack = random_target(rng, code) + rng.randrange(6)
    code.put(assembler.set_register(SP, stack & 0xFFFFF))
    code.put(two("MOV", immediate(rng.choice((0x0008, 0x0109, 0x0008))), register(2)))
    protection_situations.ask_by_a_port(rng, code)
    code.put([assembler.NOP] * rng.randrange(1, 4))
    code.put([assembler.DISABLE_INTERRUPTS])
    code.put(assembler.set_register(SP, USUAL_STACK))
    show_target(rng, code, stack - 2)


def write_over_a_border(rng: random.Random, code: Code) -> None:
    """Several writes, of which some are refused by the area and the others are made."""
    vault = code.places.vault
    if not code.places.structures or rng.random() < 0.2:
        encapsulation_actions.encapsulate(rng, code, (vault.first, vault.end), lock_share=0.2)
    number = rng.randrange(4, 11)
    new_value(rng, code, number)
    border = rng.choice((vault.first, vault.end))
    kind = rng.randrange(3)
    if kind == 0:
        target = border - 2
        code.put([0x0060 | number << 8 | target >> 16, target & 0xFFFF])
    elif kind == 1:
        code.put(far("ADD", (immediate(rng.randrange(1, 0x10000)), rng.randrange(1, 16)),
                     at(border - 2), 20))
    else:
        code.put(assembler.set_register(SP, border + 2 * rng.randrange(1, 9)))
        code.put([0x1400 | rng.choice((0, 0x0100)) | rng.randrange(4, 16) << 4 | 10])
        code.put(assembler.set_register(SP, USUAL_STACK))
    show_target(rng, code, border - 2 * rng.randrange(3))


# Rows of writes

def change_word(rng: random.Random, code: Code) -> None:
    """A word or a byte that counts on from run to run."""
    target = random_target(rng, code) & 0xFFFFF
    name = rng.choice(("ADD", "ADD", "XOR", "DADD", "BIC"))
    code.put(far(name, (immediate(rng.randrange(1, 0x10000)), 0), at(target), rng.choice((8, 16))))
    show_target(rng, code, target)


def transfer(rng: random.Random, code: Code) -> None:
    """A few transfers of DMA into memory, one every second tick or between instructions."""
    channel = dma_actions.favourite_channel(rng, code)
    dma_actions.choose_trigger(rng, code, channel, 0)
    source = rng.choice((code.places.counter, code.address, 0x1C40 + rng.randrange(0x100), 0x0350))
    target = random_target(rng, code) & 0xFFFFF
    dma_actions.set_addresses(rng, code, channel, source, target, rng.randrange(1, 10))
    mode = rng.choice((0x1000, 0x1000, 0x2000, 0x5000, 0x0000))
    steps = rng.choice((0x0F00, 0x0B00, 0x0C00, 0x0E00))
    widths = rng.choice((0, 0, dma_actions.BYTES, dma_actions.WORDS_TO_BYTES))
    code.put(assembler.store(
        channel, mode | steps | widths | dma_actions.EN | dma_actions.REQ
    ))
    for _ in range(rng.randrange(3)):
        rng.choice((store_20_bits, change_word, actions.wait))(rng, code)
    show_target(rng, code, target)


def keep_a_log(rng: random.Random, code: Code) -> None:
    """Words in a row, of which a later start shows how far it came."""
    first = INFORMATION + 2 * rng.randrange(0x80)
    number = rng.randrange(4, 11)
    new_value(rng, code, number)
    for index in range(rng.randrange(2, 8)):
        code.put(two("MOV", register(number), absolute(first + 2 * index), rng.random() < 0.3))
    actions.show(rng, code, first + 2 * rng.randrange(8))


def write_twice(rng: random.Random, code: Code) -> None:
    """A word of SRAM and one of FRAM, the same in both until a cut comes between."""
    number = rng.randrange(4, 11)
    place = 0x1D00 + 2 * rng.randrange(0x40)
    target = INFORMATION + 2 * rng.randrange(0x100)
    actions.show(rng, code, place)
    new_value(rng, code, number)
    for address in rng.sample((place, target), 2):
        code.put(two("MOV", register(number), absolute(address)))
    actions.show(rng, code, target)


ACTIONS = (
    (store_20_bits, 6), (write_over_a_border, 3), (push_many, 3), (push_and_call, 2.5),
    (be_interrupted, 4), (change_word, 2), (transfer, 4), (keep_a_log, 1), (write_twice, 1),
)


def write_something(rng: random.Random, code: Code) -> None:
    choices, weights = zip(*ACTIONS)
    rng.choices(choices, weights)[0](rng, code)
