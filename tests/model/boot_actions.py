"""What a case's program does with what a boot looks at: structures, the signature, the pointer."""

import random

import actions
import assembler
import structures
from assembler import immediate
from encapsulation_actions import REGISTERS
from layout import Code
from protection_actions import at, far
from structures import POINTER_ADDRESS, SIGNATURE, SIGNATURE_ADDRESS

WRONG_SHARE = 0.1
SOFTWARE_BOR, SOFTWARE_POR = 0xA504, 0xA508


def store_word(code: Code, address: int, value: int) -> None:
    if address < 0x10000:
        code.put(assembler.store(address, value))
    else:
        code.put(far("MOV", (immediate(value), 0), at(address), 16))


def show_word(rng: random.Random, code: Code, address: int) -> None:
    code.put(far("MOV", at(address), at(rng.choice(actions.PORT_OUTPUTS)), 16))


def random_structure(rng: random.Random, code: Code) -> int:
    """The address of one. The first has been saved most often, so another is found by no boot."""
    first, *others = code.places.structures
    return first if rng.random() < 0.65 else rng.choice(others)


def rewrite_structure(rng: random.Random, code: Code) -> None:
    """All its words, in any order, of which an access may be refused."""
    address = random_structure(rng, code)
    words = list(enumerate(structures.random_words(rng, code.places, WRONG_SHARE)))
    if rng.random() < 0.3:
        rng.shuffle(words)
    for index, word in words:
        store_word(code, address + 2 * index, word)
    if rng.random() < 0.5:
        show_word(rng, code, address + 2 * rng.randrange(structures.WORDS))
    reset_now_and_then(rng, code, 0.5)


def change_two_words(rng: random.Random, code: Code) -> None:
    """The same bits of two words, so the check stays as it was: good, or bad."""
    address = random_structure(rng, code)
    bits = rng.choice((0x0040, 0x0080, 0x0020, 0x0400, 0x0040 << rng.randrange(10), 0x001F))
    for index in rng.sample(range(structures.WORDS), 2):
        code.put(far("XOR", (immediate(bits), 0), at(address + 2 * index), 16))
    reset_now_and_then(rng, code, 0.5)


def rewrite_signature(rng: random.Random, code: Code) -> None:
    value = SIGNATURE if rng.random() < 0.5 else rng.choice((0xFFFF, 0, 0xAAAB, 0x5555))
    code.put(assembler.store(SIGNATURE_ADDRESS, value))
    reset_now_and_then(rng, code, 0.4)


def rewrite_pointer(rng: random.Random, code: Code) -> None:
    address = rng.choice(code.places.structures)
    if rng.random() < 0.1:
        address = rng.choice(structures.OUTSIDE_OF_FRAM)
    code.put(assembler.store(POINTER_ADDRESS, address // structures.GRAIN_OF_PLACES))
    reset_now_and_then(rng, code, 0.4)


def lead_out_of_fram(rng: random.Random, code: Code) -> None:
    """A good structure in SRAM. A boot that is led there reads another, and erases."""
    address = rng.choice((0x1C80, 0x1D00, 0x23F0))
    for index, word in enumerate(structures.random_words(rng, code.places, 0)):
        code.put(assembler.store(address + 2 * index, word))
    code.put(assembler.store(POINTER_ADDRESS, address // structures.GRAIN_OF_PLACES))
    code.put(assembler.store(SIGNATURE_ADDRESS, SIGNATURE))
    reset_now_and_then(rng, code, 0.8)


def reset_now_and_then(rng: random.Random, code: Code, share: float) -> None:
    """Most often a BOR, whose boot looks at what was written."""
    if rng.random() < share:
        value = SOFTWARE_BOR if rng.random() < 0.9 else SOFTWARE_POR
        code.put(assembler.store(actions.PMMCTL0, value))


def show_what_boots(rng: random.Random, code: Code) -> None:
    for _ in range(rng.randrange(1, 4)):
        kind = rng.randrange(3)
        if kind == 0:
            show_word(rng, code, random_structure(rng, code) + 2 * rng.randrange(structures.WORDS))
        elif kind == 1:
            actions.show(rng, code, rng.choice((SIGNATURE_ADDRESS, POINTER_ADDRESS)))
        else:
            actions.show(rng, code, rng.choice(REGISTERS))


ACTIONS = (
    (rewrite_structure, 4), (change_two_words, 2), (rewrite_signature, 1.5), (rewrite_pointer, 2),
    (lead_out_of_fram, 1.5), (show_what_boots, 3),
)


def act_on_boots(rng: random.Random, code: Code) -> None:
    """Nothing, where the program has no structures."""
    if code.places.structures:
        choices, weights = zip(*ACTIONS)
        rng.choices(choices, weights)[0](rng, code)
