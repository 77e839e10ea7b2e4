"""Structures of IP Encapsulation for the boots of a case: where they lie, and what they say."""

import random

from encapsulation_actions import ENA, LOCK, VS, Area, unusual_area
from layout import INFORMATION, INFORMATION_SIZE, SLOT_SIZE, VAULT_DATA_SIZE, Places, Program
from protection_actions import GRAIN, MAIN

SIGNATURE_ADDRESS, SIGNATURE = 0xFF88, 0xAAAA
POINTER_ADDRESS = 0xFF8A
GRAIN_OF_PLACES = 16
WORDS = 4

ENDS_OF_FRAM = (0x1800, 0x19F0, 0x4400, 0x13FF0, 0x10000, 0xFFF0)
AMONG_THE_VECTORS = range(0xFF80, 0x10000, GRAIN_OF_PLACES)
OUTSIDE_OF_FRAM = (0x0000, 0x0200, 0x05A0, 0x0FF0, 0x1000, 0x17F0, 0x1A00, 0x1AF0, 0x1B00, 0x1C00,
                   0x1C80, 0x23F0, 0x2400, 0x43F0, 0x14000, 0x20000, 0xFFFF0)
WORDS_THAT_AN_ERASE_ENDS_WITH = (0x19FE, 0x13FFE)
CLOSING_WORD = 0x5555  # twice at FF80h it closes the debug port
BITS_THAT_ARENT_KEPT = 0xFF1F  # of the first word
CONTROLS = (ENA | LOCK,) * 6 + (ENA, ENA, LOCK, 0)


# Where

def random_place(rng: random.Random, places: Places, outside_share: float) -> int:
    vault = places.vault
    if rng.random() < outside_share:
        return rng.choice(OUTSIDE_OF_FRAM)
    chance = rng.random()
    if chance < 0.35:
        return vault.data + GRAIN_OF_PLACES * rng.randrange(VAULT_DATA_SIZE // GRAIN_OF_PLACES)
    if chance < 0.5:
        return rng.randrange(INFORMATION, INFORMATION + INFORMATION_SIZE, GRAIN_OF_PLACES)
    if chance < 0.65:
        return rng.randrange(MAIN[0], MAIN[1], SLOT_SIZE) + SLOT_SIZE - GRAIN_OF_PLACES
    if chance < 0.75:
        return rng.choice((vault.end, vault.first - GRAIN_OF_PLACES))
    return rng.choice(ENDS_OF_FRAM if chance < 0.87 else AMONG_THE_VECTORS)


# What

def random_area(rng: random.Random, places: Places) -> Area:
    vault = places.vault
    chance = rng.random()
    if chance < 0.6:
        return vault.first, vault.end
    if chance < 0.67:
        slot = places.start & ~(GRAIN - 1)
        return slot, slot + GRAIN * rng.choice((1, 2))
    if chance < 0.72:
        return places.bridge - GRAIN * rng.randrange(2), places.bridge + GRAIN
    if chance < 0.8:
        return rng.randrange(*MAIN, GRAIN), rng.randrange(*MAIN, GRAIN)
    if chance < 0.85:
        return GRAIN * rng.randrange(0x400), GRAIN * rng.randrange(0x400)
    return unusual_area(rng, places)


def right_check(words: list[int]) -> int:
    return ~(words[0] ^ words[1] ^ words[2]) & 0xFFFF


def wrong_check(rng: random.Random, words: list[int]) -> int:
    """One bit too many, or a check by another rule, or one that is right once a word is wiped."""
    right = right_check(words)
    wiped = list(words)
    wiped[rng.randrange(3)] = 0xFFFF
    other = rng.choice((
        right ^ 1 << rng.randrange(16), right ^ 1 << rng.randrange(6),
        right ^ 1 << rng.randrange(6), right ^ 0xFFFF,
        right_check(wiped), right_check(wiped), ~sum(words) & 0xFFFF, -sum(words) & 0xFFFF,
        0xFFFF, 0,
    ))
    return other if other != right else right ^ 1


def random_words(rng: random.Random, places: Places, wrong_share: float) -> list[int]:
    control = rng.choice(CONTROLS) | (VS if rng.random() < 0.15 else 0)
    if rng.random() < 0.3:
        control |= rng.randrange(0x10000) & BITS_THAT_ARENT_KEPT
    first, second = random_area(rng, places)
    noise = [rng.randrange(0x40) if rng.random() < 0.25 else 0 for _ in range(2)]
    words = [control, second >> 4 & 0xFFFF | noise[0], first >> 4 & 0xFFFF | noise[1]]
    wrong = rng.random() < wrong_share
    return [*words, wrong_check(rng, words) if wrong else right_check(words)]


# In an image

def write_structures(
    rng: random.Random, program: Program, wrong_share: float, outside_share: float
) -> None:
    """Two or three, of which the pointer leads to the first."""
    places = program.places
    places.structures = [
        random_place(rng, places, outside_share) for _ in range(rng.choice((2, 2, 3)))
    ]
    for address in reversed(places.structures):
        put_words(program, address, random_words(rng, places, wrong_share))
    if rng.random() < 0.05:
        places.structures[0] = AMONG_THE_VECTORS[0]
        third = rng.randrange(0x10000)
        put_words(program, places.structures[0],
                  [CLOSING_WORD, CLOSING_WORD, third, third ^ 0xFFFF])
    if rng.random() < 0.87:
        signature = SIGNATURE if rng.random() < 0.96 else rng.choice((0xAAAB, 0xAA2A, 0x00AA))
        program.single_words[SIGNATURE_ADDRESS] = signature
    for address in WORDS_THAT_AN_ERASE_ENDS_WITH:
        if rng.random() < 0.5:
            program.single_words[address] = rng.randrange(0x10000)
    program.single_words[POINTER_ADDRESS] = places.structures[0] // GRAIN_OF_PLACES


def put_words(program: Program, address: int, words: list[int]) -> None:
    for index, word in enumerate(words):
        program.single_words[address + 2 * index] = word
