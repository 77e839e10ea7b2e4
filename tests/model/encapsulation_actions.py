"""What a case's program does with the registers of IP Encapsulation: borders, ENA, LOCK and VS.

Most areas are the vault, which is code that the program has for that, or the slot of the code that
sets the borders. Others are of any kind, with borders that cross or lie outside of main FRAM.
"""

import random

import actions
import assembler
from assembler import absolute, immediate, two
from layout import SLOT_SIZE, Code, Places
from protection_actions import (
    GRAIN, MAIN, MPUCTL0, MPUCTL1, PASSWORD, SEGIE, SYSSNIV, open_latch, random_border,
    random_control, write_word,
)

MPUIPC0, MPUIPSEGB2, MPUIPSEGB1 = 0x05AA, 0x05AC, 0x05AE
REGISTERS = (MPUIPC0, MPUIPSEGB2, MPUIPSEGB1)
VS, ENA, LOCK = 0x20, 0x40, 0x80
BITS_THAT_ARENT_KEPT = 0xFF1F  # of MPUIPC0

PORT_IS_CLOSED_BY = (0xFF80, 0xFF82)
CLOSING_WORD = 0x5555

Area = tuple[int, int]


# Areas

def area_of_slot(rng: random.Random, code: Code) -> Area:
    """The slot of this code, and now and then what lies beside it."""
    first = code.address & ~(GRAIN - 1)
    end = first + SLOT_SIZE + GRAIN * rng.choice((0, 0, 1))
    return first - GRAIN * rng.choice((0, 0, 0, 1)), end


def area_at_the_bridge(rng: random.Random, code: Code) -> Area:
    bridge = code.places.bridge
    if rng.random() < 0.5:
        return bridge, bridge + GRAIN * rng.choice((1, 1, 4))
    return bridge - GRAIN * rng.choice((1, 1, 4)), bridge


def unusual_area(rng: random.Random, places: Places) -> Area:
    """Without an address, without an end in main FRAM, or round the vectors."""
    vault = places.vault
    return rng.choice((
        (vault.end, vault.first), (vault.first, vault.first), (0, 0), (0, GRAIN), (0, 0x4400),
        (0x4000, 0x4400), (0, vault.end), (0x4400, 0x14000), (0x1800, 0xFFC00), (0, 0xFFC00),
        (vault.first, 0xFFC00), (vault.first, 0x14000), (0x14000, 0xFFC00), (0x13C00, 0x14400),
        (0xFC00, 0x10000), (0xFC00, 0x10400), (0x10000, 0x14000), (0x4000, vault.end),
        (0xF800, 0x10400), (0x4400, 0x4800), (0x1800, 0x1C00), (0xFFC00, vault.end),
    ))


def random_area(rng: random.Random, code: Code) -> Area:
    chance = rng.random()
    vault = code.places.vault
    if chance < 0.55:
        return vault.first, vault.end
    if chance < 0.65:
        return area_of_slot(rng, code)
    if chance < 0.75:
        return area_at_the_bridge(rng, code)
    if chance < 0.8:
        return random_border(rng, code), random_border(rng, code)
    if chance < 0.85:
        return rng.randrange(0, MAIN[1] + GRAIN, GRAIN), rng.randrange(0, MAIN[1] + GRAIN, GRAIN)
    return unusual_area(rng, code.places)


# Registers

def open_mostly(rng: random.Random, code: Code) -> None:
    if rng.random() < 0.95:
        open_latch(rng, code)
    elif rng.random() < 0.5:
        code.put(assembler.store(MPUCTL0 + 1, 0, as_byte=True))


def set_borders(rng: random.Random, code: Code, area: Area) -> None:
    noise = rng.choice((0, 0, 0, 0x3F, rng.randrange(0x40)))
    words = [(MPUIPSEGB1, area[0] >> 4 | noise), (MPUIPSEGB2, area[1] >> 4 | noise)]
    rng.shuffle(words)
    for address, value in words:
        write_word(rng, code, address, value)


def random_bits(rng: random.Random, lock_share: float = 0.3, enable_share: float = 0.95) -> int:
    """Of MPUIPC0."""
    enable = ENA if rng.random() < enable_share else 0
    lock = LOCK if rng.random() < lock_share else 0
    resets = VS if rng.random() < 0.3 else 0
    noise = rng.randrange(0x10000) & BITS_THAT_ARENT_KEPT if rng.random() < 0.15 else 0
    return enable | lock | resets | noise


def set_bits(rng: random.Random, code: Code, bits: int) -> None:
    kind = rng.randrange(8)
    if kind < 4:
        code.put(assembler.store(MPUIPC0, bits))
    elif kind < 6:
        code.put(assembler.store(MPUIPC0, bits, as_byte=True))
    elif kind == 6:
        code.put(two("BIS", immediate(bits), absolute(MPUIPC0), rng.random() < 0.5))
    else:
        write_word(rng, code, MPUIPC0, bits)


def set_nmi(rng: random.Random, code: Code) -> None:
    """SEGIE, with segments or without; the latch is open behind it."""
    control = SEGIE if rng.random() < 0.8 else random_control(rng)
    code.put(assembler.store(MPUCTL0, PASSWORD | control))


def encapsulate(
    rng: random.Random, code: Code, area: Area | None = None, lock_share: float = 0.3
) -> Area:
    """Borders and MPUIPC0: what comes behind it may be refused."""
    if area is None:
        area = random_area(rng, code)
    if rng.random() < 0.5:
        set_nmi(rng, code)
    else:
        open_mostly(rng, code)
    if rng.random() < 0.04:
        set_bits(rng, code, random_bits(rng, lock_share))
    set_borders(rng, code, area)
    set_bits(rng, code, random_bits(rng, lock_share))
    if rng.random() < 0.3:
        code.put(assembler.store(MPUCTL0 + 1, 0, as_byte=True))
    return area


def take_back(rng: random.Random, code: Code) -> None:
    """Clears ENA, which does nothing where LOCK is set."""
    open_latch(rng, code)
    code.put(assembler.store(MPUIPC0, rng.choice((0, 0, VS))))


def show_registers(rng: random.Random, code: Code) -> None:
    for _ in range(rng.randrange(1, 4)):
        actions.show(rng, code, rng.choice(REGISTERS))


def show_violation(rng: random.Random, code: Code) -> None:
    for _ in range(rng.randrange(1, 3)):
        actions.show(rng, code, rng.choice((MPUCTL1, SYSSNIV, SYSSNIV, MPUIPC0)))


def write_registers(rng: random.Random, code: Code) -> None:
    """Any of the registers, by bytes and words, whether or not they can be written."""
    if rng.random() < 0.6:
        open_latch(rng, code)
    elif rng.random() < 0.5:
        code.put(assembler.store(MPUCTL0 + 1, 0, as_byte=True))
    for _ in range(rng.randrange(1, 5)):
        address = rng.choice(REGISTERS)
        value = rng.randrange(0x10000)
        if address == MPUIPC0:
            value = rng.choice((0, ENA, VS, random_bits(rng, 0.1, 0.5)))
        actions.change(rng, code, address, value)
        actions.show(rng, code, address)


def write_two_registers(rng: random.Random, code: Code) -> None:
    """20 bits by MOVA: its lower word goes to one register, and its upper bits to the next.

    Where the first is MPUIPC0, LOCK may be set before the second word comes.
    """
    open_mostly(rng, code)
    set_borders(rng, code, random_area(rng, code))
    number = rng.randrange(4, 11)
    value = rng.choice((random_bits(rng), rng.randrange(0x10000))) | rng.randrange(16) << 16
    code.put(assembler.set_register(number, value))
    code.put([0x0060 | number << 8, rng.choice((MPUIPC0, MPUIPC0, MPUIPSEGB2, 0x05A8, MPUIPSEGB1))])
    show_registers(rng, code)


def push_registers(rng: random.Random, code: Code) -> None:
    """PUSHM over the registers: that of the greatest address is written first."""
    open_mostly(rng, code)
    vault = code.places.vault
    values = (random_bits(rng), vault.end >> 4, vault.first >> 4)
    if rng.random() < 0.3:
        values = tuple(rng.sample(values, 3))
    for number, value in zip((8, 9, 10), values):
        code.put(assembler.set_register(number, value))
    code.put(assembler.set_register(assembler.SP, rng.choice((0x05B0,) * 4 + (0x05AE, 0x05B2))))
    width = rng.choice((0x0100, 0x0100, 0x0000))
    code.put([0x1400 | width | (rng.choice((3, 3, 2, 4)) - 1) << 4 | 10])
    code.put(assembler.set_register(assembler.SP, 0x2400))
    show_registers(rng, code)


def close_port(rng: random.Random, code: Code) -> None:
    for address, word in zip(PORT_IS_CLOSED_BY, closing_words(rng)):
        if rng.random() < 0.8:
            code.put(assembler.store(address, word))


def closing_words(rng: random.Random) -> list[int]:
    """The words that close the debug port, or words like them."""
    first = rng.choice((CLOSING_WORD, CLOSING_WORD, CLOSING_WORD, 0x5554, 0x0055, 0x1234))
    other = rng.choice((CLOSING_WORD, CLOSING_WORD, 0x5455, 0x2555))
    words = [first, rng.choice((first, first, other))]
    rng.shuffle(words)
    return words


def open_port(rng: random.Random, code: Code) -> None:
    word = rng.choice((0xFFFF, 0, 0x5545, 0xD555))
    code.put(assembler.store(rng.choice(PORT_IS_CLOSED_BY), word))


ACTIONS = (
    (encapsulate, 3), (take_back, 1), (show_registers, 1), (show_violation, 2),
    (write_registers, 2), (write_two_registers, 1), (push_registers, 1), (set_nmi, 0.5),
    (close_port, 0.12), (open_port, 0.7),
)


def act_on_encapsulation(rng: random.Random, code: Code) -> None:
    choices, weights = zip(*ACTIONS)
    rng.choices(choices, weights)[0](rng, code)
