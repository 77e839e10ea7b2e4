"""What a case's program does with the FRAM controller and the memory protection unit.

Borders and rights are random, but most often so that the program's own code may be fetched: where
it may not, soon nothing else comes.
"""

import random

import actions
import assembler
from assembler import Operand, absolute, immediate, two
from layout import INFORMATION, INFORMATION_SIZE, SLOT_SIZE, Code

FRCTL0, GCCTL0, GCCTL1 = 0x0140, 0x0144, 0x0146
MPUCTL0, MPUCTL1, MPUSEGB2, MPUSEGB1, MPUSAM = 0x05A0, 0x05A2, 0x05A4, 0x05A6, 0x05A8
SYSSNIV = actions.SYSSNIV
REGISTERS = (MPUCTL0, MPUCTL1, MPUSEGB2, MPUSEGB1, MPUSAM, SYSSNIV)
FRAM_REGISTERS = (FRCTL0, 0x0142, GCCTL0, GCCTL1)
# Addresses without a register.
NOWHERE = (0x0000, 0x0002, 0x00FE, 0x0104, 0x011E, 0x0122, 0x0132, 0x013E, 0x0148, 0x015A, 0x015E,
           0x016E, 0x0182, 0x019A, 0x01A0, 0x01FE, 0x0240, 0x033E, 0x0370, 0x03B0, 0x03F0, 0x04FE,
           0x0540, 0x059E, 0x05B0, 0x05C0, 0x0640, 0x0FFE)
ENCAPSULATION = (0x05AA, 0x05AC, 0x05AE)

PASSWORD = 0xA500
CHANGE_OF_WHAT_READS = 0x9600 ^ PASSWORD  # XOR makes the password of what the register reads
ENA, LOCK, SEGIE = 0x01, 0x02, 0x10
RE, WE, XE, VS = 1, 2, 4, 8
SEGMENTS = 3
INFORMATION_PLACE = 3

GRAIN = 0x0400  # borders are multiples of it
MAIN = (0x4400, 0x14000)
CONTINUATION = 11  # the register that says where to go on behind a fetch that is refused


# Addresses

def border_near(address: int, rng: random.Random) -> int:
    return (address & ~(GRAIN - 1)) + GRAIN * rng.choice((0, 0, 1, 1, -1))


def random_border(rng: random.Random, code: Code) -> int:
    chance = rng.random()
    places = code.places
    if chance < 0.3:
        return border_near(code.address, rng)
    if chance < 0.5:
        return places.bridge
    if chance < 0.6:
        return border_near(rng.choice((places.start, places.nmi)), rng)
    if chance < 0.7:
        return rng.choice((0, 0x4400, 0x10000, 0x14000, 0x13C00, 0xFC00, 0xFFC00, 0x12C00))
    return rng.randrange(MAIN[0], MAIN[1] + GRAIN, GRAIN)


def address_in_fram(rng: random.Random, code: Code) -> int:
    if code.places.vault and rng.random() < 0.6:
        return code.places.vault.random_address(rng)
    chance = rng.random()
    if chance < 0.22:
        return INFORMATION + rng.randrange(INFORMATION_SIZE)
    if chance < 0.42:
        return code.address + rng.randrange(SLOT_SIZE)
    if chance < 0.57:
        return code.places.bridge + rng.randrange(-6, 6)
    if chance < 0.62:
        return rng.choice((0x4400, 0x13FFE, 0x13FFF, 0x10000, 0xFFFF, 0xFFFE, 0x19FF, 0x1800))
    return rng.randrange(*MAIN)


def free_address_in_fram(rng: random.Random, code: Code) -> int:
    """Where seldom code lies: behind what most slots hold, and the end of information FRAM."""
    if code.places.vault and rng.random() < 0.6:
        return code.places.vault.random_free_address(rng)
    if rng.random() < 0.25:
        return INFORMATION + INFORMATION_SIZE - 1 - rng.randrange(0x30)
    if rng.random() < 0.25:
        return code.places.bridge - 0x20 - rng.randrange(0x60)
    slot = rng.randrange(MAIN[0], MAIN[1], SLOT_SIZE)
    if slot == 0xFC00:
        return slot + rng.randrange(0x300)  # the vectors end it
    return slot + SLOT_SIZE - 1 - rng.randrange(0x40)


def far(
    name: str, source: tuple[Operand, int], destination: tuple[Operand, int], width: int
) -> list[int]:
    """An extended instruction; each operand has bits 19:16 of its address or value beside it."""
    is_not_20_bits = 0x0040 if width < 20 else 0
    extension = 0x1800 | source[1] << 7 | is_not_20_bits | destination[1]
    return [extension, *two(name, source[0], destination[0], as_byte=width != 16)]


def at(address: int) -> tuple[Operand, int]:
    return absolute(address & 0xFFFF), address >> 16


def move(rng: random.Random, name: str, source: int, destination: int) -> list[int]:
    """From address to address, in any width that comes."""
    width = rng.choice((8, 8, 16, 16, 20))
    if width < 20 and max(source, destination) < 0x10000 and rng.random() < 0.7:
        return two(name, absolute(source), absolute(destination), width == 8)
    return far(name, at(source), at(destination), width)


# The FRAM controller

def waits_byte(rng: random.Random) -> int:
    """NWAITS, which is small most often: many waits leave few instructions to a run."""
    noise = rng.choice((0, 0, 0, 0x80, 0x08, 0x8F, rng.randrange(256) & 0x8F))
    waits = rng.choice((0, 0, 0, 0, 1, 1, 1, 2, 3, 4, 5, 6, 7))
    return waits << 4 | noise


def set_waits(rng: random.Random, code: Code) -> None:
    kind = rng.randrange(9)
    if kind < 3:
        code.put(assembler.store(FRCTL0, PASSWORD | waits_byte(rng)))
    elif kind == 3:
        code.put(two("XOR", immediate(CHANGE_OF_WHAT_READS | waits_byte(rng)), absolute(FRCTL0)))
    elif kind < 6:
        write_by_bytes(rng, code, FRCTL0, waits_byte(rng))
    elif kind == 6:
        set_waits_by_20_bits(rng, code)
    elif kind == 7:
        name = rng.choice(("BIS", "BIC", "XOR", "ADD"))
        code.put(two(name, immediate(waits_byte(rng)), absolute(FRCTL0), as_byte=True))
    else:
        code.put(move(rng, "MOV", address_in_fram(rng, code), FRCTL0 + 1))
        code.put(assembler.store(FRCTL0, waits_byte(rng), as_byte=True))
    if rng.random() < 0.4:
        actions.show(rng, code, FRCTL0)


def set_waits_by_20_bits(rng: random.Random, code: Code) -> None:
    """MOVA to the address of FRCTL0. Its upper word goes to 0142h, where nothing is."""
    number = rng.randrange(4, 16)
    value = rng.randrange(16) << 16 | PASSWORD | waits_byte(rng)
    code.put(assembler.set_register(number, value))
    code.put([0x0060 | number << 8, FRCTL0])


def write_by_bytes(rng: random.Random, code: Code, control: int, lower: int) -> None:
    """Opens or closes the latch by a byte or leaves it, and writes the lower byte."""
    upper = rng.choice((0xA5, 0xA5, 0xA5, 0x00, 0x96, 0x5A, None))
    if upper is not None:
        code.put(assembler.store(control + 1, upper, as_byte=True))
    code.put(assembler.store(control, lower, as_byte=True))


def write_plain_fram_registers(rng: random.Random, code: Code) -> None:
    if rng.random() < 0.6:
        code.put(assembler.store(FRCTL0 + 1, rng.choice((0xA5, 0xA5, 0xA5, 0)), as_byte=True))
    for _ in range(rng.randrange(1, 4)):
        address = rng.choice((GCCTL0, GCCTL1, GCCTL0, GCCTL1, 0x0142, 0x0148))
        actions.change(rng, code, address, actions.word_of_any_kind(rng))
        actions.show(rng, code, address)
    if rng.random() < 0.15:
        code.put(assembler.store(actions.PMMCTL0, rng.choice((0xA504, 0xA508))))


def wrong_password(rng: random.Random, code: Code) -> None:
    control = rng.choice((FRCTL0, MPUCTL0, MPUCTL0))
    wrong = rng.choice((0x9600, 0x5A00, 0xA400, 0x2500, rng.randrange(0xA5) << 8))
    code.put(assembler.store(control, wrong | rng.choice((0x01, 0x11, 0x70, rng.randrange(256)))))


# The memory protection unit

def place_of(address: int, first: int, second: int) -> int:
    if address < MAIN[0]:
        return INFORMATION_PLACE
    if address >= second:
        return 2
    return 1 if address >= first else 0


def random_rights_of_a_place(rng: random.Random) -> int:
    if rng.random() < 0.25:
        return rng.choice((7, 7, 15))
    return rng.randrange(8) | (VS if rng.random() < 0.3 else 0)


def random_rights(rng: random.Random, code: Code, first: int, second: int) -> int:
    """Of all places. Code, start and the NMI's routine keep what they need most often."""
    rights = [random_rights_of_a_place(rng) for _ in range(SEGMENTS + 1)]
    needs = ((code.address, XE, 0.97), (code.places.nmi, XE, 0.96),
             (code.places.start, XE | RE, 0.9))
    for address, needed, share in needs:
        if rng.random() < share:
            rights[place_of(address, first, second)] |= needed
    return sum(bits << 4 * place for place, bits in enumerate(rights))


def open_latch(rng: random.Random, code: Code) -> None:
    if rng.random() < 0.6:
        code.put(assembler.store(MPUCTL0 + 1, 0xA5, as_byte=True))
    else:
        code.put(assembler.store(MPUCTL0, PASSWORD))


def write_word(rng: random.Random, code: Code, address: int, value: int) -> None:
    """As a word, or as two bytes."""
    if rng.random() < 0.8:
        code.put(assembler.store(address, value))
        return
    halves = [(address, value & 0xFF), (address + 1, value >> 8)]
    rng.shuffle(halves)
    for place, half in halves:
        code.put(assembler.store(place, half, as_byte=True))


def set_segments(rng: random.Random, code: Code) -> None:
    first, second = random_border(rng, code), random_border(rng, code)
    if first > second and rng.random() < 0.6:
        first, second = second, first
    noise = rng.choice((0, 0, 0, 0x3F, rng.randrange(0x40)))
    rights = random_rights(rng, code, first, second)
    words = [(MPUSEGB1, first >> 4 | noise), (MPUSEGB2, second >> 4 | noise), (MPUSAM, rights)]
    rng.shuffle(words)
    for address, value in words:
        write_word(rng, code, address, value)


def random_control(rng: random.Random, lock_share: float = 0.04) -> int:
    enable = ENA if rng.random() < 0.92 else 0
    interrupt = SEGIE if rng.random() < 0.75 else 0
    lock = LOCK if rng.random() < lock_share else 0
    noise = rng.randrange(256) & 0xEC if rng.random() < 0.1 else 0
    return enable | interrupt | lock | noise


def set_control(rng: random.Random, code: Code, control: int) -> None:
    kind = rng.randrange(10)
    if kind < 7:
        code.put(assembler.store(MPUCTL0, PASSWORD | control))
    elif kind == 7:
        code.put(assembler.store(MPUCTL0, control, as_byte=True))
    else:
        write_by_bytes(rng, code, MPUCTL0, control)
    if rng.random() < 0.35:
        code.put(assembler.store(MPUCTL0 + 1, rng.choice((0, 0x96)), as_byte=True))


def arm(rng: random.Random, code: Code) -> None:
    """Borders, rights and the control: what comes behind it may be refused."""
    open_latch(rng, code)
    if rng.random() < 0.92:
        set_segments(rng, code)
    set_control(rng, code, random_control(rng))


def disarm(rng: random.Random, code: Code) -> None:
    code.put(assembler.store(MPUCTL0, PASSWORD | rng.choice((0, 0, SEGIE))))


def set_control_by_20_bits(rng: random.Random, code: Code) -> None:
    """MOVA to MPUCTL0. Its upper word goes to MPUCTL1, where it clears flags."""
    number = rng.randrange(4, 16)
    password = rng.choice((PASSWORD, PASSWORD, 0x9600))
    if rng.random() < 0.5:
        open_latch(rng, code)
    value = rng.randrange(16) << 16 | password | random_control(rng)
    code.put(assembler.set_register(number, value))
    code.put([0x0060 | number << 8, MPUCTL0])
    actions.show(rng, code, MPUCTL1)


def show_flags(rng: random.Random, code: Code) -> None:
    for _ in range(rng.randrange(1, 5)):
        actions.show(rng, code, rng.choice((MPUCTL1, MPUCTL1, SYSSNIV, SYSSNIV, MPUCTL0)))


def touch_number(rng: random.Random, code: Code) -> None:
    """Reads or writes SYSSNIV as a word or either byte."""
    if rng.random() < 0.7:
        actions.show(rng, code, SYSSNIV)
    else:
        actions.change(rng, code, SYSSNIV, actions.word_of_any_kind(rng))


def write_flags(rng: random.Random, code: Code) -> None:
    """Clears some of the flags by a write, with the latch open or closed."""
    chance = rng.random()
    if chance < 0.6:
        open_latch(rng, code)
    elif chance < 0.8:
        code.put(assembler.store(MPUCTL0 + 1, 0, as_byte=True))
    actions.show(rng, code, MPUCTL1)
    kept = rng.choice((0, 0xFFFF, rng.randrange(32), 1 << rng.randrange(5), 0xFF00, 0x1F))
    how = rng.randrange(4)
    if how == 0:
        code.put(assembler.store(MPUCTL1 + 1, kept & 0xFF, as_byte=True))
    elif how == 1:
        code.put(two(rng.choice(("BIC", "AND", "XOR", "BIS")), immediate(kept), absolute(MPUCTL1)))
    else:
        code.put(assembler.store(MPUCTL1, kept, as_byte=how == 2))
    actions.show(rng, code, MPUCTL1)
    if rng.random() < 0.4:
        touch_number(rng, code)


def write_registers(rng: random.Random, code: Code) -> None:
    """Any registers, by bytes and words, whether or not they can be written."""
    for _ in range(rng.randrange(1, 4)):
        address = rng.choice((MPUSEGB1, MPUSEGB2, MPUSAM))
        actions.change(rng, code, address, rng.choice((0x7777, rng.randrange(0x10000))))
        actions.show(rng, code, address)


def show_registers(rng: random.Random, code: Code) -> None:
    for _ in range(rng.randrange(1, 4)):
        actions.show(rng, code, rng.choice(REGISTERS + FRAM_REGISTERS))


def touch_nowhere(rng: random.Random, code: Code) -> None:
    for _ in range(rng.randrange(1, 4)):
        address = rng.choice(NOWHERE)
        if rng.random() < 0.3:
            address = rng.randrange(0, 0x1000, 2)  # a register now and then
        if rng.random() < 0.01:
            address = rng.choice(ENCAPSULATION)
        if rng.random() < 0.5:
            actions.change(rng, code, address, actions.word_of_any_kind(rng))
        actions.show(rng, code, address)


ACTIONS = (
    (set_waits, 2), (write_plain_fram_registers, 0.7), (wrong_password, 0.25), (arm, 3),
    (show_flags, 2), (touch_number, 2), (write_flags, 2), (write_registers, 0.6),
    (show_registers, 1), (set_control_by_20_bits, 0.5), (touch_nowhere, 1.2), (disarm, 0.7),
)


def act_on_protection(rng: random.Random, code: Code) -> None:
    choices, weights = zip(*ACTIONS)
    rng.choices(choices, weights)[0](rng, code)
