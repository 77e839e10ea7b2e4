"""What a case's program does with the system registers, the ports, the watchdog and SR.

Each action puts a few instructions behind the code that it gets. What it reads it shows, by a copy
to the OUT of a port.
"""

import random

import assembler
from assembler import absolute, immediate, indirect, register, two
from layout import Code

STATUS_BITS = (0x0008, 0x0010, 0x0020, 0x0040, 0x0080)
CHANGES = ("MOV", "BIS", "BIC", "XOR", "ADD", "SUB", "AND", "ADDC", "DADD", "SUBC")

PORT_OUTPUTS = (0x0202, 0x0222)
PORT_DIRECTIONS = (0x0204, 0x0224)
PORT_DISTANCES = (0x00, 0x02, 0x04, 0x06, 0x0A, 0x0C, 0x0E, 0x16, 0x18, 0x1A, 0x1C, 0x1E)
PORTS_THAT_READ_0 = (0x08, 0x10, 0x12, 0x14)
OUT, DIR, IES, IE, IFG = 0x02, 0x04, 0x18, 0x1A, 0x1C

SFRIE1, SFRIFG1 = 0x0100, 0x0102
PMMCTL0, PM5CTL0 = 0x0120, 0x0130
WDTCTL = 0x015C
SYSCTL, SYSSNIV, SYSRSTIV = 0x0180, 0x019C, 0x019E
CLOCKS = tuple(range(0x0160, 0x016E, 2))
SYSTEM_REGISTERS = (SFRIE1, SFRIFG1, PMMCTL0, PM5CTL0, WDTCTL, SYSCTL, SYSSNIV, SYSRSTIV)
NOT_BUILT = (0x0104, 0x0122, 0x012E, 0x0132, 0x015A, 0x015E, 0x016E, 0x0182, 0x01A0, 0x0240, 0x0FFE)
OUTSIDE = (0x1000, 0x17FE, 0x1800, 0x19FE, 0x1A00, 0x1AFF, 0x1B00, 0x1BFF, 0x1C00, 0x23FF, 0x2400,
           0x43FF, 0x4400, 0xFFFC, 0xFFFE)
VECTORS = (0x4400, 0xFFFC, 0xFFFE)  # and where code may lie: these are only read


def word_of_any_kind(rng: random.Random) -> int:
    kind = rng.randrange(5)
    if kind == 0:
        return rng.choice((0, 0xFFFF, 0x8000, 0x7FFF, 1))
    if kind == 1:
        return 1 << rng.randrange(16)
    if kind == 2:
        return rng.randrange(16)
    return rng.randrange(0x10000)


def half_or_word(rng: random.Random, address: int) -> tuple[int, bool]:
    """The address of the word or of one of its bytes, and whether it is a byte.

    A word at an odd address comes too, since it is one at the even address below.
    """
    if rng.random() < 0.5:
        return address + rng.randrange(2), True
    return address + (rng.random() < 0.1), False


# Reads that show

def show(rng: random.Random, code: Code, address: int) -> None:
    """Reads an address and writes what it read to an OUT."""
    at, as_byte = half_or_word(rng, address)
    output = rng.choice(PORT_OUTPUTS) + (rng.randrange(2) if as_byte else 0)
    if rng.random() < 0.6:
        code.put(assembler.copy(at, output, as_byte))
    else:
        helper = rng.randrange(4, 16)
        code.put(two("MOV", absolute(at), register(helper), as_byte))
        change = rng.choice(("MOV", "XOR", "ADD"))
        code.put(two(change, register(helper), absolute(output), as_byte))


def show_register(rng: random.Random, code: Code, number: int | None = None) -> None:
    if number is None:
        number = rng.choice((1, 2, *range(4, 16)))
    if rng.random() < 0.3:
        show_high_bits(rng, code, number)
        return
    code.put(two("MOV", register(number), absolute(rng.choice(PORT_OUTPUTS))))


def show_high_bits(rng: random.Random, code: Code, number: int) -> None:
    """Stores all 20 bits of a register by MOVA, and shows the upper word."""
    place = 0x1C00 + 2 * rng.randrange(0x20, 0x40)
    code.put([0x0060 | number << 8, place])
    code.put(assembler.copy(place + 2, rng.choice(PORT_OUTPUTS)))


def show_status(rng: random.Random, code: Code) -> None:
    code.put(two("MOV", register(2), absolute(rng.choice(PORT_OUTPUTS))))


# Pins

def open_pins(rng: random.Random, code: Code) -> None:
    """Clears the lock and makes the pins outputs, most often all of them."""
    steps = [assembler.store(PM5CTL0, 0)]
    for direction in PORT_DIRECTIONS:
        value = 0xFFFF if rng.random() < 0.8 else word_of_any_kind(rng)
        steps.append(assembler.store(direction, value))
    rng.shuffle(steps)
    for step in steps:
        code.put(step)


def act_on_ports(rng: random.Random, code: Code) -> None:
    base = rng.choice((0x0200, 0x0220))
    if rng.random() < 0.4:
        show(rng, code, base + rng.choice(PORT_DISTANCES + PORTS_THAT_READ_0))
        return
    distance = rng.choice(PORT_DISTANCES + PORTS_THAT_READ_0 + (OUT, DIR, IES, IE, IFG) * 2)
    if distance == DIR and rng.random() < 0.5:
        distance = OUT
    change_and_show(rng, code, base + distance, word_of_any_kind(rng))


def enable_port_interrupts(rng: random.Random, code: Code) -> None:
    base = rng.choice((0x0200, 0x0220))
    enabled = rng.choice((0xFFFF, 0x00FF, 0xFF00, word_of_any_kind(rng)))
    code.put(assembler.store(base + IE, enabled))
    if rng.random() < 0.5:
        code.put(assembler.store(base + IES, word_of_any_kind(rng)))
    if rng.random() < 0.4:
        code.put(assembler.store(base + IFG, word_of_any_kind(rng)))
    if rng.random() < 0.5:
        code.put(assembler.store(base + DIR, word_of_any_kind(rng)))


def change(rng: random.Random, code: Code, address: int, value: int) -> None:
    """Writes a value, or changes what is there by it."""
    at, as_byte = half_or_word(rng, address)
    name = "MOV" if rng.random() < 0.6 else rng.choice(CHANGES)
    code.put(two(name, immediate(value), absolute(at), as_byte))


# System registers

def act_on_system(rng: random.Random, code: Code) -> None:
    chance = rng.random()
    if chance < 0.3:
        show(rng, code, rng.choice(SYSTEM_REGISTERS + (rng.choice(CLOCKS),)))
    elif chance < 0.4:
        write_power_control(rng, code)
    elif chance < 0.45:
        change(rng, code, PM5CTL0, rng.choice((0, 0, 1, word_of_any_kind(rng))))
    elif chance < 0.52:
        act_outside(rng, code)
    elif chance < 0.525:
        show(rng, code, rng.choice(NOT_BUILT))
    elif chance < 0.6:
        act_while_locked(rng, code)
    else:
        plain = (SFRIE1, SFRIFG1, SYSCTL, SYSSNIV, SYSRSTIV, rng.choice(CLOCKS))
        change_and_show(rng, code, rng.choice(plain), word_of_any_kind(rng))


def change_and_show(rng: random.Random, code: Code, address: int, value: int) -> None:
    change(rng, code, address, value)
    if rng.random() < 0.6:
        show(rng, code, address)


def act_outside(rng: random.Random, code: Code) -> None:
    """Writes and reads at the borders of the memory map."""
    address = rng.choice(OUTSIDE)
    if rng.random() < 0.5 and address not in VECTORS:
        change(rng, code, address, word_of_any_kind(rng))
    show(rng, code, address)
    if rng.random() < 0.3:
        show_far(rng, code)


def show_far(rng: random.Random, code: Code) -> None:
    """Reads above 64 KB, through a register."""
    address = rng.choice((0x10000, 0x13EFE, 0x13F01, 0x13FFE, 0x14000, 0x14001, 0xFFFFE, 0xFFFFF))
    as_byte = rng.random() < 0.5
    code.put(assembler.set_register(11, address))
    code.put(two("MOV", indirect(11), absolute(rng.choice(PORT_OUTPUTS)), as_byte))


def act_while_locked(rng: random.Random, code: Code) -> None:
    """Locks the pins a while. What was read meanwhile is shown behind it."""
    code.put(assembler.store(PM5CTL0, rng.choice((1, 0xFFFF, 0x0101))))
    base = rng.choice((0x0200, 0x0220))
    if rng.random() < 0.5:
        code.put(assembler.store(base + rng.choice((OUT, DIR)), word_of_any_kind(rng)))
    if rng.random() < 0.3:
        code.put(assembler.store(PM5CTL0 + 1, rng.randrange(256), as_byte=True))
    wait_ticks(rng, code, rng.randrange(20))
    kept = (PM5CTL0, base, base + IFG, base + OUT)
    for number, address in enumerate(kept, start=4):
        code.put(two("MOV", absolute(address), register(number)))
    code.put(assembler.store(PM5CTL0, rng.choice((0, 0xFFFE))))
    for number in range(4, 4 + len(kept)):
        code.put(two("MOV", register(number), absolute(rng.choice(PORT_OUTPUTS))))


def write_power_control(rng: random.Random, code: Code) -> None:
    """A few writes of PMMCTL0, since a byte of it depends on the writes before."""
    if rng.random() < 0.5:
        open_and_close_latch(rng, code)
        return
    for _ in range(rng.randrange(1, 4)):
        upper = 0xA5 if rng.random() < 0.7 else rng.choice((0x96, 0x5A, rng.randrange(256)))
        lower = rng.choice((0, 0, 1, 3, 0xF3, 0x04, 0x08, 0x0C, rng.randrange(256)))
        kind = rng.randrange(3)
        if kind == 0:
            code.put(assembler.store(PMMCTL0, upper << 8 | lower))
        elif kind == 1:
            code.put(assembler.store(PMMCTL0 + 1, upper, as_byte=True))
        else:
            code.put(assembler.store(PMMCTL0, lower, as_byte=True))
    show(rng, code, PMMCTL0)


def open_latch(rng: random.Random, code: Code) -> None:
    if rng.random() < 0.5:
        code.put(assembler.store(PMMCTL0, 0xA500 | rng.choice((0, 1, 0xF3))))
    else:
        code.put(assembler.store(PMMCTL0 + 1, 0xA5, as_byte=True))


def open_and_close_latch(rng: random.Random, code: Code) -> None:
    """Opens the latch or doesn't, may close it, and writes a byte that needs it open."""
    if rng.random() < 0.7:
        open_latch(rng, code)
    if rng.random() < 0.4:
        code.put(assembler.store(PMMCTL0 + 1, rng.choice((0, 0x5A, 0x96)), as_byte=True))
    show(rng, code, PMMCTL0)
    code.put(assembler.store(PMMCTL0, rng.choice((0, 4, 8, 0x0C)), as_byte=True))


# The watchdog

def stop_watchdog(rng: random.Random, code: Code) -> None:
    code.put(assembler.store(WDTCTL, 0x5A80))


def act_on_watchdog(rng: random.Random, code: Code) -> None:
    chance = rng.random()
    if chance < 0.25:
        show(rng, code, WDTCTL)
    elif chance < 0.3:
        change(rng, code, WDTCTL, 0x5A00 | rng.randrange(256))
    elif chance < 0.33:
        code.put(assembler.store(WDTCTL + rng.randrange(2), rng.choice((0x5A, 0x80)), as_byte=True))
    elif chance < 0.36:
        code.put(assembler.store(WDTCTL, rng.choice((0x6900, 0xA500, 0x5B00)) | rng.randrange(256)))
    elif chance < 0.6:
        shorten_interval(rng, code)
    else:
        set_watchdog(rng, code)


def shorten_interval(rng: random.Random, code: Code) -> None:
    """Makes an interval shorter than what was counted of it, most often."""
    if rng.random() < 0.6:
        code.put(assembler.store(WDTCTL, 0x5A16 | rng.choice((0, 8, 8))))
        wait_ticks(rng, code, rng.choice((20, 50, 80, 200)))
    code.put(assembler.store(SFRIFG1, 0))
    code.put(assembler.store(WDTCTL, 0x5A17))
    watch(rng, code, [SFRIFG1], most=30)


def set_watchdog(rng: random.Random, code: Code) -> None:
    interval = rng.choice((7, 7, 7, 7, 6, 6, rng.randrange(8)))
    source = rng.choice((0, 0, 0x20, rng.choice((0x40, 0x60))))
    mode = 0x10 if rng.random() < 0.7 else 0
    hold = 0x80 if rng.random() < 0.2 else 0
    clear = 0x08 if rng.random() < 0.4 else 0
    code.put(assembler.store(WDTCTL, 0x5A00 | interval | source | mode | hold | clear))
    if rng.random() < 0.5:
        code.put(assembler.store(SFRIE1, rng.choice((1, 1, word_of_any_kind(rng)))))


# SR, and waiting

def act_on_status(rng: random.Random, code: Code) -> None:
    chance = rng.random()
    if chance < 0.4:
        code.put([assembler.ENABLE_INTERRUPTS])
    elif chance < 0.5:
        code.put([assembler.DISABLE_INTERRUPTS])
    elif chance < 0.65:
        code.put(two("BIC", immediate(rng.choice(STATUS_BITS)), register(2)))
    elif chance < 0.85:
        bits = sum(bit for bit in STATUS_BITS if rng.random() < 0.4)
        if rng.random() < 0.3:
            bits = 0x0040
        code.put(two("BIS", immediate(bits | 0x0008), register(2)))
    elif chance < 0.9:
        code.put(two("MOV", immediate(rng.randrange(0x10000) & ~0x10), register(2)))
        show_status(rng, code)
    else:
        show_status(rng, code)


def wait(rng: random.Random, code: Code) -> None:
    chance = rng.random()
    if chance < 0.4:
        code.put([assembler.NOP] * rng.randrange(1, 6))
        return
    count = rng.choice((3, 10, 30, 100))
    code.put(two("MOV", immediate(rng.randrange(1, count)), register(13)))
    loop = code.here
    code.put(two("SUB", immediate(1), register(13)))
    code.jump("JNE", loop)


def wait_ticks(rng: random.Random, code: Code, ticks: int) -> None:
    """Waits about so many ticks: a round of its loop has 4."""
    code.put([assembler.NOP] * (ticks % 4))
    if ticks < 8:
        return
    code.put(two("MOV", immediate(ticks // 4), register(13)))
    loop = code.here
    code.put(two("SUB", immediate(1), register(13)))
    code.jump("JNE", loop)


def watch(rng: random.Random, code: Code, addresses: list[int], most: int = 60) -> None:
    """Shows a few addresses again and again."""
    code.put(two("MOV", immediate(rng.randrange(2, most)), register(14)))
    loop = code.here
    for address in addresses:
        code.put(assembler.copy(address, rng.choice(PORT_OUTPUTS)))
    code.put(two("SUB", immediate(1), register(14)))
    code.jump("JNE", loop)


def watch_anything(rng: random.Random, code: Code) -> None:
    choices = (0x0200, 0x0220, 0x021C, 0x023C, SFRIFG1, WDTCTL, 0x020E, 0x021E, 0x022E, 0x023E)
    watch(rng, code, rng.sample(choices, rng.randrange(1, 4)))
