"""What a case's program does with DMA: channels set up in all ways, and their registers written.

What a transfer brings shows by itself where it goes to a port, and by a loop of copies otherwise.
"""

import random

import actions
import assembler
import timer_actions
from assembler import absolute, immediate, two
from layout import Code

DMACTL0, DMACTL1, DMACTL4, DMAIV = 0x0500, 0x0502, 0x0508, 0x050E
CHANNELS = (0x0510, 0x0520, 0x0530)
CTL, SOURCE, DESTINATION, SZ = 0x00, 0x02, 0x06, 0x0A
EN, IFG, IE, REQ = 0x0010, 0x0008, 0x0004, 0x0001
WORDS_TO_BYTES, BYTES_TO_WORDS, BYTES = 0x0080, 0x0040, 0x00C0
UPWARD, DOWNWARD = 3, 2
UNUSED_BITS = 0x8022  # bit 15, LEVEL and ABORT, which have no effect

FIRST_TRIGGERS = {0x0340: 1, 0x0380: 3, 0x03C0: 7}  # by CCR0; that by CCR2 is the next number
SMCLK = 0x0200

SRAM = (0x1C40, 0x23C0)
FREE_FRAM = (0xFC00, 0xFF00)
PORTS_OUT = (0x0202, 0x0203, 0x0222, 0x0223)
SYSTEM_SOURCES = (actions.SYSRSTIV, actions.SFRIFG1, actions.PM5CTL0, actions.WDTCTL,
                  actions.PMMCTL0, actions.SYSCTL, 0x0200, 0x0220, 0x021C, 0x020E, 0x021E)
SYSTEM_DESTINATIONS = (actions.SYSRSTIV, actions.SFRIFG1, actions.SFRIE1, actions.SYSCTL,
                       actions.SYSSNIV, 0x0218, 0x021A, 0x021C, 0x020E, 0x021E, 0x022E)
VACANT = (0x1000, 0x17F0, 0x2400, 0x43F0, 0x1A00, 0x14000, 0x80000, 0xFFF00)
BORDERS = (0x13FFA, 0x13FFC, 0x0FFFC, 0x0FFFD, 0x10000, 0x10002, 0x10003, 0x01BFC, 0x023FC, 0x043FC,
           0x19FC, 0x1AFC, 0x1802)


# Addresses and sizes

def favourite_channel(rng: random.Random, code: Code) -> int:
    """A channel, and most often one of the program's own, so that its actions meet."""
    if rng.random() < 0.5:
        return CHANNELS[code.favourite_timer // 0x40 % 3]
    return rng.choice(CHANNELS)


def own_register(rng: random.Random) -> int:
    if rng.random() < 0.25:
        return rng.choice((DMAIV, DMAIV, DMACTL0, DMACTL1, DMACTL4, 0x0504, 0x050A))
    base = rng.choice(CHANNELS)
    return base + rng.choice((CTL, CTL, CTL, SZ, SZ, SZ, 2, 4, 6, 8, 0x0C, 0x0E))


def random_source(rng: random.Random, code: Code) -> int:
    chance = rng.random()
    if chance < 0.35:
        return rng.randrange(code.address, code.address + 0x100)  # the program's own words
    if chance < 0.55:
        return rng.randrange(*SRAM)
    if chance < 0.63:
        return rng.choice(BORDERS) + rng.randrange(-1, 2)
    if chance < 0.72:
        return timer_actions.random_register(rng, timer_actions.random_base(rng, code))
    if chance < 0.84:
        return own_register(rng) + (rng.random() < 0.2)
    if chance < 0.93:
        return rng.choice(SYSTEM_SOURCES) + (rng.random() < 0.2)
    return rng.choice(VACANT) + rng.randrange(0x0F)


def random_destination(rng: random.Random, code: Code) -> int:
    chance = rng.random()
    if chance < 0.55:
        return rng.choice(PORTS_OUT)
    if chance < 0.7:
        return rng.randrange(*SRAM)
    if chance < 0.77:
        return rng.choice((rng.randrange(*FREE_FRAM), rng.choice(BORDERS)))
    if chance < 0.84:
        return timer_actions.random_register(rng, timer_actions.random_base(rng, code))
    if chance < 0.92:
        return own_register(rng) + (rng.random() < 0.2)
    if chance < 0.97:
        return rng.choice(SYSTEM_DESTINATIONS) + (rng.random() < 0.2)
    return rng.choice(VACANT) + rng.randrange(0x0F)


def random_size(rng: random.Random) -> int:
    chance = rng.random()
    if chance < 0.5:
        return rng.randrange(1, 7)
    if chance < 0.9:
        return rng.randrange(5, 21)
    return rng.choice((0, 0, 1, 0x0100, 0x0101, 0xFFFF, rng.randrange(300)))


def random_step(rng: random.Random, address: int) -> int:
    """An INCR. Within the peripherals it leaves the address most often."""
    if address < 0x1000 and rng.random() < 0.85:
        return rng.randrange(2)
    return rng.choice((UPWARD, UPWARD, UPWARD, DOWNWARD, DOWNWARD, 0, 1))


def random_control(
    rng: random.Random, source: int, destination: int, modes: tuple[int, ...] = tuple(range(8))
) -> int:
    mode = rng.choice(modes) << 12
    steps = random_step(rng, destination) << 10 | random_step(rng, source) << 8
    widths = rng.choice((0, 0, 0, BYTES, BYTES, WORDS_TO_BYTES, BYTES_TO_WORDS))
    enable = EN if rng.random() < 0.93 else 0
    flag = IFG if rng.random() < 0.1 else 0
    interrupt = IE if rng.random() < 0.5 else 0
    request = REQ if rng.random() < 0.5 else 0
    unused = rng.randrange(0x10000) & UNUSED_BITS if rng.random() < 0.15 else 0
    return mode | steps | widths | enable | flag | interrupt | request | unused


def random_trigger(rng: random.Random, code: Code) -> int:
    chance = rng.random()
    if chance < 0.4:
        return 0
    if chance < 0.93:
        return trigger_of_timer(rng, code)
    return rng.choice((1, 2, 3, 4, 7, 8, rng.randrange(32)))


def trigger_of_timer(rng: random.Random, code: Code) -> int:
    return FIRST_TRIGGERS[code.favourite_timer] + rng.randrange(2)


# Setting up

def choose_trigger(rng: random.Random, code: Code, channel: int, trigger: int) -> None:
    """By a word or a byte; a word chooses for a channel beside this one too."""
    register = DMACTL1 if channel == CHANNELS[2] else DMACTL0
    upper = channel == CHANNELS[1]
    if rng.random() < 0.6:
        noise = rng.choice((0, 0, 0xE0))
        code.put(assembler.store(register + upper, trigger | noise, as_byte=True))
        return
    other = random_trigger(rng, code)
    code.put(assembler.store(register, trigger << 8 | other if upper else other << 8 | trigger))


def address_stores(rng: random.Random, at: int, address: int) -> list[list[int]]:
    """The two words of an address. The upper one is left as it is now and then."""
    stores = [assembler.store(at, address & 0xFFFF)]
    if address >> 16 or rng.random() < 0.7:
        noise = rng.choice((0, 0, 0, 0xFFF0))
        stores.append(assembler.store(at + 2, address >> 16 | noise))
    return stores


def set_addresses(
    rng: random.Random, code: Code, channel: int, source: int, destination: int, size: int
) -> None:
    stores = address_stores(rng, channel + SOURCE, source)
    stores += address_stores(rng, channel + DESTINATION, destination)
    stores.append(assembler.store(channel + SZ, size))
    rng.shuffle(stores)
    for store in stores:
        code.put(store)


def fill_source(rng: random.Random, code: Code, source: int) -> None:
    """Words that differ, where the source is SRAM."""
    if not SRAM[0] <= source < SRAM[1]:
        return
    for index in range(rng.randrange(5)):
        place = source + 2 * rng.choice((index, -index))
        code.put(assembler.store(place, rng.randrange(0x10000)))


def set_up_channel(
    rng: random.Random, code: Code, channel: int, modes: tuple[int, ...] = tuple(range(8))
) -> int:
    """Everything but the trigger. It answers the CTL that it wrote."""
    source, destination = random_source(rng, code), random_destination(rng, code)
    if rng.random() < 0.6:
        fill_source(rng, code, source)
    set_addresses(rng, code, channel, source, destination, random_size(rng))
    control = random_control(rng, source, destination, modes)
    code.put(assembler.store(channel + CTL, control))
    return control


def set_up(rng: random.Random, code: Code) -> None:
    channel = favourite_channel(rng, code)
    trigger = random_trigger(rng, code)
    choose_trigger(rng, code, channel, trigger)
    control = set_up_channel(rng, code, channel)
    if trigger and rng.random() < 0.7:
        start_timer(rng, code)
    elif not control & REQ and rng.random() < 0.8:
        request(rng, code, channel)
    see_what_comes(rng, code)


def set_up_three(rng: random.Random, code: Code) -> None:
    """Three channels that one timer triggers at once, or that are asked for one by one."""
    channels = list(CHANNELS)
    rng.shuffle(channels)
    trigger = rng.choice((0, trigger_of_timer(rng, code), trigger_of_timer(rng, code)))
    code.put(assembler.store(DMACTL0, trigger << 8 | trigger))
    code.put(assembler.store(DMACTL1, trigger))
    for channel in channels:
        set_simple_channel(rng, code, channel, rng.choice(range(8)), EN | rng.choice((0, IE)))
    if trigger:
        start_timer(rng, code)
    else:
        for channel in channels:
            code.put(two("BIS", immediate(REQ), absolute(channel)))
    see_what_comes(rng, code)


def set_simple_channel(
    rng: random.Random, code: Code, channel: int, mode: int, bits: int, size: int | None = None
) -> None:
    """From the program's words to a port, so that each transfer shows."""
    source = rng.randrange(code.address, code.address + 0x80)
    destination = rng.choice(PORTS_OUT)
    set_addresses(rng, code, channel, source, destination, size or rng.randrange(2, 21))
    widths = rng.choice((0, BYTES, WORDS_TO_BYTES, BYTES_TO_WORDS))
    unused = rng.randrange(0x10000) & UNUSED_BITS if rng.random() < 0.1 else 0
    control = mode << 12 | UPWARD << 8 | widths | bits | unused
    code.put(assembler.store(channel + CTL, control))


def start_timer(rng: random.Random, code: Code) -> None:
    """Lets the favourite timer come to CCR0 and CCR2 again and again."""
    base = code.favourite_timer
    limit = rng.choice((rng.randrange(1, 12), rng.randrange(10, 60), 30))
    if rng.random() < 0.1:
        limit = 0  # its steps do nothing, and trigger nothing
    code.put(assembler.store(timer_actions.compare_register(base, 0), limit))
    code.put(assembler.store(timer_actions.compare_register(base, 2), rng.randrange(limit + 1)))
    mode = rng.choice((0x0010, 0x0010, 0x0030, 0x0020))
    divisor = rng.choice((0, 0, 0, 0x0040))
    code.put(assembler.store(base + timer_actions.CTL, SMCLK | mode | divisor | 4))


def request(rng: random.Random, code: Code, channel: int) -> None:
    """REQ, which leaves EN, or sets it in the same write, or clears it."""
    kind = rng.randrange(4)
    if kind < 2:
        code.put(two("BIS", immediate(REQ), absolute(channel), kind == 0))
    elif kind == 2:
        code.put(two("BIS", immediate(EN | REQ), absolute(channel)))
    else:
        byte = rng.choice((EN, EN, EN, 0)) | REQ | rng.choice((0, IE)) | rng.choice((0, BYTES))
        code.put(assembler.store(channel, byte, as_byte=True))


def see_what_comes(rng: random.Random, code: Code) -> None:
    """Waits, watches registers, or goes on at once."""
    chance = rng.random()
    if chance < 0.35:
        actions.wait_ticks(rng, code, rng.randrange(60))
    elif chance < 0.7:
        watch_registers(rng, code)
    elif chance < 0.8:
        copy_memory_to_ports(rng, code)


def watch_registers(rng: random.Random, code: Code, most: int = 12) -> None:
    addresses = [random_register(rng, code) for _ in range(rng.randrange(1, 4))]
    actions.watch(rng, code, addresses, most)


def copy_memory_to_ports(rng: random.Random, code: Code) -> None:
    """Shows some words of SRAM, where transfers may have brought something."""
    place = rng.randrange(SRAM[0], SRAM[1], 2)
    for index in range(rng.randrange(1, 6)):
        code.put(assembler.copy(place + 2 * index, rng.choice(actions.PORT_OUTPUTS)))


# Registers

def random_register(rng: random.Random, code: Code) -> int:
    """One of DMA's registers, most often of the favourite channel."""
    chance = rng.random()
    if chance < 0.3:
        return own_register(rng)
    return favourite_channel(rng, code) + rng.choice((CTL, CTL, SZ, SZ, SZ, SOURCE, 4, 6, 8))


def read_registers(rng: random.Random, code: Code) -> None:
    for _ in range(rng.randrange(1, 5)):
        actions.show(rng, code, random_register(rng, code))


def write_registers(rng: random.Random, code: Code) -> None:
    """Writes, by bytes and words, whatever DMA does at the time."""
    for _ in range(rng.randrange(1, 4)):
        address = random_register(rng, code)
        actions.change(rng, code, address, value_for(rng, code, address))
        if rng.random() < 0.4:
            actions.show(rng, code, address)


def value_for(rng: random.Random, code: Code, address: int) -> int:
    """A value that lets transfers meet memory and ports, most often."""
    if address < CHANNELS[0]:
        return random_trigger(rng, code) * rng.choice((1, 0x0100, 0x0101))
    distance = address & 0x0F
    if distance == CTL:
        control = random_control(rng, 0, 0)
        return control & rng.choice((0xFFFF, 0xFFFF, EN | REQ, 0x7000, EN | IE, IE | IFG))
    if distance in (SOURCE, DESTINATION):
        return rng.choice((rng.randrange(*SRAM), rng.choice(PORTS_OUT)))
    if distance == SZ:
        return random_size(rng)
    return rng.choice((0, 0, 0, 1, 1, 0xFFFF))


def write_halves(rng: random.Random, code: Code) -> None:
    """Writes the registers of a channel by bytes, and shows them."""
    channel = favourite_channel(rng, code)
    if rng.random() < 0.5:
        code.put(two("BIC", immediate(EN), absolute(channel)))
    for _ in range(rng.randrange(1, 5)):
        address = channel + rng.choice((SOURCE, 4, DESTINATION, 8, SZ, SZ, CTL + 1))
        odd = rng.randrange(2) if address & 1 == 0 else 0
        code.put(assembler.store(address + odd, rng.randrange(0x100), as_byte=True))
        actions.show(rng, code, address & ~1)
    code.put(two("BIC", immediate(EN), absolute(channel)))


ACTIONS = (
    (set_up, 6), (set_up_three, 1.5), (read_registers, 2), (write_registers, 2), (write_halves, 1),
)


def act_on_dma(rng: random.Random, code: Code) -> None:
    choices, weights = zip(*ACTIONS)
    rng.choices(choices, weights)[0](rng, code)
