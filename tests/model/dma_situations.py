"""Situations of DMA that random writes seldom come to: each is set up, and then shown."""

import random

import actions
import assembler
import dma_actions
import timer_actions
from assembler import absolute, immediate, two
from dma_actions import (
    BYTES, BYTES_TO_WORDS, CHANNELS, CTL, DESTINATION, DMACTL0, DMACTL1, DMACTL4, DMAIV, EN, IE,
    IFG, PORTS_OUT, REQ, SOURCE, SRAM, SZ, UPWARD, WORDS_TO_BYTES, choose_trigger,
    favourite_channel, set_addresses, set_simple_channel, start_timer, trigger_of_timer,
)
from layout import Code

BURSTS = (2, 3, 6, 7)
SINGLE, REPEATED_SINGLE, REPEATED_BLOCK = 0, 4, 5
WIDTHS = (0, BYTES, WORDS_TO_BYTES, BYTES_TO_WORDS)


def by_request(rng: random.Random, code: Code, channel: int) -> None:
    choose_trigger(rng, code, channel, 0)


def ask(code: Code, channel: int) -> None:
    code.put(two("BIS", immediate(REQ), absolute(channel), as_byte=True))


def mode_byte(mode: int) -> int:
    """The upper half of CTL for a DT, with a source that steps up."""
    return mode << 4 | UPWARD


def burst(rng: random.Random, code: Code) -> None:
    """Bursts with their rests, while the processor has short or long instructions."""
    channel = favourite_channel(rng, code)
    by_request(rng, code, channel)
    set_simple_channel(rng, code, channel, rng.choice(BURSTS), EN | REQ | rng.choice((0, IE)))
    if rng.random() < 0.4:
        other = rng.choice(CHANNELS)
        by_request(rng, code, other)
        set_simple_channel(rng, code, other, rng.randrange(8), EN | REQ)
    actions.watch(rng, code, [rng.choice((channel + SZ, channel, 0x0200))], most=12)
    if rng.random() < 0.6:
        code.put(two("BIC", immediate(EN), absolute(channel)))


def disturb_burst(rng: random.Random, code: Code) -> None:
    """Changes a channel in its rests, where transfers of it wait."""
    channel = favourite_channel(rng, code)
    by_request(rng, code, channel)
    size = rng.randrange(5, 40)
    set_simple_channel(rng, code, channel, rng.choice(BURSTS), EN | REQ, size)
    for _ in range(rng.randrange(1, 5)):
        code.put([assembler.NOP] * rng.randrange(3))
        disturb(rng, code, channel)
    actions.show(rng, code, channel + SZ)
    actions.show(rng, code, channel)
    code.put(two("BIC", immediate(EN), absolute(channel)))


def disturb(rng: random.Random, code: Code, channel: int) -> None:
    kind = rng.randrange(8)
    if kind == 0:
        code.put(two("BIC", immediate(EN), absolute(channel), as_byte=rng.random() < 0.5))
        actions.show(rng, code, channel + SZ)
        code.put([assembler.NOP] * rng.randrange(3))
        code.put(two("BIS", immediate(EN | rng.choice((0, REQ))), absolute(channel)))
    elif kind == 1:
        code.put(assembler.store(channel + 1, mode_byte(rng.randrange(8)), as_byte=True))
    elif kind == 2:
        code.put(assembler.store(channel + 1, rng.choice((0x13, 0x11, 0x21)), as_byte=True))
    elif kind == 3:
        half = rng.randrange(2)
        code.put(assembler.store(channel + SZ + half, rng.randrange(9), as_byte=True))
        actions.show(rng, code, channel + SZ)
    elif kind == 4:
        code.put(assembler.store(channel + SZ, rng.randrange(9)))
    elif kind == 5:
        ask(code, channel)
    elif kind == 6:
        code.put(assembler.store(channel + SOURCE, rng.randrange(code.address, code.here)))
    else:
        actions.show(rng, code, channel + SZ)


def change_mode(rng: random.Random, code: Code) -> None:
    """Changes DT between the transfers of one count, by a byte that holds no EN."""
    channel = favourite_channel(rng, code)
    by_request(rng, code, channel)
    set_simple_channel(rng, code, channel, REPEATED_SINGLE, EN, rng.randrange(3, 12))
    for _ in range(rng.randrange(1, 6)):
        ask(code, channel)
    code.put(assembler.store(channel + 1, mode_byte(rng.choice(BURSTS)), as_byte=True))
    ask(code, channel)
    actions.watch(rng, code, [channel + SZ], most=8)
    code.put(assembler.store(channel + 1, mode_byte(rng.randrange(8)), as_byte=True))
    ask(code, channel)
    actions.show(rng, code, channel)
    code.put(two("BIC", immediate(EN), absolute(channel)))


def order_of_request(rng: random.Random, code: Code) -> None:
    """REQ before EN, with EN, and behind it."""
    channel = favourite_channel(rng, code)
    by_request(rng, code, channel)
    set_simple_channel(rng, code, channel, rng.randrange(6), rng.choice((0, REQ, REQ, EN | REQ)))
    actions.wait_ticks(rng, code, rng.randrange(6))
    for bits in rng.sample((EN, REQ, EN | REQ, REQ, EN), rng.randrange(1, 5)):
        code.put(two("BIS", immediate(bits), absolute(channel)))
        if rng.random() < 0.4:
            actions.show(rng, code, channel + rng.choice((CTL, SZ)))


def sizes_while_enabled(rng: random.Random, code: Code) -> None:
    """SZ written and read by words and halves between single transfers, to its end and on."""
    channel = favourite_channel(rng, code)
    by_request(rng, code, channel)
    mode = rng.choice((SINGLE, REPEATED_SINGLE, REPEATED_SINGLE, REPEATED_BLOCK))
    size = rng.choice((1, 2, 3, 4, 0x0102, 0x0101))
    set_simple_channel(rng, code, channel, mode, EN | rng.choice((0, IE)), size)
    for _ in range(rng.randrange(2, 7)):
        chance = rng.random()
        if chance < 0.5:
            ask(code, channel)
        elif chance < 0.65:
            code.put(assembler.store(channel + SZ, rng.choice((0, 1, 2, 5, 0x0203))))
        elif chance < 0.8:
            half = rng.randrange(2)
            code.put(assembler.store(channel + SZ + half, rng.randrange(4), as_byte=True))
        actions.show(rng, code, channel + SZ)
    code.put(two("BIC", immediate(EN), absolute(channel)))
    actions.show(rng, code, channel + SZ)
    actions.show(rng, code, channel)


def end_and_go_on(rng: random.Random, code: Code) -> None:
    """Asks again behind the end of a block: under DT 4 to 7 it begins anew."""
    channel = favourite_channel(rng, code)
    by_request(rng, code, channel)
    set_simple_channel(rng, code, channel, rng.randrange(8), EN | REQ, rng.randrange(1, 4))
    if rng.random() < 0.3:
        code.put(assembler.store(channel + SZ, 0))
    for _ in range(rng.randrange(1, 4)):
        actions.wait_ticks(rng, code, rng.randrange(8))
        ask(code, channel)
        actions.show(rng, code, channel + rng.choice((CTL, CTL, SZ)))
    if rng.random() < 0.5:
        code.put(assembler.store(channel + SZ, rng.randrange(1, 4)))
        ask(code, channel)
    code.put(two("BIC", immediate(EN), absolute(channel)))


def write_own_registers(rng: random.Random, code: Code) -> None:
    """A transfer to a register of DMA, of its own channel or of another."""
    channel, other = favourite_channel(rng, code), rng.choice(CHANNELS)
    set_simple_channel(rng, code, other, rng.randrange(8), rng.choice((0, EN)))
    by_request(rng, code, other)
    by_request(rng, code, channel)
    place = rng.randrange(SRAM[0], SRAM[1], 2)
    target = rng.choice((channel, other)) + rng.choice((CTL, CTL, CTL, SZ, SOURCE, DESTINATION))
    if rng.random() < 0.15:
        target = rng.choice((DMACTL0, DMACTL1, DMAIV))
    control = rng.randrange(8) << 12 | UPWARD << 8 | rng.choice((0, EN)) | rng.choice((0, REQ))
    control |= rng.choice((0, 0, IE | IFG))
    value = control if target & 0x0F == CTL else rng.choice((1, 2, 3, 0x0202, code.address))
    code.put(assembler.store(place, value))
    set_addresses(rng, code, channel, place, target, rng.choice((1, 1, 2, 3)))
    widths = rng.choice((0, 0, 0, *WIDTHS))
    code.put(assembler.store(channel, rng.randrange(8) << 12 | widths | EN | REQ))
    for address in (target, channel + SZ, other + SZ):
        actions.show(rng, code, address)
    for used in (channel, other):
        code.put(two("BIC", immediate(EN), absolute(used)))


def read_own_registers(rng: random.Random, code: Code) -> None:
    """A transfer from a register of DMA to a port: it finds what stands behind the counts."""
    channel = favourite_channel(rng, code)
    by_request(rng, code, channel)
    if rng.random() < 0.3:
        code.put(assembler.store(rng.choice(CHANNELS), IE | IFG))
    source = channel + rng.choice((CTL, CTL, SZ, SZ))
    if rng.random() < 0.35:
        source = DMAIV + rng.choice((0, 0, 1))
    set_addresses(rng, code, channel, source, rng.choice(PORTS_OUT), rng.randrange(1, 7))
    bits = rng.choice(WIDTHS) | EN | REQ | rng.choice((0, IE))
    code.put(assembler.store(channel, rng.randrange(8) << 12 | bits))
    for _ in range(rng.randrange(4)):
        ask(code, channel)
    actions.show(rng, code, channel)
    code.put(two("BIC", immediate(EN), absolute(channel)))


def tell_flags(rng: random.Random, code: Code) -> None:
    """Several IFGs at once, which DMAIV tells one after another, by a word or by either byte."""
    for channel in CHANNELS:
        if rng.random() < 0.75:
            code.put(assembler.store(channel, rng.choice((IE | IFG, IE | IFG, IE, IFG))))
    for _ in range(rng.randrange(2, 5)):
        chance = rng.random()
        if chance < 0.6:
            actions.show(rng, code, DMAIV)
        elif chance < 0.8:
            as_byte = rng.random() < 0.6
            code.put(assembler.store(DMAIV + rng.randrange(2), 0, as_byte))
        else:
            actions.show(rng, code, rng.choice(CHANNELS))
    for channel in CHANNELS:
        actions.show(rng, code, channel)


def ask_for_reset(rng: random.Random, code: Code) -> None:
    """A transfer of a wrong password, or of one that asks for a reset, to be met by a reset."""
    channel = favourite_channel(rng, code)
    by_request(rng, code, channel)
    place = rng.randrange(SRAM[0], SRAM[1], 2)
    target, value = rng.choice((
        (actions.WDTCTL, 0x1280), (actions.WDTCTL, 0x5A80), (actions.WDTCTL + 1, 0x5A),
        (actions.PMMCTL0, 0xA504), (actions.PMMCTL0, 0xA504), (actions.PMMCTL0, 0xA508),
        (actions.PMMCTL0, 0x1204), (actions.PMMCTL0 + 1, 0x00A5),
    ))
    code.put(assembler.store(place, value))
    set_addresses(rng, code, channel, place, target, rng.randrange(1, 4))
    widths = BYTES if target & 1 else rng.choice((0, 0, 0, WORDS_TO_BYTES, BYTES_TO_WORDS))
    code.put(assembler.store(channel, rng.choice((0, 1, 2, 5)) << 12 | widths | EN | REQ))
    actions.show(rng, code, channel)


def reset_meanwhile(rng: random.Random, code: Code) -> None:
    """A reset that meets transfers, their second ticks and the rests."""
    for channel in rng.sample(CHANNELS, rng.randrange(1, 3)):
        choose_trigger(rng, code, channel, trigger_of_timer(rng, code))
        set_simple_channel(rng, code, channel, rng.choice((0, 4, 6, 7)), EN | IE)
    start_timer(rng, code)
    code.put(assembler.store(actions.WDTCTL, 0x5A0F))
    actions.watch(rng, code, [rng.choice(CHANNELS) + SZ], most=30)


def sleep(rng: random.Random, code: Code) -> None:
    """Transfers while the processor is off, and a line that may wake it."""
    channel = favourite_channel(rng, code)
    choose_trigger(rng, code, channel, trigger_of_timer(rng, code))
    size = rng.randrange(1, 12)
    set_simple_channel(rng, code, channel, rng.randrange(8), EN | IE, size)
    start_timer(rng, code)
    bits = 0x0018 if rng.random() < 0.85 else rng.choice((0x0010, 0x0098, 0x0038))
    code.put(two("BIS", immediate(bits), status_register()))
    actions.show(rng, code, channel)


def status_register() -> assembler.Operand:
    return assembler.register(assembler.SR)


def trigger_often(rng: random.Random, code: Code) -> None:
    """A timer whose triggers come while transfers wait, and while CCIFG is set since long."""
    channel = favourite_channel(rng, code)
    choose_trigger(rng, code, channel, trigger_of_timer(rng, code))
    mode = rng.choice((0, 1, 2, 3, 4, 5, 4, 5, 6))
    set_simple_channel(rng, code, channel, mode, EN, rng.randrange(1, 15))
    start_timer(rng, code)
    if rng.random() < 0.5:
        actions.watch(rng, code, [channel + SZ], most=12)
    else:
        write_compare_flags(rng, code, channel)
    if rng.random() < 0.5:
        ask(code, channel)
    if rng.random() < 0.4:
        dma_actions.choose_trigger(rng, code, channel, rng.choice((0, 5, 6, 9, 31)))
        actions.wait_ticks(rng, code, 20)
    code.put(two("BIC", immediate(EN), absolute(channel)))


def write_compare_flags(rng: random.Random, code: Code, channel: int) -> None:
    """Sets and clears CCIFG by writes, which trigger nothing."""
    base = code.favourite_timer
    if rng.random() < 0.6:
        code.put(assembler.store(base, 0))
    for _ in range(rng.randrange(1, 4)):
        flags = timer_actions.control_register(base, rng.choice((0, 2)))
        code.put(assembler.store(flags, rng.choice((0, 1, 1))))
        actions.show(rng, code, channel + SZ)


def choose_anything(rng: random.Random, code: Code) -> None:
    """DMACTL0, 1 and 4 with bits that they keep or don't, by words and by bytes."""
    for _ in range(rng.randrange(1, 4)):
        address = rng.choice((DMACTL0, DMACTL0, DMACTL1, DMACTL4, 0x0506, 0x050C))
        actions.change_and_show(rng, code, address, rng.randrange(0x10000))


def follow_a_script(rng: random.Random, code: Code) -> None:
    """A channel writes its own CTL from a table, so that DT, EN and REQ meet its rests.

    No instruction comes in time for that: the processor has two ticks in a rest.
    """
    channel = favourite_channel(rng, code)
    by_request(rng, code, channel)
    size = rng.choice((4, 4, 5, 5, 6, 8, 9))
    place = rng.randrange(SRAM[0], SRAM[1] - 0x20, 2)
    modes = rng.choice(((2, 3), (6, 7), tuple(range(8))))
    for index in range(size):
        last = index == size - 1
        mode = rng.choice(modes)
        if index in (3, 7) and not last and rng.random() < 0.6:
            mode = rng.choice((4, 5))  # what still waits comes in the rest
        request = REQ if rng.random() < (0.9 if last else 0.3) else 0
        value = mode << 12 | UPWARD << 8 | EN | request
        code.put(assembler.store(place + 2 * index, value))
    set_addresses(rng, code, channel, place, channel, size)
    code.put(assembler.store(channel, rng.choice(modes) << 12 | UPWARD << 8 | EN | REQ))
    code.put(assembler.store(rng.choice(PORTS_OUT), rng.randrange(0x100), as_byte=True))
    actions.watch(rng, code, [channel + SZ], most=8)
    code.put(assembler.store(channel, 0))


def cross_a_border(rng: random.Random, code: Code) -> None:
    """Addresses that step over 64 KB, over the end of a region, and seldom through 0."""
    channel = favourite_channel(rng, code)
    by_request(rng, code, channel)
    border = rng.choice((0x10000,) * 4 + (0x14000, 0x4400, 0x1C00, 0x2400, 0x1800, 0x1A00, 0x1B00))
    if rng.random() < 0.04:
        border = 0x100000
    step = rng.choice((2, 3))
    distance = rng.randrange(5)
    source = border - distance if step == UPWARD else border + distance
    source &= 0xFFFFF
    if rng.random() < 0.3 and border < 0x20000:
        cross_with_destination(rng, code, channel, source, step)
        return
    set_addresses(rng, code, channel, source, rng.choice(PORTS_OUT), rng.randrange(2, 10))
    bits = step << 8 | rng.choice(WIDTHS) | EN | REQ
    code.put(assembler.store(channel, rng.choice((1, 2, 3)) << 12 | bits))


def cross_with_destination(
    rng: random.Random, code: Code, channel: int, destination: int, step: int
) -> None:
    """The same for the destination, in FRAM that seldom holds code: its words are read back."""
    size = rng.randrange(2, 9)
    source = rng.randrange(code.address, code.address + 0x80)
    set_addresses(rng, code, channel, source, destination, size)
    bits = step << 10 | UPWARD << 8 | rng.choice(WIDTHS) | EN | REQ
    code.put(assembler.store(channel, 1 << 12 | bits))
    set_addresses(rng, code, channel, destination, rng.choice(PORTS_OUT), size)
    code.put(assembler.store(channel, 1 << 12 | step << 8 | rng.choice((0, BYTES)) | EN | REQ))


def stack_on_dma(rng: random.Random, code: Code) -> None:
    """Lets an entry write its stack over a CTL or over DMAIV."""
    code.put([assembler.DISABLE_INTERRUPTS])
    flags = rng.choice((*CHANNELS, *CHANNELS, DMAIV))
    code.put(assembler.set_register(1, flags + rng.choice((2, 4, 4))))
    code.put(assembler.store(rng.choice(CHANNELS), IE | IFG))
    code.put(assembler.store(CHANNELS[1], rng.choice((IE | IFG, 0, IE))))
    code.put(two("MOV", immediate(rng.choice((0x0008, 0x0009, 0x0109))), status_register()))
    actions.wait(rng, code)
    code.put([assembler.DISABLE_INTERRUPTS])
    code.put(assembler.set_register(1, 0x2400))
    actions.show(rng, code, rng.choice((DMAIV, *CHANNELS)))


SITUATIONS = (
    (burst, 3), (disturb_burst, 3), (change_mode, 2), (order_of_request, 2),
    (sizes_while_enabled, 2.5), (end_and_go_on, 2.5), (write_own_registers, 3),
    (read_own_registers, 2.5), (tell_flags, 2), (ask_for_reset, 1.2), (reset_meanwhile, 0.7),
    (trigger_often, 2.5), (cross_a_border, 2.5), (choose_anything, 1),
    (follow_a_script, 2.5),
)
SITUATIONS_WITH_INTERRUPTS = (*SITUATIONS, (sleep, 4), (stack_on_dma, 1.5))


def act_in_a_situation(rng: random.Random, code: Code) -> None:
    choices, weights = zip(*SITUATIONS)
    rng.choices(choices, weights)[0](rng, code)


def act_in_a_situation_of_interrupts(rng: random.Random, code: Code) -> None:
    choices, weights = zip(*SITUATIONS_WITH_INTERRUPTS)
    rng.choices(choices, weights)[0](rng, code)
