"""Accesses that are refused: by fetches, reads and writes, by the stack, by DMA, asleep."""

import random

import actions
import assembler
import dma_actions
from assembler import absolute, immediate, register, two
from layout import INFORMATION, INFORMATION_SIZE, Code
from protection_actions import (
    CONTINUATION, ENA, FRCTL0, LOCK, MPUCTL0, MPUCTL1, MPUSAM, MPUSEGB1, MPUSEGB2, PASSWORD,
    REGISTERS, SEGIE, SYSSNIV, address_in_fram, arm, at, disarm, far,
    free_address_in_fram, move, open_latch, random_control, set_control, set_waits, show_flags,
    touch_number, waits_byte, write_flags, write_word,
)

SP = assembler.SP
USUAL_STACK = 0x2400
PORTS_OUT = actions.PORT_OUTPUTS
RIGHTS_TO_FETCH_ALONE = (0x4444, 0x4444, 0xC444, 0x44C4, 0x4C44, 0x444C, 0xCCCC, 0x7444)
CHANGES = ("ADD", "XOR", "BIS", "AND", "SUB", "CMP", "BIT", "DADD", "ADDC")


def random_port(rng: random.Random) -> int:
    return rng.choice(PORTS_OUT)


def end(rng: random.Random, code: Code) -> None:
    """Shows what came, and gives all rights back most often."""
    if rng.random() < 0.6:
        show_flags(rng, code)
    if rng.random() < 0.2:
        write_flags(rng, code)
    if rng.random() < 0.65:
        disarm(rng, code)


# Data

def read_one(rng: random.Random, code: Code) -> None:
    address = address_in_fram(rng, code)
    port = random_port(rng)
    kind = rng.randrange(4)
    if kind < 2:
        code.put(move(rng, "MOV", address, port))
    elif kind == 2:
        code.put(assembler.set_register(10, address))
        source = assembler.Operand(10, 3)
        code.put(two(rng.choice(CHANGES), source, register(9), rng.random() < 0.5))
        actions.show_register(rng, code, rng.choice((9, 10, 2)))
    else:
        code.put(far("MOV", at(address), (register(9), 0), 20))
        actions.show_register(rng, code, 9)


def write_one(rng: random.Random, code: Code) -> None:
    """A write, or a change that reads too, and what stands there afterwards."""
    address = free_address_in_fram(rng, code)
    name = rng.choice(("MOV", "MOV", *CHANGES))
    width = rng.choice((8, 16, 20))
    code.put(far(name, (immediate(rng.randrange(0x10000)), 0), at(address), width))
    if rng.random() < 0.5:
        disarm(rng, code)
    code.put(far("MOV", at(address & ~1), at(random_port(rng)), 16))


def change_one(rng: random.Random, code: Code) -> None:
    """An instruction with one operand on a word or byte of FRAM."""
    address = free_address_in_fram(rng, code)
    name = rng.choice(("RRC", "RRA", "SWPB", "SXT", "PUSH"))
    as_byte = name in ("RRC", "RRA", "PUSH") and rng.random() < 0.5
    code.put(assembler.set_register(10, address))
    code.put(assembler.one(name, assembler.indirect(10), as_byte))
    actions.show_status(rng, code)
    code.put(two("MOV", assembler.indirect(10), absolute(random_port(rng))))


def move_within_fram(rng: random.Random, code: Code) -> None:
    """A source and a destination, often of two places."""
    source, destination = address_in_fram(rng, code), free_address_in_fram(rng, code)
    code.put(move(rng, rng.choice(("MOV", "MOV", "ADD", "XOR")), source, destination))
    actions.show(rng, code, rng.choice((SYSSNIV, MPUCTL1)))
    code.put(far("MOV", at(destination & ~1), at(random_port(rng)), 16))


DATA = (read_one, read_one, write_one, write_one, change_one, move_within_fram, move_within_fram)


def access_data(rng: random.Random, code: Code) -> None:
    if rng.random() < 0.8:
        arm(rng, code)
    for _ in range(rng.randrange(1, 5)):
        rng.choice(DATA)(rng, code)
        if rng.random() < 0.3:
            touch_number(rng, code)
    end(rng, code)


# The stack

def random_stack_in_fram(rng: random.Random, code: Code) -> int:
    if code.places.vault and rng.random() < 0.6:
        return code.places.vault.end + rng.choice((0, 0, 2, 4, 1, -rng.randrange(0x60)))
    if rng.random() < 0.7:
        return code.places.bridge + rng.randrange(-8, 24)
    return rng.choice((0x1A00, 0x19FD, 0x14000, 0x10006, 0x1808, free_address_in_fram(rng, code)))


def use_stack_in_fram(rng: random.Random, code: Code) -> None:
    """PUSHM and POPM over a border, CALL, CALLA and PUSH, with the stack where it is refused."""
    if rng.random() < 0.9:
        arm(rng, code)
    code.put(assembler.set_register(SP, random_stack_in_fram(rng, code)))
    for _ in range(rng.randrange(1, 4)):
        use_stack(rng, code)
        if rng.random() < 0.4:
            actions.show(rng, code, rng.choice((SYSSNIV, MPUCTL1)))
    code.put(assembler.set_register(SP, USUAL_STACK))
    end(rng, code)


def use_stack(rng: random.Random, code: Code) -> None:
    kind = rng.randrange(7)
    count = rng.randrange(1, 9)
    width = rng.choice((0x0000, 0x0100))
    if kind < 2:
        code.put([0x1400 | width | count - 1 << 4 | rng.randrange(8, 16)])
    elif kind < 4:
        first = rng.randrange(4, 10)
        count = min(count, 11 - first)  # R11 says where to go on
        code.put([0x1600 | width | max(count, 1) - 1 << 4 | first])
        actions.show_register(rng, code, first)
    elif kind == 4:
        code.put(assembler.one("PUSH", register(rng.randrange(16)), rng.random() < 0.4))
    elif kind == 5 and code.here + 4 < 0x10000:
        code.put(assembler.one("CALL", immediate(code.here + 4)))
    else:
        target = code.here + 4
        code.put([0x13B0 | target >> 16, target & 0xFFFF])
    if rng.random() < 0.4:
        actions.show_register(rng, code, SP)


def enter_on_a_refused_stack(rng: random.Random, code: Code) -> None:
    """An entry isn't judged: the NMI or a port's interrupt with its stack in FRAM."""
    arm(rng, code)
    code.put(assembler.set_register(SP, random_stack_in_fram(rng, code)))
    if rng.random() < 0.5:
        ask_by_a_port(rng, code)
    rng.choice(DATA)(rng, code)
    code.put([assembler.DISABLE_INTERRUPTS])
    code.put(assembler.set_register(SP, USUAL_STACK))
    end(rng, code)


def enter_on_registers(rng: random.Random, code: Code) -> None:
    """The entry writes PC and SR over the registers of the units, with the latch open or not."""
    arm(rng, code)
    if rng.random() < 0.7:
        open_latch(rng, code)
    stack = rng.choice((MPUSEGB2 + 2, MPUSEGB2 + 2, MPUSEGB1 + 2, MPUSAM + 2, MPUCTL1 + 2,
                        FRCTL0 + 4, FRCTL0 + 8, MPUCTL0 + 2, FRCTL0 + 2, SYSSNIV + 2, SYSSNIV + 4))
    code.put(assembler.set_register(SP, stack))
    if rng.random() < 0.3:
        ask_by_a_port(rng, code)
    rng.choice(DATA)(rng, code)
    code.put([assembler.DISABLE_INTERRUPTS])
    code.put(assembler.set_register(SP, USUAL_STACK))
    for address in rng.sample(REGISTERS, 3):
        actions.show(rng, code, address)
    end(rng, code)


def ask_by_a_port(rng: random.Random, code: Code) -> None:
    base = rng.choice((0x0200, 0x0220))
    code.put(assembler.store(base + actions.IE, 0xFFFF))
    code.put(assembler.store(base + actions.IFG, 1 << rng.randrange(16)))
    code.put([assembler.ENABLE_INTERRUPTS])


# Fetches

def go_on_behind(code: Code, words_between: int) -> None:
    code.put(assembler.set_register(CONTINUATION, code.here + 4 + 2 * words_between))


def jump_where_it_is_refused(rng: random.Random, code: Code) -> None:
    """Into another segment, or before a border that the next words are behind."""
    if rng.random() < 0.85:
        arm(rng, code)
    places = code.places
    target = rng.choice((
        places.bridge - 2 * rng.randrange(1, 8), places.bridge - 2 * rng.randrange(1, 4),
        places.bridge + 2 * rng.randrange(8),
        address_in_fram(rng, code) & ~1, places.start, 0x19FE, 0x13FFE, 0xFFFE, 0x4400,
    ))
    if rng.random() < 0.4:
        set_waits(rng, code)
    go_on_behind(code, 2)
    code.put(assembler.set_register(0, target))
    end(rng, code)


def refuse_own_code(rng: random.Random, code: Code) -> None:
    """Takes a right of all places in a program that runs there, and goes on where it may."""
    open_latch(rng, code)
    rights = rng.choice((0x3333, 0x7773, 0x7737, 0x7377, 0x3777, 0xBBBB, 0xF3F3, 0))
    code.put(assembler.store(MPUSAM, rights))
    set_control(rng, code, ENA | rng.choice((SEGIE, SEGIE, SEGIE, 0)))
    code.put(assembler.store(random_port(rng), rng.randrange(0x10000)))
    end(rng, code)


# Instructions that change the unit's registers themselves

def violate_and_change(rng: random.Random, code: Code) -> None:
    """Reads what is refused, and writes it to the registers that judge it at the step's end."""
    arm(rng, code)
    if rng.random() < 0.8:
        open_latch(rng, code)
    if rng.random() < 0.6:
        code.put(assembler.store(MPUSAM, rng.choice(RIGHTS_TO_FETCH_ALONE)))
        control = ENA | rng.choice((SEGIE, SEGIE, 0))
        code.put(assembler.store(MPUCTL0, control, as_byte=True))
    for _ in range(rng.randrange(1, 4)):
        address = address_in_fram(rng, code)
        target = rng.choice((MPUSAM, MPUSAM, MPUSAM + 1, MPUCTL0, MPUCTL0, MPUCTL0, MPUCTL1,
                             MPUSEGB1, MPUSEGB2, SYSSNIV, FRCTL0))
        as_byte = target in (MPUSAM + 1, MPUCTL0, FRCTL0) or rng.random() < 0.3
        name = rng.choice(("MOV", "XOR", "BIC", "BIC", "BIS", "ADD", "SUB", "AND", "BIT", "CMP"))
        code.put(far(name, at(address), at(target), 8 if as_byte else 16))
        if rng.random() < 0.4:
            actions.show_status(rng, code)
        actions.show(rng, code, rng.choice((MPUCTL0, MPUCTL1, MPUSAM, SYSSNIV)))
    disarm(rng, code)


def violate_with_a_wrong_password(rng: random.Random, code: Code) -> None:
    """Two causes in one instruction, of which the least is taken."""
    arm(rng, code)
    target = rng.choice((MPUCTL0, FRCTL0, actions.PMMCTL0, actions.WDTCTL))
    code.put(far("MOV", at(address_in_fram(rng, code)), at(target), 16))
    end(rng, code)


def violate_with_a_bor(rng: random.Random, code: Code) -> None:
    """What a refused read answers, FFh, asks for a BOR in the same instruction."""
    open_latch(rng, code)
    code.put(assembler.store(MPUSAM, rng.choice(RIGHTS_TO_FETCH_ALONE)))
    code.put(assembler.store(MPUCTL0, PASSWORD | ENA | SEGIE))
    code.put(assembler.store(actions.PMMCTL0 + 1, 0xA5, as_byte=True))
    code.put(far("MOV", at(address_in_fram(rng, code)), at(actions.PMMCTL0), 8))


def set_waits_with_an_access(rng: random.Random, code: Code) -> None:
    """An instruction that sets NWAITS by what it reads from FRAM, and waits for that already."""
    value = waits_byte(rng)
    code.put([0x3C01, PASSWORD | value])  # a jump over the word
    code.put(assembler.set_register(9, code.here - 2))
    kind = rng.randrange(3)
    if kind == 0:
        code.put(two("MOV", assembler.indirect(9), absolute(FRCTL0)))
    elif kind == 1:
        code.put(assembler.store(FRCTL0 + 1, 0xA5, as_byte=True))
        code.put(two("MOV", assembler.indirect(9), absolute(FRCTL0), as_byte=True))
    else:
        code.put(assembler.set_register(SP, FRCTL0 + 2))
        code.put(assembler.one("PUSH", assembler.indirect(9)))
        code.put(assembler.set_register(SP, USUAL_STACK))
    actions.show(rng, code, FRCTL0)


def clear_flags_with_a_control_word(rng: random.Random, code: Code) -> None:
    """MOVA to MPUCTL0 while flags are set: its upper word clears some of them.

    With a wrong password the reset comes behind both words, and leaves the flags.
    """
    open_latch(rng, code)
    code.put(assembler.store(MPUSAM, rng.choice((0x0000, 0x4444, 0x5444, 0x0555))))
    code.put(assembler.store(MPUCTL0, PASSWORD | ENA | rng.choice((0, 0, 0, SEGIE))))
    for _ in range(rng.randrange(1, 4)):
        rng.choice(DATA)(rng, code)
    if rng.random() < 0.2:
        code.put(assembler.store(MPUCTL0 + 1, 0, as_byte=True))
    number = rng.randrange(4, 10)
    value = rng.randrange(16) << 16 | rng.choice((PASSWORD, 0x9600, 0x9600)) | rng.randrange(2)
    code.put(assembler.set_register(number, value))
    code.put([0x0060 | number << 8, MPUCTL0])
    end(rng, code)


# LOCK

def lock_and_write(rng: random.Random, code: Code) -> None:
    """What LOCK keeps and what it doesn't, mostly with a BOR at the end."""
    arm(rng, code)
    set_control(rng, code, random_control(rng) | LOCK)
    for _ in range(rng.randrange(2, 6)):
        kind = rng.randrange(6)
        if kind < 2:
            address = rng.choice((MPUSEGB1, MPUSEGB2, MPUSAM))
            write_word(rng, code, address, rng.randrange(0x10000))
            actions.show(rng, code, address)
        elif kind == 2:
            set_control(rng, code, rng.randrange(256))
            actions.show(rng, code, MPUCTL0)
        elif kind == 3:
            write_flags(rng, code)
        elif kind == 4:
            rng.choice(DATA)(rng, code)
        else:
            open_latch(rng, code)
    chance = rng.random()
    if chance < 0.1:
        code.put(assembler.store(MPUCTL0, 0x1200))
    elif chance < 0.85:
        code.put(assembler.store(actions.PMMCTL0, 0xA504))


# DMA

def transfer(rng: random.Random, code: Code) -> None:
    """A channel with one end or both in FRAM, asked for by REQ or by a timer."""
    arm(rng, code)
    by_timer = rng.random() < 0.3
    start_channel(rng, code, by_timer)
    for _ in range(rng.randrange(4)):
        rng.choice((*DATA, touch_number, touch_number, show_flags))(rng, code)
    end(rng, code)


def start_channel(rng: random.Random, code: Code, by_timer: bool) -> None:
    channel = dma_actions.favourite_channel(rng, code)
    trigger = dma_actions.trigger_of_timer(rng, code) if by_timer else 0
    dma_actions.choose_trigger(rng, code, channel, trigger)
    kind = rng.randrange(4)
    source = rng.randrange(*dma_actions.SRAM) if kind == 0 else address_in_fram(rng, code)
    destination = free_address_in_fram(rng, code)
    if kind in (1, 2):
        destination = rng.choice(dma_actions.PORTS_OUT)
    if kind == 3 and rng.random() < 0.2:
        destination = rng.choice((MPUSAM, MPUCTL1, MPUCTL0 + 1, SYSSNIV, FRCTL0 + 1))
    if rng.random() < 0.1:
        source = rng.choice((SYSSNIV, MPUCTL1, MPUCTL0))
    dma_actions.set_addresses(
        rng, code, channel, source, destination, rng.randrange(1, 9)
    )
    control = dma_actions.random_control(rng, source, destination)
    code.put(assembler.store(channel, control | dma_actions.EN | dma_actions.REQ))
    if by_timer:
        dma_actions.start_timer(rng, code)


def sleep(rng: random.Random, code: Code) -> None:
    """Off, while transfers of DMA are refused: the NMI wakes the processor."""
    arm(rng, code)
    if rng.random() < 0.7:
        code.put(two("BIC", immediate(0xF000), absolute(MPUSAM)))
        code.put(assembler.store(MPUCTL0, PASSWORD | ENA | SEGIE))
        set_waking_channel(rng, code)
    else:
        start_channel(rng, code, by_timer=rng.random() < 0.8)
    code.put(two("BIS", immediate(rng.choice((0x0010, 0x0010, 0x0018))), register(2)))
    code.put([assembler.NOP] * rng.randrange(3))
    end(rng, code)


def set_waking_channel(rng: random.Random, code: Code) -> None:
    """A timer triggers single transfers from information FRAM, or to it."""
    channel = dma_actions.favourite_channel(rng, code)
    dma_actions.choose_trigger(rng, code, channel, dma_actions.trigger_of_timer(rng, code))
    source = INFORMATION + rng.randrange(INFORMATION_SIZE)
    destination = rng.choice(dma_actions.PORTS_OUT)
    if rng.random() < 0.3:
        source, destination = destination, source
    dma_actions.set_addresses(rng, code, channel, source, destination, rng.randrange(1, 9))
    mode = rng.choice((0x0000, 0x4000, 0x4000))
    code.put(assembler.store(channel, mode | dma_actions.EN))
    dma_actions.start_timer(rng, code)


def tell_numbers_by_dma(rng: random.Random, code: Code) -> None:
    """One channel is refused, and another reads SYSSNIV or MPUCTL1 before the NMI's entry."""
    arm(rng, code)
    code.put(two("BIC", immediate(0xF000), absolute(MPUSAM)))
    code.put(assembler.store(MPUCTL0, PASSWORD | ENA | SEGIE))
    trigger = dma_actions.trigger_of_timer(rng, code)
    first, second = rng.sample(dma_actions.CHANNELS, 2)
    places = ((first, INFORMATION + rng.randrange(INFORMATION_SIZE)),
              (second, rng.choice((SYSSNIV, SYSSNIV, SYSSNIV + 1, MPUCTL1))))
    for channel, source in places:
        dma_actions.choose_trigger(rng, code, channel, trigger)
        port = rng.choice(dma_actions.PORTS_OUT)
        dma_actions.set_addresses(rng, code, channel, source, port, rng.randrange(1, 4))
        mode = rng.choice((0x1000, 0x4000, 0x2000))
        widths = rng.choice((0, dma_actions.BYTES))
        code.put(assembler.store(channel, mode | widths | dma_actions.EN))
    dma_actions.start_timer(rng, code)
    actions.wait_ticks(rng, code, rng.randrange(8, 40))
    end(rng, code)


def violate_while_interrupts_come(rng: random.Random, code: Code) -> None:
    """A port asks at the time of the violation: the NMI comes first, also in its routine."""
    arm(rng, code)
    if rng.random() < 0.3:
        code.put([assembler.DISABLE_INTERRUPTS])
    ask_by_a_port(rng, code)
    for _ in range(rng.randrange(1, 4)):
        rng.choice(DATA)(rng, code)
    end(rng, code)


SITUATIONS = (
    (access_data, 6), (use_stack_in_fram, 3.5), (enter_on_a_refused_stack, 1.5),
    (enter_on_registers, 1.5), (jump_where_it_is_refused, 4), (refuse_own_code, 0.5),
    (violate_and_change, 3), (violate_with_a_wrong_password, 0.6),
    (set_waits_with_an_access, 1.2), (lock_and_write, 1.2),
    (clear_flags_with_a_control_word, 0.8), (transfer, 3.5), (sleep, 1),
    (tell_numbers_by_dma, 0.8), (violate_with_a_bor, 0.5),
    (violate_while_interrupts_come, 1.5),
)


def act_in_a_situation(rng: random.Random, code: Code) -> None:
    choices, weights = zip(*SITUATIONS)
    rng.choices(choices, weights)[0](rng, code)
