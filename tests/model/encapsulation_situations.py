"""What comes of an area: from outside, from inside, over its borders, by entries and by DMA."""

import random

import actions
import assembler
import dma_actions
import encapsulation_routines
import protection_actions
import protection_situations
from assembler import absolute, immediate, register, two
from encapsulation_actions import (
    ENA, LOCK, MPUIPC0, MPUIPSEGB1, MPUIPSEGB2, REGISTERS, VS, area_at_the_bridge, area_of_slot,
    encapsulate, open_mostly, random_area, random_bits, set_bits, set_borders, set_nmi,
    show_registers, show_violation, take_back, write_registers,
)
from encapsulation_routines import call_door, read_own_words, write_own_words
from layout import Code
from protection_actions import (
    GRAIN, MAIN, MPUCTL0, MPUCTL1, PASSWORD, SEGIE, SYSSNIV, at, far, open_latch,
)
from protection_situations import DATA, SP, USUAL_STACK, random_port

SOFTWARE_BOR = 0xA504
SOFTWARE_POR = 0xA508


def vault_area(rng: random.Random, code: Code) -> tuple[int, int]:
    """Where the vault begins with main FRAM, the first border may as well lie before it."""
    vault = code.places.vault
    if vault.first == MAIN[0] and rng.random() < 0.4:
        return rng.choice((0, GRAIN, 0x1800, 0x4000)), vault.end
    return vault.first, vault.end


def vault_area_mostly(rng: random.Random, code: Code) -> tuple[int, int]:
    return random_area(rng, code) if rng.random() < 0.35 else vault_area(rng, code)


def end(rng: random.Random, code: Code) -> None:
    if rng.random() < 0.7:
        show_violation(rng, code)
    if rng.random() < 0.5:
        take_back(rng, code)


# From outside and from inside

def reach_from_outside(rng: random.Random, code: Code) -> None:
    encapsulate(rng, code)
    for _ in range(rng.randrange(1, 5)):
        rng.choice(DATA)(rng, code)
        if rng.random() < 0.4:
            show_violation(rng, code)
    end(rng, code)


def call_in(rng: random.Random, code: Code) -> None:
    if rng.random() < 0.8:
        encapsulate(rng, code, vault_area_mostly(rng, code))
    for _ in range(rng.randrange(1, 5)):
        call_door(rng, code)
        if rng.random() < 0.3:
            rng.choice(DATA)(rng, code)
        if rng.random() < 0.3:
            show_violation(rng, code)
    end(rng, code)


def call_doors(rng: random.Random, code: Code) -> None:
    """Of a library that is sealed already, and what others can find out of that."""
    for _ in range(rng.randrange(1, 6)):
        call_door(rng, code)
        if rng.random() < 0.2:
            rng.choice(DATA)(rng, code)
        if rng.random() < 0.2:
            show_violation(rng, code)
        if rng.random() < 0.3:
            actions.show_register(rng, code)


def call_in_a_loop(rng: random.Random, code: Code) -> None:
    """Most of the time inside, where a halt has to wait. The first doors lead out again soonest."""
    encapsulate(rng, code, vault_area(rng, code), lock_share=0.9)
    doors = code.places.vault.doors
    door = rng.choice((*doors[:3], rng.choice(doors)))
    code.put(two("MOV", immediate(rng.randrange(2, 25)), register(14)))
    loop = code.here
    code.put([0x13B0 | door >> 16, door & 0xFFFF])
    code.put(two("SUB", immediate(1), register(14)))
    code.jump("JNE", loop)
    end(rng, code)


def enter_first_words(rng: random.Random, code: Code) -> None:
    """Each of the first instructions, and the one behind the eighth byte."""
    doors = [door for door in code.places.vault.doors if door < code.places.vault.first + 20]
    encapsulate(rng, code, vault_area(rng, code))
    for _ in range(rng.randrange(1, 4)):
        call_door(rng, code, rng.choice(doors))
    end(rng, code)


def be_inside(rng: random.Random, code: Code) -> None:
    """The code that sets the borders lies between them, and goes on there."""
    encapsulate(rng, code, area_of_slot(rng, code))
    for _ in range(rng.randrange(2, 6)):
        kind = rng.randrange(8)
        if kind < 3:
            read_where_it_runs(rng, code)
        elif kind < 5:
            rng.choice(DATA)(rng, code)
        elif kind == 5:
            call_door(rng, code)
        elif kind == 6:
            encapsulation_routines.call_helper(rng, code)
        else:
            encapsulation_routines.be_interrupted(rng, code)
    end(rng, code)


def read_where_it_runs(rng: random.Random, code: Code) -> None:
    """A word of this code itself, by an address or relative to PC."""
    target = rng.randrange(code.address, code.here + 8)
    number = rng.randrange(4, 10)
    kind = rng.randrange(4)
    if kind == 0:
        code.put(two("MOV", assembler.indexed(0, target - code.here - 2), register(number)))
    elif kind == 1:
        code.put(two("ADD", assembler.Operand(0, 2), register(number)))
    elif kind == 2:
        code.put([0x0030 | number, target - code.here - 2 & 0xFFFF])  # MOVA x(PC)
    else:
        code.put(far("MOV", at(target), (register(number), 0), rng.choice((8, 16, 20))))
    actions.show_register(rng, code, number)


def run_over_a_border(rng: random.Random, code: Code) -> None:
    """The bridge's instruction begins outside and ends inside, or the other way."""
    encapsulate(rng, code, area_at_the_bridge(rng, code))
    bridge = code.places.bridge
    for _ in range(rng.randrange(1, 4)):
        target = bridge + 2 * rng.choice((-4, -4, -3, -3, -2, -2, -1, -1, 0, 1))
        if rng.random() < 0.3:
            protection_actions.set_waits(rng, code)
        protection_situations.go_on_behind(code, 2)
        code.put(assembler.set_register(0, target))
        show_violation(rng, code)
    end(rng, code)


def run_beside_main_fram(rng: random.Random, code: Code) -> None:
    """Code in SRAM or information FRAM is never inside, whatever the first border is."""
    vault = code.places.vault
    address = vault.random_address(rng)
    routine = [
        0x0020 | address >> 16 << 8 | 9, address & 0xFFFF,  # MOVA &address, R9
        *two("MOV", register(9), absolute(random_port(rng))), encapsulation_routines.RETURN,
    ]
    place = rng.choice((0x1C80, 0x1E00, 0x1940))
    for index, word in enumerate(routine):
        code.put(assembler.store(place + 2 * index, word))
    areas = ((0, vault.end), (0x1800, vault.end), (0, 0xFFC00), vault_area(rng, code))
    encapsulate(rng, code, rng.choice(areas))
    code.put([0x13B0, place])
    end(rng, code)


def reach_the_vectors(rng: random.Random, code: Code) -> None:
    """FF80h and what follows up to FFFFh are never inside, and what lies before and behind is."""
    first = rng.choice((0x4400, 0xF800, 0xFC00, 0xFC00))
    encapsulate(rng, code, (first, rng.choice((0x10000, 0x10400, 0x14000, 0xFFC00))))
    for _ in range(rng.randrange(1, 4)):
        border = rng.choice((0xFF80, 0xFF80, 0xFF00, 0xFFE0, 0x10000))
        address = border + rng.randrange(-4, 4)
        if rng.random() < 0.5:
            code.put(protection_actions.move(rng, "MOV", address, random_port(rng)))
        else:
            code.put(assembler.set_register(10, address))
            code.put([0x0000 | 10 << 8 | 9])  # MOVA @R10, R9
            actions.show_register(rng, code, 9)
    end(rng, code)


# Borders and LOCK

def move_borders(rng: random.Random, code: Code) -> None:
    """Accesses between changes of the borders, of which the last may come too late."""
    open_mostly(rng, code)
    set_nmi(rng, code)
    code.put(assembler.store(MPUIPC0, ENA | rng.choice((0, 0, VS))))
    for _ in range(rng.randrange(2, 4)):
        set_borders(rng, code, random_area(rng, code))
        rng.choice(DATA)(rng, code)
    if rng.random() < 0.7:
        code.put(two("BIS", immediate(LOCK), absolute(MPUIPC0), rng.random() < 0.5))
        set_borders(rng, code, random_area(rng, code))
        show_registers(rng, code)
        rng.choice(DATA)(rng, code)
    end(rng, code)


def lock_and_write(rng: random.Random, code: Code) -> None:
    """What LOCK keeps, with ENA or without, mostly with a reset at the end."""
    open_mostly(rng, code)
    set_borders(rng, code, random_area(rng, code))
    set_bits(rng, code, LOCK | random_bits(rng, enable_share=0.6))
    for _ in range(rng.randrange(2, 4)):
        kind = rng.randrange(6)
        if kind < 3:
            write_registers(rng, code)
        elif kind == 3:
            rng.choice(DATA)(rng, code)
        elif kind == 4:
            protection_actions.write_flags(rng, code)
        else:
            take_back(rng, code)
            show_registers(rng, code)
    reset_now_and_then(rng, code)


def reset_now_and_then(rng: random.Random, code: Code) -> None:
    chance = rng.random()
    if chance < 0.5:
        code.put(assembler.store(actions.PMMCTL0, SOFTWARE_BOR))
    elif chance < 0.7:
        code.put(assembler.store(actions.PMMCTL0, SOFTWARE_POR))


def enable_alone(rng: random.Random, code: Code) -> None:
    """ENA goes on and off while the borders stand."""
    open_mostly(rng, code)
    set_borders(rng, code, vault_area(rng, code))
    for _ in range(rng.randrange(2, 5)):
        code.put(two(rng.choice(("XOR", "BIS", "BIC")), immediate(ENA | rng.choice((0, VS))),
                     absolute(MPUIPC0)))
        rng.choice(DATA)(rng, code)
    end(rng, code)


# Violations

def violate_and_change(rng: random.Random, code: Code) -> None:
    """Reads what is refused, and writes it to the registers that judge it at the step's end."""
    encapsulate(rng, code, vault_area_mostly(rng, code), lock_share=0.1)
    if rng.random() < 0.8:
        open_latch(rng, code)
    for _ in range(rng.randrange(1, 4)):
        if rng.random() < 0.4:
            code.put(assembler.store(MPUIPC0, ENA | rng.choice((0, VS))))
        address = code.places.vault.random_address(rng)
        target = rng.choice((MPUIPC0,) * 5 + (MPUCTL0, MPUCTL0, MPUCTL1, MPUIPSEGB1, MPUIPSEGB2,
                                              SYSSNIV, 0x05A8))
        as_byte = target == MPUCTL0 or rng.random() < 0.5
        name = rng.choice(("MOV", "XOR", "XOR", "BIC", "BIC", "BIS", "ADD", "AND", "BIT", "CMP"))
        code.put(far(name, at(address), at(target), 8 if as_byte else 16))
        if rng.random() < 0.4:
            actions.show_status(rng, code)
        actions.show(rng, code, rng.choice((MPUIPC0, MPUIPC0, MPUCTL1, SYSSNIV)))
    end(rng, code)


def violate_twice(rng: random.Random, code: Code) -> None:
    """Segments and encapsulation in one instruction, each with a reset or without."""
    protection_actions.arm(rng, code)
    encapsulate(rng, code, vault_area(rng, code))
    open_latch(rng, code)
    rights = rng.choice((0x4444, 0xC444, 0x444C, 0x4C44, 0x44C4, 0xCCCC))
    code.put(assembler.store(protection_actions.MPUSAM, rights))
    code.put(assembler.store(MPUCTL0, PASSWORD | 1 | rng.choice((SEGIE, SEGIE, 0))))
    for _ in range(rng.randrange(1, 4)):
        first = code.places.vault.random_address(rng)
        second = protection_actions.free_address_in_fram(rng, code)
        if rng.random() < 0.3:
            first, second = second, code.places.vault.random_free_address(rng)
        code.put(protection_actions.move(rng, rng.choice(("MOV", "ADD")), first, second))
        show_violation(rng, code)
    protection_actions.disarm(rng, code)
    end(rng, code)


def violate_with_a_password(rng: random.Random, code: Code) -> None:
    """A refused word as a wrong password, or a refused byte that asks for a BOR."""
    encapsulate(rng, code, vault_area(rng, code))
    address = code.places.vault.random_address(rng)
    if rng.random() < 0.3:
        code.put(assembler.store(actions.PMMCTL0 + 1, 0xA5, as_byte=True))
        code.put(far("MOV", at(address), at(actions.PMMCTL0), 8))
        return
    target = rng.choice((MPUCTL0, 0x0140, actions.PMMCTL0, actions.WDTCTL))
    code.put(far("MOV", at(address), at(target), 16))


# Stacks and entries

def use_stack_in_vault(rng: random.Random, code: Code) -> None:
    if rng.random() < 0.9:
        encapsulate(rng, code, vault_area(rng, code))
    code.put(assembler.set_register(SP, protection_situations.random_stack_in_fram(rng, code)))
    for _ in range(rng.randrange(1, 4)):
        kind = rng.randrange(5)
        if kind < 3:
            protection_situations.use_stack(rng, code)
        else:
            encapsulation_routines.be_interrupted(rng, code)
        if rng.random() < 0.3:
            show_violation(rng, code)
    code.put([assembler.DISABLE_INTERRUPTS])
    code.put(assembler.set_register(SP, USUAL_STACK))
    end(rng, code)


def enter_on_registers(rng: random.Random, code: Code) -> None:
    """An entry writes PC and SR over the registers of the borders, with the latch open or not."""
    encapsulate(rng, code, lock_share=0.1)
    if rng.random() < 0.7:
        open_latch(rng, code)
    stack = rng.choice((MPUIPC0 + 2, MPUIPC0 + 4, MPUIPSEGB2 + 2, MPUIPSEGB1 + 2, MPUIPSEGB1 + 4))
    code.put(assembler.set_register(SP, stack))
    if rng.random() < 0.5:
        protection_situations.ask_by_a_port(rng, code)
    rng.choice(DATA)(rng, code)
    code.put([assembler.DISABLE_INTERRUPTS])
    code.put(assembler.set_register(SP, USUAL_STACK))
    for address in REGISTERS:
        actions.show(rng, code, address)
    end(rng, code)


# DMA

def transfer(rng: random.Random, code: Code) -> None:
    """A channel with one end in the vault or both, over its borders or into its registers."""
    encapsulate(rng, code, vault_area_mostly(rng, code))
    by_timer = rng.random() < 0.3
    protection_situations.start_channel(rng, code, by_timer)
    for _ in range(rng.randrange(3)):
        kind = rng.randrange(3)
        if kind == 0:
            call_door(rng, code)
        elif kind == 1:
            show_violation(rng, code)
        else:
            rng.choice(DATA)(rng, code)
    end(rng, code)


def set_registers_by_dma(rng: random.Random, code: Code) -> None:
    """A block of words from SRAM to the three registers, upward or downward."""
    channel = dma_actions.favourite_channel(rng, code)
    dma_actions.choose_trigger(rng, code, channel, 0)
    place = rng.randrange(*dma_actions.SRAM, 2)
    first, last = random_area(rng, code)
    words = [random_bits(rng), last >> 4, first >> 4]
    step, target = dma_actions.UPWARD, MPUIPC0
    if rng.random() < 0.5:
        words.reverse()
        step, target = dma_actions.DOWNWARD, MPUIPSEGB1
    for index, word in enumerate(words):
        code.put(assembler.store(place + 2 * index, word & 0xFFFF))
    open_mostly(rng, code)
    dma_actions.set_addresses(rng, code, channel, place, target, rng.choice((3, 3, 3, 2, 4)))
    bits = 1 << 12 | step << 10 | dma_actions.UPWARD << 8 | dma_actions.EN | dma_actions.REQ
    code.put(assembler.store(channel, bits))
    show_registers(rng, code)
    rng.choice(DATA)(rng, code)


# Resets

def reset_meanwhile(rng: random.Random, code: Code) -> None:
    """A PUC leaves all of it, and a BOR nothing."""
    encapsulate(rng, code, vault_area_mostly(rng, code))
    if rng.random() < 0.5:
        rng.choice(DATA)(rng, code)
    kind = rng.randrange(4)
    if kind == 0:
        code.put(assembler.store(actions.WDTCTL, 0x1200))
    elif kind == 1:
        code.put(assembler.store(MPUCTL0, 0x1200))
    else:
        code.put(assembler.store(actions.PMMCTL0, (SOFTWARE_POR, SOFTWARE_BOR)[kind - 2]))


def work_inside(rng: random.Random, code: Code) -> None:
    """What doors do, wherever this code is."""
    for _ in range(rng.randrange(1, 4)):
        work = rng.choice((read_own_words, write_own_words, encapsulation_routines.call_helper))
        work(rng, code)


SITUATIONS = (
    (reach_from_outside, 5), (call_in, 6), (call_in_a_loop, 2), (enter_first_words, 3),
    (be_inside, 3), (run_over_a_border, 4), (run_beside_main_fram, 1.2), (reach_the_vectors, 1.2),
    (move_borders, 2), (lock_and_write, 1.5), (enable_alone, 1.2),
    (violate_and_change, 2.5), (violate_twice, 2), (violate_with_a_password, 0.5),
    (use_stack_in_vault, 2.5), (enter_on_registers, 1.5), (transfer, 3),
    (set_registers_by_dma, 0.8), (reset_meanwhile, 0.4), (work_inside, 0.5),
)


def act_in_a_situation(rng: random.Random, code: Code) -> None:
    choices, weights = zip(*SITUATIONS)
    rng.choices(choices, weights)[0](rng, code)
