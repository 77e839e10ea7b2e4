"""What the memory protection unit adds to a program: the start, the bridge, the NMI's routine."""

import random

import actions
import assembler
import protection_actions
import protection_situations
from assembler import absolute, immediate, indexed, register, two
from layout import Code, Program
from protection_actions import (
    CONTINUATION, FRAM_REGISTERS, FRCTL0, LOCK, MPUCTL0, MPUCTL1, PASSWORD, REGISTERS, SYSSNIV,
)

NMI_VECTOR = 0xFFFC
COUNT_OF_NMIS = 0x23FA
GO_ON = 0x00C0 | CONTINUATION << 8  # MOVA R11, PC
SKIP_RETURN_ADDRESS = [0x00A0 | assembler.SP, 4]  # ADDA #4, SP


def write_bridge(rng: random.Random, program: Program) -> None:
    """Words that run over a border, and then go where R11 says."""
    long_instruction = rng.choice((
        assembler.store(rng.choice(actions.PORT_OUTPUTS), rng.randrange(0x10000)),
        assembler.copy(SYSSNIV, rng.choice(actions.PORT_OUTPUTS)),
        assembler.set_register(rng.randrange(4, 10), rng.randrange(0x100000)),
        [0x1840, *two("ADD", immediate(rng.randrange(0x10000)), absolute(0x0202))],
        [0x1800, *two("MOV", immediate(rng.randrange(0x10000)), register(9), as_byte=True)],
        [assembler.NOP], [0x13B0, 0x4400], [assembler.RESERVED], [0x1800, assembler.RESERVED],
    ))
    before = rng.randrange(len(long_instruction) + 1)
    words = [assembler.NOP] * 4 + long_instruction + [assembler.NOP] * rng.randrange(2)
    words += [GO_ON] * 8
    first = program.places.bridge - 2 * (4 + before)
    for index, word in enumerate(words):
        program.single_words[first + 2 * index] = word


# The start

def write_beginning(rng: random.Random, start: Code) -> None:
    """Shows what a reset left, and takes the protection back where it isn't locked."""
    if rng.random() < 0.6:
        for address in rng.sample(REGISTERS + FRAM_REGISTERS, rng.randrange(1, 6)):
            actions.show(rng, start, address)
    if rng.random() < 0.7:
        reset_where_it_is_locked(start)
    if rng.random() < 0.15:
        write_with_the_latch_as_it_is(rng, start)
    if rng.random() < 0.8:
        start.put(assembler.store(MPUCTL0, PASSWORD))
    if rng.random() < 0.25:
        waits = protection_actions.waits_byte(rng)
        start.put(assembler.store(FRCTL0, PASSWORD | waits))


def reset_where_it_is_locked(start: Code) -> None:
    start.put(two("BIT", immediate(LOCK), absolute(MPUCTL0)))
    start.jump("JEQ", start.here + 8)
    start.put(assembler.store(actions.PMMCTL0, 0xA504))


def write_with_the_latch_as_it_is(rng: random.Random, start: Code) -> None:
    """Each reset closes the latches, so these writes do nothing."""
    for address in rng.sample((0x05A2, 0x05A4, 0x05A6, 0x05A8, 0x0144, FRCTL0, MPUCTL0), 2):
        as_byte = address in (FRCTL0, MPUCTL0)
        start.put(assembler.store(address, rng.randrange(0x10000), as_byte))
        actions.show(rng, start, address)


# The NMI's routine

def write_nmi_routine(rng: random.Random, routine: Code) -> None:
    for _ in range(rng.randrange(1, 6)):
        rng.choice(ACTIONS_OF_ROUTINE)(rng, routine)
    if rng.random() < 0.15:
        routine.put([assembler.ENABLE_INTERRUPTS])
        routine.put([assembler.NOP] * rng.randrange(1, 4))
    if rng.random() < 0.15:
        protection_situations.access_data(rng, routine)
    if rng.random() < 0.1:
        protection_situations.violate_and_change(rng, routine)
    if rng.random() < 0.7:
        routine.put(two("BIC", immediate(0x0010), indexed(assembler.SP, 0)))  # it stays awake
    count_nmis(rng, routine)
    end_routine(rng, routine)


def show_number(rng: random.Random, routine: Code) -> None:
    for _ in range(rng.randrange(1, 4)):
        actions.show(rng, routine, SYSSNIV)


def show_stack(rng: random.Random, routine: Code) -> None:
    distance = rng.choice((0, 2))
    port = rng.choice(actions.PORT_OUTPUTS)
    routine.put(two("MOV", indexed(assembler.SP, distance), absolute(port)))


def show_flags(rng: random.Random, routine: Code) -> None:
    actions.show(rng, routine, MPUCTL1)


ACTIONS_OF_ROUTINE = (
    show_number, show_number, show_number, show_flags, show_flags, show_stack,
    protection_actions.touch_number, protection_actions.write_flags, actions.show_status,
    protection_actions.set_waits,
)


def count_nmis(rng: random.Random, routine: Code) -> None:
    """Takes the protection back at some NMIs, so that a fetch isn't refused for ever."""
    bit = rng.choice((1, 1, 2, 4, 8))
    routine.put(two("ADD", immediate(1), absolute(COUNT_OF_NMIS)))
    routine.put(two("BIT", immediate(bit), absolute(COUNT_OF_NMIS)))
    routine.jump("JEQ", routine.here + 8)
    routine.put(assembler.store(MPUCTL0, PASSWORD))


def end_routine(rng: random.Random, routine: Code) -> None:
    chance = rng.random()
    if chance < 0.3:
        routine.put(SKIP_RETURN_ADDRESS)
        routine.put([GO_ON])
    routine.put([assembler.RETI])
