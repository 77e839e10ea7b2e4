"""Random programs: a start that opens the pins, chapters, and routines of the interrupts.

The start counts in a word of SRAM how often it ran, and goes to another chapter each time, so a
reset leads the program to something new.
"""

import random
from collections.abc import Callable
from dataclasses import dataclass

import actions
import assembler
import dma_actions
import encapsulation_routines
import libraries
import protection_routines
import structures
import timer_actions
from assembler import Operand, absolute, immediate, indexed, register, two
from instruction_words import InstructionMaker, Knobs
from layout import INFORMATION, INFORMATION_SIZE, SLOT_SIZE, Code, Program

RESET_VECTOR = 0xFFFE
WATCHDOG_VECTOR = 0xFFF2
DMA_VECTOR = 0xFFE4
PORT_OF_VECTOR = {0xFFDE: 1, 0xFFD8: 2, 0xFFD2: 3, 0xFFD0: 4}
FIRST_LINES = {0xFFF6: 0x03C0, 0xFFEA: 0x0340, 0xFFE2: 0x0380}
OTHER_LINES = {0xFFF4: 0x03C0, 0xFFE8: 0x0340, 0xFFE0: 0x0380}
INTERRUPT_NUMBERS = {1: 0x020E, 2: 0x021E, 3: 0x022E, 4: 0x023E}

WORDS_OF_AN_ACTION = 170  # an action has fewer words
WORDS_OF_AN_END = 20
UNUSUAL_STACKS = (0x0104, 0x0106, 0x0122, 0x0164, 0x0220, 0x0240, 0x0224, 0x0000, 0x0003, 0xFFFFE,
                  0x1C02, 0x2401, 0x4404, 0x14002, 0x1A10, 0x10002, 0xFFE0, 0xFFE2, 0xFFDC, 0xFFF4,
                  0xFFF6, 0xFFDA, 0xFFD4, 0xFFEC, 0xFFEE)
STACKS_ON_TIMERS = (0x0344, 0x0346, 0x0386, 0x03C6, 0x0354, 0x03C4, 0x03D6, 0x0370, 0x03F0)
STACKS_ON_PROTECTION = (0x0142, 0x0144, 0x0148, 0x01A0, 0x05A2, 0x05A6, 0x05A8, 0x05AA)
STACKS_ON_ENCAPSULATION = (0x05AC, 0x05AE, 0x05B0, 0x05B2)
STACKS_ON_DMA = (0x0512, 0x0514, 0x0510, 0x0524, 0x0534, 0x051E, 0x0540)

WATCHDOG_THAT_RESETS = (0x5A0E, 0x5A0E, 0x5A2F)  # after 512 ticks, or 64 edges of ACLK

Action = Callable[[random.Random, Code], None]


@dataclass(frozen=True)
class Style:
    """What a kind of programs is made of: how often each action comes."""

    weights: tuple[tuple[Action, float], ...]
    watchdog_runs: float = 0.2
    interrupts: float = 0.5
    chapters: int = 8
    longest_chapter: int = 25
    loops: float = 0.35  # the share of chapters that begin again at their end
    rescued: float = 0.0  # the share of programs that the watchdog resets again and again
    has_vault: bool = False  # code that is to be encapsulated
    has_short_start: bool = False  # which looks at nothing, and sets no waits
    library: libraries.Work | None = None  # where that is a library: what it does besides
    structures: float = 0.0  # the share of programs that have structures for a boot
    wrong_structures: float = 0.0  # of which this share has a bad check
    structures_outside: float = 0.0  # and this share lies outside of FRAM
    counts_in_fram: float = 0.0  # the share whose count of starts outlasts a cut


def random_program(rng: random.Random, style: Style) -> Program:
    program = Program(rng)
    program.reserve_bridge(rng)
    if style.has_vault:
        program.reserve_vault(rng)
    start = program.low_code()
    program.places.start = start.address
    program.places.counter = 0x1C00 + 2 * rng.randrange(0x10)
    if rng.random() < style.counts_in_fram:
        program.places.counter = INFORMATION + 2 * rng.randrange(INFORMATION_SIZE // 2)
    if rng.random() < style.structures:
        structures.write_structures(
            rng, program, style.wrong_structures, style.structures_outside
        )
    write_protection(rng, program)
    if not style.has_short_start:
        protection_routines.write_beginning(rng, start)
    if style.has_vault:
        write_vault(rng, program, start, style)
    chapters = [program.code_anywhere(rng) for _ in range(rng.choice((1, 2, 4, style.chapters)))]
    program.single_words[RESET_VECTOR] = start.address | (rng.random() < 0.1)
    write_start(rng, program, start, chapters, style)
    for chapter in chapters:
        write_chapter(rng, chapter, start, style)
    write_routines(rng, program, start, style)
    spoil(rng, program)
    return program


def write_protection(rng: random.Random, program: Program) -> None:
    """The NMI's routine and the bridge."""
    nmi = program.low_code()
    program.places.nmi = nmi.address
    if rng.random() < 0.97:
        program.single_words[protection_routines.NMI_VECTOR] = nmi.address | (rng.random() < 0.1)
    protection_routines.write_bridge(rng, program)
    protection_routines.write_nmi_routine(rng, nmi)


def write_vault(rng: random.Random, program: Program, start: Code, style: Style) -> None:
    encapsulation_routines.write_helper(rng, program)
    if style.library is not None:
        libraries.write_library(rng, program, style.library)
    else:
        encapsulation_routines.write_vault(rng, program)
    if not style.has_short_start:
        encapsulation_routines.write_beginning(rng, start)
        encapsulation_routines.write_closing_words(rng, program, start)


def spoil(rng: random.Random, program: Program) -> None:
    """Seldom a vector that leads nowhere, a signature, or words that aren't a program's."""
    chance = rng.random()
    if chance < 0.015:
        program.single_words[RESET_VECTOR] = rng.choice((0xFFFF, 0xFFFE, 0x0000, 0x0FFF, 0x1C01))
    elif chance < 0.02:
        program.single_words[0xFF88] = rng.choice((0xAAAA, 0xAAAB))
    elif chance < 0.1:
        code = program.code_anywhere(rng)
        code.put([rng.randrange(0x10000) for _ in range(code.room // 2)])


def random_action(rng: random.Random, style: Style) -> Action:
    choices, weights = zip(*style.weights)
    return rng.choices(choices, weights)[0]


# The start

def write_start(
    rng: random.Random, program: Program, start: Code, chapters: list[Code], style: Style
) -> None:
    if style.rescued and rng.random() < style.rescued:
        start.put(assembler.store(actions.WDTCTL, rng.choice(WATCHDOG_THAT_RESETS)))
    elif rng.random() >= style.watchdog_runs:
        actions.stop_watchdog(rng, start)
    if rng.random() < 0.9:
        actions.open_pins(rng, start)
    if rng.random() < 0.8:
        start.put(assembler.copy(actions.SYSRSTIV, rng.choice(actions.PORT_OUTPUTS)))
    if rng.random() < 0.4 and not style.has_short_start:
        show_what_a_reset_left(rng, start)
    stack = random_stack(rng)
    start.put(assembler.set_register(assembler.SP, stack))
    if rng.random() < style.interrupts:
        enable_something(rng, start)
    write_choice(rng, program, start, chapters)


def show_what_a_reset_left(rng: random.Random, start: Code) -> None:
    for number in rng.sample((0, *range(16)), rng.randrange(3)):
        actions.show_register(rng, start, number)
    for _ in range(rng.randrange(6)):
        port = rng.choice((0x0200, 0x0220)) + rng.choice(actions.PORT_DISTANCES)
        actions.show(rng, start, rng.choice((port, rng.choice(actions.SYSTEM_REGISTERS))))
        base = rng.choice(tuple(timer_actions.COMPARES_OF_BASE))
        actions.show(rng, start, timer_actions.random_register(rng, base))
        actions.show(rng, start, dma_actions.own_register(rng))


def random_stack(rng: random.Random) -> int:
    if rng.random() < 0.9:
        return rng.choice((0x2400, 0x2400, 0x2300, 0x2201, 0x12F00))
    return rng.choice((*UNUSUAL_STACKS, *STACKS_ON_TIMERS, *STACKS_ON_DMA, *STACKS_ON_PROTECTION,
                       *STACKS_ON_ENCAPSULATION))


def enable_something(rng: random.Random, code: Code) -> None:
    for _ in range(rng.randrange(1, 3)):
        actions.enable_port_interrupts(rng, code)
    if rng.random() < 0.4:
        actions.set_watchdog(rng, code)
    if rng.random() < 0.3:
        code.put(assembler.store(actions.SFRIE1, 1))
    if rng.random() < 0.7:
        code.put([assembler.ENABLE_INTERRUPTS])


def write_choice(
    rng: random.Random, program: Program, start: Code, chapters: list[Code]
) -> None:
    """Counts the runs, and goes to one chapter after the other."""
    counter = program.places.counter
    start.put(two("MOV", absolute(counter), register(15)))
    start.put(two("ADD", immediate(2), absolute(counter)))
    start.put(two("AND", immediate(2 * len(chapters) - 2), register(15)))
    table = start.here + 4 + 4 * len(chapters)
    start.put(two("MOV", indexed(15, table), register(0)))
    for index, chapter in enumerate(chapters):
        program.single_words[table + 2 * index] = start.here
        start.put(assembler.set_register(0, chapter.address))


# Chapters

def write_chapter(rng: random.Random, chapter: Code, start: Code, style: Style) -> None:
    if rng.random() < 0.1:
        actions.open_and_close_latch(rng, chapter)
    for _ in range(rng.randrange(2, style.longest_chapter)):
        if chapter.rest < WORDS_OF_AN_ACTION + WORDS_OF_AN_END:
            break
        random_action(rng, style)(rng, chapter)
    end_chapter(rng, chapter, start, style)


def end_chapter(rng: random.Random, chapter: Code, start: Code, style: Style) -> None:
    if rng.random() < style.loops:
        chapter.put(assembler.set_register(0, chapter.address))
        return
    chance = rng.random()
    if chance < 0.4:
        chapter.put(assembler.set_register(0, start.address))
    elif chance < 0.45:
        chapter.jump("JMP", chapter.here)
    elif chance < 0.53:
        chapter.put(two("BIS", immediate(0x0018), register(2)))
        chapter.put(assembler.set_register(0, chapter.address))
    else:
        ask_for_reset(rng, chapter)


def ask_for_reset(rng: random.Random, code: Code) -> None:
    """One of the ways to a reset, or two in one instruction. Seldom it leads to a dead end."""
    if rng.random() < 0.05:
        code.put(assembler.store(RESET_VECTOR, 0xFFFF))
    if rng.random() < 0.2:
        actions.open_latch(rng, code)
    if rng.random() < 0.3:
        meet_interval(rng, code)
    code.put(rng.choice((
        assembler.store(actions.PMMCTL0, 0xA504),
        assembler.store(actions.PMMCTL0, 0xA508),
        assembler.store(actions.PMMCTL0, 0xA50C),
        assembler.store(actions.PMMCTL0, 0x1204),
        assembler.store(actions.WDTCTL, 0x1280),
        assembler.store(actions.WDTCTL, 0x80, as_byte=True),
        [assembler.RESERVED],
        assembler.set_register(0, 2 * rng.randrange(0x900)),
        assembler.set_register(1, actions.WDTCTL + 2) + two("MOV", immediate(0x77), register(5))
        + assembler.one("PUSH", register(5)),
    )))


def meet_interval(rng: random.Random, code: Code) -> None:
    """Starts the watchdog so that its interval ends about with the instruction behind this.

    The write has 5 ticks, and 59 more lie before the tick of the 64th edge. Those of the loop and
    of the two instructions about it are 58.
    """
    code.put(assembler.store(actions.WDTCTL, 0x5A0F))
    code.put(two("MOV", immediate(14), register(13)))
    loop = code.here
    code.put(two("SUB", immediate(1), register(13)))
    code.jump("JNE", loop)
    code.put([assembler.NOP] * rng.choice((0, 1, 1, 1, 2)))


def stack_on_flags(rng: random.Random, code: Code) -> None:
    """Over SFRIFG1, or over IFG of two ports, with IV of the second port right behind it."""
    flags = rng.choice((actions.SFRIFG1, 0x021C, 0x021C, 0x023C))
    if flags == actions.SFRIFG1:
        put_stack_on(rng, code, flags, flags + 2)
        return
    code.put(assembler.store(flags - actions.IFG + actions.IE, 0xFFFF))
    put_stack_on(rng, code, flags, flags + rng.choice((2, 4, 4, 4)))


def stack_on_timers(rng: random.Random, code: Code) -> None:
    """Over CCTL0, whose CCIFG the entry clears behind its writes."""
    flags = rng.choice((0x0342, 0x0382, 0x03C2))
    put_stack_on(rng, code, flags, flags + rng.choice((2, 4, 4, 4)))


def put_stack_on(rng: random.Random, code: Code, flags: int, stack: int) -> None:
    """Lets the entries write their stack over flags, with C and V in SR most often."""
    code.put([assembler.DISABLE_INTERRUPTS])
    code.put(assembler.set_register(1, stack))
    code.put(assembler.store(actions.SFRIE1, 1))
    code.put(assembler.store(flags, rng.choice((1, 0x11, 0x11, 0xFF11))))
    code.put(two("MOV", immediate(rng.choice((0x0008, 0x0009, 0x0109, 0x0109))), register(2)))
    actions.wait(rng, code)
    code.put([assembler.DISABLE_INTERRUPTS])
    code.put(assembler.set_register(1, 0x2400))
    actions.show(rng, code, flags)


# Routines of the interrupts

def write_routines(rng: random.Random, program: Program, start: Code, style: Style) -> None:
    vectors = (WATCHDOG_VECTOR, *PORT_OF_VECTOR, *FIRST_LINES, *OTHER_LINES, DMA_VECTOR)
    routines: list[Code] = []
    for vector in vectors:
        if routines and rng.random() < 0.05:
            program.single_words[vector] = rng.choice(routines).address
        elif rng.random() < 0.95:
            routine = program.low_code()
            routines.append(routine)
            program.single_words[vector] = routine.address | (rng.random() < 0.1)
            write_routine(rng, routine, vector, start, style)


def write_routine(
    rng: random.Random, routine: Code, vector: int, start: Code, style: Style
) -> None:
    if rng.random() < 0.45:
        actions.show_status(rng, routine)
    if rng.random() < 0.2:
        actions.show_register(rng, routine, rng.choice((0, 1)))
    if rng.random() < 0.6:
        output = rng.choice(actions.PORT_OUTPUTS)
        routine.put(assembler.store(output, vector ^ rng.randrange(4) << 14))
    if rng.random() < 0.9:
        clear_flag(rng, routine, vector)
    if rng.random() < 0.4:
        random_action(rng, style)(rng, routine)
    if rng.random() < 0.3:
        routine.put(two("XOR", immediate(actions.word_of_any_kind(rng)),
                        absolute(rng.choice(actions.PORT_OUTPUTS))))
    if rng.random() < 0.2:
        routine.put(assembler.copy(0x23FC, rng.choice(actions.PORT_OUTPUTS)))
    if rng.random() < 0.4:
        routine.put(two("BIC", immediate(rng.choice((0x00F0, 0x0018, 0x0010))), indexed(1, 0)))
    if rng.random() < 0.05:
        routine.put(assembler.set_register(0, start.address))
    routine.put([assembler.RETI])


def clear_flag(rng: random.Random, routine: Code, vector: int) -> None:
    """Clears the flag of a line, where its entry doesn't: by IV most often, and shows it."""
    if vector in PORT_OF_VECTOR:
        number = INTERRUPT_NUMBERS[PORT_OF_VECTOR[vector]]
        flags = (number & 0x0220) + actions.IFG
        if rng.random() < 0.3:
            routine.put(assembler.copy(flags, rng.choice(actions.PORT_OUTPUTS)))
    elif vector in OTHER_LINES:
        number = OTHER_LINES[vector] + timer_actions.IV
        flags = OTHER_LINES[vector]
    elif vector == DMA_VECTOR:
        number = dma_actions.DMAIV
        flags = rng.choice(dma_actions.CHANNELS)
    else:
        own = actions.SFRIFG1 if vector == WATCHDOG_VECTOR else FIRST_LINES[vector] + 2
        actions.show(rng, routine, own)
        return
    chance = rng.random()
    if chance < 0.75:
        actions.show(rng, routine, number)
    elif chance < 0.85:
        actions.change(rng, routine, number, 0)
    else:
        routine.put(two("BIC", immediate(0x0001), absolute(flags)))
        routine.put(assembler.store(flags, 0))


# Random instructions

# Families of instructions that come seldom by the maker's own weights.
WEIGHTS = {"shift": 10, "several_registers": 7, "extended_one_operand": 14, "address_arithmetic": 8}
SRAM_RANGES = ((0x1C20, 0x1CFF), (0x1C20, 0x23FF))
DATA_RANGES = (*SRAM_RANGES * 5, (0x1900, 0x197F), (0x4400, 0x13FFF), (0x4400, 0x13FFF),
               (0x13FF0, 0x1400F), (0x10000, 0x1000F), (0x0214, 0x022A))
# An index on an address here may wrap to 0.
BORDER_RANGE = (0x0FFF0, 0x0FFFF)


def instruction_maker(rng: random.Random, code: Code) -> InstructionMaker:
    code_range = (code.address, code.address + 2 * SLOT_SIZE // 3)
    return InstructionMaker(rng, Knobs(
        ranges=DATA_RANGES, code_ranges=(code_range,), expected={0: code.here},
        weights=WEIGHTS,
    ))


def random_instructions(rng: random.Random, code: Code) -> None:
    """A few, with most registers made addresses of the data."""
    if rng.random() < 0.7:
        for number in range(4, 16):
            point_register(rng, code, number)
    for _ in range(rng.randrange(1, 6)):
        for number in rng.sample(range(4, 16), rng.choice((0, 2, 3, 4))):
            point_register(rng, code, number)
        chance = rng.random()
        if chance < 0.1:
            use_stack(rng, code)
        elif chance < 0.18:
            jump_by_flags(rng, code)
        else:
            code.put(instruction_maker(rng, code).instruction())
        if rng.random() < 0.7:
            actions.show_register(rng, code)
        if rng.random() < 0.5:
            actions.show_status(rng, code)


def use_stack(rng: random.Random, code: Code) -> None:
    """Pushes something, or calls the instruction behind, and shows what it takes back."""
    number = rng.randrange(4, 16)
    kind = rng.randrange(4)
    if kind == 0:
        code.put(two("MOV", immediate(rng.randrange(0x10)), register(2)))
        code.put(assembler.one("PUSH", register(rng.randrange(16)), rng.random() < 0.5))
    elif kind == 1:
        target = code.here + 4
        code.put(assembler.one("CALL", immediate(target)) if target < 0x10000 else [assembler.NOP])
    elif kind == 2:
        target = code.here + 4
        code.put([0x13B0 | target >> 16, target & 0xFFFF])
    pop = two("MOV", Operand(assembler.SP, 3), register(number), rng.random() < 0.3)
    code.put(pop)
    actions.show_register(rng, code, rng.choice((number, assembler.SP)))


def jump_by_flags(rng: random.Random, code: Code) -> None:
    """Sets the flags anyhow, and jumps over an instruction that shows, or doesn't."""
    code.put(two("MOV", immediate(rng.randrange(0x200) & 0x0107), register(2)))
    code.jump(rng.choice(tuple(assembler.JUMPS)), code.here + 8)
    mark = assembler.store(rng.choice(actions.PORT_OUTPUTS), rng.randrange(0x10000))
    code.put(mark)


def point_register(rng: random.Random, code: Code, number: int) -> None:
    """Makes a register an address of the data, or a number."""
    value = rng.randrange(0x1000, 1 << 20)
    if rng.random() < 0.85:
        value = rng.randrange(*rng.choice(DATA_RANGES if rng.random() < 0.98 else [BORDER_RANGE]))
    code.put(assembler.set_register(number, value))
