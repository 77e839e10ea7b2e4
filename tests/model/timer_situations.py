"""Situations of a timer that random writes seldom come to: each is set up, and then watched."""

import random

import actions
import assembler
import timer_actions
from assembler import absolute, immediate, two
from layout import Code
from timer_actions import (
    CCIE, CCIFG, CLEAR, COMPARES_OF_BASE, CTL, EX0, IV, R, compare_register, control_register,
    random_base, random_compare,
)

SMCLK = 0x0200
UP, CONTINUOUS, UP_DOWN = 0x0010, 0x0020, 0x0030
MODES = (UP, CONTINUOUS, UP_DOWN)


def watch_closely(rng: random.Random, code: Code, base: int, most: int = 25) -> None:
    """Shows R, and most often a register with a flag."""
    addresses = [base + R]
    if rng.random() < 0.5:
        index = random_compare(rng, base)
        addresses.append(rng.choice((base + CTL, base + IV, control_register(base, index))))
    actions.watch(rng, code, addresses, most)


def near(rng: random.Random, value: int) -> int:
    return value + rng.randrange(-2, 3) & 0xFFFF


def run_at_a_border(rng: random.Random, code: Code) -> None:
    """R close to where its mode turns, or above it."""
    base = random_base(rng, code)
    limit = rng.choice((0, 1, 1, 2, 3, 5, 12, 30))
    mode = rng.choice(MODES)
    border = 0xFFFE if mode == CONTINUOUS else limit
    count = rng.choice((0, near(rng, border), near(rng, border), near(rng, border), limit + 9))
    steps = [
        assembler.store(base + CTL, rng.choice((0, 0, CLEAR))),
        assembler.store(compare_register(base, 0), limit),
        assembler.store(base + R, count),
        assembler.store(compare_register(base, random_compare(rng, base)), near(rng, border)),
        assembler.store(control_register(base, random_compare(rng, base)), rng.choice((0, CCIE))),
    ]
    for step in steps:
        if rng.random() < 0.85:
            code.put(step)
    divisor = rng.choice((0, 0, 0x0040, 0x0080))
    code.put(assembler.store(base + CTL, SMCLK | mode | divisor | rng.choice((0, 2))))
    watch_closely(rng, code, base)


def turn(rng: random.Random, code: Code) -> None:
    """Goes downward in up/down mode, is disturbed, and goes on."""
    base = random_base(rng, code)
    limit = rng.randrange(20, 60)
    code.put(assembler.store(compare_register(base, 0), limit))
    code.put(assembler.store(base + R, limit - rng.randrange(5)))
    code.put(assembler.store(base + CTL, SMCLK | UP_DOWN | rng.choice((0, 0, 0x0040))))
    actions.wait_ticks(rng, code, rng.randrange(2, 25))
    disturb(rng, code, base)
    code.put(two("BIS", immediate(SMCLK | UP_DOWN), absolute(base + CTL)))
    watch_closely(rng, code, base)


def disturb(rng: random.Random, code: Code, base: int) -> None:
    """Something that leaves the direction, or makes it upward, or not."""
    kind = rng.randrange(6)
    if kind == 0:
        code.put(two("BIC", immediate(UP_DOWN), absolute(base + CTL)))
    elif kind == 1:
        code.put(two("BIC", immediate(rng.choice((UP, CONTINUOUS))), absolute(base + CTL)))
    elif kind == 2:
        code.put(assembler.store(base + R, rng.randrange(1, 30)))
    elif kind == 3:
        code.put(two("BIS", immediate(CLEAR), absolute(base + CTL)))
        code.put(assembler.store(base + R, rng.randrange(1, 20)))
    elif kind == 4:
        code.put(assembler.store(compare_register(base, 0), rng.choice((0, 5, 9))))
        actions.wait_ticks(rng, code, 6)
        code.put(assembler.store(compare_register(base, 0), 40))
    actions.wait_ticks(rng, code, rng.randrange(12))


def disturb_prescaler(rng: random.Random, code: Code) -> None:
    """Counts some edges of a long divisor, disturbs that, and shows when the next step comes."""
    base = random_base(rng, code)
    expansion = rng.choice((3, 5, 7))
    code.put(assembler.store(base + EX0, expansion))
    code.put(assembler.store(compare_register(base, 0), rng.choice((9, 0, 300))))
    control = SMCLK | rng.choice(MODES) | rng.choice((0x0040, 0x0080, 0x00C0))
    code.put(assembler.store(base + CTL, control | rng.choice((0, 0, CLEAR))))
    actions.wait_ticks(rng, code, rng.randrange(40))
    kind = rng.randrange(6)
    if kind == 0:
        code.put(two("BIC", immediate(UP_DOWN), absolute(base + CTL)))
    elif kind == 1:
        code.put(two("BIS", immediate(CLEAR), absolute(base + CTL)))
    elif kind == 2:
        code.put(assembler.store(base + EX0, rng.randrange(8)))
    elif kind == 3:
        code.put(assembler.store(compare_register(base, 0), 0))
    elif kind == 4:
        code.put(assembler.store(base + CTL + 1, rng.choice((2, 6)), as_byte=True))
    actions.wait_ticks(rng, code, rng.randrange(30))
    code.put(assembler.store(compare_register(base, 0), 300))
    code.put(assembler.store(base + CTL, control & ~rng.choice((0, 0x0080))))
    actions.watch(rng, code, [base + R], most=40)


def set_many_flags(rng: random.Random, code: Code) -> None:
    """Several flags at once, by writes or by one step, which IV tells one after another."""
    base = random_base(rng, code)
    count = COMPARES_OF_BASE[base]
    value = rng.randrange(3, 8)
    by_step = rng.random() < 0.5
    code.put(assembler.store(base + CTL, CLEAR))
    for index in range(count):
        if rng.random() < 0.8:
            code.put(assembler.store(compare_register(base, index), value))
        enabled = CCIE if rng.random() < 0.8 else 0
        flag = 0 if by_step else rng.choice((0, CCIFG, CCIFG))
        code.put(assembler.store(control_register(base, index), enabled | flag))
    mode = rng.choice(MODES) if by_step else 0
    code.put(assembler.store(base + CTL, SMCLK | mode | rng.randrange(4)))
    actions.wait_ticks(rng, code, 9)
    if rng.random() < 0.3:
        code.put(assembler.store(base + CTL, rng.randrange(4)))
    for _ in range(rng.randrange(2, count + 2)):
        how = rng.random()
        if how < 0.7:
            actions.show(rng, code, base + IV)
        elif how < 0.85:
            code.put(assembler.store(base + IV + rng.randrange(2), 0, as_byte=rng.random() < 0.5))
        else:
            actions.show(rng, code, control_register(base, random_compare(rng, base)))
    actions.show(rng, code, base + CTL)


def write_what_is_equal(rng: random.Random, code: Code) -> None:
    """Makes R and a compare register equal by a write, which sets no flag."""
    base = random_base(rng, code)
    index = random_compare(rng, base)
    code.put(two("BIC", immediate(UP_DOWN), absolute(base + CTL)))
    code.put(assembler.store(control_register(base, index), rng.choice((0, CCIE))))
    if rng.random() < 0.5:
        code.put(two("MOV", absolute(base + R), absolute(compare_register(base, index))))
    else:
        code.put(two("MOV", absolute(compare_register(base, index)), absolute(base + R)))
    actions.show(rng, code, control_register(base, index))


def stop_clocks(rng: random.Random, code: Code) -> None:
    """OSCOFF and SCG1 while a timer runs by one of the clocks."""
    base = random_base(rng, code)
    source = rng.choice((0x0100, SMCLK))
    code.put(assembler.store(compare_register(base, 0), rng.choice((2, 7, 300))))
    code.put(assembler.store(base + CTL, source | rng.choice(MODES)))
    bits = rng.choice((0x0020, 0x0080, 0x00A0))
    code.put(two("BIS", immediate(bits), assembler.register(2)))
    actions.wait_ticks(rng, code, rng.choice((4, 40, 100)))
    actions.watch(rng, code, [base + R], most=10)
    if rng.random() < 0.7:
        code.put(two("BIC", immediate(bits), assembler.register(2)))
    actions.watch(rng, code, [base + R], most=10)


def write_what_is_absent(rng: random.Random, code: Code) -> None:
    """Writes and reads an address of a timer's block where it has no register, or one of TB0."""
    base = rng.choice(tuple(COMPARES_OF_BASE))
    distance = rng.choice((*range(0x08, 0x10, 2), *range(0x18, 0x2E, 2)))
    code.put(assembler.store(base + distance, rng.randrange(0x10000)))
    actions.show(rng, code, base + distance)


SITUATIONS = (
    (run_at_a_border, 5), (turn, 3), (disturb_prescaler, 3), (set_many_flags, 3),
    (write_what_is_equal, 1), (stop_clocks, 1.5), (write_what_is_absent, 0.7),
    (timer_actions.clear_timer, 1), (timer_actions.change_divisor, 1),
)


def act_in_a_situation(rng: random.Random, code: Code) -> None:
    choices, weights = zip(*SITUATIONS)
    rng.choices(choices, weights)[0](rng, code)
