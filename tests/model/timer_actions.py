"""What a case's program does with the timers, while they run and while they don't."""

import random

import actions
import assembler
from assembler import absolute, immediate, register, two
from layout import Code

COMPARES_OF_BASE = {0x0340: 3, 0x0380: 3, 0x03C0: 7}
CTL, FIRST_CCTL, R, FIRST_CCR, EX0, IV = 0x00, 0x02, 0x10, 0x12, 0x20, 0x2E
CCIE, CCIFG = 0x0010, 0x0001
CLEAR = 0x0004


def random_base(rng: random.Random, code: Code) -> int:
    """A timer, and most often that of the whole program, so that its actions meet."""
    if rng.random() < 0.75:
        return code.favourite_timer
    return rng.choice(tuple(COMPARES_OF_BASE))


def random_compare(rng: random.Random, base: int) -> int:
    return rng.randrange(COMPARES_OF_BASE[base])


def control_register(base: int, index: int) -> int:
    return base + FIRST_CCTL + 2 * index


def compare_register(base: int, index: int) -> int:
    return base + FIRST_CCR + 2 * index


def random_count(rng: random.Random) -> int:
    """A value for R and CCRn: most are small, so that few ticks meet them."""
    chance = rng.random()
    if chance < 0.6:
        return rng.randrange(9)
    if chance < 0.8:
        return rng.randrange(60)
    if chance < 0.92:
        return 0x10000 - rng.randrange(1, 9)
    return rng.choice((0x00FF, 0x0100, 0x0101, 0x8000, 0x7FFF, rng.randrange(0x10000)))


def random_control(rng: random.Random, clear_chance: float = 0.3) -> int:
    source = rng.choice((0x0200,) * 8 + (0x0100, 0x0100, 0x0000, 0x0300))
    divider = rng.choice((0, 0, 0, 0, 1, 2, 3)) << 6
    mode = rng.choice((0, 1, 1, 1, 2, 2, 3, 3, 3)) << 4
    clear = CLEAR if rng.random() < clear_chance else 0
    enable = 2 if rng.random() < 0.5 else 0
    flag = 1 if rng.random() < 0.15 else 0
    rest = rng.randrange(0x10000) & 0xFC08 if rng.random() < 0.1 else 0
    return source | divider | mode | clear | enable | flag | rest


def random_compare_control(rng: random.Random) -> int:
    enable = CCIE if rng.random() < 0.6 else 0
    flag = CCIFG if rng.random() < 0.15 else 0
    rest = rng.randrange(0x10000) & 0xFFEE if rng.random() < 0.15 else 0
    return enable | flag | rest


def set_up(rng: random.Random, code: Code) -> None:
    """Sets the registers of a timer in any order, and its CTL among them or last."""
    base = random_base(rng, code)
    steps = []
    for index in range(COMPARES_OF_BASE[base]):
        if rng.random() < 0.6:
            steps.append((compare_register(base, index), random_count(rng)))
        if rng.random() < 0.5:
            steps.append((control_register(base, index), random_compare_control(rng)))
    if rng.random() < 0.35:
        steps.append((base + EX0, rng.choice((1, 1, 2, rng.randrange(8)))))
    if rng.random() < 0.5:
        steps.append((base + R, random_count(rng)))
    rng.shuffle(steps)
    start = (base + CTL, random_control(rng))
    steps.insert(rng.choice((len(steps), rng.randrange(len(steps) + 1))), start)
    for address, value in steps:
        code.put(assembler.store(address, value))
    if rng.random() < 0.4:
        actions.watch(rng, code, [base + R, random_register(rng, base)], most=30)


def read_registers(rng: random.Random, code: Code) -> None:
    base = random_base(rng, code)
    for _ in range(rng.randrange(1, 4)):
        actions.show(rng, code, random_register(rng, base))


def random_register(rng: random.Random, base: int) -> int:
    chance = rng.random()
    if chance < 0.3:
        return base + R
    if chance < 0.5:
        return base + IV
    if chance < 0.65:
        return base + CTL
    if chance < 0.8:
        return control_register(base, random_compare(rng, base))
    if chance < 0.9:
        return compare_register(base, random_compare(rng, base))
    if chance < 0.93:
        return base + EX0
    return base + 2 * rng.randrange(24)


def write_registers(rng: random.Random, code: Code) -> None:
    """Writes, by bytes and words, whatever the timer does at the time."""
    base = random_base(rng, code)
    for _ in range(rng.randrange(1, 4)):
        address = random_register(rng, base)
        distance = address - base
        if distance == CTL:
            value = random_control(rng)
            if rng.random() < 0.3:
                value &= rng.choice((0x0004, 0x0001, 0x0003, 0x00C0, 0x0400))
        elif FIRST_CCTL <= distance < R:
            value = random_compare_control(rng)
        elif distance == EX0:
            value = rng.choice((0, 1, 2, rng.randrange(0x10000)))
        else:
            value = random_count(rng)
        actions.change(rng, code, address, value)
        if rng.random() < 0.3:
            actions.show(rng, code, address)


def clear_timer(rng: random.Random, code: Code) -> None:
    """CLR in many writes: by a word, by a byte of either half, by BIS."""
    base = random_base(rng, code)
    kind = rng.randrange(4)
    if kind == 0:
        code.put(two("BIS", immediate(CLEAR), absolute(base)))
    elif kind == 1:
        code.put(assembler.store(base, random_control(rng, 1.0) & 0xFF, as_byte=True))
    elif kind == 2:
        code.put(assembler.store(base + 1, rng.choice((2, 6, 4, 1, 5)), as_byte=True))
    else:
        code.put(assembler.store(base, random_control(rng, 1.0)))


def change_divisor(rng: random.Random, code: Code) -> None:
    """Makes a divisor greater and then smaller, while edges are counted."""
    base = random_base(rng, code)
    code.put(assembler.store(base + EX0, rng.randrange(3, 8)))
    if rng.random() < 0.5:
        code.put(two("BIS", immediate(0x00C0), absolute(base)))
    actions.wait(rng, code)
    code.put(assembler.store(base + EX0, rng.randrange(0, 3)))
    if rng.random() < 0.5:
        code.put(two("BIC", immediate(rng.choice((0x00C0, 0x0080, 0x0040))), absolute(base)))
    actions.watch(rng, code, [base + R], most=20)


def pause(rng: random.Random, code: Code) -> None:
    """Stops a timer or lets it count in another mode, then goes on with up/down."""
    base = random_base(rng, code)
    code.put(two("BIC", immediate(rng.choice((0x0030, 0x0010, 0x0020))), absolute(base)))
    actions.wait(rng, code)
    if rng.random() < 0.5:
        actions.show(rng, code, base + R)
    code.put(two("BIS", immediate(rng.choice((0x0030, 0x0010, 0x0020))), absolute(base)))
    actions.watch(rng, code, [base + R], most=20)


def watch_timer(rng: random.Random, code: Code) -> None:
    base = random_base(rng, code)
    addresses = [base + R]
    if rng.random() < 0.6:
        addresses.append(base + rng.choice((IV, CTL)))
    if rng.random() < 0.4:
        addresses.append(control_register(base, random_compare(rng, base)))
    actions.watch(rng, code, addresses)


def follow_with_compare(rng: random.Random, code: Code) -> None:
    """A compare register close ahead of R, as firmware that waits has it."""
    base = random_base(rng, code)
    index = random_compare(rng, base)
    code.put(two("MOV", absolute(base + R), register(12)))
    code.put(two("ADD", immediate(rng.randrange(30)), register(12)))
    code.put(two("MOV", register(12), absolute(compare_register(base, index))))
    addresses = [control_register(base, index), base + R]
    actions.watch(rng, code, addresses, most=20)


ACTIONS = (
    (set_up, 4), (read_registers, 3), (write_registers, 5), (clear_timer, 1), (change_divisor, 1),
    (pause, 1), (watch_timer, 4), (follow_with_compare, 1),
)


def act_on_timers(rng: random.Random, code: Code) -> None:
    choices, weights = zip(*ACTIONS)
    rng.choices(choices, weights)[0](rng, code)
