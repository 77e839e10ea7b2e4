"""What comes to the debug port in a case: sessions of a few ticks, each with an aim.

A session knows where the program's parts lie, and not what the processor does at the time.
"""

import random
from collections.abc import Callable, Sequence

import actions
import timer_actions
from bench import EVENTS_IN_A_TICK, PINS, Event, PinLevel
from debug import (
    CLOSING_ADDRESSES, CLOSING_WORD, Command, Dump, Go, Halt, ReadRegister, ReadWord, Reset,
    SetRegister, WriteWord,
)
from dma_actions import CHANNELS, DESTINATION, DMACTL0, DMACTL1, SOURCE, SZ
from encapsulation_actions import (
    ENA, LOCK, MPUIPC0, MPUIPSEGB1, MPUIPSEGB2, VS, closing_words,
)
from layout import INFORMATION, INFORMATION_SIZE, Code, Places, Vault
from memory import ADDRESS_MASK, ADDRESSES
from protection_actions import (
    FRCTL0, GRAIN, MPUCTL0, MPUCTL1, MPUSAM, MPUSEGB1, MPUSEGB2, PASSWORD, SEGIE, SYSSNIV,
)

Timed = tuple[int, Command | PinLevel]  # how many ticks behind its session's begin, and what
Session = Callable[[random.Random, "Targets"], list[Timed]]

PC, SP, SR = 0, 1, 2
LENGTHS_OF_DUMPS = (1, 2, 8, 16, 31, 32)
LAST_TICK_OF_A_BOOT = 3
SIGNATURE_ADDRESS, SIGNATURE = 0xFF88, 0xAAAA
RESET_VECTOR = 0xFFFE
NO_VECTOR = 0xFFFF

SYSTEM = (actions.SFRIE1, actions.SFRIFG1, actions.PMMCTL0, actions.PM5CTL0, FRCTL0,
          actions.WDTCTL, actions.SYSCTL, actions.SYSRSTIV, SYSSNIV)
PROTECTION = (MPUCTL0, MPUCTL1, MPUSEGB2, MPUSEGB1, MPUSAM, MPUIPC0, MPUIPSEGB2, MPUIPSEGB1)
PORTS = tuple(base + distance for base in (0x0200, 0x0220) for distance in actions.PORT_DISTANCES)
BORDERS_OF_THE_MAP = (0x0000, 0x0FFE, 0x1000, 0x17FE, 0x1800, 0x19FE, 0x1A00, 0x1AFE, 0x1B00,
                      0x1C00, 0x23FE, 0x2400, 0x4400, 0x13FFE, 0x14000, 0xFFFFE, 0xFF80, 0xFF82,
                      0xFFFE, 0x10000)


class Targets:
    """Where commands go: most often to few addresses of a program, so that they meet its work."""

    def __init__(self, rng: random.Random, places: Places, codes: list[Code]):
        self.places = places
        self.vault = places.vault or Vault(0x8000, 0x8400, [0x8000])
        self.code_addresses = [code.address for code in codes]
        self.favourite = rng.choice((0x1C00, 0x23F0, *self.code_addresses))

    def address(self, rng: random.Random) -> int:
        if self.places.structures and rng.random() < 0.15:
            return rng.choice(self.places.structures) + 2 * rng.randrange(4)
        chance = rng.random()
        if chance < 0.3:
            return self.vault.random_address(rng)
        if chance < 0.4:
            return self.places.bridge + rng.randrange(-6, 6)
        if chance < 0.6:
            return self.register(rng) + (rng.random() < 0.15)
        if chance < 0.7:
            return rng.choice(BORDERS_OF_THE_MAP) + rng.randrange(-3, 4) & ADDRESS_MASK
        if chance < 0.8:
            return self.favourite + rng.randrange(0x40)
        if chance < 0.9:
            return rng.randrange(0x1C00, 0x2400)
        return rng.choice((rng.randrange(ADDRESSES), rng.randrange(0x4400, 0x14000),
                           INFORMATION + rng.randrange(INFORMATION_SIZE)))

    def register(self, rng: random.Random) -> int:
        chance = rng.random()
        if chance < 0.35:
            return rng.choice(PROTECTION)
        if chance < 0.6:
            return rng.choice(SYSTEM)
        if chance < 0.75:
            return rng.choice(PORTS)
        if chance < 0.85:
            base = rng.choice(tuple(timer_actions.COMPARES_OF_BASE))
            return timer_actions.random_register(rng, base)
        return rng.choice((DMACTL0, DMACTL1, 0x050E, *(
            channel + distance for channel in CHANNELS for distance in (0, 2, 6, SZ))))

    def jump_target(self, rng: random.Random) -> int:
        """Where PC is set to, in the seal or out of it."""
        return rng.choice((
            rng.choice(self.vault.doors), rng.choice(self.vault.doors), self.vault.first,
            self.vault.end - 2, self.vault.end, self.vault.first - 2, self.places.start,
            rng.choice(self.code_addresses), rng.randrange(ADDRESSES), self.places.bridge - 8,
        )) & ADDRESS_MASK


# Commands

def read(rng: random.Random, targets: Targets) -> Command:
    at = targets.address(rng)
    if rng.random() < 0.3:
        return Dump(at, rng.choice((*LENGTHS_OF_DUMPS, rng.randrange(1, 33))))
    return ReadWord(at)


def dump_over_a_border(rng: random.Random, targets: Targets) -> Command:
    count = rng.choice(LENGTHS_OF_DUMPS)
    border = rng.choice((targets.vault.first, targets.vault.end, targets.places.bridge, 0xFF80,
                         0x10000, ADDRESSES, 0x14000, 0x1800, 0x4400, 0x05AA))
    return Dump(border - rng.randrange(count + 1) & ADDRESS_MASK, count)


def write(rng: random.Random, targets: Targets) -> Command:
    at = targets.address(rng)
    if at < 0x1000:
        return write_register(rng, targets)
    if at in range(0xFF84, 0x10000):  # the vectors and the signature stay most often
        at = targets.vault.random_address(rng)
    return WriteWord(at, actions.word_of_any_kind(rng))


def write_register(rng: random.Random, targets: Targets) -> Command:
    at = targets.register(rng)
    value = actions.word_of_any_kind(rng)
    if at in (FRCTL0, MPUCTL0, actions.PMMCTL0):
        value = rng.choice((PASSWORD,) * 5 + (0x9600,)) | rng.choice((0, 0, 1, SEGIE, value & 0xF3))
    if at == actions.WDTCTL:
        value = rng.choice((0x5A80,) * 6 + (0x5A17, 0x5A0E, 0x6980))
    return WriteWord(at, value)


def set_register(rng: random.Random, targets: Targets) -> Command:
    number = rng.choice((PC, PC, SP, SR, SR, rng.randrange(16), rng.randrange(16)))
    value = rng.randrange(ADDRESSES)
    if number == PC:
        value = targets.jump_target(rng) | (rng.random() < 0.2)
    elif number == SP:
        value = rng.choice((0x2400, 0x2300, targets.vault.end, targets.vault.end - 2, 0x05B0))
    elif number == SR:
        value = rng.choice((0, 8, 8, 0x18, 0x10, 0x80, 0x20, 0x40, value))
    return SetRegister(number, value)


def look_at_registers(rng: random.Random) -> list[Command]:
    return [ReadRegister(number) for number in rng.sample(range(16), rng.randrange(1, 5))]


def any_command(rng: random.Random, targets: Targets) -> Command:
    kind = rng.randrange(12)
    if kind < 4:
        return read(rng, targets)
    if kind < 6:
        return write(rng, targets)
    if kind == 6:
        return set_register(rng, targets)
    if kind == 7:
        return dump_over_a_border(rng, targets)
    return rng.choice((ReadRegister(rng.randrange(16)), Halt(), Go(), Go(),
                       Reset() if rng.random() < 0.2 else Go()))


# Sessions

def glance(rng: random.Random, targets: Targets) -> list[Timed]:
    return [(rng.randrange(3), rng.choice((read, read, dump_over_a_border))(rng, targets))
            for _ in range(rng.choice((1, 2, 4, 8)))]


def change(rng: random.Random, targets: Targets) -> list[Timed]:
    """Writes, and reads behind them."""
    commands: list[Timed] = []
    for _ in range(rng.randrange(1, 4)):
        command = rng.choice((write, write_register))(rng, targets)
        tick = rng.randrange(4)
        commands.append((tick, command))
        if rng.random() < 0.7:
            commands.append((tick + rng.randrange(2), ReadWord(command.at)))
    return commands


def fill_a_tick(rng: random.Random, targets: Targets) -> list[Timed]:
    return [(0, any_command(rng, targets)) for _ in range(EVENTS_IN_A_TICK)] + [(12, Go())]


def halted(rng: random.Random, targets: Targets) -> list[Timed]:
    """A halt, what can be done on a halted processor, and most often its end."""
    commands: list[Timed] = [(0, Halt())]
    tick = 0
    for _ in range(rng.randrange(1, 6)):
        tick += rng.choice((0, 1, 1, 2, 5, 20))
        kind = rng.randrange(6)
        if kind < 2:
            commands += [(tick, command) for command in look_at_registers(rng)]
        elif kind < 4:
            change_of_register = set_register(rng, targets)
            commands.append((tick, change_of_register))
            commands.append((tick, ReadRegister(change_of_register.number)))
        elif kind == 4:
            commands.append((tick, read(rng, targets)))
        else:
            commands.append((tick, rng.choice((Halt(), Halt(), write(rng, targets)))))
    return commands + last_go(rng, tick)


def last_go(rng: random.Random, tick: int) -> list[Timed]:
    chance = rng.random()
    tick += rng.choice((0, 1, 3))
    if chance < 0.85:
        return [(tick, Go())]
    return [(tick, Reset())] if chance < 0.95 else []


def step_by_step(rng: random.Random, targets: Targets) -> list[Timed]:
    """Go, and a halt so soon that one instruction comes between, or none."""
    commands: list[Timed] = [(0, Halt())]
    tick = rng.choice((6, 8, 12))
    for _ in range(rng.randrange(2, 8)):
        commands.append((tick, Go()))
        tick += rng.choice((0, 1, 1, 2))
        commands.append((tick, Halt()))
        tick += rng.choice((1, 4, 7, 10))
        commands.append((tick, ReadRegister(rng.choice((PC, PC, SP, SR, 9)))))
        tick += rng.randrange(2)
    return commands + last_go(rng, tick)


def halt_on_the_way(rng: random.Random, targets: Targets) -> list[Timed]:
    """Halted, sent into the vault, and halted again: that has to wait for the way out."""
    tick = rng.choice((6, 10, 30))
    commands: list[Timed] = [(0, Halt())]
    if rng.random() < 0.6:
        commands.append((tick, SetRegister(SP, rng.choice((0x2400, 0x2300)))))
    commands.append((tick, SetRegister(PC, targets.jump_target(rng))))
    commands.append((tick, rng.choice((read, write))(rng, targets)))
    if rng.random() < 0.3:
        commands.append((tick, SetRegister(PC, targets.jump_target(rng))))
    commands.append((tick, Go()))
    tick += rng.randrange(3)
    commands.append((tick, Halt()))
    tick += rng.choice((1, 3, 10, 60))
    commands.append((tick, ReadRegister(rng.choice((PC, SR, rng.randrange(16))))))
    if rng.random() < 0.15:
        commands.append((tick, Go()))  # drops a halt that may be pending still
    return commands + last_go(rng, tick + rng.choice((1, 40, 200)))


def encapsulate(rng: random.Random, targets: Targets) -> list[Timed]:
    """Borders and MPUIPC0 by writes of the debugger, who reads back what it still can."""
    vault = targets.vault
    first, end = rng.choice((
        (vault.first, vault.end), (vault.first, vault.end), (vault.first, vault.end),
        (rng.randrange(0, 0x14400, GRAIN), rng.randrange(0, 0x14400, GRAIN)),
        (targets.places.bridge, targets.places.bridge + GRAIN), (0xF800, 0x10400),
        (0, 0xFFC00), (vault.end, vault.first),
    ))
    bits = rng.choice((ENA, ENA | LOCK, ENA | LOCK, ENA | VS, ENA | VS | LOCK, LOCK, 0xFFFF))
    writes = [WriteWord(MPUIPSEGB1, first >> 4 | rng.choice((0, 0x3F))),
              WriteWord(MPUIPSEGB2, end >> 4), WriteWord(MPUIPC0, bits)]
    if rng.random() < 0.2:
        rng.shuffle(writes)
    control = PASSWORD | rng.choice((0, SEGIE, SEGIE, SEGIE | 1))
    if rng.random() < 0.95:
        writes.insert(0, WriteWord(MPUCTL0, control))
    ticks = rng.choice(((0, 0, 0, 0), (0, 1, 2, 3), (0, 0, 1, 5)))
    commands: list[Timed] = list(zip(ticks, writes))
    tick = rng.choice((0, 1, 4))
    commands += [(tick + 5, ReadWord(rng.choice(PROTECTION))) for _ in range(2)]
    commands += [(tick + 6, rng.choice((read, dump_over_a_border, write))(rng, targets))
                 for _ in range(4)]
    return commands


def halt_in_the_seal(rng: random.Random, targets: Targets) -> list[Timed]:
    """Locks the vault about itself, sends the processor in, and halts it there."""
    vault = targets.vault
    words = ((MPUCTL0, PASSWORD), (MPUIPSEGB1, vault.first >> 4), (MPUIPSEGB2, vault.end >> 4),
             (MPUIPC0, ENA | (LOCK if rng.random() < 0.85 else 0)))
    commands: list[Timed] = [(0, WriteWord(*pair)) for pair in words] + [(1, Halt())]
    tick = rng.choice((10, 30))
    commands.append((tick, SetRegister(PC, rng.choice(vault.doors))))
    commands.append((tick, SetRegister(10, vault.random_address(rng))))
    commands.append((tick, SetRegister(SP, 0x23F0)))
    return_address = targets.jump_target(rng)
    commands.append((tick, WriteWord(0x23F0, return_address & 0xFFFE)))
    commands.append((tick, WriteWord(0x23F2, return_address >> 16)))
    commands.append((tick + 1, Go()))
    commands.append((tick + rng.choice((1, 2, 4)), Halt()))
    tick += rng.choice((5, 9, 30))
    commands.append((tick, read(rng, targets)))
    commands += [(tick, command) for command in look_at_registers(rng)[:2]]
    if rng.random() < 0.15:
        commands.append((tick, Go()))  # drops the halt if it still waits
        commands.append((tick + 3, ReadRegister(PC)))
    return commands + last_go(rng, tick + rng.choice((3, 40, 300)))


def take_back(rng: random.Random, targets: Targets) -> list[Timed]:
    """A BOR ends what is locked; a write ends what isn't."""
    if rng.random() < 0.5:
        return [(0, Reset())]
    return [(0, WriteWord(MPUCTL0, PASSWORD)), (0, WriteWord(MPUIPC0, 0)),
            (1, ReadWord(MPUIPC0))]


def reset_and_ask(rng: random.Random, targets: Targets) -> list[Timed]:
    """Commands in the tick of a reset, in its boot, and behind that."""
    commands: list[Timed] = []
    if rng.random() < 0.4:
        commands.append((0, rng.choice((Halt(), any_command(rng, targets)))))
    if rng.random() < 0.02:
        commands.append((0, WriteWord(SIGNATURE_ADDRESS, SIGNATURE)))  # the boot erases most often
    reset = Reset() if rng.random() < 0.7 else WriteWord(actions.PMMCTL0, 0xA504)
    commands.append((0, reset))
    if rng.random() < 0.5:
        commands.append((0, rng.choice((
            Halt(), WriteWord(actions.WDTCTL, 0x1234), WriteWord(MPUCTL0, 0), read(rng, targets),
            WriteWord(actions.PMMCTL0, rng.choice((0xA504, 0xA508, 0x1200))),
        ))))
    for tick in range(1, LAST_TICK_OF_A_BOOT + 2):
        commands += [(tick, any_command(rng, targets)) for _ in range(rng.randrange(3))]
    return commands + [(9, Go())]


def close(rng: random.Random, targets: Targets) -> list[Timed]:
    """The port closes behind its own two writes. Only the program can open it again."""
    words = [CLOSING_WORD] * 2 if rng.random() < 0.3 else closing_words(rng)
    writes = [WriteWord(*pair) for pair in zip(CLOSING_ADDRESSES, words)]
    rng.shuffle(writes)
    commands: list[Timed] = [(0, write) for write in writes]
    commands += [(tick, any_command(rng, targets)) for tick in (0, 0, 1, 3)]
    if rng.random() < 0.5:
        commands.insert(rng.randrange(3), (0, Halt()))
    return commands


def start_dma(rng: random.Random, targets: Targets) -> list[Timed]:
    """A whole channel and its REQ in one tick, while the processor is halted or isn't."""
    channel = rng.choice(CHANNELS)
    source, destination = targets.address(rng), rng.choice((0x0202, 0x0222, 0x1C80))
    if rng.random() < 0.3:
        source, destination = 0x1C80, targets.vault.random_free_address(rng)
    mode = rng.choice((0x0000, 0x1000, 0x2000, 0x5000))
    steps = rng.choice((0x0300, 0x0F00, 0x0000))
    commands = [
        WriteWord(channel + SOURCE, source & 0xFFFF), WriteWord(channel + SOURCE + 2, source >> 16),
        WriteWord(channel + DESTINATION, destination & 0xFFFF),
        WriteWord(channel + DESTINATION + 2, destination >> 16),
        WriteWord(channel + SZ, rng.randrange(1, 12)),
        WriteWord(channel, mode | steps | rng.choice((0x11, 0x11, 0x15, 0xD1))),
    ]
    if rng.random() < 0.5:
        commands.insert(0, Halt())
    timed = [(0, command) for command in commands]
    return timed + [(2, ReadWord(channel)), (3, ReadWord(SYSSNIV)), (rng.randrange(2, 30), Go())]


def disturb_clocks(rng: random.Random, targets: Targets) -> list[Timed]:
    """SR and a timer are changed in a tick whose edges see that already."""
    base = rng.choice(tuple(timer_actions.COMPARES_OF_BASE))
    tick = rng.choice((8, 15))
    return [
        (0, Halt()), (tick, WriteWord(base, 0x0220)),
        (tick + 2, SetRegister(SR, rng.choice((0x80, 0x20, 0xA0, 0)))),
        (tick + rng.choice((3, 9)), SetRegister(SR, rng.choice((0, 8, 0x80)))),
        (tick + 9, ReadWord(base + timer_actions.R)), (tick + 10, WriteWord(base, 0)),
        (tick + 12, Go()),
    ]


def read_timers(rng: random.Random, targets: Targets) -> list[Timed]:
    """Counters as they stand before the edges of the tick."""
    bases = tuple(timer_actions.COMPARES_OF_BASE)
    return [(tick, ReadWord(base + timer_actions.R)) for tick in (0, 1, 7) for base in bases]


def wake_the_dead(rng: random.Random, targets: Targets) -> list[Timed]:
    """Another reset vector and a PUC, or none, which leaves the processor dead."""
    commands: list[Timed] = []
    if rng.random() < 0.5:
        commands += [(0, WriteWord(RESET_VECTOR, NO_VECTOR)), (1, WriteWord(actions.WDTCTL, 0))]
    commands += [(rng.randrange(1, 5), any_command(rng, targets)) for _ in range(3)]
    if rng.random() < 0.6:
        commands += [(3, Halt()), (4, ReadRegister(PC)), (5, Go())]
    commands.append((12, WriteWord(RESET_VECTOR, targets.places.start)))
    reset = WriteWord(actions.WDTCTL, 0) if rng.random() < 0.7 else Reset()
    return commands + [(12, reset), (14, ReadWord(actions.SYSRSTIV))]


def drive_and_read(rng: random.Random, targets: Targets) -> list[Timed]:
    """Pins and commands in one tick, which are done in their order."""
    pins = rng.sample(list(PINS.values()), 2)
    acts: list[Timed] = []
    for _ in range(4):
        acts.append((0, PinLevel(rng.choice(pins), rng.randrange(2))))
        port = rng.choice((0x0200, 0x0220, 0x021C, 0x023C))
        acts.append((0, rng.choice((ReadWord(port), ReadWord(port), WriteWord(port | 0x18, 0xFFFF),
                                    WriteWord(actions.PM5CTL0, 0), Dump(port, 2)))))
    return acts


def any_commands(rng: random.Random, targets: Targets) -> list[Timed]:
    return [(rng.randrange(30), any_command(rng, targets)) for _ in range(rng.randrange(2, 14))] + [
        (rng.choice((30, 60)), Go())]


SESSIONS: tuple[tuple[Session, float], ...] = (
    (glance, 6), (change, 3), (fill_a_tick, 2), (halted, 5), (step_by_step, 3),
    (halt_on_the_way, 4), (halt_in_the_seal, 4), (encapsulate, 5), (take_back, 1.2),
    (reset_and_ask, 2), (close, 0.3), (start_dma, 2), (disturb_clocks, 0.7), (read_timers, 1),
    (wake_the_dead, 0.3), (drive_and_read, 1), (any_commands, 2),
)


def random_sessions(
    rng: random.Random, end: int, targets: Targets, sessions: Sequence[tuple[Session, float]]
) -> list[Event]:
    """The events of some sessions, in their order. There may be too many in a tick."""
    events = []
    for _ in range(rng.choice((1, 2, 4, 8, 15))):
        session, = rng.choices(*zip(*sessions))
        begin = rng.randrange(min(end, 8)) if rng.random() < 0.08 else rng.randrange(end)
        events += [Event(begin + tick, command) for tick, command in session(rng, targets)]
    return sorted((event for event in events if event.tick < end), key=lambda event: event.tick)


def at_most_eight_in_a_tick(events: list[Event]) -> list[Event]:
    kept: list[Event] = []
    for event in events:
        ticks = [earlier.tick for earlier in kept[-EVENTS_IN_A_TICK:]]
        if ticks.count(event.tick) < EVENTS_IN_A_TICK:
            kept.append(event)
    return kept
