"""What comes to the debug port about boots: structures by commands, erases and what follows."""

import random

import actions
import assembler
from assembler import absolute, immediate, two
from bench import EVENTS_IN_A_TICK
from debug import (
    CLOSING_ADDRESSES, CLOSING_WORD, Command, Dump, Erase, Go, Halt, ReadWord, Reset, WriteWord,
)
from debug_situations import (
    NO_VECTOR, PROTECTION, RESET_VECTOR, SESSIONS, Session, Targets, Timed, any_command,
)
from encapsulation_actions import REGISTERS
from layout import SLOT_SIZE
from structures import (
    GRAIN_OF_PLACES, POINTER_ADDRESS, SIGNATURE, SIGNATURE_ADDRESS, random_words,
)

WRONG_SHARE = 0.1
COMMANDS_OF_A_TICK = 7  # so that another has room
ENDS_OF_A_WIPE = (0x1800, 0x19FE, 0x4400, 0x13FFE, 0x13FFE, 0x13FFC, 0x1802, 0x4402, 0xFFFE, 0xFF88,
                  0x1C00)
LAST_TICK_OF_A_BOOT = 10


def look_at_what_boots(rng: random.Random, targets: Targets) -> list[Timed]:
    commands: list[Timed] = []
    for _ in range(rng.randrange(1, 5)):
        command = rng.choice((
            ReadWord(rng.choice((SIGNATURE_ADDRESS, POINTER_ADDRESS))),
            ReadWord(rng.choice(PROTECTION)), ReadWord(rng.choice(REGISTERS)),
            ReadWord(actions.SYSRSTIV), Dump(place(rng, targets), 8),
        ))
        commands.append((rng.randrange(3), command))
    return commands


def place(rng: random.Random, targets: Targets) -> int:
    """Of a structure."""
    return rng.choice(targets.places.structures or [0x1800, targets.vault.data])


def written(address: int, words: list[int]) -> list[Command]:
    return [WriteWord(address + 2 * index, word) for index, word in enumerate(words)]


def boot_again(rng: random.Random) -> list[Timed]:
    """A BOR most often, and what the debugger finds behind its boot."""
    if rng.random() < 0.3:
        return []
    tick = rng.choice((0, 1, 1, 4))
    looks = [(tick + rng.randrange(LAST_TICK_OF_A_BOOT + 3), ReadWord(rng.choice(REGISTERS)))
             for _ in range(rng.randrange(3))]
    return [(tick, Reset()), *looks]


def rewrite_structure(rng: random.Random, targets: Targets) -> list[Timed]:
    address = place(rng, targets)
    words = random_words(rng, targets.places, WRONG_SHARE)
    writes = written(address, words)
    if rng.random() < 0.3:
        rng.shuffle(writes)
    return [*((0, write) for write in writes), *boot_again(rng)]


def lead_elsewhere(rng: random.Random, targets: Targets) -> list[Timed]:
    """The signature or the pointer, which a saved mark makes nothing of."""
    signature = SIGNATURE if rng.random() < 0.6 else rng.choice((0xFFFF, 0, 0xAAAB))
    pointer = place(rng, targets) // GRAIN_OF_PLACES
    writes = [WriteWord(SIGNATURE_ADDRESS, signature), WriteWord(POINTER_ADDRESS, pointer)]
    return [*((0, write) for write in rng.sample(writes, rng.randrange(1, 3))), *boot_again(rng)]


def erase(rng: random.Random, targets: Targets) -> list[Timed]:
    """With other commands in its tick, and in those behind it."""
    commands: list[Timed] = []
    if rng.random() < 0.4:
        commands.append((0, rng.choice((
            Halt(), any_command(rng, targets), WriteWord(actions.WDTCTL, 0), Reset(),
        ))))
    if rng.random() < 0.5:
        commands.append((0, WriteWord(rng.choice(ENDS_OF_A_WIPE), rng.randrange(0x10000))))
    if rng.random() < 0.08:
        commands += [(0, WriteWord(address, CLOSING_WORD)) for address in CLOSING_ADDRESSES]
    commands.append((0, Erase()))
    if rng.random() < 0.5:
        commands.append((0, rng.choice((
            Erase(), Reset(), any_command(rng, targets), WriteWord(targets.address(rng), 0x1234),
        ))))
    commands += [(rng.randrange(1, 5), any_command(rng, targets)) for _ in range(rng.randrange(4))]
    return commands


def write_in_a_row(rng: random.Random, targets: Targets) -> list[Timed]:
    """Commands of one tick that write to all kinds of places, and an erase among them perhaps."""
    vault = targets.vault
    commands: list[Command] = []
    for _ in range(rng.randrange(2, EVENTS_IN_A_TICK + 1)):
        at = rng.choice((
            0x1900, 0x1902, vault.data, vault.end, vault.first - 2, 0x1D00, 0x1F00, 0x2400, 0x1A00,
            0x0202, 0x0160, targets.address(rng),
        ))
        commands.append(WriteWord(at, rng.randrange(0x10000)))
    if rng.random() < 0.04:
        commands[rng.randrange(len(commands))] = Erase()
    if rng.random() < 0.3:
        commands[rng.randrange(len(commands))] = ReadWord(targets.address(rng))
    looks = [ReadWord(command.at) for command in commands if isinstance(command, WriteWord)]
    return [(0, command) for command in commands] + [(1, look) for look in looks[:2]]


def look_behind_an_erase(rng: random.Random, targets: Targets) -> list[Timed]:
    commands = [
        rng.choice((ReadWord(rng.choice(ENDS_OF_A_WIPE)), ReadWord(rng.choice(ENDS_OF_A_WIPE)),
                    ReadWord(targets.address(rng)), Dump(rng.choice(ENDS_OF_A_WIPE), 32)))
        for _ in range(rng.randrange(1, 6))
    ]
    return [(rng.randrange(1, 4), command) for command in commands]


def revive(rng: random.Random, targets: Targets) -> list[Timed]:
    """A small program by commands, with a structure or without, and a reset."""
    start = rng.choice((0x4400, rng.randrange(0x4400, 0xF800, SLOT_SIZE)))
    writes = written(start, small_program(rng, start))
    writes.append(WriteWord(RESET_VECTOR, start if rng.random() < 0.95 else NO_VECTOR))
    if rng.random() < 0.6:
        address = place(rng, targets)
        writes += written(address, random_words(rng, targets.places, 0.15))
        writes.append(WriteWord(SIGNATURE_ADDRESS, SIGNATURE))
        writes.append(WriteWord(POINTER_ADDRESS, address // GRAIN_OF_PLACES))
    if rng.random() < 0.2:
        rng.shuffle(writes)
    commands: list[Timed] = [
        (index // COMMANDS_OF_A_TICK, write) for index, write in enumerate(writes)
    ]
    tick = len(writes) // COMMANDS_OF_A_TICK + rng.randrange(1, 3)
    reset = Reset() if rng.random() < 0.7 else WriteWord(actions.WDTCTL, 0)
    return [*commands, (tick, reset), (tick + rng.choice((4, 11, 14)), ReadWord(actions.SYSRSTIV))]


def small_program(rng: random.Random, start: int) -> list[int]:
    """Opens the pins, shows a word, and counts on the pins."""
    words = [*assembler.store(actions.WDTCTL, 0x5A80), *assembler.store(actions.PM5CTL0, 0),
             *assembler.store(actions.PORT_DIRECTIONS[0], 0xFFFF)]
    output = actions.PORT_OUTPUTS[0]
    shown = rng.choice((0x4400, 0x1800, SIGNATURE_ADDRESS, actions.SYSRSTIV, *REGISTERS))
    words += assembler.copy(shown, output)
    loop = start + 2 * len(words)
    words += two("ADD", immediate(1), absolute(output))
    return words + assembler.jump("JMP", start + 2 * len(words), loop)


def ask_in_a_boot(rng: random.Random, targets: Targets) -> list[Timed]:
    """A BOR, and something in each tick of its boot and in those behind it."""
    commands: list[Timed] = [(0, Reset())]
    commands += [(tick, any_command(rng, targets)) for tick in range(1, LAST_TICK_OF_A_BOOT + 3)]
    return [*commands, (30, Go())]


BOOT_SESSIONS: tuple[tuple[Session, float], ...] = (
    (look_at_what_boots, 5), (rewrite_structure, 5), (lead_elsewhere, 3), (ask_in_a_boot, 1.5),
    (write_in_a_row, 8), (erase, 0.5), *SESSIONS,
)
ERASE_SESSIONS: tuple[tuple[Session, float], ...] = ((erase, 35), *BOOT_SESSIONS)
