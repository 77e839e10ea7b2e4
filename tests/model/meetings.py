"""Lets a cut or a command come in a tick of a case in which something rare happens.

Such ticks are few, and what comes to a run by chance meets them seldom. They are known only once
the run was played.
"""

import random
from collections import Counter

import actions
from bench import EVENTS_IN_A_TICK, Bench, Event
from chip import Chip
from debug import Command, Erase, Halt, ReadWord, Reset, WriteWord
from image import store_of_image
from power import Cut, Schedule
from protection_actions import FRCTL0, MPUCTL0, MPUCTL1

LOCK = "LOCK"  # what is kept changes while no boot runs
COMMANDS: tuple[Command, ...] = (
    Reset(), WriteWord(actions.WDTCTL, 0), WriteWord(actions.PMMCTL0, 0x1200),
    WriteWord(FRCTL0, 0x9600), WriteWord(MPUCTL0, 0x1200), Halt(), Erase(), ReadWord(MPUCTL1),
    ReadWord(0x1A00),
)
LARGE_NUMBER = 64
# What is met more often than others that are as rare.
FAVOURITES = {"Reset": 6, "Flags": 3, LOCK: 3}
COMMANDS_THAT_RESET = COMMANDS[:4]


def meet(rng: random.Random, image: bytes, bench: Bench) -> None:
    """Of what happens in the run, the rarest is met most often."""
    found = ticks_by_kind(store_of_image(image), bench)
    if not found:
        return
    weights = [FAVOURITES.get(kind, 1) / len(ticks) for kind, ticks in found.items()]
    kind, = rng.choices(list(found), weights)
    tick = rng.choice(found[kind])
    if kind == "Reset" and rng.random() < 0.7:
        command_at(bench, tick, rng.choice(COMMANDS_THAT_RESET))
    elif rng.random() < 0.5:
        cut_at(rng, bench, tick)
    else:
        command_at(bench, tick, rng.choice(COMMANDS))


def ticks_by_kind(store: bytearray, bench: Bench) -> dict[str, list[int]]:
    """Where items are, by their kinds, and where what is kept changes by a write."""
    chip = Chip(store, bench.fill, Counter())
    events, schedule = bench.events_of_ticks(), Schedule(bench.cuts)
    found: dict[str, list[int]] = {}
    for tick in range(bench.end):
        kept, booted = chip.encapsulation.kept, chip.is_booted()
        chip.tick(events.get(tick, []), schedule.at(tick))
        kinds = {type(item).__name__ for item in chip.items}
        if booted and chip.encapsulation.kept != kept:
            kinds.add(LOCK)
        for kind in kinds:
            found.setdefault(kind, []).append(tick)
    return dict(sorted(found.items()))  # in an order that doesn't depend on hashes


def cut_at(rng: random.Random, bench: Bench, tick: int) -> None:
    """The last cut of the run, most often one that leaves all writes of its tick whole."""
    earlier = [cut for cut in bench.cuts if cut.tick < tick]
    if earlier and earlier[-1].tick + earlier[-1].off >= tick:
        return
    writes = rng.choice((0, 1, 2, LARGE_NUMBER, LARGE_NUMBER, LARGE_NUMBER))
    bench.cuts = [*earlier, Cut(tick, writes, rng.choice((1, 2, 9)))]


def command_at(bench: Bench, tick: int, command: Command) -> None:
    if sum(event.tick == tick for event in bench.events) == EVENTS_IN_A_TICK:
        return
    events = [*bench.events, Event(tick, command)]
    bench.events = sorted(events, key=lambda event: event.tick)
