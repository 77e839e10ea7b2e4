"""What is public of a chip between two ticks, and the law that two runs with equal items keep.

All of a chip is public but the bytes that are kept secret, and while the phase is private the
registers and how long the processor is busy. Of SR the bits that switch the processor and the
clocks stay public.
"""

from collections import Counter
from enum import Enum
from functools import lru_cache

import seals
from chip import Chip
from encapsulation import Borders
from interrupts import SR
from items import POWER_BITS
from memory import STORED_BYTES
from pair import Chips, LawBroken
from seals import Seal

PLAIN = (int, list, dict, frozenset, Enum, Borders)  # what the state of a unit is made of
NAMES_OF_STATE: dict[type, list[str]] = {}


def state(unit) -> list:
    """What a unit holds. What it only leads to, and counts for a report, is left out."""
    held = vars(unit)
    if type(unit) not in NAMES_OF_STATE:
        NAMES_OF_STATE[type(unit)] = [
            name for name, value in held.items()
            if isinstance(value, PLAIN) and not isinstance(value, Counter)
        ]
    return [held[name] for name in NAMES_OF_STATE[type(unit)]]


@lru_cache(maxsize=64)
def places_outside(kept: Seal) -> tuple[slice, ...]:
    ends = [0]
    for interval in seals.intervals(kept):
        ends += [interval.start, interval.stop]
    ends.append(STORED_BYTES)
    return tuple(slice(*pair) for pair in zip(ends[::2], ends[1::2]))


def bytes_outside(chip: Chip) -> list[bytearray]:
    return [chip.memory.store[place] for place in places_outside(chip.encapsulation.kept)]


def is_private(chip: Chip) -> bool:
    return chip.powered and chip.is_booted() and chip.is_private()


def public_part(chip: Chip) -> dict:
    private = is_private(chip)
    power_bits = chip.registers.get(SR) & POWER_BITS
    return {
        "tick": chip.number, "power": chip.powered, "phase": private, "dead": chip.dead,
        "registers": power_bits if private else chip.registers.values,
        "busy": None if private else chip.busy,
        "requests": set(chip.requests), "noted violations": chip.protection.noted,
        "boot": state(chip.boot), "mark and ptr": state(chip.hidden),
        "debugger": state(chip.debug), "protection": state(chip.protection),
        "latch": state(chip.protection.latch), "encapsulation": state(chip.encapsulation),
        "fram controller": state(chip.fram), "its latch": state(chip.fram.latch),
        "system": state(chip.system), "watchdog": state(chip.watchdog),
        "ports": [state(pair) for pair in chip.ports.pairs],
        "timers": [state(timer) for timer in chip.timers], "dma": state(chip.dma),
        "channels": [state(channel) for channel in chip.dma.channels],
        "memory": bytes_outside(chip),
    }


# Ticks that were compared
ALL = "in all"
PRIVATE = "in private phase"
APART = "with registers that differ"
BEHIND = "behind the first of these"


class Witness:
    """Holds two runs to the law, and counts what they came through."""

    def __init__(self, statistics: Counter):
        self.statistics = statistics
        self.is_apart = False  # since the phase became private registers have differed
        self.was_apart = False  # this has ever been so

    def __call__(self, chips: Chips) -> None:
        """Behind a tick up to which all items agreed."""
        first, second = (public_part(chip) for chip in chips)
        if first != second:
            names = [name for name in first if first[name] != second[name]]
            raise LawBroken(f"behind tick {chips[0].number - 1}: {', '.join(names)}")
        self.count(chips, first["phase"])

    def count(self, chips: Chips, private: bool) -> None:
        self.note(ALL)
        if self.was_apart:
            self.note(BEHIND)
        first, second = chips
        for item in first.items:
            self.statistics[f"item {type(item).__name__}"] += 1
        if not private:
            self.statistics["ways out"] += self.is_apart and first.powered
            self.is_apart = False
            return
        self.note(PRIVATE)
        if first.registers.values != second.registers.values:
            self.note(APART)
            self.is_apart = self.was_apart = True

    def note(self, what: str) -> None:
        self.statistics[f"ticks {what}"] += 1
