"""Power: in which ticks it is on, and which writes of a tick a cut leaves (MACHINE.md, Power cuts).

A cut names a tick. Of the writes of that tick those up to a number are whole, and the others are
absent. Power goes off at the end of the tick, and comes on again behind the ticks that are off.
"""

from bisect import bisect_right
from collections import Counter
from dataclasses import dataclass


@dataclass(frozen=True)
class Cut:
    tick: int
    writes: int  # so many of the tick's writes are whole
    off: int  # so many ticks that follow are off


@dataclass(frozen=True)
class Power:
    """What the schedule says of one tick."""

    is_on: bool
    whole_writes: int | None = None  # where a cut comes


ON = Power(is_on=True)
OFF = Power(is_on=False)


class Schedule:
    def __init__(self, cuts: list[Cut]):
        self.cuts = cuts
        self.ticks = [cut.tick for cut in cuts]

    def at(self, tick: int) -> Power:
        index = bisect_right(self.ticks, tick) - 1
        if index < 0:
            return ON
        cut = self.cuts[index]
        if tick == cut.tick:
            return Power(is_on=True, whole_writes=cut.writes)
        return OFF if tick <= cut.tick + cut.off else ON


class Writes:
    """Numbers the writes of a tick from 1: those of all agents, and those of mark and ptr."""

    def __init__(self, statistics: Counter):
        self.statistics = statistics
        self.begin_tick(None)

    def begin_tick(self, whole: int | None) -> None:
        """`whole` is how many of the tick's writes a cut leaves, where one comes."""
        self.count = 0
        self.whole = whole

    def end_in_a_cut(self) -> bool:
        return self.whole is not None

    def next_is_absent(self, writer: str) -> bool:
        """Takes the next number for a write that is about to be made."""
        self.count += 1
        if self.whole is None:
            return False
        absent = self.count > self.whole
        self.statistics[f"{'absent' if absent else 'whole'} in a cut: {writer}"] += 1
        return absent
