"""What `capsule pair` writes of two images under one bench, and the number it ends with.

Two images agree where they have the same seal and the same FRAM outside of it. Such two are run
side by side. Up to the first tick whose items differ they show the same.
"""

from collections import Counter
from collections.abc import Callable
from dataclasses import dataclass

import trace
from bench import Bench
from chip import Chip
from memory import STORED_BYTES, is_fram
from power import Schedule
from run import Answer, NotRun, bench_of_file, store_of_file
from seals import BYTES_OF_A_ROW, Seal

DONE, DIFFER = 0, 1
SAME = "same\n"

Chips = tuple[Chip, Chip]
Watch = Callable[[Chips], None]  # is called behind each tick whose items agreed


class LawBroken(Exception):
    """Two runs whose items agreed showed something that differs."""


@dataclass(frozen=True)
class Pair:
    answer: Answer
    ticks: int = 0  # that were run, up to the one whose items differ


def pair(
    first: bytes, second: bytes, bench: bytes, statistics: Counter, watch: Watch | None = None
) -> Pair:
    """The files decide in this order. The statistics are of the first image's run."""
    try:
        stores = store_of_file(first), store_of_file(second)
        right_bench = bench_of_file(bench)
    except NotRun as refused:
        return Pair(refused.answer)
    fill = right_bench.fill
    chips = Chip(stores[0], fill, statistics), Chip(stores[1], fill, Counter())
    found = difference_of_images(chips)
    if found is not None:
        return Pair(Answer(found, "", DIFFER))
    return run_both(chips, right_bench, watch)


def difference_of_images(chips: Chips) -> str | None:
    """The text, where they don't agree."""
    first, second = chips
    seal = first.encapsulation.kept  # at first it is the image's
    if second.encapsulation.kept != seal:
        return "differ seal\n"
    at = first_difference_outside(first.memory.store, second.memory.store, seal)
    return None if at is None else f"differ outside {at:05X}\n"


def first_difference_outside(first: bytes, second: bytes, seal: Seal) -> int | None:
    """The least address of FRAM that isn't in the seal, where two bytes differ."""
    for at in range(STORED_BYTES):
        if first[at] != second[at] and is_fram(at) and at // BYTES_OF_A_ROW not in seal:
            return at
    return None


def run_both(chips: Chips, bench: Bench, watch: Watch | None) -> Pair:
    events = bench.events_of_ticks()
    schedule = Schedule(bench.cuts)
    traced: list[str] = []
    for tick in range(bench.end):
        first, second = (
            chip.tick(events.get(tick, []), schedule.at(tick)) for chip in chips
        )
        if chips[0].items != chips[1].items:
            text = "".join(traced) + f"differ release {tick}\n"
            return Pair(Answer(text, "", DIFFER), tick + 1)
        if first != second:
            raise LawBroken(f"lines of tick {tick}")
        if watch is not None:
            watch(chips)
        traced += first
    text = "".join(traced) + trace.end(bench.end) + SAME
    return Pair(Answer(text, "", DONE), bench.end)
