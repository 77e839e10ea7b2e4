"""What `capsule run` and `capsule release` write, and the numbers they end with.

README.md and TRACE.md tell of the first. The second writes the lines of all items, and END.
"""

from collections import Counter
from dataclasses import dataclass

import bench as benches
import image as images
import items
import trace
from bench import Bench
from chip import Chip
from power import Schedule

LONGEST_IMAGE = 4_194_304
LONGEST_BENCH = 1_048_576


@dataclass(frozen=True)
class Answer:
    output: str
    error: str
    status: int


@dataclass(frozen=True)
class Answers:
    """Of both words, for the same files."""

    run: Answer
    release: Answer
    has_seal: bool  # at some tick something was kept


TOO_LONG = Answer("", "capsule: too long\n", 5)
BAD_IMAGE = Answer("", "capsule: bad image\n", 6)
BAD_BENCH = Answer("", "capsule: bad bench\n", 7)


class NotRun(Exception):
    """A file isn't what it has to be. The answer tells it, and nothing is run."""

    def __init__(self, answer: Answer):
        super().__init__(answer.error)
        self.answer = answer


def run(image: bytes, bench: bytes | None, statistics: Counter) -> Answer:
    """The answer for the files of an image and of a bench, or of no bench."""
    return answers(image, bench, statistics).run


def release(image: bytes, bench: bytes, statistics: Counter) -> Answer:
    return answers(image, bench, statistics).release


def answers(image: bytes, bench: bytes | None, statistics: Counter) -> Answers:
    """Without a bench, which `release` needs, it is answered as `run` is."""
    try:
        store = store_of_file(image)
        right_bench = Bench() if bench is None else bench_of_file(bench)
    except NotRun as refused:
        return Answers(refused.answer, refused.answer, has_seal=False)
    return whole_run(store, right_bench, statistics)


def store_of_file(image: bytes) -> bytearray:
    if len(image) > LONGEST_IMAGE:
        raise NotRun(TOO_LONG)
    try:
        return images.store_of_image(image)
    except images.Refused as refused:
        raise NotRun(BAD_IMAGE) from refused


def bench_of_file(bench: bytes) -> Bench:
    if len(bench) > LONGEST_BENCH:
        raise NotRun(TOO_LONG)
    try:
        return benches.bench_of_text(bench)
    except benches.Refused as refused:
        raise NotRun(BAD_BENCH) from refused


def whole_run(store: bytearray, bench: Bench, statistics: Counter) -> Answers:
    chip = Chip(store, bench.fill, statistics)
    events = bench.events_of_ticks()
    schedule = Schedule(bench.cuts)
    has_seal = bool(chip.encapsulation.kept)
    traced: list[str] = []
    released: list[str] = []
    for tick in range(bench.end):
        traced += chip.tick(events.get(tick, []), schedule.at(tick))
        released += items.lines(tick, chip.items)
        for item in chip.items:
            statistics[f"item {type(item).__name__}"] += 1
        statistics["ticks"] += 1
        has_seal |= bool(chip.encapsulation.kept)
    end = trace.end(bench.end)
    return Answers(
        Answer("".join(traced) + end, "", 0), Answer("".join(released) + end, "", 0), has_seal
    )
