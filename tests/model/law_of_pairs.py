"""Tries in the model that two runs show the same as long as their items agree.

Their images differ in the seal alone. Behind each tick up to which all items agreed, what is public
of both chips has to be the same, and so have the lines of the tick.
"""

import multiprocessing
from collections import Counter
from collections.abc import Iterable
from dataclasses import dataclass
from functools import partial

from comparison import pair_of_model
from pair import LawBroken
from pair_cases import random_pair
from public_part import ALL, APART, BEHIND, PRIVATE, Witness
from report import debug_lines, listed, power_lines, starting, wrapped

PAIRS_AT_ONCE = 4
TICKS = (ALL, PRIVATE, APART, BEHIND)


@dataclass(frozen=True)
class TriedPair:
    index: int
    statistics: Counter
    law_broken: str | None  # how


def try_pair(seed: int, index: int) -> TriedPair:
    case = random_pair(seed, index, inside_alone=True)
    witness = Witness(Counter())
    runs = Counter()
    try:
        pair = pair_of_model(case, runs, witness)
    except LawBroken as broken:
        return TriedPair(index, witness.statistics, str(broken))
    found = witness.statistics
    end = pair.answer.output.splitlines()[-1].split()
    found[f"of {case.kind}: {' '.join(end[:2])}"] += 1
    found["came apart"] += witness.was_apart
    found["came apart, and were the same to the end"] += witness.was_apart and end == ["same"]
    return TriedPair(index, found + runs, None)


def try_all(indices: Iterable[int], seed: int, jobs: int) -> int:
    """Answers 1 where a pair breaks the law."""
    statistics = Counter()
    with multiprocessing.Pool(jobs) as pool:
        for tried in pool.imap(partial(try_pair, seed), indices, chunksize=PAIRS_AT_ONCE):
            if tried.law_broken is not None:
                print(f"pair {tried.index} of seed {seed} differs {tried.law_broken}")
                return 1
            statistics.update(tried.statistics)
    print("\n".join(wrapped(line) for line in lines_of(statistics)))
    print("no pair differs before its items do")
    return 0


def lines_of(statistics: Counter) -> list[str]:
    """Registers that differ in private phase tell that the runs do something that is secret."""
    ends = starting(statistics, "of ")
    ticks = ", ".join(f"{what} {statistics[f'ticks {what}']}" for what in TICKS)
    transfers = starting(statistics, "dma ")
    count = sum(number for name, number in transfers.items() if "transfer of" in name)
    return [
        f"pairs: {ends.total()}, by what they differ in and how they end: {listed(ends)}",
        f"pairs that came apart: {statistics['came apart']}, and were the same to the end: "
        f"{statistics['came apart, and were the same to the end']}",
        f"ticks up to the first item that differs: {ticks}",
        f"ways out of the seal with all that differed cleaned: {statistics['ways out']}",
        f"transfers of DMA: {count}",
        f"accesses that were refused: {listed(starting(statistics, 'protection: '))}",
        *debug_lines(statistics), *power_lines(statistics),
        f"entries: {listed(starting(statistics, 'entry '))}",
        f"resets: {listed(starting(statistics, 'reset '))}",
        f"items of the first images: {listed(starting(statistics, 'item '))}",
    ]
