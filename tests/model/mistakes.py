"""Puts mistakes into the model, one at a time, and tells which of them the cases find.

This says how good the cases are: a mistake that none of them finds would be overlooked in the
program too.
"""

import multiprocessing
import pickle
import shutil
import subprocess
import sys
import tempfile
from collections.abc import Callable
from concurrent.futures import ThreadPoolExecutor
from dataclasses import asdict, dataclass
from functools import partial
from pathlib import Path

import mistakes_of_debug
import mistakes_of_dma
import mistakes_of_encapsulation
import mistakes_of_instructions
import mistakes_of_pairs
import mistakes_of_power
import mistakes_of_protection
import mistakes_of_releases
import mistakes_of_timers
import mistakes_of_units
from cases import random_case
from comparison import answers_of_model, pair_of_model
from mistake import Mistake
from pair_cases import PairCase, random_pair

HERE = Path(__file__).resolve().parent
NONE = "none"


@dataclass(frozen=True)
class Found:
    mistake: Mistake
    case: str  # what find_difference.py printed: an index and how it differs, or "none"


ALL_MISTAKES = (
    *mistakes_of_instructions.MISTAKES, *mistakes_of_units.MISTAKES,
    *mistakes_of_timers.MISTAKES, *mistakes_of_dma.MISTAKES, *mistakes_of_protection.MISTAKES,
    *mistakes_of_encapsulation.MISTAKES, *mistakes_of_debug.MISTAKES,
    *mistakes_of_power.MISTAKES, *mistakes_of_releases.MISTAKES, *mistakes_of_pairs.MISTAKES,
)
Files = tuple[bytes | None, ...]  # of an image and a bench, or of two images and a bench


def known_case(seed: int, index: int) -> tuple[Files, tuple]:
    """The files of a case, and the answers of the model without a mistake."""
    case = random_case(seed, index)
    known = answers_of_model(case)
    return (case.image_file(), case.bench_file()), (asdict(known.run), asdict(known.release))


def known_pair(seed: int, index: int) -> tuple[Files, tuple]:
    pair = random_pair(seed, index)
    return files_of_pair(pair), (asdict(pair_of_model(pair).answer),)


def pair_without_answer(seed: int, index: int) -> tuple[Files, tuple]:
    """One that differs in its seal alone, so that it can be held to the law."""
    return files_of_pair(random_pair(seed, index, inside_alone=True)), ()


def files_of_pair(pair: PairCase) -> Files:
    return pair.first_file(), pair.second_file(), pair.bench_file()


def write_cases(path: Path, make: Callable, count: int, seed: int, jobs: int) -> None:
    with multiprocessing.Pool(jobs) as pool:
        cases = pool.map(partial(make, seed), range(count), chunksize=4)
    path.write_bytes(pickle.dumps(cases))


def find(mistake: Mistake, cases: Path) -> Found:
    with tempfile.TemporaryDirectory() as folder:
        model = Path(folder) / "model"
        shutil.copytree(HERE, model, ignore=shutil.ignore_patterns("__pycache__"))
        mistake.put_into(model)
        command = [sys.executable, "-B", model / "find_difference.py", cases]
        finished = subprocess.run(command, capture_output=True, text=True, check=True)
    return Found(mistake, finished.stdout.strip())


def try_all(count: int, seed: int, jobs: int, only: str) -> int:
    """Prints a line for each mistake, and answers 1 where one wasn't found that can be."""
    mistakes = [mistake for mistake in ALL_MISTAKES if only in mistake.name]
    of_cases = [mistake for mistake in mistakes if not mistake.of_pairs]
    of_pairs = [mistake for mistake in mistakes if mistake.of_pairs]
    results = find_all(of_cases, known_case, count, seed, jobs)
    results += find_all(of_pairs, known_pair, count, seed, jobs)
    return tell_missed(results)


def try_the_law(count: int, seed: int, jobs: int, only: str) -> int:
    """Tells which mistakes make a pair of runs differ before its items do.

    Most do not, since both runs have the same mistake. One that lets something out of the seal, or
    leaves out an item that tells of it, does.
    """
    mistakes = [mistake for mistake in ALL_MISTAKES if only in mistake.name]
    results = find_all(mistakes, pair_without_answer, count, seed, jobs)
    broken = [result for result in results if "breaks the law" in result.case]
    print(f"{len(results)} mistakes, {len(broken)} break the law")
    return 0


def find_all(
    mistakes: list[Mistake], make: Callable, count: int, seed: int, jobs: int
) -> list[Found]:
    if not mistakes:
        return []
    with tempfile.TemporaryDirectory() as folder:
        cases = Path(folder) / "cases"
        write_cases(cases, make, count, seed, jobs)
        with ThreadPoolExecutor(jobs) as pool:
            results = []
            for result in pool.map(lambda mistake: find(mistake, cases), mistakes):
                print(f"{result.case:>16}  {result.mistake.name}", flush=True)
                results.append(result)
    return results


def tell_missed(results: list[Found]) -> int:
    missed = [result.mistake for result in results if result.case == NONE]
    print(f"{len(results)} mistakes, {len(results) - len(missed)} found")
    for mistake in missed:
        reason = mistake.unseen_because
        print(f"not found: {mistake.name}" + (f" ({reason})" if reason else ""))
    return 1 if any(not mistake.unseen_because for mistake in missed) else 0
