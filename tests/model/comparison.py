"""Runs the program on a case, and compares what it wrote with the model's answer."""

import subprocess
from collections import Counter
from dataclasses import dataclass
from pathlib import Path

import pair
from cases import Case, random_case
from pair_cases import PairCase, random_pair
from run import Answer, Answers, answers

RUN, RELEASE, PAIR = "run", "release", "pair"
SECONDS_OF_A_RUN = 120
SHARE_OF_RELEASES = 3  # one case in so many is asked for its releases, and all with a seal
SHARE_OF_PAIRS = 3  # one index in so many has a pair too


@dataclass(frozen=True)
class Asked:
    """Which of the program's words are tried."""

    releases: bool = True
    pairs: bool = True


@dataclass(frozen=True)
class Tried:
    """What came of one case or pair. A word is that of the program."""

    index: int
    kind: str
    statistics: Counter
    word_that_differs: str | None


# What the model answers

def answers_of_model(case: Case, statistics: Counter | None = None) -> Answers:
    if statistics is None:
        statistics = Counter()
    return answers(case.image_file(), case.bench_file(), statistics)


def answer_of_model(word: str, case: Case | PairCase) -> Answer:
    if isinstance(case, PairCase):
        return pair_of_model(case).answer
    ours = answers_of_model(case)
    return ours.release if word == RELEASE else ours.run


def pair_of_model(
    case: PairCase, statistics: Counter | None = None, watch: pair.Watch | None = None
) -> pair.Pair:
    if statistics is None:
        statistics = Counter()
    files = case.first_file(), case.second_file(), case.bench_file()
    return pair.pair(*files, statistics, watch)


# What the program answers

def write_files(case: Case | PairCase, folder: Path, name: str) -> list[Path]:
    """The files that the program is called with: its images, and a bench where there is one."""
    if isinstance(case, PairCase):
        return write_files_of_pair(case, folder, name)
    image = written(folder / f"{name}.elf", case.image_file())
    bench_file = case.bench_file()
    if bench_file is None:
        return [image]
    return [image, written(folder / f"{name}.toml", bench_file)]


def write_files_of_pair(case: PairCase, folder: Path, name: str) -> list[Path]:
    first = written(folder / f"{name}-first.elf", case.first_file())
    second = first
    if not case.is_one_name:
        second = written(folder / f"{name}-second.elf", case.second_file())
    return [first, second, written(folder / f"{name}.toml", case.bench_file())]


def written(path: Path, file: bytes) -> Path:
    path.write_bytes(file)
    return path


def answer_of_program(program: Path, word: str, case: Case | PairCase, folder: Path) -> Answer:
    files = write_files(case, folder, "case")
    try:
        finished = subprocess.run(
            [program, word, *files], capture_output=True, timeout=SECONDS_OF_A_RUN, check=False
        )
    except subprocess.TimeoutExpired:
        return Answer("", f"no answer within {SECONDS_OF_A_RUN} seconds\n", -1)
    output = finished.stdout.decode("utf-8", "backslashreplace")
    error = finished.stderr.decode("utf-8", "backslashreplace")
    return Answer(output, error, finished.returncode)


# Both

def try_index(
    program: Path, seed: int, asked: Asked, folder: Path, index: int
) -> list[Tried]:
    """The case of an index, and now and then a pair."""
    tried = [try_case(program, seed, index, asked.releases, folder)]
    if asked.pairs and index % SHARE_OF_PAIRS == 0:
        tried.append(try_pair(program, seed, index, folder))
    return tried


def try_case(
    program: Path, seed: int, index: int, with_releases: bool, folder: Path
) -> Tried:
    case = random_case(seed, index)
    statistics = Counter()
    ours = answers_of_model(case, statistics)
    statistics[f"exit {ours.run.status}"] += 1
    expected = {RUN: ours.run}
    asks = ours.has_seal or index % SHARE_OF_RELEASES == 0
    if with_releases and asks and case.bench_file() is not None:
        expected[RELEASE] = ours.release
        statistics["releases"] += 1
    different = None
    for word, answer in expected.items():
        if answer_of_program(program, word, case, folder) != answer:
            different = word
            break
    return Tried(index, case.kind, statistics, different)


def try_pair(program: Path, seed: int, index: int, folder: Path) -> Tried:
    case = random_pair(seed, index)
    ours = pair_of_model(case)
    statistics = statistics_of_pair(case, ours)
    agree = answer_of_program(program, PAIR, case, folder) == ours.answer
    return Tried(index, f"pair: {case.kind}", statistics, None if agree else PAIR)


def statistics_of_pair(case: PairCase, ours: pair.Pair) -> Counter:
    """How it ended, and how far it came. What its runs do is told of pairs in the model alone."""
    answer = ours.answer
    ended = (answer.output or answer.error).splitlines()[-1]
    words = " ".join(ended.split()[:2]) if answer.output else ended
    return Counter({
        "pairs": 1, f"exit of a pair {answer.status}": 1,
        f"pair of {case.kind}: {words}": 1, "ticks of pairs": ours.ticks,
    })


def first_difference(ours: Answer, theirs: Answer) -> str:
    """The first line in which two answers differ, as a text to print."""
    if ours.status != theirs.status or ours.error != theirs.error:
        return (f"model: status {ours.status}, {ours.error!r}\n"
                f"program: status {theirs.status}, {theirs.error!r}")
    our_lines, their_lines = ours.output.splitlines(), theirs.output.splitlines()
    for number, (our_line, their_line) in enumerate(zip(our_lines, their_lines), start=1):
        if our_line != their_line:
            return f"line {number}\nmodel: {our_line}\nprogram: {their_line}"
    return f"model: {len(our_lines)} lines, program: {len(their_lines)} lines"


def tick_of_difference(ours: Answer, theirs: Answer) -> int | None:
    """The tick of the first line that differs, where lines with a tick do."""
    for our_line, their_line in zip(ours.output.splitlines(), theirs.output.splitlines()):
        if our_line != their_line:
            ticks = [tick_of_line(line) for line in (our_line, their_line)]
            return min((tick for tick in ticks if tick is not None), default=None)
    return None


def tick_of_line(line: str) -> int | None:
    """It begins a line, but for the last one of a pair whose items differ."""
    words = line.removeprefix("differ release ").split()
    return int(words[0]) if words[0].isdecimal() else None
