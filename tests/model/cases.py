"""Random cases: an image and a bench from a seed and an index."""

import random
from collections.abc import Sequence
from dataclasses import dataclass, field

import boot_sessions
import debug_situations
import meetings
from bench import PINS, Bench, Event, PinLevel, bench_text
from debug_situations import Session
from image import Segment, image_bytes, store_of_image
from layout import Program
from player import Player, random_temper
from power import Cut
from programs import random_program
from spoiled_files import bench_of_a_command, bench_of_cuts, spoiled_bench, spoiled_image
from styles import LONG_STYLES, STYLES, STYLES_WITH_CUTS, WEIGHT_OF_STYLE

LONG_END = 40_000
LONG_RUN = 9000
TIMES_FOR_PROTECTION = 3  # what is protected has to be set up first, and waits take their time
SHARE_OF_REFUSED = 0.05
SHARE_OF_SINGLE_COMMANDS = 0.05
SHARE_OF_CUTS_ALONE = 0.07
SHARE_OF_DEAD_ENDS = 0.01
SHARE_OF_CUTS = 0.08  # where the kind of the case has none of its own
SHARE_OF_MEETINGS = 0.35  # where the kind of the case has a vault
SHARE_OF_DEBUGGED = {"debug": 1.0, "encapsulation": 0.5, "encapsulation and interrupts": 0.5,
                     "encapsulation and dma": 0.5}  # of others it is less


@dataclass
class Case:
    kind: str
    segments: list[Segment] = field(default_factory=list)
    bench: Bench | None = None
    refused_image: bytes | None = None
    refused_bench: bytes | None = None

    def image_file(self) -> bytes:
        if self.refused_image is not None:
            return self.refused_image
        return image_bytes(self.segments)

    def bench_file(self) -> bytes | None:
        if self.refused_bench is not None:
            return self.refused_bench
        return None if self.bench is None else bench_text(self.bench).encode()


def random_case(seed: int, index: int) -> Case:
    """The case of this index. It depends on nothing but the two values."""
    rng = random.Random(f"{seed}/{index}")
    kind, = rng.choices(list(STYLES), [WEIGHT_OF_STYLE[kind] for kind in STYLES])
    program = random_program(rng, STYLES[kind])
    segments = program.segments()
    if rng.random() < SHARE_OF_DEAD_ENDS:
        return dead_end(rng, program)
    if rng.random() < 0.1:
        overlap(rng, segments)
    case = Case(kind, segments, random_bench(rng))
    if case.bench is not None:
        fill_bench(rng, case, program)
        if STYLES[kind].has_vault and rng.random() < SHARE_OF_MEETINGS:
            meetings.meet(rng, case.image_file(), case.bench)
    if rng.random() < SHARE_OF_REFUSED:
        spoil_files(rng, case)
    elif rng.random() < SHARE_OF_SINGLE_COMMANDS:
        case.kind = "single commands"
        case.refused_bench = bench_of_a_command(rng).encode()
    elif rng.random() < SHARE_OF_CUTS_ALONE:
        case.kind = "cuts alone"
        case.refused_bench = bench_of_cuts(rng).encode()
    return case


def dead_end(rng: random.Random, program: Program) -> Case:
    """No reset vector, in a run that is long enough for the watchdog to ask for a reset."""
    segments = program.segments()
    segments.append(Segment(0xFFFE, bytes((0xFF, 0xFF))))
    bench = Bench(LONG_END, 0, random_events(rng, LONG_END))
    if rng.random() < 0.7:
        add_sessions(rng, bench, program, debug_situations.SESSIONS)
    return Case("dead end", segments, bench)


def overlap(rng: random.Random, segments: list[Segment]) -> None:
    """Headers that name an address twice, and bytes that are loaded nowhere."""
    earlier = rng.choice(segments)
    noise = bytes(rng.randrange(256) for _ in range(rng.randrange(1, 20)))
    segments.insert(0, Segment(earlier.address, noise))
    place = rng.choice((0x17FC, 0x19FC, 0x1C00, 0x43FC, 0x13FFC, 0xFFFFC, 0xFFFFFFFC, 0))
    segments.append(Segment(rng.choice((place, earlier.address + 0x100000)), noise[:8]))
    segments.append(Segment(earlier.address, noise, kind=rng.choice((0, 2, 4, 0x70000001))))
    segments.append(Segment(rng.choice((0x4400, 0x1800)), b""))


# Benches

def fill_bench(rng: random.Random, case: Case, program: Program) -> None:
    """What comes to the debug port, and power cuts."""
    bench = case.bench
    if case.kind in LONG_STYLES and bench.end < LONG_RUN:
        bench.end *= TIMES_FOR_PROTECTION
    if case.kind in STYLES_WITH_CUTS:
        play_bench(rng, case, program)
        return
    if rng.random() < SHARE_OF_DEBUGGED.get(case.kind, 0.3):
        add_sessions(rng, bench, program, debug_situations.SESSIONS)
    if rng.random() < SHARE_OF_CUTS:
        bench.cuts = random_cuts(rng, bench.end)


def play_bench(rng: random.Random, case: Case, program: Program) -> None:
    erases = case.kind == "erases"
    sessions = boot_sessions.ERASE_SESSIONS if erases else boot_sessions.BOOT_SESSIONS
    case.bench.end = rng.randrange(100, 2000 if erases else 5000)
    if rng.random() < 0.7:
        add_sessions(rng, case.bench, program, sessions)
    targets = debug_situations.Targets(rng, program.places, program.codes)
    temper = random_temper(rng, 0.9 if erases else 0.2, sessions)
    store = store_of_image(image_bytes(case.segments))
    case.bench = Player(rng, store, case.bench, targets, temper).play()


def random_cuts(rng: random.Random, end: int) -> list[Cut]:
    """Wherever they come."""
    cuts: list[Cut] = []
    tick = rng.randrange(end)
    for _ in range(rng.choice((1, 2, 5, 20))):
        if tick >= end:
            break
        cuts.append(Cut(tick, rng.choice((0, 0, 1, 2, 5, 64)), rng.choice((1, 1, 2, 7, 40))))
        tick += cuts[-1].off + rng.choice((1, rng.randrange(1, 30), rng.randrange(1, 1000)))
    return cuts


def random_bench(rng: random.Random) -> Bench | None:
    if rng.random() < 0.03:
        return None
    fill = rng.choice((0, 0, 0xFF, 0x03, 0x13, rng.randrange(256)))
    end = random_end(rng)
    return Bench(end, fill, random_events(rng, end))


def random_end(rng: random.Random) -> int:
    chance = rng.random()
    if chance < 0.03:
        return rng.randrange(1, 40)
    if chance < 0.6:
        return rng.randrange(100, 1200)
    if chance < 0.93:
        return rng.randrange(1200, 3500)
    if chance < 0.99:
        return rng.randrange(3500, 9000)
    return LONG_END


def random_events(rng: random.Random, end: int) -> list[Event]:
    """Events in clusters of up to 8 in a tick, on few pins or on many."""
    if rng.random() < 0.15:
        return []
    pins = rng.sample(list(PINS.values()), rng.choice((1, 2, 4, 8, 32)))
    last = end if rng.random() < 0.7 else min(end, 600)
    ticks = sorted(rng.randrange(last) for _ in range(rng.choice((1, 5, 20, 60, 150))))
    if rng.random() < 0.2:
        ticks += [rng.randrange(min(end, 8)) for _ in range(4)]
    events: list[Event] = []
    for tick in sorted(set(ticks)):
        count = rng.choice((1, 1, 1, 2, 3, 8))
        events += [
            Event(tick, PinLevel(rng.choice(pins), rng.randrange(2))) for _ in range(count)
        ]
    return events


def add_sessions(
    rng: random.Random, bench: Bench, program: Program, sessions: Sequence[tuple[Session, float]]
) -> None:
    """What comes to the debug port, before or behind what comes to the pins in the same tick."""
    targets = debug_situations.Targets(rng, program.places, program.codes)
    parts = [bench.events, debug_situations.random_sessions(rng, bench.end, targets, sessions)]
    rng.shuffle(parts)
    events = sorted(parts[0] + parts[1], key=lambda event: event.tick)
    bench.events = debug_situations.at_most_eight_in_a_tick(events)


# Files that are refused, most of them

def spoil_files(rng: random.Random, case: Case) -> None:
    case.kind = "spoiled files"
    if rng.random() < 0.5:
        case.refused_image = spoiled_image(rng, case.image_file())
    else:
        file = case.bench_file() or b"version = 1\nend = 9\n"
        case.refused_bench = spoiled_bench(rng, file)
