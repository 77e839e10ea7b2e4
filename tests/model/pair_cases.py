"""Random pairs of images under one bench, from a seed and an index.

A pair is a case and what the second image has besides, in headers behind all others.
"""

import random
from collections import Counter
from collections.abc import Callable
from dataclasses import dataclass, field, replace

import boot_sessions
import cases
import debug_situations
import encapsulation
import seals
import single_items
import structures
from bench import Bench, Event
from boot import borders_of_image
from cases import Case
from debug import Dump, Go, Halt, ReadRegister, ReadWord, Reset, SetRegister, WriteWord
from debug_situations import Session, Targets, Timed
from image import Segment, image_bytes, store_of_image
from latch import Latch
from layout import Program, words_as_bytes
from libraries import SECRET_REGISTERS
from memory import is_fram
from pair import pair as compared
from player import Player, random_temper
from power import Cut
from programs import random_program
from protection_actions import GRAIN
from run import LONGEST_IMAGE
from seals import BYTES_OF_A_ROW, Seal
from spoiled_files import spoiled_bench, spoiled_image
from styles import CALM_LIBRARIES, LIBRARIES, STYLES, STYLES_WITH_CUTS
from system import Cause

FIRST_OF_SIGNATURES = 0xFF80
ENDS_OF_FRAM = (0x1800, 0x19FF, 0x4400, 0x13FFF, 0xFF7F, 0xFF80, 0xFFFF, 0x10000)
SHARE_OF_LIBRARIES = 0.7
SHARE_OF_CALM_LIBRARIES = 0.6
SHARE_OF_ANY_CASE = 0.06  # most of which have no seal
TRIES = 12  # until an image has a seal
CHANCE_OF_A_CUT_INSIDE = 0.3
SHARE_AT_THE_DIFFERENCE = 0.35
PLACE_OF_A_LOOK = 0x1A00  # it reads the same at all times


@dataclass
class PairCase:
    kind: str
    case: Case
    changes: list[Segment] = field(default_factory=list)
    refused_second: bytes | None = None
    is_one_name: bool = False

    def first_file(self) -> bytes:
        return self.case.image_file()

    def second_file(self) -> bytes:
        if self.is_one_name:
            return self.first_file()
        if self.refused_second is not None:
            return self.refused_second
        return image_bytes(self.case.segments + self.changes)

    def bench_file(self) -> bytes:
        return self.case.bench_file()


@dataclass
class Sources:
    """What the changes of a pair are made from."""

    program: Program
    case: Case
    store: bytearray = field(init=False)
    seal: Seal = field(init=False)

    def __post_init__(self) -> None:
        self.store = store_of_image(image_bytes(self.case.segments))
        self.seal = seal_of_image(self.store)

    def inside(self) -> list[range]:
        return seals.intervals(self.seal)

    def is_inside(self, at: int) -> bool:
        return at // BYTES_OF_A_ROW in self.seal

    def structure(self) -> range:
        """Where the first boot finds it, if there is one."""
        at = structures.GRAIN_OF_PLACES * self.word(structures.POINTER_ADDRESS)
        return range(at, at + 2 * structures.WORDS)

    def word(self, at: int) -> int:
        return int.from_bytes(self.store[at:at + 2], "little")


def seal_of_image(store: bytearray) -> Seal:
    unit = encapsulation.Encapsulation(Latch(lambda cause: None, Cause.PROTECTION_PASSWORD))
    unit.install(borders_of_image(store))
    return unit.kept


# The case

def random_pair(seed: int, index: int, inside_alone: bool = False) -> PairCase:
    """`inside_alone` gives pairs that agree, and differ in their seal."""
    rng = random.Random(f"{seed}/{index}/pair")
    sources = random_sources(rng, inside_alone)
    kinds = INSIDE if inside_alone or rng.random() < 0.6 else OTHERS
    kind, = rng.choices(tuple(kinds), [share for share, _ in kinds.values()])
    made = kinds[kind][1](rng, sources)
    made.kind = kind
    if made.refused_second is None and rng.random() < SHARE_AT_THE_DIFFERENCE:
        meet_the_difference(rng, made)
    return made


def meet_the_difference(rng: random.Random, made: PairCase) -> None:
    """Lets something come in the tick whose items differ first, or in the one before."""
    bench = made.case.bench
    found = compared(made.first_file(), made.second_file(), made.bench_file(), Counter())
    if "differ release" not in found.answer.output:
        return
    last = found.ticks - 1
    tick = max(last - rng.choice((0, 0, 1)), 0)
    if rng.random() < 0.5:
        looks = [Event(tick, ReadWord(PLACE_OF_A_LOOK)) for _ in range(rng.randrange(1, 3))]
        events = sorted(bench.events + looks, key=lambda event: event.tick)
        bench.events = debug_situations.at_most_eight_in_a_tick(events)
    else:
        bench.cuts = [cut for cut in bench.cuts if cut.tick + cut.off < tick]
        bench.cuts.append(Cut(tick, rng.choice((0, 1, 2, 64)), rng.choice((1, 3, 30))))


def random_sources(rng: random.Random, inside_alone: bool) -> Sources:
    chance = rng.random()
    if chance < SHARE_OF_ANY_CASE and not inside_alone:
        kind = rng.choice(tuple(STYLES))
        return case_of(rng, kind, random_program(rng, STYLES[kind]))
    for _ in range(TRIES):
        if chance < SHARE_OF_LIBRARIES:
            sources = library_case(rng)
        else:
            kind = rng.choice(tuple(STYLES_WITH_CUTS))
            program = random_program(rng, STYLES[kind])
            if not program.places.structures:
                continue
            sources = case_of(rng, kind, program)
        if sources.seal:
            return sources
    return library_case(rng)


def case_of(rng: random.Random, kind: str, program: Program) -> Sources:
    bench = cases.random_bench(rng) or Bench()
    case = Case(kind, program.segments(), bench)
    sources = Sources(program, case)
    cases.fill_bench(rng, case, program)
    return sources


def library_case(rng: random.Random) -> Sources:
    """A calm one leaves most of its time to the library."""
    is_calm = rng.random() < SHARE_OF_CALM_LIBRARIES
    sessions = CALM_SESSIONS if is_calm else SESSIONS
    program = random_program(rng, CALM_LIBRARIES if is_calm else LIBRARIES)
    bench = cases.random_bench(rng) or Bench()
    bench.end = rng.randrange(200, 6000)
    bench.events = [event for event in bench.events if event.tick < bench.end]
    case = Case("calm library" if is_calm else "library", program.segments(), bench)
    sources = Sources(program, case)
    if rng.random() < 0.7:
        cases.add_sessions(rng, bench, program, sessions)
    targets = Targets(rng, program.places, program.codes)
    temper = random_temper(rng, 0.2, sessions)
    if is_calm:
        temper = replace(temper, most_cuts=rng.choice((0, 1, 3, 8)), pace=rng.choice((200, 600)))
    case.bench = PairPlayer(rng, sources.store, bench, targets, temper).play()
    return sources


class PairPlayer(Player):
    """Lays cuts within the library too."""

    def chance(self, tick: int) -> float:
        usual = super().chance(tick)
        if self.chip.is_booted() and self.chip.is_private():
            return max(usual, CHANCE_OF_A_CUT_INSIDE / self.temper.pace)
        return usual


def move_a_border(rng: random.Random, targets: Targets) -> list[Timed]:
    """Another structure where the first lies, about the same area, and a boot that finds it."""
    vault = targets.vault
    first = max(vault.first + GRAIN * rng.randrange(-1, 2), 0)
    end = vault.end + GRAIN * rng.randrange(-1, 2)
    words = [0xC0, end >> 4 & 0xFFFF, first >> 4]
    words.append(structures.right_check(words))
    writes = boot_sessions.written(boot_sessions.place(rng, targets), words)
    return [*((0, write) for write in writes), (1, Reset())]


def wait_for_a_halt(rng: random.Random, targets: Targets) -> list[Timed]:
    """A halt that comes outside at last, and a look at all that it shows."""
    tick = rng.choice((10, 100, 300))
    looks = [(tick, ReadRegister(number)) for number in rng.sample(range(16), 6)]
    return [(0, Halt()), *looks, (tick + 1, Go())]


def ask_at_work(rng: random.Random, targets: Targets) -> list[Timed]:
    """Registers of a processor that isn't halted, for some time."""
    pace = rng.choice((1, 2, 5))
    return [(pace * turn, ReadRegister(rng.choice((0, 1, 2, *SECRET_REGISTERS))))
            for turn in range(rng.randrange(20, 80))]


def look_in_from_a_halt(rng: random.Random, targets: Targets) -> list[Timed]:
    """PC is led into the library while the processor is halted, and its data is read."""
    tick = rng.choice((10, 100, 300))
    looks = [ReadWord(targets.vault.random_free_address(rng)) for _ in range(3)]
    return [(0, Halt()), (tick, SetRegister(0, rng.choice(targets.vault.doors))),
            *((tick, look) for look in looks), (tick, Dump(targets.vault.data, 32)),
            (tick + 1, SetRegister(0, targets.places.start)), (tick + 1, Go())]


def fill_by_dma(rng: random.Random, targets: Targets) -> list[Timed]:
    """A block out of the library or into it, a byte for each pin, by a channel of the debugger."""
    inside = targets.vault.random_free_address(rng)
    ends = [inside, rng.choice((0x0202, 0x0222, 0x1C80))]
    if rng.random() < 0.3:
        ends.reverse()
    writes = [WriteWord(0x0512 + 2 * index, word) for index, word in enumerate(
        (ends[0] & 0xFFFF, ends[0] >> 16, ends[1] & 0xFFFF, ends[1] >> 16, rng.randrange(1, 9)))]
    return [*((0, write) for write in writes), (rng.randrange(1, 60), WriteWord(
        0x0510, rng.choice((0x03D1, 0x1311, 0x2F11, 0x0FD1))))]


CALM_SESSIONS: tuple[tuple[Session, float], ...] = (
    (move_a_border, 0.5), (fill_by_dma, 5), (debug_situations.glance, 4), (wait_for_a_halt, 2),
    (look_in_from_a_halt, 1), (ask_at_work, 1.5),
    (boot_sessions.look_at_what_boots, 1), (debug_situations.read_timers, 1),
)
SESSIONS: tuple[tuple[Session, float], ...] = (
    (move_a_border, 3), (fill_by_dma, 5), (debug_situations.halt_on_the_way, 3),
    (look_in_from_a_halt, 2), (ask_at_work, 2),
    (boot_sessions.write_in_a_row, 3), (boot_sessions.look_at_what_boots, 3),
    (boot_sessions.erase, 0.15), *debug_situations.SESSIONS,
)


# What differs

def changed_bytes(rng: random.Random, sources: Sources, places: list[int]) -> list[Segment]:
    """Other bytes than the first image's, at these addresses."""
    return [Segment(at, bytes([sources.store[at] ^ rng.choice((1, 0x80, rng.randrange(1, 256)))]))
            for at in places]


def secrets(rng: random.Random, sources: Sources) -> PairCase:
    """The other version of a library. Where there is none, words of the vault's data."""
    words = sources.program.other_words
    if rng.random() < 0.3:
        words = {at: word for at, word in words.items() if rng.random() < 0.5}
    if not words:
        return data(rng, sources)
    changes = [Segment(at, words_as_bytes([word])) for at, word in words.items()
               if at not in sources.program.single_words
               and sources.is_inside(at) and sources.is_inside(at + 1)]
    return PairCase("", sources.case, changes)


def data(rng: random.Random, sources: Sources) -> PairCase:
    vault, structure = sources.program.places.vault, sources.structure()
    if vault is None:
        return sealed_bytes(rng, sources)
    free = [at for at in range(vault.data, vault.end)
            if sources.is_inside(at) and at not in structure]
    count = min(len(free), rng.choice((1, 2, 10, 60)))
    return PairCase("", sources.case, changed_bytes(rng, sources, rng.sample(free, count)))


def sealed_bytes(rng: random.Random, sources: Sources) -> PairCase:
    """Anywhere in the seal, in code as well."""
    structure = sources.structure()
    free = [at for interval in sources.inside() for at in interval if at not in structure]
    count = min(len(free), rng.choice((1, 1, 2, 5, 40)))
    return PairCase("", sources.case, changed_bytes(rng, sources, rng.sample(free, count)))


def ends_of_the_seal(rng: random.Random, sources: Sources) -> PairCase:
    """The first and the last byte of each of its intervals."""
    places = [at for interval in sources.inside() for at in (interval.start, interval.stop - 1)
              if at not in sources.structure()]
    return PairCase("", sources.case, changed_bytes(rng, sources, places))


def the_structure(rng: random.Random, sources: Sources) -> PairCase:
    """Bits that no boot keeps, in two words of it, so that the check stays good."""
    at = sources.structure().start
    if not all(sources.is_inside(place) for place in sources.structure()):
        return data(rng, sources)
    bits = rng.choice((0x0001, 0x0010, 0x001F))
    changes = [Segment(place, words_as_bytes([sources.word(place) ^ bits]))
               for place in (at + 2 * index for index in rng.sample(range(structures.WORDS), 2))]
    return PairCase("", sources.case, changes)


def outside(rng: random.Random, sources: Sources) -> PairCase:
    """One byte or several outside of the seal, with others inside or without."""
    borders = [at for interval in sources.inside() for at in (interval.start - 1, interval.stop)]
    places = [rng.choice((*borders, *ENDS_OF_FRAM, rng.randrange(0x1800, 0x1A00),
                          rng.randrange(0x4400, 0x14000))) for _ in range(rng.choice((1, 1, 2, 6)))]
    if sources.is_inside(FIRST_OF_SIGNATURES - 1) and rng.random() < 0.6:
        places = [rng.randrange(FIRST_OF_SIGNATURES, 0x10000)]  # between borders, and not sealed
    pair = sealed_bytes(rng, sources) if rng.random() < 0.6 else PairCase("", sources.case)
    pair.changes += changed_bytes(rng, sources, [at for at in places if is_fram(at)])
    return pair


def other_seal(rng: random.Random, sources: Sources) -> PairCase:
    """Another structure, another pointer or signature: the seals may be the same all the same."""
    places, at = sources.program.places, sources.structure().start
    kind = rng.randrange(6)
    if kind == 0:
        words = structures.random_words(rng, places, 0.1)
    elif kind == 5:
        words = moved_borders(rng, sources)
    elif kind == 1:
        words = [sources.word(at + 2 * index) for index in range(3)]
        words[rng.randrange(3)] ^= rng.choice((0x40, 0x80, 0x20, 0x01, 0x400))
        words.append(structures.right_check(words))
    elif kind == 2:
        words = registers_of_the_same_seal(rng, sources)
    else:
        at, word = rng.choice((
            (structures.SIGNATURE_ADDRESS, 0xFFFF), (structures.SIGNATURE_ADDRESS, 0xAAAA),
            (structures.POINTER_ADDRESS, rng.randrange(0x10000)), (at + 6, rng.randrange(0x10000)),
        ))
        words = [word]
    pair = outside(rng, sources) if rng.random() < 0.2 else PairCase("", sources.case)
    pair.changes.append(Segment(at, words_as_bytes(words)))
    return pair


def moved_borders(rng: random.Random, sources: Sources) -> list[int]:
    """Both by as much, or one of them, upward or downward."""
    at = sources.structure().start
    control, second, first = (sources.word(at + 2 * index) for index in range(3))
    way = rng.choice((0x40, -0x40))
    by_second, by_first = rng.choice(((way, way), (way, 0), (0, way)))
    words = [control, second + by_second & 0xFFFF, first + by_first & 0xFFFF]
    return [*words, structures.right_check(words)]


def registers_of_the_same_seal(rng: random.Random, sources: Sources) -> list[int]:
    """Other borders with the same addresses between them that are main FRAM, if there are some."""
    at = sources.structure().start
    control, second, first = (sources.word(at + 2 * index) for index in range(3))
    if second << 4 >= 0x14000:
        second = rng.choice((0x1400, 0x1440, 0x8000, 0xFFC0))
    if first << 4 <= 0x4400:
        first = rng.choice((0, 0x40, 0x400, 0x440))
    if not sources.seal:
        first, second = rng.choice(((0, 0), (0x500, 0x480), (0, 0x400), (0x480, 0x480)))
    words = [control ^ rng.choice((0, 0x20)), second, first]
    return [*words, structures.right_check(words)]


def nothing(rng: random.Random, sources: Sources) -> PairCase:
    """The same FRAM by another file, or by the same one."""
    changes = [Segment(at, bytes(sources.store[at:at + 4]))
               for at in (0x1800, 0x4400, 0xFF80, 0x13FFC) if rng.random() < 0.3]
    if rng.random() < 0.4:
        changes.append(Segment(rng.choice((0x1A00, 0x1C00, 0x14000, 0xFFFF0)), b"\x12\x34"))
    return PairCase("", sources.case, changes)


def single_item(rng: random.Random, sources: Sources) -> PairCase:
    """Two small images in place of those that were made."""
    name, two, bench = single_items.random_two(rng)
    case = Case(f"single {name}", two.segments(), bench)
    return PairCase("", case, two.changes())


def one_name(rng: random.Random, sources: Sources) -> PairCase:
    return PairCase("", sources.case, is_one_name=True)


def spoiled(rng: random.Random, sources: Sources) -> PairCase:
    """Some of the files, in the order of the words. The first that is refused decides."""
    pair = outside(rng, sources) if rng.random() < 0.4 else secrets(rng, sources)
    file = pair.first_file()
    refused = rng.choice(((1,), (2,), (3,), (1, 2), (1, 2), (1, 3), (2, 3), (1, 2, 3)))
    if 1 in refused:
        pair.case.refused_image = spoiled_or_long(rng, file)
    if 2 in refused:
        pair.refused_second = spoiled_or_long(rng, file)
    if 3 in refused:
        pair.case.refused_bench = spoiled_bench(rng, pair.case.bench_file())
    return pair


def spoiled_or_long(rng: random.Random, file: bytes) -> bytes:
    """Now and then as long as it may be, or a byte longer."""
    if rng.random() < 0.35:
        return file + bytes(LONGEST_IMAGE + rng.choice((0, 1, 1)) - len(file))
    return spoiled_image(rng, file)


Change = Callable[[random.Random, Sources], PairCase]
# By its name: how often each comes, and what it makes.
INSIDE: dict[str, tuple[float, Change]] = {
    "secrets": (12, secrets), "data": (3, data), "sealed bytes": (4, sealed_bytes),
    "ends of the seal": (1.5, ends_of_the_seal), "the structure": (0.5, the_structure),
    "single items": (3.5, single_item),
}
OTHERS: dict[str, tuple[float, Change]] = {
    "outside": (4, outside), "other seal": (5, other_seal), "nothing": (1.5, nothing),
    "one name": (1, one_name), "spoiled files": (3, spoiled),
}
