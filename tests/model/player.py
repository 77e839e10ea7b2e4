"""Plays a run in the model, and lays cuts and commands where they meet something on the way.

A cut parts what a tick does only where that tick has several writes, or one that matters. Which
ticks these are is known only while the run is played, since each cut changes what follows.
"""

import random
from collections import Counter
from collections.abc import Sequence
from dataclasses import dataclass, field

import boot_sessions
from bench import EVENTS_IN_A_TICK, PINS, Bench, Event, PinLevel
from boot import FIRST_WIPED, Mark, Place
from bus import Agent
from chip import Chip
from debug import Dump, Erase, Go, Halt, ReadRegister, ReadWord, Reset, WriteWord
from debug_situations import Session, Targets, Timed
from interrupts import CPUOFF_BIT, PC, SR
from memory import ADDRESS_MASK, Region, is_fram, region_of
from power import OFF, ON, Cut, Power
from protection import MPUCTL1, Place as PlaceOfViolation
from right import Right
from system import SYSSNIV

ALL_PINS = tuple(PINS.values())
LONGEST_RUN = 80_000
TICKS_OF_AN_ERASE = 32_600  # with those of its boot, and some more
TICKS_BEHIND_AN_ERASE = (0, 100, 400, 2000)

CHANCE_AT_PLACE = {
    Place.START: 0.01, Place.SIGNATURE: 0.01, Place.POINTER: 0.03, Place.WORD: 0.02,
    Place.SAVE_POINTER: 0.1, Place.SAVE_MARK: 0.25, Place.MARK_ERASE: 0.3, Place.WIPE: 0.00002,
    Place.MARK_EMPTY: 0.4, Place.DONE: 0.05,
}
CHANCE_AT_COMMAND = {Erase: 0.4, Reset: 0.12, Halt: 0.05}
# The first write of a tick, and another one. Those that don't go to FRAM leave nothing behind.
CHANCE_AT_FIRST_WRITE = {Agent.PROCESSOR: 0.05, Agent.ENTRY: 0.2, Agent.DMA: 0.3, Agent.DEBUG: 0.05}
CHANCE_AT_NEXT_WRITE = {Agent.PROCESSOR: 0.3, Agent.ENTRY: 0.4, Agent.DMA: 0.3, Agent.DEBUG: 0.05}
CHANCE_AT_OTHER_WRITE = 0.002
CHANCE_BEHIND_THE_DEBUGGER = 0.4  # where the owner of the bus writes in the tick of its writes
CHANCE_BEHIND_A_LOST_WRITE = 0.4  # one that was refused or went nowhere, in the same tick
CHANCE_AT_VIOLATION = 0.02
CHANCE_AT_THE_END_OF_AN_ERASE = 0.3
USUAL_PACE = 100
SHARE_OF_MEDDLING = 0.5
SHARE_OF_ERASES_WHILE_MEDDLING = 0.12
PLACES_OF_MEDDLING = (0x1D00, 0x1D02, 0x1900, 0x2400, 0x0160)
NUMBERS = (0, 0, 1, 1, 2, 3, 4, 9, 17, 33, 64)
SMALL_NUMBERS = (0, 0, 0, 1, 1, 2)  # where few writes are, or one that matters
OFFS = (1, 1, 1, 1, 2, 3, 4, 5, 8, 31, 32, 33)
TICKS_BEHIND_POWER = (3, 4, 6, 7, 10, 11, 11, 12, 12, 13, 16)
LOOKS_AT_REGISTERS = (MPUCTL1, SYSSNIV, 0x019E, 0x015C, 0x0130, 0x0200, 0x0204, 0x05AA)


@dataclass(frozen=True)
class Temper:
    """How often something comes."""

    most_cuts: int
    pace: int  # about so many ticks are between cuts while the program runs
    boots: float  # the chances of a cut in a boot are so much greater
    longer: float  # the share of erases that the run is made long enough for
    share_of_sessions: float  # the share of boots behind which a session comes
    sessions: Sequence[tuple[Session, float]]


def random_temper(
    rng: random.Random, longer: float, sessions: Sequence[tuple[Session, float]]
) -> Temper:
    return Temper(
        most_cuts=rng.choice((0, 1, 3, 10, 20, 40, 40, 40)), pace=rng.choice((30, 80, 200, 600)),
        boots=rng.choice((0.2, 1, 1, 2)), longer=longer,
        share_of_sessions=rng.choice((0, 0.2, 0.6)), sessions=sessions,
    )


@dataclass
class TickSoFar:
    """What has come in the tick that is played."""

    written: list[int] = field(default_factory=list)  # where
    debugger_wrote: bool = False
    lost_a_write: bool = False  # it was refused, or went where nothing is
    noted: bool = False  # a violation
    erases_while_meddling: bool = False


class Player:
    def __init__(
        self, rng: random.Random, store: bytearray, bench: Bench, targets: Targets, temper: Temper
    ):
        self.rng = rng
        self.targets = targets
        self.temper = temper
        self.fill = bench.fill
        self.end = bench.end
        self.events: dict[int, list[Event]] = bench.events_of_ticks()
        self.cuts: list[Cut] = []
        self.tick_of_power = 0  # when it comes on behind the last cut
        self.chip = Chip(store, bench.fill, Counter())
        self.writes = self.chip.writes
        self.so_far = TickSoFar()
        self.write_of_bus = self.chip.bus.write
        self.chip.bus.write = self.write
        self.note_of_violation = self.chip.protection.note
        self.chip.protection.note = self.note
        self.special_wipes = {address & ~1 for address in self.places_of_wipes()}

    def places_of_wipes(self) -> list[int]:
        places = [0x1800, 0x1802, 0x19FE, 0x4400, 0x13FFC, 0x13FFE, 0xFF88, 0xFF8A, 0xFFFE]
        for structure in self.targets.places.structures:
            places += range(structure - 2, structure + 10, 2)
        return places

    def play(self) -> Bench:
        tick = 0
        while tick < self.end:
            self.so_far = TickSoFar()
            was_booted = self.chip.is_booted()
            if was_booted and self.chip.busy == 0 and self.may_cut():
                self.meddle(tick)
            self.chip.tick(self.events.get(tick, []), self.power(tick))
            if self.writes.end_in_a_cut():
                self.note_cut(tick)
            elif not was_booted:
                self.follow_boot(tick)
            tick += 1
        events = [event for tick in sorted(self.events) for event in self.events[tick]]
        kept = [event for event in events if event.tick < self.end]
        return Bench(self.end, self.fill, kept, self.cuts)

    def meddle(self, tick: int) -> None:
        """Writes of the debugger in a tick in which the owner of the bus may write too."""
        share = SHARE_OF_MEDDLING * (12 if self.comes_to_much() else 1)
        if self.rng.random() < share / self.temper.pace:
            for _ in range(self.rng.randrange(1, 4)):
                at = self.rng.choice((*PLACES_OF_MEDDLING, self.targets.address(self.rng)))
                self.plan(tick, [(0, WriteWord(at, self.rng.randrange(0x10000)))])
            if self.rng.random() < SHARE_OF_ERASES_WHILE_MEDDLING:
                self.plan(tick, [(0, Erase())])
                self.so_far.erases_while_meddling = True

    def comes_to_much(self) -> bool:
        """Whether the next instruction may write several words: PUSHM, an extended one, MOVA."""
        word = self.chip.memory.read_word(self.chip.registers.get(PC))
        return 0x1400 <= word < 0x1600 or 0x1800 <= word < 0x2000 or word & 0xF0E0 == 0x0060

    # Whether a cut comes

    def may_cut(self) -> bool:
        return len(self.cuts) < self.temper.most_cuts

    def power(self, tick: int) -> Power:
        if tick < self.tick_of_power:
            return OFF
        if self.so_far.erases_while_meddling:  # most often in vain
            return Power(is_on=True, whole_writes=self.rng.choice(SMALL_NUMBERS))
        if self.may_cut() and self.rng.random() < self.chance(tick):
            in_boot = not self.chip.is_booted()
            numbers = SMALL_NUMBERS if in_boot or self.rng.random() < 0.4 else NUMBERS
            return Power(is_on=True, whole_writes=self.rng.choice(numbers))
        return ON

    def chance(self, tick: int) -> float:
        chip = self.chip
        place = chip.boot.place
        if place is Place.WIPE and chip.boot.wiped_next in self.special_wipes:
            return 0.03 * self.temper.boots
        if place is Place.DONE and chip.boot.wiped_next != FIRST_WIPED:
            return CHANCE_AT_THE_END_OF_AN_ERASE * self.temper.boots
        if place is not Place.NONE:
            return CHANCE_AT_PLACE[place] * self.temper.boots
        for event in self.events.get(tick, []):
            if type(event.act) in CHANCE_AT_COMMAND:
                return CHANCE_AT_COMMAND[type(event.act)]
        if chip.debug.halted or chip.dead or chip.registers.get(SR) & CPUOFF_BIT:
            return 0.1 / self.temper.pace
        if chip.debug.halt_is_pending or chip.dma.second_tick or chip.nmi.stands():
            return 0.02
        return 0.15 / self.temper.pace

    def write(self, at: int, size: str, value: int) -> None:
        """Stands for that of the bus. It may find that this is the tick of a cut."""
        agent, so_far = self.chip.bus.agent, self.so_far
        if not is_fram(at):
            chance = CHANCE_AT_OTHER_WRITE
        elif so_far.debugger_wrote and agent is not Agent.DEBUG:
            chance = CHANCE_BEHIND_THE_DEBUGGER
        elif so_far.lost_a_write:
            chance = CHANCE_BEHIND_A_LOST_WRITE
        else:
            chances = CHANCE_AT_NEXT_WRITE if so_far.written else CHANCE_AT_FIRST_WRITE
            chance = chances[agent]
        self.cut_here(chance)
        so_far.debugger_wrote |= agent is Agent.DEBUG
        so_far.lost_a_write |= self.is_lost(at & ADDRESS_MASK)
        so_far.written.append(at & ADDRESS_MASK)
        self.write_of_bus(at, size, value)

    def is_lost(self, at: int) -> bool:
        if region_of(at) in (Region.VACANT, Region.DESCRIPTOR):
            return True
        return self.chip.encapsulation.refuses(at, Right.WRITE, self.chip.bus.instruction)

    def note(self, place: PlaceOfViolation) -> None:
        """Stands for that of protection, in the same way."""
        self.so_far.noted = True
        self.cut_here(CHANCE_AT_VIOLATION)
        self.note_of_violation(place)

    def cut_here(self, chance: float) -> None:
        """Now and then the writes behind those that were made are absent, or all but the next."""
        if self.writes.end_in_a_cut() or not self.may_cut():
            return
        if self.rng.random() < chance * USUAL_PACE / self.temper.pace:
            self.writes.whole = self.writes.count + (self.rng.random() < 0.4)

    # What follows

    def note_cut(self, tick: int) -> None:
        off = self.rng.choice(OFFS)
        if self.rng.random() < 0.1:
            off = self.rng.choice((self.rng.randrange(1, 200), self.rng.randrange(1, 2000)))
        if self.rng.random() < 0.003:
            off = 10_000_000
        self.cuts.append(Cut(tick, self.writes.whole, off))
        self.tick_of_power = tick + off + 1
        self.look_back()

    def look_back(self) -> None:
        """Commands behind the next boot, which read where the writes of this tick went."""
        rng = self.rng
        for _ in range(rng.choice((0, 1, 2, 3, 5))):
            at = self.place_of_a_look() & ADDRESS_MASK
            look = ReadWord(at) if rng.random() < 0.8 else Dump(at, rng.choice((1, 4, 16)))
            self.plan(self.tick_of_power, [(rng.choice(TICKS_BEHIND_POWER), look)])
        if rng.random() < 0.1:
            tick = rng.choice(TICKS_BEHIND_POWER)
            level = PinLevel(rng.choice(ALL_PINS), rng.randrange(2))
            self.plan(self.tick_of_power, [
                (rng.randrange(4), level), (tick, Halt()),
                (tick + 2, ReadRegister(rng.randrange(16))), (tick + 3, Go()),
            ])

    def place_of_a_look(self) -> int:
        """Most often that of a write about the last whole one."""
        chance, written = self.rng.random(), self.so_far.written
        if self.so_far.noted and chance < 0.4:
            return self.rng.choice((MPUCTL1, SYSSNIV))
        if chance < 0.1:
            return self.rng.choice(LOOKS_AT_REGISTERS)
        if chance < 0.2 or not written:
            return self.targets.address(self.rng)
        if chance < 0.4:
            return self.rng.choice(written) + self.rng.choice((0, 0, -2, 2, 1))
        index = self.writes.whole + self.rng.choice((-1, 0, 0, 1))
        return written[min(max(index, 0), len(written) - 1)]

    def follow_boot(self, tick: int) -> None:
        boot = self.chip.boot
        if boot.erases_first_word() and self.rng.random() < self.temper.longer:
            end = tick + TICKS_OF_AN_ERASE + self.rng.choice(TICKS_BEHIND_AN_ERASE)
            self.end = max(self.end, min(LONGEST_RUN, end))
        if not boot.is_done():
            return
        if self.chip.dead and self.chip.hidden.mark is Mark.EMPTY:
            self.come(tick, boot_sessions.look_behind_an_erase)
            if self.rng.random() < 0.7:
                self.come(tick + self.rng.randrange(4, 30), boot_sessions.revive)
        if self.rng.random() < self.temper.share_of_sessions:
            session, = self.rng.choices(*zip(*self.temper.sessions))
            self.come(tick + self.rng.randrange(1, 60), session)

    def come(self, tick: int, session: Session) -> None:
        self.plan(tick, session(self.rng, self.targets))

    def plan(self, tick: int, acts: list[Timed]) -> None:
        """Adds what still has room. `tick` has been played already, or is later."""
        for distance, act in acts:
            at = max(tick + distance, self.chip.number)
            events = self.events.setdefault(at, [])
            if len(events) < EVENTS_IN_A_TICK:
                events.append(Event(at, act))
