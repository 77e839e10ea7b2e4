"""The chip and its tick: power, stimulus, timers, bus owner, reset, cut (MACHINE.md, A tick)."""

from collections import Counter
from dataclasses import dataclass

import interrupts
import items
import seals
import trace
from bench import Event, PinLevel
from boot import Boot, HiddenWords, Place, borders_of_image
from bus import Agent, Bus
from clocks import edges_of
from debug import Command, DebugPort
from dma import Dma
from encapsulation import Encapsulation
from execute import Done, step
from fram import Fram
from interrupts import CPUOFF_BIT, PC, SR
from items import Item
from latch import Latch
from memory import Memory
from ports import Ports
from power import Power, Writes
from protection import Protection
from registers import Registers
from requests import Requests
from system import CAUSES_OF_BOR, Cause, System
from timers import three_timers
from watchdog import Watchdog

RESET_VECTOR = 0xFFFE
NO_VECTOR = 0xFFFF


@dataclass(frozen=True)
class PrivateStep:
    """An instruction or an entry that was made from within the seal."""

    status: int  # SR before it
    vector: int | None = None  # of an entry


class Chip:
    def __init__(self, store: bytearray, fill: int, statistics: Counter):
        self.statistics = statistics
        self.number = 0
        self.powered = False
        self.lines: list[str] = []
        self.items: list[Item] = []
        self.is_private_turn = False  # by the phase when the owner of the bus acts
        self.private_step: PrivateStep | None = None
        self.requests = Requests()
        self.registers = Registers()
        self.busy = 0
        self.dead = False
        self.memory = Memory(store, fill)
        self.writes = Writes(statistics)
        self.hidden = HiddenWords(self.writes)
        self.boot = Boot(self.memory, self.hidden, self.writes, statistics)
        self.system = System(self.requests.add)
        self.ports = Ports(lambda: self.system.locked)
        self.watchdog = Watchdog(self.requests.add, self.system.set_watchdog_flag)
        self.dma = Dma(statistics)
        self.timers = three_timers(statistics, self.dma.trigger_of_timer)
        self.fram = Fram(self.requests.add)
        latch = Latch(self.requests.add, Cause.PROTECTION_PASSWORD)
        self.encapsulation = Encapsulation(latch)
        self.encapsulation.install(borders_of_image(store))  # its seal is kept from now on
        self.encapsulation.reset(Cause.POWER_ON)
        self.protection = Protection(self.requests.add, latch, self.encapsulation, statistics)
        units = (self.system, self.ports, self.watchdog, *self.timers, self.dma, self.fram,
                 self.protection, self.encapsulation)
        self.bus = Bus(
            self.memory, units, self.requests.add, self.encapsulation, self.protection, self.writes
        )
        self.debug = DebugPort(
            self.registers, self.bus, self.memory, self.hidden, self.requests.add,
            self.is_booted, statistics,
        )
        self.nmi = interrupts.nmi_of(self.protection)
        self.interrupt_lines = interrupts.lines_of(
            self.system, self.ports, self.timers, self.dma
        )
        self.drives = self.ports.what_drives()
        self.levels = self.ports.levels()

    def tick(self, events: list[Event], power: Power) -> list[str]:
        """One tick, and its lines. Its items are in `items` then."""
        self.lines = []
        self.items = []
        self.writes.begin_tick(power.whole_writes)
        if power.is_on:
            self.tick_with_power(events)
        else:
            self.stimulus(events)
        self.compare_levels()
        self.number += 1
        return self.lines

    def tick_with_power(self, events: list[Event]) -> None:
        if not self.powered:
            self.come_on()
        self.stimulus(events)
        lines_of_events = len(self.lines)
        self.take_edges()
        self.owner_acts()
        flags = self.protection.noted_flags()
        self.protection.end_step()
        if self.private_step is not None:
            self.list_step(self.private_step, flags)
        if self.writes.end_in_a_cut():
            del self.lines[lines_of_events:]  # what the owner did has no lines in such a tick
            self.lose_power()
        else:
            self.take_reset()
            self.list_exit()

    # Power

    def come_on(self) -> None:
        self.powered = True
        self.power_on_reset(Cause.POWER_ON)
        self.lines.append(trace.on(self.number))

    def lose_power(self) -> None:
        """FRAM, the hidden words and the external levels stand."""
        self.lines.append(trace.cut(self.number))
        self.tell_cut()
        self.powered = False
        self.memory.lose_sram()
        self.power_on_reset(Cause.POWER_ON)

    def tell_cut(self) -> None:
        if not self.boot.is_done():
            self.statistics[f"cut before the boot step {self.boot.place.name}"] += 1
        elif self.debug.halted or self.dead or self.registers.get(SR) & CPUOFF_BIT:
            self.statistics["cut of a processor that is still"] += 1
        else:
            self.statistics["cut of a processor at work"] += 1
        self.statistics["cut in private phase"] += self.is_private_turn

    # Events

    def stimulus(self, events: list[Event]) -> None:
        for event in events:
            if isinstance(event.act, PinLevel):
                self.ports.drive_from_outside(event.act.pin, event.act.level)
            else:
                self.obey(event.act)

    def obey(self, command: Command) -> None:
        answer = self.debug.answer(command)
        if answer is not None:
            self.lines.append(trace.debug(self.number, command.text(), answer))

    def is_booted(self) -> bool:
        return self.boot.is_done()

    def take_edges(self) -> None:
        if not self.is_booted():
            return
        edges = edges_of(self.number, self.registers.get(SR))
        if self.watchdog.take(edges):
            self.statistics["watchdog intervals"] += 1
        for timer in self.timers:
            timer.take(edges)

    # The bus owner

    def owner_acts(self) -> None:
        self.is_private_turn = self.is_private()
        self.private_step = None
        if not self.is_booted():
            self.boot_acts()
        elif self.dma.acts(self.bus):
            return
        else:
            self.processor_acts()
        self.dma.lower_rests()

    def boot_acts(self) -> None:
        if self.boot.place is Place.DONE:
            if not self.writes.end_in_a_cut():
                self.end_boot()
            return
        if self.boot.erases_first_word():
            self.lines.append(trace.erase(self.number))
        place = self.boot.place
        self.boot.step()
        if place is Place.WORD:
            words = self.boot.words
            self.items.append(items.Struct(len(words) - 1, words[-1]))

    def end_boot(self) -> None:
        kept = self.encapsulation.kept
        self.encapsulation.install(self.boot.end())
        self.lines.append(trace.boot(self.number, self.encapsulation))
        self.load_reset_vector()
        self.list_opened(kept - self.encapsulation.kept)

    def list_opened(self, opened: seals.Seal) -> None:
        for interval in seals.intervals(opened):
            content = bytes(self.memory.store[interval.start:interval.stop])
            self.items.append(items.Opened(interval.start, content))

    def load_reset_vector(self) -> None:
        vector = self.memory.read_word(RESET_VECTOR)
        self.registers.set(PC, vector & 0xFFFE)
        self.dead = vector == NO_VECTOR
        if self.dead:
            self.lines.append(trace.dead(self.number))
            self.statistics["dead ends"] += 1

    def processor_acts(self) -> None:
        if self.busy > 0:
            self.busy -= 1
            return
        if self.debug.halt_is_pending and not self.is_private():
            self.halt()
            return
        self.statistics["ticks that a halt waits in the seal"] += self.debug.halt_is_pending
        if self.debug.halted or self.dead:
            return
        status = self.registers.get(SR)
        line = interrupts.accepted(self.nmi, self.interrupt_lines, status)
        if line is not None:
            self.enter(line, status)
        elif status & CPUOFF_BIT:
            self.statistics["ticks asleep"] += 1
        else:
            self.execute()

    def is_private(self) -> bool:
        """Whether the processor is at work within the seal, where it can't be halted."""
        return not self.debug.halted and self.encapsulation.seals(self.registers.get(PC))

    def halt(self) -> None:
        self.debug.halt()
        self.lines.append(trace.halt(self.number, self.registers.get(PC)))
        self.tell_halt()

    def tell_halt(self) -> None:
        if self.dead:
            self.statistics["halt of a dead processor"] += 1
        elif self.registers.get(SR) & CPUOFF_BIT:
            self.statistics["halt of a processor that is off"] += 1
        else:
            self.statistics["halt of a processor at work"] += 1

    def enter(self, line: interrupts.Line, status: int) -> None:
        self.statistics[f"entry {line.vector:04X}"] += 1
        if line is self.nmi:
            self.tell_nmi(status)
        self.bus.begin_step(Agent.ENTRY)
        self.note_step(vector=line.vector)
        self.busy = interrupts.enter(line, self.registers, self.bus) - 1
        self.busy += self.waits_of_step()

    def tell_nmi(self, status: int) -> None:
        if status & CPUOFF_BIT:
            self.statistics["nmi while asleep"] += 1
        enabled = "enabled" if status & interrupts.GIE_BIT else "disabled"
        self.statistics[f"nmi while interrupts are {enabled}"] += 1

    def waits_of_step(self) -> int:
        """NWAITS as the step left it holds for each of its accesses to FRAM."""
        each = self.fram.waits()
        waits = each * self.bus.accesses_to_fram
        if waits:
            self.statistics[f"waits with NWAITS {each}"] += waits
        return waits

    def execute(self) -> None:
        self.bus.begin_step(Agent.PROCESSOR, instruction=self.registers.get(PC))
        self.note_step()
        outcome = step(self.registers, self.bus)
        self.statistics[f"form {outcome.form}"] += 1
        if isinstance(outcome, Done):
            self.busy = outcome.cycles - 1
            self.busy += self.waits_of_step()
        else:
            self.requests.add(Cause.RESERVED_WORD)

    # Items

    def note_step(self, vector: int | None = None) -> None:
        if self.is_private_turn:
            self.private_step = PrivateStep(self.registers.get(SR), vector)
            self.requests.begin_step()

    def list_step(self, step: PrivateStep, flags: int) -> None:
        """Behind a private step, and before the reset that it may have asked for."""
        is_cut = self.writes.end_in_a_cut()
        if step.vector is not None and not is_cut:
            self.items.append(items.Entry(step.vector))
        self.items += [
            items.item_of_access(access) for access in self.bus.accesses
            if not self.encapsulation.seals(access.at)
        ]
        if is_cut:
            return
        if flags:
            self.items.append(items.Flags(flags))
        if self.requests.of_step:
            self.items.append(items.Reset(min(self.requests.of_step)))
        power = self.registers.get(SR) & items.POWER_BITS
        if power != step.status & items.POWER_BITS:
            self.items.append(items.Power(power))

    def list_exit(self) -> None:
        if self.is_private_turn and not self.is_private():
            self.items.append(items.Exit(self.busy, tuple(self.registers.values)))

    # Resets

    def take_reset(self) -> None:
        if not self.requests:
            return
        cause = min(self.requests)
        self.statistics[f"reset {cause:02X}"] += 1
        self.lines.append(trace.reset(self.number, cause))
        if cause in CAUSES_OF_BOR:
            self.power_on_reset(cause)
        else:
            self.plain_reset(cause)

    def power_on_reset(self, cause: Cause) -> None:
        for register in range(16):
            self.registers.set(register, 0)
        self.dead = False
        self.boot.restart()
        self.reset_units(cause)

    def plain_reset(self, cause: Cause) -> None:
        self.registers.set(SR, 0)
        self.reset_units(cause)
        self.load_reset_vector()

    def reset_units(self, cause: Cause) -> None:
        self.requests.clear()
        self.busy = 0
        self.system.reset(cause)
        self.ports.reset()
        self.watchdog.reset()
        for timer in self.timers:
            timer.reset()
        self.dma.reset()
        self.fram.reset()
        self.protection.reset(cause)
        self.encapsulation.reset(cause)
        self.debug.reset(cause)

    # The end of a tick

    def compare_levels(self) -> None:
        drives = self.ports.what_drives()
        if drives == self.drives:
            return
        self.drives = drives
        before, after = self.levels, self.ports.levels()
        self.levels = after
        for port in range(1, 5):
            if before[port - 1] != after[port - 1]:
                self.lines.append(trace.pin(self.number, port, after[port - 1]))
                self.statistics["PIN lines"] += 1
