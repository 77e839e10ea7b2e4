"""The bus: what one fetch, read or write does (MACHINE.md, The order of an access).

Two sizes of data: "b" is a byte and "w" a word.
"""

from collections.abc import Callable
from enum import Enum
from typing import NamedTuple

from encapsulation import Encapsulation
from memory import (
    ADDRESS_MASK, BYTE_OF_NO_STORE, FRAM_REGIONS, VACANT_WORD, Memory, Region, region_of,
)
from power import Writes
from protection import Place, Protection
from registers_of_units import HIGH_HALF, LOW_HALF, WORD
from right import Right
from system import Cause


class Agent(Enum):
    """Who makes the accesses of a step. The boot makes its own past the bus."""

    PROCESSOR = "processor"
    ENTRY = "entry"
    DMA = "dma"
    DEBUG = "debug"


JUDGED_BY_SEGMENTS = (Agent.PROCESSOR, Agent.DMA)


class Access(NamedTuple):
    """One that was made, refused or not. Bit 0 of the address is clear where a word was asked."""

    right: Right
    at: int
    size: str
    value: int = 0  # that was written


class Bus:
    def __init__(
        self, memory: Memory, units, request: Callable[[Cause], None],
        encapsulation: Encapsulation, protection: Protection, writes: Writes,
    ):
        self.memory = memory
        self.request = request
        self.encapsulation = encapsulation
        self.protection = protection
        self.writes = writes
        self.agent = Agent.PROCESSOR
        self.instruction: int | None = None  # where that of the processor begins
        self.accesses: list[Access] = []  # of this step, as are the next
        self.accesses_to_fram = 0
        self.unit_of_address = {}
        for unit in units:
            for address in unit.addresses:
                self.unit_of_address[address] = unit

    def begin_step(self, agent: Agent, instruction: int | None = None) -> None:
        self.agent = agent
        self.instruction = instruction
        self.accesses = []
        self.accesses_to_fram = 0

    def fetch(self, instruction_address: int, at: int) -> int:
        at &= ADDRESS_MASK & ~1
        is_first_word = at == instruction_address
        if is_first_word and region_of(at) is Region.PERIPHERALS:
            self.accesses.append(Access(Right.FETCH, at, "w"))
            self.request(Cause.PERIPHERAL_FETCH)
            return VACANT_WORD
        return self.read(at, "w", Right.FETCH)

    def read(self, at: int, size: str, right: Right = Right.READ) -> int:
        at &= ADDRESS_MASK
        if size == "w":
            at &= ~1
        self.accesses.append(Access(right, at, size))
        if region_of(at) is Region.PERIPHERALS:
            return self.read_register(at, size)
        if self.is_refused(at, right):
            return VACANT_WORD if size == "w" else BYTE_OF_NO_STORE
        return self.memory.read_word(at) if size == "w" else self.memory.read_byte(at)

    def write(self, at: int, size: str, value: int) -> None:
        at &= ADDRESS_MASK
        if size == "w":
            at &= ~1
        if self.writes.next_is_absent(self.agent.value):
            return
        whole = value & (WORD if size == "w" else LOW_HALF)
        self.accesses.append(Access(Right.WRITE, at, size, whole))
        if region_of(at) is Region.PERIPHERALS:
            self.write_register(at, size, value)
        elif self.is_refused(at, Right.WRITE):
            return
        elif size == "w":
            self.memory.write_word(at, value)
        else:
            self.memory.write_byte(at, value)

    def is_refused(self, at: int, right: Right) -> bool:
        """Counts an access where it is one to FRAM, and judges its right, by segments last."""
        if region_of(at) not in FRAM_REGIONS:
            return False
        self.accesses_to_fram += 1
        if self.encapsulation.refuses(at, right, self.instruction):
            self.protection.tell_of_refused(Place.ENCAPSULATION, right, self.agent.value)
            if self.agent is not Agent.DEBUG:
                self.protection.note(Place.ENCAPSULATION)
            return True
        if self.agent not in JUDGED_BY_SEGMENTS:
            return False
        return self.protection.refuses(at, right, self.agent.value)

    def read_register(self, at: int, size: str) -> int:
        address = at & ~1
        unit = self.unit_of_address.get(address)
        if unit is None:
            return 0
        word = unit.read(address)
        if size == "w":
            return word
        return word >> 8 if at & 1 else word & 0xFF

    def write_register(self, at: int, size: str, value: int) -> None:
        address = at & ~1
        unit = self.unit_of_address.get(address)
        if unit is None:
            return
        if size == "w":
            unit.write(address, value & WORD, WORD)
        elif at & 1:
            unit.write(address, (value & 0xFF) << 8, HIGH_HALF)
        else:
            unit.write(address, value & 0xFF, LOW_HALF)
