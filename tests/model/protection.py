"""The memory protection unit: segments, rights, violations and SYSSNIV (MACHINE.md).

An access that is refused notes its place. What the places ask for is judged behind the last access
of the step, by the registers as the step left them. IP Encapsulation is one of the places.
"""

from collections import Counter
from collections.abc import Callable
from enum import IntEnum

from encapsulation import Encapsulation
from latch import Latch
from memory import Region, region_of
from registers_of_units import merged
from right import Right
from system import CAUSES_OF_BOR, READ_PASSWORD, SYSSNIV, Cause

MPUCTL0 = 0x05A0
MPUCTL1 = 0x05A2
MPUSEGB2 = 0x05A4
MPUSEGB1 = 0x05A6
MPUSAM = 0x05A8

ENABLE_BIT = 0x0001
LOCK_BIT = 0x0002
NMI_BIT = 0x0010  # SEGIE
CONTROL_BITS = NMI_BIT | LOCK_BIT | ENABLE_BIT
LOCKED_BITS = {MPUSEGB2: 0xFFC0, MPUSEGB1: 0xFFC0, MPUSAM: 0xFFFF}  # what LOCK keeps
VALUES_AFTER_BOR = {MPUSEGB2: 0, MPUSEGB1: 0, MPUSAM: 0x7777}

BYTES_OF_A_BORDER = 16  # the register times this is the address
BITS_OF_A_PLACE = 4  # in MPUSAM


RESET_BIT = 8  # VS


class Place(IntEnum):
    """Where an access was refused, by the number of its flag.

    Of all but the last it is the number of its bits in MPUSAM too.
    """

    SEGMENT_1 = 0
    SEGMENT_2 = 1
    SEGMENT_3 = 2
    INFORMATION = 3
    ENCAPSULATION = 4


NUMBERS = {Place.ENCAPSULATION: 0x08, Place.INFORMATION: 0x0A, Place.SEGMENT_1: 0x0C,
           Place.SEGMENT_2: 0x0E, Place.SEGMENT_3: 0x10}
CAUSES = {Place.ENCAPSULATION: Cause.ENCAPSULATION_VIOLATION,
          Place.INFORMATION: Cause.INFORMATION_VIOLATION,
          Place.SEGMENT_1: Cause.SEGMENT_1_VIOLATION,
          Place.SEGMENT_2: Cause.SEGMENT_2_VIOLATION,
          Place.SEGMENT_3: Cause.SEGMENT_3_VIOLATION}


class Protection:
    addresses = (MPUCTL0, MPUCTL1, *LOCKED_BITS, SYSSNIV)

    def __init__(
        self, request: Callable[[Cause], None], latch: Latch, encapsulation: Encapsulation,
        statistics: Counter,
    ):
        self.request = request
        self.latch = latch
        self.encapsulation = encapsulation
        self.statistics = statistics
        self.noted: set[Place] = set()
        self.reset(Cause.POWER_ON)

    def reset(self, cause: Cause) -> None:
        self.latch.close()
        self.nmi_is_requested = False
        if cause in CAUSES_OF_BOR:
            self.control = 0
            self.flags = 0
            self.registers = dict(VALUES_AFTER_BOR)

    # Registers

    def read(self, address: int) -> int:
        if address == MPUCTL0:
            return READ_PASSWORD | self.control
        if address == MPUCTL1:
            return self.flags
        if address == SYSSNIV:
            return self.take_number()
        return self.registers[address]

    def write(self, address: int, value: int, mask: int) -> None:
        if address == MPUCTL0:
            takes_effect = self.latch.lower_byte_takes_effect(value, mask)
            if takes_effect and not self.locked():
                self.control = value & CONTROL_BITS
        elif address == SYSSNIV:
            self.take_number()
        elif self.latch.is_open:
            self.write_behind_the_latch(address, value, mask)

    def write_behind_the_latch(self, address: int, value: int, mask: int) -> None:
        if address == MPUCTL1:
            self.flags &= merged(self.flags, value, mask)
        elif not self.locked():
            word = merged(self.registers[address], value, mask)
            self.registers[address] = word & LOCKED_BITS[address]

    def locked(self) -> bool:
        return self.control & LOCK_BIT != 0

    def take_number(self) -> int:
        """What SYSSNIV reads; the access clears the flag that it tells."""
        for place, number in NUMBERS.items():
            if self.flags >> place & 1:
                self.flags &= ~(1 << place)
                self.tell(f"SYSSNIV {number:02X}")
                return number
        return 0

    # Rights

    def place_of(self, address: int) -> Place:
        """Of an address in FRAM. What lies from the second border on is never segment 1."""
        if region_of(address) is Region.INFORMATION:
            return Place.INFORMATION
        if address >= self.registers[MPUSEGB2] * BYTES_OF_A_BORDER:
            return Place.SEGMENT_3
        if address >= self.registers[MPUSEGB1] * BYTES_OF_A_BORDER:
            return Place.SEGMENT_2
        return Place.SEGMENT_1

    def bits_of(self, place: Place) -> int:
        return self.registers[MPUSAM] >> BITS_OF_A_PLACE * place & 0xF

    def refuses(self, address: int, right: Right, agent: str) -> bool:
        """Whether the agent hasn't the right to an address in FRAM. The place is noted then."""
        if not self.control & ENABLE_BIT:
            return False
        place = self.place_of(address)
        if self.bits_of(place) & right:
            return False
        self.note(place)
        self.tell_of_refused(place, right, agent)
        return True

    # Violations

    def noted_flags(self) -> int:
        """The places that this step has noted, as bits of MPUCTL1."""
        return sum(1 << place for place in self.noted)

    def note(self, place: Place) -> None:
        self.noted.add(place)

    def end_step(self) -> None:
        """Behind the last access of a step: sets the flags, and asks for what follows."""
        if not self.noted:
            return
        if len(self.noted) > 1:
            self.tell("several places in a step")
        for place in self.noted:
            self.flags |= 1 << place
            self.ask_for(place)
        self.noted.clear()

    def ask_for(self, place: Place) -> None:
        if self.resets(place):
            self.request(CAUSES[place])
        elif self.control & NMI_BIT:
            self.nmi_is_requested = True

    def resets(self, place: Place) -> bool:
        """Whether a violation there asks for a reset."""
        if place is Place.ENCAPSULATION:
            return self.encapsulation.resets()
        return self.bits_of(place) & RESET_BIT != 0

    def nmi_stands(self) -> bool:
        return self.nmi_is_requested

    def drop_nmi(self) -> None:
        self.nmi_is_requested = False

    def tell_of_refused(self, place: Place, right: Right, agent: str) -> None:
        self.tell(f"{agent}'s {right.name.lower()} in {place.name.lower()}")

    def tell(self, what: str) -> None:
        self.statistics[f"protection: {what}"] += 1
