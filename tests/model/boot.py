"""The boot: one step in a tick, from the hidden words to borders in force (MACHINE.md, The boot).

The hidden words, mark and ptr, stand beside FRAM. No access reaches them, and they outlast a loss
of power as FRAM does.
"""

from collections import Counter
from enum import IntEnum, auto

from encapsulation import Borders
from memory import ADDRESS_MASK, FRAM_REGIONS, VACANT_WORD, Memory, region_of
from power import Writes

SIGNATURE_ADDRESS = 0xFF88
SIGNATURE = 0xAAAA
POINTER_ADDRESS = 0xFF8A
BYTES_OF_A_POINTER = 16  # a pointer times this is the structure's address

WORDS_OF_A_STRUCTURE = 4
KEPT_OF_CONTROL = 0x00E0  # VS, ENA and LOCK
KEPT_OF_A_BORDER = 0xFFC0

ERASED_WORD = 0xFFFF
FIRST_WIPED = 0x1800
LAST_OF_INFORMATION = 0x19FE
FIRST_OF_MAIN = 0x4400
LAST_OF_MAIN = 0x13FFE


class Mark(IntEnum):
    """What mark tells. It has no other value."""

    EMPTY = 0xFFFF
    SAVED = 0x5A01
    ERASING = 0x5A02


class HiddenWords:
    def __init__(self, writes: Writes):
        self.writes = writes
        self.mark = Mark.EMPTY
        self.pointer = 0

    def write_mark(self, mark: Mark) -> None:
        if not self.writes.next_is_absent("mark"):
            self.mark = mark

    def write_pointer(self, pointer: int) -> None:
        if not self.writes.next_is_absent("ptr"):
            self.pointer = pointer


class Place(IntEnum):
    """The step that comes next."""

    START = auto()
    SIGNATURE = auto()
    POINTER = auto()
    WORD = auto()
    SAVE_POINTER = auto()
    SAVE_MARK = auto()
    MARK_ERASE = auto()
    WIPE = auto()
    MARK_EMPTY = auto()
    DONE = auto()
    NONE = auto()  # the boot is done


class Boot:
    def __init__(
        self, memory: Memory, hidden: HiddenWords, writes: Writes, statistics: Counter
    ):
        self.memory = memory
        self.hidden = hidden
        self.writes = writes
        self.statistics = statistics
        self.restart()

    def restart(self) -> None:
        self.place = Place.START
        self.pointer = 0
        self.words: list[int] = []
        self.borders = Borders()
        self.wiped_next = FIRST_WIPED

    def is_done(self) -> bool:
        return self.place is Place.NONE

    def erases_first_word(self) -> bool:
        return self.place is Place.WIPE and self.wiped_next == FIRST_WIPED

    def step(self) -> None:
        """Does the step of this place, which isn't Done."""
        self.place = STEPS[self.place](self)

    def end(self) -> Borders:
        """The step Done: what is to be installed."""
        self.place = Place.NONE
        return self.borders

    # The steps, each with the place that comes next

    def look_at_mark(self) -> Place:
        self.tell(f"begun with mark {self.hidden.mark.name}")
        if self.hidden.mark is Mark.ERASING:
            return Place.WIPE
        if self.hidden.mark is Mark.SAVED:
            self.pointer = self.hidden.pointer
            return Place.WORD
        return Place.SIGNATURE

    def look_at_signature(self) -> Place:
        return Place.POINTER if self.read(SIGNATURE_ADDRESS) == SIGNATURE else Place.DONE

    def read_pointer(self) -> Place:
        self.pointer = self.read(POINTER_ADDRESS)
        return Place.WORD

    def read_word(self) -> Place:
        address = self.pointer * BYTES_OF_A_POINTER + 2 * len(self.words)
        self.words.append(self.read(address & ADDRESS_MASK))
        if len(self.words) < WORDS_OF_A_STRUCTURE:
            return Place.WORD
        return self.judge(*self.words)

    def judge(self, control: int, second: int, first: int, check: int) -> Place:
        if check != ~(control ^ second ^ first) & 0xFFFF:
            self.tell(f"bad structure with mark {self.hidden.mark.name}")
            return Place.MARK_ERASE
        self.tell(f"good structure with mark {self.hidden.mark.name}")
        self.borders = Borders(
            control & KEPT_OF_CONTROL, second & KEPT_OF_A_BORDER, first & KEPT_OF_A_BORDER
        )
        return Place.DONE if self.hidden.mark is Mark.SAVED else Place.SAVE_POINTER

    def save_pointer(self) -> Place:
        self.hidden.write_pointer(self.pointer)
        return Place.SAVE_MARK

    def save_mark(self) -> Place:
        self.hidden.write_mark(Mark.SAVED)
        return Place.DONE

    def mark_erase(self) -> Place:
        self.hidden.write_mark(Mark.ERASING)
        return Place.WIPE

    def wipe(self) -> Place:
        address = self.wiped_next
        if not self.writes.next_is_absent("boot"):
            self.memory.write_word(address, ERASED_WORD)
        if address == LAST_OF_MAIN:
            return Place.MARK_EMPTY
        self.wiped_next = FIRST_OF_MAIN if address == LAST_OF_INFORMATION else address + 2
        return Place.WIPE

    def mark_empty(self) -> Place:
        self.tell("erase ended")
        self.hidden.write_mark(Mark.EMPTY)
        return Place.DONE

    def read(self, address: int) -> int:
        """A word of FRAM. Whatever lies elsewhere, the boot reads it as vacant."""
        if region_of(address) not in FRAM_REGIONS:
            return VACANT_WORD
        return self.memory.read_word(address)

    def tell(self, what: str) -> None:
        self.statistics[f"boot: {what}"] += 1


def borders_of_image(store: bytearray) -> Borders:
    """What the first boot of an image ends with, where nothing cuts it."""
    writes = Writes(Counter())
    boot = Boot(Memory(store, 0), HiddenWords(writes), writes, Counter())
    while boot.place is not Place.DONE:
        boot.step()
    return boot.end()


STEPS = {
    Place.START: Boot.look_at_mark,
    Place.SIGNATURE: Boot.look_at_signature,
    Place.POINTER: Boot.read_pointer,
    Place.WORD: Boot.read_word,
    Place.SAVE_POINTER: Boot.save_pointer,
    Place.SAVE_MARK: Boot.save_mark,
    Place.MARK_ERASE: Boot.mark_erase,
    Place.WIPE: Boot.wipe,
    Place.MARK_EMPTY: Boot.mark_empty,
}
