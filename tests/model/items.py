"""What comes out of a seal: the items of a tick, each with the texts of its lines.

A step is private where PC lies in the seal when the owner of the bus acts. Its items tell all that
the chip outside of the seal can see of it, and those of a boot tell what a boot brings to light.
"""

from dataclasses import dataclass

from bus import Access
from right import Right

POWER_BITS = 0x00F0  # of SR: CPUOFF, OSCOFF, SCG0 and SCG1
BYTES_OF_A_LINE = 16
DIGITS_OF_SIZE = {"b": 2, "w": 4}


@dataclass(frozen=True)
class Entry:
    """A private step is the entry of an interrupt."""

    vector: int

    def texts(self) -> list[str]:
        return [f"ENTRY {self.vector:05X}"]


@dataclass(frozen=True)
class Fetch:
    at: int

    def texts(self) -> list[str]:
        return [f"F {self.at:05X}"]


@dataclass(frozen=True)
class Read:
    at: int
    size: str

    def texts(self) -> list[str]:
        return [f"R {self.at:05X} {self.size}"]


@dataclass(frozen=True)
class Write:
    at: int
    size: str
    value: int

    def texts(self) -> list[str]:
        return [f"W {self.at:05X} {self.size} {self.value:0{DIGITS_OF_SIZE[self.size]}X}"]


@dataclass(frozen=True)
class Flags:
    """The violations that a private step noted, as bits of MPUCTL1."""

    bits: int

    def texts(self) -> list[str]:
        return [f"FLAGS {self.bits:02X}"]


@dataclass(frozen=True)
class Reset:
    """The least cause that a private step requested."""

    cause: int

    def texts(self) -> list[str]:
        return [f"RESET {self.cause:02X}"]


@dataclass(frozen=True)
class Power:
    """A private step changed the bits of SR that switch the processor and the clocks."""

    bits: int

    def texts(self) -> list[str]:
        return [f"POWER {self.bits:02X}"]


@dataclass(frozen=True)
class Struct:
    """A boot read a word of its structure."""

    index: int
    word: int

    def texts(self) -> list[str]:
        return [f"STRUCT {self.index} {self.word:04X}"]


@dataclass(frozen=True)
class Opened:
    """A boot ended, and these addresses aren't kept any longer."""

    first: int
    content: bytes

    def texts(self) -> list[str]:
        places = range(0, len(self.content), BYTES_OF_A_LINE)
        rows = [(self.first + place, self.content[place:place + BYTES_OF_A_LINE])
                for place in places]
        return [f"OPEN {at:05X} {row.hex().upper()}" for at, row in rows]


@dataclass(frozen=True)
class Exit:
    """The phase was private when the owner of the bus acted, and isn't at the tick's end."""

    busy: int
    registers: tuple[int, ...]

    def texts(self) -> list[str]:
        registers = " ".join(f"{value:05X}" for value in self.registers)
        return [f"EXIT {self.busy} {registers}"]


Item = Entry | Fetch | Read | Write | Flags | Reset | Power | Struct | Opened | Exit


def item_of_access(access: Access) -> Item:
    if access.right is Right.FETCH:
        return Fetch(access.at)
    if access.right is Right.READ:
        return Read(access.at, access.size)
    return Write(access.at, access.size, access.value)


def lines(tick: int, items: list[Item]) -> list[str]:
    return [f"{tick} {text}\n" for item in items for text in item.texts()]
