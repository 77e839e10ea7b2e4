"""Where the parts of a case's program lie: code in slots of FRAM, and single words as vectors."""

import random
from dataclasses import dataclass, field

import assembler
from image import Segment

SLOT_SIZE = 0x400
LOW_SLOTS = range(0x4400, 0xFC00, SLOT_SIZE)
HIGH_SLOTS = range(0x10000, 0x14000, SLOT_SIZE)
INFORMATION = 0x1800
INFORMATION_SIZE = 0x200


VAULT_DATA_SIZE = 0x80  # the last bytes of the vault, which aren't code


@dataclass(frozen=True)
class Vault:
    """Code that is to be encapsulated, and data behind it. Both ends can be borders."""

    first: int
    end: int
    doors: list[int] = field(default_factory=list)  # where its routines begin

    @property
    def data(self) -> int:
        return self.end - VAULT_DATA_SIZE

    def random_address(self, rng: random.Random) -> int:
        """In it or at its borders."""
        chance = rng.random()
        if chance < 0.3:
            return rng.choice((self.first, self.end)) + rng.randrange(-5, 6)
        if chance < 0.45:
            return self.first + rng.randrange(8)
        if chance < 0.75:
            return rng.randrange(self.data, self.end)
        return rng.randrange(self.first, self.end)

    def random_free_address(self, rng: random.Random) -> int:
        """Where no code lies, but seldom directly behind its end."""
        if rng.random() < 0.15:
            return self.end - 4 + rng.randrange(6)
        return rng.randrange(self.data, self.end)


@dataclass
class Places:
    """Where other parts of the program lie, for what is to be protected."""

    start: int = 0x4400
    nmi: int = 0x4400
    bridge: int = 0x8000  # a border that an instruction lies over
    vault: Vault | None = None
    helper: int = 0x4400  # a routine that the vault calls
    structures: list[int] = field(default_factory=list)  # where a boot may be led to
    counter: int = 0x1C00  # a word that counts how often the start ran


class Code:
    """Words that lie one behind another."""

    def __init__(self, address: int, room: int, favourite_timer: int, places: Places):
        self.address = address
        self.room = room
        self.favourite_timer = favourite_timer
        self.places = places
        self.words: list[int] = []

    @property
    def here(self) -> int:
        return self.address + 2 * len(self.words)

    @property
    def rest(self) -> int:
        """How many words still have room."""
        return self.room // 2 - len(self.words)

    def put(self, words: list[int]) -> None:
        self.words += words

    def jump(self, name: str, target: int) -> None:
        self.put(assembler.jump(name, self.here, target))

    def segment(self) -> Segment:
        return Segment(self.address, words_as_bytes(self.words))


def words_as_bytes(words: list[int]) -> bytes:
    return b"".join(word.to_bytes(2, "little") for word in words)


class Program:
    def __init__(self, rng: random.Random):
        self.codes: list[Code] = []
        self.single_words: dict[int, int] = {}
        self.other_words: dict[int, int] = {}  # of another version of a library's code
        self.low_slots = rng.sample(LOW_SLOTS, len(LOW_SLOTS))
        self.high_slots = rng.sample(HIGH_SLOTS, len(HIGH_SLOTS))
        self.information_is_free = True
        self.favourite_timer = rng.choice((0x0340, 0x0380, 0x03C0, 0x03C0))
        self.places = Places()

    def reserve_bridge(self, rng: random.Random) -> None:
        """Two slots that no code gets. The border between them is the bridge."""
        bridge = rng.choice(LOW_SLOTS[1:])
        for slot in (bridge - SLOT_SIZE, bridge):
            self.low_slots.remove(slot)
        self.places.bridge = bridge

    def reserve_vault(self, rng: random.Random) -> Vault:
        """One slot or two, of which no other code gets a part."""
        slots = self.high_slots if rng.random() < 0.12 else self.low_slots
        first = rng.choice(slots)
        if rng.random() < 0.1 and LOW_SLOTS[0] in slots:
            first = LOW_SLOTS[0]
        slots.remove(first)
        end = first + SLOT_SIZE
        if rng.random() < 0.3 and end in slots:
            slots.remove(end)
            end += SLOT_SIZE
        self.places.vault = Vault(first, end)
        return self.places.vault

    def low_code(self) -> Code:
        """Code below 10000h, where a vector can point."""
        return self.code(self.low_slots.pop(), SLOT_SIZE)

    def high_code(self) -> Code:
        return self.code(self.high_slots.pop(), SLOT_SIZE)

    def code_anywhere(self, rng: random.Random) -> Code:
        chance = rng.random()
        if chance < 0.05 and self.information_is_free:
            self.information_is_free = False
            return self.code(INFORMATION, INFORMATION_SIZE)
        return self.high_code() if chance < 0.35 else self.low_code()

    def code(self, address: int, room: int) -> Code:
        code = Code(address, room, self.favourite_timer, self.places)
        self.codes.append(code)
        return code

    def segments(self) -> list[Segment]:
        segments = [code.segment() for code in self.codes if code.words]
        for address, word in self.single_words.items():
            segments.append(Segment(address, words_as_bytes([word])))
        return segments
