"""The memory map: which region an address lies in, and the bytes behind it (MACHINE.md, Memory)."""

from enum import Enum, auto

ADDRESSES = 1 << 20
ADDRESS_MASK = ADDRESSES - 1
PAGE_SIZE = 0x100  # every border of the map is a multiple of it
STORED_BYTES = 0x14000  # FRAM ends here, and nothing is stored above

VACANT_WORD = 0x3FFF
DESCRIPTOR_WORD = 0xFFFF
BYTE_OF_NO_STORE = 0xFF  # a byte reads so from vacant addresses and from the descriptor
ERASED_BYTE = 0xFF


class Region(Enum):
    PERIPHERALS = auto()
    VACANT = auto()
    INFORMATION = auto()
    DESCRIPTOR = auto()
    SRAM = auto()
    MAIN = auto()


FIRST_ADDRESSES = (
    (0x00000, Region.PERIPHERALS),
    (0x01000, Region.VACANT),
    (0x01800, Region.INFORMATION),
    (0x01A00, Region.DESCRIPTOR),
    (0x01B00, Region.VACANT),
    (0x01C00, Region.SRAM),
    (0x02400, Region.VACANT),
    (0x04400, Region.MAIN),
    (0x14000, Region.VACANT),
)

FRAM_REGIONS = (Region.INFORMATION, Region.MAIN)
STORED_REGIONS = (Region.INFORMATION, Region.SRAM, Region.MAIN)


def regions_of_pages() -> list[Region]:
    pages = []
    lasts = [first for first, _ in FIRST_ADDRESSES[1:]] + [ADDRESSES]
    for (first, region), end in zip(FIRST_ADDRESSES, lasts):
        pages.extend([region] * ((end - first) // PAGE_SIZE))
    return pages


REGION_OF_PAGE = regions_of_pages()


def region_of(address: int) -> Region:
    return REGION_OF_PAGE[address // PAGE_SIZE]


def is_fram(address: int) -> bool:
    """Whether an image's byte for this address is kept. Any whole number may be asked for."""
    return 0 <= address < ADDRESSES and region_of(address) in FRAM_REGIONS


def erased_store() -> bytearray:
    return bytearray([ERASED_BYTE]) * STORED_BYTES


class Memory:
    """FRAM and SRAM. The peripherals are no part of it: the bus asks their units."""

    def __init__(self, store: bytearray, fill: int):
        self.store = bytearray(store)
        self.fill = fill
        self.lose_sram()

    def lose_sram(self) -> None:
        for page in range(0, STORED_BYTES, PAGE_SIZE):
            if region_of(page) is Region.SRAM:
                self.store[page:page + PAGE_SIZE] = bytes([self.fill]) * PAGE_SIZE

    def read_byte(self, address: int) -> int:
        if region_of(address) in STORED_REGIONS:
            return self.store[address]
        return BYTE_OF_NO_STORE

    def read_word(self, address: int) -> int:
        region = region_of(address)
        if region in STORED_REGIONS:
            return self.store[address] | self.store[address + 1] << 8
        if region is Region.DESCRIPTOR:
            return DESCRIPTOR_WORD
        return VACANT_WORD

    def write_byte(self, address: int, value: int) -> None:
        if region_of(address) in STORED_REGIONS:
            self.store[address] = value & 0xFF

    def write_word(self, address: int, value: int) -> None:
        self.write_byte(address, value)
        self.write_byte(address + 1, value >> 8)
