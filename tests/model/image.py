"""The image: a 32-bit ELF executable, read as MACHINE.md tells, and written (The image)."""

import struct
from dataclasses import dataclass

from memory import erased_store, is_fram

HEADER = struct.Struct("<4sBBBB8sHHIIIIIHHHHHH")
PROGRAM_HEADER = struct.Struct("<IIIIIIII")

MAGIC = b"\x7fELF"
CLASS_OF_32_BITS = 1
LEAST_BYTE_FIRST = 1
EXECUTABLE = 2
MSP430 = 105
FAR_BEHIND_THE_END = 0xFFFFFFF0  # where a header without bytes may point
LOADED = 1


class Refused(Exception):
    """The file is no image; the text tells the row of the table."""


@dataclass
class Segment:
    address: int
    data: bytes
    kind: int = LOADED


def image_bytes(segments: list[Segment], entry: int = 0) -> bytes:
    """The file of an image: the header, the table of program headers, and the bytes in order."""
    offset = HEADER.size + PROGRAM_HEADER.size * len(segments)
    table = b""
    for segment in segments:
        size = len(segment.data)
        own_offset = offset if size else FAR_BEHIND_THE_END
        place = (own_offset, segment.address, segment.address, size, size)
        table += PROGRAM_HEADER.pack(segment.kind, *place, 5, 2)
        offset += size
    header = HEADER.pack(
        MAGIC, CLASS_OF_32_BITS, LEAST_BYTE_FIRST, 1, 0, bytes(8), EXECUTABLE, MSP430, 1,
        entry, HEADER.size, 0, 0, HEADER.size, PROGRAM_HEADER.size, len(segments), 0, 0, 0,
    )
    return header + table + b"".join(segment.data for segment in segments)


def store_of_image(file: bytes) -> bytearray:
    """FRAM as the file gives it, or Refused."""
    if len(file) < HEADER.size:
        raise Refused("Short")
    (magic, file_class, byte_order, _, _, _, kind, machine, _, _, table_offset, _, _, _,
     header_size, headers, _, _, _) = HEADER.unpack_from(file)
    if (magic, file_class, byte_order) != (MAGIC, CLASS_OF_32_BITS, LEAST_BYTE_FIRST):
        raise Refused("NotElf")
    if machine != MSP430:
        raise Refused("NotMsp430")
    if kind != EXECUTABLE:
        raise Refused("NotExec")
    store = erased_store()
    if headers == 0:
        return store
    if header_size != PROGRAM_HEADER.size:
        raise Refused("BadTable")
    if table_offset + PROGRAM_HEADER.size * headers > len(file):
        raise Refused("Short")
    for index in range(headers):
        load(store, file, table_offset + PROGRAM_HEADER.size * index)
    return store


def load(store: bytearray, file: bytes, header_offset: int) -> None:
    kind, offset, _, address, size, _, _, _ = PROGRAM_HEADER.unpack_from(file, header_offset)
    if kind != LOADED or size == 0:
        return
    if offset + size > len(file):
        raise Refused("BadSegment")
    for index in range(size):
        if is_fram(address + index):
            store[address + index] = file[offset + index]
