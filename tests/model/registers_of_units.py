"""What the units of the peripherals share: the halves of a word register that an access means.

A byte at an even address is the low half of the word there, and a byte at an odd address the high
half (MACHINE.md, Bytes and words). A unit gets the even address, the value at its place in the
word, and one of these masks.
"""

WORD = 0xFFFF
LOW_HALF = 0x00FF
HIGH_HALF = 0xFF00


def merged(old: int, value: int, mask: int) -> int:
    """The word after a write, which leaves the half that the mask doesn't hold."""
    return (old & ~mask | value & mask) & WORD
