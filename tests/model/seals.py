"""Seals as sets of addresses, by rows of 16 bytes.

Every border, and the first address of the signatures and vectors, begins a row.
"""

from collections.abc import Callable

from memory import STORED_BYTES

BYTES_OF_A_ROW = 16

Seal = frozenset[int]  # the numbers of the rows
NO_SEAL: Seal = frozenset()


def seal_between(first: int, second: int, is_sealed: Callable[[int], bool]) -> Seal:
    """The rows between two addresses that are sealed."""
    starts = range(first, min(second, STORED_BYTES), BYTES_OF_A_ROW)
    return frozenset(start // BYTES_OF_A_ROW for start in starts if is_sealed(start))


def intervals(seal: Seal) -> list[range]:
    """Its addresses, ascending, in as few intervals as can be."""
    found: list[range] = []
    for row in sorted(seal):
        start = row * BYTES_OF_A_ROW
        first = start
        if found and found[-1].stop == start:
            first = found.pop().start
        found.append(range(first, start + BYTES_OF_A_ROW))
    return found
