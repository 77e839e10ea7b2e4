"""The rights that an access may need."""

from enum import IntEnum


class Right(IntEnum):
    """What an access needs, by the bit of MPUSAM that gives it."""

    READ = 1
    WRITE = 2
    FETCH = 4
