"""The latch of a unit that has a password in its control register (MACHINE.md, Passwords)."""

from collections.abc import Callable

from registers_of_units import HIGH_HALF, WORD
from system import PASSWORD, Cause


class Latch:
    def __init__(self, request: Callable[[Cause], None], cause: Cause):
        self.request = request
        self.cause = cause
        self.is_open = False

    def close(self) -> None:
        self.is_open = False

    def lower_byte_takes_effect(self, value: int, mask: int) -> bool:
        """Judges a write of the control register, and opens or closes by it."""
        right = value & HIGH_HALF == PASSWORD
        if mask == WORD:
            if right:
                self.is_open = True
            else:
                self.request(self.cause)
            return right
        if mask == HIGH_HALF:
            self.is_open = right
            return False
        return self.is_open
