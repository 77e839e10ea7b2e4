"""The sixteen registers of the processor, and the flags in one of them."""

PC = 0
SP = 1
SR = 2
ZERO = 3

ADDRESS_MASK = 0xFFFFF

CARRY = 1 << 0
ZERO_FLAG = 1 << 1
NEGATIVE = 1 << 2
OVERFLOW = 1 << 8
FLAGS = CARRY | ZERO_FLAG | NEGATIVE | OVERFLOW

# What each register keeps of a value: PC stays even, SR has bits 8:0, R3 stays 0.
KEPT_BITS = (0xFFFFE, ADDRESS_MASK, 0x001FF, 0x00000) + (ADDRESS_MASK,) * 12


class Registers:
    """R0 to R15; a value that is set loses the bits that its register doesn't keep."""

    __slots__ = ("values",)

    def __init__(self, values=()):
        self.values = [0] * 16
        for number, value in enumerate(values):
            self.set(number, value)

    def get(self, number):
        return self.values[number]

    def set(self, number, value):
        # A negative number is taken modulo 2^20 by the mask, as a sum above the 20 bits is.
        self.values[number] = value & KEPT_BITS[number]

    def __eq__(self, other):
        return isinstance(other, Registers) and self.values == other.values

    def __repr__(self):
        named = (f"R{number}={value:05X}" for number, value in enumerate(self.values))
        return f"Registers({' '.join(named)})"
