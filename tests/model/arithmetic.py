"""What the operations compute: docs/INSTRUCTIONS.md, Results and flags.

An operation returns its result and the flags it sets, as they lie in SR, or None instead of
the flags where it sets none. Its operands are below 2^width already.
"""

from registers import CARRY, NEGATIVE, OVERFLOW, ZERO_FLAG


def flags_of(result, width, carry, overflow=False):
    flags = CARRY if carry else 0
    if result == 0:
        flags |= ZERO_FLAG
    if result >> width - 1:
        flags |= NEGATIVE
    if overflow:
        flags |= OVERFLOW
    return flags


def signed(value, width):
    return value - (1 << width) if value >> width - 1 else value


def complement(value, width):
    return value ^ (1 << width) - 1


def sum_with_carry(source, destination, carry, width):
    total = destination + source + carry
    result = total & (1 << width) - 1
    exact = signed(destination, width) + signed(source, width) + carry
    half = 1 << width - 1
    overflow = not -half <= exact < half
    return result, flags_of(result, width, total >> width, overflow)


def mov(source, destination, carry, width):
    return source, None


def bic(source, destination, carry, width):
    return destination & complement(source, width), None


def bis(source, destination, carry, width):
    return destination | source, None


def add(source, destination, carry, width):
    return sum_with_carry(source, destination, 0, width)


def addc(source, destination, carry, width):
    return sum_with_carry(source, destination, carry, width)


def sub(source, destination, carry, width):
    return sum_with_carry(complement(source, width), destination, 1, width)


def subc(source, destination, carry, width):
    return sum_with_carry(complement(source, width), destination, carry, width)


def dadd(source, destination, carry, width):
    result = 0
    for place in range(0, width, 4):
        digit = (destination >> place & 15) + (source >> place & 15) + carry
        carry = 0 if digit < 10 else 1
        if carry:
            digit = digit + 6 & 15
        result |= digit << place
    return result, flags_of(result, width, carry)


def and_(source, destination, carry, width):
    result = destination & source
    return result, flags_of(result, width, result != 0)


def xor(source, destination, carry, width):
    result = destination ^ source
    both_negative = (destination & source) >> width - 1
    return result, flags_of(result, width, result != 0, both_negative)


TWO_OPERANDS = {
    "MOV": mov, "BIC": bic, "BIS": bis,
    "ADD": add, "ADDA": add, "ADDC": addc,
    "SUB": sub, "SUBA": sub, "CMP": sub, "CMPA": sub, "SUBC": subc,
    "DADD": dadd, "AND": and_, "BIT": and_, "XOR": xor,
}


def rrc(operand, carry, width):
    result = operand >> 1 | carry << width - 1
    return result, flags_of(result, width, operand & 1)


def rra(operand, carry, width):
    result = operand >> 1 | operand & 1 << width - 1
    return result, flags_of(result, width, operand & 1)


def rla(operand, carry, width):
    result = operand << 1 & (1 << width) - 1
    return result, flags_of(result, width, operand >> width - 1)


def rru(operand, carry, width):
    result = operand >> 1
    return result, flags_of(result, width, operand & 1)


def sxt(operand, carry, width):
    result = signed(operand & 0xFF, 8) & (1 << width) - 1
    return result, flags_of(result, width, result != 0)


def swpb(operand, carry, width):
    return (operand & 0xFF) << 8 | operand >> 8, None


ONE_OPERAND = {"RRC": rrc, "RRA": rra, "SXT": sxt, "SWPB": swpb}
ONE_PLACE = {"RRCM": rrc, "RRAM": rra, "RLAM": rla, "RRUM": rru}


def shift(operation, operand, carry, width, count):
    """A shift by as many places as the count, each with the carry of the place before."""
    one_place = ONE_PLACE[operation]
    result, flags = operand, 0
    for _ in range(count):
        result, flags = one_place(result, carry, width)
        carry = flags & CARRY
    return result, flags
