"""The words of those instructions that the programs of the cases are built of."""

from dataclasses import dataclass

NOP = 0x4303
RETI = 0x1300
RESERVED = 0x1301
ENABLE_INTERRUPTS = 0xD232
DISABLE_INTERRUPTS = 0xC232

TWO_OPERANDS = {
    "MOV": 0x4000, "ADD": 0x5000, "ADDC": 0x6000, "SUBC": 0x7000, "SUB": 0x8000, "CMP": 0x9000,
    "DADD": 0xA000, "BIT": 0xB000, "BIC": 0xC000, "BIS": 0xD000, "XOR": 0xE000, "AND": 0xF000,
}
ONE_OPERAND = {"RRC": 0x1000, "SWPB": 0x1080, "RRA": 0x1100, "SXT": 0x1180, "PUSH": 0x1200,
               "CALL": 0x1280}
JUMPS = {"JNE": 0x2000, "JEQ": 0x2400, "JNC": 0x2800, "JC": 0x2C00, "JN": 0x3000, "JGE": 0x3400,
         "JL": 0x3800, "JMP": 0x3C00}

PC = 0
SP = 1
SR = 2


@dataclass(frozen=True)
class Operand:
    number: int
    mode: int
    extension: int | None = None

    def words(self) -> list[int]:
        return [] if self.extension is None else [self.extension & 0xFFFF]


def register(number: int) -> Operand:
    return Operand(number, 0)


def indexed(number: int, distance: int) -> Operand:
    return Operand(number, 1, distance)


def absolute(address: int) -> Operand:
    return Operand(SR, 1, address)


def indirect(number: int) -> Operand:
    return Operand(number, 2)


def immediate(value: int) -> Operand:
    return Operand(PC, 3, value)


def two(name: str, source: Operand, destination: Operand, as_byte: bool = False) -> list[int]:
    first = TWO_OPERANDS[name] | source.number << 8 | source.mode << 4
    first |= (destination.mode & 1) << 7 | destination.number | (0x40 if as_byte else 0)
    return [first, *source.words(), *destination.words()]


def one(name: str, operand: Operand, as_byte: bool = False) -> list[int]:
    first = ONE_OPERAND[name] | operand.mode << 4 | operand.number | (0x40 if as_byte else 0)
    return [first, *operand.words()]


def jump(name: str, from_address: int, to_address: int) -> list[int]:
    distance = (to_address - from_address - 2) // 2
    assert -512 <= distance < 512
    return [JUMPS[name] | distance & 0x3FF]


def set_register(number: int, value: int) -> list[int]:
    """MOVA of 20 bits; with PC as its register it is a jump to anywhere."""
    return [0x0080 | value >> 16 << 8 | number, value & 0xFFFF]


def store(address: int, value: int, as_byte: bool = False) -> list[int]:
    return two("MOV", immediate(value), absolute(address), as_byte)


def copy(source: int, destination: int, as_byte: bool = False) -> list[int]:
    return two("MOV", absolute(source), absolute(destination), as_byte)
