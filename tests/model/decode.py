"""Decodes instructions: docs/INSTRUCTIONS.md, First words to Reserved words."""

from functools import lru_cache

from instruction import Instruction, Kind, Mode, Operand, Repeat

TWO_OPERAND_NAMES = {
    0x4: "MOV", 0x5: "ADD", 0x6: "ADDC", 0x7: "SUBC", 0x8: "SUB", 0x9: "CMP",
    0xA: "DADD", 0xB: "BIT", 0xC: "BIC", 0xD: "BIS", 0xE: "XOR", 0xF: "AND",
}
ONE_OPERAND_NAMES = ("RRC", "SWPB", "RRA", "SXT", "PUSH", "CALL")
WRITTEN_WHERE_READ = ("RRC", "SWPB", "RRA", "SXT")
JUMP_NAMES = ("JNE", "JEQ", "JNC", "JC", "JN", "JGE", "JL", "JMP")
SHIFT_NAMES = ("RRCM", "RRAM", "RLAM", "RRUM")
ADDRESS_NAMES = ("MOVA", "CMPA", "ADDA", "SUBA")

ALL_ONES = 0xFFFFF
# The constants of a source, by register and As.
CONSTANTS = {
    (3, 0): 0, (3, 1): 1, (3, 2): 2, (3, 3): ALL_ONES,
    (2, 2): 4, (2, 3): 8,
}


def is_extension_word(word):
    return 0x1800 <= word <= 0x1FFF


def reserved(words=1):
    return Instruction(Kind.RESERVED, "reserved", words)


@lru_cache(maxsize=1 << 17)
def decode(first, second=0):
    """What the first word means. The second decides something behind an extension word alone."""
    if is_extension_word(first):
        return decode_extended(first, second)
    if first >= 0x4000:
        return decode_two_operands(first)
    if first >= 0x2000:
        return decode_jump(first)
    if first >= 0x1400:
        return decode_several_registers(first)
    if first >= 0x1300:
        return decode_calla_and_reti(first)
    if first >= 0x1000:
        return decode_one_operand(first)
    return decode_address_instruction(first)


def source_operand(as_bits, register, high_bits, word_number, far):
    """The operand that As and a register give; far says that an extension word stands before."""
    if (register, as_bits) in CONSTANTS:
        return Operand(Mode.CONSTANT, register, constant=CONSTANTS[register, as_bits])
    if as_bits == 0:
        return Operand(Mode.REGISTER, register)
    if as_bits == 1:
        return indexed_operand(register, high_bits, word_number, far)
    if as_bits == 2:
        return Operand(Mode.INDIRECT, register)
    if register == 0:
        return Operand(Mode.IMMEDIATE, high_bits=high_bits, word_number=word_number)
    return Operand(Mode.INDIRECT_INCREASED, register)


def destination_operand(ad_bit, register, high_bits, word_number, far):
    if ad_bit == 0:
        return Operand(Mode.REGISTER, register)
    return indexed_operand(register, high_bits, word_number, far)


def indexed_operand(register, high_bits, word_number, far):
    if register == 2:
        mode = Mode.ABSOLUTE
    else:
        mode = Mode.FAR if far else Mode.NEAR
    return Operand(mode, register, high_bits=high_bits, word_number=word_number)


def length(first_operand_word, *operands):
    """The words of an instruction whose operand words begin with that number."""
    return first_operand_word + sum(operand.has_word for operand in operands)


def decode_two_operands(word):
    source = source_operand(word >> 4 & 3, word >> 8 & 15, 0, 1, far=False)
    destination = destination_operand(word >> 7 & 1, word & 15, 0, 1 + source.has_word, far=False)
    return Instruction(
        Kind.TWO_OPERANDS,
        TWO_OPERAND_NAMES[word >> 12],
        words=length(1, source, destination),
        width=8 if word & 0x40 else 16,
        source=source,
        destination=destination,
    )


def one_operand_is_reserved(word):
    """The rows `bytes` and `constants_written` of the reserved words."""
    operation = ONE_OPERAND_NAMES[word >> 7 & 7]
    as_bits, register = word >> 4 & 3, word & 15
    if operation in ("SWPB", "SXT", "CALL") and word & 0x40:
        return True
    is_immediate = register == 0 and as_bits == 3
    return operation in WRITTEN_WHERE_READ and (
        is_immediate or register == 3 or (register == 2 and as_bits >= 2)
    )


def width_of_one_operand(operation, width, operand):
    """SXT widens a register to all its 20 bits, whatever the words say."""
    if operation == "SXT" and operand.mode is Mode.REGISTER:
        return 20
    return width


def kind_of_one_operand(operation):
    return {"PUSH": Kind.PUSH, "CALL": Kind.CALL}.get(operation, Kind.ONE_OPERAND)


def decode_one_operand(word):
    if one_operand_is_reserved(word):
        return reserved()
    operation = ONE_OPERAND_NAMES[word >> 7 & 7]
    operand = source_operand(word >> 4 & 3, word & 15, 0, 1, far=False)
    return Instruction(
        kind_of_one_operand(operation),
        operation,
        words=length(1, operand),
        width=width_of_one_operand(operation, 8 if word & 0x40 else 16, operand),
        destination=operand,
    )


def decode_jump(word):
    distance = word & 0x3FF
    if distance & 0x200:
        distance -= 0x400
    return Instruction(Kind.JUMP, JUMP_NAMES[word >> 10 & 7], words=1, distance=distance)


def decode_several_registers(word):
    """PUSHM and POPM."""
    pops = bool(word & 0x200)
    return Instruction(
        Kind.POPM if pops else Kind.PUSHM,
        "POPM" if pops else "PUSHM",
        words=1,
        width=16 if word & 0x100 else 20,
        count=(word >> 4 & 15) + 1,
        register=word & 15,
    )


def decode_calla_and_reti(word):
    if word == 0x1300:
        return Instruction(Kind.RETI, "RETI", words=1)
    low = word & 15
    operands = {
        0x134: Operand(Mode.REGISTER, low),
        0x135: Operand(Mode.FAR_SIGNED, low, word_number=1),
        0x136: Operand(Mode.INDIRECT, low),
        0x137: Operand(Mode.INDIRECT_INCREASED, low),
        0x138: Operand(Mode.ABSOLUTE, high_bits=low, word_number=1),
        0x139: Operand(Mode.FAR, register=0, high_bits=low, word_number=1),
        0x13B: Operand(Mode.IMMEDIATE, high_bits=low, word_number=1),
    }
    operand = operands.get(word >> 4)
    if operand is None:
        return reserved()
    return Instruction(
        Kind.CALLA, "CALLA", words=length(1, operand), width=20, destination=operand
    )


def decode_address_instruction(word):
    selector = word >> 4 & 15
    if selector in (4, 5):
        return decode_shift(word)
    source_field, destination_field = word >> 8 & 15, word & 15
    source = address_source(selector, source_field)
    if selector == 6:
        destination = Operand(Mode.ABSOLUTE, high_bits=destination_field, word_number=1)
    elif selector == 7:
        destination = Operand(Mode.FAR_SIGNED, destination_field, word_number=1)
    else:
        destination = Operand(Mode.REGISTER, destination_field)
    operation = ADDRESS_NAMES[selector & 3] if selector >= 8 else "MOVA"
    return Instruction(
        Kind.MOVA if operation == "MOVA" else Kind.TWO_OPERANDS,
        operation,
        words=length(1, source, destination),
        width=20,
        source=source,
        destination=destination,
    )


def address_source(selector, field):
    """The source of MOVA, CMPA, ADDA and SUBA: its register gives no constant, whichever it is."""
    if selector == 0:
        return Operand(Mode.INDIRECT, field)
    if selector == 1:
        return Operand(Mode.INDIRECT_INCREASED, field)
    if selector == 2:
        return Operand(Mode.ABSOLUTE, high_bits=field, word_number=1)
    if selector == 3:
        return Operand(Mode.FAR_SIGNED, field, word_number=1)
    if 8 <= selector <= 11:
        return Operand(Mode.IMMEDIATE, high_bits=field, word_number=1)
    return Operand(Mode.REGISTER, field)


def decode_shift(word):
    return Instruction(
        Kind.SHIFT,
        SHIFT_NAMES[word >> 8 & 3],
        words=1,
        width=16 if word & 0x10 else 20,
        destination=Operand(Mode.REGISTER, word & 15),
        count=(word >> 10 & 3) + 1,
    )


def extended_width(extension, word):
    """The width that A/L and B/W give together, or None where they are reserved."""
    widths = {(0, 0): None, (0, 1): 20, (1, 0): 16, (1, 1): 8}
    return widths[extension >> 6 & 1, word >> 6 & 1]


def decode_extended(extension, word):
    width = extended_width(extension, word)
    if width is None:
        return reserved(words=2)
    if word >= 0x4000:
        return decode_extended_two_operands(extension, word, width)
    if 0x1000 <= word <= 0x12FF:
        return decode_extended_one_operand(extension, word, width)
    return reserved(words=2)


def decode_repeat(extension):
    low = extension & 15
    return Repeat(
        count=low + 1,
        register=low if extension & 0x80 else None,
        zero_carry=bool(extension & 0x100),
    )


def decode_extended_two_operands(extension, word, width):
    as_bits, ad_bit = word >> 4 & 3, word >> 7 & 1
    source = source_operand(as_bits, word >> 8 & 15, extension >> 7 & 15, 2, far=True)
    destination = destination_operand(
        ad_bit, word & 15, extension & 15, 2 + source.has_word, far=True
    )
    return Instruction(
        Kind.TWO_OPERANDS,
        TWO_OPERAND_NAMES[word >> 12],
        words=length(2, source, destination),
        width=width,
        source=source,
        destination=destination,
        extended=True,
        repeat=decode_repeat(extension) if as_bits == 0 and ad_bit == 0 else None,
    )


def decode_extended_one_operand(extension, word, width):
    operation = ONE_OPERAND_NAMES[word >> 7 & 7]
    if one_operand_is_reserved(word) or operation == "CALL":
        return reserved(words=2)
    if operation in ("SWPB", "SXT") and width != 16:
        return reserved(words=2)
    as_bits = word >> 4 & 3
    operand = source_operand(as_bits, word & 15, extension & 15, 2, far=True)
    # PUSH is done once, and with the carry as it is, in the register form too.
    repeats = as_bits == 0 and operation != "PUSH"
    return Instruction(
        kind_of_one_operand(operation),
        operation,
        words=length(2, operand),
        width=width_of_one_operand(operation, width, operand),
        destination=operand,
        extended=True,
        repeat=decode_repeat(extension) if repeats else None,
    )
