"""The cycles of an instruction: docs/INSTRUCTIONS.md, Cycles."""

from instruction import ADDRESSED_BY_A_WORD, INDIRECT_MODES, Kind, Mode
from registers import PC

ONLY_COMPARED = ("CMP", "BIT")


def cycles_of(instruction):
    """The cycles without those of the repeats, which may depend on a register."""
    cycles = CYCLES_OF_KIND[instruction.kind](instruction)
    if instruction.extended:
        cycles += 1
        if instruction.width == 20:
            cycles += operands_read_or_written(instruction)
    return cycles


def operands_read_or_written(instruction):
    """How often an operand in memory is read or written."""
    source, destination = instruction.source, instruction.destination
    number = 0
    if source is not None and source.in_memory:
        number += 1
    if destination.in_memory:
        if instruction.operation != "MOV":
            number += 1
        # What PUSH writes on the stack is no operand.
        if instruction.operation not in ONLY_COMPARED + ("PUSH",):
            number += 1
    return number


def cycles_of_two_operands(instruction):
    if instruction.operation in ("ADDA", "SUBA", "CMPA"):
        return cycles_on_an_address(instruction)
    source, destination = instruction.source, instruction.destination
    return source_cycles(source) + destination_cycles(instruction.operation, destination)


def source_cycles(source):
    if source.mode in (Mode.REGISTER, Mode.CONSTANT):
        return 0
    return 2 if source.mode in ADDRESSED_BY_A_WORD else 1


def destination_cycles(operation, destination):
    if destination.mode is Mode.REGISTER:
        return 3 if destination.register == PC and operation not in ONLY_COMPARED else 1
    return 3 if operation == "MOV" or operation in ONLY_COMPARED else 4


def cycles_on_an_address(instruction):
    """MOVA, ADDA, SUBA and CMPA."""
    source, destination = instruction.source, instruction.destination
    if destination.in_memory:
        return 4
    if source.mode is Mode.REGISTER:
        cycles = 1
    elif source.mode is Mode.IMMEDIATE:
        cycles = 2
    else:
        cycles = 3 if source.mode in INDIRECT_MODES else 4
    into_pc = destination.register == PC and instruction.operation != "CMPA"
    return cycles + 2 if into_pc else cycles


def cycles_of_one_operand(instruction):
    mode = instruction.destination.mode
    if mode is Mode.REGISTER:
        return 1
    return 3 if mode in INDIRECT_MODES else 4


def cycles_of_push(instruction):
    return 4 if instruction.destination.mode in ADDRESSED_BY_A_WORD else 3


def cycles_of_call(instruction):
    return 5 if instruction.destination.mode in ADDRESSED_BY_A_WORD else 4


def cycles_of_calla(instruction):
    return 5 if instruction.destination.mode in (Mode.REGISTER, Mode.IMMEDIATE) else 6


def cycles_of_several_registers(instruction):
    words_of_each = 2 if instruction.width == 20 else 1
    return 2 + words_of_each * instruction.count


CYCLES_OF_KIND = {
    Kind.TWO_OPERANDS: cycles_of_two_operands,
    Kind.ONE_OPERAND: cycles_of_one_operand,
    Kind.PUSH: cycles_of_push,
    Kind.CALL: cycles_of_call,
    Kind.RETI: lambda instruction: 5,
    Kind.JUMP: lambda instruction: 2,
    Kind.MOVA: cycles_on_an_address,
    Kind.SHIFT: lambda instruction: instruction.count,
    Kind.CALLA: cycles_of_calla,
    Kind.PUSHM: cycles_of_several_registers,
    Kind.POPM: cycles_of_several_registers,
    Kind.RESERVED: lambda instruction: 0,
}
