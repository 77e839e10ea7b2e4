"""Executes one instruction over a bus: docs/INSTRUCTIONS.md, What an instruction does."""

from dataclasses import dataclass
from functools import lru_cache

import arithmetic
from cycles import cycles_of
from decode import decode, is_extension_word
from instruction import INDIRECT_MODES, Kind, Mode
from registers import ADDRESS_MASK, CARRY, FLAGS, NEGATIVE, OVERFLOW, PC, SP, SR, ZERO_FLAG

NOT_WRITTEN = frozenset({"CMP", "BIT", "CMPA"})
MASKS = {8: 0xFF, 16: 0xFFFF, 20: 0xFFFFF}
BYTES = {8: 1, 16: 2, 20: 4}


@dataclass(slots=True)
class Done:
    """An instruction that was executed."""

    cycles: int
    form: str


@dataclass(frozen=True, slots=True)
class Reserved:
    """A reserved word: nothing was done but its fetches."""

    form: str = "reserved"


RESERVED = Reserved()


def step(registers, bus):
    """Executes the instruction at PC."""
    start = registers.get(PC)
    words = [bus.fetch(start, start)]
    if is_extension_word(words[0]):
        words.append(bus.fetch(start, start + 2 & ADDRESS_MASK))
        instruction, execute, cycles = plan(words[0], words[1])
    else:
        instruction, execute, cycles = plan(words[0], 0)
    if execute is None:
        return RESERVED
    for number in range(len(words), instruction.words):
        words.append(bus.fetch(start, start + 2 * number & ADDRESS_MASK))
    registers.set(PC, start + 2 * instruction.words)
    execution = Execution(registers, bus, instruction, start, words)
    repeats = execute(execution) or 0
    return Done(cycles + repeats, instruction.form)


@lru_cache(maxsize=1 << 17)
def plan(first, second):
    """The instruction, how to execute it (None where it is reserved), and its cycles."""
    instruction = decode(first, second)
    return instruction, EXECUTE_KIND.get(instruction.kind), cycles_of(instruction)


def signed_word(word):
    return word - 0x10000 if word & 0x8000 else word


class Execution:
    """One instruction while it is executed. Its words are fetched, and PC is the next address.

    The methods that execute an instruction return the number of repeats after the first time,
    or nothing.
    """

    __slots__ = ("registers", "bus", "instruction", "start", "words")

    def __init__(self, registers, bus, instruction, start, words):
        self.registers = registers
        self.bus = bus
        self.instruction = instruction
        self.start = start
        self.words = words

    # Operands

    def register_as_source(self, number):
        """PC is the address behind the instruction word here, with other words behind that or not.

        The one register of an instruction may be read so too: it has no operand word, so the
        next address is the same.
        """
        if number == PC:
            return self.start + (4 if self.instruction.extended else 2) & ADDRESS_MASK
        return self.registers.get(number)

    def base_of_index(self, operand):
        if operand.register == PC:
            return self.start + 2 * operand.word_number & ADDRESS_MASK
        return self.registers.get(operand.register)

    def long_word(self, operand):
        """The 20 bits that the word of an operand and bits 19:16 elsewhere make."""
        return operand.high_bits << 16 | self.words[operand.word_number]

    def address_of(self, operand):
        mode = operand.mode
        if mode in INDIRECT_MODES:
            return self.register_as_source(operand.register)
        if mode is Mode.ABSOLUTE:
            return self.long_word(operand)
        base = self.base_of_index(operand)
        if mode is Mode.FAR:
            return base + self.long_word(operand) & ADDRESS_MASK
        index = self.words[operand.word_number]
        if mode is Mode.NEAR and base < 0x10000:
            return base + index & 0xFFFF
        return base + signed_word(index) & ADDRESS_MASK

    def read_source(self, operand, width):
        """Reads a source, then increases its register where it is one with @Rn+."""
        mode = operand.mode
        if mode is Mode.REGISTER:
            return self.register_as_source(operand.register) & MASKS[width]
        if mode is Mode.CONSTANT:
            return operand.constant & MASKS[width]
        if mode is Mode.IMMEDIATE:
            return self.long_word(operand) & MASKS[width]
        value = self.load(self.address_of(operand), width)
        self.increase(operand, width)
        return value

    def increase(self, operand, width):
        if operand.mode is not Mode.INDIRECT_INCREASED:
            return
        number = operand.register
        step_size = BYTES[width]
        if width == 8 and number in (PC, SP):
            step_size = 2
        self.registers.set(number, self.registers.get(number) + step_size)

    # Memory and the stack

    def load(self, address, width):
        if width == 8:
            return self.bus.read(address, "b")
        low = self.bus.read(address, "w")
        if width == 16:
            return low
        high = self.bus.read(address + 2 & ADDRESS_MASK, "w")
        return (high & 15) << 16 | low

    def store(self, address, width, value):
        if width == 8:
            self.bus.write(address, "b", value)
            return
        self.bus.write(address, "w", value & 0xFFFF)
        if width == 20:
            self.bus.write(address + 2 & ADDRESS_MASK, "w", value >> 16)

    def push(self, value, width):
        """Lowers SP and writes there. Of 20 bits the higher word is written first."""
        self.registers.set(SP, self.registers.get(SP) - (4 if width == 20 else 2))
        address = self.registers.get(SP)
        if width == 8:
            self.bus.write(address, "b", value)
            return
        if width == 20:
            self.bus.write(address + 2 & ADDRESS_MASK, "w", value >> 16)
        self.bus.write(address, "w", value & 0xFFFF)

    # Flags

    def carry(self):
        return self.registers.get(SR) & CARRY

    def set_flags(self, flags):
        if flags is not None:
            self.registers.set(SR, self.registers.get(SR) & ~FLAGS | flags)

    def set_result(self, number, result, flags):
        """Writes a result into a register. A result in SR stands as it is."""
        self.registers.set(number, result)
        if number != SR:
            self.set_flags(flags)

    # The register form

    def times(self):
        """How often the operation is done. The count is read once, behind the fetches."""
        repeat = self.instruction.repeat
        if repeat is None:
            return 1
        if repeat.register is None:
            return repeat.count
        return (self.registers.get(repeat.register) & 15) + 1

    def carry_in(self):
        repeat = self.instruction.repeat
        if repeat is not None and repeat.zero_carry:
            return 0
        return self.carry()

    # The kinds of instructions

    def two_operands(self):
        if self.instruction.destination.mode is not Mode.REGISTER:
            return self.two_operands_in_memory()
        times = self.times()
        for _ in range(times):
            self.two_operands_on_register()
        return times - 1

    def two_operands_on_register(self):
        instruction = self.instruction
        width, operation = instruction.width, instruction.operation
        number = instruction.destination.register
        source = self.read_source(instruction.source, width)
        value = self.registers.get(number) & MASKS[width]
        compute = arithmetic.TWO_OPERANDS[operation]
        result, flags = compute(source, value, self.carry_in(), width)
        if operation in NOT_WRITTEN:
            self.set_flags(flags)
        else:
            self.set_result(number, result, flags)

    def two_operands_in_memory(self):
        instruction = self.instruction
        width, operation = instruction.width, instruction.operation
        source = self.read_source(instruction.source, width)
        address = self.address_of(instruction.destination)
        value = 0 if operation == "MOV" else self.load(address, width)
        compute = arithmetic.TWO_OPERANDS[operation]
        result, flags = compute(source, value, self.carry(), width)
        if operation not in NOT_WRITTEN:
            self.store(address, width, result)
        self.set_flags(flags)

    def one_operand(self):
        instruction = self.instruction
        operand, width = instruction.destination, instruction.width
        compute = arithmetic.ONE_OPERAND[instruction.operation]
        if operand.mode is not Mode.REGISTER:
            address = self.address_of(operand)
            result, flags = compute(self.load(address, width), self.carry(), width)
            self.increase(operand, width)
            self.store(address, width, result)
            self.set_flags(flags)
            return 0
        times = self.times()
        for _ in range(times):
            value = self.registers.get(operand.register) & MASKS[width]
            result, flags = compute(value, self.carry_in(), width)
            self.set_result(operand.register, result, flags)
        return times - 1

    def push_operand(self):
        width = self.instruction.width
        self.push(self.read_source(self.instruction.destination, width), width)

    def call(self):
        target = self.read_source(self.instruction.destination, 16)
        self.push(self.registers.get(PC) & 0xFFFF, 16)
        self.registers.set(PC, target)

    def return_from_interrupt(self):
        stack = self.registers.get(SP)
        first = self.bus.read(stack, "w")
        second = self.bus.read(stack + 2 & ADDRESS_MASK, "w")
        self.registers.set(SR, first)
        self.registers.set(PC, (first >> 12) << 16 | second)
        self.registers.set(SP, stack + 4)

    def jump(self):
        if JUMP_IS_TAKEN[self.instruction.operation](self.registers.get(SR)):
            target = self.registers.get(PC) + 2 * self.instruction.distance
            self.registers.set(PC, target)

    def move_address(self):
        source, destination = self.instruction.source, self.instruction.destination
        value = self.read_source(source, 20)
        if destination.mode is Mode.REGISTER:
            self.registers.set(destination.register, value)
        else:
            self.store(self.address_of(destination), 20, value)

    def shift(self):
        instruction = self.instruction
        number, width = instruction.destination.register, instruction.width
        operand = self.registers.get(number) & MASKS[width]
        result, flags = arithmetic.shift(
            instruction.operation, operand, self.carry(), width, instruction.count
        )
        self.set_result(number, result, flags)

    def call_address(self):
        target = self.read_source(self.instruction.destination, 20)
        # PC is read behind the operand: CALLA @PC+ pushes the address that it increased.
        self.push(self.registers.get(PC), 20)
        self.registers.set(PC, target)

    def push_registers(self):
        instruction = self.instruction
        values = list(self.registers.values)
        for offset in range(instruction.count):
            number = (instruction.register - offset) % 16
            self.push(values[number] & MASKS[instruction.width], instruction.width)

    def pop_registers(self):
        instruction = self.instruction
        address = self.registers.get(SP)
        for offset in range(instruction.count):
            number = (instruction.register + offset) % 16
            value = self.load(address, instruction.width)
            self.registers.set(number, value)
            address = address + BYTES[instruction.width] & ADDRESS_MASK
        self.registers.set(SP, address)


def is_less(status):
    """Whether N differs from V."""
    return bool(status & NEGATIVE) != bool(status & OVERFLOW)


JUMP_IS_TAKEN = {
    "JNE": lambda status: not status & ZERO_FLAG,
    "JEQ": lambda status: status & ZERO_FLAG,
    "JNC": lambda status: not status & CARRY,
    "JC": lambda status: status & CARRY,
    "JN": lambda status: status & NEGATIVE,
    "JGE": lambda status: not is_less(status),
    "JL": is_less,
    "JMP": lambda status: True,
}

EXECUTE_KIND = {
    Kind.TWO_OPERANDS: Execution.two_operands,
    Kind.ONE_OPERAND: Execution.one_operand,
    Kind.PUSH: Execution.push_operand,
    Kind.CALL: Execution.call,
    Kind.RETI: Execution.return_from_interrupt,
    Kind.JUMP: Execution.jump,
    Kind.MOVA: Execution.move_address,
    Kind.SHIFT: Execution.shift,
    Kind.CALLA: Execution.call_address,
    Kind.PUSHM: Execution.push_registers,
    Kind.POPM: Execution.pop_registers,
}
