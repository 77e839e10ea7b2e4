"""The debug port: the commands that come from outside, and what each of them answers.

What a command does is told in MACHINE.md, its keys in BENCH.md, and its line in TRACE.md.
"""

from collections import Counter
from collections.abc import Callable
from dataclasses import dataclass

from boot import HiddenWords, Mark
from bus import Agent, Bus
from memory import ADDRESS_MASK, Memory
from registers import Registers
from system import CAUSES_OF_BOR, Cause

CLOSING_ADDRESSES = (0xFF80, 0xFF82)
CLOSING_WORD = 0x5555

OK = "ok"
BOOTING, CLOSED, RUNNING = "booting", "closed", "running"


@dataclass(frozen=True)
class ReadWord:
    at: int

    def text(self) -> str:
        return f"read {self.at:05X}"


@dataclass(frozen=True)
class WriteWord:
    at: int
    value: int

    def text(self) -> str:
        return f"write {self.at:05X}"


@dataclass(frozen=True)
class Dump:
    at: int
    count: int

    def text(self) -> str:
        return f"dump {self.at:05X}"


@dataclass(frozen=True)
class ReadRegister:
    number: int

    def text(self) -> str:
        return f"reg {self.number}"


@dataclass(frozen=True)
class SetRegister:
    number: int
    value: int

    def text(self) -> str:
        return f"setreg {self.number}"


@dataclass(frozen=True)
class Halt:
    def text(self) -> str:
        return "halt"


@dataclass(frozen=True)
class Go:
    def text(self) -> str:
        return "go"


@dataclass(frozen=True)
class Reset:
    def text(self) -> str:
        return "reset"


@dataclass(frozen=True)
class Erase:
    def text(self) -> str:
        return "erase"


Command = ReadWord | WriteWord | Dump | ReadRegister | SetRegister | Halt | Go | Reset | Erase
COMMANDS_OF_REGISTERS = (ReadRegister, SetRegister)


class DebugPort:
    def __init__(
        self, registers: Registers, bus: Bus, memory: Memory, hidden: HiddenWords,
        request: Callable[[Cause], None], is_booted: Callable[[], bool], statistics: Counter,
    ):
        self.registers = registers
        self.bus = bus
        self.memory = memory
        self.hidden = hidden
        self.request = request
        self.is_booted = is_booted
        self.statistics = statistics
        self.reset(Cause.POWER_ON)

    def reset(self, cause: Cause) -> None:
        """Only a reset as at power on lets a halted processor go."""
        if cause in CAUSES_OF_BOR:
            self.halted = False
            self.halt_is_pending = False

    def answer(self, command: Command) -> str | None:
        """Does a command that isn't refused. Only a halt that is accepted has no answer."""
        refusal = self.refusal(command)
        if refusal is None:
            self.bus.begin_step(Agent.DEBUG)
            answer = self.do(command)
        else:
            answer = refusal
        name = command.text().split()[0]
        self.statistics[f"debug {name}: {refusal or 'accepted'}"] += 1
        return answer

    def refusal(self, command: Command) -> str | None:
        if not self.is_booted():
            return BOOTING
        if self.is_closed():
            return CLOSED
        if isinstance(command, COMMANDS_OF_REGISTERS) and not self.halted:
            return RUNNING
        return None

    def is_closed(self) -> bool:
        """By memory as it stands, whoever may read it."""
        words = [self.memory.read_word(address) for address in CLOSING_ADDRESSES]
        return words == [CLOSING_WORD, CLOSING_WORD]

    def do(self, command: Command) -> str | None:
        match command:
            case ReadWord(at):
                return f"{self.bus.read(at, 'w'):04X}"
            case WriteWord(at, value):
                self.bus.write(at, "w", value)
            case Dump(at, count):
                return self.dumped(at, count)
            case ReadRegister(number):
                return f"{self.registers.get(number):05X}"
            case SetRegister(number, value):
                self.registers.set(number, value)
            case Halt():
                self.halt_is_pending = not self.halted
                return None
            case Go():
                self.halted = False
                self.halt_is_pending = False
            case Reset():
                self.request(Cause.DEBUG_RESET)
            case Erase():
                self.hidden.write_mark(Mark.ERASING)
                self.request(Cause.DEBUG_RESET)
        return OK

    def dumped(self, at: int, count: int) -> str:
        read = [self.bus.read(at + index & ADDRESS_MASK, "b") for index in range(count)]
        return bytes(read).hex().upper()

    def halt(self) -> None:
        """What was pending takes effect."""
        self.halt_is_pending = False
        self.halted = True
