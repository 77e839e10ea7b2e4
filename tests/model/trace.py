"""The lines of a trace (TRACE.md)."""

from encapsulation import Encapsulation
from ports import Levels


def line(tick: int, text: str) -> str:
    return f"{tick} {text}\n"


def on(tick: int) -> str:
    return line(tick, "ON")


def boot(tick: int, installed: Encapsulation) -> str:
    first, second = installed.first_border(), installed.second_border()
    return line(tick, f"BOOT {installed.control():02X} {first:05X} {second:05X}")


def erase(tick: int) -> str:
    return line(tick, "ERASE")


def debug(tick: int, command: str, answer: str) -> str:
    return line(tick, f"DBG {command} {answer}")


def halt(tick: int, counter: int) -> str:
    return line(tick, f"HALT {counter:05X}")


def reset(tick: int, cause: int) -> str:
    return line(tick, f"RST {cause:02X}")


def dead(tick: int) -> str:
    return line(tick, "DEAD")


def cut(tick: int) -> str:
    return line(tick, "CUT")


def pin(tick: int, port: int, levels: Levels) -> str:
    return line(tick, f"PIN P{port} {pins_text(levels)}")


def pins_text(levels: Levels) -> str:
    return "".join(pin_character(levels, bit) for bit in reversed(range(8)))


def pin_character(levels: Levels, bit: int) -> str:
    if levels.driven >> bit & 1 == 0:
        return "z"
    return "1" if levels.high >> bit & 1 else "0"


def end(tick: int) -> str:
    return line(tick, "END")
