"""The interrupts' lines and vectors, and the entry (MACHINE.md, Interrupts)."""

from collections.abc import Callable
from dataclasses import dataclass

from dma import Dma
from memory import ADDRESS_MASK
from ports import Ports
from protection import Protection
from system import System
from timers import Timer

PC = 0
SP = 1
SR = 2

GIE_BIT = 0x0008
CPUOFF_BIT = 0x0010
SCG0_BIT = 0x0040

ENTRY_CYCLES = 6

NMI_VECTOR = 0xFFFC
WATCHDOG_VECTOR = 0xFFF2
DMA_VECTOR = 0xFFE4
PORT_VECTORS = {1: 0xFFDE, 2: 0xFFD8, 3: 0xFFD2, 4: 0xFFD0}
TIMER_VECTORS = {"TB0": (0xFFF6, 0xFFF4), "TA0": (0xFFEA, 0xFFE8), "TA1": (0xFFE2, 0xFFE0)}


def clear_nothing() -> None:
    """What the entry of most lines clears."""


@dataclass(frozen=True)
class Line:
    vector: int
    stands: Callable[[], bool]
    clear: Callable[[], None] = clear_nothing


def lines_of(
    system: System, ports: Ports, timers: tuple[Timer, ...], dma: Dma
) -> tuple[Line, ...]:
    """All lines that can stand, that of the greatest vector first, as they are accepted."""
    lines = [Line(WATCHDOG_VECTOR, system.watchdog_line, system.clear_watchdog_flag)]
    lines.append(Line(DMA_VECTOR, dma.line))
    for port, vector in PORT_VECTORS.items():
        lines.append(Line(vector, lambda port=port: ports.line(port)))
    for timer in timers:
        first, other = TIMER_VECTORS[timer.name]
        lines.append(Line(first, timer.first_line, timer.clear_first_flag))
        lines.append(Line(other, timer.other_line))
    return tuple(sorted(lines, key=lambda line: line.vector, reverse=True))


def nmi_of(protection: Protection) -> Line:
    return Line(NMI_VECTOR, protection.nmi_stands, protection.drop_nmi)


def accepted(nmi: Line, lines: tuple[Line, ...], status: int) -> Line | None:
    if nmi.stands():
        return nmi
    if status & GIE_BIT == 0:
        return None
    for line in lines:
        if line.stands():
            return line
    return None


def enter(line: Line, registers, bus) -> int:
    """Makes the entry, and answers its cycles."""
    counter = registers.get(PC)
    stack = registers.get(SP)
    status = registers.get(SR)
    bus.write(stack - 2 & ADDRESS_MASK, "w", counter & 0xFFFF)
    bus.write(stack - 4 & ADDRESS_MASK, "w", status | counter >> 16 << 12)
    target = bus.read(line.vector, "w")
    registers.set(SP, stack - 4 & ADDRESS_MASK)
    registers.set(SR, status & SCG0_BIT)
    registers.set(PC, target & 0xFFFE)
    line.clear()
    return ENTRY_CYCLES
