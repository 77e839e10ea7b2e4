"""The clocks that the watchdog and the timers count: which of them has an edge in a tick.

A tick has the edges that SR allows when it begins (MACHINE.md, The watchdog).
"""

from dataclasses import dataclass

OSCOFF_BIT = 0x0020
SCG1_BIT = 0x0080
TICKS_OF_ACLK = 32


@dataclass(frozen=True)
class Edges:
    smclk: bool
    aclk: bool


def edges_of(tick: int, status: int) -> Edges:
    return Edges(
        smclk=status & SCG1_BIT == 0,
        aclk=tick % TICKS_OF_ACLK == 0 and status & OSCOFF_BIT == 0,
    )
