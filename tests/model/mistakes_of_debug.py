"""Mistakes in the debug port, in halts and in the events of a bench that hold commands.

The names of all of them begin with "debug", so that they can be tried alone.
"""

from mistake import Mistake

REFUSALS = """\
        if not self.is_booted():
            return BOOTING
        if self.is_closed():
            return CLOSED
        if isinstance(command, COMMANDS_OF_REGISTERS) and not self.halted:
            return RUNNING
"""
NOT_BOOTED = "        if not self.is_booted():\n            return BOOTING\n"
NOT_OPEN = "        if self.is_closed():\n            return CLOSED\n"
NOT_HALTED = """\
        if isinstance(command, COMMANDS_OF_REGISTERS) and not self.halted:
            return RUNNING
"""
CLOSING = "        return words == [CLOSING_WORD, CLOSING_WORD]\n"
READ = "                return f\"{self.bus.read(at, 'w'):04X}\"\n"
WRITE = "                self.bus.write(at, \"w\", value)\n"
DUMP = """\
        read = [self.bus.read(at + index & ADDRESS_MASK, "b") for index in range(count)]
"""
SET = "                self.registers.set(number, value)\n"
HALT = "                self.halt_is_pending = not self.halted\n                return None\n"
GO = "                self.halted = False\n                self.halt_is_pending = False\n"
RESET = "            case Reset():\n                self.request(Cause.DEBUG_RESET)\n"
DROPPED = "            self.halted = False\n            self.halt_is_pending = False\n"
BUSY = "        if self.busy > 0:\n            self.busy -= 1\n            return\n"
TURN = """\
        if self.debug.halt_is_pending and not self.is_private():
            self.halt()
            return
        self.statistics["ticks that a halt waits in the seal"] += self.debug.halt_is_pending
        if self.debug.halted or self.dead:
            return
"""
HALT_TURN = """\
        if self.debug.halt_is_pending and not self.is_private():
            self.halt()
            return
"""
STILL = "        if self.debug.halted or self.dead:\n            return\n"
PRIVATE = """\
        return not self.debug.halted and self.encapsulation.seals(self.registers.get(PC))
"""
OBEY = "        answer = self.debug.answer(command)\n"
EDGES = "        edges = edges_of(self.number, self.registers.get(SR))\n"
OWNER = "        elif self.dma.acts(self.bus):\n            return\n        else:\n"

REFUSED = (
    Mistake("debug answers in a boot", "debug.py", NOT_BOOTED, ""),
    Mistake("debug answers in the tick in which a boot ends", "chip.py",
            "        return self.boot.is_done()\n",
            "        return self.boot.place >= Place.DONE\n"),
    Mistake("debug is closed before it boots", "debug.py", REFUSALS,
            NOT_OPEN + NOT_BOOTED + NOT_HALTED),
    Mistake("debug is running before it is closed", "debug.py", REFUSALS,
            NOT_BOOTED + NOT_HALTED + NOT_OPEN),
    Mistake("debug is never closed", "debug.py", NOT_OPEN, ""),
    Mistake("debug is closed by one of the words", "debug.py", CLOSING,
            "        return CLOSING_WORD in words\n"),
    Mistake("debug is closed by FF80h alone", "debug.py", CLOSING,
            "        return words[0] == CLOSING_WORD\n"),
    Mistake("debug is closed by FF82h alone", "debug.py", CLOSING,
            "        return words[1] == CLOSING_WORD\n"),
    Mistake("debug is closed by the words at FF82h and FF84h", "debug.py",
            "(0xFF80, 0xFF82)", "(0xFF82, 0xFF84)"),
    Mistake("debug is closed by the lower bytes", "debug.py", CLOSING,
            "        return [word & 0xFF for word in words] == [0x55, 0x55]\n"),
    Mistake("debug is closed by any two equal words", "debug.py", CLOSING,
            "        return words[0] == words[1] != 0xFFFF\n"),
    Mistake("debug is closed as the boot found it", "debug.py",
            NOT_OPEN,
            "        self.closed = getattr(self, \"closed\", self.is_closed())\n"
            "        if self.closed:\n            return CLOSED\n"),
    Mistake("debug once closed stays closed", "debug.py", NOT_OPEN,
            "        self.closed = getattr(self, \"closed\", False) or self.is_closed()\n"
            "        if self.closed:\n            return CLOSED\n"),
    Mistake("debug closed lets a halt through", "debug.py", NOT_OPEN,
            "        if self.is_closed() and not isinstance(command, Halt):\n"
            "            return CLOSED\n"),
    Mistake("debug closed lets a reset through", "debug.py", NOT_OPEN,
            "        if self.is_closed() and not isinstance(command, Reset):\n"
            "            return CLOSED\n"),
    Mistake("debug closed drops a halt", "debug.py", NOT_OPEN,
            "        if self.is_closed():\n            self.halt_is_pending = False\n"
            "            return CLOSED\n"),
    Mistake("debug tells registers of a running processor", "debug.py",
            "COMMANDS_OF_REGISTERS = (ReadRegister, SetRegister)",
            "COMMANDS_OF_REGISTERS = (SetRegister,)"),
    Mistake("debug sets registers of a running processor", "debug.py",
            "COMMANDS_OF_REGISTERS = (ReadRegister, SetRegister)",
            "COMMANDS_OF_REGISTERS = (ReadRegister,)"),
    Mistake("debug reads from a halted processor alone", "debug.py",
            "COMMANDS_OF_REGISTERS = (ReadRegister, SetRegister)",
            "COMMANDS_OF_REGISTERS = (ReadRegister, SetRegister, ReadWord)"),
    Mistake("debug takes a pending halt for one", "debug.py", NOT_HALTED,
            NOT_HALTED.replace("not self.halted", "not (self.halted or self.halt_is_pending)")),
    Mistake("debug takes a dead processor for a halted one", "chip.py", STILL,
            "        self.debug.halted |= self.dead\n" + STILL),
)

COMMANDS = (
    Mistake("debug reads a word over two addresses", "debug.py", READ,
            "                high = self.bus.read(at + 1 & ADDRESS_MASK, 'b')\n"
            "                return f\"{self.bus.read(at, 'b') | high << 8:04X}\"\n"),
    Mistake("debug reads registers without side effects", "debug.py", READ,
            "                if at < 0x1000:\n"
            "                    import copy\n"
            "                    unit = copy.copy(self.bus.unit_of_address.get(at & ~1))\n"
            "                    return f\"{unit.read(at & ~1) if unit else 0:04X}\"\n" + READ),
    Mistake("debug reads with the segments' rights", "bus.py",
            "JUDGED_BY_SEGMENTS = (Agent.PROCESSOR, Agent.DMA)",
            "JUDGED_BY_SEGMENTS = (Agent.PROCESSOR, Agent.DMA, Agent.DEBUG)"),
    Mistake("debug tells odd addresses as even ones", "debug.py",
            "        return f\"read {self.at:05X}\"\n",
            "        return f\"read {self.at & ~1:05X}\"\n"),
    Mistake("debug writes a byte", "debug.py", WRITE,
            "                self.bus.write(at, \"b\", value & 0xFF)\n"),
    Mistake("debug writes to registers are lost", "debug.py", WRITE,
            "                if at >= 0x1000:\n    " + WRITE),
    Mistake("debug writes request no reset", "debug.py", WRITE,
            "                before = set(self.request.__self__)\n" + WRITE +
            "                self.request.__self__.intersection_update(before)\n"),
    Mistake("debug writes that are refused answer so", "debug.py", WRITE,
            "                if self.bus.encapsulation.holds(at):\n"
            "                    return \"refused\"\n" + WRITE),
    Mistake("debug dumps end with the addresses", "debug.py", DUMP,
            "        count = min(count, ADDRESS_MASK + 1 - at)\n" + DUMP),
    Mistake("debug dumps go on at 10000h below it", "debug.py", DUMP,
            DUMP.replace("at + index & ADDRESS_MASK",
                         "at & ~0xFFFF | at + index & 0xFFFF")),
    Mistake("debug dumps backward", "debug.py", DUMP,
            DUMP.replace("at + index &", "at + count - 1 - index &")),
    Mistake("debug dumps in descending order", "debug.py", DUMP,
            DUMP.replace("range(count)", "reversed(range(count))").rstrip("]\n")
            + "][::-1]\n"),
    Mistake("debug dumps words", "debug.py", DUMP,
            "        read = []\n        for index in range(count):\n"
            "            address = at + index & ADDRESS_MASK\n"
            "            read.append(self.bus.read(address, \"w\") >> 8 * (address & 1) & 0xFF)\n"),
    Mistake("debug dumps the bytes that one read of words gives", "debug.py", DUMP,
            "        read = []\n        for index in range(count):\n"
            "            address = at + index & ADDRESS_MASK\n"
            "            if index == 0 or address % 2 == 0:\n"
            "                word = self.bus.read(address, \"w\")\n"
            "            read.append(word >> 8 * (address & 1) & 0xFF)\n"),
    Mistake("debug dumps small letters", "debug.py",
            "        return bytes(read).hex().upper()\n", "        return bytes(read).hex()\n"),
    Mistake("debug numbers registers in hexadecimal", "debug.py",
            "        return f\"reg {self.number}\"\n", "        return f\"reg {self.number:X}\"\n"),
    Mistake("debug tells 16 bits of a register", "debug.py",
            "                return f\"{self.registers.get(number):05X}\"\n",
            "                return f\"{self.registers.get(number) & 0xFFFF:05X}\"\n"),
    Mistake("debug sets PC to odd addresses", "debug.py", SET,
            "                if number:\n    " + SET +
            "                else:\n                    self.registers.values[0] = value\n"),
    Mistake("debug sets all bits of SR", "debug.py", SET,
            "                if number != 2:\n    " + SET +
            "                else:\n"
            "                    self.registers.values[2] = value & 0xFFFF\n"),
    Mistake("debug sets R3", "debug.py", SET,
            "                if number != 3:\n    " + SET +
            "                else:\n                    self.registers.values[3] = value\n"),
    Mistake("debug sets 16 bits", "debug.py", SET,
            "                self.registers.set(number, value & 0xFFFF)\n"),
    Mistake("debug resets by cause 06h", "debug.py", RESET,
            "            case Reset():\n                self.request(Cause.SOFTWARE_BOR)\n"),
    Mistake("debug resets by a PUC", "system.py",
            "CAUSES_OF_BOR = (Cause.POWER_ON, Cause.DEBUG_RESET, Cause.SOFTWARE_BOR)",
            "CAUSES_OF_BOR = (Cause.POWER_ON, Cause.SOFTWARE_BOR)"),
    Mistake("debug's reset is the greatest cause", "system.py",
            "DEBUG_RESET = 0x04", "DEBUG_RESET = 0x44"),
    Mistake("debug ends its commands with a reset", "debug.py", NOT_OPEN,
            "        if Cause.DEBUG_RESET in self.request.__self__:\n            return BOOTING\n"
            + NOT_OPEN),
)

HALTS = (
    Mistake("debug answers a halt", "debug.py", HALT,
            "                self.halt_is_pending = not self.halted\n                return OK\n"),
    Mistake("debug halts a halted processor again", "debug.py", HALT,
            "                self.halt_is_pending = True\n                return None\n"),
    Mistake("debug halts at once", "debug.py", HALT,
            "                self.halted = True\n                return None\n"),
    Mistake("debug halts behind the instruction", "chip.py", TURN,
            TURN.replace(HALT_TURN, "        if self.debug.halt_is_pending and not "
                         "self.is_private():\n            self.halt()\n            "
                         "self.debug.halted = False\n            self.debug.late = True\n"
                         "        elif getattr(self.debug, \"late\", False):\n"
                         "            self.debug.late = False\n"
                         "            self.debug.halted = True\n            return\n")),
    Mistake("debug halts without a turn", "chip.py", HALT_TURN,
            HALT_TURN.replace("            return\n", "            self.debug.halted = False\n"
                              "            self.debug.next = True\n")
            + "        elif getattr(self.debug, \"next\", False):\n"
            "            self.debug.halted, self.debug.next = True, False\n"),
    Mistake("debug halts a busy processor", "chip.py", BUSY,
            "        if self.debug.halt_is_pending and not self.is_private():\n"
            "            self.halt()\n            return\n"
            "        if self.busy > 0 and not self.debug.halted:\n            self.busy -= 1\n"
            "            return\n"),
    Mistake("debug halts behind an interrupt", "chip.py", HALT_TURN,
            "        if self.debug.halt_is_pending and not self.is_private() and not (\n"
            "                interrupts.accepted(\n"
            "                    self.nmi, self.interrupt_lines, self.registers.get(SR))):\n"
            "            self.halt()\n            return\n"),
    Mistake("debug doesn't halt a processor that is off", "chip.py", HALT_TURN,
            HALT_TURN.replace("not self.is_private()", "not self.is_private() and not (\n"
                              "                self.registers.get(SR) & CPUOFF_BIT)")),
    Mistake("debug doesn't halt a dead processor", "chip.py", TURN,
            "        if self.dead:\n            return\n" + TURN),
    Mistake("debug halts while DMA owns the bus", "chip.py", OWNER,
            "        elif self.dma.acts(self.bus):\n"
            "            if self.debug.halt_is_pending and not self.is_private() and (\n"
            "                    self.busy == 0):\n                self.halt()\n"
            "            return\n        else:\n"),
    Mistake("debug halts in the seal", "chip.py", PRIVATE, "        return False\n"),
    Mistake("debug doesn't halt in an area without LOCK", "chip.py", PRIVATE,
            PRIVATE.replace("seals", "holds")),
    Mistake("debug doesn't halt in what is locked without ENA", "chip.py", PRIVATE,
            "        return not self.debug.halted and self.encapsulation.locked()\n"),
    Mistake("debug drops a halt in the seal", "chip.py", HALT_TURN,
            HALT_TURN + "        self.debug.halt_is_pending = False\n"),
    Mistake("debug judges the seal when the command comes", "chip.py", OBEY,
            OBEY + "        if self.debug.halt_is_pending and self.is_private():\n"
            "            self.debug.halt_is_pending = False\n"),
    Mistake("debug halts by where the last instruction began", "chip.py", PRIVATE,
            "        return not self.debug.halted and self.encapsulation.seals(\n"
            "            self.bus.instruction or 0)\n"),
    Mistake("debug refuses go to a running processor", "debug.py", GO,
            "                if not self.halted:\n                    return RUNNING\n" + GO),
    Mistake("debug's go leaves a halt that is pending", "debug.py", GO,
            "                self.halted = False\n"),
    Mistake("debug's go leaves the halt", "debug.py", GO,
            "                self.halt_is_pending = False\n"),
    Mistake("debug's go has no answer", "debug.py", GO, GO + "                return None\n"),
    Mistake("debug's go wakes the dead", "chip.py", OBEY,
            OBEY + "        self.dead &= command.text() != \"go\" or not answer == \"ok\"\n"),
    Mistake("debug's halt ends with a PUC", "debug.py",
            "        if cause in CAUSES_OF_BOR:\n" + DROPPED,
            "        self.halted = False\n        if cause in CAUSES_OF_BOR:\n" + DROPPED),
    Mistake("debug's pending halt ends with a PUC", "debug.py",
            "        if cause in CAUSES_OF_BOR:\n" + DROPPED,
            "        self.halt_is_pending = False\n        if cause in CAUSES_OF_BOR:\n" + DROPPED),
    Mistake("debug's halt stands through a BOR", "debug.py", DROPPED,
            "            self.halted = getattr(self, \"halted\", False)\n"
            "            self.halt_is_pending = False\n"),
    Mistake("debug's pending halt stands through a BOR", "debug.py", DROPPED,
            "            self.halted = False\n"
            "            self.halt_is_pending = getattr(self, \"halt_is_pending\", False)\n"),
    Mistake("debug's halt stands through its own reset alone", "debug.py", DROPPED,
            "            self.halted = cause == Cause.DEBUG_RESET and getattr(\n"
            "                self, \"halted\", False)\n"
            "            self.halt_is_pending = False\n"),
    Mistake("debug tells the PC of a halt behind the reset", "chip.py",
            "            self.take_reset()\n",
            "            halts = [line for line in self.lines if \" HALT \" in line]\n"
            "            self.take_reset()\n"
            "            for line in halts:\n"
            "                self.lines[self.lines.index(line)] = trace.halt(\n"
            "                    self.number, self.registers.get(PC))\n"),
    Mistake("debug tells RST before HALT", "chip.py",
            "            self.take_reset()\n",
            "            halts = [line for line in self.lines if \" HALT \" in line]\n"
            "            self.lines = [line for line in self.lines if line not in halts]\n"
            "            self.take_reset()\n            self.lines += halts\n"),
    Mistake("debug drops the halt of a tick with a reset", "chip.py",
            "        cause = min(self.requests)\n",
            "        cause = min(self.requests)\n"
            "        self.lines = [line for line in self.lines if \" HALT \" not in line]\n"),
)

STILLNESS = (
    Mistake("debug stops the watchdog and the timers with a halt", "chip.py", EDGES,
            "        if self.debug.halted:\n            return\n" + EDGES),
    Mistake("debug stops DMA with a halt", "chip.py", OWNER,
            OWNER.replace("self.dma.acts(self.bus)",
                          "not self.debug.halted and self.dma.acts(self.bus)")),
    Mistake("debug stops the rests of DMA with a halt", "chip.py",
            "        self.dma.lower_rests()\n",
            "        if not self.debug.halted:\n            self.dma.lower_rests()\n"),
    Mistake("debug lets interrupts in while the processor is halted", "chip.py", STILL,
            "        if (self.debug.halted or self.dead) and not interrupts.accepted(\n"
            "                self.nmi, self.interrupt_lines, self.registers.get(SR)):\n"
            "            return\n"),
    Mistake("debug lets the NMI end a halt", "chip.py", STILL,
            "        if self.nmi.stands():\n            self.debug.halted = False\n" + STILL),
    Mistake("debug's SR is seen by the edges of the next tick", "chip.py", EDGES,
            "        before = getattr(self, \"status\", 0)\n"
            "        self.status = self.registers.get(SR)\n"
            "        status = before if self.debug.halted else self.status\n"
            "        edges = edges_of(self.number, status)\n"),
    Mistake("debug's commands come behind the edges", "chip.py",
            "        self.stimulus(events)\n        lines_of_events = len(self.lines)\n"
            "        self.take_edges()\n",
            "        self.take_edges()\n        self.stimulus(events)\n"
            "        lines_of_events = len(self.lines)\n"),
    Mistake("debug's commands come before all pins of their tick", "chip.py",
            "        for event in events:\n",
            "        for event in sorted(\n"
            "                events, key=lambda event: isinstance(event.act, PinLevel)):\n"),
    Mistake("debug's commands come behind all pins of their tick", "chip.py",
            "        for event in events:\n",
            "        for event in sorted(\n"
            "                events, key=lambda event: not isinstance(event.act, PinLevel)):\n"),
    Mistake("debug can't wake the dead by a vector and a reset", "chip.py",
            "self.dead = vector == NO_VECTOR", "self.dead |= vector == NO_VECTOR"),
)

FILES = (
    Mistake("debug's addresses have 16 bits", "bench.py",
            "ADDRESS = (\"at\", 0, 0xFFFFF)", "ADDRESS = (\"at\", 0, 0xFFFF)"),
    Mistake("debug's addresses go to 2^20", "bench.py",
            "ADDRESS = (\"at\", 0, 0xFFFFF)", "ADDRESS = (\"at\", 0, 0x100000)"),
    Mistake("debug writes 20 bits", "bench.py",
            "WORD = (\"value\", 0, 0xFFFF)", "WORD = (\"value\", 0, 0xFFFFF)"),
    Mistake("debug's registers get 16 bits", "bench.py",
            "VALUE_OF_REGISTER = (\"value\", 0, 0xFFFFF)",
            "VALUE_OF_REGISTER = (\"value\", 0, 0xFFFF)"),
    Mistake("debug has 17 registers", "bench.py",
            "REGISTER = (\"reg\", 0, 15)", "REGISTER = (\"reg\", 0, 16)"),
    Mistake("debug dumps 33 bytes", "bench.py", "(\"count\", 1, 32)", "(\"count\", 1, 33)"),
    Mistake("debug dumps 31 bytes at most", "bench.py", "(\"count\", 1, 32)", "(\"count\", 1, 31)"),
    Mistake("debug dumps no byte", "bench.py", "(\"count\", 1, 32)", "(\"count\", 0, 32)"),
    Mistake("debug's commands may have other keys", "bench.py",
            "    if set(keys) != {key for key, _, _ in needed}:\n",
            "    if not set(keys) >= {key for key, _, _ in needed}:\n"),
)

MISTAKES = (*REFUSED, *COMMANDS, *HALTS, *STILLNESS, *FILES)
