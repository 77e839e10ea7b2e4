"""Mistakes in memory, system registers, the watchdog, the ports, interrupts, resets and ticks."""

from mistake import Mistake

MEMORY = (
    Mistake("a vacant byte at an odd address reads 3Fh", "memory.py",
            "        return BYTE_OF_NO_STORE", "        return 0x3F if address & 1 else 0xFF"),
    Mistake("the descriptor reads as vacant", "memory.py",
            "DESCRIPTOR_WORD = 0xFFFF", "DESCRIPTOR_WORD = 0x3FFF"),
    Mistake("the descriptor's page is FRAM", "memory.py",
            "(0x01A00, Region.DESCRIPTOR)", "(0x01A00, Region.INFORMATION)"),
    Mistake("SRAM ends a page early", "memory.py",
            "(0x02400, Region.VACANT)", "(0x02300, Region.VACANT)"),
    Mistake("FRAM ends a page early", "memory.py",
            "(0x14000, Region.VACANT)", "(0x13F00, Region.VACANT)"),
    Mistake("SRAM is 0 at first", "memory.py",
            "bytes([self.fill]) * PAGE_SIZE", "bytes(PAGE_SIZE)"),
    Mistake("erased FRAM is 0", "memory.py", "ERASED_BYTE = 0xFF", "ERASED_BYTE = 0"),
    Mistake("the earlier header decides", "image.py",
            "for index in range(headers):", "for index in reversed(range(headers)):"),
    Mistake("addresses of an image wrap at 2^20", "image.py",
            "if is_fram(address + index):\n            store[address + index]",
            "if is_fram(address + index & 0xFFFFF):\n            store[address + index & 0xFFFFF]"),
    Mistake("a header of no bytes may not lie behind the end", "image.py",
            "if kind != LOADED or size == 0:", "if kind != LOADED:"),
    Mistake("the kind of a header decides nothing", "image.py",
            "if kind != LOADED or size == 0:", "if size == 0:"),
    Mistake("9 events may come in a tick", "bench.py",
            "EVENTS_IN_A_TICK = 8", "EVENTS_IN_A_TICK = 9"),
    Mistake("a boolean is a level", "bench.py",
            "return type(value) is int and", "return isinstance(value, int) and"),
    Mistake("a fetch from the peripherals reads the register", "bus.py",
            "if is_first_word and region_of(at) is Region.PERIPHERALS:", "if False:"),
    Mistake("a fetch from the peripherals asks for no reset", "bus.py",
            "            self.request(Cause.PERIPHERAL_FETCH)\n", ""),
    Mistake("a byte at an odd address is the low half", "bus.py",
            "return word >> 8 if at & 1 else word & 0xFF", "return word & 0xFF"),
    Mistake("a byte write to a register takes the whole word", "registers_of_units.py",
            "return (old & ~mask | value & mask) & WORD", "return value & WORD"),
    Mistake("a word at an odd address is written there", "bus.py",
            "        if size == \"w\":\n            at &= ~1\n"
            "        if self.writes.next_is_absent",
            "        if self.writes.next_is_absent"),
)
SYSTEM = (
    Mistake("a read of SYSRSTIV leaves it", "system.py",
            "            self.reset_cause = 0\n            return cause",
            "            return cause"),
    Mistake("a write of SYSRSTIV stores", "system.py",
            "        elif address == SYSRSTIV:\n            self.reset_cause = 0",
            "        elif address == SYSRSTIV:\n            self.reset_cause = value & 0xFF"),
    Mistake("PMMCTL0 reads A500h", "system.py",
            "            return READ_PASSWORD", "            return PASSWORD"),
    Mistake("PMMSWPOR comes before PMMSWBOR", "system.py",
            "        if value & SOFTWARE_BOR_BIT:\n            self.request(Cause.SOFTWARE_BOR)\n"
            "        elif value & SOFTWARE_POR_BIT:\n            self.request(Cause.SOFTWARE_POR)",
            "        if value & SOFTWARE_POR_BIT:\n            self.request(Cause.SOFTWARE_POR)\n"
            "        elif value & SOFTWARE_BOR_BIT:\n            self.request(Cause.SOFTWARE_BOR)"),
    Mistake("a word opens no latch", "system.py",
            "                self.power_latch_open = True\n", ""),
    Mistake("a byte doesn't close the latch", "system.py",
            "self.power_latch_open = right", "self.power_latch_open |= right"),
    Mistake("a wrong word closes the latch", "system.py",
            "            else:\n                self.request(Cause.POWER_PASSWORD)",
            "            else:\n                self.power_latch_open = False\n"
            "                self.request(Cause.POWER_PASSWORD)",
            "a wrong word asks for a reset, which closes the latch in the same tick; "
            "only the second word of one instruction or entry could meet the open latch, and "
            "it is another word, which no latch concerns"),
    Mistake("a reset leaves the latch open", "system.py",
            "        self.power_latch_open = False\n        self.reset_cause = int(cause)",
            "        self.reset_cause = int(cause)"),
    Mistake("a wrong byte asks for a reset", "system.py",
            "        elif mask == HIGH_HALF:\n            self.power_latch_open = right",
            "        elif mask == HIGH_HALF:\n            self.power_latch_open = right\n"
            "            if not right:\n                self.request(Cause.POWER_PASSWORD)"),
    Mistake("a low byte takes effect without the latch", "system.py",
            "        elif self.power_latch_open:\n            self.take_power_bits(value)",
            "        else:\n            self.take_power_bits(value)"),
    Mistake("a PUC sets the lock", "system.py",
            "        if cause in CAUSES_OF_BOR:\n            self.locked = True",
            "        self.locked = True"),
    Mistake("PM5CTL0 reads 0", "system.py",
            "            return LOCK_BIT if self.locked else 0", "            return 0"),
    Mistake("a byte to the upper half clears the lock", "system.py",
            "self.locked = merged(lock, value, mask) & LOCK_BIT != 0",
            "self.locked = value & LOCK_BIT != 0"),
    Mistake("a reset leaves SFRIE1 and the like", "system.py",
            "    def reset(self, cause: Cause) -> None:\n"
            "        self.plain = dict.fromkeys(PLAIN_REGISTERS, 0)\n",
            "    def reset(self, cause: Cause) -> None:\n"),
    Mistake("CSCTL6 isn't built", "system.py",
            "range(0x0160, 0x016E, 2)", "range(0x0160, 0x016C, 2)"),
    Mistake("the cause of a watchdog's interval is 17h", "system.py",
            "WATCHDOG_INTERVAL = 0x16", "WATCHDOG_INTERVAL = 0x17"),
)

WATCHDOG = (
    Mistake("an interval ends one edge late", "watchdog.py",
            "if self.counter < self.interval():", "if self.counter <= self.interval():"),
    Mistake("an interval ends at its count alone", "watchdog.py",
            "if self.counter < self.interval():", "if self.counter != self.interval():"),
    Mistake("an interval timer asks for a reset", "watchdog.py",
            "if not self.control & INTERVAL_TIMER_BIT:", "if True:"),
    Mistake("a reset by the interval sets no flag", "watchdog.py",
            "        self.set_flag()\n        if not self.control & INTERVAL_TIMER_BIT:\n",
            "        if self.control & INTERVAL_TIMER_BIT:\n            self.set_flag()\n"
            "        else:\n",
            ),
    Mistake("HOLD is ignored", "watchdog.py",
            "        if self.control & HOLD_BIT:\n            return False\n", ""),
    Mistake("each write clears the counter", "watchdog.py",
            "if value & CLEAR_BIT:", "if True:"),
    Mistake("CNTCL is ignored", "watchdog.py", "if value & CLEAR_BIT:", "if False:"),
    Mistake("CNTCL is read", "watchdog.py",
            "KEPT_BITS = HOLD_BIT |", "KEPT_BITS = CLEAR_BIT | HOLD_BIT |"),
    Mistake("the sources 2 and 3 are SMCLK", "watchdog.py",
            "if self.control & SOURCE_BITS else", "if self.control & SOURCE_BITS == 0x20 else"),
    Mistake("the last interval has 2^5 edges", "watchdog.py", "9, 6)", "9, 5)"),
    Mistake("the interval 6 has 2^10 edges", "watchdog.py", "13, 9, 6)", "13, 10, 6)"),
    Mistake("a byte of WDTCTL is written", "watchdog.py",
            "if mask != WORD or value & HIGH_HALF != PASSWORD:",
            "if mask == WORD and value & HIGH_HALF != PASSWORD:"),
    Mistake("WDTCTL is 6900h after a reset", "watchdog.py",
            "CONTROL_AFTER_RESET = 0x0004", "CONTROL_AFTER_RESET = 0x0000"),
    Mistake("a reset leaves the watchdog's counter", "watchdog.py",
            "        self.control = CONTROL_AFTER_RESET\n        self.counter = 0\n",
            "        self.control = CONTROL_AFTER_RESET\n"
            "        self.counter = getattr(self, \"counter\", 0)\n"),
    Mistake("ACLK has an edge in 16 ticks", "clocks.py",
            "TICKS_OF_ACLK = 32", "TICKS_OF_ACLK = 16"),
    Mistake("ACLK's edges are one tick late", "clocks.py",
            "tick % TICKS_OF_ACLK == 0", "tick % TICKS_OF_ACLK == 1"),
    Mistake("OSCOFF is ignored", "clocks.py", " and status & OSCOFF_BIT == 0", ""),
    Mistake("SCG1 is ignored", "clocks.py", "smclk=status & SCG1_BIT == 0", "smclk=True"),
)

PORTS = (
    Mistake("IN of an output is the external level", "ports.py",
            "return self.stored[OUT] & direction | self.external & ~direction",
            "return self.external"),
    Mistake("IN of locked pins follows OUT", "ports.py",
            "        if locked:\n            return self.external\n", ""),
    Mistake("a rise sets the flag where IES is 1", "ports.py",
            "if wants_fall == (after == 0):", "if wants_fall != (after == 0):"),
    Mistake("an event without a change sets a flag", "ports.py",
            "if before == after or locked:", "if locked:"),
    Mistake("an event on an output sets a flag", "ports.py",
            "        before = self.inputs(locked) & pin\n",
            "        before = self.external & pin\n"),
    Mistake("an event on locked pins sets a flag", "ports.py",
            "if before == after or locked:", "if before == after:"),
    Mistake("a write of IES sets flags", "ports.py",
            "        elif distance in self.stored:\n",
            "        elif distance in self.stored:\n"
            "            if distance == IES:\n"
            "                self.stored[IFG] |= (value ^ self.stored[IES]) & mask\n"),
    Mistake("IV tells the greatest pin", "ports.py",
            "for pin in range(8):\n            if pending",
            "for pin in reversed(range(8)):\n            if pending"),
    Mistake("IV of a port doesn't ask for IE", "ports.py",
            "(self.stored[IFG] & self.stored[IE]) >>", "(self.stored[IFG]) >>"),
    Mistake("a read of IV leaves the flag", "ports.py",
            "            self.stored[IFG] &= ~(1 << shift + number // 2 - 1)\n",
            "            pass\n"),
    Mistake("a write of IV does nothing", "ports.py",
            "        if distance in SHIFT_OF_PORT:\n"
            "            self.take_interrupt_number(SHIFT_OF_PORT[distance])\n        elif",
            "        if distance in SHIFT_OF_PORT:\n            pass\n        elif"),
    Mistake("IV clears all flags of its port", "ports.py",
            "~(1 << shift + number // 2 - 1)", "~(0xFF << shift)"),
    Mistake("IV of the even port lies in the high half", "ports.py",
            "        return number\n\n    def read",
            "        return number << shift\n\n    def read"),
    Mistake("a reset clears the external levels", "ports.py",
            "    def reset(self) -> None:\n        self.stored = dict.fromkeys(STORED, 0)",
            "    def reset(self) -> None:\n        self.external = 0\n"
            "        self.stored = dict.fromkeys(STORED, 0)"),
    Mistake("a reset leaves IE", "ports.py",
            "        self.stored = dict.fromkeys(STORED, 0)",
            "        old = getattr(self, \"stored\", {})\n"
            "        self.stored = dict.fromkeys(STORED, 0) | {IE: old.get(IE, 0)}"),
    Mistake("SELC isn't stored", "ports.py", "SEL0, SEL1, SELC, IES", "SEL0, SEL1, IES"),
    Mistake("REN isn't stored", "ports.py", "DIR, REN, SEL0", "DIR, SEL0"),
    Mistake("locked pins are driven", "ports.py",
            "        if locked:\n            return Levels(driven=0, high=0)\n", ""),
    Mistake("an event names the other port of its pair", "ports.py",
            "8 * ((port - 1) % 2)\n\n    def read", "8 * (port % 2)\n\n    def read"),
)

INTERRUPTS = (
    Mistake("the least vector comes first", "interrupts.py", "reverse=True", "reverse=False"),
    Mistake("P3 comes before P2", "interrupts.py",
            "2: 0xFFD8, 3: 0xFFD2,", "2: 0xFFD2, 3: 0xFFD8,"),
    Mistake("GIE is ignored", "interrupts.py", "if status & GIE_BIT == 0:", "if False:"),
    Mistake("an entry takes 5 cycles", "interrupts.py", "ENTRY_CYCLES = 6", "ENTRY_CYCLES = 5"),
    Mistake("an entry leaves GIE", "interrupts.py",
            "registers.set(SR, status & SCG0_BIT)",
            "registers.set(SR, status & (SCG0_BIT | GIE_BIT))"),
    Mistake("an entry leaves CPUOFF", "interrupts.py",
            "registers.set(SR, status & SCG0_BIT)",
            "registers.set(SR, status & (SCG0_BIT | CPUOFF_BIT))"),
    Mistake("an entry clears SCG0", "interrupts.py",
            "registers.set(SR, status & SCG0_BIT)", "registers.set(SR, 0)"),
    Mistake("an entry leaves the flags of SR", "interrupts.py",
            "registers.set(SR, status & SCG0_BIT)",
            "registers.set(SR, status & (SCG0_BIT | 0x107))"),
    Mistake("an entry writes SR without bits 19:16 of PC", "interrupts.py",
            "status | counter >> 16 << 12)", "status)"),
    Mistake("an entry writes SR first", "interrupts.py",
            "    bus.write(stack - 2 & ADDRESS_MASK, \"w\", counter & 0xFFFF)\n"
            "    bus.write(stack - 4 & ADDRESS_MASK, \"w\", status | counter >> 16 << 12)\n",
            "    bus.write(stack - 4 & ADDRESS_MASK, \"w\", status | counter >> 16 << 12)\n"
            "    bus.write(stack - 2 & ADDRESS_MASK, \"w\", counter & 0xFFFF)\n",
            ),
    Mistake("an entry reads the vector first", "interrupts.py",
            "    bus.write(stack - 2 & ADDRESS_MASK, \"w\", counter & 0xFFFF)\n"
            "    bus.write(stack - 4 & ADDRESS_MASK, \"w\", status | counter >> 16 << 12)\n"
            "    target = bus.read(line.vector, \"w\")\n",
            "    target = bus.read(line.vector, \"w\")\n"
            "    bus.write(stack - 2 & ADDRESS_MASK, \"w\", counter & 0xFFFF)\n"
            "    bus.write(stack - 4 & ADDRESS_MASK, \"w\", status | counter >> 16 << 12)\n"),
    Mistake("an entry keeps bit 0 of the vector's word", "interrupts.py",
            "registers.set(PC, target & 0xFFFE)", "registers.values[PC] = target"),
    Mistake("an entry leaves the watchdog's flag", "system.py",
            "        self.plain[SFRIFG1] &= ~WATCHDOG_BIT", "        pass"),
    Mistake("an entry clears its flag before it writes", "interrupts.py",
            "    bus.write(stack - 2 & ADDRESS_MASK, \"w\", counter & 0xFFFF)\n"
            "    bus.write(stack - 4 & ADDRESS_MASK, \"w\", status | counter >> 16 << 12)\n"
            "    target = bus.read(line.vector, \"w\")\n"
            "    registers.set(SP, stack - 4 & ADDRESS_MASK)\n"
            "    registers.set(SR, status & SCG0_BIT)\n"
            "    registers.set(PC, target & 0xFFFE)\n"
            "    line.clear()\n",
            "    line.clear()\n"
            "    bus.write(stack - 2 & ADDRESS_MASK, \"w\", counter & 0xFFFF)\n"
            "    bus.write(stack - 4 & ADDRESS_MASK, \"w\", status | counter >> 16 << 12)\n"
            "    target = bus.read(line.vector, \"w\")\n"
            "    registers.set(SP, stack - 4 & ADDRESS_MASK)\n"
            "    registers.set(SR, status & SCG0_BIT)\n"
            "    registers.set(PC, target & 0xFFFE)\n"),
    Mistake("an entry clears all of SFRIFG1", "system.py",
            "        self.plain[SFRIFG1] &= ~WATCHDOG_BIT", "        self.plain[SFRIFG1] = 0"),
    Mistake("the watchdog's line doesn't ask for WDTIE", "system.py",
            "return self.plain[SFRIE1] & self.plain[SFRIFG1] & WATCHDOG_BIT != 0",
            "return self.plain[SFRIFG1] & WATCHDOG_BIT != 0"),
)

TICKS = (
    Mistake("the stimulus comes behind the owner", "chip.py",
            "        self.stimulus(events)\n        lines_of_events = len(self.lines)\n"
            "        self.take_edges()\n        self.owner_acts()\n",
            "        lines_of_events = len(self.lines)\n"
            "        self.take_edges()\n        self.owner_acts()\n"
            "        self.stimulus(events)\n"),
    Mistake("the edges come behind the owner", "chip.py",
            "        self.take_edges()\n        self.owner_acts()\n",
            "        self.owner_acts()\n        self.take_edges()\n"),
    Mistake("the events of a tick come backward", "chip.py",
            "for event in events:", "for event in reversed(events):"),
    Mistake("events of a boot are lost", "chip.py",
            "        for event in events:",
            "        if not self.is_booted():\n            return\n"
            "        for event in events:"),
    Mistake("the watchdog counts in a boot", "chip.py",
            "        if not self.is_booted():\n            return\n        edges", "        edges"),
    Mistake("a boot takes a tick less", "boot.py",
            "        return Place.SIGNATURE\n", "        return self.look_at_signature()\n"),
    Mistake("the greatest cause is taken", "chip.py",
            "cause = min(self.requests)", "cause = max(self.requests)"),
    Mistake("FFFFh is a reset vector like others", "chip.py",
            "self.dead = vector == NO_VECTOR", "self.dead = False"),
    Mistake("FFFEh is no reset vector", "chip.py", "NO_VECTOR = 0xFFFF", "NO_VECTOR = 0xFFFE"),
    Mistake("the reset vector may be odd", "chip.py",
            "self.registers.set(PC, vector & 0xFFFE)", "self.registers.values[PC] = vector"),
    Mistake("CPUOFF comes before interrupts", "chip.py",
            "line = interrupts.accepted(self.nmi, self.interrupt_lines, status)",
            "line = None if status & CPUOFF_BIT else "
            "interrupts.accepted(self.nmi, self.interrupt_lines, status)"),
    Mistake("CPUOFF is ignored", "chip.py", "elif status & CPUOFF_BIT:", "elif False:"),
    Mistake("an instruction takes a tick more", "chip.py",
            "self.busy = outcome.cycles - 1", "self.busy = outcome.cycles"),
    Mistake("a reserved word is busy", "chip.py",
            "            self.requests.add(Cause.RESERVED_WORD)\n",
            "            self.requests.add(Cause.RESERVED_WORD)\n            self.busy = 3\n",
            "the reset that a reserved word asks for is taken in the same tick, and makes busy 0"),
    Mistake("a PUC leaves busy", "chip.py",
            "        self.requests.clear()\n        self.busy = 0\n",
            "        self.requests.clear()\n"),
    Mistake("a PUC leaves SR", "chip.py",
            "        self.registers.set(SR, 0)\n        self.reset_units",
            "        self.reset_units"),
    Mistake("a PUC clears R4 to R15", "chip.py",
            "        self.registers.set(SR, 0)\n        self.reset_units",
            "        for register in range(2, 16):\n            self.registers.set(register, 0)\n"
            "        self.reset_units"),
    Mistake("a BOR leaves the registers", "chip.py",
            "        for register in range(16):\n            self.registers.set(register, 0)\n",
            "        self.registers.set(SR, 0)\n"),
    Mistake("a BOR boots no more", "chip.py",
            "        self.boot.restart()\n        self.reset_units",
            "        self.load_reset_vector()\n        self.reset_units"),
    Mistake("a reset leaves the watchdog", "chip.py",
            "        self.watchdog.reset()\n", ""),
    Mistake("a reset leaves the ports", "chip.py", "        self.ports.reset()\n", ""),
    Mistake("other requests stay", "chip.py",
            "        self.requests.clear()\n", "        self.requests.discard(cause)\n"),
    Mistake("RST stands behind PIN", "chip.py",
            "        self.compare_levels()\n        self.number += 1\n",
            "        resets = [line for line in self.lines\n"
            "                  if line.split()[1] in (\"RST\", \"DEAD\")]\n"
            "        self.lines = [line for line in self.lines if line not in resets]\n"
            "        self.compare_levels()\n        self.lines += resets\n"
            "        self.number += 1\n"),
    Mistake("pins are written from bit 0 on", "trace.py",
            "for bit in reversed(range(8))", "for bit in range(8)"),
)

MISTAKES = MEMORY + SYSTEM + WATCHDOG + PORTS + INTERRUPTS + TICKS
