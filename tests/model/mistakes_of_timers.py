"""Mistakes in the timers."""

from mistake import Mistake

STEPS = (
    Mistake("up counts to CCR0 + 1", "timers.py",
            "        elif mode is Mode.UP:\n            self.step_up_to(limit)",
            "        elif mode is Mode.UP:\n            self.step_up_to(limit + 1)"),
    Mistake("up goes on above CCR0", "timers.py",
            "        if self.count < limit:\n            self.count += 1\n        else:\n"
            "            self.count = 0",
            "        if self.count != limit:\n            self.count = self.count + 1 & WORD\n"
            "        else:\n            self.count = 0"),
    Mistake("up doesn't stop at a CCR0 of 0", "timers.py",
            "        elif limit == 0:\n", "        elif limit == 0 and mode is Mode.UP_DOWN:\n"),
    Mistake("up/down doesn't stop at a CCR0 of 0", "timers.py",
            "        elif limit == 0:\n",
            "        elif limit == 0 and mode is Mode.UP_DOWN and self.count:\n"
            "            self.step_downward()\n        elif limit == 0:\n"),
    Mistake("a CCR0 of 0 clears R", "timers.py",
            "CCR0 of 0\")\n", "CCR0 of 0\")\n            self.count = 0\n"),
    Mistake("a step that does nothing compares", "timers.py",
            "CCR0 of 0\")\n            return\n",
            "CCR0 of 0\")\n            self.compare()\n            return\n"),
    Mistake("continuous stops at CCR0", "timers.py",
            "self.step_up_to(WORD)", "self.step_up_to(limit or WORD)"),
    Mistake("continuous sets no IFG", "timers.py",
            "            self.step_up_to(WORD)\n",
            "            flag = self.control & FLAG_BIT\n            self.step_up_to(WORD)\n"
            "            self.control = self.control & ~FLAG_BIT | flag\n"),
    Mistake("IFG is set when R comes to CCR0", "timers.py",
            "        if self.count < limit:\n            self.count += 1\n        else:\n"
            "            self.count = 0\n            self.overflow()",
            "        if self.count < limit:\n            self.count += 1\n"
            "            if self.count == limit:\n                self.overflow()\n"
            "        else:\n            self.count = 0"),
    Mistake("up/down stays at CCR0 for a step", "timers.py",
            "            self.count -= 1\n            self.upward = False",
            "            self.upward = False"),
    Mistake("up/down above CCR0 goes to CCR0", "timers.py",
            "            self.count -= 1\n            self.upward = False",
            "            self.count = limit - 1\n            self.upward = False"),
    Mistake("up/down sets IFG on its way up from 0", "timers.py",
            "        if self.count > 1:\n            self.count -= 1\n        else:\n"
            "            self.count = 0\n            self.upward = True\n"
            "            self.overflow()",
            "        if self.count > 1:\n            self.count -= 1\n"
            "        elif self.count == 1:\n"
            "            self.count = 0\n        else:\n            self.upward = True\n"
            "            self.overflow()"),
    Mistake("up/down turns at 0 without a step of its own", "timers.py",
            "        if self.count > 1:\n            self.count -= 1\n        else:\n",
            "        if self.count == 0:\n            self.upward = True\n"
            "            self.count = 1\n            self.overflow()\n"
            "        elif self.count > 1:\n            self.count -= 1\n        else:\n"),
    Mistake("up/down sets IFG at CCR0 too", "timers.py",
            "            self.upward = False\n",
            "            self.upward = False\n            self.overflow()\n"),
    Mistake("the other modes turn the direction upward", "timers.py",
            "    def step_up_to(self, limit: int) -> None:\n",
            "    def step_up_to(self, limit: int) -> None:\n        self.upward = True\n"),
    Mistake("a stop turns the direction upward", "timers.py",
            "        if value & mask & CLEAR_BIT:\n",
            "        if not self.control & 0x0030:\n            self.upward = True\n"
            "        if value & mask & CLEAR_BIT:\n"),
    Mistake("a write of R turns the direction upward", "timers.py",
            "            self.count = merged(self.count, value, mask)\n",
            "            self.count = merged(self.count, value, mask)\n"
            "            self.upward = True\n"),
)

EDGES = (
    Mistake("the divider ID is ignored", "timers.py",
            "return (1 << (self.control >> DIVIDER_SHIFT & 3)) * (self.expansion + 1)",
            "return self.expansion + 1"),
    Mistake("EX0 divides by its value", "timers.py",
            "* (self.expansion + 1)", "* max(1, self.expansion)"),
    Mistake("the divisors are added", "timers.py",
            "* (self.expansion + 1)", "+ self.expansion"),
    Mistake("the prescaler asks for its divisor alone", "timers.py",
            "if self.prescaler >= self.divisor():", "if self.prescaler == self.divisor():"),
    Mistake("a step comes one edge late", "timers.py",
            "if self.prescaler >= self.divisor():", "if self.prescaler > self.divisor():"),
    Mistake("a write of CTL clears the prescaler", "timers.py",
            "        if value & mask & CLEAR_BIT:\n",
            "        self.prescaler = 0\n        if value & mask & CLEAR_BIT:\n"),
    Mistake("a write of EX0 clears the prescaler", "timers.py",
            "            self.expansion = merged(",
            "            self.prescaler = 0\n            self.expansion = merged("),
    Mistake("edges are counted while MC is 0", "timers.py",
            "        if self.control >> MODE_SHIFT & 3 == Mode.STOPPED:\n            return\n",
            "        if self.control >> MODE_SHIFT & 3 == Mode.STOPPED:\n"
            "            self.prescaler += self.control >> SOURCE_SHIFT & 3 == SMCLK\n"
            "            return\n"),
    Mistake("a stop clears the prescaler", "timers.py",
            "        if self.control >> MODE_SHIFT & 3 == Mode.STOPPED:\n            return\n",
            "        if self.control >> MODE_SHIFT & 3 == Mode.STOPPED:\n"
            "            self.prescaler = 0\n            return\n"),
    Mistake("a CCR0 of 0 stops the prescaler", "timers.py",
            "        self.prescaler += 1\n",
            "        if self.compare_values[0] == 0 and self.control & 0x0010:\n"
            "            return\n"
            "        self.prescaler += 1\n"),
    Mistake("the pin's clock is SMCLK", "timers.py",
            "or source == SMCLK and edges.smclk", "or source != ACLK and edges.smclk"),
    Mistake("the sources are exchanged", "timers.py", "ACLK = 1\nSMCLK = 2", "ACLK = 2\nSMCLK = 1"),
)

REGISTERS = (
    Mistake("CLR is read", "timers.py",
            "CONTROL_BITS = 0x03F3", "CONTROL_BITS = 0x03F7"),
    Mistake("CTL keeps bits 15:10", "timers.py",
            "CONTROL_BITS = 0x03F3", "CONTROL_BITS = 0xFFF3"),
    Mistake("CLR leaves R", "timers.py",
            "        if value & mask & CLEAR_BIT:\n            self.count = 0\n",
            "        if value & mask & CLEAR_BIT:\n"),
    Mistake("CLR leaves the prescaler", "timers.py",
            "            self.count = 0\n            self.prescaler = 0\n",
            "            self.count = 0\n"),
    Mistake("CLR leaves the direction", "timers.py",
            "            self.prescaler = 0\n            self.upward = True\n\n    # Interrupts",
            "            self.prescaler = 0\n\n    # Interrupts"),
    Mistake("CLR clears IFG", "timers.py",
            "            self.prescaler = 0\n            self.upward = True\n\n    # Interrupts",
            "            self.prescaler = 0\n            self.upward = True\n"
            "            self.control &= ~FLAG_BIT\n\n    # Interrupts"),
    Mistake("CLR drops the other bits", "timers.py",
            "        self.control = merged(self.control, value, mask) & CONTROL_BITS\n"
            "        if value & mask & CLEAR_BIT:\n",
            "        if not value & mask & CLEAR_BIT:\n"
            "            self.control = merged(self.control, value, mask) & CONTROL_BITS\n"
            "        else:\n"),
    Mistake("a byte to the upper half of CTL holds a CLR", "timers.py",
            "if value & mask & CLEAR_BIT:", "if (value | value >> 8) & CLEAR_BIT:"),
    Mistake("EX0 keeps 16 bits", "timers.py",
            "EXPANSION_BITS = 0x0007", "EXPANSION_BITS = 0xFFFF"),
    Mistake("TB0 has three compare registers", "timers.py",
            'Timer("TB0", 0x03C0, 7,', 'Timer("TB0", 0x03C0, 3,'),
    Mistake("TB0 has six compare registers", "timers.py",
            'Timer("TB0", 0x03C0, 7,', 'Timer("TB0", 0x03C0, 6,'),
    Mistake("TA1 has seven compare registers", "timers.py",
            'Timer("TA1", 0x0380, 3,', 'Timer("TA1", 0x0380, 7,'),
    Mistake("a timer's block has 32 bytes", "timers.py",
            "BLOCK_SIZE = 0x30", "BLOCK_SIZE = 0x20"),
    Mistake("a write of R compares", "timers.py",
            "            self.count = merged(self.count, value, mask)\n",
            "            self.count = merged(self.count, value, mask)\n"
            "            self.compare()\n"),
    Mistake("a write of CCRn compares", "timers.py",
            "                bank[index] = merged(bank[index], value, mask)\n",
            "                bank[index] = merged(bank[index], value, mask)\n"
            "                if bank is self.compare_values and bank[index] == self.count:\n"
            "                    self.compare_controls[index] |= COMPARE_FLAG_BIT\n"),
    Mistake("a write of CCTLn leaves CCIFG", "timers.py",
            "                bank[index] = merged(bank[index], value, mask)\n",
            "                kept = bank[index] & COMPARE_FLAG_BIT\n"
            "                bank[index] = merged(bank[index], value, mask)\n"
            "                if bank is self.compare_controls:\n"
            "                    bank[index] |= kept\n"),
    Mistake("a reset leaves R", "timers.py",
            "        self.control = 0\n        self.count = 0\n",
            "        self.control = 0\n        self.count = getattr(self, \"count\", 0)\n"),
    Mistake("a reset leaves the prescaler", "timers.py",
            "        self.prescaler = 0\n        self.upward = True\n\n    # Registers",
            "        self.prescaler = getattr(self, \"prescaler\", 0)\n"
            "        self.upward = True\n\n    # Registers"),
    Mistake("a reset leaves the direction", "timers.py",
            "        self.prescaler = 0\n        self.upward = True\n\n    # Registers",
            "        self.prescaler = 0\n"
            "        self.upward = getattr(self, \"upward\", True)\n\n    # Registers"),
)

INTERRUPTS = (
    Mistake("IV tells the greatest n", "timers.py",
            "for index in range(1, self.compares):",
            "for index in reversed(range(1, self.compares)):"),
    Mistake("IV tells CCTL0", "timers.py",
            "for index in range(1, self.compares):", "for index in range(0, self.compares):"),
    Mistake("IV tells IFG first", "timers.py",
            "        for index in range(1, self.compares):\n",
            "        if self.control & 3 == 3:\n            return IV_OF_OVERFLOW\n"
            "        for index in range(1, self.compares):\n"),
    Mistake("IV of TA tells IFG as 0Ah", "timers.py",
            "        return number\n\n    def first_line",
            "        as_ta = number == IV_OF_OVERFLOW and self.compares == 3\n"
            "        return 0x0A if as_ta else number\n\n    def first_line"),
    Mistake("IV doesn't ask for CCIE", "timers.py",
            "            if self.compare_controls[index] & both == both:\n",
            "            if self.compare_controls[index] & COMPARE_FLAG_BIT:\n"),
    Mistake("IV doesn't ask for IE", "timers.py",
            "return IV_OF_OVERFLOW if self.control & both == both else 0",
            "return IV_OF_OVERFLOW if self.control & FLAG_BIT else 0"),
    Mistake("a read of IV leaves IFG", "timers.py",
            "            self.control &= ~FLAG_BIT\n", "            pass\n"),
    Mistake("a read of IV leaves CCIFG", "timers.py",
            "            self.compare_controls[number // 2] &= ~COMPARE_FLAG_BIT\n",
            "            pass\n"),
    Mistake("a timer's write of IV does nothing", "timers.py",
            "        elif distance == IV:\n            self.take_interrupt_number()\n",
            "        elif distance == IV:\n            pass\n"),
    Mistake("an entry leaves CCIFG of CCTL0", "timers.py",
            "        self.compare_controls[0] &= ~COMPARE_FLAG_BIT\n", "        pass\n"),
    Mistake("the entry of the other line clears its flag", "interrupts.py",
            "lines.append(Line(other, timer.other_line))",
            "lines.append(Line(other, timer.other_line, timer.take_interrupt_number))"),
    Mistake("the first line doesn't ask for CCIE", "timers.py",
            "return self.compare_controls[0] & both == both",
            "return self.compare_controls[0] & COMPARE_FLAG_BIT != 0"),
    Mistake("compare flags are of R before the step", "timers.py",
            "        mode = self.mode()\n        limit = self.compare_values[0]\n",
            "        mode = self.mode()\n        limit = self.compare_values[0]\n"
            "        before = self.count\n"
            "        for index, value in enumerate(self.compare_values):\n"
            "            if value == before and (limit or mode is Mode.CONTINUOUS):\n"
            "                self.compare_controls[index] |= COMPARE_FLAG_BIT\n"),
    Mistake("one compare flag is set at most", "timers.py",
            "                self.tell(f\"CCIFG{index} set\")\n",
            "                self.tell(f\"CCIFG{index} set\")\n                break\n"),
    Mistake("CCR0 is compared in up mode alone", "timers.py",
            "            if value == self.count:\n",
            "            if value == self.count and (index or self.mode() is Mode.UP):\n"),
    Mistake("the vectors of TA0 and TA1 are exchanged", "interrupts.py",
            '"TA0": (0xFFEA, 0xFFE8), "TA1": (0xFFE2, 0xFFE0)',
            '"TA1": (0xFFEA, 0xFFE8), "TA0": (0xFFE2, 0xFFE0)'),
    Mistake("the timers count in a boot", "chip.py",
            "        if not self.is_booted():\n            return\n        edges",
            "        if not self.is_booted():\n"
            "            for timer in self.timers:\n"
            "                timer.take(edges_of(self.number, 0))\n"
            "            return\n        edges",
            "a timer is stopped by each reset, and none can be started before the boot's end"),
    Mistake("a timer that was started counts in its own tick", "chip.py",
            "        self.take_edges()\n        self.owner_acts()\n",
            "        timers, self.timers = self.timers, ()\n"
            "        self.take_edges()\n"
            "        self.timers = timers\n"
            "        edges = edges_of(self.number, self.registers.get(SR))\n"
            "        booted = self.is_booted()\n"
            "        self.owner_acts()\n"
            "        for timer in timers:\n"
            "            if booted:\n"
            "                timer.take(edges)\n"),
    Mistake("a reset leaves the timers", "chip.py",
            "        for timer in self.timers:\n            timer.reset()\n", ""),
)

MISTAKES = STEPS + EDGES + REGISTERS + INTERRUPTS
