"""Mistakes in DMA. The names of all of them begin with "dma", so that they can be tried alone."""

from mistake import Mistake

COUNTS_OF_A_TRANSFER = """\
        self.count_transfer()
        if self.size == 0:
            self.finish()
        if self.mode() in BURST_MODES and self.count % TRANSFERS_OF_A_BURST == 0:
            self.rest = REST
            self.tell("rest")
"""
COUNTS_WITH_THE_END = """\
        self.count_transfer()
        ended = self.size == 0
        if ended:
            self.finish()
        if self.mode() in BURST_MODES and self.count % TRANSFERS_OF_A_BURST == 0:
            self.rest = REST
"""
READ = "        value = bus.read(source, source_width)\n"
WRITE = "        bus.write(destination, destination_width, value)\n"
TURN = "        elif self.dma.acts(self.bus):\n            return\n"
COPY_AT_THE_END = "        self.control |= FLAG_BIT\n        self.copy_registers()\n"
WAIT = "        self.waiting = 1 if self.mode() in SINGLE_MODES else self.size\n"

TICKS = (
    Mistake("dma has no second tick", "dma.py",
            "                self.second_tick = True\n", ""),
    Mistake("dma waits until the processor isn't busy", "chip.py",
            TURN,
            "        elif self.busy == 0 and self.dma.acts(self.bus):\n            return\n"),
    Mistake("dma lets busy fall in its ticks", "chip.py",
            TURN,
            "        elif self.dma.acts(self.bus):\n            self.busy = max(0, self.busy - 1)\n"
            "            return\n"),
    Mistake("dma sleeps with the processor", "chip.py",
            "        elif self.dma.acts(self.bus):\n",
            "        elif not self.registers.get(SR) & CPUOFF_BIT and self.dma.acts(self.bus):\n"),
    Mistake("dma wakes the processor", "chip.py",
            TURN,
            "        elif self.dma.acts(self.bus):\n"
            "            self.registers.set(SR, self.registers.get(SR) & ~CPUOFF_BIT)\n"
            "            return\n"),
    Mistake("dma's greatest channel goes first", "dma.py",
            "        for channel in self.channels:\n            if channel.is_due():",
            "        for channel in reversed(self.channels):\n            if channel.is_due():"),
    Mistake("dma moves in the second tick", "dma.py",
            "        if self.second_tick:\n            self.second_tick = False\n"
            "            return True\n        for channel in self.channels:\n"
            "            if channel.is_due():\n                self.second_tick = True\n"
            "                channel.transfer(bus)\n                return True\n",
            "        if self.second_tick:\n            self.second_tick = False\n"
            "            if self.channel.is_due():\n                self.channel.transfer(bus)\n"
            "            return True\n        for channel in self.channels:\n"
            "            if channel.is_due():\n                self.second_tick = True\n"
            "                self.channel = channel\n                return True\n"),
    Mistake("dma comes before a boot step", "chip.py",
            "        if not self.is_booted():\n            self.boot_acts()\n" + TURN,
            "        if self.dma.acts(self.bus):\n            return\n"
            "        elif not self.is_booted():\n            self.boot_acts()\n",
            "a BOR resets DMA, so no transfer is due in a boot and no second tick is left"),
)

RESTS = (
    Mistake("dma's rest isn't lowered in a boot", "chip.py",
            "            self.boot_acts()\n        elif self.dma",
            "            self.boot_acts()\n            return\n        elif self.dma",
            "a BOR makes the rests 0, so none is above 0 in a boot"),
    Mistake("dma's rest isn't lowered in busy ticks", "chip.py",
            "            self.busy -= 1\n            return\n",
            "            self.busy -= 1\n            for channel in self.dma.channels:\n"
            "                channel.rest += channel.rest > 0\n            return\n"),
    Mistake("dma's rest isn't lowered while the processor is off", "chip.py",
            "        self.dma.lower_rests()\n",
            "        if not self.registers.get(SR) & CPUOFF_BIT:\n"
            "            self.dma.lower_rests()\n"),
    Mistake("dma's rest is lowered in its own ticks", "chip.py",
            TURN,
            "        elif self.dma.acts(self.bus):\n            self.dma.lower_rests()\n"
            "            return\n"),
    Mistake("dma's rest is one tick", "dma.py", "REST = 2\n", "REST = 1\n"),
    Mistake("dma's rest is three ticks", "dma.py", "REST = 2\n", "REST = 3\n"),
    Mistake("dma's burst has five transfers", "dma.py",
            "TRANSFERS_OF_A_BURST = 4\n", "TRANSFERS_OF_A_BURST = 5\n"),
    Mistake("dma counts a burst for each block", "dma.py",
            COPY_AT_THE_END,
            "        self.control |= FLAG_BIT\n        self.count = 0\n"
            "        self.copy_registers()\n"),
    Mistake("dma makes the count 0 at size 0, behind the rest", "dma.py",
            COUNTS_OF_A_TRANSFER,
            COUNTS_WITH_THE_END + "        if ended:\n            self.count = 0\n"),
    Mistake("dma counts the fourth transfer by its size", "dma.py",
            "self.count % TRANSFERS_OF_A_BURST == 0", "self.size % TRANSFERS_OF_A_BURST == 0"),
    Mistake("dma counts under its burst modes alone", "dma.py",
            "        self.count += 1\n",
            "        self.count += self.mode() in BURST_MODES\n"),
    Mistake("dma rests under DT 1 and 5 too", "dma.py",
            "BURST_MODES = (2, 3, 6, 7)  #", "BURST_MODES = (1, 2, 3, 5, 6, 7)  #"),
    Mistake("dma doesn't rest under DT 3", "dma.py",
            "BURST_MODES = (2, 3, 6, 7)  #", "BURST_MODES = (2, 6, 7)  #"),
    Mistake("dma doesn't rest at the end of a block", "dma.py",
            COUNTS_OF_A_TRANSFER,
            COUNTS_WITH_THE_END + "        if ended:\n            self.rest = 0\n"),
    Mistake("dma's rest holds under every DT", "dma.py",
            "return self.mode() not in BURST_MODES or self.rest == 0", "return self.rest == 0"),
    Mistake("dma's rest is made 0 by a trigger", "dma.py",
            WAIT,
            "        self.rest = 0\n" + WAIT),
    Mistake("dma's count is made 0 by a trigger", "dma.py",
            WAIT,
            "        self.count = 0\n" + WAIT),
    Mistake("dma's rest stands through EN", "dma.py",
            "        self.count = 0\n        self.rest = 0\n\n    def copy_registers",
            "        self.count = 0\n\n    def copy_registers"),
    Mistake("dma's count stands through EN", "dma.py",
            "        self.count = 0\n        self.rest = 0\n\n    def copy_registers",
            "        self.rest = 0\n\n    def copy_registers"),
    Mistake("dma's rest is one of all channels", "dma.py",
            "            if channel.is_due():",
            "            if channel.is_due() and not any(c.rest for c in self.channels):"),
)

COUNTS = (
    Mistake("dma counts behind the accesses", "dma.py",
            COUNTS_OF_A_TRANSFER + READ + WRITE, READ + WRITE + COUNTS_OF_A_TRANSFER),
    Mistake("dma counts between the accesses", "dma.py",
            COUNTS_OF_A_TRANSFER + READ + WRITE, READ + COUNTS_OF_A_TRANSFER + WRITE),
    Mistake("dma notes the addresses behind the steps", "dma.py",
            READ,
            "        source, destination = self.source, self.destination\n" + READ),
    Mistake("dma's address is modulo 64 KB", "dma.py",
            "        return address + distance & ADDRESS_MASK",
            "        return address & ~0xFFFF | address + distance & 0xFFFF"),
    Mistake("dma's address steps down modulo 64 KB", "dma.py",
            "        return address - distance & ADDRESS_MASK",
            "        return address & ~0xFFFF | address - distance & 0xFFFF"),
    Mistake("dma's address isn't modulo 2^20", "dma.py",
            "        return address + distance & ADDRESS_MASK", "        return address + distance",
            "the bus takes the address modulo 2^20 itself, and no register shows a working one"),
    Mistake("dma steps by 2 for bytes", "dma.py",
            "distance = 1 if width == \"b\" else 2", "distance = 2"),
    Mistake("dma steps by 1 for words", "dma.py",
            "distance = 1 if width == \"b\" else 2", "distance = 1"),
    Mistake("dma steps both addresses by the source's width", "dma.py",
            "            self.width(DESTINATION_BYTE_BIT),\n",
            "            self.width(SOURCE_BYTE_BIT),\n"),
    Mistake("dma's steps are exchanged", "dma.py",
            "    DOWN = 2\n    UP = 3", "    DOWN = 3\n    UP = 2"),
    Mistake("dma's INCR of 1 steps up", "dma.py", "    if increment == Step.UP:",
            "    if increment in (1, Step.UP):"),
    Mistake("dma's INCRs are exchanged", "dma.py",
            "DESTINATION_STEP_SHIFT = 10\nSOURCE_STEP_SHIFT = 8",
            "DESTINATION_STEP_SHIFT = 8\nSOURCE_STEP_SHIFT = 10"),
    Mistake("dma's bytes are exchanged", "dma.py",
            "DESTINATION_BYTE_BIT = 0x0080\nSOURCE_BYTE_BIT = 0x0040",
            "DESTINATION_BYTE_BIT = 0x0040\nSOURCE_BYTE_BIT = 0x0080"),
    Mistake("dma keeps the upper byte from byte to word", "dma.py",
            "        bus.write(destination, destination_width, value)",
            "        if (source_width, destination_width) == (\"b\", \"w\"):\n"
            "            destination_width = \"b\"\n"
            "            destination &= ~1\n"
            "        bus.write(destination, destination_width, value)"),
    Mistake("dma doubles the byte from byte to word", "dma.py",
            "        bus.write(destination, destination_width, value)",
            "        if source_width == \"b\":\n            value *= 0x101\n"
            "        bus.write(destination, destination_width, value)"),
    Mistake("dma takes the upper byte at an odd destination", "dma.py",
            "        bus.write(destination, destination_width, value)",
            "        if source_width == \"w\" and destination_width == \"b\" and destination & 1:\n"
            "            value >>= 8\n"
            "        bus.write(destination, destination_width, value)"),
    Mistake("dma reads a byte where it writes one", "dma.py",
            "        value = bus.read(source, source_width)",
            "        value = bus.read(source, destination_width)"),
)

ENDS = (
    Mistake("dma keeps EN in DT 0", "dma.py",
            "ONE_TIME_MODES = (0, 1, 2, 3)", "ONE_TIME_MODES = (1, 2, 3)"),
    Mistake("dma keeps EN in DT 3", "dma.py",
            "ONE_TIME_MODES = (0, 1, 2, 3)", "ONE_TIME_MODES = (0, 1, 2)"),
    Mistake("dma clears EN in DT 4", "dma.py",
            "ONE_TIME_MODES = (0, 1, 2, 3)", "ONE_TIME_MODES = (0, 1, 2, 3, 4)"),
    Mistake("dma clears EN in DT 5", "dma.py",
            "ONE_TIME_MODES = (0, 1, 2, 3)", "ONE_TIME_MODES = (0, 1, 2, 3, 5)"),
    Mistake("dma forgets to make transfers wait again", "dma.py",
            "REPEATED_BURST_MODES = (6, 7)", "REPEATED_BURST_MODES = ()"),
    Mistake("dma makes transfers wait again in DT 5", "dma.py",
            "REPEATED_BURST_MODES = (6, 7)", "REPEATED_BURST_MODES = (5, 6, 7)"),
    Mistake("dma makes transfers wait again in DT 6 alone", "dma.py",
            "REPEATED_BURST_MODES = (6, 7)", "REPEATED_BURST_MODES = (6,)"),
    Mistake("dma copies nothing at the end of a block", "dma.py",
            COPY_AT_THE_END,
            "        self.control |= FLAG_BIT\n        self.size = self.registers[SZ]\n"),
    Mistake("dma sets IFG where IE is 1 alone", "dma.py",
            COPY_AT_THE_END,
            "        if self.control & INTERRUPT_BIT:\n            self.control |= FLAG_BIT\n"
            "        self.copy_registers()\n"),
    Mistake("dma sets IFG with each transfer", "dma.py",
            "        self.count += 1\n",
            "        self.count += 1\n        self.control |= FLAG_BIT\n"),
    Mistake("dma's EN clears IFG", "dma.py",
            "    def start(self) -> None:\n",
            "    def start(self) -> None:\n        self.control &= ~FLAG_BIT\n"),
)

REGISTERS = (
    Mistake("dma's SZ reads the register", "dma.py",
            "        if distance == SZ and self.enabled():\n            return self.size\n", ""),
    Mistake("dma's SZ reads the working size always", "dma.py",
            "        if distance == SZ and self.enabled():\n", "        if distance == SZ:\n"),
    Mistake("dma's SZ is written to the working size", "dma.py",
            "            self.registers[distance] = word & REGISTER_BITS[distance]\n",
            "            self.registers[distance] = word & REGISTER_BITS[distance]\n"
            "            if distance == SZ and self.enabled():\n"
            "                self.size = word\n"),
    Mistake("dma's byte of SZ goes to what SZ reads", "dma.py",
            "            word = merged(self.registers[distance], value, mask)\n",
            "            word = merged(self.read(distance), value, mask)\n"),
    Mistake("dma's SA is written to the working address", "dma.py",
            "            self.registers[distance] = word & REGISTER_BITS[distance]\n",
            "            self.registers[distance] = word & REGISTER_BITS[distance]\n"
            "            self.source = self.address_at(SOURCE_LOW)\n"),
    Mistake("dma's SA shows the working address", "dma.py",
            "        return self.registers.get(distance, 0)\n",
            "        if distance == SOURCE_LOW and self.enabled():\n"
            "            return self.source & WORD\n"
            "        return self.registers.get(distance, 0)\n"),
    Mistake("dma's addresses have 16 bits above", "dma.py",
            "SOURCE_HIGH: 0x000F", "SOURCE_HIGH: 0xFFFF"),
    Mistake("dma's REQ is read", "dma.py",
            "CONTROL_BITS = 0x7FFE  #", "CONTROL_BITS = 0x7FFF  #"),
    Mistake("dma's bit 15 is read", "dma.py",
            "CONTROL_BITS = 0x7FFE  #", "CONTROL_BITS = 0xFFFE  #"),
    Mistake("dma's ABORT isn't read", "dma.py",
            "CONTROL_BITS = 0x7FFE  #", "CONTROL_BITS = 0x7FFC  #"),
    Mistake("dma's LEVEL isn't read", "dma.py",
            "CONTROL_BITS = 0x7FFE  #", "CONTROL_BITS = 0x7FDE  #"),
    Mistake("dma's ABORT drops what waits", "dma.py",
            "        if not self.enabled():\n            self.waiting = 0\n",
            "        if not self.enabled() or value & 2:\n            self.waiting = 0\n"),
    Mistake("dma's DMACTL0 keeps all bits", "dma.py", "DMACTL0: 0x1F1F", "DMACTL0: WORD"),
    Mistake("dma's DMACTL1 has two triggers", "dma.py", "DMACTL1: 0x001F", "DMACTL1: 0x1F1F"),
    Mistake("dma's DMACTL4 reads 0", "dma.py", "DMACTL4: WORD", "DMACTL4: 0"),
    Mistake("dma's upper byte of CTL holds an EN of 0", "dma.py",
            "        if not mask & LOW_HALF:\n            return\n        if not self.enabled():\n",
            "        if not value & ENABLE_BIT:\n"),
    Mistake("dma's upper byte of CTL holds an EN and REQ", "dma.py",
            "            if distance == CTL and value & mask & REQUEST_BIT:\n",
            "            if distance == CTL and (value if mask & LOW_HALF else value >> 8) & 1:\n"),
    Mistake("dma's EN begins anew where it was 1", "dma.py",
            "        elif not was_enabled:\n", "        else:\n"),
    Mistake("dma's EN of 0 leaves what waits", "dma.py",
            "        if not self.enabled():\n            self.waiting = 0\n        elif",
            "        if self.enabled() and",
            "the write that sets EN again drops them, and none is due before"),
    Mistake("dma's EN from 0 to 1 leaves what waits", "dma.py",
            "        self.copy_registers()\n        self.waiting = 0\n",
            "        self.copy_registers()\n",
            "none waits while EN is 0: the write of EN 0 dropped them, and EN becomes 0 with none"),
    Mistake("dma's EN of 0 stops nothing", "dma.py",
            "        if self.waiting == 0 or not self.enabled():", "        if self.waiting == 0:",
            "none waits while EN is 0: the write of EN 0 dropped them, and EN becomes 0 with none"),
    Mistake("dma's EN of 0 is held up while transfers wait", "dma.py",
            "        if not self.enabled():\n            self.waiting = 0\n",
            "        if self.waiting:\n            self.control |= ENABLE_BIT\n"
            "        if not self.enabled():\n            self.waiting = 0\n"),
    Mistake("dma isn't reset", "chip.py", "        self.dma.reset()\n", ""),
)

TRIGGERS = (
    Mistake("dma takes REQ before EN", "dma.py",
            "            channel.write(distance, value, mask)\n"
            "            if distance == CTL and value & mask & REQUEST_BIT:\n"
            "                self.request(channel)\n",
            "            if distance == CTL and value & mask & REQUEST_BIT:\n"
            "                self.request(channel)\n"
            "            channel.write(distance, value, mask)\n"),
    Mistake("dma takes REQ under every number", "dma.py",
            "        if self.trigger_number(channel) == TRIGGER_BY_REQUEST:\n",
            "        if True:\n"),
    Mistake("dma's trigger adds to what waits", "dma.py",
            "            self.tell(\"trigger while waiting\")\n            return\n"
            "        self.waiting = 1",
            "            self.tell(\"trigger while waiting\")\n        self.waiting += 1"),
    Mistake("dma's trigger makes anew what waits", "dma.py",
            "            self.tell(\"trigger while waiting\")\n            return\n",
            "            self.tell(\"trigger while waiting\")\n"),
    Mistake("dma's trigger acts at size 0", "dma.py",
            "if not self.enabled() or self.size == 0:", "if not self.enabled():"),
    Mistake("dma's trigger acts while EN is 0", "dma.py",
            "if not self.enabled() or self.size == 0:", "if self.size == 0:",
            "no transfer is due while EN is 0, and the write that sets it drops what waits"),
    Mistake("dma's trigger asks for the size of the register", "dma.py",
            "if not self.enabled() or self.size == 0:",
            "if not self.enabled() or self.registers[SZ] == 0:"),
    Mistake("dma's trigger makes one transfer wait in DT 1", "dma.py",
            "SINGLE_MODES = (0, 4)", "SINGLE_MODES = (0, 1, 4)"),
    Mistake("dma's trigger makes one transfer wait in DT 5", "dma.py",
            "SINGLE_MODES = (0, 4)", "SINGLE_MODES = (0, 4, 5)"),
    Mistake("dma's trigger makes all transfers wait in DT 4", "dma.py",
            "SINGLE_MODES = (0, 4)", "SINGLE_MODES = (0,)"),
    Mistake("dma is triggered at CCIFG's rise alone", "timers.py",
            "                self.compare_controls[index] |= COMPARE_FLAG_BIT\n"
            "                self.tell(f\"CCIFG{index} set\")\n"
            "                self.trigger(self.name, index)\n",
            "                if not self.compare_controls[index] & COMPARE_FLAG_BIT:\n"
            "                    self.trigger(self.name, index)\n"
            "                self.compare_controls[index] |= COMPARE_FLAG_BIT\n"),
    Mistake("dma is triggered where CCIE is set alone", "timers.py",
            "                self.trigger(self.name, index)\n",
            "                if self.compare_controls[index] & COMPARE_ENABLE_BIT:\n"
            "                    self.trigger(self.name, index)\n"),
    Mistake("dma is triggered by a step that does nothing", "timers.py",
            "CCR0 of 0\")\n", "CCR0 of 0\")\n            self.trigger(self.name, 0)\n"),
    Mistake("dma is triggered by a write of CCIFG", "timers.py",
            "                bank[index] = merged(bank[index], value, mask)\n",
            "                bank[index] = merged(bank[index], value, mask)\n"
            "                if bank is self.compare_controls and bank[index] & 1:\n"
            "                    self.trigger(self.name, index)\n"),
    Mistake("dma is triggered by CCR1 and not CCR2", "dma.py",
            "(\"TB0\", 2): 8}", "(\"TB0\", 1): 8}"),
    Mistake("dma's triggers by TB0 are 5 and 6", "dma.py",
            "(\"TB0\", 0): 7, (\"TB0\", 2): 8}", "(\"TB0\", 0): 5, (\"TB0\", 2): 6}"),
    Mistake("dma's triggers by TA0 and TA1 are exchanged", "dma.py",
            "{(\"TA0\", 0): 1, (\"TA0\", 2): 2, (\"TA1\", 0): 3, (\"TA1\", 2): 4,",
            "{(\"TA1\", 0): 1, (\"TA1\", 2): 2, (\"TA0\", 0): 3, (\"TA0\", 2): 4,"),
    Mistake("dma's triggers of channels 0 and 1 are exchanged", "dma.py",
            "return (first, first >> 8, second)", "return (first >> 8, first, second)"),
    Mistake("dma's trigger of channel 2 is in DMACTL0", "dma.py",
            "return (first, first >> 8, second)", "return (first, first >> 8, first)"),
    Mistake("dma's timers trigger one channel at a time", "dma.py",
            "                channel.trigger(f\"{name} CCR{compare}\")\n",
            "                channel.trigger(f\"{name} CCR{compare}\")\n                return\n"),
)

INTERRUPTS = (
    Mistake("dma's IV tells the greatest channel", "dma.py",
            "        for channel in self.channels:\n            if channel.asks():",
            "        for channel in reversed(self.channels):\n            if channel.asks():"),
    Mistake("dma's IV tells 1, 2 and 3", "dma.py",
            "        number = self.interrupt_number()\n        if number:\n"
            "            self.channels[number // 2 - 1].clear_flag()\n        return number\n",
            "        number = self.interrupt_number()\n        if number:\n"
            "            self.channels[number // 2 - 1].clear_flag()\n"
            "        return number // 2\n"),
    Mistake("dma's IV asks for IFG alone", "dma.py",
            "        both = INTERRUPT_BIT | FLAG_BIT\n", "        both = FLAG_BIT\n"),
    Mistake("dma's IV clears nothing", "dma.py",
            "            self.channels[number // 2 - 1].clear_flag()\n", "            pass\n"),
    Mistake("dma's IV clears all flags", "dma.py",
            "            self.channels[number // 2 - 1].clear_flag()\n",
            "            for channel in self.channels:\n                channel.clear_flag()\n"),
    Mistake("dma's IV clears IE", "dma.py",
            "        self.control &= ~FLAG_BIT\n\n    def tell",
            "        self.control &= ~(FLAG_BIT | INTERRUPT_BIT)\n\n    def tell"),
    Mistake("dma's IV isn't cleared by a write", "dma.py",
            "        if address == DMAIV:\n            self.take_interrupt_number()\n",
            "        if address == DMAIV:\n            pass\n"),
    Mistake("dma's IV isn't cleared by a write of its upper byte", "dma.py",
            "        if address == DMAIV:\n            self.take_interrupt_number()\n",
            "        if address == DMAIV:\n            if mask & LOW_HALF:\n"
            "                self.take_interrupt_number()\n"),
    Mistake("dma's IV isn't cleared by a read of its upper byte", "bus.py",
            "        word = unit.read(address)\n",
            "        word = 0 if at == 0x050F else unit.read(address)\n"),
    Mistake("dma's IV isn't cleared by dma", "dma.py",
            READ, "        value = 2 if source == DMAIV else bus.read(source, source_width)\n"),
    Mistake("dma's entry clears the flag", "interrupts.py",
            "Line(DMA_VECTOR, dma.line)", "Line(DMA_VECTOR, dma.line, dma.take_interrupt_number)"),
    Mistake("dma has the vector FFE6h", "interrupts.py",
            "DMA_VECTOR = 0xFFE4", "DMA_VECTOR = 0xFFE6"),
    Mistake("dma's line comes behind all others", "interrupts.py",
            "key=lambda line: line.vector,",
            "key=lambda line: line.vector * (line.vector != 0xFFE4),"),
    Mistake("dma's line comes before all others", "interrupts.py",
            "key=lambda line: line.vector,",
            "key=lambda line: line.vector + 0x10000 * (line.vector == 0xFFE4),"),
)

RESETS = (
    Mistake("dma keeps the second tick in a PUC", "chip.py",
            "        self.registers.set(SR, 0)\n        self.reset_units(cause)\n",
            "        self.registers.set(SR, 0)\n        kept = self.dma.second_tick\n"
            "        self.reset_units(cause)\n        self.dma.second_tick = kept\n"),
    Mistake("dma keeps the second tick in a BOR", "chip.py",
            "        self.boot.restart()\n        self.reset_units(cause)\n",
            "        self.boot.restart()\n        kept = self.dma.second_tick\n"
            "        self.reset_units(cause)\n        self.dma.second_tick = kept\n"),
    Mistake("dma goes on through a PUC", "chip.py",
            "        self.dma.reset()\n",
            "        if cause in CAUSES_OF_BOR:\n            self.dma.reset()\n"),
    Mistake("dma keeps its triggers in a reset", "dma.py",
            "        self.controls = dict.fromkeys(CONTROL_BITS_OF_UNIT, 0)\n",
            "        self.controls = getattr(self, \"controls\", None) or dict.fromkeys(\n"
            "            CONTROL_BITS_OF_UNIT, 0)\n"),
    Mistake("dma keeps SA, DA and SZ in a reset", "dma.py",
            "        self.registers = dict.fromkeys(REGISTER_BITS, 0)\n",
            "        self.registers = getattr(self, \"registers\", None) or dict.fromkeys(\n"
            "            REGISTER_BITS, 0)\n"),
    Mistake("dma keeps working values in a reset", "dma.py",
            "        self.source = 0\n        self.destination = 0\n        self.size = 0\n",
            "        self.source = getattr(self, \"source\", 0)\n        self.destination = 0\n"
            "        self.size = getattr(self, \"size\", 0)\n",
            "the write that sets EN copies all three, and no register shows them before"),
)

MISTAKES = (
    *TICKS, *RESTS, *COUNTS, *ENDS, *REGISTERS, *TRIGGERS, *INTERRUPTS, *RESETS,
)
