"""Mistakes in the FRAM controller, in memory protection and in the NMI.

The names of all of them begin with "fram" or with "mpu", so that they can be tried alone.
"""

from mistake import Mistake

NOTE = "        self.noted.add(place)\n"
COUNT = "        self.accesses_to_fram += 1\n"
NOT_FRAM = "        if region_of(at) not in FRAM_REGIONS:\n            return False\n"
NOTE_TO_FLAGS = """\
        self.noted.add(place)

    def end_step(self) -> None:
        \"\"\"Behind the last access of a step: sets the flags, and asks for what follows.\"\"\"
        if not self.noted:
            return
        if len(self.noted) > 1:
            self.tell("several places in a step")
        for place in self.noted:
            self.flags |= 1 << place
"""
SET_FLAG = "            self.flags |= 1 << place\n"
ASK = "            self.ask_for(place)\n"
FORGET = "        self.noted.clear()\n"
RESET_OR_NMI = "        if self.resets(place):\n"
RESET_BIT_OF_A_SEGMENT = "        return self.bits_of(place) & RESET_BIT != 0\n"
PLACES = """\
        if address >= self.registers[MPUSEGB2] * BYTES_OF_A_BORDER:
            return Place.SEGMENT_3
        if address >= self.registers[MPUSEGB1] * BYTES_OF_A_BORDER:
            return Place.SEGMENT_2
        return Place.SEGMENT_1
"""
LATCH_AND_NMI_OF_RESET = """\
        self.latch.close()
        self.nmi_is_requested = False
"""
VALUES_OF_BOR = """\
            self.control = 0
            self.flags = 0
            self.registers = dict(VALUES_AFTER_BOR)
"""
ORDER = """\
    if nmi.stands():
        return nmi
    if status & GIE_BIT == 0:
        return None
    for line in lines:
        if line.stands():
            return line
    return None
"""
ENTER = """\
        self.busy = interrupts.enter(line, self.registers, self.bus) - 1
        self.busy += self.waits_of_step()
"""
DMA_TURN = "        elif self.dma.acts(self.bus):\n            return\n"
RESET_DROPS = "the reset that is asked for drops the request in the same tick"

WAITS = (
    Mistake("fram waits by the NWAITS before the step", "chip.py",
            "        each = self.fram.waits()\n",
            "        each, self.before = getattr(self, \"before\", 0), self.fram.waits()\n"),
    Mistake("fram doesn't wait in an entry", "chip.py", ENTER, ENTER.splitlines(True)[0]),
    Mistake("fram doesn't wait for the vector of an entry", "chip.py", ENTER,
            ENTER + "        self.busy -= self.fram.waits()\n"),
    Mistake("fram waits for SRAM too", "bus.py", NOT_FRAM,
            "        self.accesses_to_fram += region_of(at) is Region.SRAM\n" + NOT_FRAM),
    Mistake("fram waits for vacant addresses too", "bus.py", NOT_FRAM,
            "        self.accesses_to_fram += region_of(at) is Region.VACANT\n" + NOT_FRAM),
    Mistake("fram doesn't wait for information FRAM", "bus.py", COUNT,
            "        self.accesses_to_fram += region_of(at) is Region.MAIN\n"),
    Mistake("fram doesn't wait for writes", "bus.py", COUNT,
            "        self.accesses_to_fram += right is not Right.WRITE\n"),
    Mistake("fram doesn't wait for fetches", "bus.py", COUNT,
            "        self.accesses_to_fram += right is not Right.FETCH\n"),
    Mistake("fram doesn't wait for reads", "bus.py", COUNT,
            "        self.accesses_to_fram += right is not Right.READ\n"),
    Mistake("fram waits once for 20 bits", "execute.py",
            "        high = self.bus.read(address + 2 & ADDRESS_MASK, \"w\")\n",
            "        before = self.bus.accesses_to_fram\n"
            "        high = self.bus.read(address + 2 & ADDRESS_MASK, \"w\")\n"
            "        self.bus.accesses_to_fram = before\n"),
    Mistake("fram waits once for an instruction", "bus.py", COUNT,
            "        self.accesses_to_fram = 1\n"),
    Mistake("fram doesn't wait for what is refused", "bus.py",
            "        return self.protection.refuses(at, right, self.agent.value)\n",
            "        refused = self.protection.refuses(at, right, self.agent.value)\n"
            "        self.accesses_to_fram -= refused\n        return refused\n"),
    Mistake("fram waits for a reserved word", "chip.py",
            "            self.requests.add(Cause.RESERVED_WORD)\n",
            "            self.requests.add(Cause.RESERVED_WORD)\n"
            "            self.busy = self.waits_of_step()\n",
            "the reset that a reserved word asks for makes busy 0 in the same tick"),
    Mistake("fram waits for a transfer", "chip.py", DMA_TURN,
            "        elif self.dma.acts(self.bus):\n"
            "            self.busy += self.dma.second_tick * self.waits_of_step()\n"
            "            return\n"),
    Mistake("fram's NWAITS has four bits", "fram.py", "WAITS_BITS = 0x0070", "WAITS_BITS = 0x00F0"),
    Mistake("fram's NWAITS has two bits", "fram.py", "WAITS_BITS = 0x0070", "WAITS_BITS = 0x0030"),
    Mistake("fram's NWAITS isn't read", "fram.py",
            "return READ_PASSWORD | self.control", "return READ_PASSWORD"),
)

FRAM_REGISTERS = (
    Mistake("fram's NWAITS stands through a PUC", "chip.py", "        self.fram.reset()\n",
            "        if cause in CAUSES_OF_BOR:\n            self.fram.reset()\n"),
    Mistake("fram's latch stays open in a reset", "fram.py", "        self.latch.close()\n", ""),
    Mistake("fram's wrong password has the cause 22h", "fram.py",
            "Cause.FRAM_PASSWORD", "Cause.PROTECTION_PASSWORD"),
    Mistake("fram's GCCTL0 needs no latch", "fram.py",
            "        elif self.latch.is_open:\n", "        else:\n"),
    Mistake("fram's GCCTL0 reads 0", "fram.py",
            "        return self.plain[address]\n", "        return 0\n"),
    Mistake("fram's GCCTL0 stands through a reset", "fram.py",
            "        self.plain = dict.fromkeys(PLAIN_REGISTERS, 0)\n",
            "        self.plain = getattr(self, \"plain\", dict.fromkeys(PLAIN_REGISTERS, 0))\n"),
    Mistake("fram has a register at 0142h", "fram.py",
            "PLAIN_REGISTERS = (GCCTL0, GCCTL1)", "PLAIN_REGISTERS = (0x0142, GCCTL0, GCCTL1)"),
)

LATCHES = (
    Mistake("mpu's and fram's right word opens no latch", "latch.py",
            "            if right:\n                self.is_open = True\n",
            "            if right:\n                pass\n"),
    Mistake("mpu's and fram's wrong word closes the latch", "latch.py",
            "                self.request(self.cause)\n",
            "                self.request(self.cause)\n                self.is_open = False\n"),
    Mistake("mpu's and fram's wrong word takes effect", "latch.py",
            "            return right\n", "            return True\n"),
    Mistake("mpu's and fram's wrong word asks for no reset", "latch.py",
            "                self.request(self.cause)\n", "                pass\n"),
    Mistake("mpu's and fram's wrong byte leaves the latch", "latch.py",
            "            self.is_open = right\n", "            self.is_open |= right\n"),
    Mistake("mpu's and fram's right byte opens no latch", "latch.py",
            "            self.is_open = right\n", "            self.is_open &= right\n"),
    Mistake("mpu's and fram's wrong byte asks for a reset", "latch.py",
            "            self.is_open = right\n",
            "            self.is_open = right\n            if not right:\n"
            "                self.request(self.cause)\n"),
    Mistake("mpu's and fram's lower byte needs no latch", "latch.py",
            "        return self.is_open\n", "        return True\n"),
    Mistake("mpu's and fram's lower byte never takes effect", "latch.py",
            "        return self.is_open\n", "        return False\n"),
    Mistake("mpu's latch stays open in a reset", "protection.py",
            LATCH_AND_NMI_OF_RESET, "        self.nmi_is_requested = False\n"),
    Mistake("mpu's registers need no latch", "protection.py",
            "        elif self.latch.is_open:\n", "        else:\n"),
)

REGISTERS = (
    Mistake("mpu is reset by a PUC", "protection.py",
            "        if cause in CAUSES_OF_BOR:\n", "        if True:\n"),
    Mistake("mpu's flags are cleared by a PUC", "protection.py",
            LATCH_AND_NMI_OF_RESET, LATCH_AND_NMI_OF_RESET + "        self.flags = 0\n"),
    Mistake("mpu's ENA is cleared by a PUC", "protection.py",
            LATCH_AND_NMI_OF_RESET,
            LATCH_AND_NMI_OF_RESET
            + "        self.control = getattr(self, \"control\", 0) & ~ENABLE_BIT\n"),
    Mistake("mpu's LOCK is cleared by a PUC", "protection.py",
            LATCH_AND_NMI_OF_RESET,
            LATCH_AND_NMI_OF_RESET
            + "        self.control = getattr(self, \"control\", 0) & ~LOCK_BIT\n"),
    Mistake("mpu's control stands through a BOR", "protection.py",
            "            self.control = 0\n",
            "            self.control = getattr(self, \"control\", 0)\n"),
    Mistake("mpu's flags stand through a BOR", "protection.py",
            "            self.flags = 0\n",
            "            self.flags = getattr(self, \"flags\", 0)\n"),
    Mistake("mpu's rights stand through a BOR", "protection.py", VALUES_OF_BOR,
            VALUES_OF_BOR.replace("dict(VALUES_AFTER_BOR)",
                                  "getattr(self, \"registers\", dict(VALUES_AFTER_BOR))")),
    Mistake("mpu's MPUSAM is 0 after a BOR", "protection.py", "MPUSAM: 0x7777}", "MPUSAM: 0}"),
    Mistake("mpu's MPUCTL0 reads its password", "protection.py",
            "return READ_PASSWORD | self.control", "return 0xA500 | self.control"),
    Mistake("mpu's MPUCTL0 keeps all bits", "protection.py",
            "self.control = value & CONTROL_BITS", "self.control = value & 0xFF"),
    Mistake("mpu's borders are kept from bit 5 on", "protection.py",
            "MPUSEGB2: 0xFFC0, MPUSEGB1: 0xFFC0", "MPUSEGB2: 0xFFE0, MPUSEGB1: 0xFFE0"),
    Mistake("mpu's borders keep all bits", "protection.py",
            "MPUSEGB2: 0xFFC0, MPUSEGB1: 0xFFC0", "MPUSEGB2: 0xFFFF, MPUSEGB1: 0xFFFF"),
    Mistake("mpu's MPUCTL1 takes what is written", "protection.py",
            "self.flags &= merged(self.flags, value, mask)",
            "self.flags = merged(self.flags, value, mask) & 0x1F"),
    Mistake("mpu's MPUCTL1 clears what is written 1", "protection.py",
            "self.flags &= merged(self.flags, value, mask)", "self.flags &= ~(value & mask)"),
    Mistake("mpu's MPUCTL1 is cleared by its upper byte", "protection.py",
            "self.flags &= merged(self.flags, value, mask)", "self.flags &= value"),
    Mistake("mpu's LOCK keeps MPUCTL1", "protection.py",
            "        if address == MPUCTL1:\n            self.flags &= ",
            "        if address == MPUCTL1 and not self.locked():\n            self.flags &= "),
    Mistake("mpu's LOCK keeps flags from being set", "protection.py",
            SET_FLAG, "            self.flags |= (not self.locked()) << place\n"),
    Mistake("mpu's LOCK lets the first border through", "protection.py",
            "        elif not self.locked():\n",
            "        elif not self.locked() or address == MPUSEGB1:\n"),
    Mistake("mpu's LOCK lets the second border through", "protection.py",
            "        elif not self.locked():\n",
            "        elif not self.locked() or address == MPUSEGB2:\n"),
    Mistake("mpu's LOCK lets MPUSAM through", "protection.py",
            "        elif not self.locked():\n",
            "        elif not self.locked() or address == MPUSAM:\n"),
    Mistake("mpu's LOCK lets MPUCTL0 through", "protection.py",
            "            if takes_effect and not self.locked():\n",
            "            if takes_effect:\n"),
    Mistake("mpu's LOCK can be cleared", "protection.py",
            "            if takes_effect and not self.locked():\n",
            "            if takes_effect and self.locked() and not value & LOCK_BIT:\n"
            "                self.control &= ~LOCK_BIT\n"
            "            elif takes_effect and not self.locked():\n"),
    Mistake("mpu's LOCK ends the password rules", "protection.py",
            "            takes_effect = self.latch",
            "            takes_effect = not self.locked() and self.latch"),
)

SEGMENTS = (
    Mistake("mpu's first border comes first where they cross", "protection.py", PLACES,
            "        if address < self.registers[MPUSEGB1] * BYTES_OF_A_BORDER:\n"
            "            return Place.SEGMENT_1\n"
            "        if address < self.registers[MPUSEGB2] * BYTES_OF_A_BORDER:\n"
            "            return Place.SEGMENT_2\n        return Place.SEGMENT_3\n"),
    Mistake("mpu's borders are sorted where they cross", "protection.py", PLACES,
            "        first, second = sorted((self.registers[MPUSEGB1], self.registers[MPUSEGB2]))\n"
            "        if address >= second * BYTES_OF_A_BORDER:\n"
            "            return Place.SEGMENT_3\n"
            "        if address >= first * BYTES_OF_A_BORDER:\n"
            "            return Place.SEGMENT_2\n        return Place.SEGMENT_1\n"),
    Mistake("mpu's borders are exchanged", "protection.py",
            "MPUSEGB2 = 0x05A4\nMPUSEGB1 = 0x05A6\n", "MPUSEGB2 = 0x05A6\nMPUSEGB1 = 0x05A4\n"),
    Mistake("mpu's second border belongs to segment 2", "protection.py",
            "address >= self.registers[MPUSEGB2]", "address - 1 >= self.registers[MPUSEGB2]"),
    Mistake("mpu's first border belongs to segment 1", "protection.py",
            "address >= self.registers[MPUSEGB1]", "address - 1 >= self.registers[MPUSEGB1]"),
    Mistake("mpu's addresses have 16 bits", "protection.py", PLACES,
            "        address &= 0xFFFF\n" + PLACES),
    Mistake("mpu's information FRAM is of segment 1", "protection.py",
            "            return Place.INFORMATION\n", "            return Place.SEGMENT_1\n"),
    Mistake("mpu's information FRAM isn't judged", "bus.py", COUNT,
            COUNT + "        if region_of(at) is Region.INFORMATION:\n            return False\n"),
    Mistake("mpu's rights have three bits for each segment", "protection.py",
            "BITS_OF_A_PLACE = 4", "BITS_OF_A_PLACE = 3"),
    Mistake("mpu's rights begin with information FRAM", "protection.py",
            ">> BITS_OF_A_PLACE * place & 0xF", ">> BITS_OF_A_PLACE * ((place + 1) % 4) & 0xF"),
)

RIGHTS = (
    Mistake("mpu judges without ENA", "protection.py",
            "        if not self.control & ENABLE_BIT:\n", "        if False:\n"),
    Mistake("mpu asks for RE at a fetch", "bus.py",
            "self.read(at, \"w\", Right.FETCH)", "self.read(at, \"w\")"),
    Mistake("mpu asks for XE at the first word alone", "bus.py",
            "self.read(at, \"w\", Right.FETCH)",
            "self.read(at, \"w\", Right.FETCH if is_first_word else Right.READ)"),
    Mistake("mpu's RE and WE are exchanged", "right.py",
            "    READ = 1\n    WRITE = 2\n", "    READ = 2\n    WRITE = 1\n"),
    Mistake("mpu asks for RE at a write too", "protection.py",
            "        if self.bits_of(place) & right:\n",
            "        needed = right | (right == Right.WRITE)\n"
            "        if self.bits_of(place) & needed == needed:\n"),
    Mistake("mpu gives the right to read with XE", "protection.py",
            "        if self.bits_of(place) & right:\n",
            "        if self.bits_of(place) & (5 if right == Right.READ else right):\n"),
    Mistake("mpu judges entries", "bus.py",
            "JUDGED_BY_SEGMENTS = (Agent.PROCESSOR, Agent.DMA)",
            "JUDGED_BY_SEGMENTS = (Agent.PROCESSOR, Agent.ENTRY, Agent.DMA)"),
    Mistake("mpu doesn't judge DMA", "bus.py",
            "JUDGED_BY_SEGMENTS = (Agent.PROCESSOR, Agent.DMA)",
            "JUDGED_BY_SEGMENTS = (Agent.PROCESSOR,)"),
    Mistake("mpu doesn't judge what DMA writes", "bus.py", COUNT,
            COUNT + "        if self.agent is Agent.DMA and right is Right.WRITE:\n"
            "            return False\n"),
    Mistake("mpu judges the reset vector", "chip.py",
            "        vector = self.memory.read_word(RESET_VECTOR)\n",
            "        vector = self.memory.read_word(RESET_VECTOR)\n"
            "        if self.protection.control & 1 and not self.protection.bits_of(\n"
            "                self.protection.place_of(RESET_VECTOR)) & 1:\n"
            "            vector = 0x3FFF\n"),
    Mistake("mpu does a write that is refused", "bus.py",
            "        elif self.is_refused(at, Right.WRITE):\n",
            "        elif self.is_refused(at, Right.WRITE) and False:\n"),
    Mistake("mpu answers a read that is refused", "bus.py",
            "        if self.is_refused(at, right):\n",
            "        if self.is_refused(at, right) and right is Right.FETCH:\n"),
    Mistake("mpu answers a fetch that is refused", "bus.py",
            "        if self.is_refused(at, right):\n",
            "        if self.is_refused(at, right) and right is Right.READ:\n"),
    Mistake("mpu reads 0 where it refuses", "bus.py",
            "return VACANT_WORD if size == \"w\" else BYTE_OF_NO_STORE", "return 0"),
    Mistake("mpu reads FFFFh where it refuses", "bus.py",
            "return VACANT_WORD if size == \"w\" else BYTE_OF_NO_STORE",
            "return 0xFFFF if size == \"w\" else BYTE_OF_NO_STORE"),
    Mistake("mpu reads a byte 3Fh where it refuses", "bus.py",
            "return VACANT_WORD if size == \"w\" else BYTE_OF_NO_STORE",
            "return VACANT_WORD if size == \"w\" else 0x3F"),
)

VIOLATIONS = (
    Mistake("mpu sets its flags at once", "protection.py", NOTE_TO_FLAGS,
            NOTE_TO_FLAGS.replace(SET_FLAG, "").replace(
                NOTE, NOTE + "        self.flags |= 1 << place\n")),
    Mistake("mpu sets its flags at once and behind the step", "protection.py", NOTE,
            NOTE + "        self.flags |= 1 << place\n"),
    Mistake("mpu notes the last place of a step alone", "protection.py", NOTE,
            "        self.noted = {place}\n"),
    Mistake("mpu notes the first place of a step alone", "protection.py", NOTE,
            "        self.noted = self.noted or {place}\n"),
    Mistake("mpu sets flags where nothing is asked for alone", "protection.py", SET_FLAG + ASK,
            ASK + "            if not self.nmi_is_requested:\n    " + SET_FLAG),
    Mistake("mpu sets no flag with a reset", "protection.py", SET_FLAG,
            "            self.flags |= (not self.bits_of(place) & RESET_BIT) << place\n"),
    Mistake("mpu sets flags with SEGIE alone", "protection.py", SET_FLAG,
            "            self.flags |= (self.control & NMI_BIT != 0) << place\n"),
    Mistake("mpu judges VS of the next segment", "protection.py", RESET_BIT_OF_A_SEGMENT,
            "        return self.bits_of((place + 1) % 4) & RESET_BIT != 0\n"),
    Mistake("mpu judges VS of segment 1", "protection.py", RESET_BIT_OF_A_SEGMENT,
            "        return self.bits_of(Place.SEGMENT_1) & RESET_BIT != 0\n"),
    Mistake("mpu resets with SEGIE alone", "protection.py", RESET_OR_NMI,
            "        if self.resets(place) and self.control & NMI_BIT:\n"),
    Mistake("mpu asks for the NMI before VS", "protection.py", RESET_OR_NMI,
            "        if self.resets(place) and not self.control & NMI_BIT:\n"),
    Mistake("mpu asks for the NMI with a reset too", "protection.py",
            "        elif self.control & NMI_BIT:\n", "        if self.control & NMI_BIT:\n",
            RESET_DROPS),
    Mistake("mpu asks for the NMI without SEGIE", "protection.py",
            "        elif self.control & NMI_BIT:\n", "        else:\n"),
    Mistake("mpu asks for nothing where the step clears ENA", "protection.py", RESET_OR_NMI,
            "        if not self.control & ENABLE_BIT:\n            return\n" + RESET_OR_NMI),
    Mistake("mpu judges VS as it was at the access", "protection.py", NOTE,
            NOTE + "        if self.bits_of(place) & RESET_BIT:\n"
            "            self.request(CAUSES[place])\n"),
    Mistake("mpu judges SEGIE as it was at the access", "protection.py", NOTE,
            NOTE + "        if not self.bits_of(place) & RESET_BIT and self.control & NMI_BIT:\n"
            "            self.nmi_is_requested = True\n"),
    Mistake("mpu judges the violations of a transfer with the next step", "chip.py",
            "        self.protection.end_step()\n",
            "        if not self.dma.second_tick:\n            self.protection.end_step()\n"),
    Mistake("mpu forgets no violation", "protection.py", FORGET, ""),
    Mistake("mpu has the causes of segments 1 and 2 exchanged", "protection.py",
            "          Place.SEGMENT_1: Cause.SEGMENT_1_VIOLATION,\n"
            "          Place.SEGMENT_2: Cause.SEGMENT_2_VIOLATION,\n",
            "          Place.SEGMENT_1: Cause.SEGMENT_2_VIOLATION,\n"
            "          Place.SEGMENT_2: Cause.SEGMENT_1_VIOLATION,\n"),
)

NUMBER = (
    Mistake("mpu's SYSSNIV tells from the bottom up", "protection.py",
            "in NUMBERS.items():", "in reversed(NUMBERS.items()):"),
    Mistake("mpu's SYSSNIV tells information FRAM last", "protection.py",
            "in NUMBERS.items():", "in sorted(NUMBERS.items(), key=lambda pair: pair[0]):"),
    Mistake("mpu's SYSSNIV clears nothing", "protection.py",
            "                self.flags &= ~(1 << place)\n", ""),
    Mistake("mpu's SYSSNIV clears all flags", "protection.py",
            "                self.flags &= ~(1 << place)\n", "                self.flags = 0\n"),
    Mistake("mpu's SYSSNIV isn't cleared by a write", "protection.py",
            "        elif address == SYSSNIV:\n            self.take_number()\n",
            "        elif address == SYSSNIV:\n            pass\n"),
    Mistake("mpu's SYSSNIV isn't cleared by a write of its upper byte", "protection.py",
            "        elif address == SYSSNIV:\n            self.take_number()\n",
            "        elif address == SYSSNIV:\n            if mask & 0xFF:\n"
            "                self.take_number()\n"),
    Mistake("mpu's SYSSNIV isn't cleared by a read of its upper byte", "bus.py",
            "        word = unit.read(address)\n",
            "        word = 0 if at == 0x019D else unit.read(address)\n"),
    Mistake("mpu's SYSSNIV is cleared by a write with the latch open alone", "protection.py",
            "        elif address == SYSSNIV:\n            self.take_number()\n",
            "        elif address == SYSSNIV:\n            if self.latch.is_open:\n"
            "                self.take_number()\n"),
    Mistake("mpu's SYSSNIV tells with SEGIE alone", "protection.py",
            "            if self.flags >> place & 1:\n",
            "            if self.flags >> place & 1 and self.control & NMI_BIT:\n"),
    Mistake("mpu's SYSSNIV drops the NMI", "protection.py",
            "                self.flags &= ~(1 << place)\n",
            "                self.flags &= ~(1 << place)\n"
            "                self.nmi_is_requested = False\n"),
)

NMI = (
    Mistake("mpu's NMI needs GIE", "interrupts.py",
            "    if nmi.stands():\n", "    if status & GIE_BIT and nmi.stands():\n"),
    Mistake("mpu's NMI comes behind the lines", "interrupts.py", ORDER,
            "    for line in lines:\n        if status & GIE_BIT and line.stands():\n"
            "            return line\n    return nmi if nmi.stands() else None\n"),
    Mistake("mpu's NMI wakes nobody", "interrupts.py",
            "    if nmi.stands():\n", "    if not status & CPUOFF_BIT and nmi.stands():\n"),
    Mistake("mpu's NMI doesn't wait for a busy processor", "chip.py",
            "        if self.busy > 0:\n", "        if self.busy > 0 and not self.nmi.stands():\n"),
    Mistake("mpu's NMI has the vector FFFAh", "interrupts.py",
            "NMI_VECTOR = 0xFFFC", "NMI_VECTOR = 0xFFFA"),
    Mistake("mpu's NMI isn't cleared by its entry", "interrupts.py",
            "protection.nmi_stands, protection.drop_nmi)", "protection.nmi_stands)"),
    Mistake("mpu's NMI is cleared before the accesses of its entry", "chip.py",
            "        self.bus.begin_step(Agent.ENTRY)\n",
            "        self.bus.begin_step(Agent.ENTRY)\n        if line is self.nmi:\n"
            "            line.clear()\n"
            "            line = interrupts.Line(line.vector, line.stands)\n",
            "what the accesses of an entry note asks for the NMI behind both, as the step ends"),
    Mistake("mpu's NMI is cleared by the entry of any line", "chip.py", ENTER,
            ENTER + "        self.protection.drop_nmi()\n",
            "the NMI is accepted before all lines, so no line is while it is requested"),
    Mistake("mpu's NMI clears the flags by its entry", "protection.py",
            "    def drop_nmi(self) -> None:\n",
            "    def drop_nmi(self) -> None:\n        self.flags = 0\n"),
    Mistake("mpu's NMI stands while a flag does", "protection.py",
            "        return self.nmi_is_requested\n",
            "        return self.flags != 0 and self.control & NMI_BIT != 0\n"),
    Mistake("mpu's NMI is kept in a PUC", "protection.py",
            "        self.nmi_is_requested = False\n        if cause in CAUSES_OF_BOR:\n",
            "        if cause in CAUSES_OF_BOR:\n            self.nmi_is_requested = False\n"),
    Mistake("mpu's NMI is kept in a BOR", "protection.py",
            "        self.nmi_is_requested = False\n        if cause in CAUSES_OF_BOR:\n",
            "        if cause not in (Cause.SOFTWARE_BOR,):\n"
            "            self.nmi_is_requested = False\n        if cause in CAUSES_OF_BOR:\n"),
)

MISTAKES = (
    *WAITS, *FRAM_REGISTERS, *LATCHES, *REGISTERS, *SEGMENTS, *RIGHTS, *VIOLATIONS, *NUMBER, *NMI,
)
