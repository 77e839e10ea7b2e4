"""Mistakes in IP Encapsulation. The names of all of them begin with "ip", to be tried alone."""

from mistake import Mistake

RESET = "            self.registers = dict.fromkeys(KEPT_BITS, 0)\n"
NOT_RESET_BY_A_PUC = "        if cause in CAUSES_OF_BOR:\n" + RESET
WRITE = "        if self.latch.is_open and not self.locked():\n"
KEPT = "            self.registers[address] = word & KEPT_BITS[address]\n"
ENABLED = "        return self.registers[MPUIPC0] & ENABLE_BIT != 0\n"
LOCKED = "        return self.registers[MPUIPC0] & LOCK_BIT != 0\n"
RESETS = "        return self.registers[MPUIPC0] & RESET_BIT != 0\n"
OUTSIDE = "        if not self.enabled() or address in NEVER_INSIDE:\n            return False\n"
NOT_MAIN = "        if region_of(address) is not Region.MAIN:\n            return False\n"
BETWEEN = "        return self.first_border() <= address < self.second_border()\n"
NOT_INSIDE = "        if not self.holds(address):\n            return False\n"
FROM_OUTSIDE = """\
        if instruction is None or not self.holds(instruction):
            return True
"""
FETCH = "        if right is Right.FETCH:\n            return False\n"
FIRST_WORDS = "        return instruction < self.first_border() + BYTES_WITHOUT_DATA\n"
COUNT = "        self.accesses_to_fram += 1\n"
JUDGED = "        if self.encapsulation.refuses(at, right, self.instruction):\n"
NOTE = "                self.protection.note(Place.ENCAPSULATION)\n"
REFUSED = NOTE + "            return True\n"
WHO_NOTES = "            if self.agent is not Agent.DEBUG:\n"
FLAGS = "            self.flags |= 1 << place\n"
RESET_OF_PLACE = "            return self.encapsulation.resets()\n"
BUS = "        self.bus = Bus(\n"


def cleared_by_a_puc(name: str, bits: str, register: str) -> Mistake:
    return Mistake(
        f"ip's {name} is cleared by a PUC", "encapsulation.py", NOT_RESET_BY_A_PUC,
        NOT_RESET_BY_A_PUC + f"        self.registers[{register}] &= ~{bits}\n",
    )


REGISTERS = (
    Mistake("ip's MPUIPC0 keeps bit 4 too", "encapsulation.py",
            "MPUIPC0: RESET_BIT |", "MPUIPC0: 0x10 | RESET_BIT |"),
    Mistake("ip's MPUIPC0 keeps all bits", "encapsulation.py",
            "MPUIPC0: RESET_BIT | ENABLE_BIT | LOCK_BIT,", "MPUIPC0: 0xFFFF,"),
    Mistake("ip's MPUIPC0 doesn't keep VS", "encapsulation.py",
            "MPUIPC0: RESET_BIT |", "MPUIPC0:"),
    Mistake("ip's borders are kept from bit 5 on", "encapsulation.py",
            "MPUIPSEGB2: 0xFFC0, MPUIPSEGB1: 0xFFC0", "MPUIPSEGB2: 0xFFE0, MPUIPSEGB1: 0xFFE0"),
    Mistake("ip's borders are kept from bit 7 on", "encapsulation.py",
            "MPUIPSEGB2: 0xFFC0, MPUIPSEGB1: 0xFFC0", "MPUIPSEGB2: 0xFF80, MPUIPSEGB1: 0xFF80"),
    Mistake("ip's borders are exchanged", "encapsulation.py",
            "MPUIPSEGB2 = 0x05AC\nMPUIPSEGB1 = 0x05AE\n",
            "MPUIPSEGB2 = 0x05AE\nMPUIPSEGB1 = 0x05AC\n"),
    Mistake("ip's registers need no latch", "encapsulation.py", WRITE,
            "        if not self.locked():\n"),
    Mistake("ip's registers are read with the latch open alone", "encapsulation.py",
            "        return self.registers[address]\n",
            "        return self.registers[address] if self.latch.is_open else 0\n"),
    Mistake("ip's registers take whole words from bytes", "encapsulation.py",
            "            word = merged(self.registers[address], value, mask)\n",
            "            word = value\n"),
    Mistake("ip's registers are kept by mpu's LOCK", "chip.py", BUS,
            "        write = self.encapsulation.write\n"
            "        self.encapsulation.write = lambda *written: (\n"
            "            None if self.protection.locked() else write(*written))\n" + BUS),
)

LOCK = (
    Mistake("ip's LOCK keeps nothing", "encapsulation.py", WRITE,
            "        if self.latch.is_open:\n"),
    Mistake("ip's LOCK lets MPUIPC0 through", "encapsulation.py", WRITE,
            "        if self.latch.is_open and (address == MPUIPC0 or not self.locked()):\n"),
    Mistake("ip's LOCK lets the first border through", "encapsulation.py", WRITE,
            "        if self.latch.is_open and (address == MPUIPSEGB1 or not self.locked()):\n"),
    Mistake("ip's LOCK lets the second border through", "encapsulation.py", WRITE,
            "        if self.latch.is_open and (address == MPUIPSEGB2 or not self.locked()):\n"),
    Mistake("ip's LOCK lets VS through", "encapsulation.py", WRITE,
            "        if self.latch.is_open and self.locked() and address == MPUIPC0:\n"
            "            self.registers[MPUIPC0] &= value | ~RESET_BIT | ~mask\n" + WRITE),
    Mistake("ip's LOCK holds with ENA alone", "encapsulation.py", WRITE,
            "        if self.latch.is_open and not (self.locked() and self.enabled()):\n"),
    Mistake("ip's LOCK lets the next write through", "encapsulation.py", WRITE,
            "        before, self.before = getattr(self, \"before\", False), self.locked()\n"
            "        if self.latch.is_open and not (before and self.locked()):\n"),
    Mistake("ip's LOCK keeps mpu's registers", "protection.py",
            "        return self.control & LOCK_BIT != 0\n",
            "        return self.control & LOCK_BIT != 0 or self.encapsulation.locked()\n"),
    Mistake("ip's LOCK ends the password rules", "protection.py",
            "            takes_effect = self.latch",
            "            takes_effect = not self.encapsulation.locked() and self.latch"),
    Mistake("ip's latch closes with LOCK", "encapsulation.py", KEPT,
            KEPT + "            self.latch.is_open = not self.locked()\n"),
)

RESETS_OF_REGISTERS = (
    Mistake("ip is reset by a PUC", "encapsulation.py",
            "        if cause in CAUSES_OF_BOR:\n", "        if True:\n"),
    cleared_by_a_puc("LOCK", "LOCK_BIT", "MPUIPC0"),
    cleared_by_a_puc("ENA", "ENABLE_BIT", "MPUIPC0"),
    cleared_by_a_puc("VS", "RESET_BIT", "MPUIPC0"),
    cleared_by_a_puc("first border", "0xFFFF", "MPUIPSEGB1"),
    cleared_by_a_puc("second border", "0xFFFF", "MPUIPSEGB2"),
    Mistake("ip stands through a BOR", "encapsulation.py", RESET,
            "            self.registers = getattr(self, \"registers\", "
            "dict.fromkeys(KEPT_BITS, 0))\n"),
    Mistake("ip's LOCK stands through a BOR", "encapsulation.py", RESET,
            "            lock = getattr(self, \"registers\", {MPUIPC0: 0})[MPUIPC0] & LOCK_BIT\n"
            + RESET + "            self.registers[MPUIPC0] = lock\n"),
    Mistake("ip's borders stand through a BOR", "encapsulation.py", RESET,
            "            self.registers = getattr(self, \"registers\", "
            "dict.fromkeys(KEPT_BITS, 0)) | {MPUIPC0: 0}\n"),
    Mistake("ip stands through the debugger's reset", "encapsulation.py",
            "        if cause in CAUSES_OF_BOR:\n",
            "        if cause in CAUSES_OF_BOR and cause != Cause.DEBUG_RESET:\n"),
    Mistake("ip stands through PMMSWBOR", "encapsulation.py",
            "        if cause in CAUSES_OF_BOR:\n",
            "        if cause in CAUSES_OF_BOR and cause != Cause.SOFTWARE_BOR:\n"),
)

AREA = (
    Mistake("ip needs no ENA", "encapsulation.py", ENABLED, "        return True\n"),
    Mistake("ip needs LOCK too", "encapsulation.py", ENABLED,
            ENABLED.rstrip("\n") + " and self.locked()\n"),
    Mistake("ip's second border belongs to the area", "encapsulation.py", BETWEEN,
            "        return self.first_border() <= address <= self.second_border() + 1\n"),
    Mistake("ip's first border doesn't belong to the area", "encapsulation.py", BETWEEN,
            "        return self.first_border() + 1 < address < self.second_border()\n"),
    Mistake("ip's borders are sorted where they cross", "encapsulation.py", BETWEEN,
            "        first, second = sorted((self.first_border(), self.second_border()))\n"
            "        return first <= address < second\n"),
    Mistake("ip's second border has no effect where the first is above it", "encapsulation.py",
            BETWEEN, "        if self.second_border() < self.first_border():\n"
            "            return self.first_border() <= address\n" + BETWEEN),
    Mistake("ip's area without a second border has no end", "encapsulation.py", BETWEEN,
            "        return self.first_border() <= address < (self.second_border() or 0x14000)\n"),
    Mistake("ip's borders have 16 bits", "encapsulation.py", BETWEEN,
            "        first, second = self.first_border() & 0xFFFF, self.second_border() & 0xFFFF\n"
            "        return first <= address < second\n"),
    Mistake("ip's addresses have 16 bits", "encapsulation.py", BETWEEN,
            "        return self.first_border() <= address & 0xFFFF < self.second_border()\n"),
    Mistake("ip's borders count 8 bytes", "encapsulation.py",
            "BYTES_OF_A_BORDER = 16", "BYTES_OF_A_BORDER = 8"),
    Mistake("ip holds the vectors", "encapsulation.py", "range(0xFF80, 0x10000)", "range(0)"),
    Mistake("ip holds the signatures", "encapsulation.py",
            "range(0xFF80, 0x10000)", "range(0xFFE0, 0x10000)"),
    Mistake("ip ends at FF00h", "encapsulation.py",
            "range(0xFF80, 0x10000)", "range(0xFF00, 0x10000)"),
    Mistake("ip's area ends with the vectors", "encapsulation.py",
            "range(0xFF80, 0x10000)", "range(0xFF80, 0x14000)"),
    Mistake("ip holds information FRAM", "encapsulation.py", NOT_MAIN,
            "        if region_of(address) not in (Region.MAIN, Region.INFORMATION):\n"
            "            return False\n"),
    Mistake("ip holds code in SRAM", "encapsulation.py", NOT_MAIN,
            "        if region_of(address) not in (Region.MAIN, Region.SRAM):\n"
            "            return False\n"),
)

RIGHTS = (
    Mistake("ip fetches nothing from its first words", "encapsulation.py", FETCH, ""),
    Mistake("ip lets every fetch through", "encapsulation.py", NOT_INSIDE,
            NOT_INSIDE + FETCH),
    Mistake("ip lets no jump in", "chip.py",
            "instruction=self.registers.get(PC))",
            "instruction=getattr(self, \"before\", 0))\n"
            "        self.before = self.registers.get(PC)"),
    Mistake("ip judges by the last word that was fetched", "bus.py",
            "        is_first_word = at == instruction_address\n",
            "        is_first_word = at == instruction_address\n"
            "        if self.agent is Agent.PROCESSOR:\n            self.instruction = at\n"),
    Mistake("ip judges by the address behind the instruction's first word", "chip.py",
            "instruction=self.registers.get(PC))", "instruction=self.registers.get(PC) + 2)"),
    Mistake("ip reads from its first words too", "encapsulation.py", FIRST_WORDS,
            "        return right is Right.WRITE and (\n"
            "            instruction < self.first_border() + BYTES_WITHOUT_DATA)\n"),
    Mistake("ip writes from its first words too", "encapsulation.py", FIRST_WORDS,
            "        return right is Right.READ and (\n"
            "            instruction < self.first_border() + BYTES_WITHOUT_DATA)\n"),
    Mistake("ip has 4 first bytes", "encapsulation.py",
            "BYTES_WITHOUT_DATA = 8", "BYTES_WITHOUT_DATA = 4"),
    Mistake("ip has 10 first bytes", "encapsulation.py",
            "BYTES_WITHOUT_DATA = 8", "BYTES_WITHOUT_DATA = 10"),
    Mistake("ip has 6 first bytes", "encapsulation.py",
            "BYTES_WITHOUT_DATA = 8", "BYTES_WITHOUT_DATA = 6"),
    Mistake("ip's first bytes can't be read", "encapsulation.py", FIRST_WORDS,
            FIRST_WORDS.rstrip("\n") + " or (\n"
            "            self.first_border() <= address < self.first_border() + 8)\n"),
    Mistake("ip's first bytes are those of main FRAM", "encapsulation.py", FIRST_WORDS,
            "        return instruction < max(self.first_border(), 0x4400) + BYTES_WITHOUT_DATA\n"),
    Mistake("ip reads from outside", "encapsulation.py", FROM_OUTSIDE,
            FROM_OUTSIDE.replace("return True", "return right is not Right.READ")),
    Mistake("ip writes from outside", "encapsulation.py", FROM_OUTSIDE,
            FROM_OUTSIDE.replace("return True", "return right is not Right.WRITE")),
    Mistake("ip lets entries on its stack from inside", "chip.py",
            "        self.bus.begin_step(Agent.ENTRY)\n",
            "        self.bus.begin_step(Agent.ENTRY, self.registers.get(PC))\n"),
    Mistake("ip lets entries on its stack", "bus.py", JUDGED,
            JUDGED.replace("self.encapsulation",
                           "self.agent is not Agent.ENTRY and self.encapsulation")),
    Mistake("ip lets DMA in", "bus.py", JUDGED,
            JUDGED.replace("self.encapsulation",
                           "self.agent is not Agent.DMA and self.encapsulation")),
    Mistake("ip lets DMA write", "bus.py", JUDGED,
            JUDGED.replace("self.encapsulation", "not (self.agent is Agent.DMA and right is "
                           "Right.WRITE) and self.encapsulation")),
    Mistake("ip lets DMA in while the processor is inside", "dma.py",
            "        bus.begin_step(Agent.DMA)\n",
            "        bus.begin_step(Agent.DMA, bus.instruction)\n"),
    Mistake("ip lets debug in", "bus.py", JUDGED,
            JUDGED.replace("self.encapsulation",
                           "self.agent is not Agent.DEBUG and self.encapsulation")),
    Mistake("ip lets debug write", "bus.py", JUDGED,
            JUDGED.replace("self.encapsulation", "not (self.agent is Agent.DEBUG and right is "
                           "Right.WRITE) and self.encapsulation")),
    Mistake("ip lets debug in where PC is inside", "debug.py",
            "            self.bus.begin_step(Agent.DEBUG)\n",
            "            self.bus.begin_step(Agent.DEBUG, self.registers.get(0))\n"),
    Mistake("ip lets debug in where PC is inside and halted", "debug.py",
            "            self.bus.begin_step(Agent.DEBUG)\n",
            "            self.bus.begin_step(\n"
            "                Agent.DEBUG, self.registers.get(0) if self.halted else None)\n"),
    Mistake("ip is enabled by mpu's ENA", "bus.py", JUDGED,
            JUDGED.replace("self.encapsulation", "self.protection.control & 1 and "
                           "self.encapsulation")),
    Mistake("ip ends with mpu's ENA", "bus.py", JUDGED,
            JUDGED.replace("self.encapsulation", "not self.protection.control & 1 and "
                           "self.encapsulation")),
    Mistake("ip is judged behind the segments", "bus.py", JUDGED,
            "        if self.agent in JUDGED_BY_SEGMENTS and self.protection.refuses(\n"
            "                at, right, self.agent.value):\n            return True\n" + JUDGED),
    Mistake("ip's refusals are judged by segments too", "bus.py", REFUSED,
            NOTE + "            if self.agent in JUDGED_BY_SEGMENTS:\n"
            "                self.protection.refuses(at, right, self.agent.value)\n"
            "            return True\n"),
    Mistake("ip frees its own code from the segments", "bus.py", REFUSED,
            REFUSED + "        if self.encapsulation.holds(at):\n            return False\n"),
    Mistake("ip's refusals don't wait", "bus.py", REFUSED,
            NOTE + "            self.accesses_to_fram -= 1\n            return True\n"),
)

VIOLATIONS = (
    Mistake("ip's refusals set no flag", "bus.py", NOTE, "                pass\n"),
    Mistake("ip's refused entries set no flag", "bus.py", WHO_NOTES,
            "            if self.agent not in (Agent.DEBUG, Agent.ENTRY):\n"),
    Mistake("ip's refused transfers set no flag", "bus.py", WHO_NOTES,
            "            if self.agent not in (Agent.DEBUG, Agent.DMA):\n"),
    Mistake("ip's refused commands set a flag", "bus.py", WHO_NOTES, "            if True:\n"),
    Mistake("ip's refused fetches set no flag", "bus.py", WHO_NOTES,
            "            if self.agent is not Agent.DEBUG and right is not Right.FETCH:\n"),
    Mistake("ip's flag is bit 5", "protection.py", FLAGS,
            "            self.flags |= 1 << place + (place == Place.ENCAPSULATION)\n"),
    Mistake("ip's flag isn't set with a reset", "protection.py", FLAGS,
            "            if place is not Place.ENCAPSULATION or not self.resets(place):\n"
            "    " + FLAGS),
    Mistake("ip's flag can't be cleared by a write", "protection.py",
            "self.flags &= merged(self.flags, value, mask)",
            "self.flags &= merged(self.flags, value, mask) | 0x10"),
    Mistake("ip's flag is cleared by a PUC", "protection.py",
            "        self.nmi_is_requested = False\n        if cause",
            "        self.nmi_is_requested = False\n"
            "        self.flags = getattr(self, \"flags\", 0) & ~0x10\n        if cause"),
    Mistake("ip's number comes last", "protection.py",
            "in NUMBERS.items():",
            "in sorted(NUMBERS.items(), key=lambda pair: pair[0] is Place.ENCAPSULATION):"),
    Mistake("ip's number is 06h", "protection.py",
            "Place.ENCAPSULATION: 0x08", "Place.ENCAPSULATION: 0x06"),
    Mistake("ip's cause is 28h", "system.py",
            "ENCAPSULATION_VIOLATION = 0x26\n    INFORMATION_VIOLATION = 0x28",
            "ENCAPSULATION_VIOLATION = 0x28\n    INFORMATION_VIOLATION = 0x26"),
    Mistake("ip never resets", "encapsulation.py", RESETS, "        return False\n"),
    Mistake("ip always resets", "encapsulation.py", RESETS, "        return True\n"),
    Mistake("ip resets where it is locked", "encapsulation.py", RESETS,
            "        return self.locked()\n"),
    Mistake("ip resets with ENA alone, as the step left it", "encapsulation.py", RESETS,
            RESETS.rstrip("\n") + " and self.enabled()\n"),
    Mistake("ip resets by VS of information FRAM", "protection.py", RESET_OF_PLACE,
            "            place = Place.INFORMATION\n"),
    Mistake("ip resets by VS as it was at the access", "bus.py", NOTE,
            NOTE + "                if self.encapsulation.resets():\n"
            "                    self.request(Cause.ENCAPSULATION_VIOLATION)\n"),
    Mistake("ip asks for no NMI", "protection.py",
            "        elif self.control & NMI_BIT:\n",
            "        elif place is not Place.ENCAPSULATION and self.control & NMI_BIT:\n"),
    Mistake("ip asks for the NMI with mpu's ENA alone", "protection.py",
            "        elif self.control & NMI_BIT:\n",
            "        elif self.control & NMI_BIT and (\n"
            "                place is not Place.ENCAPSULATION or self.control & ENABLE_BIT):\n"),
    Mistake("ip's NMI is dropped by the end of its entry", "chip.py",
            "        self.protection.end_step()\n",
            "        self.protection.end_step()\n"
            "        if self.bus.agent is Agent.ENTRY:\n            self.protection.drop_nmi()\n"),
)

MISTAKES = (*REGISTERS, *LOCK, *RESETS_OF_REGISTERS, *AREA, *RIGHTS, *VIOLATIONS)
