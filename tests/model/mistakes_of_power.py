"""Mistakes in boots, erases and power cuts.

The names of all of them begin with "power", so that they can be tried alone.
"""

from mistake import Mistake

# boot.py
AT_MARK = """\
        if self.hidden.mark is Mark.ERASING:
            return Place.WIPE
        if self.hidden.mark is Mark.SAVED:
"""
OF_THE_SAVED = "            self.pointer = self.hidden.pointer\n"
AT_SIGNATURE = """\
        return Place.POINTER if self.read(SIGNATURE_ADDRESS) == SIGNATURE else Place.DONE
"""
ADDRESS_OF_WORD = "        address = self.pointer * BYTES_OF_A_POINTER + 2 * len(self.words)\n"
JUDGE = "    def judge(self, control: int, second: int, first: int, check: int) -> Place:\n"
IS_BAD = "        if check != ~(control ^ second ^ first) & 0xFFFF:\n"
BAD = "            return Place.MARK_ERASE\n"
INSTALLED = """\
            control & KEPT_OF_CONTROL, second & KEPT_OF_A_BORDER, first & KEPT_OF_A_BORDER
"""
BEHIND_A_GOOD_ONE = """\
        return Place.DONE if self.hidden.mark is Mark.SAVED else Place.SAVE_POINTER
"""
SAVE_POINTER = "        self.hidden.write_pointer(self.pointer)\n"
SAVE_MARK = "        self.hidden.write_mark(Mark.SAVED)\n"
SAVING = """\
        self.hidden.write_pointer(self.pointer)
        return Place.SAVE_MARK

    def save_mark(self) -> Place:
        self.hidden.write_mark(Mark.SAVED)
        return Place.DONE
"""
MARK_ERASING = "        self.hidden.write_mark(Mark.ERASING)\n        return Place.WIPE\n"
WIPED = """\
        if not self.writes.next_is_absent("boot"):
            self.memory.write_word(address, ERASED_WORD)
"""
NEXT_WIPE = """\
        self.wiped_next = FIRST_OF_MAIN if address == LAST_OF_INFORMATION else address + 2
"""
MARK_EMPTY = "        self.hidden.write_mark(Mark.EMPTY)\n        return Place.DONE\n"
WORD_OF_FRAM = """\
        if region_of(address) not in FRAM_REGIONS:
            return VACANT_WORD
"""
MARK_IF_PRESENT = """\
        if not self.writes.next_is_absent("mark"):
            self.mark = mark
"""
POINTER_IF_PRESENT = """\
        if not self.writes.next_is_absent("ptr"):
            self.pointer = pointer
"""

# chip.py
TICK = """\
        if power.is_on:
            self.tick_with_power(events)
        else:
            self.stimulus(events)
"""
COMES_ON = "        if not self.powered:\n            self.come_on()\n"
IN_A_CUT = """\
            del self.lines[lines_of_events:]  # what the owner did has no lines in such a tick
            self.lose_power()
"""
POWER = '''\
    def come_on(self) -> None:
        self.powered = True
        self.power_on_reset(Cause.POWER_ON)
        self.lines.append(trace.on(self.number))

    def lose_power(self) -> None:
        """FRAM, the hidden words and the external levels stand."""
        self.lines.append(trace.cut(self.number))
        self.tell_cut()
        self.powered = False
        self.memory.lose_sram()
        self.power_on_reset(Cause.POWER_ON)
'''
RESET = "        self.power_on_reset(Cause.POWER_ON)\n"
ON_LINE = "        self.lines.append(trace.on(self.number))\n"
LOST = "        self.memory.lose_sram()\n"
END_IN_CUT = "            if not self.writes.end_in_a_cut():\n                self.end_boot()\n"
BOOT_STEP = """\
        if self.boot.erases_first_word():
            self.lines.append(trace.erase(self.number))
"""
END_OF_BOOT = """\
        self.encapsulation.install(self.boot.end())
        self.lines.append(trace.boot(self.number, self.encapsulation))
        self.load_reset_vector()
"""

# Others
ABSENT_ON_THE_BUS = """\
        if self.writes.next_is_absent(self.agent.value):
            return
"""
REFUSED_WRITE = "        elif self.is_refused(at, Right.WRITE):\n            return\n"
ERASE = """\
                self.hidden.write_mark(Mark.ERASING)
                self.request(Cause.DEBUG_RESET)
"""
IS_ABSENT = "        absent = self.count > self.whole\n"
STORED_LOW = "        self.bus.write(address, \"w\", value & 0xFFFF)\n"
STORED_HIGH = "            self.bus.write(address + 2 & ADDRESS_MASK, \"w\", value >> 16)\n"


def in_boot(name: str, right: str, wrong: str, unseen_because: str = "") -> Mistake:
    return Mistake(f"power's boot {name}", "boot.py", right, wrong, unseen_because)


def kept(name: str, what: str, back: str, unseen_because: str = "") -> Mistake:
    """Something of the chip stands through the loss of power, and through its return."""
    wrong = POWER.replace(RESET, f"        kept = {what}\n{RESET}        {back}\n")
    return Mistake(f"power lost keeps {name}", "chip.py", POWER, wrong, unseen_because)


def of_the_owner(name: str) -> Mistake:
    """The tick of a cut has a line that it hasn't."""
    return Mistake(
        f"power cut in a tick shows its {name}", "chip.py", IN_A_CUT,
        "            self.lines[lines_of_events:] = [\n"
        "                line for line in self.lines[lines_of_events:]\n"
        f"                if line.split()[1] == \"{name}\"]\n"
        "            self.lose_power()\n",
    )


def of_a_boot(name: str) -> Mistake:
    """The same, of a boot that would end in it."""
    return Mistake(
        f"power cut in a tick shows its {name}", "chip.py", END_IN_CUT,
        "            self.end_boot()\n"
        "            if self.writes.end_in_a_cut():\n"
        f"                told = [line for line in self.lines if \" {name}\" in line]\n"
        "                self.tell_cut = lambda: (\n"
        "                    self.lines.extend(told), self.__dict__.pop(\"tell_cut\"))\n",
    )


def not_numbered(name: str, test: str) -> Mistake:
    return Mistake(
        f"power's numbers leave out {name}", "bus.py", ABSENT_ON_THE_BUS,
        f"        if not ({test}) and self.writes.next_is_absent(self.agent.value):\n"
        "            return\n",
    )


MARKS = (
    in_boot("honours a saved mark with the signature alone", AT_MARK,
            AT_MARK.replace("is Mark.SAVED",
                            "is Mark.SAVED and self.read(SIGNATURE_ADDRESS) == SIGNATURE")),
    in_boot("honours the mark of an erase with the signature alone", AT_MARK,
            AT_MARK.replace("is Mark.ERASING",
                            "is Mark.ERASING and self.read(SIGNATURE_ADDRESS) == SIGNATURE")),
    in_boot("looks at the signature before the mark", AT_MARK,
            "        if self.read(SIGNATURE_ADDRESS) != SIGNATURE:\n"
            "            return Place.SIGNATURE\n" + AT_MARK),
    in_boot("forgets the mark of an erase", AT_MARK,
            AT_MARK.replace("is Mark.ERASING", "is None")),
    in_boot("reads the pointer of a saved structure again", OF_THE_SAVED,
            "            self.pointer = self.read(POINTER_ADDRESS)\n"),
    in_boot("saves no mark", SAVE_MARK, "        self.writes.next_is_absent(\"mark\")\n"),
    in_boot("saves no pointer", SAVE_POINTER, "        self.writes.next_is_absent(\"ptr\")\n"),
    in_boot("saves the address for the pointer", SAVE_POINTER,
            "        self.hidden.write_pointer(self.pointer * 16 & 0xFFFF)\n"),
    in_boot("saves the mark before the pointer", SAVING,
            SAVING.replace("write_pointer(self.pointer)", "write_mark(Mark.Saved)")
            .replace("write_mark(Mark.SAVED)", "write_pointer(self.pointer)")
            .replace("Mark.Saved", "Mark.SAVED")),
    in_boot("saves the mark before it judges", JUDGE, JUDGE + SAVE_MARK + SAVE_POINTER),
    in_boot("saves again each time", BEHIND_A_GOOD_ONE, "        return Place.SAVE_POINTER\n"),
    in_boot("saves the mark in the pointer's tick", SAVING,
            SAVING.replace("        return Place.SAVE_MARK\n",
                           SAVE_MARK + "        return Place.SAVE_MARK\n")),
    in_boot("empties the mark where the signature is gone", AT_SIGNATURE,
            "        if self.read(SIGNATURE_ADDRESS) != SIGNATURE:\n"
            "            self.hidden.mark = Mark.EMPTY\n" + AT_SIGNATURE,
            "only a boot that finds the mark empty looks at the signature"),
)

STRUCTURES = (
    in_boot("takes any word for the signature but FFFFh", AT_SIGNATURE,
            AT_SIGNATURE.replace("== SIGNATURE", "!= 0xFFFF")),
    in_boot("looks at half of the signature", AT_SIGNATURE,
            AT_SIGNATURE.replace("== SIGNATURE", "& 0xFF == 0xAA")),
    in_boot("takes the pointer for 8 bytes", "BYTES_OF_A_POINTER = 16", "BYTES_OF_A_POINTER = 8"),
    in_boot("finds structures in the first 64 KB alone", ADDRESS_OF_WORD,
            ADDRESS_OF_WORD + "        address &= 0xFFFF\n"),
    in_boot("reads a structure downward", ADDRESS_OF_WORD,
            ADDRESS_OF_WORD.replace("2 * len", "6 - 2 * len")),
    in_boot("reads SRAM", WORD_OF_FRAM,
            WORD_OF_FRAM.replace("FRAM_REGIONS",
                                 "FRAM_REGIONS and not 0x1C00 <= address < 0x2400")),
    in_boot("reads main FRAM alone", WORD_OF_FRAM,
            WORD_OF_FRAM.replace("FRAM_REGIONS", "FRAM_REGIONS or address < 0x4400")),
    in_boot("reads no structure among the vectors", WORD_OF_FRAM,
            WORD_OF_FRAM.replace("FRAM_REGIONS",
                                 "FRAM_REGIONS or 0xFF90 <= address < 0x10000")),
    in_boot("checks without not", IS_BAD,
            IS_BAD.replace("~(control ^ second ^ first) & 0xFFFF", "control ^ second ^ first")),
    in_boot("checks a sum", IS_BAD, IS_BAD.replace(" ^ ", " + ")),
    in_boot("checks what is kept of the words alone", IS_BAD,
            "        if (check ^ ~(control ^ second ^ first)) & 0xFFC0:\n"),
    in_boot("checks no saved structure", IS_BAD,
            IS_BAD.replace("if check", "if self.hidden.mark is not Mark.SAVED and check")),
    in_boot("drops a saved structure that is bad", BAD,
            "            if self.hidden.mark is Mark.SAVED:\n"
            "                self.hidden.write_mark(Mark.EMPTY)\n"
            "                return Place.DONE\n" + BAD),
    in_boot("drops a bad structure", BAD, "            return Place.DONE\n"),
    in_boot("exchanges the borders", JUDGE,
            JUDGE.replace("second: int, first: int", "first: int, second: int")),
    in_boot("installs the whole first word", INSTALLED,
            INSTALLED.replace("control & KEPT_OF_CONTROL", "control & 0xFF")),
    in_boot("installs whole borders", INSTALLED, INSTALLED.replace(" & KEPT_OF_A_BORDER", "")),
    in_boot("installs LOCK always", INSTALLED,
            INSTALLED.replace("control & KEPT_OF_CONTROL", "control & KEPT_OF_CONTROL | 0x80")),
    in_boot("installs ENA always", INSTALLED,
            INSTALLED.replace("control & KEPT_OF_CONTROL", "control & KEPT_OF_CONTROL | 0x40")),
    in_boot("installs no VS", INSTALLED,
            INSTALLED.replace("control & KEPT_OF_CONTROL", "control & 0xC0")),
    in_boot("sorts the borders", INSTALLED,
            INSTALLED.replace("second & KEPT", "max(first, second) & KEPT")
            .replace("first & KEPT_OF_A_BORDER\n", "min(first, second) & KEPT_OF_A_BORDER\n")),
    Mistake("power's boot installs nothing without LOCK", "chip.py", END_OF_BOOT,
            "        borders = self.boot.end()\n"
            "        if borders.control & 0x80:\n"
            "            self.encapsulation.install(borders)\n"
            + END_OF_BOOT.split("\n", 1)[1]),
    Mistake("power's boot tells the second border first", "trace.py",
            "{first:05X} {second:05X}", "{second:05X} {first:05X}"),
    Mistake("power's boot tells what it installs where it is locked alone", "trace.py",
            "{installed.control():02X}",
            "{installed.control() if installed.locked() else 0:02X}"),
    Mistake("power's boot opens the latch", "encapsulation.py",
            "        self.registers = {MPUIPC0: borders.control",
            "        self.latch.is_open = True\n"
            "        self.registers = {MPUIPC0: borders.control"),
    Mistake("power's boot comes with a PUC", "chip.py",
            "        self.registers.set(SR, 0)\n        self.reset_units(cause)\n"
            "        self.load_reset_vector()\n",
            "        self.registers.set(SR, 0)\n        self.reset_units(cause)\n"
            "        self.boot.restart()\n"),
    Mistake("power's boot ends without its own tick", "chip.py", "        self.boot.step()\n",
            "        self.boot.step()\n        if self.boot.place is Place.DONE:\n"
            "            self.end_boot()\n"),
)

ERASES = (
    in_boot("empties the mark before the wipe", MARK_ERASING,
            MARK_ERASING.replace("ERASING", "EMPTY")),
    in_boot("empties the mark with the last wipe", "            return Place.MARK_EMPTY\n",
            "            self.hidden.mark = Mark.EMPTY\n            return Place.MARK_EMPTY\n"),
    in_boot("empties the mark behind information FRAM", NEXT_WIPE,
            "        if address == LAST_OF_INFORMATION:\n"
            "            self.hidden.mark = Mark.EMPTY\n" + NEXT_WIPE),
    in_boot("leaves the mark erasing", MARK_EMPTY, "        return Place.DONE\n"),
    in_boot("leaves the mark saved behind an erase", MARK_EMPTY,
            MARK_EMPTY.replace("EMPTY", "SAVED")),
    in_boot("wipes to 13FFCh", "LAST_OF_MAIN = 0x13FFE", "LAST_OF_MAIN = 0x13FFC"),
    in_boot("doesn't wipe the last word", WIPED, "        if address != LAST_OF_MAIN:\n    "
            + WIPED.replace("\n            ", "\n                ")),
    in_boot("stops its wipe at 64 KB", WIPED, "        if address < 0x10000:\n    "
            + WIPED.replace("\n            ", "\n                ")),
    in_boot("spares the vectors", WIPED, "        if address not in range(0xFFE0, 0x10000):\n    "
            + WIPED.replace("\n            ", "\n                ")),
    in_boot("spares information FRAM", WIPED, "        if address >= FIRST_OF_MAIN:\n    "
            + WIPED.replace("\n            ", "\n                ")),
    in_boot("wipes main FRAM alone", MARK_ERASING,
            "        self.wiped_next = FIRST_OF_MAIN\n" + MARK_ERASING),
    in_boot("wipes SRAM too", MARK_EMPTY,
            "        for address in range(0x1C00, 0x2400):\n"
            "            self.memory.write_byte(address, 0xFF)\n" + MARK_EMPTY),
    in_boot("wipes lower bytes", WIPED, WIPED.replace("write_word", "write_byte")),
    in_boot("wipes by 0000h", "ERASED_WORD = 0xFFFF", "ERASED_WORD = 0x0000"),
    in_boot("wipes two words in a tick", NEXT_WIPE,
            "        if address not in (0x19FC, 0x13FFC):\n"
            "            self.memory.write_word(address + 2, ERASED_WORD)\n"
            + NEXT_WIPE.replace("else address + 2",
                                "else address + (2 if address % 0x200 == 0x1FC else 4)")),
    in_boot("goes on with a wipe where it was", "        self.wiped_next = FIRST_WIPED\n",
            "        self.wiped_next = getattr(self, \"wiped_next\", FIRST_WIPED)\n"),
    in_boot("installs what it erased for", JUDGE,
            JUDGE + "        self.borders = Borders(\n" + INSTALLED + "        )\n"),
    in_boot("ends an erase with a BOR", MARK_EMPTY,
            MARK_EMPTY.replace("Place.DONE", "Place.START")),
    Mistake("power's boot tells an erase with its mark", "chip.py", BOOT_STEP,
            BOOT_STEP.replace("self.boot.erases_first_word()",
                              "self.boot.place is Place.MARK_ERASE")),
    Mistake("power's boot tells an erase that begins again by nothing", "chip.py", BOOT_STEP,
            BOOT_STEP.replace("self.boot.erases_first_word()",
                              "self.boot.erases_first_word() and self.boot.words")),
    Mistake("power's boot tells an erase with main FRAM again", "chip.py", BOOT_STEP,
            BOOT_STEP.replace("self.boot.erases_first_word()",
                              "self.boot.place is Place.WIPE and (\n"
                              "                self.boot.wiped_next in (0x1800, 0x4400))")),
)

ERASES_BY_COMMAND = (
    Mistake("power's erase by command leaves the mark", "debug.py", ERASE,
            "                self.request(Cause.DEBUG_RESET)\n"),
    Mistake("power's erase by command waits for a reset", "debug.py", ERASE,
            "                self.hidden.write_mark(Mark.ERASING)\n"),
    Mistake("power's erase by command resets as PMMSWBOR does", "debug.py", ERASE,
            ERASE.replace("DEBUG_RESET", "SOFTWARE_BOR")),
    Mistake("power's erase by command isn't numbered", "debug.py", ERASE,
            ERASE.replace("self.hidden.write_mark(Mark.ERASING)",
                          "self.hidden.mark = Mark.ERASING")),
    Mistake("power's erase by command is numbered twice", "debug.py", ERASE,
            "                self.hidden.writes.next_is_absent(\"mark\")\n" + ERASE),
    Mistake("power's erase by command is never whole in a cut", "debug.py", ERASE,
            ERASE.replace("                self.hidden.write_mark(Mark.ERASING)\n",
                          "                if not self.hidden.writes.end_in_a_cut():\n"
                          "                    self.hidden.write_mark(Mark.ERASING)\n")),
    Mistake("power's erase by command resets where its write is whole alone", "debug.py", ERASE,
            ERASE.replace("                self.request",
                          "                if self.hidden.mark is Mark.ERASING:\n"
                          "                    self.request"),
            "in the tick of a cut the request is dropped, and in others each write is whole"),
    Mistake("power's erase by command is refused where it is sealed", "debug.py", ERASE,
            "                if self.bus.encapsulation.locked():\n                    return OK\n"
            + ERASE),
    Mistake("power's erase by command is let through the closed port", "debug.py",
            "        if self.is_closed():\n",
            "        if self.is_closed() and not isinstance(command, Erase):\n"),
    Mistake("power's erase by command is let into a boot", "debug.py",
            "        if not self.is_booted():\n",
            "        if not self.is_booted() and not isinstance(command, Erase):\n"),
    Mistake("power's erase by command needs a halt", "debug.py",
            "COMMANDS_OF_REGISTERS = (ReadRegister, SetRegister)",
            "COMMANDS_OF_REGISTERS = (ReadRegister, SetRegister, Erase)"),
    Mistake("power's erase by command is a reset", "bench.py",
            "\"erase\": (Erase, ())", "\"erase\": (Reset, ())"),
    Mistake("power's erase by command has no answer", "debug.py", ERASE,
            ERASE + "                return None\n"),
    Mistake("power's erase by command wipes at once", "debug.py", ERASE,
            "                for address in (*range(0x1800, 0x1A00, 2), "
            "*range(0x4400, 0x14000, 2)):\n"
            "                    self.memory.write_word(address, 0xFFFF)\n"
            "                self.request(Cause.DEBUG_RESET)\n"),
)

NUMBERS = (
    Mistake("power's numbers begin with 0", "power.py", IS_ABSENT,
            "        absent = self.count > self.whole + 1\n"),
    Mistake("power's numbers leave one write less", "power.py", IS_ABSENT,
            "        absent = self.count >= self.whole\n"),
    Mistake("power's numbers go on from tick to tick", "power.py",
            "        self.count = 0\n        self.whole = whole\n",
            "        self.count = getattr(self, \"count\", 0)\n        self.whole = whole\n"),
    Mistake("power cut leaves all writes whole", "power.py", IS_ABSENT,
            "        absent = False\n"),
    Mistake("power cut leaves all writes absent", "power.py", IS_ABSENT,
            "        absent = True\n"),
    Mistake("power cut leaves half of a word", "bus.py", ABSENT_ON_THE_BUS,
            "        if self.writes.next_is_absent(self.agent.value):\n"
            "            if size == \"w\" and self.writes.count == self.writes.whole + 1:\n"
            "                self.memory.write_byte(at, value & 0xFF)\n"
            "            return\n"),
    Mistake("power cut leaves the upper half of a word", "bus.py", ABSENT_ON_THE_BUS,
            "        if self.writes.next_is_absent(self.agent.value):\n"
            "            if size == \"w\" and self.writes.count == self.writes.whole + 1:\n"
            "                self.memory.write_byte(at + 1, value >> 8)\n"
            "            return\n"),
    Mistake("power's numbers count a word as two bytes", "bus.py", ABSENT_ON_THE_BUS,
            "        if size == \"w\":\n            self.writes.next_is_absent(\"half\")\n"
            + ABSENT_ON_THE_BUS),
    Mistake("power's numbers count reads", "bus.py",
            "        if self.is_refused(at, right):\n",
            "        if right is Right.READ:\n            self.writes.next_is_absent(\"read\")\n"
            "        if self.is_refused(at, right):\n"),
    Mistake("power's numbers count fetches", "bus.py",
            "        if self.is_refused(at, right):\n",
            "        if right is Right.FETCH:\n            self.writes.next_is_absent(\"fetch\")\n"
            "        if self.is_refused(at, right):\n"),
    Mistake("power's numbers leave out refused writes", "bus.py", REFUSED_WRITE,
            "        elif self.is_refused(at, Right.WRITE):\n"
            "            self.writes.count -= 1\n            return\n"),
    not_numbered("registers", "region_of(at) is Region.PERIPHERALS"),
    not_numbered("vacant addresses", "region_of(at) in (Region.VACANT, Region.DESCRIPTOR)"),
    not_numbered("SRAM", "region_of(at) is Region.SRAM"),
    not_numbered("information FRAM", "region_of(at) is Region.INFORMATION"),
    not_numbered("bytes", "size == \"b\""),
    not_numbered("the processor", "self.agent is Agent.PROCESSOR"),
    not_numbered("entries", "self.agent is Agent.ENTRY"),
    not_numbered("DMA", "self.agent is Agent.DMA"),
    not_numbered("the debugger", "self.agent is Agent.DEBUG"),
    Mistake("power's numbers begin anew with the owner", "chip.py",
            "        self.take_edges()\n        self.owner_acts()\n",
            "        self.take_edges()\n        self.writes.count = 0\n"
            "        self.owner_acts()\n"),
    Mistake("power's numbers take a store of 20 bits as one", "execute.py",
            STORED_LOW + "        if width == 20:\n",
            STORED_LOW + "        if width == 20:\n            self.bus.writes.count -= 1\n"),
    Mistake("power's numbers take a push of 20 bits as one", "execute.py",
            STORED_HIGH + STORED_LOW,
            STORED_HIGH + "            self.bus.writes.count -= 1\n" + STORED_LOW),
    Mistake("power's numbers take PUSHM as one", "execute.py",
            "        values = list(self.registers.values)\n",
            "        values = list(self.registers.values)\n"
            "        if self.bus.writes.whole:\n            self.bus.writes.whole = 64\n"),
    in_boot("doesn't number mark", MARK_IF_PRESENT, "        self.mark = mark\n"),
    in_boot("doesn't number ptr", POINTER_IF_PRESENT, "        self.pointer = pointer\n",
            "ptr is written before the mark is, and is of no effect until then: the next boot "
            "writes it again"),
    in_boot("doesn't number its wipes", WIPED,
            "        self.memory.write_word(address, ERASED_WORD)\n",
            "a cut in an erase leaves the mark, and the next boot wipes all again"),
)

CUTS = (
    kept("busy", "self.busy", "self.busy = kept"),
    kept("a halt", "self.debug.halted", "self.debug.halted = kept"),
    kept("a halt that is pending", "self.debug.halt_is_pending",
         "self.debug.halt_is_pending = kept"),
    kept("the requests", "set(self.requests)", "self.requests |= kept"),
    kept("the NMI", "self.protection.nmi_is_requested", "self.protection.nmi_is_requested = kept"),
    kept("the second tick of DMA", "self.dma.second_tick", "self.dma.second_tick = kept"),
    kept("the channels of DMA", "[vars(channel).copy() for channel in self.dma.channels]",
         "for channel, values in zip(self.dma.channels, kept): vars(channel).update(values)"),
    kept("the registers", "list(self.registers.values)", "self.registers.values[3:] = kept[3:]"),
    kept("SP", "self.registers.get(1)", "self.registers.set(1, kept)"),
    kept("SR", "self.registers.get(2)", "self.registers.set(2, kept)"),
    kept("the watchdog", "vars(self.watchdog).copy()", "vars(self.watchdog).update(kept)"),
    kept("the timers", "[vars(timer).copy() for timer in self.timers]",
         "for timer, values in zip(self.timers, kept): vars(timer).update(values)"),
    kept("the ports", "[pair.stored for pair in self.ports.pairs]",
         "for pair, stored in zip(self.ports.pairs, kept): pair.stored = stored"),
    kept("the pins unlocked", "self.system.locked", "self.system.locked = kept"),
    kept("NWAITS", "self.fram.control", "self.fram.control = kept"),
    kept("the segments", "vars(self.protection).copy()", "vars(self.protection).update(kept)"),
    kept("the flags of violations", "self.protection.flags", "self.protection.flags = kept"),
    kept("the encapsulation", "self.encapsulation.registers",
         "self.encapsulation.registers = kept",
         "each boot installs borders or none, and nothing is judged by them before"),
    kept("the place of the boot", "vars(self.boot).copy()",
         "vars(self.boot).update(kept if kept[\"place\"] is not Place.NONE else {})"),
    kept("the dead", "self.dead", "self.dead = kept",
         "each boot that ends judges the vector anew, and nothing asks before that"),
    Mistake("power lost keeps what was noted", "chip.py", "        self.protection.end_step()\n",
            "        if not self.writes.end_in_a_cut():\n"
            "            self.protection.end_step()\n"),
    Mistake("power lost keeps SRAM", "chip.py", LOST, ""),
    Mistake("power lost makes SRAM 0", "chip.py", LOST,
            "        self.memory.store[0x1C00:0x2400] = bytes(0x800)\n"),
    Mistake("power lost keeps half of SRAM", "chip.py", LOST,
            "        half = self.memory.store[0x1C00:0x2000]\n" + LOST
            + "        self.memory.store[0x1C00:0x2000] = half\n"),
    Mistake("power lost fills information FRAM", "chip.py", LOST,
            LOST + "        self.memory.store[0x1800:0x1A00] = bytes("
            "[self.memory.fill]) * 0x200\n"),
    Mistake("power lost loses the mark", "chip.py", LOST,
            LOST + "        self.hidden.mark = type(self.hidden.mark).EMPTY\n"),
    Mistake("power lost loses ptr", "chip.py", LOST, LOST + "        self.hidden.pointer = 0\n"),
    Mistake("power lost makes external levels low", "chip.py", LOST,
            LOST + "        for pair in self.ports.pairs:\n            pair.external = 0\n"),
    Mistake("power that comes makes external levels low", "chip.py", ON_LINE,
            ON_LINE + "        for pair in self.ports.pairs:\n            pair.external = 0\n"),
    Mistake("power that comes has no cause", "chip.py", ON_LINE,
            ON_LINE + "        self.system.reset_cause = 0\n"),
    Mistake("power that comes has the cause of a BOR", "chip.py", ON_LINE,
            ON_LINE + "        self.system.reset_cause = 0x06 if self.number else 0x02\n"),
)

TICKS = (
    Mistake("power comes a tick too soon", "power.py",
            "tick <= cut.tick + cut.off", "tick < cut.tick + cut.off"),
    Mistake("power comes a tick too late", "power.py",
            "tick <= cut.tick + cut.off", "tick <= cut.tick + cut.off + 1"),
    Mistake("power comes without a line", "chip.py", ON_LINE,
            "        if self.number == 0:\n    " + ON_LINE),
    Mistake("power comes and the boot waits a tick", "chip.py", COMES_ON,
            COMES_ON + "            if self.number:\n"
            "                self.stimulus(events)\n                return\n"),
    Mistake("power goes without a line", "chip.py",
            "        self.lines.append(trace.cut(self.number))\n", ""),
    Mistake("power goes before the owner acts", "chip.py",
            "        self.take_edges()\n        self.owner_acts()\n",
            "        self.take_edges()\n        if not self.writes.end_in_a_cut():\n"
            "            self.owner_acts()\n"),
    Mistake("power goes in the tick behind the cut's", "chip.py", TICK,
            "        late, self.late = getattr(self, \"late\", None), power.whole_writes\n"
            "        self.writes.begin_tick(late)\n" + TICK),
    Mistake("power off loses the events", "chip.py", TICK,
            TICK.replace("            self.stimulus(events)\n", "            pass\n")),
    Mistake("power off loses the levels", "chip.py", TICK,
            TICK.replace("            self.stimulus(events)\n",
                         "            self.stimulus([event for event in events\n"
                         "                           if not isinstance(event.act, PinLevel)])\n")),
    Mistake("power off answers no command", "chip.py", TICK,
            TICK.replace("            self.stimulus(events)\n",
                         "            self.stimulus([event for event in events\n"
                         "                           if isinstance(event.act, PinLevel)])\n")),
    Mistake("power that comes begins the ticks of ACLK", "chip.py", ON_LINE,
            ON_LINE + "        import clocks\n        came = self.number\n"
            "        globals()[\"edges_of\"] = lambda tick, status: (\n"
            "            clocks.edges_of(tick - came, status))\n"),
    Mistake("power goes behind the pins' lines", "chip.py",
            "        self.compare_levels()\n        self.number += 1\n",
            "        cuts = [line for line in self.lines if line.split()[1] == \"CUT\"]\n"
            "        self.lines = [line for line in self.lines if line not in cuts]\n"
            "        self.compare_levels()\n        self.lines += cuts\n"
            "        self.number += 1\n"),
    Mistake("power goes without the pins' lines", "chip.py",
            "        self.compare_levels()\n        self.number += 1\n",
            "        lines = list(self.lines)\n        self.compare_levels()\n"
            "        if self.writes.end_in_a_cut():\n            self.lines = lines\n"
            "        self.number += 1\n"),
    of_the_owner("HALT"), of_the_owner("ERASE"), of_a_boot("BOOT"), of_a_boot("DEAD"),
    Mistake("power cut in a tick shows its RST", "chip.py", IN_A_CUT,
            IN_A_CUT.replace("            self.lose_power()\n",
                             "            self.take_reset()\n            self.lose_power()\n")),
    Mistake("power cut in a tick lets a boot end", "chip.py", END_IN_CUT,
            "            self.end_boot()\n"),
    Mistake("power cut in a tick drops the commands' lines", "chip.py", IN_A_CUT,
            "            del self.lines[:]\n            self.lose_power()\n"),
)

FILES = (
    Mistake("power cuts may come in the last tick that is off", "bench.py",
            "last_off + 1, bench.end - 1", "last_off, bench.end - 1"),
    Mistake("power cuts need a tick between", "bench.py",
            "last_off + 1, bench.end - 1",
            "last_off + (2 if bench.cuts else 1), bench.end - 1"),
    Mistake("power cuts may come at the end", "bench.py",
            "last_off + 1, bench.end - 1", "last_off + 1, bench.end"),
    Mistake("power cuts leave 65 writes", "bench.py", "MOST_WRITES = 64", "MOST_WRITES = 65"),
    Mistake("power cuts leave 63 writes at most", "bench.py",
            "MOST_WRITES = 64", "MOST_WRITES = 63"),
    Mistake("power cuts may be short", "bench.py",
            "is_integer(cut.off, 1, LONGEST_OFF)", "is_integer(cut.off, 0, LONGEST_OFF)"),
    Mistake("power cuts may be longer than all runs", "bench.py",
            "LONGEST_OFF = 10_000_000", "LONGEST_OFF = 10_000_001"),
    Mistake("power cuts may be a thousand and one", "bench.py", "CUTS = 1_000", "CUTS = 1_001"),
    Mistake("power cuts may be 999", "bench.py", "CUTS = 1_000", "CUTS = 999"),
    Mistake("power cuts may have other keys", "bench.py",
            "set(table) != {\"tick\", \"writes\", \"off\"}",
            "not set(table) >= {\"tick\", \"writes\", \"off\"}"),
    Mistake("power cuts may be no array", "bench.py",
            "        if not isinstance(tables, list):\n",
            "        if not isinstance(tables, list) and name == \"Event\":\n"),
)

MISTAKES = (
    *MARKS, *STRUCTURES, *ERASES, *ERASES_BY_COMMAND, *NUMBERS, *CUTS, *TICKS, *FILES,
)
