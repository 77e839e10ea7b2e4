"""Mistakes in what a seal lets out.

The names of all of them begin with "release", so that they can be tried alone.
"""

from mistake import Mistake

# chip.py
TURN = """\
        self.stimulus(events)
        lines_of_events = len(self.lines)
        self.take_edges()
        self.owner_acts()
"""
STEP = "        if self.private_step is not None:\n"
IN_A_CUT = "            self.lose_power()\n        else:\n"
AT_THE_END = "            self.take_reset()\n            self.list_exit()\n"
ENTRY = """\
        if step.vector is not None and not is_cut:
            self.items.append(items.Entry(step.vector))
"""
ACCESSES = """\
        self.items += [
            items.item_of_access(access) for access in self.bus.accesses
            if not self.encapsulation.seals(access.at)
        ]
"""
OUTSIDE = "            if not self.encapsulation.seals(access.at)\n"
CUT_SHORT = "        if is_cut:\n            return\n"
FLAGS = "        if flags:\n            self.items.append(items.Flags(flags))\n"
NOTED = """\
        flags = self.protection.noted_flags()
        self.protection.end_step()
"""
RESET = """\
        if self.requests.of_step:
            self.items.append(items.Reset(min(self.requests.of_step)))
"""
POWER = """\
        power = self.registers.get(SR) & items.POWER_BITS
        if power != step.status & items.POWER_BITS:
            self.items.append(items.Power(power))
"""
IS_EXIT = "        if self.is_private_turn and not self.is_private():\n"
NOTE_STEP = "        if self.is_private_turn:\n            self.private_step"
STEP_BEGINS = "            self.requests.begin_step()\n"
STRUCT = """\
        if place is Place.WORD:
            words = self.boot.words
            self.items.append(items.Struct(len(words) - 1, words[-1]))
"""
OPENS = "        self.list_opened(kept - self.encapsulation.kept)\n"
INTERVALS = "        for interval in seals.intervals(opened):\n"
LOST = "        self.memory.lose_sram()\n"
BOR = "        self.dead = False\n        self.boot.restart()\n"
END_IN_CUT = "            if not self.writes.end_in_a_cut():\n                self.end_boot()\n"
FIRST_SEAL = "        self.encapsulation.install(borders_of_image(store))"

# encapsulation.py
LOCKED = """\
            if self.locked() and self.enabled():
                self.kept = self.seal()
"""
INSTALLED = "MPUIPSEGB1: borders.first}\n        self.kept = self.seal()\n"

# bus.py
READ = "        self.accesses.append(Access(right, at, size))\n"
IS_ABSENT = "        if self.writes.next_is_absent(self.agent.value):\n            return\n"
WRITE = """\
        whole = value & (WORD if size == "w" else LOW_HALF)
        self.accesses.append(Access(Right.WRITE, at, size, whole))
"""
REFUSED_WRITE = "        elif self.is_refused(at, Right.WRITE):\n"
REFUSED_READ = "        if self.is_refused(at, right):\n"


def in_chip(name: str, right: str, wrong: str, unseen_because: str = "") -> Mistake:
    return Mistake(f"release list {name}", "chip.py", right, wrong, unseen_because)


def in_items(name: str, right: str, wrong: str) -> Mistake:
    return Mistake(f"release list {name}", "items.py", right, wrong)


def in_bus(name: str, right: str, wrong: str, unseen_because: str = "") -> Mistake:
    return Mistake(f"release list {name}", "bus.py", right, wrong, unseen_because)


def kept(name: str, file: str, right: str, wrong: str, unseen_because: str = "") -> Mistake:
    return Mistake(f"release list's kept seal {name}", file, right, wrong, unseen_because)


def exit_with(before: str, what: str, changed: str) -> Mistake:
    """An exit that tells something as it stood before the reset."""
    return in_chip(
        f"tells {what} of an exit before the reset", AT_THE_END,
        f"            before = {before}\n{AT_THE_END}"
        "            for index, item in enumerate(self.items):\n"
        "                if isinstance(item, items.Exit):\n"
        f"                    self.items[index] = items.Exit({changed})\n",
    )


def without(right: str, test: str) -> str:
    """Accesses for which a test holds are left out."""
    return right.replace("if not", f"if not {test} and not")


EXITS = (
    in_items("tells exits without busy", "EXIT {self.busy} {registers}", "EXIT {registers}"),
    in_items("tells busy of exits in digits of 16", "EXIT {self.busy} ", "EXIT {self.busy:X} "),
    exit_with("tuple(self.registers.values)", "the registers", "item.busy, before"),
    exit_with("self.busy", "busy", "before, item.registers"),
    in_chip("has an exit in the tick of a cut", IN_A_CUT,
            "            self.lose_power()\n            self.list_exit()\n        else:\n"),
    in_chip("has an exit of steps alone", IS_EXIT,
            IS_EXIT.replace("self.is_private_turn", "self.private_step is not None")),
    in_chip("has no exit by a BOR", IS_EXIT,
            IS_EXIT.replace("not self.is_private()", "self.is_booted() > self.is_private()")),
    in_chip("has no exit by a reset", AT_THE_END,
            "            self.list_exit()\n            self.take_reset()\n"),
    in_chip("has no exit by an entry", IS_EXIT,
            IS_EXIT.replace("self.is_private_turn", "not (\n                self.private_step "
                            "and self.private_step.vector) and self.is_private_turn")),
    in_chip("takes the phase before the commands", TURN,
            "        private = self.is_private()\n" + TURN
            + "        self.is_private_turn = private\n"),
    in_chip("has an exit where a halt comes", "        self.debug.halt()\n",
            "        if self.is_private_turn:\n"
            "            self.items.append(items.Exit(self.busy, tuple(self.registers.values)))\n"
            "        self.debug.halt()\n",
            "a halt waits until the phase isn't private, so it never ends one"),
)

OF_ACCESSES = (
    in_chip("tells accesses inside the seal", OUTSIDE, ""),
    in_chip("tells reads inside the seal", OUTSIDE,
            OUTSIDE.replace("if not", "if access.right == 1 or not")),
    in_chip("leaves out fetches past the border", OUTSIDE, without(OUTSIDE, "access.right == 4")),
    in_chip("leaves out accesses to registers", OUTSIDE, without(OUTSIDE, "access.at < 0x1000")),
    in_chip("leaves out signatures and vectors", OUTSIDE,
            without(OUTSIDE, "0xFF80 <= access.at < 0x10000")),
    in_chip("leaves out the accesses of entries", OUTSIDE, without(OUTSIDE, "step.vector")),
    in_chip("tells public steps", NOTE_STEP,
            "        if self.is_private_turn or self.encapsulation.kept:\n"
            "            self.private_step"),
    in_chip("tells accesses of DMA", STEP,
            "        if self.is_private_turn and self.dma.second_tick:\n"
            "            self.list_step(PrivateStep(self.registers.get(SR)), 0)\n" + STEP),
    in_chip("tells flags before accesses", ACCESSES,
            "        if flags and not is_cut:\n"
            "            self.items.append(items.Flags(flags))\n            flags = 0\n"
            + ACCESSES),
    in_bus("tells absent writes", IS_ABSENT + WRITE, WRITE + IS_ABSENT),
    in_bus("leaves out refused writes", REFUSED_WRITE,
           REFUSED_WRITE + "            self.accesses.pop()\n"),
    in_bus("leaves out refused reads", REFUSED_READ,
           REFUSED_READ + "            self.accesses.pop()\n"),
    in_bus("tells what a byte's write has above it", WRITE,
           WRITE.replace("value & (WORD if size == \"w\" else LOW_HALF)", "value & WORD"),
           "an instruction that writes a byte has cut its value to a byte before"),
    in_bus("ends behind eight accesses of a step", READ,
           "        if len(self.accesses) < 8:\n    " + READ),
    in_bus("tells the upper word of 20 bits as read with the lower", READ,
           "        last = self.accesses[-1] if self.accesses else None\n"
           "        if last != (Right.READ, at - 2, size, 0) or right is not Right.READ:\n"
           "    " + READ),
    in_items("tells words that are read as bytes", "R {self.at:05X} {self.size}",
             "R {self.at:05X} b"),
    in_items("tells four digits of bytes", "{\"b\": 2, \"w\": 4}", "{\"b\": 4, \"w\": 4}"),
)

STEPS = (
    in_chip("has no entries", ENTRY, ""),
    in_chip("has an entry in the tick of a cut", ENTRY, ENTRY.replace(" and not is_cut", "")),
    in_chip("tells an entry behind its accesses", ENTRY + ACCESSES, ACCESSES + ENTRY),
    in_chip("tells the routine of an entry", ENTRY,
            ENTRY.replace("step.vector))", "self.registers.get(PC)))")),
    Mistake("release list leaves out the flag of encapsulation", "protection.py",
            "1 << place for place in self.noted)",
            "1 << place for place in self.noted if place is not Place.ENCAPSULATION)"),
    Mistake("release list tells one flag of a step", "protection.py",
            "1 << place for place in self.noted)", "1 << place for place in list(self.noted)[:1])"),
    Mistake("release list tells numbers of flags", "protection.py",
            "return sum(1 << place for place in self.noted)",
            "return max((NUMBERS[place] for place in self.noted), default=0)"),
    in_chip("tells all flags that stand", NOTED,
            NOTED + "        flags = flags and self.protection.flags\n"),
    in_chip("tells new flags alone", NOTED,
            NOTED.replace("flags()\n", "flags() & ~self.protection.flags\n")),
    in_chip("has flags in the tick of a cut", CUT_SHORT + FLAGS, FLAGS + CUT_SHORT),
    in_chip("has a reset in the tick of a cut", CUT_SHORT + FLAGS + RESET,
            RESET + CUT_SHORT + FLAGS),
    in_chip("tells the greatest cause", RESET, RESET.replace("min(", "max(")),
    in_chip("tells the tick's cause of a step that requests", RESET,
            RESET.replace("min(self.requests.of_step", "min(self.requests")),
    in_chip("tells what others request", RESET, RESET.replace(".of_step", "")),
    in_chip("forgets who requested", STEP_BEGINS, ""),
    in_chip("tells no cause of a violation", NOTED,
            NOTED + "        self.requests.of_step -= {\n"
            "            cause for cause in self.requests.of_step if 0x26 <= cause < 0x40}\n"),
    in_chip("tells no cause of a reserved word",
            "            self.requests.add(Cause.RESERVED_WORD)",
            "            set.add(self.requests, Cause.RESERVED_WORD)"),
    in_chip("tells power of each step with a bit", POWER,
            POWER.replace("!= step.status & items.POWER_BITS", "or power != step.status & 0xF0")),
    in_chip("tells no power of entries", POWER,
            POWER.replace("if power", "if not step.vector and power")),
    in_chip("tells power in the tick of a cut", CUT_SHORT, POWER + CUT_SHORT),
    in_items("tells power of the processor alone", "POWER_BITS = 0x00F0", "POWER_BITS = 0x0010"),
    in_items("tells power with all of SR", "POWER_BITS = 0x00F0", "POWER_BITS = 0x01FF"),
    in_chip("tells power behind the reset", POWER, POWER.replace(
        "self.registers.get(SR) & items.POWER_BITS\n",
        "self.registers.get(SR) & items.POWER_BITS\n"
        "        if self.requests:\n            power = 0\n", 1)),
)

OF_BOOTS = (
    in_chip("has no structure that a saved mark leads to", STRUCT,
            STRUCT.replace("is Place.WORD", "is Place.WORD and self.hidden.mark != 0x5A01")),
    in_chip("leaves out the check word", STRUCT,
            STRUCT.replace("is Place.WORD", "is Place.WORD and len(self.boot.words) < 4")),
    in_chip("has no structure in the tick of a cut", STRUCT,
            STRUCT.replace("is Place.WORD", "is Place.WORD and not self.writes.end_in_a_cut()")),
    in_chip("tells the structure in the tick behind", STRUCT,
            "        if getattr(self, \"read\", None):\n"
            "            self.items.append(self.read)\n"
            "        self.read = None\n"
            + STRUCT.replace("self.items.append(items.Struct(len(words) - 1, words[-1]))",
                             "self.read = items.Struct(len(words) - 1, words[-1])")),
    in_chip("leaves out a structure outside of FRAM", STRUCT,
            STRUCT.replace("is Place.WORD", "is Place.WORD and self.boot.words[-1] != 0x3FFF")),
    in_items("counts a structure's words from 1", "STRUCT {self.index} ",
             "STRUCT {self.index + 1} "),
    in_chip("opens nothing", OPENS, ""),
    in_chip("opens all that was kept", OPENS,
            OPENS.replace("kept - self.encapsulation.kept",
                          "kept if kept != self.encapsulation.kept else kept - kept")),
    in_chip("tells what is kept anew", OPENS,
            OPENS.replace("kept - self.encapsulation.kept", "self.encapsulation.kept - kept")),
    in_chip("opens without the last row", INTERVALS,
            INTERVALS.replace("(opened)", "(opened - {max(opened, default=0)})")),
    in_chip("opens one interval", INTERVALS, INTERVALS.replace("(opened)", "(opened)[:1]")),
    in_chip("opens downward", INTERVALS, INTERVALS.replace("(opened)", "(opened)[::-1]")),
    in_chip("opens signatures and vectors", INTERVALS, INTERVALS.replace(
        "(opened)", "(opened | (\n            {row for row in range(0xFF8, 0x1000)}"
        " if {0xFF7, 0x1000} <= opened else set()))")),
    in_items("opens rows of 8 bytes", "BYTES_OF_A_LINE = 16", "BYTES_OF_A_LINE = 8"),
)

OF_THE_KEPT = (
    kept("is lost with power", "chip.py", LOST,
         LOST + "        self.encapsulation.kept = seals.NO_SEAL\n"),
    kept("is lost by a BOR", "chip.py", BOR,
         BOR + "        self.encapsulation.kept = seals.NO_SEAL\n"),
    kept("isn't set by LOCK", "encapsulation.py", LOCKED, ""),
    kept("is what LOCK adds", "encapsulation.py", LOCKED,
         LOCKED.replace("self.kept =", "self.kept |="),
         "where LOCK isn't set and a boot is done nothing is kept"),
    kept("isn't set by a boot", "encapsulation.py", INSTALLED,
         INSTALLED.replace("self.kept = self.seal()", "pass")),
    kept("stands where a boot finds no structure", "encapsulation.py", INSTALLED,
         INSTALLED.replace("self.kept = self.seal()",
                           "self.kept = self.seal() if self.locked() else self.kept")),
    kept("is set by LOCK in no tick of a cut", "chip.py", TURN,
         "        kept = self.encapsulation.kept\n" + TURN
         + "        if self.writes.end_in_a_cut():\n            self.encapsulation.kept = kept\n"),
    kept("is set by a boot that is cut in its last tick", "chip.py", END_IN_CUT,
         "            self.end_boot()\n"),
    kept("is empty at first", "chip.py", FIRST_SEAL,
         "        borders_of_image(store)",
         "only a boot could open it, and the first that ends finds the image as it was"),
)

MISTAKES = (*EXITS, *OF_ACCESSES, *STEPS, *OF_BOOTS, *OF_THE_KEPT)
