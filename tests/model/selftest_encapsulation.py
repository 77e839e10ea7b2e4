"""Worked examples of IP Encapsulation: python3 tests/model/selftest_encapsulation.py

The debug port's stand among them. The traces were worked out by hand, instruction by instruction,
from docs/MACHINE.md.
"""

import unittest
from collections import Counter

from bench import Bench, Event, bench_text
from debug import (
    Dump, Go, Halt, ReadRegister, ReadWord, Reset, SetRegister, WriteWord,
)
from encapsulation import MPUIPC0, MPUIPSEGB1, MPUIPSEGB2, Encapsulation
from image import Segment, image_bytes
from latch import Latch
from layout import words_as_bytes
from registers_of_units import WORD
from right import Right
from run import run
from system import Cause

START = 0x4400
RESET_VECTOR = 0xFFFE
NMI_VECTOR = 0xFFFC
OPEN = "40B2 A500 05A0"
BORDERS = "40B2 0480 05AE 40B2 0500 05AC"  # 4800h and 5000h
LOCK = "40B2 00C0 05AA"  # with ENA
STAY = "3FFF"
SEALED = f"{OPEN} {BORDERS} {LOCK}"  # takes 16 ticks, so the next instruction runs in tick 19
BOOT = ["0 ON", "2 BOOT 00 00000 00000"]


def segment(address: int, words: str) -> Segment:
    return Segment(address, words_as_bytes([int(word, 16) for word in words.split()]))


class Example(unittest.TestCase):
    """Runs an image, given by the words at some addresses, under a bench of commands."""

    def check(self, parts, events, lines, end):
        segments = [segment(address, words) for address, words in parts.items()]
        if RESET_VECTOR not in parts:
            segments.append(segment(RESET_VECTOR, "4400"))
        bench = Bench(end, 0, [Event(tick, act) for tick, act in events])
        answer = run(image_bytes(segments), bench_text(bench).encode(), Counter())
        in_order = sorted([*BOOT, *lines], key=lambda line: int(line.split()[0]))
        expected = [*in_order, f"{end} END"]
        self.assertEqual((answer.output.splitlines(), answer.status), (expected, 0))


class Rights(unittest.TestCase):
    """The area of 4800h to 4FFFh, asked for one access after another."""

    def setUp(self):
        latch = Latch(lambda cause: None, Cause.PROTECTION_PASSWORD)
        latch.is_open = True
        self.encapsulation = Encapsulation(latch)
        self.install(0x0480, 0x0500, 0x00C0)

    def install(self, first, second, control):
        for address, word in (
            (MPUIPSEGB1, first), (MPUIPSEGB2, second), (MPUIPC0, control)
        ):
            self.encapsulation.write(address, word, WORD)

    def test_rights(self):
        cases = (
            (0x4804, 0x4900, Right.READ, True),
            (0x4806, 0x4900, Right.WRITE, True),
            (0x4808, 0x4900, Right.READ, False),
            (0x4808, 0x4800, Right.WRITE, False),  # the first bytes can be written from behind
            (0x4804, 0x4900, Right.FETCH, False),
            (0x47FE, 0x4800, Right.FETCH, True),
            (0x47FE, 0x4800, Right.READ, True),
            (0x4FFE, 0x5000, Right.READ, False),
            (0x5000, 0x4FFE, Right.READ, True),
            (0x4400, 0x47FF, Right.WRITE, False),
            (None, 0x4FFF, Right.READ, True),
            (None, 0x5000, Right.READ, False),
        )
        for instruction, at, right, refused in cases:
            answer = self.encapsulation.refuses(at, right, instruction)
            self.assertEqual(answer, refused, (instruction, at, right))

    def test_area(self):
        inside = Encapsulation.holds
        for first, second, address, expected in (
            (0x0480, 0x0480, 0x4800, False),
            (0x0500, 0x0480, 0x4900, False),
            (0x0000, 0xFFC0, 0x43FE, False),
            (0x0000, 0xFFC0, 0x19FE, False),
            (0x0000, 0xFFC0, 0x4400, True),
            (0x0000, 0xFFC0, 0xFF7E, True),
            (0x0000, 0xFFC0, 0xFF80, False),
            (0x0000, 0xFFC0, 0xFFFE, False),
            (0x0000, 0xFFC0, 0x10000, True),
            (0x0000, 0xFFC0, 0x13FFE, True),
            (0x0000, 0xFFC0, 0x14000, False),
            (0x04BF, 0x053F, 0x4800, True),  # bits 5:0 aren't kept
        ):
            self.setUp()
            self.encapsulation.reset(Cause.POWER_ON)
            self.install(first, second, 0x0040)
            answer = inside(self.encapsulation, address)
            self.assertEqual(answer, expected, (first, second, address))

    def test_lock(self):
        self.install(0x0440, 0xFFC0, 0x0000)
        registers = [self.encapsulation.read(address) for address in
                     (MPUIPC0, MPUIPSEGB2, MPUIPSEGB1)]
        self.assertEqual(registers, [0x00C0, 0x0500, 0x0480])
        self.encapsulation.reset(Cause.WATCHDOG_PASSWORD)
        self.assertTrue(self.encapsulation.seals(0x4800))
        self.encapsulation.reset(Cause.DEBUG_RESET)
        self.assertFalse(self.encapsulation.holds(0x4800))

    def test_lock_without_enable(self):
        self.encapsulation.reset(Cause.POWER_ON)
        self.install(0x0480, 0x0500, 0x0080)
        self.assertFalse(self.encapsulation.holds(0x4800))
        self.install(0x0480, 0x0500, 0x0040)
        self.assertEqual(self.encapsulation.read(MPUIPC0), 0x0080)

    def test_first_bytes_where_the_border_lies_below_main_fram(self):
        self.encapsulation.reset(Cause.POWER_ON)
        self.install(0x0000, 0x0500, 0x0040)
        self.assertFalse(self.encapsulation.refuses(0x4900, Right.READ, 0x4400))


class Runs(Example):
    def test_reads_before_and_behind_the_lock(self):
        self.check(
            {START: f"{SEALED} {STAY}", 0x4900: "1234"},
            [(15, ReadWord(0x4900)), (16, ReadWord(0x4900))],
            ["15 DBG read 04900 1234", "16 DBG read 04900 3FFF"], end=20,
        )

    def test_register_that_reads_once(self):
        self.check(
            {START: "40B2 0000 015C"},
            [(4, ReadWord(0x19E)), (4, ReadWord(0x19E))],
            ["3 RST 18", "4 DBG read 0019E 0018", "4 DBG read 0019E 0000", "4 RST 18"], end=5,
        )

    def test_halt_waits_in_the_seal(self):
        self.check(
            {START: f"{SEALED} 4030 4820", 0x4820: STAY, 0x4900: "1234"},
            [(25, Halt()), (26, ReadRegister(4)), (26, ReadWord(0x4900))],
            ["26 DBG reg 4 running", "26 DBG read 04900 3FFF"], end=40,
        )

    def test_halt_on_the_way_out_of_the_seal(self):
        # MOV to PC runs in ticks 19 to 22, JMP inside in 23 and 24, MOV to PC in 25 to 28.
        self.check(
            {START: f"{SEALED} 4030 4820", 0x4820: "3C00 4030 4440", 0x4440: STAY},
            [(23, Halt()), (28, ReadRegister(0)), (30, ReadRegister(0)), (30, Go()),
             (31, Halt())],
            ["28 DBG reg 0 running", "29 HALT 04440", "30 DBG reg 0 04440", "30 DBG go ok",
             "32 HALT 04440"], end=40,
        )

    def test_halted_in_the_seal(self):
        # Sent inside while halted, the processor is outside of private phase until it goes.
        self.check(
            {START: f"{SEALED} {STAY}", 0x4820: STAY},
            [(20, Halt()), (22, SetRegister(0, 0x4821)), (22, Halt()), (22, ReadRegister(0)),
             (23, Go()), (23, Halt()), (26, ReadRegister(0))],
            ["21 HALT 04418", "22 DBG setreg 0 ok", "22 DBG reg 0 04820", "23 DBG go ok",
             "26 DBG reg 0 running"], end=30,
        )

    def test_registers_of_a_halted_processor(self):
        self.check(
            {START: STAY},
            [(1, ReadWord(0x4400)), (12, Halt()), (14, ReadRegister(0)),
             (14, SetRegister(4, 74565)), (14, ReadRegister(4)), (14, SetRegister(2, 0xFFFFF)),
             (14, ReadRegister(2)), (14, SetRegister(3, 9)), (14, ReadRegister(3)),
             (15, SetRegister(2, 0)), (15, Go()), (15, ReadRegister(4))],
            ["1 DBG read 04400 booting", "13 HALT 04400", "14 DBG reg 0 04400",
             "14 DBG setreg 4 ok", "14 DBG reg 4 12345", "14 DBG setreg 2 ok",
             "14 DBG reg 2 001FF", "14 DBG setreg 3 ok", "14 DBG reg 3 00000",
             "15 DBG setreg 2 ok", "15 DBG go ok", "15 DBG reg 4 running"], end=20,
        )

    def test_closed(self):
        self.check(
            {START: STAY, 0xFF80: "5555"},
            [(9, WriteWord(0xFF82, 0x5555)), (9, ReadWord(0xFF82)), (9, ReadRegister(1)),
             (10, Halt()), (10, Dump(0xFF80, 2)), (10, Reset()), (10, Go())],
            ["9 DBG write 0FF82 ok", "9 DBG read 0FF82 closed", "9 DBG reg 1 closed",
             "10 DBG halt closed", "10 DBG dump 0FF80 closed", "10 DBG reset closed",
             "10 DBG go closed"], end=20,
        )

    def test_reset_by_the_debugger(self):
        # The least cause is taken, and the halt of the same tick has its line before it.
        self.check(
            {START: STAY},
            [(9, WriteWord(0x015C, 0)), (9, Halt()), (9, Reset()), (10, Halt()), (12, Go()),
             (13, ReadWord(0x19E))],
            ["9 DBG write 0015C ok", "9 DBG reset ok", "9 HALT 04400", "9 RST 04",
             "10 DBG halt booting", "12 DBG go booting", "12 BOOT 00 00000 00000",
             "13 DBG read 0019E 0004"], end=20,
        )

    def test_dump_over_the_borders(self):
        self.check(
            {START: f"{SEALED} {STAY}", 0x47FE: "2211 4433", 0x4FFE: "6655 8877"},
            [(20, Dump(0x47FE, 4)), (20, Dump(0x4FFF, 2)), (20, Dump(0xFFFFE, 4)),
             (21, WriteWord(0x4800, 0xABCD)), (21, WriteWord(0x47FE, 0xABCD)),
             (21, Dump(0x47FE, 3)), (21, ReadWord(0x05A2))],
            ["20 DBG dump 047FE 1122FFFF", "20 DBG dump 04FFF FF77", "20 DBG dump FFFFE FFFF0000",
             "21 DBG write 04800 ok", "21 DBG write 047FE ok", "21 DBG dump 047FE CDABFF",
             "21 DBG read 005A2 0000"], end=30,
        )

    def test_immediate_behind_the_border(self):
        # 4034h at 47FEh lies outside and its immediate inside, which gives 3FFFh. The code inside
        # shows R4, and the flag is set.
        self.check(
            {START: f"{SEALED} 4030 47FE", 0x47FE: "4034 5555 4482 1C00 3FFF"},
            [(30, ReadWord(0x1C00)), (30, ReadWord(0x05A2)), (30, ReadWord(0x019C)),
             (30, ReadWord(0x019C))],
            ["30 DBG read 01C00 3FFF", "30 DBG read 005A2 0010", "30 DBG read 0019C 0008",
             "30 DBG read 0019C 0000"], end=31,
        )

    def test_violation_that_resets(self):
        # With VS the read at 4418h, in tick 19, resets; encapsulation stands, and the words
        # before it write nothing then, so it comes again 16 ticks behind its reset.
        self.check(
            {START: f"{OPEN} {BORDERS} 40B2 00E0 05AA 4215 4900 {STAY}"},
            [(20, ReadWord(0x05AA)), (20, ReadWord(0x05A2))],
            ["19 RST 26", "20 DBG read 005AA 00E0", "20 DBG read 005A2 0010", "36 RST 26"], end=40,
        )

    def test_entry_on_a_stack_inside(self):
        # With SEGIE the refused read of tick 21 asks for the NMI. Both words of its entry are
        # refused too, and so each entry asks for the next.
        self.check(
            {START: f"40B2 A510 05A0 {BORDERS} {LOCK} 4031 4900 4215 4900 {STAY}",
             NMI_VECTOR: "4440", 0x4440: STAY},
            [(24, Halt()), (25, ReadRegister(1)), (25, Go()), (26, Halt()), (32, ReadRegister(1)),
             (32, WriteWord(0x05A2, 0)), (32, Go()), (33, Halt()), (39, ReadRegister(1)),
             (39, ReadRegister(5)), (39, ReadWord(0x05A2))],
            ["24 HALT 04420", "25 DBG reg 1 04900", "25 DBG go ok", "31 HALT 04440",
             "32 DBG reg 1 048FC", "32 DBG write 005A2 ok", "32 DBG go ok", "38 HALT 04440",
             "39 DBG reg 1 048F8", "39 DBG reg 5 03FFF", "39 DBG read 005A2 0010"], end=40,
        )


if __name__ == "__main__":
    unittest.main()
