"""Worked examples of boots, erases and power cuts: python3 tests/model/selftest_power.py

Those of the last class are whole tables of runs, and take a minute.
"""

import unittest
from collections import Counter

import bench as benches
from bench import Bench, Event, PinLevel, bench_of_text, bench_text
from chip import Chip
from debug import Erase, Go, Halt, ReadRegister, ReadWord, Reset, SetRegister, WriteWord
from image import Segment, image_bytes, store_of_image
from layout import words_as_bytes
from memory import ADDRESSES, is_fram
from ports import Pin
from power import OFF, ON, Cut, Power, Schedule
from run import run

BLINK = {0x4400: "C392 0130 43D2 0204 43D2 0202 3FFF", 0xFFFE: "4400"}
BLINK_LINES = ["0 ON", "2 BOOT 00 00000 00000", "7 PIN P1 zzzzzzz0", "10 PIN P1 zzzzzzz1"]
STAY = "3FFF"

Words = dict[int, str]


def sealed(code: str, structure: str = "00C0 0500 0480 FEBF", **others: str) -> Words:
    """An image with a structure at 4810h, whose borders are 4800h and 5000h."""
    return {0x4810: structure, 0xFF88: "AAAA 0481", 0x4900: "1234", 0xFFFE: "4400",
            0x4400: code} | {int(at[1:], 16): words for at, words in others.items()}


BAD_CHECK = "00C0 0500 0480 FEBE"
GOOD_BEHIND_ITS_FIRST_WIPE = "00C0 0500 0480 0180"  # with FFFFh as its first word


def image(words: Words) -> bytes:
    return image_bytes([
        Segment(at, words_as_bytes([int(word, 16) for word in text.split()]))
        for at, text in words.items()
    ])


def trace_of(words: Words, end: int, events=(), cuts=()) -> list[str]:
    bench = Bench(end, 0, [Event(*event) for event in events], [Cut(*cut) for cut in cuts])
    answer = run(image(words), bench_text(bench).encode(), Counter())
    assert (answer.status, answer.error) == (0, "")
    return answer.output.splitlines()


class Boots(unittest.TestCase):
    def test_structure_is_installed(self):
        events = [(12, ReadWord(0x4900)), (12, ReadWord(0xFF88))]
        self.assertEqual(trace_of(sealed(STAY), 20, events), [
            "0 ON", "9 BOOT C0 04800 05000", "12 DBG read 04900 3FFF", "12 DBG read 0FF88 AAAA",
            "20 END",
        ])

    def test_bad_check_erases(self):
        events = [(33000, ReadWord(0x4400))]
        self.assertEqual(trace_of(sealed(STAY, BAD_CHECK), 40000, events), [
            "0 ON", "8 ERASE", "32521 BOOT 00 00000 00000", "32521 DEAD",
            "33000 DBG read 04400 FFFF", "40000 END",
        ])

    def test_fetch_from_outside(self):
        words = sealed("", xFFFE="47FE", x47FE="4034 5555 3FFF")
        self.assertEqual(trace_of(words, 20, [(12, ReadWord(0x5A2))]), [
            "0 ON", "9 BOOT C0 04800 05000", "12 DBG read 005A2 0010", "20 END",
        ])

    def test_saved_pointer_finds_the_changed_structure(self):
        words = {0x6000: "00C0 0500 0480 FEBF", 0xFF88: "AAAA 0600", 0x4400: STAY, 0xFFFE: "4400"}
        events = [(12, WriteWord(0x6002, 0x04C0)), (12, WriteWord(0x6006, 0xFF7F))]
        self.assertEqual(trace_of(words, 30, events, [(13, 0, 1)]), [
            "0 ON", "9 BOOT C0 04800 05000", "12 DBG write 06002 ok", "12 DBG write 06006 ok",
            "13 CUT", "15 ON", "20 BOOT C0 04800 04C00", "30 END",
        ])

    def test_halt_in_the_seal(self):
        words = sealed("4030 4820", x4820=STAY)
        events = [(20, Halt()), (21, ReadRegister(4)), (21, ReadWord(0x4900))]
        self.assertEqual(trace_of(words, 30, events), [
            "0 ON", "9 BOOT C0 04800 05000", "21 DBG reg 4 running", "21 DBG read 04900 3FFF",
            "30 END",
        ])

    COMMANDS = [(1, ReadWord(0x4400)), (12, Halt()), (13, ReadRegister(0)),
                (13, SetRegister(4, 74565)), (13, ReadRegister(4)), (14, Go())]

    def test_commands_about_a_boot(self):
        self.assertEqual(trace_of(sealed(STAY), 20, self.COMMANDS), [
            "0 ON", "1 DBG read 04400 booting", "9 BOOT C0 04800 05000", "12 HALT 04400",
            "13 DBG reg 0 04400", "13 DBG setreg 4 ok", "13 DBG reg 4 12345", "14 DBG go ok",
            "20 END",
        ])

    def test_commands_of_a_closed_port(self):
        words = sealed(STAY, xFF80="5555 5555")
        self.assertEqual(trace_of(words, 20, self.COMMANDS), [
            "0 ON", "1 DBG read 04400 booting", "9 BOOT C0 04800 05000", "12 DBG halt closed",
            "13 DBG reg 0 closed", "13 DBG setreg 4 closed", "13 DBG reg 4 closed",
            "14 DBG go closed", "20 END",
        ])

    def test_erase_by_the_debugger(self):
        events = [(12, Erase()), (13, Reset())]
        self.assertEqual(trace_of(sealed(STAY), 40000, events), [
            "0 ON", "9 BOOT C0 04800 05000", "12 DBG erase ok", "12 RST 04",
            "13 DBG reset booting", "14 ERASE", "32527 BOOT 00 00000 00000", "32527 DEAD",
            "40000 END",
        ])


class Cuts(unittest.TestCase):
    def test_some_writes_of_an_instruction_are_whole(self):
        # SP is 5000h, then PUSHM.A of 16 registers, with two writes each
        words = {0x4400: "4031 5000 14FF", 0xFFFE: "4400"}
        events = [(19, ReadWord(0x4FDE)), (19, ReadWord(0x4FDC))]
        self.assertEqual(trace_of(words, 20, events, [(5, 17, 10)]), [
            "0 ON", "2 BOOT 00 00000 00000", "5 CUT", "16 ON", "18 BOOT 00 00000 00000",
            "19 DBG read 04FDE 0000", "19 DBG read 04FDC FFFF", "20 END",
        ])

    def test_erase_begins_again(self):
        # The structure's check is good once its first word is wiped, in the tick of the cut.
        words = sealed(STAY, GOOD_BEHIND_ITS_FIRST_WIPE)
        self.assertEqual(trace_of(words, 40000, cuts=[(784, 1, 10)]), [
            "0 ON", "8 ERASE", "784 CUT", "795 ON", "796 ERASE", "33309 BOOT 00 00000 00000",
            "33309 DEAD", "40000 END",
        ])

    def test_mark_is_absent(self):
        self.assertEqual(trace_of(sealed(STAY), 30, cuts=[(8, 0, 4)]), [
            "0 ON", "8 CUT", "13 ON", "22 BOOT C0 04800 05000", "30 END",
        ])

    def test_write_of_the_debugger_is_absent(self):
        events = [(20, PinLevel(Pin(1, 3), 1)), (20, WriteWord(0x4500, 0x1234)),
                  (29, ReadWord(0x4500)), (29, ReadWord(0x200))]
        self.assertEqual(trace_of(BLINK, 30, events, [(20, 0, 5)]), [
            *BLINK_LINES, "20 DBG write 04500 ok", "20 CUT", "20 PIN P1 zzzzzzzz", "26 ON",
            "28 BOOT 00 00000 00000", "29 DBG read 04500 FFFF", "29 DBG read 00200 0008", "30 END",
        ])


class Benches(unittest.TestCase):
    def refusal(self, text: str) -> str | None:
        try:
            bench_of_text(text.encode())
        except benches.Refused as refused:
            return str(refused)
        return None

    def test_schedule(self):
        schedule = Schedule([Cut(10, 0, 5), Cut(16, 0, 1)])
        self.assertEqual([schedule.at(tick) for tick in (9, 10)], [ON, Power(True, 0)])
        self.assertEqual([schedule.at(tick) for tick in range(11, 16)], [OFF] * 5)
        self.assertEqual([schedule.at(tick) for tick in (16, 17, 18)], [Power(True, 0), OFF, ON])

    def test_cut_while_power_is_off(self):
        def with_cuts(*cuts: Cut) -> str:
            return bench_text(Bench(100, 0, [], list(cuts)))
        self.assertEqual(self.refusal(with_cuts(Cut(10, 0, 5), Cut(15, 0, 1))), "Cut(1)")
        self.assertIsNone(self.refusal(with_cuts(Cut(10, 0, 5), Cut(16, 0, 1))))

    def test_first_refusal(self):
        least = "version = 1\nend = 9\n"
        cut = "{ tick = 0, writes = 0, off = 1 }"
        event = '{ tick = 0, debug = "erase" }'
        for text, refusal in (
            ("version = 1", "Field(End)"), ("version = 9\nend = 5", "Field(Version)"),
            ("=", "NotToml"), (least, None), (least + "cut = []", None),
            (least + f"event = [{event}]\ncut = [{cut}]", None),
            (least + "event = {}\ncut = 1", "Field(Event)"),
            (least + "cut = {}\nother = 1", "Field(Cut)"),
            (least + "other = 1\ncut = [1]", "Field(Unknown)"),
            (least + f"event = [{', '.join([event] * 10_001)}]\ncut = [{', '.join([cut] * 1_001)}]",
             "TooMany(10001)"),
            (least + f"event = [1]\ncut = [{', '.join([cut] * 1_001)}]", "TooMany(1001)"),
            (least + f"event = [{event}, 1]\ncut = [1]", "Event(1)"),
            (least + f"cut = [{cut}, 1, 1]", "Cut(1)"),
            (least + "cut = [{ tick = 0, writes = 0 }]", "Cut(0)"),
            (least + "cut = [{ tick = 0, writes = 0, off = 1, on = 1 }]", "Cut(0)"),
            (least + "cut = [{ tick = 9, writes = 0, off = 1 }]", "Cut(0)"),
            (least + "cut = [{ tick = 8, writes = 64, off = 10_000_000 }]", None),
            (least + "cut = [{ tick = 0, writes = 65, off = 1 }]", "Cut(0)"),
            (least + "cut = [{ tick = 0, writes = -1, off = 1 }]", "Cut(0)"),
            (least + "cut = [{ tick = 0, writes = 0, off = 0 }]", "Cut(0)"),
            (least + "cut = [{ tick = 0, writes = 0, off = 10_000_001 }]", "Cut(0)"),
            (least + "cut = [{ tick = true, writes = 0, off = 1 }]", "Cut(0)"),
            (least + "cut = [{ tick = 0, writes = 0.0, off = 1 }]", "Cut(0)"),
        ):
            self.assertEqual(self.refusal(text), refusal, text[:80])


class Tables(unittest.TestCase):
    def test_storm_of_cuts(self):
        cuts = [(tick, 0, 1) for tick in range(0, 2000, 2)]
        lines = [f"{tick} {text}" for tick in range(0, 2000, 2) for text in ("ON", "CUT")]
        self.assertEqual(trace_of(BLINK, 2000, cuts=cuts), [*lines, "2000 END"])

    def test_cuts_round_a_boot(self):
        for tick in range(20):
            for writes in range(3):
                boots = [line for line in trace_of(sealed(STAY), 60, cuts=[(tick, writes, 3)])
                         if " BOOT " in line]
                is_anew = tick < 8 or (tick, writes) == (8, 0)
                expected = f"{tick + 13 if is_anew else tick + 9} BOOT C0 04800 05000"
                self.assertEqual(boots[-1], expected, (tick, writes))

    def test_cuts_round_an_erase(self):
        store = store_of_image(image(sealed(STAY, BAD_CHECK)))
        fram = [address for address in range(ADDRESSES) if is_fram(address)]
        for tick in range(7, 127):
            for writes in range(2):
                chip = Chip(store, 0, Counter())
                schedule = Schedule([Cut(tick, writes, 3)])
                lines = [line for number in range(40000)
                         for line in chip.tick([], schedule.at(number))]
                boots = [line for line in lines if " BOOT " in line]
                last = 32532 if (tick, writes) == (7, 0) else tick + 32518
                self.assertEqual(boots[-1], f"{last} BOOT 00 00000 00000\n", (tick, writes))
                self.assertTrue(all(chip.memory.store[address] == 0xFF for address in fram))


if __name__ == "__main__":
    unittest.main()
