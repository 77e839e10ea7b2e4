"""Worked examples of what a seal lets out: python3 tests/model/selftest_releases.py

The texts were worked out by hand from the rules.
"""

import unittest
from collections import Counter

from bench import Bench, Event, bench_text
from debug import ReadWord, WriteWord
from power import Cut
from run import answers
from selftest_power import STAY, Words, image, sealed

STRUCTURE_LINES = ["3 STRUCT 0 00C0", "4 STRUCT 1 0500", "5 STRUCT 2 0480", "6 STRUCT 3 FEBF"]


def releases_of(words: Words, end: int, events=(), cuts=()) -> list[str]:
    bench = Bench(end, 0, [Event(*event) for event in events], [Cut(*cut) for cut in cuts])
    answer = answers(image(words), bench_text(bench).encode(), Counter()).release
    assert (answer.status, answer.error) == (0, "")
    return answer.output.splitlines()


def opened(tick: int, first: int, end: int, words: Words | None = None) -> list[str]:
    """Lines of bytes that are FFh, but for those of some words."""
    rows = {at: ["FF"] * 16 for at in range(first, end, 16)}
    for at, text in (words or {}).items():
        rows[at & ~15][at & 15:(at & 15) + 2] = [text[2:], text[:2]]
    return [f"{tick} OPEN {at:05X} {''.join(row)}" for at, row in rows.items()]


class Releases(unittest.TestCase):
    def test_structure_is_read(self):
        events = [(12, ReadWord(0x4900)), (12, ReadWord(0xFF88))]
        self.assertEqual(releases_of(sealed(STAY), 20, events), [*STRUCTURE_LINES, "20 END"])

    def test_wrong_password(self):
        # MOV to PC runs in ticks 10 to 13, and the first inside in 14 and 15.
        words = sealed("4030 4820", x4820="403A 1111 40B2 0000 015C")
        zeros = " 00000"
        self.assertEqual(releases_of(words, 17), [
            *STRUCTURE_LINES, "16 W 0015C w 0000", "16 RESET 18",
            f"16 EXIT 0 04400{zeros * 9} 01111{zeros * 5}", "17 END",
        ])

    def test_entry(self):
        words = sealed("4031 2400 D392 0100 D392 0102 4030 4820",
                       x4820="D232 4303 4303 4030 4440", x4440=STAY,
                       x4450="C392 0130 43D2 0204 3FFF", xFFF2="4450")
        self.assertEqual(releases_of(words, 50), [
            *STRUCTURE_LINES, "25 ENTRY 0FFF2", "25 W 023FE w 4822", "25 W 023FC w 0008",
            "25 R 0FFF2 w", f"25 EXIT 5 04450 023FC{' 00000' * 14}", "50 END",
        ])

    def test_border_moves_down(self):
        words = {0x6000: "00C0 0500 0480 FEBF", 0xFF88: "AAAA 0600", 0x4400: STAY, 0xFFFE: "4400"}
        events = [(12, WriteWord(0x6002, 0x04C0)), (12, WriteWord(0x6006, 0xFF7F))]
        lines = releases_of(words | {0x4D00: "1234"}, 30, events, [(13, 0, 1)])
        self.assertEqual(lines, [
            *STRUCTURE_LINES, "16 STRUCT 0 00C0", "17 STRUCT 1 04C0", "18 STRUCT 2 0480",
            "19 STRUCT 3 FF7F", *opened(20, 0x4C00, 0x5000, {0x4D00: "1234"}), "30 END",
        ])


if __name__ == "__main__":
    unittest.main()
