"""Worked examples of pairs of images: python3 tests/model/selftest_pairs.py

The texts were worked out by hand from the rules.
"""

import unittest
from collections import Counter

from bench import Bench, Event, bench_text
from debug import WriteWord
from image import image_bytes
from pair import pair
from power import Cut
from run import BAD_BENCH, BAD_IMAGE, LONGEST_IMAGE, TOO_LONG, Answer
from selftest_power import BAD_CHECK, BLINK, BLINK_LINES, STAY, Words, image, sealed

DONE, DIFFER = 0, 1
BOOT_LINES = ["0 ON", "9 BOOT C0 04800 05000"]


def answer_of(first: Words, second: Words, end: int, events=(), cuts=()) -> tuple[list[str], int]:
    bench = Bench(end, 0, [Event(*event) for event in events], [Cut(*cut) for cut in cuts])
    answer = pair(image(first), image(second), bench_text(bench).encode(), Counter()).answer
    assert answer.error == "" and answer.output.endswith("\n")
    return answer.output.splitlines(), answer.status


class Runs(unittest.TestCase):
    """Pairs that agree outside their seal."""

    def test_code_that_takes_as_long(self):
        # Four instructions of a tick each, or one of four that writes into the seal.
        code = "C392 0130 43F2 0204 4030 4820"
        others = {"x4440": STAY, "x4500": "0055"}
        first = sealed(code, x4820="4303 4303 4303 4303 4030 4440", **others)
        second = sealed(code, x4820="C382 4900 4030 4440", **others)
        transfer = [(0x512, 0x4500), (0x514, 0), (0x516, 0x0202), (0x518, 0), (0x51A, 1)]
        events = [(12, WriteWord(*write)) for write in transfer] + [(22, WriteWord(0x510, 0xD1))]
        self.assertEqual(answer_of(first, second, 40, events), ([
            *BOOT_LINES, "12 DBG write 00512 ok", "12 DBG write 00514 ok",
            "12 DBG write 00516 ok", "12 DBG write 00518 ok", "12 DBG write 0051A ok",
            "14 PIN P1 00000000", "22 DBG write 00510 ok", "22 PIN P1 01010101", "40 END", "same",
        ], DONE))

    def test_register_at_an_exit(self):
        first = sealed("4030 4820", x4820="403A 1111 40B2 0000 015C")
        second = sealed("4030 4820", x4820="403A 2222 40B2 0000 015C")
        self.assertEqual(answer_of(first, second, 17), (
            [*BOOT_LINES, "differ release 16"], DIFFER))

    def test_data_that_nobody_reads(self):
        first = sealed("4030 4820", x4820="403A 1111 40B2 0000 015C")
        second = first | {0x4900: "4321"}
        self.assertEqual(answer_of(first, second, 17), (
            [*BOOT_LINES, "16 RST 18", "17 END", "same"], DONE))

    def test_border_moves_down(self):
        words = {0x6000: "00C0 0500 0480 FEBF", 0xFF88: "AAAA 0600", 0x4400: STAY, 0xFFFE: "4400"}
        events = [(12, WriteWord(0x6002, 0x04C0)), (12, WriteWord(0x6006, 0xFF7F))]
        cuts = [(13, 0, 1)]
        lines = [*BOOT_LINES, "12 DBG write 06002 ok", "12 DBG write 06006 ok", "13 CUT", "15 ON"]
        self.assertEqual(answer_of(words, words | {0x4D00: "1234"}, 30, events, cuts), (
            [*lines, "differ release 20"], DIFFER))
        self.assertEqual(answer_of(words, words | {0x4900: "1234"}, 30, events, cuts), (
            [*lines, "20 BOOT C0 04800 04C00", "30 END", "same"], DONE))

    def test_entry_or_call_by_its_vector(self):
        """Each access to FRAM waits a tick, and both are refused their stack in the seal.

        The entry takes 6 ticks and 3 for its accesses, and CALL takes 5 and 4. Both leave by the
        vector, with the same SP and with SR 0.
        """
        others = {"x4800": "4303 1292 FFF2", "x4840": "D232 4303", "xFFF2": "4440", "x4440": STAY}
        start = "40B2 A510 0140 D392 0100 D392 0102 4030 4820"
        first = sealed(start, x4820="0081 4A00 4030 4840", **others)
        second = sealed(start, x4820="0081 49FE 4030 4800", **others)
        ticks = (4 + 3, 4 + 2, 4 + 2, 4 + 2, 2 + 2, 4 + 2, 1 + 1)  # of the instructions before
        self.assertEqual(answer_of(first, second, 60), (
            [*BOOT_LINES, f"differ release {10 + sum(ticks)}"], DIFFER))

    def test_one_image_twice(self):
        self.assertEqual(answer_of(BLINK, BLINK, 1000), (
            [*BLINK_LINES, "1000 END", "same"], DONE))


class Images(unittest.TestCase):
    """Pairs that aren't run."""

    def test_byte_outside(self):
        other = BLINK | {0x4400: "C392 0130 43D2 0204 43E2 0202 3FFF"}
        self.assertEqual(answer_of(BLINK, other, 1000), (["differ outside 04408"], DIFFER))

    def test_seals(self):
        other = sealed(STAY, BAD_CHECK)
        self.assertEqual(answer_of(sealed(STAY), other, 20), (["differ seal"], DIFFER))
        self.assertEqual(answer_of(other, sealed(STAY), 20), (["differ seal"], DIFFER))

    def test_seals_are_compared_first(self):
        other = sealed("4303", BAD_CHECK)
        self.assertEqual(answer_of(sealed(STAY), other, 20), (["differ seal"], DIFFER))

    def test_least_address(self):
        first, places = sealed(STAY), (0x19FE, 0x47FE, 0x4900, 0x5000, 0xFF80, 0x13FFE)
        for count, least in ((6, "019FE"), (5, "047FE"), (4, "05000"), (3, "05000"),
                             (2, "0FF80"), (1, "13FFE")):
            second = first | {at: "4321" for at in places[len(places) - count:]}
            self.assertEqual(answer_of(first, second, 20), ([f"differ outside {least}"], DIFFER))

    def test_odd_address(self):
        first = sealed(STAY, x5000="0055")
        self.assertEqual(answer_of(first, first | {0x5000: "1155"}, 20), (
            ["differ outside 05001"], DIFFER))

    def test_ends_of_the_seal(self):
        first = sealed(STAY, x4800="1111", x4FFE="2222")
        self.assertEqual(answer_of(first, first | {0x4800: "1010", 0x4FFE: "0202"}, 20), (
            [*BOOT_LINES, "20 END", "same"], DONE))

    def test_signatures_are_outside(self):
        # The area is main FRAM from FC00h up to 10400h, and 10010h holds its structure.
        first = {0x10010: "00C0 1040 0FC0 E0BF", 0xFF88: "AAAA 1001", 0x4400: STAY,
                 0xFFFE: "4400"}
        inside = first | {0xFF7E: "1234", 0x10000: "5678"}
        self.assertEqual(answer_of(first, inside, 20), (
            ["0 ON", "9 BOOT C0 0FC00 10400", "20 END", "same"], DONE))
        self.assertEqual(answer_of(first, inside | {0xFFF2: "4400"}, 20), (
            ["differ outside 0FFF2"], DIFFER))


class Files(unittest.TestCase):
    """The first image decides before the second, and both before the bench."""

    GOOD_IMAGE = image(BLINK)
    GOOD_BENCH = b"version = 1\nend = 9\n"
    LONG_IMAGE = bytes(LONGEST_IMAGE + 1)

    def refused(self, first: bytes, second: bytes, bench: bytes) -> Answer:
        answer = pair(first, second, bench, Counter()).answer
        self.assertEqual(answer.output, "")
        return answer

    def test_order(self):
        good, bench = self.GOOD_IMAGE, self.GOOD_BENCH
        self.assertEqual(self.refused(b"", self.LONG_IMAGE, b"="), BAD_IMAGE)
        self.assertEqual(self.refused(self.LONG_IMAGE, b"", b"="), TOO_LONG)
        self.assertEqual(self.refused(good, self.LONG_IMAGE, b"="), TOO_LONG)
        self.assertEqual(self.refused(good, b"", b"="), BAD_IMAGE)
        self.assertEqual(self.refused(good, good, b"="), BAD_BENCH)
        self.assertEqual(self.refused(good, b"", bench), BAD_IMAGE)

    def test_bench_is_read_before_images_are_compared(self):
        self.assertEqual(self.refused(self.GOOD_IMAGE, image_bytes([]), b"version = 1\n"),
                         BAD_BENCH)


if __name__ == "__main__":
    unittest.main()
