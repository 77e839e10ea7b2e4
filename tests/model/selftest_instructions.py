"""Worked examples of the instructions: python3 tests/model/selftest_instructions.py

The expected values were worked out by hand from docs/INSTRUCTIONS.md; each test names the
paragraph.
"""

import random
import sys
import time
import unittest
from collections import Counter

from decode import decode, is_extension_word
from execute import Done, Reserved, step
from instruction import Kind
from instruction_words import WEIGHTS, InstructionMaker, Knobs, random_instruction
from registers import Registers

C, Z, N, V = 0x001, 0x002, 0x004, 0x100
START = 0x4400


class FlatBus:
    """Memory all over the 20 bits, without side effects, that keeps a list of the accesses."""

    def __init__(self):
        self.memory = bytearray(1 << 20)
        self.accesses = []

    def word(self, at):
        at &= ~1
        return self.memory[at] | self.memory[at + 1] << 8

    def set_word(self, at, value):
        at &= ~1
        self.memory[at] = value & 0xFF
        self.memory[at + 1] = value >> 8

    def fetch(self, instruction_address, at):
        self.accesses.append(("fetch", at))
        return self.word(at)

    def read(self, at, size):
        self.accesses.append(("read", at, size))
        return self.memory[at] if size == "b" else self.word(at)

    def write(self, at, size, value):
        self.accesses.append(("write", at, size, value))
        if size == "b":
            self.memory[at] = value
        else:
            self.set_word(at, value)


class Example(unittest.TestCase):
    """Runs one instruction and looks at what it left."""

    def run_words(self, words, registers=None, memory=None, start=START):
        self.bus = FlatBus()
        for at, value in (memory or {}).items():
            self.bus.set_word(at, value)
        for number, word in enumerate(words):
            self.bus.set_word(start + 2 * number & 0xFFFFF, word)
        self.registers = Registers()
        for number, value in (registers or {}).items():
            self.registers.set(number, value)
        self.registers.set(0, start)
        self.done = step(self.registers, self.bus)

    def expect(self, cycles, registers=None, accesses=None):
        """Where accesses are given, they are all those behind the fetches."""
        self.assertIsInstance(self.done, Done)
        self.assertEqual(self.done.cycles, cycles)
        for number, value in (registers or {}).items():
            self.assertEqual(f"{self.registers.get(number):05X}", f"{value:05X}", f"R{number}")
        if accesses is not None:
            found = [access for access in self.bus.accesses if access[0] != "fetch"]
            self.assertEqual(found, accesses)


class FromThePage(Example):
    """Four instructions by hand."""

    def test_mov_constant_to_absolute(self):
        self.run_words([0x43D2, 0x0204])
        self.expect(3, {0: 0x4404}, [("write", 0x0204, "b", 1)])

    def test_add_uses_the_increased_base(self):
        self.run_words([0x55B5, 0x0002], {5: 0x1C00}, {0x1C00: 0x0001, 0x1C04: 0x7FFF})
        self.expect(5, {2: N | V, 5: 0x1C02}, [
            ("read", 0x1C00, "w"), ("read", 0x1C04, "w"), ("write", 0x1C04, "w", 0x8000),
        ])

    def test_repeat_of_four(self):
        self.run_words([0x1843, 0x5506], {2: C, 5: 3, 6: 1})
        self.expect(5, {2: 0, 6: 13, 0: 0x4404}, [])

    def test_pushm_writes_the_higher_word_first(self):
        self.run_words([0x1416], {1: 0x2400, 5: 0x12345, 6: 0x0ABCD})
        self.expect(6, {1: 0x23F8}, [
            ("write", 0x23FE, "w", 0x0000), ("write", 0x23FC, "w", 0xABCD),
            ("write", 0x23FA, "w", 0x0001), ("write", 0x23F8, "w", 0x2345),
        ])


class StatusRegister(Example):
    """Results and flags: a result in SR stands, and CMP and BIT set the flags of SR."""

    def test_add_to_sr_sets_no_flag(self):
        # ADD #-1, SR: 1 + FFFFh is 0 with a carry, but SR keeps the 0.
        self.run_words([0x5332], {2: C})
        self.expect(1, {2: 0})

    def test_cmp_with_sr_sets_flags(self):
        # CMP #1, SR: 9 - 1 is 8, nothing borrowed; GIE, bit 3, stands.
        self.run_words([0x9312], {2: 0x009})
        self.expect(1, {2: 0x009})
        self.run_words([0x9322], {2: 0x009})   # CMP #2, SR: 9 - 2 is 7
        self.expect(1, {2: 0x009})
        self.run_words([0x9332], {2: 0x00E})   # CMP #-1, SR: Eh + 0 + 1 has no carry, C Z N 0
        self.expect(1, {2: 0x008})

    def test_bit_on_sr_sets_flags(self):
        # BIT #8, SR with bit 3 clear: 0, so Z is 1 and C is 0; V was 1 and becomes 0.
        self.run_words([0xB232], {2: V | N | C})
        self.expect(1, {2: Z})

    def test_rrc_on_sr_is_not_reserved(self):
        # RRC SR: the carry goes to bit 15, which SR doesn't keep.
        self.run_words([0x1002], {2: 0x105})
        self.expect(1, {2: 0x082})


class Extension(Example):
    """The extension word, The register form, Reserved words."""

    def test_sxt_fills_twenty_bits_of_a_register(self):
        self.run_words([0x1185], {2: Z | V, 5: 0x00080})
        self.expect(1, {5: 0xFFF80, 2: N | C})

    def test_sxt_in_memory_fills_a_word(self):
        self.run_words([0x11B5], {5: 0x1C01}, {0x1C00: 0xFF7F})
        self.expect(3, {5: 0x1C03, 2: C}, [
            ("read", 0x1C01, "w"), ("write", 0x1C01, "w", 0x007F),
        ])

    def test_count_in_a_register(self):
        # RPT R7: ADDX.A R5, R5; bits 3:0 of R7 are 2, so three times.
        # A/L is 0 and B/W is 1. The last sum is 40000h + 40000h, which overflows.
        self.run_words([0x1887, 0x5545], {5: 0x10000, 7: 0xFFFF2})
        self.expect(4, {5: 0x80000, 2: N | V})

    def test_count_in_pc_is_the_next_address(self):
        # At 4400h the next address is 4404h, so five times; R6 becomes 5.
        self.run_words([0x18C0, 0x5506], {5: 1})
        self.expect(6, {6: 5})

    def test_zero_carry_holds_each_time(self):
        # RRUX.W #4 of 000Fh with C: without ZC ones would enter. The last bit out is 1.
        self.run_words([0x1943, 0x1005], {2: C, 5: 0x0000F})
        self.expect(5, {5: 0, 2: C | Z})
        # With C going in: C, 1, 1, 1 enter at the top.
        self.run_words([0x1843, 0x1005], {2: C, 5: 0x0000F})
        self.expect(5, {5: 0xF000, 2: C | N})

    def test_pushx_is_done_once(self):
        self.run_words([0x180F, 0x1245], {1: 0x2401, 5: 0xABCDE})
        self.expect(4, {1: 0x23FD}, [
            ("write", 0x23FF, "w", 0x000A), ("write", 0x23FD, "w", 0xBCDE),
        ])

    def test_twenty_bits_at_an_odd_address(self):
        # ADDX.A @R5+, 10001h(R6): 1FFFFh + 20001h. The source costs 1, the destination 4, the
        # extension word 1, and the operands that are read, read and written 3.
        self.run_words([0x1801, 0x55F6, 0x0001], {5: 0x1C01, 6: 0x02000}, {
            0x1C00: 0xFFFF, 0x1C02: 0xFFF1, 0x12000: 0x0001, 0x12002: 0x0002,
        })
        self.expect(9, {5: 0x1C05, 2: 0, 0: 0x4406}, [
            ("read", 0x1C01, "w"), ("read", 0x1C03, "w"),
            ("read", 0x12001, "w"), ("read", 0x12003, "w"),
            ("write", 0x12001, "w", 0x0000), ("write", 0x12003, "w", 0x0004),
        ])

    def test_reserved_words_change_nothing(self):
        for words, fetches in (
            ([0x1301], 1), ([0x10C5], 1), ([0x1003], 1), ([0x1030], 1), ([0x1840, 0x1285], 2),
            ([0x1800, 0x4405], 2), ([0x1840, 0x11C5], 2), ([0x1800, 0x11C5], 2),
            ([0x1840, 0x1840], 2), ([0x1840, 0x0505], 2), ([0x1840, 0x3C00], 2),
        ):
            self.run_words(words, {5: 0x12345})
            self.assertIsInstance(self.done, Reserved)
            self.assertEqual(self.registers, Registers([START, 0, 0, 0, 0, 0x12345]))
            self.assertEqual(
                self.bus.accesses, [("fetch", START + 2 * n) for n in range(fetches)]
            )


class ProgramCounter(Example):
    """PC."""

    def test_source_is_behind_the_instruction_word(self):
        # MOV PC, 4(R5): the next address is 4404h, but the source is 4402h.
        self.run_words([0x4085, 0x0004], {5: 0x1C00})
        self.expect(3, {0: 0x4404}, [("write", 0x1C04, "w", 0x4402)])

    def test_destination_is_the_next_address(self):
        # ADD #0101h, PC: 4404h + 0101h, and bit 0 is lost. Immediate 1 and PC 3.
        self.run_words([0x5030, 0x0101])
        self.expect(4, {0: 0x4504, 2: 0})

    def test_index_counts_from_its_own_word(self):
        # ADD 10h(PC), 20h(PC): 4402h + 10h and 4404h + 20h.
        self.run_words([0x5090, 0x0010, 0x0020], None, {0x4412: 2, 0x4424: 3})
        self.expect(6, {0: 0x4406}, [
            ("read", 0x4412, "w"), ("read", 0x4424, "w"), ("write", 0x4424, "w", 5),
        ])

    def test_mova_from_pc_increased(self):
        # PC, The last sentences: MOVA @PC+, R5 reads at 4402h and 4404h and goes on at 4406h.
        self.run_words([0x0015, 0x2345, 0xFFF1])
        self.expect(3, {5: 0x12345, 0: 0x4406})

    def test_calla_pushes_the_increased_pc(self):
        # CALLA @PC+ at 14400h: pushes 14406h.
        self.run_words([0x1370, 0x5000, 0x0001], {1: 0x2400}, start=0x14400)
        self.expect(6, {0: 0x15000, 1: 0x23FC}, [
            ("read", 0x14402, "w"), ("read", 0x14404, "w"),
            ("write", 0x23FE, "w", 0x0001), ("write", 0x23FC, "w", 0x4406),
        ])

    def test_register_form_goes_on_from_pc(self):
        # RPT #2: ADDX.A PC, PC at 4400h: 4404h + 4404h, and 4404h again. PC 3, extension 1, 1.
        self.run_words([0x1801, 0x5040])
        self.expect(5, {0: 0xCC0C})

    def test_jump_wraps(self):
        # JMP -512 words at 00010h: 12h - 400h is FFC12h.
        self.run_words([0x3E00], start=0x00010)
        self.expect(2, {0: 0xFFC12})


class StackAndSeveralRegisters(Example):
    """One operand; RETI and jumps; CALLA, PUSHM and POPM."""

    def test_byte_increase_of_sp(self):
        # MOV.B @SP+, R5 adds 2 to SP, and clears bits 19:8 of R5.
        self.run_words([0x4175], {1: 0x2400, 5: 0xFFFFF}, {0x2400: 0x12AB})
        self.expect(2, {1: 0x2402, 5: 0x000AB}, [("read", 0x2400, "b")])

    def test_push_byte_lowers_sp_by_two(self):
        self.run_words([0x1245], {1: 0x2400, 5: 0x12345})
        self.expect(3, {1: 0x23FE}, [("write", 0x23FE, "b", 0x45)])

    def test_push_sp_writes_what_sp_was(self):
        self.run_words([0x1201], {1: 0x12400})
        self.expect(3, {1: 0x123FE}, [("write", 0x123FE, "w", 0x2400)])

    def test_popm_loses_a_popped_sp(self):
        # POPM.W #4, R0: PC, SP, SR and R3 from 2400h, 2402h, 2404h and 2406h.
        self.run_words([0x1730], {1: 0x2400}, {
            0x2400: 0x5001, 0x2402: 0x1234, 0x2404: 0xFFFF, 0x2406: 0xFFFF,
        })
        self.expect(6, {0: 0x5000, 1: 0x2408, 2: 0x1FF, 3: 0})

    def test_popm_wraps_behind_r15(self):
        # POPM.A #2, R15: R15, then R0.
        self.run_words([0x161F], {1: 0x2400}, {
            0x2400: 0x1111, 0x2402: 0xFFF2, 0x2404: 0x3333, 0x2406: 0x0004,
        })
        self.expect(6, {15: 0x21111, 0: 0x43332, 1: 0x2408})

    def test_pushm_pushes_what_sp_was(self):
        # PUSHM.W #3, SP: SP, PC (the next address), R15.
        self.run_words([0x1521], {1: 0x2400, 15: 0xABCDE})
        self.expect(5, {1: 0x23FA}, [
            ("write", 0x23FE, "w", 0x2400), ("write", 0x23FC, "w", 0x4402),
            ("write", 0x23FA, "w", 0xBCDE),
        ])

    def test_reti(self):
        self.run_words([0x1300], {1: 0x2400}, {0x2400: 0x5E07, 0x2402: 0x1235})
        self.expect(5, {0: 0x51234, 1: 0x2404, 2: 0x007}, [
            ("read", 0x2400, "w"), ("read", 0x2402, "w"),
        ])


class Sums(Example):
    """Results and flags; Decimal sums; Addresses."""

    def test_dadd(self):
        # 0999h + 9000h + C: digits 10 -> 0 c, 10 -> 0 c, 10 -> 0 c, 10 -> 0 c.
        self.run_words([0xA506], {2: C | V, 5: 0x0999, 6: 0x9000})
        self.expect(1, {6: 0, 2: C | Z})

    def test_dadd_above_nine(self):
        # DADD.B: Fh + Fh + 1 is 31, (31 + 6) mod 16 is 5 and a carry; 0 + 8 + 1 is 9.
        self.run_words([0xA546], {2: C, 5: 0xFFF0F, 6: 0xFFF8F})
        self.expect(1, {6: 0x00095, 2: N})

    def test_subc_overflow(self):
        # SUBC.B of 7Fh from 80h with C 0: -128 - 127 - 1 is -256; the sum is 80h + 80h.
        self.run_words([0x7546], {5: 0x7F, 6: 0x80})
        self.expect(1, {6: 0, 2: V | C | Z})

    def test_xor_overflow(self):
        self.run_words([0xE506], {5: 0x8000, 6: 0xF8001})
        self.expect(1, {6: 0x00001, 2: V | C})

    def test_near_address_wraps(self):
        # MOV 8000h(R5), R6 from 09000h: 1000h. From 10000h: 08000h.
        self.run_words([0x4516, 0x8000], {5: 0x09000})
        self.expect(3, None, [("read", 0x01000, "w")])
        self.run_words([0x4516, 0x8000], {5: 0x10000})
        self.expect(3, None, [("read", 0x08000, "w")])

    def test_mova_index_is_far(self):
        # MOVA -2(R5), R6 with R5 0: FFFFEh, and the word above at 00000h.
        self.run_words([0x0536, 0xFFFE], {5: 0}, {0xFFFFE: 0x1234, 0x00000: 0x0005})
        self.expect(4, {6: 0x51234}, [("read", 0xFFFFE, "w"), ("read", 0x00000, "w")])

    def test_rrcm_takes_each_carry(self):
        # RRCM.A #3 of 00005h with C 0: out 1, 0, 1; in 0, 1, 0. Result 40000h.
        self.run_words([0x0845], {2: V, 5: 0x00005})
        self.expect(3, {5: 0x40000, 2: C})

    def test_rrc_writes_before_the_increase(self):
        # RRC.B @SP+: read and written at 2401h, SP becomes 2403h.
        self.run_words([0x1071], {1: 0x2401, 2: C}, {0x2400: 0x8000})
        self.expect(3, {1: 0x2403, 2: N}, [
            ("read", 0x2401, "b"), ("write", 0x2401, "b", 0xC0),
        ])


class Generator(unittest.TestCase):
    """The random instructions have as many words as decode says, and are of all forms."""

    RANGES = ((0x0200, 0x02FF), (0x1C00, 0x23FF), (0x4400, 0x13FFF))

    def test_words_and_forms(self):
        rng = random.Random(5969)
        forms = Counter()
        for _ in range(20000):
            words = random_instruction(rng, ranges=self.RANGES, weights={"wild": 0})
            self.assertTrue(all(0 <= word <= 0xFFFF for word in words))
            instruction = decode(words[0], words[1] if is_extension_word(words[0]) else 0)
            self.assertEqual(instruction.words, len(words))
            forms[instruction.form] += 1
        # 12 operations of two operands and 5 of one, with and without an extension word; CALL,
        # RETI, 8 jumps, 4 of addresses, 4 shifts, CALLA, PUSHM, POPM, and reserved words.
        self.assertEqual(len(forms), 2 * 17 + 2 + 8 + 8 + 3 + 1)

    def test_only_reserved_family_is_reserved(self):
        rng = random.Random(1)
        for family in set(WEIGHTS) - {"wild"}:
            weights = {name: float(name == family) for name in WEIGHTS}
            maker = InstructionMaker(rng, Knobs(weights=weights))
            for _ in range(1000):
                words = maker.instruction()
                is_reserved = decode(*(words + [0])[:2]).kind is Kind.RESERVED
                self.assertEqual(is_reserved, family == "reserved", words)


def measure_speed():
    """Prints how many random instructions are executed in a second."""
    rng = random.Random(3)
    maker = InstructionMaker(rng, Knobs(ranges=Generator.RANGES))
    bus = FlatBus()
    registers = Registers([START, 0x2400] + [0] * 2 + [0x1C00 + 8 * n for n in range(12)])
    at = 0
    while at < 0xFFF00:
        for word in maker.instruction():
            bus.set_word(at, word)
            at += 2
    executed = 200000
    begin = time.perf_counter()
    for _ in range(executed):
        if isinstance(step(registers, bus), Reserved):
            registers.set(0, rng.getrandbits(20))
    print(f"{executed / (time.perf_counter() - begin):.0f} instructions a second")


if __name__ == "__main__":
    if "--speed" in sys.argv:
        measure_speed()
    else:
        unittest.main()
