"""The worked cases of document 01: M1 to M11, and case P byte by byte."""

import unittest

import bench
from destmap import ROWS_32, remapped, storage_32
from expander import FRESH, expand
from machine import fresh
from program import emulate
from words import step

M = [100, 101, 102, 103, 104, 105, 106, 107, 108]  # nine words m0–m8 that can be told apart


def expansion(word, m):
    output = [0] * 100
    answer, _ = expand(FRESH, m, [word], output)
    return output[:answer[1]]


class Worked(unittest.TestCase):
    def passes(self, machine, word):
        self.assertEqual(step(machine, 0, word), ('passed',))

    def test_m1_setdmareg(self):
        machine, expected = fresh(), fresh()
        machine.gprs[0][4] = expected.gprs[0][4] = 0xABCD5678
        self.passes(machine, 0x45123408)
        expected.gprs[0][4] = 0xABCD1234
        self.assertEqual(machine, expected)

    def test_m2_adddmareg(self):
        machine, expected = fresh(), fresh()
        machine.gprs[0][4] = expected.gprs[0][4] = 0xFFFFFFFF
        machine.gprs[0][5] = 77
        self.passes(machine, 0x58805044)
        self.assertEqual(machine, expected)

    def test_m3_muldmareg(self):
        machine, expected = fresh(), fresh()
        for each in (machine, expected):
            each.gprs[0][4:6] = [0x00010003, 0xFFFF]
        self.passes(machine, 0x5A006144)
        expected.gprs[0][6] = 196605
        self.assertEqual(machine, expected)

    def test_m4_rmwcib1(self):
        machine, expected = fresh(), fresh()
        machine.config[0][10] = 0x11223344
        self.passes(machine, 0xB4F0AB0A)
        expected.config[0][10] = 0x1122A344
        self.assertEqual(machine, expected)

    def test_m5_wrcfg_index(self):
        machine = fresh()
        self.passes(machine, 0xB00000FF)
        self.assertEqual(step(machine, 0, 0xB0000100), ('refused', 3))

    def test_m6_wrcfg_four(self):
        machine, expected = fresh(), fresh()
        for each in (machine, expected):
            each.gprs[0] = [1000 + number for number in range(64)]
        self.passes(machine, 0xB0078009)
        expected.config[0][8:12] = [1004, 1005, 1006, 1007]
        self.assertEqual(machine, expected)

    def test_m7_remap(self):
        self.assertEqual([remapped(8), remapped(16), remapped(32)], [32, 8, 16])

    def test_m8_last_wide_row(self):
        self.assertEqual(storage_32(511, 0, 0), (1015, 1023))
        self.assertIsNone(storage_32(512, 0, 0))
        self.assertEqual(ROWS_32, 512)
        self.assertEqual(bench.read_dest_32(fresh(), 0, 511), ('read', [0] * 16))
        self.assertEqual(bench.read_dest_32(fresh(), 0, 512), ('refused', 11))
        self.assertEqual(step(fresh(), 0, 0x10040000 | 511), ('passed',))
        self.assertEqual(step(fresh(), 0, 0x10040000 | 512), ('refused', 3))

    def test_m9_swizzle(self):
        self.assertEqual(storage_32(16, 0, 1), (48, 56))

    def test_m10_template_0(self):
        m = M[:1] + [1] + M[2:]
        self.assertEqual(expansion(0x01020002, m), [103, 102, 107, 108, 103, 102])

    def test_m11_template_1(self):
        m = [2, 2] + M[2:]
        self.assertEqual(expansion(0x01800000, m),
                         [102, 105, 106, 105, 108, 103, 104, 102, 105, 106, 105, 107, 103, 104])


class CaseP(unittest.TestCase):
    INPUT = ('04 00 00 00 20 00 08 34 12 45 04 00 00 00 21 00 00 00 00 16 00 00 00 00 22 00 '
             '04 00 00 00 23 00 64 00 00 00')

    def test_case_p(self):
        self.assertEqual(emulate(bytes.fromhex(self.INPUT)), b'end stuck\nturns 4\nt0 1/1\nt1 0/1 waits 103 0\nt2 0/0\n')
