"""Words on GPRs, Config and thread settings: each leaves all other state alone."""

import unittest

import assemble as asm
from machine import fresh
from tests.testing import still
from words import step


class Effects(unittest.TestCase):
    def after(self, start, thread, word, change):
        """The word passes and does to the start exactly what the change does."""
        machine, expected = start.copy(), start.copy()
        self.assertEqual(step(machine, thread, word), ('passed',))
        change(expected)
        self.assertEqual(machine, expected)
        return machine


class Setdmareg(Effects):
    def test_each_half_of_each_thread(self):
        start = still(1)
        for thread in range(3):
            for half in range(0, 128, 1 if thread == 1 else 9):
                def change(expected):
                    old = expected.gprs[thread][half >> 1]
                    high, low = old >> 16, old & 0xFFFF
                    if half & 1:
                        high = 0xC0DE
                    else:
                        low = 0xC0DE
                    expected.gprs[thread][half >> 1] = high << 16 | low
                self.after(start, thread, asm.setdmareg(half, 0xC0DE), change)

    def test_all_sixteen_bits_of_the_value(self):
        for value in (0xC000, 0x8000, 0x4000, 0x3FFF, 0xFFFF, 0):
            machine = fresh()
            machine.gprs[0][3] = 0x12345678
            step(machine, 0, asm.setdmareg(6, value))
            self.assertEqual(machine.gprs[0][3], 0x12340000 | value)
            step(machine, 0, asm.setdmareg(7, value))
            self.assertEqual(machine.gprs[0][3], value << 16 | value)

    def test_register_0_is_ordinary(self):
        machine = fresh()
        step(machine, 0, asm.setdmareg(0, 7))
        step(machine, 0, asm.setdmareg(1, 9))
        self.assertEqual(machine.gprs[0][0], 0x00090007)
        step(machine, 0, asm.adddmareg(result=0, a=0, b=1, constant=1))
        self.assertEqual(machine.gprs[0][0], 0x00090008)


class Arithmetic(Effects):
    def result(self, make, left, right, constant=0):
        """Thread 1's register 62 from registers 0 and 63, or a constant."""
        start = still(2)
        start.gprs[1][0] = left
        if not constant:
            start.gprs[1][63] = right
        word = make(result=62, a=0, b=right if constant else 63, constant=constant)
        machine = start.copy()
        self.assertEqual(step(machine, 1, word), ('passed',))
        got = machine.gprs[1][62]
        machine.gprs[1][62] = start.gprs[1][62]
        self.assertEqual(machine, start)
        return got

    def test_add(self):
        for left, right, total in ((0, 0, 0), (1, 2, 3), (0xFFFFFFFF, 1, 0), (0xFFFFFFFF, 0xFFFFFFFF, 0xFFFFFFFE),
                                   (0x80000000, 0x80000000, 0), (0x7FFFFFFF, 1, 0x80000000)):
            self.assertEqual(self.result(asm.adddmareg, left, right), total)
        for left, right, total in ((5, 0, 5), (5, 63, 68), (0xFFFFFFFF, 63, 62), (0xFFFFFFC1, 63, 0)):
            self.assertEqual(self.result(asm.adddmareg, left, right, 1), total)

    def test_multiply(self):
        for left, right, product in ((0, 0xFFFFFFFF, 0), (0xFFFF, 0xFFFF, 0xFFFE0001), (0x10000, 0x10000, 0),
                                     (0xFFFFFFFF, 0xFFFFFFFF, 0xFFFE0001), (0x12340002, 0x56780003, 6)):
            self.assertEqual(self.result(asm.muldmareg, left, right), product)
        for left, right, product in ((0xFFFF, 63, 63 * 0xFFFF), (0xABCD0001, 63, 63), (9, 0, 0)):
            self.assertEqual(self.result(asm.muldmareg, left, right, 1), product)

    def test_result_over_an_operand(self):
        start = still(3)
        start.gprs[2][7] = 0x00030005
        self.after(start, 2, asm.adddmareg(7, 7, 7), lambda m: m.gprs[2].__setitem__(7, 0x0006000A))
        self.after(start, 2, asm.muldmareg(7, 7, 7), lambda m: m.gprs[2].__setitem__(7, 25))

    def test_each_thread_has_its_own_registers(self):
        for thread in range(3):
            start = still(4)
            for each in range(3):
                start.gprs[each][1:3] = [10 ** each, 2 * 10 ** each]
            self.after(start, thread, asm.adddmareg(3, 1, 2),
                       lambda m: m.gprs[thread].__setitem__(3, 3 * 10 ** thread))


class Nothing(Effects):
    def test_nop_and_dmanop(self):
        for word in (asm.nop(), asm.dmanop(), asm.nop() | 0xFFFFFF, asm.dmanop() | 0xFFFFFF):
            self.after(still(5), 0, word, lambda m: None)


class Config(Effects):
    def test_bank_is_bit_0_of_entry_0(self):
        for entry, bank in ((0, 0), (1, 1), (2, 0), (3, 1), (0xFFFE, 0), (0xFFFF, 1)):
            start = still(6)
            start.settings[1][0] = entry
            start.settings[0][0] = start.settings[2][0] = entry ^ 1
            value = start.gprs[1][9]
            self.after(start, 1, asm.wrcfg(9, 77), lambda m: m.config[bank].__setitem__(77, value))
            read = start.config[bank][78]
            self.after(start, 1, asm.rdcfg(9, 78), lambda m: m.gprs[1].__setitem__(9, read))
            self.after(start, 1, asm.rmwcib(0, 79, 0xFF, 0x5A),
                       lambda m: m.config[bank].__setitem__(79, start.config[bank][79] & 0xFFFFFF00 | 0x5A))

    def test_wrcfg_edges(self):
        start = still(7)
        start.settings[0][0] = 0
        for gpr in (0, 1, 63):
            for index in (0, 1, 254, 255):
                self.after(start, 0, asm.wrcfg(gpr, index),
                           lambda m: m.config[0].__setitem__(index, start.gprs[0][gpr]))

    def test_wrcfg_four_rounds_both_down(self):
        start = still(8)
        start.settings[2][0] = 1
        for gpr in (0, 1, 2, 3, 4, 59, 60, 63):
            for index in (0, 3, 4, 7, 251, 252, 255):
                def change(expected):
                    for place in range(4):
                        expected.config[1][(index & ~3) + place] = start.gprs[2][(gpr & ~3) + place]
                self.after(start, 2, asm.wrcfg(gpr, index, four=1), change)

    def test_rdcfg_edges(self):
        start = still(9)
        start.settings[0][0] = 0
        for gpr in (0, 63):
            for index in (0, 255):
                self.after(start, 0, asm.rdcfg(gpr, index),
                           lambda m: m.gprs[0].__setitem__(gpr, start.config[0][index]))

    def test_setc16(self):
        start = still(10)
        for thread in range(3):
            for entry in (0, 1, 62, 63):
                for value in (0, 1, 0x8000, 0xFFFF):
                    self.after(start, thread, asm.setc16(entry, value),
                               lambda m: m.settings[thread].__setitem__(entry, value))

    def test_setc16_chooses_the_bank_of_the_next_word(self):
        machine = fresh()
        machine.gprs[0][1] = 111
        step(machine, 0, asm.setc16(0, 1))
        step(machine, 0, asm.wrcfg(1, 5))
        self.assertEqual((machine.config[0][5], machine.config[1][5]), (0, 111))
        step(machine, 0, asm.setc16(0, 0))
        step(machine, 0, asm.rdcfg(2, 5))
        self.assertEqual(machine.gprs[0][2], 0)

    def test_rmwcib(self):
        old = 0x11223344
        for byte, mask, data, new in ((0, 0xFF, 0xAB, 0x112233AB), (1, 0xFF, 0xAB, 0x1122AB44),
                                      (2, 0xFF, 0xAB, 0x11AB3344), (3, 0xFF, 0xAB, 0xAB223344),
                                      (0, 0x00, 0xFF, old), (3, 0x00, 0xFF, old),
                                      (0, 0x0F, 0xAB, 0x1122334B), (3, 0xF0, 0xAB, 0xA1223344),
                                      (2, 0x81, 0x7E, 0x11223344), (2, 0x81, 0xFF, 0x11A33344),
                                      (2, 0xFF, 0x00, 0x11003344)):
            for index in (0, 10, 255):
                start = still(11)
                start.settings[0][0] = 0
                start.config[0][index] = old
                self.after(start, 0, asm.rmwcib(byte, index, mask, data),
                           lambda m: m.config[0].__setitem__(index, new))
