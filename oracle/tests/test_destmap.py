"""The Dest maps, checked against the rule written over strings of binary digits."""

import unittest

from destmap import ROWS_16, ROWS_32, flags, remapped, storage_16, storage_32, storage_rows, swizzled
from machine import fresh

SETTINGS = [(remap, swizzle) for remap in (0, 1) for swizzle in (0, 1)]


def digits(row):
    """Ten binary digits, digit i of the list being bit i."""
    return list(reversed(f'{row:010b}'))


def number(places):
    return int(''.join(reversed(places)), 2)


def by_digits_16(row, remap):
    old = digits(row)
    new = old[:]
    if remap:
        new[3], new[4], new[5] = old[4], old[5], old[3]
    return number(new)


def by_digits_32(row, remap, swizzle):
    old = digits(by_digits_16(row, remap))
    new = old[:]
    if swizzle:
        new[2] = old[3]
        new[3] = '1' if old[4] != old[2] else '0'
    wide = new[:3] + ['0'] + new[3:9]
    return number(wide), number(wide[:3] + ['1'] + wide[4:])


class Maps(unittest.TestCase):
    def test_16_bit_view(self):
        for remap in (0, 1):
            for row in range(1024):
                self.assertEqual(storage_16(row, remap), by_digits_16(row, remap))

    def test_32_bit_view(self):
        for remap, swizzle in SETTINGS:
            for row in range(512):
                self.assertEqual(storage_32(row, remap, swizzle), by_digits_32(row, remap, swizzle))

    def test_limits(self):
        self.assertEqual((ROWS_16, ROWS_32), (1024, 512))
        for setting in SETTINGS:
            self.assertIsNone(storage_32(512, *setting))
            self.assertIsNotNone(storage_32(511, *setting))
        for remap in (0, 1):
            self.assertIsNone(storage_16(1024, remap))
            self.assertEqual(storage_16(1023, remap), 1023)

    def test_remap_permutes_the_16_bit_view(self):
        self.assertEqual(sorted(storage_16(row, 1) for row in range(1024)), list(range(1024)))
        self.assertEqual([storage_16(row, 0) for row in range(1024)], list(range(1024)))

    def test_pairs_cover_every_storage_row_once(self):
        for setting in SETTINGS:
            pairs = [storage_32(row, *setting) for row in range(512)]
            self.assertEqual(sorted(row for pair in pairs for row in pair), list(range(1024)))
            self.assertTrue(all(low == high + 8 for high, low in pairs))

    def test_remap_is_a_cycle_of_three(self):
        for row in range(1024):
            self.assertEqual(remapped(remapped(remapped(row))), row)

    def test_hand_worked_rows(self):
        self.assertEqual(remapped(0b1111_000_111), 0b1111_000_111)
        self.assertEqual(remapped(0b001000), 0b100000)
        self.assertEqual(remapped(0b010000), 0b001000)
        self.assertEqual(remapped(0b100000), 0b010000)
        self.assertEqual(swizzled(0b00100), 0b01000)  # old 2 goes into 3
        self.assertEqual(swizzled(0b01000), 0b00100)  # old 3 becomes 2
        self.assertEqual(swizzled(0b10000), 0b11000)  # old 4 stays and goes into 3
        self.assertEqual(swizzled(0b10100), 0b10000)  # old 4 xor old 2 is 0
        self.assertEqual(storage_32(8, 0, 0), (16, 24))
        self.assertEqual(storage_32(7, 0, 0), (7, 15))
        # Remap goes first: row 8 is 32 then, and swizzle leaves 32 alone; bits 3–8 move up by one.
        self.assertEqual(storage_32(8, 1, 1), (64, 72))
        # Row 32 is 16 after remap, 24 after swizzle.
        self.assertEqual(storage_32(32, 1, 1), (48, 56))
        # Row 32 without remap is left alone by swizzle.
        self.assertEqual(storage_32(32, 0, 1), (64, 72))

    def test_flags_are_bits_0_and_1_of_word_255(self):
        bank = fresh().config[0]
        for word, expected in ((0, (0, 0)), (1, (1, 0)), (2, (0, 1)), (3, (1, 1)), (0xFFFFFFFC, (0, 0)),
                               (0xFFFFFFFF, (1, 1))):
            bank[255] = word
            self.assertEqual(flags(bank), expected)
        bank[255] = 0
        bank[254] = bank[0] = 0xFFFFFFFF
        self.assertEqual(flags(bank), (0, 0))

    def test_swizzle_is_for_the_32_bit_view_only(self):
        bank = fresh().config[0]
        bank[255] = 2
        self.assertEqual([storage_rows(row, 0, bank) for row in range(1024)], [[row] for row in range(1024)])
        self.assertEqual(storage_rows(16, 1, bank), [48, 56])
        bank[255] = 3
        self.assertEqual(storage_rows(8, 0, bank), [32])
        self.assertEqual(storage_rows(8, 1, bank), [64, 72])
