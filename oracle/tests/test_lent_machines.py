"""Machines made for a test, and what is lent of them."""

import unittest

from image import SIZE, load, save
from lent_machines import AT_END, CELL_B, HELD, LIMITS, MUTEX, PARTS, PAST, PLACES, RIGHT_LENGTHS, ROOM, SIZES, STALL, UNSET, WAIT, \
    WRONG_LENGTHS, Made, any_length, any_number, cell_at, count, lent, machine_of, packed, resized, set_cell, set_control, wait
from machine import lent_refusal, well_formed
from seeded import Draws
from tests.testing import busy


class Machines(unittest.TestCase):
    def test_sizes_are_those_of_the_shapes(self):
        for name in PARTS:
            self.assertEqual(count(getattr(machine_of(Made(5)), name)), SIZES[name])

    def test_numbers_that_are_set(self):
        self.assertEqual(machine_of(Made(5)), busy(5))
        self.assertEqual(machine_of(Made(5, MUTEX, 7, 4)).mutexes[7], 4)
        self.assertEqual(machine_of(Made(5, STALL, 2, 0x7FFF01FE)).waits[2], ('stall', 0x1FE, 0x7FFF))
        self.assertEqual(machine_of(Made(5, WAIT, 1, 0x04FF01FE)).waits[1], ('semaphore', 0x1FE, 255, 4))
        self.assertEqual(machine_of(Made(5, WAIT, 1, wait(0x1FE, 255, 4))), machine_of(Made(5, WAIT, 1, 0x04FF01FE)))
        self.assertEqual(machine_of(Made(5, CELL_B, 1040, 9)).src_b[1][1][0], 9)

    def test_past_a_range_and_at_its_end(self):
        self.assertEqual({limit.kind for limit in LIMITS}, set(range(1, 9)))
        for number in PAST:
            self.assertEqual(lent_refusal(machine_of(Made(5, *number))), 10, number)
        for number in AT_END:
            self.assertTrue(well_formed(machine_of(Made(5, *number))), number)

    def test_values_are_not_shared(self):
        machine = busy(3)
        for _ in range(2):
            set_control(machine, *AT_END[1])
            self.assertEqual(machine.semaphores[7], [15, 15])
            machine.semaphores[7][0] = 0

    def test_cells(self):
        machine = busy(3)
        set_cell(machine.src_a, 1024 + 2 * 16 + 3, 7)
        self.assertEqual(machine.src_a[1][2][3], 7)
        self.assertEqual(cell_at(machine.src_a, 1024 + 2 * 16 + 3), 7)

    def test_any_number(self):
        draws = Draws(1)
        for last in (CELL_B, WAIT):
            numbers = [any_number(draws, last) for _ in range(400)]
            self.assertEqual({kind for kind, _, _ in numbers}, set(range(1, last + 1)))
            for kind, place, value in numbers:
                self.assertLess(place, PLACES[kind])
                self.assertEqual(value >> HELD.get(kind, 32), 0)
            for some in (MUTEX, WAIT):
                made = [Made(5, *number) for number in numbers if number[0] == some]
                self.assertEqual({well_formed(machine_of(each)) for each in made}, {True, False})

    def test_packed(self):
        self.assertEqual(packed(Made(1, 2, 3, 4, 5, 0x0A0B0C0D)).hex(' ', 4),
                         '01000000 02000000 03000000 04000000 05000000 0d0c0b0a')


class Lengths(unittest.TestCase):
    def test_resized(self):
        part = [[1, 2], [3, 4]]
        self.assertEqual([resized(part, length) for length in range(6)],
                         [[], [[1]], [[1, 2]], [[1, 2], [3]], part, [[1, 2], [3, 4, 0]]])

    def test_lent(self):
        machine = busy(5)
        self.assertIs(lent(machine, Made(5)), machine)
        for part, length in RIGHT_LENGTHS:
            self.assertIs(lent(machine, Made(5, *UNSET, part, length)), machine)
        for part, length in WRONG_LENGTHS:
            other = lent(machine, Made(5, *UNSET, part, length))
            self.assertEqual([count(getattr(other, name)) for name in PARTS],
                             [length if name == PARTS[part - 1] else SIZES[name] for name in PARTS])
            self.assertEqual(lent_refusal(other), 4)
        self.assertEqual(machine, busy(5))

    def test_any_length(self):
        draws = Draws(2)
        lengths = [any_length(draws) for _ in range(400)]
        self.assertEqual({part for part, _ in lengths}, set(range(1, len(PARTS) + 1)))
        self.assertTrue(all(length <= ROOM * SIZES[PARTS[part - 1]] for part, length in lengths))
        for listed in (RIGHT_LENGTHS, WRONG_LENGTHS):
            self.assertTrue(set(listed) & set(lengths))
        self.assertTrue(set(lengths) - {*RIGHT_LENGTHS, *WRONG_LENGTHS})

    def test_no_more_than_there_is(self):
        self.assertEqual(count(lent(busy(5), Made(5, *UNSET, 1, 0xFFFFFFFF)).settings), 384)

    def test_images(self):
        for part, length in RIGHT_LENGTHS + WRONG_LENGTHS:
            right = (part, length) in RIGHT_LENGTHS
            machine = lent(busy(5), Made(5, *UNSET, part, length))
            self.assertEqual(save(machine, bytearray(SIZE))[1], SIZE if right else 4)
            self.assertEqual(load(machine, b''), ('refused', 9, 0) if right else ('refused', 4))
