"""Sizes and ranges of the machine, a fresh one, and what is not well formed."""

import unittest

import seeded
from machine import LENT, fresh, lent_refusal, well_formed
from tests.testing import busy


def flat(part):
    for inner in part:
        if isinstance(inner, list):
            yield from flat(inner)
        else:
            yield inner


class Fresh(unittest.TestCase):
    def test_sizes(self):
        machine = fresh()
        sizes = {name: len(list(flat(part))) for name, part in vars(machine).items()}
        self.assertEqual(sizes, {
            'gprs': 192, 'config': 512, 'settings': 192, 'mutexes': 8, 'semaphores': 16, 'waits': 3,
            'dest': 16384, 'marks': 1024, 'src_a': 2048, 'src_b': 2048, 'owners': 4, 'pointers': 4})
        self.assertEqual([len(machine.gprs), len(machine.gprs[0])], [3, 64])
        self.assertEqual([len(machine.config), len(machine.config[0])], [2, 256])
        self.assertEqual([len(machine.dest), len(machine.dest[0])], [1024, 16])
        self.assertEqual([len(machine.src_b), len(machine.src_b[0]), len(machine.src_b[0][0])], [2, 64, 16])

    def test_values(self):
        machine = fresh()
        for name, part in vars(machine).items():
            only = {'waits': None, 'marks': False}.get(name, 0)
            self.assertTrue(all(value == only for value in flat(part)), name)
        self.assertTrue(well_formed(machine))

    def test_two_have_nothing_in_common(self):
        one, other = fresh(), fresh()
        one.dest[5][5] = one.src_a[1][1][1] = one.semaphores[3][0] = 1
        self.assertEqual(other, fresh())


class Copies(unittest.TestCase):
    def test_copy_is_equal_and_apart(self):
        machine = seeded.machine(5)
        copy = machine.copy()
        self.assertEqual(copy, machine)
        copy.src_b[1][63][15] ^= 1
        self.assertNotEqual(copy, machine)
        self.assertEqual(machine, seeded.machine(5))

    def test_each_part_counts_in_equality(self):
        for name in vars(fresh()):
            machine = fresh()
            setattr(machine, name, None)
            self.assertNotEqual(machine, fresh())


class WellFormed(unittest.TestCase):
    def test_seeded_machines_are(self):
        for seed in range(10):
            self.assertTrue(well_formed(busy(seed)))

    def refusal_after(self, spoil):
        machine = busy(11)
        spoil(machine)
        number = lent_refusal(machine)
        self.assertEqual(well_formed(machine), number is None)
        return number

    def test_lent_lengths_give_4(self):
        for name in LENT:
            for spoil in (lambda part: part.pop(), lambda part: part.append(part[0])):
                self.assertEqual(self.refusal_after(lambda machine: spoil(getattr(machine, name))), 4, name)
        for name in ('settings', 'gprs', 'config', 'dest', 'src_a', 'src_b'):
            for spoil in (lambda part: part[-1].pop(), lambda part: part[0].append(part[0][0])):
                self.assertEqual(self.refusal_after(lambda machine: spoil(getattr(machine, name))), 4, name)
        self.assertEqual(self.refusal_after(lambda machine: machine.src_b[1][63].pop()), 4)

    def test_last_numbers_in_and_first_out_of_range(self):
        def put(name, *where):
            *outer, last = where

            def spoiled(value):
                def spoil(machine):
                    part = getattr(machine, name)
                    for index in outer:
                        part = part[index]
                    part[last] = value
                return self.refusal_after(spoil)
            return spoiled

        for place, top in (
                (put('settings', 2, 63), 0xFFFF), (put('settings', 0, 0), 0xFFFF),
                (put('gprs', 2, 63), 0xFFFFFFFF), (put('config', 1, 255), 0xFFFFFFFF),
                (put('dest', 1023, 15), 0xFFFF), (put('src_a', 1, 63, 15), 0x7FFFF),
                (put('src_b', 0, 0, 0), 0x7FFFF), (put('src_b', 1, 63, 15), 0x7FFFF),
                (put('mutexes', 7), 3), (put('mutexes', 0), 3),
                (put('semaphores', 7, 0), 15), (put('semaphores', 7, 1), 15),
                (put('owners', 3), 1), (put('pointers', 3), 1)):
            self.assertIsNone(place(top))
            self.assertIsNone(place(0))
            self.assertEqual(place(top + 1), 10)
            self.assertEqual(place(-1), 10)
        self.assertEqual(put('marks', 1023)(2), 10)

    def test_control_sizes_give_10(self):
        for name in ('mutexes', 'semaphores', 'waits', 'owners', 'pointers'):
            self.assertEqual(self.refusal_after(lambda machine: getattr(machine, name).pop()), 10)

    def test_waits(self):
        def with_wait(wait):
            return self.refusal_after(lambda machine: machine.waits.__setitem__(2, wait))
        for good in (None, ('stall', 0, 0), ('stall', 511, 32767), ('semaphore', 511, 255, 3)):
            self.assertIsNone(with_wait(good))
        for bad in (('stall', 512, 0), ('stall', 0, 32768), ('semaphore', 512, 0, 0), ('semaphore', 0, 256, 0),
                    ('semaphore', 0, 0, 4), ('stall', 0), ('other', 0, 0)):
            self.assertEqual(with_wait(bad), 10)

    def test_4_goes_before_10(self):
        def spoil(machine):
            machine.mutexes[0] = 4
            machine.src_a[0][0][0] = 0x80000
            machine.dest.pop()
        self.assertEqual(self.refusal_after(spoil), 4)
