"""The generator, machines of a seed, and the checksum."""

import unittest
import zlib

import seeded
from machine import fresh, well_formed
from tests.testing import busy


def drawn(seed, count):
    """The numbers drawn, worked out apart from the module."""
    state, numbers = seed, []
    for _ in range(count):
        state = (state * 1664525 + 1013904223) & 0xFFFFFFFF
        numbers.append(state >> 16)
    return numbers


class Generator(unittest.TestCase):
    def test_draws(self):
        draws = seeded.Draws(0)
        self.assertEqual([draws.draw() for _ in range(3)], [0x3C6E, 0x4750, 0xD1CC])
        for seed in (1, 12345, 0xFFFFFFFF):
            draws = seeded.Draws(seed)
            self.assertEqual([draws.draw() for _ in range(100)], drawn(seed, 100))

    def test_words(self):
        self.assertEqual(seeded.Draws(0).word(), 0x3C6E4750)
        halves = drawn(9, 8)
        self.assertEqual(seeded.Draws(9).words(4), [halves[at] << 16 | halves[at + 1] for at in (0, 2, 4, 6)])


class Machines(unittest.TestCase):
    def test_order_of_draws(self):
        for seed in (0, 3, 4, 0xDEADBEEF):
            machine, numbers = seeded.machine(seed), drawn(seed, 31000)
            numbers.reverse()

            def take():
                return numbers.pop()

            def pair():
                high = take()
                return high << 16 | take()
            self.assertEqual(machine.mutexes, [take() % 4 for _ in range(8)])
            for semaphore in machine.semaphores:
                self.assertEqual(semaphore[0], take() % 16)
                self.assertEqual(semaphore[1], take() % 16)
            for wait in machine.waits:
                kind = take() % 3
                block = take() % 512
                low = take()
                self.assertEqual(wait, (None, ('stall', block, low & 0x7FFF),
                                        ('semaphore', block, low >> 2 & 255, low & 3))[kind])
            self.assertEqual(machine.owners, [take() % 2 for _ in range(4)])
            self.assertEqual(machine.pointers, [take() % 2 for _ in range(4)])
            self.assertEqual(machine.settings, [[take() for _ in range(64)] for _ in range(3)])
            self.assertEqual(machine.gprs, [[pair() for _ in range(64)] for _ in range(3)])
            self.assertEqual(machine.config, [[pair() for _ in range(256)] for _ in range(2)])
            self.assertEqual(machine.dest, [[take() for _ in range(16)] for _ in range(1024)])
            self.assertEqual(machine.marks, [take() % 2 == 1 for _ in range(1024)])
            for source in (machine.src_a, machine.src_b):
                self.assertEqual(source, [[[pair() & 0x7FFFF for _ in range(16)] for _ in range(64)]
                                          for _ in range(2)])
            self.assertTrue(well_formed(machine))

    def test_all_kinds_of_waits_occur(self):
        kinds = [wait and wait[0] for seed in range(10) for wait in busy(seed).waits]
        self.assertTrue({None, 'stall', 'semaphore'} <= set(kinds))


class Digest(unittest.TestCase):
    def test_fresh(self):
        # Of 53,423 zero bytes.
        self.assertEqual(seeded.digest(fresh()), 53423 << 16 | 1)

    def test_bytes(self):
        machine = busy(90)
        machine.waits = [None, ('stall', 300, 0x7123), ('semaphore', 511, 0x81, 2)]
        data = bytearray()

        def put(number, size):
            for place in range(size):
                data.append(number >> 8 * place & 255)
        for thread in machine.settings:
            for entry in thread:
                put(entry, 2)
        for mutex in machine.mutexes:
            put(mutex, 1)
        for value, maximum in machine.semaphores:
            put(value, 1)
            put(maximum, 1)
        for kind, block, low in ((0, 0, 0), (1, 300, 0x7123), (2, 511, 0x81 << 2 | 2)):
            put(kind, 1)
            put(block, 2)
            put(low, 2)
        for number in machine.owners + machine.pointers:
            put(number, 1)
        for words in machine.gprs + machine.config:
            for word in words:
                put(word, 4)
        for row in machine.dest:
            for cell in row:
                put(cell, 2)
        for mark in machine.marks:
            put(int(mark), 1)
        for source in (machine.src_a, machine.src_b):
            for bank in source:
                for row in bank:
                    for cell in row:
                        put(cell, 4)
        self.assertEqual(seeded.state_bytes(machine), bytes(data))
        self.assertEqual(seeded.digest(machine), zlib.adler32(bytes(data)))

    def test_zeros_after_each_lent_part(self):
        # Of 53,376 bytes of lent parts, twice, and 47 of the control part.
        self.assertEqual(seeded.digest(fresh(), 2), (2 * 53376 + 47) % 65521 << 16 | 1)
        machine, data = busy(90), seeded.state_bytes(busy(90), 2)
        self.assertEqual(data[:384], seeded.SETTINGS.pack(*seeded.flat(machine.settings)))
        self.assertEqual(data[384:768], bytes(384))
        self.assertEqual(data[768:815], seeded.control_bytes(machine))
        self.assertEqual(data[-8192:], bytes(8192))

    def test_fixed_values(self):
        self.assertEqual([seeded.digest(busy(seed)) for seed in (0, 1)], [3190906842, 2916499584])
