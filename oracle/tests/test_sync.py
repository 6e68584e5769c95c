"""Mutex and semaphore words."""

import unittest

import assemble as asm
from machine import fresh
from tests.testing import still
from words import offer, step


class Mutexes(unittest.TestCase):
    def test_get_and_release_in_each_state(self):
        for mutex in range(8):
            for thread in range(3):
                for state in range(4):  # free, or held by thread 0, 1, 2
                    start = still(20)
                    start.mutexes[mutex] = state
                    machine, expected = start.copy(), start.copy()
                    answer = offer(machine, thread, asm.atgetm(mutex))
                    if state in (0, thread + 1):
                        self.assertEqual(answer, ('passed',))
                        expected.mutexes[mutex] = thread + 1
                    else:
                        self.assertEqual(answer, ('stalled', 102, state - 1))
                    self.assertEqual(machine, expected)

                    machine, expected = start.copy(), start.copy()
                    self.assertEqual(offer(machine, thread, asm.atrelm(mutex)), ('passed',))
                    if state == thread + 1:
                        expected.mutexes[mutex] = 0
                    self.assertEqual(machine, expected)

    def test_hand_over(self):
        machine = fresh()
        self.assertEqual(step(machine, 0, asm.atgetm(3)), ('passed',))
        self.assertEqual(step(machine, 0, asm.atgetm(3)), ('passed',))
        self.assertEqual(step(machine, 1, asm.atgetm(3)), ('stalled', 102, 0))
        self.assertEqual(step(machine, 1, asm.atrelm(3)), ('passed',))
        self.assertEqual(machine.mutexes[3], 1)
        self.assertEqual(step(machine, 0, asm.atrelm(3)), ('passed',))
        self.assertEqual(step(machine, 1, asm.atgetm(3)), ('passed',))
        self.assertEqual(machine.mutexes, [0, 0, 0, 2, 0, 0, 0, 0])


class Semaphores(unittest.TestCase):
    def test_every_mask(self):
        start, machine = still(21), still(21)
        for mask in range(256):
            named = [bool(int(digit)) for digit in reversed(f'{mask:08b}')]
            for word, new in (
                    (asm.seminit(mask, 9, 6), lambda value, maximum: [9, 6]),
                    (asm.sempost(mask), lambda value, maximum: [min(value + 1, 15), maximum]),
                    (asm.semget(mask), lambda value, maximum: [max(value - 1, 0), maximum])):
                machine.semaphores = [old[:] for old in start.semaphores]
                self.assertEqual(offer(machine, 0, word), ('passed',))
                self.assertEqual(machine.semaphores, [new(*old) if name else old
                                                      for name, old in zip(named, start.semaphores)])
        machine.semaphores = start.semaphores
        self.assertEqual(machine, start)

    def test_init_takes_every_value_and_maximum(self):
        machine = fresh()
        for value in range(16):
            for maximum in range(16):
                self.assertEqual(offer(machine, 0, asm.seminit(0x80, value, maximum)), ('passed',))
                self.assertEqual(machine.semaphores, [[0, 0]] * 7 + [[value, maximum]])

    def ends_at(self, near, end, thread, word):
        machine = fresh()
        machine.semaphores[0] = [near, 3]
        for _ in range(2):
            step(machine, thread, word)
            self.assertEqual(machine.semaphores[0], [end, 3])

    def test_post_ends_at_15_whatever_the_maximum(self):
        self.ends_at(14, 15, 0, asm.sempost(1))

    def test_get_ends_at_0(self):
        self.ends_at(1, 0, 2, asm.semget(1))
