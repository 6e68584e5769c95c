"""Guided streams keep three threads at work."""

import unittest

from guided import guided_streams
from machine import fresh
from run import START, run
from seeded import Draws, machine_from


class Guided(unittest.TestCase):
    def test_most_turns_pass_a_word(self):
        passed = turns = 0
        for seed in range(20):
            draws = Draws(seed)
            machine = machine_from(draws) if seed % 2 else fresh()
            result = run(machine, guided_streams(draws, machine, 0, 200), START, 1000)
            passed += result.trace.count(('passed',))
            turns += result.turns
        self.assertGreater(turns, 2000)
        self.assertGreater(passed, turns * 2 // 3)

    def test_the_machine_handed_in_is_kept(self):
        machine, same = machine_from(Draws(7)), machine_from(Draws(7))
        guided_streams(Draws(8), machine, 1, 50)
        self.assertEqual(machine, same)
