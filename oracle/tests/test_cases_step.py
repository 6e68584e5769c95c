"""The cases of `test_step`: its scenes of stalls meet every cause in every way."""

import unittest
from itertools import product

import vectors
from cases import cases_step, stall_scenes
from machine import fresh
from seeded import Draws
from words import offer

CAUSES = {101: {*range(5, 9), *range(16, 32)}, 102: {0, 1, 2}, 103: {0, 1}}


class Watched:
    """A group on a fresh machine that keeps what each case found and answered, and no digests."""

    def __init__(self):
        self.machine, self.seen = fresh(), []

    def calm(self):
        pass

    def case(self, thread, word):
        machine = self.machine
        found = (thread, word, machine.waits[thread], stall_scenes.bank_state(machine), tuple(map(tuple, machine.semaphores)),
                 tuple(machine.mutexes))
        self.seen.append((*found, offer(machine, thread, word)))


def seen():
    """All cases of the scenes."""
    cases = []
    for scene in stall_scenes.SCENES:
        group = Watched()
        scene(group, Draws(5))
        cases += group.seen
    return cases


class Stalls(unittest.TestCase):
    def test_every_wait_in_every_state(self):
        banks, masks, values = set(), set(), set()
        for _, word, wait, state, semaphores, _, _ in seen():
            if wait is None or not wait[1] or word >> 24 not in (0x16, 0x57, 0x60, 0xB2):
                continue
            if wait[0] == 'stall':
                banks.add((state, wait[2] >> 5 & 15))
            else:
                masks.add((wait[2], wait[3]))
                values.update((*semaphores[number], wait[3]) for number in range(8) if wait[2] >> number & 1)
        self.assertEqual(banks, {*product(stall_scenes.STATES, range(16))})
        self.assertEqual(masks, {*product(range(256), range(4))})
        self.assertEqual(values, {*product(range(16), range(16), range(4))})

    def test_src_b_in_every_state(self):
        told = {}
        for _, word, _, state, _, _, answer in seen():
            if word >> 24 == 0x0B:
                told[state] = answer
        self.assertEqual(told, {(owners, pointers): ('passed',) if owners[2 + pointers[1]] else ('stalled', 103, pointers[1])
                                for owners, pointers in stall_scenes.STATES})

    def test_each_mutex_held_by_each_thread_and_asked_for_by_each(self):
        told = {(word & 7, mutexes[word & 7], thread): answer
                for thread, word, wait, _, _, mutexes, answer in seen() if word >> 24 == 0xA0 and wait is None}
        for mutex, held, thread in product(range(8), (1, 2, 3), range(3)):
            self.assertEqual(told[mutex, held, thread], ('passed',) if held == thread + 1 else ('stalled', 102, held - 1))

    def test_ways(self):
        for state, wanted in product(stall_scenes.STATES[::37], stall_scenes.STATES[::19]):
            reached = state
            for word in stall_scenes.way(state, {wanted}):
                reached = stall_scenes.moved(reached, word)
            self.assertEqual(reached, wanted)

    def test_stored_lines(self):
        lines = (vectors.TOP / cases_step.FOLDER / 'stdout').read_bytes()
        stalls = {tuple(map(int, name.split()[1:])): count for name, count in cases_step.tally(lines).items() if name[0] == 's'}
        self.assertEqual(set(stalls), {(number, cause) for number, causes in CAUSES.items() for cause in causes})
        self.assertGreaterEqual(min(stalls.values()), 40)
