"""Inputs of `expand` answer as they are called."""

import unittest
from collections import Counter

from cases import cases_expander
from cases.cases_expand import CARRIED, NEEDED, RECORDS, any_inputs, damaged_inputs, files, load_inputs, load_name
from cases.cases_expand import long_input, long_inputs, longest, short_inputs
from program import expand
from seeded import Draws


def answer(data):
    return expand(data).split(b'\n')[0].decode()


def first_words(data):
    """The answer without the number of words."""
    return answer(data) if answer(data).startswith('refused') else answer(data).split()[0]


class Inputs(unittest.TestCase):
    def test_stored(self):
        stdout = files()['crates/expand/stdout']
        self.assertTrue(stdout.startswith(f'words {NEEDED}\n'.encode()))
        # The mask, the slots and the load change; one comes, and another goes on.
        self.assertNotIn(RECORDS[1], stdout)
        carried = stdout.split(b'\n', 1)[1][:len(RECORDS[1])]
        self.assertEqual((CARRIED.load, carried[-10:]), ((31, 2, 1), bytes.fromhex('01 1E000000 08000000 00')))

    def test_long(self):
        self.assertEqual((len(longest()), answer(longest())), (70 + 146 + 262154 + 10, 'refused 4'))
        full = 'words 65536'
        self.assertEqual([answer(data) for data in long_inputs().values()],
                         [full, 'refused 4', full, 'refused 8', 'refused 13', 'refused 7', 'words 0', 'refused 8', full,
                          'refused 8', 'refused 4'])

    def test_short(self):
        answers = {answer(data) for data in short_inputs().values()}
        self.assertEqual(answers, {*(f'words {number}' for number in (NEEDED, 40, 0)),
                                   *(f'refused {number}' for number in (4, 7, 8, 13))})

    def test_loads(self):
        """Each is refused as it is called, or accepted, but by 10 before 7, 13 and 8 where the load is one that 10 is for."""
        malformed = {load_name(load) for load in cases_expander.MALFORMED}
        answers = {True: Counter(), False: Counter()}
        for name, data in load_inputs().items():
            load, _, called = name.partition(', ')
            answers[load in malformed][called.split(' ')[0], first_words(data)] += 1
        bad, sound = len(malformed), len(cases_expander.LOADS) + 1 - len(malformed)
        self.assertEqual(answers[True], {('', 'refused 10'): bad, ('4', 'refused 4'): bad, ('7', 'refused 10'): bad,
                                         ('13', 'refused 10'): bad, ('8', 'refused 10'): bad, ('close', 'refused 10'): 4 * bad})
        # Seven have no word to come; the others take the REPLAY that would be refused, and the MOP behind it is.
        self.assertEqual(answers[False], {('', 'words'): sound, ('4', 'refused 4'): sound, ('7', 'refused 7'): sound,
                                          ('13', 'refused 13'): 7, ('13', 'refused 7'): sound - 7,
                                          ('8', 'refused 8'): sound, ('close', 'closed'): 4 * sound})

    def test_damaged(self):
        sound = {name for name, data in damaged_inputs().items() if not answer(data).startswith('bad record at ')}
        self.assertEqual(sound, {'37 of 0 bytes, a piece', '37 of 64 bytes, a piece', '39 of 0 bytes, a piece',
                                 '37 of 0 bytes, a close', '37 of 64 bytes, a close'})

    def test_drawn(self):
        words = {first_words(data) for data in any_inputs(Draws(2), 60)}
        self.assertEqual(words, {'words', 'closed', *(f'refused {number}' for number in (4, 7, 8, 10, 13))})

    def test_drawn_long(self):
        draws = Draws(3)
        made = [long_input(draws) for _ in range(40)]
        self.assertLessEqual({'words', 'refused 8'}, {first_words(data) for data in made})
        self.assertGreater(max(map(len, made)), 4000)
