"""The cases of `test_trace`: what they reach, and how they are cut."""

import re
import struct
import unittest
from collections import Counter

from cases import cases_resume
from cases.cases_trace import SIZES, SMALL, answer, at_budgets, cases, ending, files_to_come, long_runs, several_times, turns
from run import STREAM_LIMIT
from seeded import Draws
from tests.test_decode import NAMES

STALLS = {*(f'101 {cause}' for cause in (*range(5, 9), *range(16, 32))), '102 0', '102 1', '102 2', '103 0', '103 1'}


class Cases(unittest.TestCase):
    @classmethod
    def setUpClass(cls):
        cls.cases, cls.files = cases(), files_to_come()
        cls.lines = cls.files['crates/test_trace/stdout'].decode().splitlines()

    def test_small(self):
        self.assertEqual(self.files['crates/trace/stdin'], cases_resume.input_of(SMALL))
        self.assertEqual(self.files['crates/trace/stdout'].decode().splitlines(), [
            '1 t2 B6F0AB0A RMWCIB3 passed', '2 t0 36000001 CLEARDVALID passed', '3 t1 45123408 SETDMAREG passed', '4 t2 idle',
            '5 t0 A3300004 SEMINIT passed', '6 t1 A6100005 SEMWAIT passed', '7 t2 idle', '8 t0 02000000 NOP passed',
            '9 t1 60000000 DMANOP stalled 101 16', '10 t2 idle', '11 t0 A4000004 SEMPOST passed', '12 t1 60000000 DMANOP passed',
            '13 t2 idle', '14 t0 16000000 TRNSPSRCB stalled 103 0', '15 t1 idle',
            'end stuck', 'turns 15', 't0 5/6 waits 103 0', 't1 3/3', 't2 1/1', 'next 2'])

    def test_files(self):
        stdin, at = self.files['crates/test_trace/stdin'], 0
        for piece, case in self.cases:
            numbers = struct.unpack('<8I', stdin[at:at + 32])
            self.assertEqual((numbers[0], numbers[1]), (piece, case.seed))
            at += 32 + case.fill_at + numbers[7]
        self.assertEqual(at, len(stdin))
        self.assertLess(sum(len(data) for path, data in self.files.items() if 'test_trace' in path), 3000000)

    def test_sizes(self):
        sizes = {}
        for piece, case in self.cases:
            sizes.setdefault(case, set()).add(piece)
        self.assertEqual(set().union(*sizes.values()), set(SIZES))
        self.assertGreaterEqual(len(several_times()), 300)
        for case in several_times():
            self.assertGreaterEqual(sizes[case], {1, 3})
            self.assertGreaterEqual(len(sizes[case]), 4)

    def test_each_end_at_each_place_of_a_piece(self):
        """After so many turns more than whole pieces; so the three turns of a stuck run are cut at each place."""
        places = {}
        for piece, case in self.cases:
            end = ending(answer(case)).split()
            if end[0] == 'end':
                places.setdefault((end[1], piece), set()).add(turns(case) % piece)
        for end in ('finished', 'stuck', 'budget', 'refused'):
            for piece in (1, 2, 3, 4, 5, 7):
                self.assertEqual(places[end, piece], set(range(piece)), (end, piece))
        self.assertGreaterEqual(places['stuck', 4096], {0, 1, 2})

    def test_endings(self):
        ends = Counter(re.sub(' at .*', ' at', ending(answer(case))) for _, case in self.cases)
        for end, least in (('end finished', 250), ('end stuck', 400), ('end budget', 300), ('end refused 2', 300),
                           ('end refused 3', 100), ('rejected 5', 40), ('rejected 6', 20), ('bad image at', 15),
                           ('bad record at', 15)):
            self.assertGreaterEqual(ends.pop(end), least, end)
        self.assertEqual(ends, {})

    @unittest.expectedFailure  # no MOVB2A that is refused by 2 is drawn yet
    def test_lines(self):
        words = [line.split()[2:] for line in self.lines if re.match(r'\d+ t[012] ', line)]
        outcomes = Counter(' '.join(word[2:] or word) for word in words)
        self.assertEqual(set(outcomes), {'passed', 'idle', 'refused 2', 'refused 3', *(f'stalled {stall}' for stall in STALLS)})
        self.assertEqual({word[1] for word in words if word[2:] == ['passed']}, set(NAMES.values()))
        self.assertEqual({word[1] for word in words if word[2:] == ['refused', '2']}, {'?', 'SETDMAREG', 'MOVB2A', 'ZEROACC'})
        self.assertEqual({word[1] for word in words if word[2:] == ['refused', '3']},
                         {'WRCFG', 'RDCFG', 'ATGETM', 'ATRELM', 'ZEROACC'})
        self.assertEqual(len({word[0][:2] for word in words if word[1:2] == ['?']}), 256 - len(NAMES))

    @unittest.expectedFailure  # by 103 there are five so far
    def test_stalls_that_are_over_in_time(self):
        over = Counter()
        for case in several_times():
            told = [line.split()[2:] for line in answer(case).decode().splitlines()[:-6]]
            over.update(first[3] for first, later in zip(told, told[3:]) if first[2:3] == ['stalled'] and later[2:] == ['passed'])
        for number in ('101', '102', '103'):
            self.assertGreaterEqual(over[number], 10, number)

    def test_lengths(self):
        taken = [turns(case) for case in several_times()]
        self.assertGreaterEqual(sum(count > 100 for count in taken), 8)
        self.assertLessEqual({4095, 4096, 4097, 4098}, {turns(case) for case in long_runs()})

    def test_budgets(self):
        made = list(at_budgets(Draws(3), 20))
        for less, just, more in zip(made[::3], made[1::3], made[2::3]):
            self.assertEqual((turns(less), turns(just)), (turns(just) - 1, turns(more)))
            self.assertEqual(ending(answer(less)), 'end budget')
            self.assertEqual(answer(just), answer(more))
            self.assertNotEqual(ending(answer(just)), 'end budget')

    def test_full_streams(self):
        for thread in range(3):
            self.assertIn(f't{thread} {STREAM_LIMIT}/{STREAM_LIMIT}', self.lines)
