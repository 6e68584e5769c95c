"""Cases of the expander: REPLAY words drawn, what is packed, streams in pieces, and the answers that the stored cases have."""

import struct
import unittest
from collections import Counter

import vectors
from bits import bits
from cases.cases_expander import (AT_EACH_PLACE, LOADS, MALFORMED, Calls, Case, Mix, at_the_limit, beside_10, chains, closed_line,
                                  only_mops, refused_when_full, replay_word, swallowed, without_replays)
from expander import FRESH, NEEDED_LIMIT, SLOTS, Load, expand
from seeded import Draws

STORED = vectors.TOP / 'crates/test_expander'


def fields(word):
    """Opcode, start, length and the bits that are neither."""
    return bits(word, 24, 31), bits(word, 14, 18), bits(word, 4, 9), word & 0x00F83C0F


class ReplayWords(unittest.TestCase):
    def test_lengths(self):
        short = [1, 1, 2, 2, 3, 3, 4, 5, 8, 16, 31, 32]
        for odd, last in ((0, [32, 31, 7, 6]), (1, [0, 33, 63, 0x2A]), (255, [0, 33, 63, 0x2A])):
            self.assertEqual([fields(replay_word(pick << 8, 0x02A0, odd))[2] for pick in range(16)], short + last)

    def test_start_and_other_bits(self):
        self.assertEqual(fields(replay_word(0x1000, 0xC00F, 0)), (4, 3, 1, 0x00F))
        self.assertEqual(fields(replay_word(0x2007, 0x3FF2, 0)), (4, 28, 1, 0x3C02))
        self.assertEqual(fields(replay_word(0x00FF, 0xFFFF, 0)), (4, 31, 1, 0xF83C0F))
        self.assertEqual(fields(replay_word(0x40F8, 0x0000, 0)), (4, 31, 1, 0xF80000))


class Seeds(unittest.TestCase):
    def test_packed(self):
        case = Case(5, 6, Mix(1, 2, 3, 4, 7, 8, 9, 1), 10, 11, 12, 13)
        numbers = 5, 13 << 16 | 6, 0x04030201, 10, 11, 12, 14, 0x01090807
        self.assertEqual(struct.unpack('<12I', case.packed(14)), (*numbers, 0, 0, 0, 0))
        for shown in (0, 1):
            self.assertEqual(struct.unpack('<12I', case.but(load=Load(15, 16, shown)).packed(14, 17)),
                             (*numbers, 1 + 2 * shown, 15, 16, 17))
        self.assertEqual(Mix(1, 2, 3, 4).packed(), (0x04030201, 3))

    def test_shares(self):
        mix = Mix(0, 0, 0, 0, 16, 16, 16)
        case = Case(77, 0, mix, 1, 2, 40)
        self.assertEqual(case.nine[:2], [1, 2])
        for words, count in ((case.nine[2:], 7), (case.carried.slots, SLOTS), (case.stream, 40)):
            self.assertEqual([bits(word, 24, 31) for word in words], [4] * count)
        for lent in (0, 1, 2, 3):
            self.assertEqual(len(Case(77, 0, mix, 1, 2, 0, lent).nine), lent)

    def test_a_shorter_stream_is_its_start(self):
        mix = Mix(2, 4, 6, 7, 12, 5, 5)
        long, short = Case(9, 1, mix, 3, 4, 50), Case(9, 1, mix, 3, 4, 20)
        self.assertEqual((short.nine, short.carried, short.stream), (long.nine, long.carried, long.stream[:20]))
        self.assertEqual(long.but(length=20).stream, short.stream)

    def test_a_load_changes_nothing_else(self):
        case, load = Case(9, 1, Mix(2, 4, 6, 7, 12, 5, 5), 3, 4, 20), Load(31, 2, 1)
        behind = case.but(load=load)
        self.assertEqual((behind.nine, behind.stream, behind.draws_left), (case.nine, case.stream, case.draws_left))
        self.assertEqual(behind.carried, case.carried._replace(load=load))
        self.assertEqual(behind.but(length=3).carried.load, load)


class Pieces(unittest.TestCase):
    def test_at_each_place(self):
        self.assertEqual(chains([], AT_EACH_PLACE), [[[], []]])
        self.assertEqual(chains([7, 8], AT_EACH_PLACE), [[[], [7, 8]], [[7], [8]], [[7, 8], []]])
        self.assertEqual(chains([7, 8], 65535), chains([7, 8], AT_EACH_PLACE))

    def test_random(self):
        self.assertEqual(chains([], 65536 + 9), [[]])
        self.assertEqual(chains([1, 2, 3, 4, 5], 0x00010002), [[[], [], [1, 2], [], [], [3], [], [4], [], [5]]])
        pieces = chains(list(range(1000)), 0xFFFF0005)[0]
        self.assertEqual(sum(pieces, []), list(range(1000)))
        self.assertEqual(set(map(len, pieces)), {0, 1, 2, 3, 4, 5})

    def test_write_one_after_another(self):
        """A piece that is refused writes nothing, and the next goes on from what is carried."""
        case = Case(1, 0, Mix(0, 0, 0, 0), 1, 1, 0)
        calls = Calls(case, [50, 51, 52, 53])
        calls.take_chain([[9], [8, 7], [6, 5], [4], []])
        self.assertEqual((calls.output, calls.at, calls.taken), ([9, 8, 7, 4], 4, 4))
        slots = (0, *case.carried.slots, 0, 0, 0, 0)
        self.assertEqual(calls.came, [0, 1, *slots, 0, 2, *slots, 1, 8, *slots, 0, 1, *slots, 0, 0, *slots])
        calls.take_chain([[3]])
        self.assertEqual((calls.output, calls.at, calls.taken), ([3, 8, 7, 4], 1, 5))

    def test_begin_with_what_the_case_carries(self):
        case = Case(1, 5, Mix(0, 0, 0, 0), 1, 1, 0, load=Load(31, 3, 0))
        calls = Calls(case, [])
        for _ in range(2):
            calls.take_chain([[1], [2]])
            self.assertEqual(calls.carried, (5, (2, *case.carried.slots[1:31], 1), Load(1, 1, 0)))
        self.assertEqual(calls.came[35:39] + calls.came[74:78], [1, 0, 2, 0, 1, 1, 1, 0])

    def test_close(self):
        self.assertEqual(closed_line(FRESH._replace(load=Load(31, 32, 1))), 'closed 0 272629825 0 0 0 0')
        self.assertEqual(closed_line(FRESH._replace(load=Load(32, 1, 1))), 'refused 10 0 272629825 1 32 1 1')


class Behind(unittest.TestCase):
    """Streams behind a load."""

    def test_loads(self):
        self.assertEqual({load for load in LOADS if load.next > 31 or load.left > 32}, set(MALFORMED))
        self.assertEqual((len(LOADS), len(MALFORMED)), (60, 36))

    def test_without_replays(self):
        for seed in range(20):
            case = without_replays(Draws(seed), Load(31, 32, 1))
            self.assertNotIn(4, [word >> 24 for word in case.nine[2:] + case.stream])

    def test_mops_that_fill_it(self):
        cases = [only_mops(Draws(seed), Load(31, 32, 0)) for seed in range(40)]
        self.assertEqual({word >> 24 for case in cases for word in case.stream}, {1})
        loads = [expand(case.carried, case.nine, case.stream, [0] * 65536)[1].load for case in cases if case.stream]
        self.assertGreater(loads.count(None), 10)

    def test_beside_10(self):
        """Each is refused by 10, or 4; without the load by 4, 7, 13 or 8."""
        answers = Counter()
        for case, room in beside_10(Draws(3)):
            calls = [expand(carried, case.nine, case.stream, [0] * room) for carried in (case.carried, case.but(load=None).carried)]
            answers[tuple(answer for answer, _ in calls)] += 1
        refused = {(4, 4): 36, (10, 7): 18, (10, 13): 18, (10, 8): 36}
        self.assertEqual(answers, {tuple(('refused', number) for number in numbers): count for numbers, count in refused.items()})


class Long(unittest.TestCase):
    def test_at_the_limit(self):
        within, over = at_the_limit(Draws(1), Mix(16, 16, 16, 0, in_nine=16), 0, 0, exact=True)
        self.assertEqual(within.goes, (within.length, NEEDED_LIMIT, 0))
        self.assertEqual(over.goes, (within.length, NEEDED_LIMIT, 8))
        self.assertEqual(over.needed, 8)

    def test_refused_behind_a_full_output(self):
        case = refused_when_full(Draws(1), Mix(8, 8, 9, 31), 1, 3, 13)
        self.assertEqual((case.needed, case.goes[2]), (13, 8))

    def test_swallowed(self):
        self.assertEqual(swallowed(Draws(1), 15, 20).goes[2], 0)


class Stored(unittest.TestCase):
    @classmethod
    def setUpClass(cls):
        """The numbers of each case, and its line in words."""
        cls.lines = [line.split() for line in (STORED / 'stdout').read_text().splitlines()]
        cls.cases = list(zip(struct.iter_unpack('<12I', (STORED / 'stdin').read_bytes()), cls.lines[1:]))

    def test_fresh(self):
        self.assertEqual(self.lines[0], ['fresh', '0', '272629825', '0', '0', '0', '0'])
        self.assertEqual(len(self.lines), len(self.cases) + 1)

    def test_answers(self):
        answers = Counter(' '.join(line[:2 if line[0] == 'refused' else 1]) for _, line in self.cases)
        self.assertEqual(set(answers), {'done', 'pieces', *(f'refused {number}' for number in (4, 7, 8, 10, 13))})
        closes = Counter(' '.join(line[-8:-6]) if line[-8] == 'refused' else line[-7] for _, line in self.cases)
        self.assertEqual(set(closes), {'closed', 'refused 10'})
        self.assertGreater(min(*answers.values(), *closes.values()), 100)

    def test_pieces_come_to_what_one_call_does(self):
        """Wherever all pieces are accepted and the joined stream is too."""
        whole = {named(case): line[1:8] for case, line in self.cases if line[0] == 'done'}
        ends = Counter()
        for case, line in self.cases:
            if line[0] == 'pieces':
                ways = chains(range(case[5]), case[11])
                accepted = int(line[1]) == sum(map(len, ways))
                ends['accepted' if accepted else 'some refused', 'one' if len(ways) == 1 else 'each place'] += 1
                ends['a load goes on'] += line[6] == '1'
                if accepted and named(case) in whole:
                    self.assertEqual([line[2], *line[4:10]], whole[named(case)])
                    ends['compared'] += 1
        self.assertGreater(min(ends.values()), 100, ends)
        self.assertGreater(ends['compared'], 3000)


def named(case):
    """A case's stream and what is carried: all but the room and how the stream comes."""
    return case[:6] + case[7:11]
