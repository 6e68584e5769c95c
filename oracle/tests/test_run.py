"""Runs: ends and their order, turns, cursors, refused calls."""

import unittest

import assemble as asm
import seeded
from likely import likely_word
from machine import fresh
from run import START, Cursor, Run, call_refusal, end_before_turn, last_stall, offers, run, turn
from tests.testing import busy, still
from words import offer

NOP = asm.nop()
STALL = asm.trnspsrcb()  # stalls by 103 on a fresh machine
BAD = 0xFF000000
PASSED, IDLE = ('passed',), ('idle',)
STALLED = ('stalled', 103, 0)  # what STALL answers there


class Ends(unittest.TestCase):
    def ran(self, streams, cursor=START, budget=100, machine=None):
        return run(machine or fresh(), streams, cursor, budget)

    def test_finished(self):
        result = self.ran([[NOP, NOP], [NOP], []])
        self.assertEqual(result, Run(('finished',), 4, Cursor((2, 1, 0), 1), [PASSED, PASSED, IDLE, PASSED]))

    def test_empty_streams_finish_at_once(self):
        for budget in (0, 1, 1000000):
            self.assertEqual(self.ran([[], [], []], budget=budget), Run(('finished',), 0, START, []))

    def test_used_up_streams_finish_at_once_and_keep_the_cursor(self):
        cursor = Cursor((2, 0, 1), 2)
        self.assertEqual(self.ran([[BAD, BAD], [], [BAD]], cursor, 5), Run(('finished',), 0, cursor, []))

    def test_stuck_after_three_turns_without_a_passed_word(self):
        result = self.ran([[STALL], [STALL], [STALL]])
        self.assertEqual(result, Run(('stuck',), 3, START, [STALLED] * 3, (STALLED[1:],) * 3))
        result = self.ran([[STALL], [], []])
        self.assertEqual(result, Run(('stuck',), 3, START, [STALLED, IDLE, IDLE], (STALLED[1:], None, None)))

    def test_idle_turns_count_towards_stuck(self):
        result = self.ran([[NOP], [STALL], []])
        self.assertEqual(result.trace, [PASSED, STALLED, IDLE, IDLE])
        self.assertEqual((result.answer, result.turns, result.cursor), (('stuck',), 4, Cursor((1, 0, 0), 1)))

    def test_a_passed_word_starts_the_count_afresh(self):
        # Two turns without a passed word, then a passed one, over and over.
        result = self.ran([[], [], [NOP] * 5 + [STALL]])
        self.assertEqual(result.trace, [IDLE, IDLE, PASSED] * 5 + [IDLE, IDLE, STALLED])
        self.assertEqual((result.answer, result.turns), (('stuck',), 18))

    def test_budget(self):
        result = self.ran([[NOP] * 9, [NOP] * 9, []], budget=5)
        self.assertEqual(result, Run(('budget',), 5, Cursor((2, 2, 0), 2), [PASSED, PASSED, IDLE, PASSED, PASSED]))

    def test_budget_0(self):
        self.assertEqual(self.ran([[BAD], [], []], budget=0), Run(('budget',), 0, START, []))

    def test_finished_goes_before_budget(self):
        self.assertEqual(self.ran([[NOP], [], []], budget=1).answer, ('finished',))
        self.assertEqual(self.ran([[NOP], [NOP], []], budget=1).answer, ('budget',))

    def test_stuck_goes_before_budget(self):
        self.assertEqual(self.ran([[STALL], [], []], budget=3).answer, ('stuck',))
        self.assertEqual(self.ran([[STALL], [], []], budget=2).answer, ('budget',))

    def test_three_in_a_row_are_of_this_run_alone(self):
        machine, streams = fresh(), [[STALL], [], []]
        first = self.ran(streams, budget=2, machine=machine)
        self.assertEqual((first.answer, first.cursor), (('budget',), Cursor((0, 0, 0), 2)))
        second = self.ran(streams, first.cursor, machine=machine)
        self.assertEqual((second.answer, second.turns), (('stuck',), 3))

    def test_finished_goes_before_stuck(self):
        # After three turns without a passed word some stream still has a word, so both never apply at once in a
        # run; the end function is asked directly.
        trace = [IDLE] * 3
        self.assertEqual(end_before_turn([[], [], []], START, 3, trace), ('finished',))
        self.assertEqual(end_before_turn([[NOP], [], []], START, 3, trace), ('stuck',))
        self.assertEqual(end_before_turn([[NOP], [], []], START, 3, [PASSED] + [IDLE] * 2), ('budget',))
        self.assertIsNone(end_before_turn([[NOP], [], []], START, 4, [PASSED] + [IDLE] * 2))

    def test_refused_word(self):
        result = self.ran([[NOP, BAD], [NOP], []])
        self.assertEqual(result, Run(('refused', 2), 4, Cursor((1, 1, 0), 0), [PASSED, PASSED, IDLE, ('refused', 2)]))
        result = self.ran([[], [asm.atgetm(8)], []])
        self.assertEqual(result, Run(('refused', 3), 2, Cursor((0, 0, 0), 1), [IDLE, ('refused', 3)]))

    def test_refused_word_in_the_last_turn_of_the_budget(self):
        self.assertEqual(self.ran([[BAD], [], []], budget=1).answer, ('refused', 2))

    def test_refused_word_after_two_stalls(self):
        self.assertEqual(self.ran([[STALL], [STALL], [BAD]]).answer, ('refused', 2))

    def test_refused_word_keeps_the_work_of_earlier_turns(self):
        machine = fresh()
        self.ran([[asm.setdmareg(0, 5), BAD], [asm.atgetm(1)], []], machine=machine)
        expected = fresh()
        expected.gprs[0][0] = 5
        expected.mutexes[1] = 2
        self.assertEqual(machine, expected)

    def test_cursor_not_at_start(self):
        machine = fresh()
        streams = [[BAD, asm.setdmareg(0, 1)], [BAD, BAD, asm.setdmareg(0, 2)], [asm.setdmareg(0, 3)]]
        result = self.ran(streams, Cursor((1, 2, 0), 2), machine=machine)
        self.assertEqual(result, Run(('finished',), 3, Cursor((2, 3, 1), 2), [PASSED] * 3))
        self.assertEqual([gprs[0] for gprs in machine.gprs], [1, 2, 3])

    def test_threads_take_turns(self):
        # Thread 1 finds the mutex taken by thread 0 in its first turn and free in its second.
        streams = [[asm.atgetm(0), asm.atrelm(0)], [asm.atgetm(0)], [NOP]]
        result = self.ran(streams)
        self.assertEqual(result.trace, [PASSED, ('stalled', 102, 0), PASSED, PASSED, PASSED])
        self.assertEqual(result.answer, ('finished',))

    def test_waits_across_turns(self):
        # Thread 0 waits until thread 1 gives SrcB's bank to Matrix, then transposes.
        streams = [[asm.stallwait(1 << 6, 1 << 8), STALL], [NOP, asm.setdvalid(b=1)], []]
        machine = fresh()
        result = self.ran(streams, machine=machine)
        self.assertEqual(result.trace, [PASSED, PASSED, IDLE, ('stalled', 101, 8), PASSED, IDLE, PASSED])
        self.assertEqual(machine.waits, [None, None, None])

    def test_longest_budget_and_streams(self):
        result = self.ran([[NOP] * 65536, [], []], Cursor((65530, 0, 0), 0), 1000000)
        self.assertEqual((result.answer, result.turns, result.cursor), (('finished',), 16, Cursor((65536, 0, 0), 1)))


class LastStalls(unittest.TestCase):
    """None at a run's start; a stall sets it, a pass clears it, idle and refused turns leave it (document 02, K3)."""

    def stalls(self, streams, budget=100, cursor=START):
        result = run(fresh(), streams, cursor, budget)
        return result.answer[0], result.stalls

    def test_over_a_run(self):
        # Thread 0 waits for mutex 0, then for SrcB's bank 0, then by a wait until semaphore 2 is neither full nor zero; thread 1
        # lets it, and is refused at the end.
        streams = [[asm.atgetm(0), STALL, asm.seminit(4, 1, 1), asm.semwait(1 << 5, 4, 3), asm.dmanop()],
                   [asm.atgetm(0), NOP, asm.atrelm(0), NOP, NOP, asm.setdvalid(b=1), NOP, NOP, NOP, NOP, asm.semget(4), NOP,
                    asm.seminit(4, 1, 2), NOP, BAD], []]
        after = [self.stalls(streams, budget, Cursor((0, 0, 0), 1))[1] for budget in range(45)]
        self.assertEqual({stalls[1:] for stalls in after}, {(None, None)})
        changes = [(turns, stalls[0]) for turns, stalls in enumerate(after) if turns and stalls != after[turns - 1]]
        self.assertEqual(changes, [(3, (102, 1)), (9, None), (12, (103, 0)), (18, None),
                                   (27, (101, 26)), (33, (101, 18)), (39, None)])

    def test_at_each_end(self):
        waits, held = (103, 0), (102, 0)
        self.assertEqual(self.stalls([[NOP], [STALL], [NOP, asm.setdvalid(b=1)]]), ('finished', (None, None, None)))
        self.assertEqual(self.stalls([[asm.atgetm(1)], [asm.atgetm(1)], [STALL]]), ('stuck', (None, held, waits)))
        self.assertEqual(self.stalls([[NOP] * 9, [STALL], []], 5), ('budget', (None, waits, None)))
        self.assertEqual(self.stalls([[STALL], [STALL], [BAD]]), ('refused', (waits, waits, None)))
        self.assertEqual(self.stalls([[STALL], [STALL], [STALL]], 1000001), ('rejected', (None, None, None)))

    def test_a_run_starts_without(self):
        streams = [[STALL], [STALL], []]
        self.assertEqual(self.stalls(streams, 0), ('budget', (None, None, None)))
        self.assertEqual(self.stalls(streams, 1), ('budget', ((103, 0), None, None)))
        # A run that goes on where that one ended knows nothing of its stalls.
        self.assertEqual(self.stalls(streams, 1, Cursor((0, 0, 0), 1)), ('budget', (None, (103, 0), None)))
        self.assertEqual(self.stalls(streams, 9, Cursor((1, 0, 0), 0)), ('stuck', (None, (103, 0), None)))

    def test_after_one_turn(self):
        for before in (None, (101, 5), (102, 0)):
            for outcome, after in ((PASSED, None), (IDLE, before), (('refused', 2), before), (('stalled', 101, 24), (101, 24))):
                self.assertEqual(last_stall(before, outcome), after)

    def test_a_thread_of_a_stuck_run_has_one_if_it_has_words(self):
        draws, stuck = seeded.Draws(53), 0
        for _ in range(150):
            streams = [[likely_word(draws) for _ in range(draws.draw() % 8)] for _ in range(3)]
            machine = fresh()
            result = run(machine, streams, START, 1000)
            if result.answer == ('stuck',):
                stuck += 1
                for thread, (position, stream) in enumerate(zip(result.cursor.positions, streams)):
                    expected = offer(machine, thread, stream[position])[1:] if position < len(stream) else None
                    self.assertEqual(result.stalls[thread], expected)
        self.assertGreater(stuck, 40)


class Calls(unittest.TestCase):
    def rejects(self, number, machine=None, streams=((), (), ()), cursor=START, budget=1):
        machine = machine or still(50)
        before = machine.copy()
        result = run(machine, [list(stream) for stream in streams], cursor, budget)
        self.assertEqual(result, Run(('rejected', number), 0, cursor, []))
        self.assertEqual(machine, before)

    def accepts(self, streams, cursor=START, budget=1):
        self.assertIsNone(call_refusal(fresh(), streams, cursor, budget))

    def malformed(self):
        machine = still(51)
        machine.pointers[0] = 2
        return machine

    def short(self):
        machine = self.malformed()
        machine.gprs.pop()
        return machine

    def test_4(self):
        long = [NOP] * 65537
        for streams in ((long, [], []), ([], long, []), ([], [], long)):
            self.rejects(4, streams=streams)
        self.accepts([[NOP] * 65536] * 3)
        self.rejects(4, machine=self.short())

    def test_10(self):
        self.rejects(10, machine=self.malformed())

    def test_5(self):
        streams = [[NOP], [], [NOP] * 3]
        self.accepts(streams, Cursor((1, 0, 3), 2))
        for cursor in (Cursor((2, 0, 0), 0), Cursor((0, 1, 0), 0), Cursor((0, 0, 4), 0), Cursor((0, 0, 0), 3),
                       Cursor((0xFFFFFFFF, 0, 0), 0), Cursor((0, 0, 0), 0xFFFFFFFF)):
            self.rejects(5, streams=streams, cursor=cursor)
        # Also where all streams are used up.
        self.rejects(5, streams=([], [], []), cursor=Cursor((0, 0, 0), 3))

    def test_6(self):
        self.accepts([[], [], []], budget=1000000)
        self.rejects(6, budget=1000001)
        self.rejects(6, budget=0xFFFFFFFF)

    def test_order(self):
        long, off = ([NOP] * 65537, [], []), Cursor((0, 1, 0), 0)
        self.rejects(4, self.malformed(), long, off, 1000001)
        self.rejects(4, self.short(), ([], [], []), off, 1000001)
        self.rejects(10, self.malformed(), ([], [], []), off, 1000001)
        self.rejects(5, None, ([], [], []), off, 1000001)
        self.rejects(6, None, ([BAD], [], []), START, 1000001)


class Turns(unittest.TestCase):
    def test_a_run_is_its_turns(self):
        """Each turn gets the machine and cursor that the last one left."""
        draws = seeded.Draws(52)
        opcodes = (0x02, 0x16, 0x0B, 0x36, 0x57, 0x45, 0x58, 0x60, 0xA0, 0xA1, 0xA3, 0xA4, 0xA5, 0xA6, 0xB2, 0xB3)
        ends = []
        for seed in range(40):
            streams = [[opcodes[draws.draw() % 16] << 24 | (draws.word() & 0xFC2303) for _ in range(draws.draw() % 9)]
                       for _ in range(3)]
            cursor = Cursor((0, 0, len(streams[2]) // 2), draws.draw() % 3)
            machine, other = busy(seed % 10), busy(seed % 10)
            result = run(machine, streams, cursor, 20)
            ends.append(result.answer[0])
            positions, following, trace = list(cursor.positions), cursor.next, []
            for outcome in result.trace:
                if positions[following] < len(streams[following]):
                    expected = offer(other, following, streams[following][positions[following]])
                else:
                    expected = IDLE
                self.assertEqual(outcome, expected)
                trace.append(outcome)
                if outcome[0] == 'refused':
                    break
                positions[following] += outcome == PASSED
                following = 0 if following == 2 else following + 1
            self.assertEqual((trace, Cursor(tuple(positions), following)), (result.trace, result.cursor))
            self.assertEqual(result.turns, len(trace))
            self.assertEqual(machine, other)
        self.assertEqual(sorted(set(ends)), ['budget', 'finished', 'refused', 'stuck'])

    def test_next_thread(self):
        for following, after in ((0, 1), (1, 2), (2, 0)):
            outcome, cursor = turn(fresh(), [[NOP]] * 3, Cursor((0, 0, 0), following))
            positions = [0, 0, 0]
            positions[following] = 1
            self.assertEqual((outcome, cursor), (PASSED, Cursor(tuple(positions), after)))
            outcome, cursor = turn(fresh(), [[BAD]] * 3, Cursor((0, 0, 0), following))
            self.assertEqual((outcome, cursor), (('refused', 2), Cursor((0, 0, 0), following)))
            outcome, cursor = turn(fresh(), [[STALL]] * 3, Cursor((0, 0, 0), following))
            self.assertEqual((outcome, cursor), (STALLED, Cursor((0, 0, 0), after)))
            outcome, cursor = turn(fresh(), [[]] * 3, Cursor((0, 0, 0), following))
            self.assertEqual((outcome, cursor), (IDLE, Cursor((0, 0, 0), after)))


class Offers(unittest.TestCase):
    def test_hand_worked(self):
        streams = [[BAD, 10, 11], [20], [BAD, 30, 31]]
        trace = [STALLED, PASSED, PASSED, PASSED, PASSED, IDLE, ('refused', 2)]
        self.assertEqual(list(offers(streams, Cursor((1, 0, 1), 2), trace)),
                         [(2, 30), (0, 10), (1, 20), (2, 30), (0, 11), (1, None), (2, 31)])
        self.assertEqual(list(offers(streams, Cursor((1, 0, 1), 2), [])), [])

    def test_each_is_what_the_turn_offers(self):
        draws, refused = seeded.Draws(54), 0
        for seed in range(20):
            streams = [[draws.word() if draws.draw() % 20 == 0 else likely_word(draws) for _ in range(draws.draw() % 12)]
                       for _ in range(3)]
            cursor = Cursor(tuple(len(stream) // 3 for stream in streams), draws.draw() % 3)
            machine, other = busy(seed % 10), busy(seed % 10)
            result = run(machine, streams, cursor, 30)
            refused += result.answer[0] == 'refused'
            for (thread, word), outcome in zip(offers(streams, cursor, result.trace), result.trace, strict=True):
                self.assertEqual(outcome, IDLE if word is None else offer(other, thread, word))
            self.assertEqual(machine, other)
        self.assertGreater(refused, 0)
