"""Waits: what holds, what is stalled, and what becomes of a wait."""

import unittest

import assemble as asm
from machine import fresh
from seeded import Draws
from tests.testing import bank_states, busy, still
from waits import held_by, holds
from words import offer, step

B1, B5, B6, B7 = 1 << 1, 1 << 5, 1 << 6, 1 << 7
C5, C6, C7, C8 = 1 << 5, 1 << 6, 1 << 7, 1 << 8


class StallConditions(unittest.TestCase):
    def test_each_in_every_state_of_the_banks(self):
        machine = fresh()
        for owners, pointers in bank_states():
            machine.owners, machine.pointers = owners, pointers
            matrix_a, matrix_b, unpack_a, unpack_b = pointers
            a, b = owners[:2], owners[2:]
            expected = {5: a[unpack_a] == 1, 6: b[unpack_b] == 1, 7: a[matrix_a] == 0, 8: b[matrix_b] == 0}
            for number in range(15):
                self.assertEqual(holds(machine, ('stall', 0, 1 << number)), expected.get(number, False))
            self.assertEqual(holds(machine, ('stall', 0, 0x7FFF)), any(expected.values()))
            self.assertEqual(holds(machine, ('stall', 511, C5 | C8)), expected[5] or expected[8])
            self.assertFalse(holds(machine, ('stall', 511, 0x7FFF & ~(C5 | C6 | C7 | C8))))
            self.assertFalse(holds(machine, ('stall', 511, 0)))

    def test_fresh_machine(self):
        self.assertEqual([holds(fresh(), ('stall', 0, c)) for c in (C5, C6, C7, C8)], [False, False, True, True])


class SemaphoreConditions(unittest.TestCase):
    def test_each_value_and_maximum(self):
        machine = fresh()
        for number in (0, 7):
            for value in range(16):
                for maximum in range(16):
                    machine.semaphores = [[5, 9] for _ in range(8)]
                    machine.semaphores[number] = [value, maximum]
                    zero, full = value == 0, value == maximum
                    for condition, expected in enumerate((False, zero, full, zero or full)):
                        self.assertEqual(holds(machine, ('semaphore', 0, 1 << number, condition)), expected)
                        self.assertEqual(holds(machine, ('semaphore', 0, 255, condition)), expected)
                        self.assertFalse(holds(machine, ('semaphore', 511, 255 ^ (1 << number), condition)))

    def test_above_its_maximum_is_not_equal_to_it(self):
        machine = fresh()
        machine.semaphores[0] = [3, 2]
        self.assertFalse(holds(machine, ('semaphore', 0, 1, 2)))

    def test_some_masked_value_is_enough(self):
        machine = fresh()
        machine.semaphores = [[1, 2] for _ in range(7)] + [[0, 2]]
        self.assertTrue(holds(machine, ('semaphore', 0, 0x81, 1)))
        self.assertFalse(holds(machine, ('semaphore', 0, 0x7F, 1)))

    def test_empty_mask_never_holds(self):
        for condition in range(4):
            self.assertFalse(holds(fresh(), ('semaphore', 511, 0, condition)))


class Causes(unittest.TestCase):
    """What a wait is held by (document 02, K3)."""

    def test_the_lowest_named_condition_that_holds(self):
        machine = fresh()
        for owners, pointers in bank_states():
            machine.owners, machine.pointers = owners, pointers
            matrix_a, matrix_b, unpack_a, unpack_b = pointers
            a, b = owners[:2], owners[2:]
            hold = [number for number, holding in ((5, a[unpack_a] == 1), (6, b[unpack_b] == 1), (7, a[matrix_a] == 0),
                                                   (8, b[matrix_b] == 0)) if holding]
            for named in range(16):
                expected = [number for number in hold if named >> (number - 5) & 1]
                for others in (0, 0x7E1F, 0x0010, 0x0200):
                    wait = ('stall', 0, named << 5 | others)
                    self.assertEqual(held_by(machine, wait), expected[0] if expected else None)

    def test_of_one_semaphore(self):
        machine = fresh()
        for number in range(8):
            for value, maximum, causes in ((0, 0, (None, 16, 24, 16)), (0, 1, (None, 16, None, 16)),
                                           (0, 15, (None, 16, None, 16)), (1, 1, (None, None, 24, 24)),
                                           (15, 15, (None, None, 24, 24)), (1, 0, (None,) * 4), (3, 2, (None,) * 4),
                                           (1, 2, (None,) * 4)):
                machine.semaphores = [[0, 0] for _ in range(8)]
                machine.semaphores[number] = [value, maximum]
                for condition, cause in enumerate(causes):
                    expected = None if cause is None else number + cause
                    self.assertEqual(held_by(machine, ('semaphore', 0, 1 << number, condition)), expected)

    def test_the_lowest_masked_semaphore_that_holds(self):
        # Semaphores 1 and 6 are zero, 2 and 5 full, 4 both, the others neither.
        machine = fresh()
        machine.semaphores = [[2, 5], [0, 3], [4, 4], [5, 2], [0, 0], [15, 15], [0, 15], [1, 0]]
        for mask, causes in ((255, (None, 17, 26, 17)), (0xFD, (None, 20, 26, 26)), (0xF9, (None, 20, 28, 20)),
                             (0xE9, (None, 22, 29, 29)), (0xC9, (None, 22, None, 22)), (0x89, (None, None, None, None)),
                             (0x10, (None, 20, 28, 20)), (0, (None, None, None, None))):
            for condition, cause in enumerate(causes):
                self.assertEqual(held_by(machine, ('semaphore', 511, mask, condition)), cause, (hex(mask), condition))

    def test_no_wait(self):
        self.assertIsNone(held_by(fresh(), None))

    def test_the_answer_names_it(self):
        machine = fresh()
        for wait, cause in ((('stall', B5, 0x1E0), 7), (('stall', B5, C8 | C5), 8), (('semaphore', B5, 0xF0, 1), 20),
                            (('semaphore', B5, 0x81, 2), 24), (('semaphore', B5, 0x80, 3), 23)):
            machine.waits[1] = wait
            self.assertEqual(step(machine, 1, asm.dmanop()), ('stalled', 101, cause))
        for holder in (0, 2):
            machine.mutexes[6] = holder + 1
            self.assertEqual(step(machine, 1, asm.atgetm(6)), ('stalled', 102, holder))

    def test_the_bank_is_the_matrix_pointer_s(self):
        machine = fresh()
        for bank in (0, 1):
            for unpack in (0, 1):
                machine.pointers = [1 - bank, bank, unpack, unpack]
                machine.owners = [1, 1, bank, 1 - bank]
                for word in (asm.trnspsrcb(), asm.movb2a(1, 2)):
                    self.assertEqual(step(machine, 0, word), ('stalled', 103, bank))


class Lives(unittest.TestCase):
    """What becomes of a wait. In a fresh machine C7 and C8 hold and C5 and C6 don't."""

    HOLDS = ('stall', B5, C7)
    LIFTED = ('stall', 511, C5)

    def offered(self, wait, word, thread=1, change=None):
        """The answer and the thread's wait afterwards."""
        machine = fresh()
        machine.waits = [('semaphore', 3, 3, 3), ('stall', 7, 7), ('semaphore', 9, 9, 1)]
        others = [machine.waits[each] for each in range(3) if each != thread]
        machine.waits[thread] = wait
        if change:
            change(machine)
        answer = step(machine, thread, word)
        self.assertEqual([machine.waits[each] for each in range(3) if each != thread], others)
        return answer, machine.waits[thread]

    def test_a_holding_wait_stalls_and_is_kept(self):
        self.assertEqual(self.offered(self.HOLDS, asm.dmanop()), (('stalled', 101, 7), self.HOLDS))

    def test_a_holding_wait_is_kept_by_a_passing_word_it_does_not_block(self):
        for word in (asm.nop(), asm.setc16(1, 1), asm.sempost(0)):
            self.assertEqual(self.offered(self.HOLDS, word), (('passed',), self.HOLDS))

    def test_a_lifted_wait_is_dropped_by_a_passing_word(self):
        for word in (asm.nop(), asm.dmanop(), asm.setc16(1, 1), asm.zeroacc()):
            for lifted in (self.LIFTED, ('stall', 0, C5), ('semaphore', 511, 0, 3), ('semaphore', 511, 255, 0)):
                self.assertEqual(self.offered(lifted, word), (('passed',), None))

    def test_a_lifted_wait_is_kept_by_a_stalled_word(self):
        def take(machine):
            machine.mutexes[2] = 1
        self.assertEqual(self.offered(self.LIFTED, asm.atgetm(2), change=take), (('stalled', 102, 0), self.LIFTED))
        self.assertEqual(self.offered(self.LIFTED, asm.trnspsrcb()), (('stalled', 103, 0), self.LIFTED))

    def test_a_lifted_wait_is_kept_by_a_refused_word(self):
        self.assertEqual(self.offered(self.LIFTED, asm.atgetm(8)), (('refused', 3), self.LIFTED))
        self.assertEqual(self.offered(self.LIFTED, 0xFF000000), (('refused', 2), self.LIFTED))

    def test_stallwait_and_semwait_set_theirs(self):
        for old in (None, self.HOLDS, self.LIFTED, ('semaphore', 0, 1, 1)):
            self.assertEqual(self.offered(old, asm.stallwait(0x1FF, 0x7FFF)), (('passed',), ('stall', 511, 32767)))
            self.assertEqual(self.offered(old, asm.stallwait(0, 0)), (('passed',), ('stall', 0, 0)))
            self.assertEqual(self.offered(old, asm.semwait(0x101, 0x81, 2)),
                             (('passed',), ('semaphore', 0x101, 0x81, 2)))
            self.assertEqual(self.offered(old, asm.semwait(0x1FF, 0xFF, 3)), (('passed',), ('semaphore', 511, 255, 3)))

    def test_they_are_blocked_as_other_words(self):
        wait = ('stall', B1, C8)
        for word in (asm.stallwait(1, 1), asm.semwait(1, 1, 1), asm.seminit(1, 1, 1), asm.atgetm(0)):
            self.assertEqual(self.offered(wait, word), (('stalled', 101, 8), wait))

    def test_bits_without_a_word_block_nothing(self):
        wait = ('stall', 511 & ~(B1 | B5 | B6 | B7), C7)
        for word in (asm.nop(), asm.dmanop(), asm.atgetm(0), asm.zeroacc(), asm.wrcfg()):
            self.assertEqual(self.offered(wait, word), (('passed',), wait))

    def test_semaphore_wait_stalls(self):
        wait = ('semaphore', B7, 1, 1)
        self.assertEqual(self.offered(wait, asm.wrcfg()), (('stalled', 101, 16), wait))
        self.assertEqual(self.offered(wait, asm.dmanop()), (('passed',), wait))

        def post(machine):
            machine.semaphores[0] = [1, 0]
        self.assertEqual(self.offered(wait, asm.wrcfg(), change=post), (('passed',), None))

    def test_judged_before_the_word_s_own_effect(self):
        # The wait holds as the word finds it, so it is kept, though the word lifts it.
        wait = ('semaphore', 0, 1, 1)
        self.assertEqual(self.offered(wait, asm.sempost(1)), (('passed',), wait))
        wait = ('stall', 0, C7)

        def give(machine):
            machine.owners, machine.pointers = [0, 1, 0, 0], [0, 0, 0, 0]
        self.assertEqual(self.offered(wait, asm.cleardvalid(a=1), change=give), (('passed',), wait))
        # The wait is lifted as the word finds it, so it is dropped, though the word makes it hold again.
        def posted(machine):
            machine.semaphores[0] = [1, 5]
        self.assertEqual(self.offered(('semaphore', 511, 1, 1), asm.semget(1), change=posted), (('passed',), None))

        def matrix(machine):
            machine.owners = [1, 0, 0, 0]
        self.assertEqual(self.offered(('stall', 511, C7), asm.cleardvalid(a=1), change=matrix), (('passed',), None))

    def test_a_wait_stalls_only_its_own_thread(self):
        machine = fresh()
        machine.waits[0] = ('stall', 511, C7)
        self.assertEqual(offer(machine, 0, asm.dmanop()), ('stalled', 101, 7))
        self.assertEqual(offer(machine, 1, asm.dmanop()), ('passed',))
        self.assertEqual(offer(machine, 2, asm.dmanop()), ('passed',))
        self.assertEqual(machine.waits, [('stall', 511, C7), None, None])

    def test_another_thread_lifts_it(self):
        machine = fresh()
        offer(machine, 0, asm.stallwait(B6, C8))
        self.assertEqual(offer(machine, 0, asm.trnspsrcb()), ('stalled', 101, 8))
        offer(machine, 1, asm.setdvalid(b=1))
        self.assertEqual(offer(machine, 0, asm.trnspsrcb()), ('passed',))
        self.assertEqual(machine.waits[0], None)


class Order(unittest.TestCase):
    """Refusals 2 and 3, then the wait, the mutex, SrcB's owner."""

    def test_stalls(self):
        machine = fresh()
        machine.mutexes[0] = 2
        machine.waits[0] = ('stall', B1 | B6, C7)
        self.assertEqual(step(machine, 0, asm.atgetm(0)), ('stalled', 101, 7))
        self.assertEqual(step(machine, 0, asm.trnspsrcb()), ('stalled', 101, 7))
        self.assertEqual(step(machine, 0, asm.movb2a()), ('stalled', 101, 7))
        machine.waits[0] = ('stall', 511, C5)
        self.assertEqual(step(machine, 0, asm.atgetm(0)), ('stalled', 102, 1))
        self.assertEqual(step(machine, 0, asm.trnspsrcb()), ('stalled', 103, 0))
        self.assertEqual(step(machine, 0, asm.movb2a()), ('stalled', 103, 0))
        machine.waits[0] = ('stall', B5, C7)
        self.assertEqual(step(machine, 0, asm.atgetm(0)), ('stalled', 102, 1))
        self.assertEqual(step(machine, 0, asm.trnspsrcb()), ('stalled', 103, 0))

    def test_refusals_go_before_stalls(self):
        machine = fresh()
        machine.waits[0] = ('stall', 511, C7)
        for word, number in ((asm.movb2a(addr_mod=1), 2), (asm.setdmareg(signal_mode=1), 2), (0xFF000000, 2),
                             (asm.atgetm(8), 3), (asm.wrcfg(index=256), 3), (asm.rdcfg(gpr=64), 3),
                             (asm.zeroacc(0, 1024), 3), (asm.zeroacc(0, 1024, addr_mod=1), 2)):
            self.assertEqual(step(machine, 0, word), ('refused', number))
        machine.waits[0] = None
        self.assertEqual(step(machine, 0, asm.movb2a(addr_mod=1)), ('refused', 2))

    def test_refusals_of_a_step(self):
        def bad_length(machine):
            machine.config[0].pop()

        def malformed(machine):
            machine.src_a[0][0][0] = 1 << 19

        def answer(thread, word, *spoils):
            machine = still(41)
            for spoil in spoils:
                spoil(machine)
            before = machine.copy()
            result = step(machine, thread, word)
            self.assertEqual(machine, before)
            return result
        bad = 0xFF000000
        self.assertEqual(answer(3, bad, bad_length, malformed), ('refused', 4))
        self.assertEqual(answer(3, bad, malformed), ('refused', 10))
        self.assertEqual(answer(3, bad), ('refused', 1))
        self.assertEqual(answer(0xFFFFFFFF, asm.nop()), ('refused', 1))
        self.assertEqual(answer(2, bad), ('refused', 2))
        self.assertEqual(answer(0, asm.nop(), bad_length), ('refused', 4))
        self.assertEqual(answer(0, asm.nop(), malformed), ('refused', 10))


class NothingChanges(unittest.TestCase):
    def test_on_a_stall_or_refusal(self):
        draws = Draws(42)
        opcodes = (0x02, 0x16, 0x0B, 0x10, 0x36, 0x57, 0x45, 0x58, 0x5A, 0x60, *range(0xA0, 0xA7), *range(0xB0, 0xB7))
        seen = set()
        for seed in range(20):
            start = busy(seed)
            machine = start.copy()
            for _ in range(60):
                word = opcodes[draws.draw() % len(opcodes)] << 24 | (draws.word() & 0xFFFFFF)
                # Clears signal mode, AddrMod and high bits of numbers in some, so that more words pass.
                word &= (0xFFFFFFFF, 0xFF383F07, 0xFF380007)[draws.draw() % 3]
                answer = offer(machine, draws.draw() % 3, word)
                seen.add(answer[:2])
                if answer == ('passed',):
                    machine = start.copy()
                else:
                    self.assertEqual(machine, start)
        self.assertEqual(sorted(seen), [('passed',), ('refused', 2), ('refused', 3),
                                        ('stalled', 101), ('stalled', 102), ('stalled', 103)])
