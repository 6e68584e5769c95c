"""The cases of bench access: each refusal comes in document 01's order, and each pair of things wrong at once occurs."""

import unittest
from collections import defaultdict
from itertools import combinations

from cases import cases_bench as cases
from lent_machines import AT_END, PAST, set_control
from machine import Machine
from seeded import Draws, control_from

ORDER = (4, 10, 1, 11, 12, 8)
TOO_FEW = (cases.SHORTER, cases.NONE)


def wrong_gpr(lengths, thread, register, *_):
    yield 4, lengths[0]
    yield 1, thread > 2
    yield 11, register > 63


def wrong_row(limit, lengths, bank, row):
    yield 4, any(lengths[:3])
    yield 11, bank > 1
    yield 11, row >= limit


def wrong_read(limit):
    def wrong(lengths, bank, row, *_):
        yield from wrong_row(limit, lengths, bank, row)
        yield 8, lengths[3] in TOO_FEW
    return wrong


def wrong_write(limit):
    def wrong(lengths, bank, row, *_):
        yield from wrong_row(limit, lengths, bank, row)
        yield 4, lengths[3]
    return wrong


def wrong_source(lengths, file, row, over, seed, control, bad, number):
    machine = Machine()
    control_from(Draws(control), machine)
    if number in AT_END:
        set_control(machine, *number)
    too_wide = over >> 19 != 0
    yield 4, any(lengths[:3])
    yield 10, number in PAST
    yield 10, too_wide and bad // 256 % 4096 < 2048
    yield 10, too_wide and bad // 1048576 < 2048
    yield 11, file > 1
    yield 11, row > 63
    yield 11, too_wide and bad % 256 < 16
    yield 12, file <= 1 and machine.owners[2 * file + machine.pointers[2 + file]]


WRONG = {
    cases.READ_GPR: wrong_gpr, cases.WRITE_GPR: wrong_gpr,
    cases.READ_16: wrong_read(1024), cases.READ_32: wrong_read(512),
    cases.WRITE_16: wrong_write(1024), cases.WRITE_32: wrong_write(512),
    cases.WRITE_SOURCE: wrong_source,
}
PAIRS = {
    cases.READ_GPR: {(4, 1), (4, 11), (1, 11)}, cases.WRITE_GPR: {(4, 1), (4, 11), (1, 11)},
    cases.READ_16: {(4, 11), (4, 8), (11, 8)}, cases.READ_32: {(4, 11), (4, 8), (11, 8)},
    cases.WRITE_16: {(4, 11)}, cases.WRITE_32: {(4, 11)},
    cases.WRITE_SOURCE: {(4, 10), (4, 11), (4, 12), (10, 11), (10, 12), (11, 12)},
}


class Cases(unittest.TestCase):
    @classmethod
    def setUpClass(cls):
        cls.cases = list(cases.all_cases())
        cls.lines = cases.files()[f'{cases.FOLDER}/stdout'].decode().splitlines()

    def test_enough(self):
        self.assertEqual(len(self.cases), len(self.lines))
        self.assertGreaterEqual(sum(case[0] != cases.FILL for case in self.cases), 10000)

    def test_order_of_refusals(self):
        alone, pairs = defaultdict(set), defaultdict(set)
        for (call, lengths, *numbers), line in zip(self.cases, self.lines):
            if call not in WRONG:
                continue
            parts = [lengths >> place & 3 for place in (0, 2, 4, 6)]
            faults = {number for number, wrong in WRONG[call](parts, *numbers) if wrong}
            faults = sorted(faults, key=ORDER.index)
            if faults:
                self.assertEqual(line.split()[:2], ['refused', str(faults[0])])
            else:
                self.assertIn(line.split()[0], ('value', 'done'))
            if len(faults) == 1:
                alone[call].add(faults[0])
            pairs[call].update(combinations(faults, 2))
        self.assertEqual(pairs, PAIRS)
        self.assertEqual(alone, {call: {number for pair in found for number in pair} for call, found in PAIRS.items()})

    def test_all_settings_in_both_banks(self):
        done = {(call, numbers[0], numbers[4 + numbers[0]] & 3) for (call, _, *numbers), line in zip(self.cases, self.lines)
                if call in (cases.READ_16, cases.READ_32, cases.WRITE_16, cases.WRITE_32) and line.startswith('done')}
        self.assertEqual(len(done), 4 * 2 * 4)

    def test_a_spoiled_cell_is_put_back_into_a_written_row(self):
        seed = next(seed for seed in range(100) if self.unpackers_own(seed))
        program = cases.Bench()
        bank = self.unpackers_own(seed) - 1
        place = bank * 1024 + 5 * 16 + 3
        old = program.machine.src_a[bank][5][3]
        bad = cases.NOWHERE_CELL | place << 8 | cases.NOWHERE << 20
        self.assertIn('done', program.line_of(cases.Case(cases.WRITE_SOURCE, 0, 0, 5, 9, 7, seed, bad)))
        cells = cases.seventeen(Draws(7).cell)[:16]
        cells[3] = old
        self.assertEqual(program.machine.src_a[bank][5], cells)

    def unpackers_own(self, seed):
        """One more than SrcA's bank at the unpack pointer of a seed's control part, if it is the Unpackers', else 0."""
        machine = Machine()
        control_from(Draws(seed), machine)
        bank = machine.unpack_bank(0)
        return 0 if machine.owner(0, bank) else bank + 1

    def test_shown_rows_are_whole_or_empty(self):
        shown = {(numbers[0] <= 1 and numbers[1] <= 1 and numbers[2] <= 63 and lengths & 15 == 0, line.split()[1])
                 for (call, lengths, *numbers), line in zip(self.cases, self.lines) if call == cases.SHOW}
        self.assertEqual(shown, {(True, '16'), (False, '0')})
