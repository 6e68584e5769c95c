"""Bench access: GPRs, Dest rows in both views, source rows, and the refusals in their order."""

import unittest

import bench
from machine import fresh
from tests.test_destmap import by_digits_16, by_digits_32
from tests.testing import bank_states, busy

CELLS_16 = [(0x8000 + 257 * column) & 0xFFFF for column in range(16)]
CELLS_32 = [0x80010203 + 0x01020304 * column & 0xFFFFFFFF for column in range(16)]
CELLS_19 = [0x7FFFF - 0x1111 * column for column in range(16)]


class Bench(unittest.TestCase):
    def refuses(self, number, access, *arguments, spoil=lambda machine: None):
        machine = busy(70)
        spoil(machine)
        before = machine.copy()
        self.assertEqual(access(machine, *arguments), ('refused', number))
        self.assertEqual(machine, before)


class Gprs(Bench):
    def test_any_register(self):
        for thread in range(3):
            for register in range(64):
                machine = busy(70)
                self.assertEqual(bench.read_gpr(machine, thread, register), ('read', machine.gprs[thread][register]))
                self.assertEqual(machine, busy(70))
        for thread, register in ((0, 0), (1, 5), (2, 63)):
            for value in (0, 0xFFFFFFFF, 0x12345678):
                machine, expected = busy(70), busy(70)
                self.assertEqual(bench.write_gpr(machine, thread, register, value), ('written',))
                expected.gprs[thread][register] = value
                self.assertEqual(machine, expected)
                self.assertEqual(bench.read_gpr(machine, thread, register), ('read', value))

    def test_refusals(self):
        for access, rest in ((bench.read_gpr, ()), (bench.write_gpr, (5,))):
            for thread in (3, 0xFFFFFFFF):
                self.refuses(1, access, thread, 0, *rest)
                self.refuses(1, access, thread, 64, *rest)
            for register in (64, 65, 0xFFFFFFFF):
                self.refuses(11, access, 2, register, *rest)

            def short(machine):
                machine.gprs[2].pop()
            self.refuses(4, access, 3, 64, *rest, spoil=short)

            def malformed(machine):
                machine.gprs[0][0] = 1 << 32
            self.refuses(10, access, 3, 64, *rest, spoil=malformed)

    def test_only_the_gprs_are_lent(self):
        machine = busy(70)
        machine.dest.pop()
        machine.mutexes[0] = 9
        self.assertEqual(bench.read_gpr(machine, 0, 0), ('read', machine.gprs[0][0]))


class Dest(Bench):
    def machine(self, flags, bank):
        machine = busy(71)
        machine.config[bank][255] = flags
        machine.config[1 - bank][255] = flags ^ 3
        return machine

    def test_read_16(self):
        for flags in range(4):
            for bank in (0, 1):
                machine = self.machine(flags, bank)
                before = machine.copy()
                for row in (0, 1, 8, 16, 32, 63, 500, 1016, 1023):
                    place = by_digits_16(row, flags & 1)
                    for mark, cells in ((True, before.dest[place]), (False, [0] * 16)):
                        machine.marks[place] = mark
                        self.assertEqual(bench.read_dest_16(machine, bank, row), ('read', cells))
                machine.marks = before.marks
                self.assertEqual(machine, before)

    def test_read_32(self):
        for flags in range(4):
            for bank in (0, 1):
                machine = self.machine(flags, bank)
                for row in (0, 1, 4, 8, 16, 20, 32, 63, 300, 511):
                    high, low = by_digits_32(row, flags & 1, flags >> 1)
                    for high_mark in (False, True):
                        for low_mark in (False, True):
                            machine.marks[high], machine.marks[low] = high_mark, low_mark
                            cells = [(machine.dest[high][column] if high_mark else 0) << 16
                                     | (machine.dest[low][column] if low_mark else 0) for column in range(16)]
                            self.assertEqual(bench.read_dest_32(machine, bank, row), ('read', cells))

    def test_write_16(self):
        for flags in range(4):
            for bank in (0, 1):
                for row in (0, 8, 16, 32, 1023):
                    machine, expected = self.machine(flags, bank), self.machine(flags, bank)
                    place = by_digits_16(row, flags & 1)
                    machine.marks[place] = False
                    self.assertEqual(bench.write_dest_16(machine, bank, row, CELLS_16), ('written',))
                    expected.dest[place] = CELLS_16
                    expected.marks[place] = True
                    self.assertEqual(machine, expected)
                    self.assertEqual(bench.read_dest_16(machine, bank, row), ('read', CELLS_16))

    def test_write_32(self):
        for flags in range(4):
            for bank in (0, 1):
                for row in (0, 4, 8, 16, 32, 511):
                    machine, expected = self.machine(flags, bank), self.machine(flags, bank)
                    high, low = by_digits_32(row, flags & 1, flags >> 1)
                    machine.marks[high] = machine.marks[low] = False
                    self.assertEqual(bench.write_dest_32(machine, bank, row, CELLS_32), ('written',))
                    expected.dest[high] = [cell >> 16 for cell in CELLS_32]
                    expected.dest[low] = [cell & 0xFFFF for cell in CELLS_32]
                    expected.marks[high] = expected.marks[low] = True
                    self.assertEqual(machine, expected)
                    self.assertEqual(bench.read_dest_32(machine, bank, row), ('read', CELLS_32))

    def test_written_rows_are_not_shared(self):
        machine, cells = fresh(), CELLS_16[:]
        bench.write_dest_16(machine, 0, 0, cells)
        cells[0] = 1
        self.assertEqual(machine.dest[0], CELLS_16)
        read = bench.read_dest_16(machine, 0, 0)[1]
        read[0] = 1
        self.assertEqual(machine.dest[0], CELLS_16)

    def test_one_view_through_the_other(self):
        machine = fresh()
        bench.write_dest_32(machine, 0, 511, CELLS_32)
        self.assertEqual(bench.read_dest_16(machine, 0, 1015), ('read', [cell >> 16 for cell in CELLS_32]))
        self.assertEqual(bench.read_dest_16(machine, 0, 1023), ('read', [cell & 0xFFFF for cell in CELLS_32]))

    def test_refusals(self):
        def short(machine):
            machine.marks.pop()
            machine.dest[0][0] = 1 << 16

        def malformed(machine):
            machine.dest[0][0] = 1 << 16
        for access, limit, rest in ((bench.read_dest_16, 1024, ()), (bench.read_dest_32, 512, ()),
                                    (bench.write_dest_16, 1024, (CELLS_16,)),
                                    (bench.write_dest_32, 512, (CELLS_32,))):
            self.assertNotEqual(access(busy(70), 1, limit - 1, *rest)[0], 'refused')
            for row in (limit, limit + 1, 0xFFFFFFFF):
                self.refuses(11, access, 0, row, *rest)
            for bank in (2, 0xFFFFFFFF):
                self.refuses(11, access, bank, 0, *rest)
            self.refuses(4, access, 2, limit, *rest, spoil=short)
            self.refuses(10, access, 2, limit, *rest, spoil=malformed)

    def test_number_of_cells(self):
        for access in (bench.write_dest_16, bench.write_dest_32):
            for cells in ([], [0] * 15, [0] * 17):
                self.refuses(4, access, 0, 0, cells)
                self.refuses(4, access, 2, 1024, cells, spoil=lambda machine: machine.dest[0].__setitem__(0, 1 << 16))

    def test_only_config_dest_and_marks_are_lent(self):
        machine = busy(70)
        machine.gprs.pop()
        machine.mutexes[0] = 9
        self.assertEqual(bench.write_dest_16(machine, 0, 0, CELLS_16), ('written',))


class Sources(Bench):
    def test_bank_at_the_unpack_pointer_if_unpackers_own_it(self):
        for owners, pointers in bank_states():
            for file in (0, 1):
                machine = fresh()
                machine.owners, machine.pointers = owners, pointers
                expected = machine.copy()
                bank = pointers[2 + file]
                answer = bench.write_source(machine, file, 63, CELLS_19)
                if owners[2 * file + bank]:
                    self.assertEqual(answer, ('refused', 12))
                else:
                    self.assertEqual(answer, ('written',))
                    (expected.src_b if file else expected.src_a)[bank][63] = CELLS_19[:]
                self.assertEqual(machine, expected)

    def test_rows(self):
        machine = fresh()
        for file in (0, 1):
            for row in (0, 1, 62, 63):
                cells = [file * 1000 + row + column for column in range(16)]
                self.assertEqual(bench.write_source(machine, file, row, cells), ('written',))
                self.assertEqual(bench.show_row(machine.src_a, machine.src_b, file, 0, row), cells)

    def test_refusals(self):
        def nobody(machine):
            machine.owners = [1, 1, 1, 1]

        def malformed(machine):
            nobody(machine)
            machine.src_a[0][0][0] = 1 << 19

        def bad_control(machine):
            nobody(machine)
            machine.pointers[0] = 2

        def short(machine):
            malformed(machine)
            machine.src_b.pop()
        wide = CELLS_19[:15] + [1 << 19]
        for file, row, cells in ((2, 0, CELLS_19), (0xFFFFFFFF, 0, CELLS_19), (0, 64, CELLS_19),
                                 (1, 0xFFFFFFFF, CELLS_19), (0, 0, wide), (1, 0, [1 << 31] + CELLS_19[1:])):
            for spoil in (lambda machine: None, nobody):
                self.refuses(11, bench.write_source, file, row, cells, spoil=spoil)
            self.refuses(10, bench.write_source, file, row, cells, spoil=malformed)
            self.refuses(10, bench.write_source, file, row, cells, spoil=bad_control)
            self.refuses(4, bench.write_source, file, row, cells, spoil=short)
        self.refuses(12, bench.write_source, 0, 0, CELLS_19, spoil=nobody)
        for cells in ([], CELLS_19[:15], CELLS_19 + [0]):
            self.refuses(4, bench.write_source, 2, 64, cells, spoil=malformed)

    def test_written_row_is_not_shared(self):
        machine, cells = fresh(), CELLS_19[:]
        bench.write_source(machine, 0, 0, cells)
        cells[0] = 1
        self.assertEqual(machine.src_a[0][0], CELLS_19)


class Shown(unittest.TestCase):
    def test_is_the_row_itself(self):
        machine = busy(73)
        for file, store in enumerate((machine.src_a, machine.src_b)):
            for bank in (0, 1):
                for row in (0, 31, 63):
                    self.assertIs(bench.show_row(machine.src_a, machine.src_b, file, bank, row), store[bank][row])

    def test_empty_out_of_range(self):
        machine = busy(73)
        for file, bank, row in ((2, 0, 0), (0, 2, 0), (0, 0, 64), (0xFFFFFFFF, 0, 0), (1, 0xFFFFFFFF, 0),
                                (1, 1, 0xFFFFFFFF), (2, 2, 64)):
            self.assertEqual(bench.show_row(machine.src_a, machine.src_b, file, bank, row), [])

    def test_empty_if_either_store_has_a_wrong_length(self):
        for spoil in (lambda store: store.pop(), lambda store: store[1].pop(), lambda store: store[0][63].pop(),
                      lambda store: store.append(store[0]), lambda store: store[0][0].append(0),
                      lambda store: store.clear()):
            for spoiled in (0, 1):
                machine = busy(73)
                spoil((machine.src_a, machine.src_b)[spoiled])
                for file in (0, 1):
                    self.assertEqual(bench.show_row(machine.src_a, machine.src_b, file, 0, 5), [])

    def test_never_10(self):
        machine = fresh()
        machine.src_a[0][0][0] = 0xFFFFFFFF
        self.assertEqual(bench.show_row(machine.src_a, machine.src_b, 0, 0, 0), [0xFFFFFFFF] + [0] * 15)
