"""Words on the source files and on Dest's valid marks."""

import unittest

import assemble as asm
from machine import fresh
from tests.test_destmap import by_digits_16, by_digits_32
from tests.testing import bank_states, still
from words import offer, step


def ready(seed, matrix_a=0, matrix_b=0):
    """A machine whose SrcB matrix bank is Matrix's; the other banks are Unpackers'."""
    machine = still(seed)
    machine.pointers[0], machine.pointers[1] = matrix_a, matrix_b
    machine.owners = [0, 0, 0, 0]
    machine.owners[2 + matrix_b] = 1
    return machine


class Transpose(unittest.TestCase):
    def test_places(self):
        for bank in (0, 1):
            start = ready(30, matrix_b=bank)
            machine, expected = start.copy(), start.copy()
            self.assertEqual(step(machine, 0, asm.trnspsrcb()), ('passed',))
            for row in range(16):
                for column in range(16):
                    expected.src_b[bank][16 + row][column] = start.src_b[bank][16 + column][row]
            self.assertEqual(machine, expected)
            self.assertNotEqual(machine, start)
            step(machine, 0, asm.trnspsrcb())
            self.assertEqual(machine, start)

    def test_hand_worked_cells(self):
        machine = ready(31)
        machine.src_b[0] = [[100 * row + column for column in range(16)] for row in range(64)]
        step(machine, 2, asm.trnspsrcb())
        bank = machine.src_b[0]
        self.assertEqual((bank[16][0], bank[16][15], bank[31][0], bank[31][15], bank[17][2]),
                         (1600, 3100, 1615, 3115, 1801))
        self.assertEqual((bank[15][3], bank[32][3]), (1503, 3203))

    def test_waits_for_matrix(self):
        start, machine = still(32), still(32)
        for owners, pointers in bank_states():
            machine.owners, machine.pointers = owners[:], pointers[:]
            start.owners, start.pointers = owners, pointers
            answer = offer(machine, 0, asm.trnspsrcb())
            if owners[2 + pointers[1]] == 1:
                self.assertEqual(answer, ('passed',))
                offer(machine, 0, asm.trnspsrcb())  # undoes it
            else:
                self.assertEqual(answer, ('stalled', 103, pointers[1]))
            self.assertEqual(machine, start)


class Move(unittest.TestCase):
    def moved(self, start, word, rows):
        """The word copies exactly these (A row, B row) pairs between the matrix banks."""
        machine, expected = start.copy(), start.copy()
        self.assertEqual(offer(machine, 1, word), ('passed',))
        to, source = expected.src_a[start.pointers[0]], start.src_b[start.pointers[1]]
        for a_row, b_row in rows:
            to[a_row] = source[b_row][:]
        self.assertEqual(machine, expected)

    def test_one_row(self):
        for bank_a in (0, 1):
            for bank_b in (0, 1):
                start = ready(33, bank_a, bank_b)
                for a_row, b_row in ((0, 0), (0, 63), (63, 0), (63, 63), (17, 46), (1, 1)):
                    self.moved(start, asm.movb2a(a_row, b_row), [(a_row, b_row)])

    def test_four_rows_rounded_down(self):
        start = ready(34, 1, 0)
        for a_row, first_a in ((0, 0), (3, 0), (4, 4), (62, 60), (63, 60)):
            for b_row, first_b in ((0, 0), (1, 0), (30, 28), (31, 28), (61, 60)):
                self.moved(start, asm.movb2a(a_row, b_row, four=1),
                           [(first_a + row, first_b + row) for row in range(4)])

    def test_waits_for_src_b_and_not_for_src_a(self):
        start, machine = still(35), still(35)
        for owners, pointers in bank_states():
            machine.owners, machine.pointers = owners[:], pointers[:]
            start.owners, start.pointers = owners, pointers
            answer = offer(machine, 0, asm.movb2a(5, 6))
            if owners[2 + pointers[1]] == 1:
                self.assertEqual(answer, ('passed',))
                self.assertEqual(machine.src_a[pointers[0]][5], start.src_b[pointers[1]][6])
                machine.src_a[pointers[0]][5] = start.src_a[pointers[0]][5][:]
            else:
                self.assertEqual(answer, ('stalled', 103, pointers[1]))
            self.assertEqual(machine, start)

    def test_rows_are_copied_not_shared(self):
        machine = ready(36)
        offer(machine, 0, asm.movb2a(5, 16))
        before = machine.src_a[0][5][:]
        offer(machine, 0, asm.trnspsrcb())
        self.assertEqual(machine.src_a[0][5], before)


class Valid(unittest.TestCase):
    """Owners A0 A1 B0 B1; pointers matrix A, matrix B, unpack A, unpack B."""

    machine = fresh()

    def after(self, word, owners, pointers):
        machine = self.machine
        machine.owners, machine.pointers = owners[:], pointers[:]
        self.assertEqual(offer(machine, 0, word), ('passed',))
        return machine.owners, machine.pointers

    def test_set(self):
        for owners, pointers in bank_states():
            for flags in range(4):
                to_owners, to_pointers = owners[:], pointers[:]
                if flags in (1, 3):
                    to_owners[[0, 1][pointers[2]]] = 1
                    to_pointers[2] = 1 - pointers[2]
                if flags in (2, 3):
                    to_owners[[2, 3][pointers[3]]] = 1
                    to_pointers[3] = 1 - pointers[3]
                word = asm.setdvalid(a=int(flags in (1, 3)), b=int(flags in (2, 3)))
                self.assertEqual(self.after(word, owners, pointers), (to_owners, to_pointers))

    def test_clear(self):
        for owners, pointers in bank_states():
            for a in (0, 1):
                for b in (0, 1):
                    for keep in (0, 1):
                        to_owners, to_pointers = owners[:], pointers[:]
                        if a:
                            to_owners[[0, 1][pointers[0]]] = 0
                            if not keep:
                                to_pointers[0] = 1 - pointers[0]
                        if b:
                            to_owners[[2, 3][pointers[1]]] = 0
                            if not keep:
                                to_pointers[1] = 1 - pointers[1]
                        self.assertEqual(self.after(asm.cleardvalid(a, b, keep), owners, pointers),
                                         (to_owners, to_pointers))

    def test_reset_ignores_the_other_flags(self):
        for owners, pointers in bank_states():
            for a in (0, 1):
                for b in (0, 1):
                    for keep in (0, 1):
                        self.assertEqual(self.after(asm.cleardvalid(a, b, keep, reset=1), owners, pointers),
                                         ([0] * 4, [0] * 4))

    def test_hand_worked(self):
        self.assertEqual(self.after(0x57000003, [0, 0, 0, 0], [0, 0, 0, 1]), ([1, 0, 0, 1], [0, 0, 1, 0]))
        self.assertEqual(self.after(0x36400000, [1, 1, 1, 1], [1, 0, 0, 0]), ([1, 0, 1, 1], [0, 0, 0, 0]))
        self.assertEqual(self.after(0x36800002, [1, 1, 1, 1], [1, 0, 0, 0]), ([1, 1, 0, 1], [1, 0, 0, 0]))
        self.assertEqual(self.after(0x36C00003, [1, 1, 1, 1], [1, 1, 1, 1]), ([0, 0, 0, 0], [0, 0, 0, 0]))

    def test_the_rest_stays(self):
        for word in (asm.setdvalid(1, 1), asm.cleardvalid(1, 1), asm.cleardvalid(reset=1)):
            start = still(37)
            machine = start.copy()
            self.assertEqual(step(machine, 2, word), ('passed',))
            machine.owners, machine.pointers = start.owners[:], start.pointers[:]
            self.assertEqual(machine, start)


class Zeroacc(unittest.TestCase):
    """Only marks are cleared, through the maps of the thread's Config bank."""

    def cleared(self, word, flags=0, thread=0, bank=0):
        """The storage rows whose marks the word clears, all others being set; nothing else changes."""
        machine = still(38)
        machine.marks = [True] * 1024
        machine.settings[thread][0] = bank
        machine.config[bank][255] = flags
        machine.config[1 - bank][255] = flags ^ 3
        expected = machine.copy()
        self.assertEqual(offer(machine, thread, word), ('passed',))
        rows = [row for row, mark in enumerate(machine.marks) if not mark]
        expected.marks = machine.marks
        self.assertEqual(machine, expected)
        return rows

    def expected(self, rows, wide, flags):
        remap, swizzle = flags & 1, flags >> 1
        if wide:
            return sorted(place for row in rows for place in by_digits_32(row, remap, swizzle))
        return sorted(by_digits_16(row, remap) for row in rows)

    def check(self, word, rows, wide):
        for flags in range(4):
            for bank in (0, 1):
                self.assertEqual(self.cleared(word, flags, 1, bank), self.expected(rows, wide, flags))

    def test_one_row(self):
        for place in (0, 8, 16, 32, 57, 511, 512, 1023):
            self.check(asm.zeroacc(0, place), [place], wide=0)
        for place in (0, 4, 8, 16, 20, 32, 300, 511):
            self.check(asm.zeroacc(0, place, wide=1), [place], wide=1)

    def test_sixteen_rows(self):
        for place in (0, 1, 2, 62, 63):
            self.check(asm.zeroacc(1, place), range(16 * place, 16 * place + 16), wide=0)
        for place in (0, 1, 30, 31):
            self.check(asm.zeroacc(1, place, wide=1), range(16 * place, 16 * place + 16), wide=1)

    def test_half(self):
        for place in (0, 1):
            self.check(asm.zeroacc(2, place), range(512 * place, 512 * place + 512), wide=0)
            self.check(asm.zeroacc(2, place, wide=1), range(256 * place, 256 * place + 256), wide=1)

    def test_all(self):
        for place in (0, 5, 16383):
            for wide in (0, 1):
                self.assertEqual(self.cleared(asm.zeroacc(3, place, wide)), list(range(1024)))

    def test_hand_worked(self):
        self.assertEqual(self.cleared(asm.zeroacc(0, 8), flags=1), [32])
        self.assertEqual(self.cleared(asm.zeroacc(0, 511, wide=1)), [1015, 1023])
        self.assertEqual(self.cleared(asm.zeroacc(0, 16, wide=1), flags=2), [48, 56])
        self.assertEqual(self.cleared(asm.zeroacc(1, 63)), list(range(1008, 1024)))
        self.assertEqual(self.cleared(asm.zeroacc(2, 1, wide=1)), list(range(512, 1024)))

    def test_marks_only_go_away(self):
        machine = still(39)
        before = machine.marks[:]
        self.assertEqual(step(machine, 0, asm.zeroacc(2, 1)), ('passed',))
        self.assertEqual(machine.marks, before[:512] + [False] * 512)
