"""`trace`: a line a turn, then the lines of `resume`. Expected lines are by hand."""

import unittest
from pathlib import Path

import assemble as asm
from image import SIZE, image_of
from machine import MATRIX, fresh
from program import resume, trace
from tests.testing import busy, still

EXAMPLES = Path(__file__).resolve().parent.parent.parent / 'examples'
NOP, STALL, BAD = 0x02000000, 0x16000000, 0xFF000000  # STALL stalls by 103 0 on a fresh machine

# Of each row of the table a word with all fields zero, and its name.
ROWS = (
    ('02000000', 'NOP'), ('0B000000', 'MOVB2A'), ('10000000', 'ZEROACC'), ('16000000', 'TRNSPSRCB'), ('36000000', 'CLEARDVALID'),
    ('45000000', 'SETDMAREG'), ('57000000', 'SETDVALID'), ('58000000', 'ADDDMAREG'), ('5A000000', 'MULDMAREG'),
    ('60000000', 'DMANOP'), ('A0000000', 'ATGETM'), ('A1000000', 'ATRELM'), ('A2000000', 'STALLWAIT'), ('A3000000', 'SEMINIT'),
    ('A4000000', 'SEMPOST'), ('A5000000', 'SEMGET'), ('A6000000', 'SEMWAIT'), ('B0000000', 'WRCFG'), ('B1000000', 'RDCFG'),
    ('B2000000', 'SETC16'), ('B3000000', 'RMWCIB0'), ('B4000000', 'RMWCIB1'), ('B5000000', 'RMWCIB2'), ('B6000000', 'RMWCIB3'),
)


class Printed(unittest.TestCase):
    """What all tests of the lines share."""

    def prints(self, streams, expected, machine=None, budget=100, positions=(0, 0, 0), following=0):
        data = asm.resume_input(image_of(machine or fresh()), streams, budget, positions, following)
        self.assertEqual(trace(data).decode().splitlines(), [line.strip() for line in expected.strip().splitlines()])
        self.assertTrue(trace(data).endswith(b'\n'))


class Lines(Printed):
    def test_the_four_lines(self):
        self.prints([[0x45123408, 0xFF000000], [0x16000000], []], '''
            1 t0 45123408 SETDMAREG passed
            2 t1 16000000 TRNSPSRCB stalled 103 0
            3 t2 idle
            4 t0 FF000000 ? refused 2
            end refused 2
            turns 4
            t0 1/2
            t1 0/1
            t2 0/0
            next 0''')

    def test_every_name(self):
        machine = fresh()
        machine.owners[2] = MATRIX  # so that words on SrcB pass
        self.assertEqual(len(ROWS), 24)
        told = ''.join(f'{3 * at + 1} t0 {word} {name} passed\n{3 * at + 2} t1 idle\n{3 * at + 3} t2 idle\n'
                       for at, (word, name) in enumerate(ROWS))
        ends = '73 t0 FF000000 ? refused 2\nend refused 2\nturns 73\nt0 24/25\nt1 0/0\nt2 0/0\nnext 0'
        self.prints([[*(int(word, 16) for word, _ in ROWS), BAD], [], []], told + ends, machine)

    def test_opcodes_in_no_row(self):
        known = {word[:2] for word, _ in ROWS}
        others = [f'{opcode:02X}' for opcode in range(256) if f'{opcode:02X}' not in known]
        self.assertEqual(len(others), 232)
        for opcode in others:
            for below in ('000000', 'FFFFFF', '00A00F'):
                self.refuses(opcode + below, '?', 2)

    def refuses(self, word, name, number):
        """The last of three turns, after two that are idle."""
        self.prints([[], [], [int(word, 16)]], f'''
            1 t0 idle
            2 t1 idle
            3 t2 {word} {name} refused {number}
            end refused {number}
            turns 3
            t0 0/0
            t1 0/0
            t2 0/1
            next 2''')

    def test_refused_words_have_their_names(self):
        for word, name, number in (
                ('45000080', 'SETDMAREG', 2), ('45FFFFFF', 'SETDMAREG', 2), ('0B004000', 'MOVB2A', 2), ('0B010000', 'MOVB2A', 2),
                ('10008000', 'ZEROACC', 2), ('10004400', 'ZEROACC', 2), ('10000400', 'ZEROACC', 3), ('10100002', 'ZEROACC', 3),
                ('10040200', 'ZEROACC', 3), ('A0000009', 'ATGETM', 3), ('A0008000', 'ATGETM', 3), ('A1000008', 'ATRELM', 3),
                ('B0000100', 'WRCFG', 3), ('B0008400', 'WRCFG', 3), ('B1000100', 'RDCFG', 3), ('B1400000', 'RDCFG', 3)):
            self.refuses(word, name, number)

    def test_digits_of_a_word(self):
        self.prints([[0x0200000A], [0xB6ABCDEF], [0x02FFFFFF]], '''
            1 t0 0200000A NOP passed
            2 t1 B6ABCDEF RMWCIB3 passed
            3 t2 02FFFFFF NOP passed
            end finished
            turns 3
            t0 1/1
            t1 1/1
            t2 1/1
            next 0''')


class Stalls(Printed):
    def stalls(self, machine, word, name, told):
        """Thread 1 is stuck at a word, the other threads are done."""
        self.prints([[], [int(word, 16)], []], f'''
            1 t1 {word} {name} stalled {told}
            2 t2 idle
            3 t0 idle
            end stuck
            turns 3
            t0 0/0
            t1 0/1 waits {told}
            t2 0/0
            next 1''', machine, following=1)

    def test_by_a_stall_condition(self):
        for owners, condition in (([1, 0, 0, 0], 5), ([0, 0, 1, 0], 6), ([0, 0, 0, 0], 7), ([0, 0, 0, 0], 8)):
            machine = fresh()
            machine.owners, machine.waits[1] = owners, ('stall', 1 << 5, 1 << condition)
            self.stalls(machine, '60000000', 'DMANOP', f'101 {condition}')

    def test_by_a_semaphore(self):
        for number in range(8):
            machine = fresh()
            machine.waits[1] = ('semaphore', 1 << 7, 1 << number, 1)
            self.stalls(machine, 'B2050009', 'SETC16', f'101 {16 + number}')
            machine.waits[1] = ('semaphore', 1 << 7, 1 << number, 2)
            self.stalls(machine, 'B2050009', 'SETC16', f'101 {24 + number}')

    def test_by_a_mutex(self):
        for holder in (0, 2):
            machine = fresh()
            machine.mutexes[6] = holder + 1
            self.stalls(machine, 'A0000006', 'ATGETM', f'102 {holder}')

    def test_by_a_bank(self):
        for bank in (0, 1):
            machine = fresh()
            machine.pointers[1] = bank
            self.stalls(machine, '16000000', 'TRNSPSRCB', f'103 {bank}')
            self.stalls(machine, '0B000000', 'MOVB2A', f'103 {bank}')

    def test_one_that_is_over_in_time(self):
        # Thread 0 waits until SrcB's bank is Matrix's; thread 1 hands it over.
        self.prints([[0xA2200100, 0x16000000], [NOP, 0x57000002], []], '''
            1 t0 A2200100 STALLWAIT passed
            2 t1 02000000 NOP passed
            3 t2 idle
            4 t0 16000000 TRNSPSRCB stalled 101 8
            5 t1 57000002 SETDVALID passed
            6 t2 idle
            7 t0 16000000 TRNSPSRCB passed
            end finished
            turns 7
            t0 2/2
            t1 2/2
            t2 0/0
            next 1''')

    def test_the_cause_may_change(self):
        # Semaphore 2 is full, and zero once thread 1 has taken it.
        self.prints([[0xA3110010, 0xA6100013, 0x60000000], [NOP, NOP, NOP, 0xA5000010], []], '''
            1 t0 A3110010 SEMINIT passed
            2 t1 02000000 NOP passed
            3 t2 idle
            4 t0 A6100013 SEMWAIT passed
            5 t1 02000000 NOP passed
            6 t2 idle
            7 t0 60000000 DMANOP stalled 101 26
            8 t1 02000000 NOP passed
            9 t2 idle
            10 t0 60000000 DMANOP stalled 101 26
            11 t1 A5000010 SEMGET passed
            12 t2 idle
            13 t0 60000000 DMANOP stalled 101 18
            14 t1 idle
            end stuck
            turns 14
            t0 2/3 waits 101 18
            t1 4/4
            t2 0/0
            next 2''')

    def test_the_example(self):
        told = '''
            1 t0 A0000000 ATGETM passed
            2 t1 A0000001 ATGETM passed
            3 t2 A6110005 SEMWAIT passed
            4 t0 45123408 SETDMAREG passed
            5 t1 02000000 NOP passed
            6 t2 A5000004 SEMGET stalled 101 16
            7 t0 A4000004 SEMPOST passed
            8 t1 A0000000 ATGETM stalled 102 0
            9 t2 A5000004 SEMGET passed
            10 t0 A0000001 ATGETM stalled 102 1
            11 t1 A0000000 ATGETM stalled 102 0
            12 t2 45567808 SETDMAREG passed
            13 t0 A0000001 ATGETM stalled 102 1
            14 t1 A0000000 ATGETM stalled 102 0
            15 t2 idle
            end stuck
            turns 15
            t0 3/6 waits 102 1
            t1 2/5 waits 102 0
            t2 3/3
            next 0'''
        self.assertEqual(trace((EXAMPLES / 'saved_deadlock.bin').read_bytes()).decode().split('\n'),
                         [line.strip() for line in told.split('\n')[1:]] + [''])


class Ends(Printed):
    def test_finished_with_nothing_to_do(self):
        for budget in (0, 1, 1000000):
            for following in range(3):
                self.prints([[BAD], [], [BAD]], f'''
                    end finished
                    turns 0
                    t0 1/1
                    t1 0/0
                    t2 1/1
                    next {following}''', budget=budget, positions=(1, 0, 1), following=following)

    def test_budget(self):
        words = [[NOP, NOP], [STALL], []]
        turns = ['1 t0 02000000 NOP passed', '2 t1 16000000 TRNSPSRCB stalled 103 0', '3 t2 idle', '4 t0 02000000 NOP passed',
                 '5 t1 16000000 TRNSPSRCB stalled 103 0', '6 t2 idle', '7 t0 idle']
        for budget, position in enumerate((0, 1, 1, 1, 2, 2, 2)):
            self.prints(words, '\n'.join((*turns[:budget], 'end budget', f'turns {budget}', f't0 {position}/2', 't1 0/1', 't2 0/0',
                                          f'next {budget % 3}')), budget=budget)
        for budget in (7, 8, 1000000):  # stuck goes before budget
            self.prints(words, '\n'.join((*turns, 'end stuck', 'turns 7', 't0 2/2', 't1 0/1 waits 103 0', 't2 0/0', 'next 1')),
                        budget=budget)

    def test_from_the_middle(self):
        self.prints([[BAD, 0x45123408], [BAD, BAD, NOP], [STALL, 0xB2010001, NOP]], '''
            1 t2 B2010001 SETC16 passed
            2 t0 45123408 SETDMAREG passed
            3 t1 02000000 NOP passed
            4 t2 02000000 NOP passed
            end finished
            turns 4
            t0 2/2
            t1 3/3
            t2 3/3
            next 0''', positions=(1, 2, 1), following=2)

    def test_refused_in_the_middle(self):
        self.prints([[BAD, NOP, 0xA0000009], [BAD, BAD, STALL], [STALL]], '''
            1 t2 idle
            2 t0 02000000 NOP passed
            3 t1 16000000 TRNSPSRCB stalled 103 0
            4 t2 idle
            5 t0 A0000009 ATGETM refused 3
            end refused 3
            turns 5
            t0 2/3
            t1 2/3
            t2 1/1
            next 0''', positions=(1, 2, 1), following=2)

    def test_refused_in_the_last_turn_of_the_budget(self):
        self.prints([[BAD], [], []], '''
            1 t0 FF000000 ? refused 2
            end refused 2
            turns 1
            t0 0/1
            t1 0/0
            t2 0/0
            next 0''', budget=1)

    def test_rejected_calls(self):
        for positions, following, budget, number in (
                ((2, 0, 0), 0, 1, 5), ((0, 1, 0), 0, 1, 5), ((0, 0, 0), 3, 1, 5), ((0, 0, 0), 0, 1000001, 6),
                ((0, 0, 0), 0, 0xFFFFFFFF, 6), ((0, 0, 0xFFFFFFFF), 0xFFFFFFFF, 1000001, 5)):
            self.prints([[NOP], [], []], f'rejected {number}', still(81), budget, positions, following)

    def test_many_turns(self):
        """Turn numbers go on past the words of a stream, and a run of full streams has no line more than its turns."""
        data = asm.resume_input(image_of(fresh()), [[NOP] * 65536, [], []], 1000000, (60000, 0, 0), 0)
        told = trace(data).decode().splitlines()
        self.assertEqual(told[:3], ['1 t0 02000000 NOP passed', '2 t1 idle', '3 t2 idle'])
        self.assertEqual(told[16603:], ['16604 t1 idle', '16605 t2 idle', '16606 t0 02000000 NOP passed', 'end finished',
                                        'turns 16606', 't0 65536/65536', 't1 0/0', 't2 0/0', 'next 1'])


class BadInputs(unittest.TestCase):
    def test_bad_images(self):
        image = bytearray(image_of(still(81)))
        self.assertEqual(trace(b''), b'bad image at 0\n')
        self.assertEqual(trace(bytes(image[:SIZE - 1])), b'bad image at 48470\n')
        image[390] = 4
        self.assertEqual(trace(bytes(image)), b'bad image at 390\n')
        self.assertEqual(trace(asm.resume_input(bytes(image), [[], [], []], 1000001) + b'\0'), b'bad image at 390\n')

    def test_bad_records(self):
        data = asm.resume_input(image_of(fresh()), [[NOP], [NOP], [NOP]], 100)
        for length, place in ((0, 0), (9, 0), (10, 10), (19, 10), (20, 20), (30, 30), (39, 30), (40, 40), (61, 40)):
            self.assertEqual(trace(data[:SIZE + length]), f'bad record at {SIZE + place}\n'.encode())
        self.assertEqual(trace(data + b'\0'), f'bad record at {SIZE + 62}\n'.encode())
        over = asm.resume_input(image_of(fresh()), [[NOP] * 65537, [], []], 100)
        self.assertEqual(trace(over), f'bad record at {SIZE}\n'.encode())


class BesideResume(unittest.TestCase):
    def test_the_last_lines_are_those_of_resume(self):
        streams = [[asm.setdmareg(3, 0xC000), asm.atgetm(2)], [asm.sempost(255), asm.wrcfg(3, 200, 1)], [BAD, NOP]]
        for positions, following, budget in (((0, 0, 1), 0, 50), ((1, 0, 2), 1, 2), ((0, 0, 0), 2, 9), ((2, 2, 2), 1, 9),
                                             ((0, 0, 2), 2, 0), ((0, 0, 3), 0, 1), ((0, 0, 0), 0, 1000001)):
            for seed in range(80, 84):
                data = asm.resume_input(image_of(busy(seed)), streams, budget, positions, following)
                told, six = trace(data), resume(data)[:-SIZE]
                self.assertTrue(told.endswith(six))
                turns = told[:-len(six)].count(b'\n')
                self.assertEqual(f'turns {turns}\n'.encode() in six, not six.startswith(b'rejected'))
