"""The programs: printed lines, bad records and their offsets, `resume` and `expand`."""

import subprocess
import sys
import unittest
from pathlib import Path

import assemble as asm
from expander import FRESH, Carried, Load
from image import SIZE, image_of
from machine import fresh
from program import emulate, expand, resume, trace
from run import Cursor, run
from tests.testing import busy, still

NOP, STALL, BAD = asm.nop(), asm.trnspsrcb(), 0xFF000000
PLAIN = asm.emulate_input([[NOP], [NOP], [NOP]], 100)  # records at 0, 10, 20 and 30; 40 bytes
EXAMPLES = Path(__file__).resolve().parent.parent.parent / 'examples'


class Emulate(unittest.TestCase):
    def prints(self, streams, budget, *lines):
        self.assertEqual(emulate(asm.emulate_input(streams, budget)), ''.join(f'{line}\n' for line in lines).encode())

    def test_lines(self):
        self.prints([[NOP] * 2, [NOP], []], 9, 'end finished', 'turns 4', 't0 2/2', 't1 1/1', 't2 0/0')
        self.prints([[NOP] * 2, [NOP], []], 2, 'end budget', 'turns 2', 't0 1/2', 't1 1/1', 't2 0/0')
        self.prints([[STALL], [NOP], [NOP]], 9, 'end stuck', 'turns 6', 't0 0/1 waits 103 0', 't1 1/1', 't2 1/1')
        self.prints([[NOP], [NOP], [BAD]], 9, 'end refused 2', 'turns 3', 't0 1/1', 't1 1/1', 't2 0/1')
        self.prints([[asm.atgetm(8)], [], []], 9, 'end refused 3', 'turns 1', 't0 0/1', 't1 0/0', 't2 0/0')
        self.prints([[], [], []], 0, 'end finished', 'turns 0', 't0 0/0', 't1 0/0', 't2 0/0')
        self.prints([[NOP] * 1024, [NOP] * 1024, [NOP] * 1024], 1000000,
                    'end finished', 'turns 3072', 't0 1024/1024', 't1 1024/1024', 't2 1024/1024')

    def test_runs_a_fresh_machine(self):
        # SrcB's bank is Unpackers', the mutex free, semaphores zero.
        self.prints([[asm.stallwait(511, 1 << 5 | 1 << 6), asm.dmanop()], [asm.atgetm(0)], []], 9,
                    'end finished', 'turns 4', 't0 2/2', 't1 1/1', 't2 0/0')

    def test_what_stuck_threads_wait_for(self):
        """Document 02, K3: each line by hand."""
        end, none = ('end stuck',), ('t1 0/0', 't2 0/0')
        self.prints([[0x45123408], [0x16000000], []], 100, *end, 'turns 4', 't0 1/1', 't1 0/1 waits 103 0', 't2 0/0')
        self.prints([[0xA6100091, 0x60000000], [], []], 100, *end, 'turns 4', 't0 1/2 waits 101 18', *none)
        self.prints([[0xA6100092, 0x60000000], [], []], 100, *end, 'turns 4', 't0 1/2 waits 101 26', *none)
        self.prints([[0xA3220010, 0xA6100093, 0x60000000], [], []], 100, *end, 'turns 7', 't0 2/3 waits 101 26', *none)
        self.prints([[0xA22001A0, 0x16000000], [], []], 100, *end, 'turns 4', 't0 1/2 waits 101 7', *none)
        self.prints([[0x57000001, 0x57000001, 0xA2200120, 0x16000000], [], []], 100,
                    *end, 'turns 10', 't0 3/4 waits 101 5', *none)
        self.prints([[], [0x57000002, 0x36800000, 0x16000000], []], 100,
                    *end, 'turns 8', 't0 0/0', 't1 2/3 waits 103 1', 't2 0/0')
        self.assertEqual(emulate((EXAMPLES / 'deadlock.bin').read_bytes()),
                         b'end stuck\nturns 8\nt0 2/3 waits 102 1\nt1 2/3 waits 102 0\nt2 0/0\n')

    def test_only_stuck_threads_are_told_of(self):
        self.prints([[0x45123408], [0x16000000], []], 3, 'end budget', 'turns 3', 't0 1/1', 't1 0/1', 't2 0/0')
        self.prints([[0xA6100091, 0x60000000], [], []], 3, 'end budget', 'turns 3', 't0 1/2', 't1 0/0', 't2 0/0')
        self.prints([[0x57000001, 0x57000001, 0xA2200120, 0x16000000], [], []], 3,
                    'end budget', 'turns 3', 't0 1/4', 't1 0/0', 't2 0/0')
        self.prints([[STALL], [STALL], []], 2, 'end budget', 'turns 2', 't0 0/1', 't1 0/1', 't2 0/0')
        self.prints([[STALL], [STALL], [BAD]], 9, 'end refused 2', 'turns 3', 't0 0/1', 't1 0/1', 't2 0/1')

    def bad(self, data, offset):
        self.assertEqual(emulate(data), f'bad record at {offset}\n'.encode())

    def test_cut_anywhere(self):
        for length in range(40):
            self.bad(PLAIN[:length], length // 10 * 10)

    def test_extra_bytes(self):
        self.bad(PLAIN + b'\0', 40)
        self.bad(PLAIN + PLAIN, 40)

    def test_kinds_and_order(self):
        records = [PLAIN[at:at + 10] for at in range(0, 40, 10)]
        self.bad(b''.join(records[place] for place in (1, 0, 2, 3)), 0)
        self.bad(b''.join(records[place] for place in (0, 2, 1, 3)), 10)
        self.bad(b''.join(records[place] for place in (0, 1, 3, 2)), 20)
        self.bad(b''.join(records[place] for place in (0, 0, 1, 2, 3)), 10)
        self.bad(b''.join(records[place] for place in (0, 1, 2, 3, 3)), 40)
        for place in range(4):
            for at in (4, 5):
                data = bytearray(PLAIN)
                data[10 * place + at] ^= 128
                self.bad(bytes(data), 10 * place)

    def test_lengths(self):
        for length in (1, 2, 3, 5, 4095, 4097, 4100):
            self.bad(asm.record(32, bytes(length)) + PLAIN[10:], 0)
            self.bad(PLAIN[:10] + asm.record(33, bytes(length)) + PLAIN[20:], 10)
            self.bad(PLAIN[:20] + asm.record(34, bytes(length)) + PLAIN[30:], 20)
        self.bad(asm.number_record(32, *[NOP] * 1025) + PLAIN[10:], 0)
        self.assertTrue(emulate(asm.number_record(32, *[NOP] * 1024) + PLAIN[10:]).startswith(b'end budget'))
        for length in (0, 1, 3, 5, 8):
            self.bad(PLAIN[:30] + asm.record(35, bytes(length)), 30)

    def test_budget_limit(self):
        streams = [[NOP], [], []]
        self.assertTrue(emulate(asm.emulate_input(streams, 1000000)).startswith(b'end finished'))
        self.bad(asm.emulate_input(streams, 1000001), 22)
        self.bad(asm.emulate_input(streams, 0xFFFFFFFF), 22)

    def test_the_first_bad_record_is_reported(self):
        self.bad(asm.emulate_input([[NOP], [NOP] * 1025, []], 1000001) + b'\0', 10)

    def test_a_length_past_the_end(self):
        self.bad(b'\xFF\xFF\xFF\xFF' + PLAIN[4:], 0)
        self.bad(PLAIN[:30] + b'\xFF\xFF\xFF\xFF' + PLAIN[34:], 30)


class Resume(unittest.TestCase):
    def test_what_stuck_threads_wait_for(self):
        machine = fresh()
        machine.mutexes[5], machine.semaphores[7], machine.owners[2:], machine.pointers[1] = 3, [9, 9], [1, 0], 1
        machine.waits[1] = ('semaphore', 1 << 7, 128, 3)
        streams = [[NOP, asm.atgetm(5)], [asm.setc16(1, 1)], [STALL, NOP]]
        for budget, lines in (
                (100, b'end stuck\nturns 3\nt0 1/2 waits 102 2\nt1 0/1 waits 101 31\nt2 0/2 waits 103 1\nnext 2\n'),
                (2, b'end budget\nturns 2\nt0 1/2\nt1 0/1\nt2 0/2\nnext 1\n')):
            data = asm.resume_input(image_of(machine), streams, budget, (1, 0, 0), 2)
            self.assertEqual(resume(data), lines + image_of(machine))

    def test_same_as_a_run(self):
        streams = [[asm.setdmareg(3, 0xC000), asm.atgetm(2)], [asm.sempost(255), asm.wrcfg(3, 200, 1)], [BAD, NOP]]
        for cursor, budget in ((Cursor((0, 0, 1), 0), 50), (Cursor((1, 0, 2), 1), 2), (Cursor((0, 0, 0), 2), 9),
                               (Cursor((2, 2, 2), 1), 9), (Cursor((0, 0, 2), 2), 0)):
            machine = busy(80)
            data = asm.resume_input(image_of(machine), streams, budget, cursor.positions, cursor.next)
            result = run(machine, streams, cursor, budget)
            lines = ['end ' + ' '.join(str(part) for part in result.answer), f'turns {result.turns}']
            lines += [f't{thread} {result.cursor.positions[thread]}/2' for thread in range(3)]
            lines += [f'next {result.cursor.next}']
            self.assertEqual(resume(data), '\n'.join(lines).encode() + b'\n' + image_of(machine))

    def test_hand_worked(self):
        machine, after = fresh(), fresh()
        after.gprs[1][4] = 0x1234
        data = asm.resume_input(image_of(machine), [[], [NOP, 0x45123408], []], 7, (0, 1, 0), 1)
        self.assertEqual(resume(data), b'end finished\nturns 1\nt0 0/0\nt1 2/2\nt2 0/0\nnext 2\n' + image_of(after))

    def test_rejected_calls(self):
        image = image_of(still(81))
        streams = [[NOP], [], []]
        for positions, following, budget, number in (
                ((2, 0, 0), 0, 1, 5), ((0, 1, 0), 0, 1, 5), ((0, 0, 0), 3, 1, 5), ((0, 0, 0), 0, 1000001, 6),
                ((0, 0, 0), 0, 0xFFFFFFFF, 6), ((0, 0, 0xFFFFFFFF), 0xFFFFFFFF, 1000001, 5)):
            self.assertEqual(resume(asm.resume_input(image, streams, budget, positions, following)),
                             f'rejected {number}\n'.encode() + image)

    def test_bad_images(self):
        image = bytearray(image_of(still(81)))
        self.assertEqual(resume(b''), b'bad image at 0\n')
        self.assertEqual(resume(bytes(image[:SIZE - 1])), b'bad image at 48470\n')
        image[390] = 4
        self.assertEqual(resume(bytes(image)), b'bad image at 390\n')
        self.assertEqual(resume(asm.resume_input(bytes(image), [[], [], []], 1000001)), b'bad image at 390\n')

    def test_bad_records(self):
        image = image_of(fresh())
        data = asm.resume_input(image, [[NOP], [NOP], [NOP]], 100)
        self.assertEqual(len(data), SIZE + 62)
        for length in (0, 1, 3, 5, 6, 9, 10, 15, 19, 20, 29, 30, 36, 39, 40, 41, 45, 46, 50, 61):
            start = SIZE + min(length // 10, 4) * 10
            self.assertEqual(resume(data[:SIZE + length]), f'bad record at {start}\n'.encode())
        self.assertEqual(resume(data + b'\0'), f'bad record at {SIZE + 62}\n'.encode())
        for length in (0, 4, 12, 15, 17, 20):
            changed = data[:SIZE + 40] + asm.record(36, bytes(length))
            self.assertEqual(resume(changed), f'bad record at {SIZE + 40}\n'.encode())

    def test_streams_to_65536_words(self):
        image = image_of(fresh())
        full = asm.number_record(32, *[NOP] * 65536)
        rest = asm.emulate_input([[], [], []], 1)[6:] + asm.number_record(36, 65535, 0, 0, 0)
        self.assertTrue(resume(image + full + rest).startswith(b'end finished\nturns 1\nt0 65536/65536\n'))
        over = asm.number_record(32, *[NOP] * 65537)
        self.assertEqual(resume(image + over + rest), f'bad record at {SIZE}\n'.encode())


class Expand(unittest.TestCase):
    NINE = (1, 1, 102, 103, 104, 105, 106, 107, 108)
    BEFORE = Carried(0xBEEF, tuple(range(900, 932)), None)
    # Records at 0, 42, 188 and 206; 216 bytes.
    PLAIN = asm.expand_input(NINE, BEFORE, (asm.replay(31, 2, 0, 1), NOP, 0x60000000), 9)
    CLOSE = asm.close_input(NINE, BEFORE)  # the last record at 188; 194 bytes

    def prints(self, data, line, carried, written=None):
        words = b'' if written is None else asm.number_record(39, *written)
        self.assertEqual(expand(data), line.encode() + b'\n' + asm.carried_record(carried) + words)

    def bad(self, data, offset):
        self.assertEqual(expand(data), f'bad record at {offset}\n'.encode())

    def test_words(self):
        self.prints(self.PLAIN, 'words 0', self.BEFORE._replace(slots=(0x60000000, *range(901, 931), NOP)), [])
        stream = [asm.mop_cfg(5), asm.replay(31, 2), asm.mop(1), NOP]
        written = [931, 900, 102, 105, 107, 103, 104, NOP]
        for room in (8, 9, 65535, 65536, 65537, 0xFFFFFFFF):
            self.prints(asm.expand_input(self.NINE, self.BEFORE, stream, room), 'words 8', self.BEFORE._replace(high=5), written)
        self.prints(asm.expand_input(self.NINE, FRESH, [], 0), 'words 0', FRESH, [])

    def test_a_load_comes_and_goes(self):
        before = self.BEFORE._replace(load=Load(31, 3, 1))
        slots = (0x60000000, *range(901, 931), NOP)
        self.prints(asm.expand_input(self.NINE, before, [NOP, 0x60000000], 2), 'words 2',
                    Carried(0xBEEF, slots, Load(1, 1, 1)), [NOP, 0x60000000])
        self.prints(asm.expand_input(self.NINE, before, [NOP] * 3, 3), 'words 3',
                    Carried(0xBEEF, (NOP, NOP, *range(902, 931), NOP), None), [NOP] * 3)
        self.prints(asm.expand_input(self.NINE, before, [NOP] * 3, 2), 'refused 8', before)

    def test_close(self):
        for nine in ((), self.NINE, [0xFFFFFFFF] * 16):
            for load in (None, Load(0, 0, 0), Load(31, 32, 1)):
                self.prints(asm.close_input(nine, self.BEFORE._replace(load=load)), 'closed', self.BEFORE)
            for load in (Load(32, 0, 0), Load(0, 33, 1), Load(0xFFFFFFFF, 0xFFFFFFFF, 1)):
                before = self.BEFORE._replace(load=load)
                self.prints(asm.close_input(nine, before), 'refused 10', before)

    def test_by_bytes(self):
        nine, slots, words = '24000000 2500' + '00000000' * 9, '00000002' * 32, '04000000 2700 20000004 04000000 2800 02000000'
        none = bytes.fromhex('8C000000 2600 0100' + slots + '00 00000000 00000000 00')
        load = bytes.fromhex('8C000000 2600 0100' + slots + '01 1F000000 02000000 01')
        self.assertEqual(expand(bytes.fromhex(nine) + none + bytes.fromhex(words)),
                         b'words 2\n' + none + bytes.fromhex('08000000 2700 00000002 00000002'))
        after = bytes.fromhex('8C000000 2600 0100' + '00000002' * 31 + '20000004' + '01 00000000 01000000 01')
        self.assertEqual(expand(bytes.fromhex(nine) + load + bytes.fromhex(words)),
                         b'words 1\n' + after + bytes.fromhex('04000000 2700 20000004'))
        self.assertEqual(expand(bytes.fromhex(nine) + load + bytes.fromhex('00000000 2900')), b'closed\n' + none)

    def test_refused(self):
        changes = [asm.mop_cfg(5), asm.replay(0, 1, 0, 1), NOP]
        for number, nine, stream, room in (
                (4, self.NINE[:8], [], 0), (4, [0] * 16, [], 0), (4, [], [], 0), (4, self.NINE, [NOP] * 65534, 65536),
                (7, [128] * 9, [asm.mop(1)], 0), (13, self.NINE, [asm.replay()], 0), (8, self.NINE, [NOP], 0),
                (8, self.NINE, [NOP] * 65505 + [asm.replay(0, 32)], 0xFFFFFFFF)):
            self.prints(asm.expand_input(nine, self.BEFORE, changes + stream, room), f'refused {number}', self.BEFORE)
            malformed, first = self.BEFORE._replace(load=Load(0, 33, 0)), 4 if number == 4 else 10
            self.prints(asm.expand_input(nine, malformed, changes + stream, room), f'refused {first}', malformed)

    def test_cut_anywhere(self):
        self.assertEqual(len(self.PLAIN), 216)
        for length in range(216):
            self.bad(self.PLAIN[:length], max(start for start in (0, 42, 188, 206) if start <= length))
        self.bad(self.PLAIN + b'\0', 216)
        self.bad(self.PLAIN * 2, 216)
        for length in range(188, 194):
            self.bad(self.CLOSE[:length], 188)
        self.bad(self.CLOSE + b'\0', 194)

    def test_kinds_and_order(self):
        records = [self.PLAIN[:42], self.PLAIN[42:188], self.PLAIN[188:206], self.PLAIN[206:], self.CLOSE[188:]]
        self.bad(b''.join(records[place] for place in (1, 0, 2, 3)), 0)
        self.bad(b''.join(records[place] for place in (0, 2, 1, 3)), 42)
        self.bad(b''.join(records[place] for place in (0, 1, 3, 2)), 188)
        self.bad(b''.join(records[place] for place in (0, 1, 1, 2, 3)), 188)
        self.bad(b''.join(records[place] for place in (0, 1, 2, 3, 3)), 216)
        self.bad(b''.join(records[place] for place in (0, 4)), 42)
        self.bad(b''.join(records[place] for place in (0, 1, 4, 4)), 194)
        self.bad(b''.join(records[place] for place in (0, 1, 4, 2, 3)), 194)
        self.bad(b''.join(records[place] for place in (0, 1, 2, 4)), 206)
        self.bad(b''.join(records[place] for place in (0, 1, 2, 3, 4)), 216)
        for start in (0, 42, 188, 206):
            for at in (4, 5):
                data = bytearray(self.PLAIN)
                data[start + at] ^= 128
                self.bad(bytes(data), start)

    def test_lengths(self):
        for length in (1, 35, 37, 65, 68):
            self.bad(asm.record(37, bytes(length)) + self.PLAIN[42:], 0)
        self.prints(asm.record(37, bytes(64)) + self.PLAIN[42:], 'refused 4', self.BEFORE)
        for length in (0, 2, 130, 139, 141, 144):
            self.bad(self.PLAIN[:42] + asm.record(38, bytes(length)) + self.PLAIN[188:], 42)
        for length in (1, 7, 9, 4 * 65537 + 1, 4 * 65538):
            self.bad(self.PLAIN[:188] + asm.record(39, bytes(length)) + self.PLAIN[206:], 188)
        for length in (0, 3, 5, 8):
            self.bad(self.PLAIN[:206] + asm.record(40, bytes(length)), 206)
        for length in (1, 4):
            self.bad(self.CLOSE[:188] + asm.record(41, bytes(length)), 188)
        for length in (1, 35, 65, 68):
            self.bad(asm.record(37, bytes(length)) + self.CLOSE[42:], 0)

    def test_loads_that_are_none(self):
        """The load is the last 10 bytes of record 38, from 178 on."""
        for data in (self.PLAIN, self.CLOSE):
            with_load = data[:178] + bytes.fromhex('01 00000000 00000000 00') + data[188:]
            self.assertFalse(expand(with_load).startswith(b'bad'))
            for at in range(179, 188):
                self.bad(data[:at] + b'\1' + data[at + 1:], 42)
            for byte in (2, 3, 128, 255):
                self.bad(data[:178] + bytes([byte]) + data[179:], 42)
                self.bad(with_load[:178] + bytes([byte]) + with_load[179:], 42)
                self.bad(with_load[:187] + bytes([byte]) + with_load[188:], 42)
            for at in range(179, 187):
                self.assertFalse(expand(with_load[:at] + b'\xFF' + with_load[at + 1:]).startswith(b'bad'))


class CommandLine(unittest.TestCase):
    def ran(self, *arguments, data=b''):
        script = Path(__file__).resolve().parent.parent / 'program.py'
        return subprocess.run([sys.executable, str(script), *arguments], input=data, capture_output=True)

    def test_each_program(self):
        result = self.ran('emulate', data=PLAIN)
        self.assertEqual((result.returncode, result.stdout), (0, emulate(PLAIN)))
        data = asm.resume_input(image_of(busy(80)), [[NOP], [], []], 5)
        result = self.ran('resume', data=data)
        self.assertEqual((result.returncode, result.stdout), (0, resume(data)))
        result = self.ran('trace', data=data)
        self.assertEqual((result.returncode, result.stdout), (0, trace(data)))
        result = self.ran('expand', data=Expand.PLAIN)
        self.assertEqual((result.returncode, result.stdout), (0, expand(Expand.PLAIN)))

    def test_other_arguments(self):
        for arguments in ((), ('other',), ('emulate', 'more')):
            self.assertNotEqual(self.ran(*arguments).returncode, 0)
