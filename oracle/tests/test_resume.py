"""The cases of `test_resume`, and `resume` by itself."""

import subprocess
import sys
import unittest
import zlib
from pathlib import Path

import assemble as asm
import seeded
from cases import cases_resume
from cases.cases_resume import ANY, NONE, PLAIN, QUIET, Case, answer, input_of, load, packed, quiet, record_starts
from image import SIZE, image_of, read_image
from program import resume

HERE = Path(__file__).resolve().parent.parent


class Cases(unittest.TestCase):
    def test_an_input(self):
        image = image_of(seeded.machine(5))
        self.assertEqual(input_of(Case(5, b'abc')), image + b'abc')
        self.assertEqual(input_of(Case(5, b'abc', fill_at=1, fill=3)), image + b'a\2\2\2bc')
        self.assertEqual(input_of(Case(5, b'abc', SIZE + 1, 255)), image + b'a\xFFc')
        self.assertEqual(input_of(Case(5, b'abc', SIZE + 3, 255)), image + b'abc')
        self.assertEqual(input_of(Case(5, b'abc', 2, 7, 4)), image[:2] + b'\7' + image[3:4])

    def test_a_case_as_bytes(self):
        data = packed(Case(5, b'abc', 6, 7, 8, 1, 9))
        self.assertEqual([int.from_bytes(data[at:at + 4], 'little') for at in range(0, 28, 4)], [5, 6, 7, 8, 1, 9, 2])
        self.assertEqual(data[28:], b'abc')
        self.assertEqual(int.from_bytes(packed(Case(5, b''))[4:8], 'little'), NONE)

    def test_an_answer(self):
        case = Case(QUIET[0], PLAIN)
        output = resume(input_of(case))
        text = output[:len(output) - SIZE]
        self.assertEqual(text.count(b'\n'), 6)
        self.assertEqual(answer(case), text + f'{zlib.adler32(output)}\n'.encode())
        bad = b'bad record at 48473\n'
        self.assertEqual(answer(Case(QUIET[0], b'')), bad + f'{zlib.adler32(bad)}\n'.encode())

    def test_images_are_read_once_and_not_shared(self):
        image = image_of(seeded.machine(QUIET[1]))
        first, second = load(image)[1], load(image)[1]
        self.assertEqual(first, read_image(image)[1])
        first.gprs[0][0] ^= 1
        self.assertNotEqual(first, second)
        self.assertEqual(second, load(image)[1])
        self.assertEqual(load(image[:-1]), read_image(image[:-1]))

    def test_quiet_seeds(self):
        for seed in QUIET + ANY:
            self.assertEqual(quiet(seed), seeded.machine(seed).waits == [None] * 3)

    def test_where_records_start(self):
        at, kinds = 0, []
        while at < len(PLAIN):
            self.assertIn(at, record_starts())
            kinds.append(PLAIN[at + 4])
            at += 6 + int.from_bytes(PLAIN[at:at + 4], 'little')
        self.assertEqual((at, kinds), (record_starts()[-1], [32, 33, 34, 35, 36]))

    def test_every_ending_is_there(self):
        first = [answer(case).split(b'\n')[0] for case in cases_resume.cases()[::4]]
        for start, least in ((b'end finished', 100), (b'end stuck', 100), (b'end budget', 100), (b'end refused 2', 30),
                             (b'end refused 3', 10), (b'rejected 5', 20), (b'rejected 6', 8), (b'bad image at', 50),
                             (b'bad record at', 50)):
            self.assertGreaterEqual(sum(line.startswith(start) for line in first), least, start)


    def test_stuck_runs_wait_for_everything(self):
        told = [answer(case).decode() for case in cases_resume.waiting_runs(seeded.Draws(9))]
        self.assertGreater(sum(text.startswith('end stuck') for text in told), 60)
        tails = {line.split(' waits ')[1] for text in told for line in text.splitlines() if ' waits ' in line}
        self.assertEqual({tail.split()[0] for tail in tails}, {'101', '102', '103'})
        self.assertGreater(len(tails), 18)


class CommandLine(unittest.TestCase):
    def test_resume_by_itself(self):
        for data in (asm.resume_input(image_of(seeded.machine(3)), [[asm.nop()], [], []], 5), b'', PLAIN):
            ran = subprocess.run([sys.executable, str(HERE / 'resume.py')], input=data, capture_output=True)
            self.assertEqual((ran.returncode, ran.stdout), (0, resume(data)))
