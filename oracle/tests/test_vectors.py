"""Writing and checking of stored files."""

import io
import os
import struct
import subprocess
import sys
import tempfile
import unittest
from collections import Counter
from contextlib import redirect_stderr, redirect_stdout
from itertools import groupby, product
from pathlib import Path
from types import SimpleNamespace
from unittest import mock

import assemble as asm
import vectors
from cases import cases_emulate, cases_run
from lent_machines import AT_END, PAST, UNSET, whole
from program import emulate
from run import Cursor
from seeded import Draws


def module(files):
    return SimpleNamespace(files=lambda: files)


class Vectors(unittest.TestCase):
    def main(self, top, files, *arguments):
        """Exit code and printed lines."""
        printed = io.StringIO()
        with mock.patch.object(vectors, 'case_modules', lambda: [module(files)]), \
                mock.patch.object(vectors.write, '__defaults__', (top,)), \
                mock.patch.object(vectors.complaints, '__defaults__', (top,)), redirect_stdout(printed):
            code = vectors.main(list(arguments))
        return code, printed.getvalue().splitlines()

    def test_write_and_check(self):
        files = {'a/b/one.stdin': b'12345', 'a/two.stdout': b'', 'three': b'\0\xFF'}
        with tempfile.TemporaryDirectory() as folder:
            top = Path(folder)
            self.assertEqual(self.main(top, files, '--check'),
                             (1, ['missing: a/b/one.stdin', 'missing: a/two.stdout', 'missing: three']))
            self.assertEqual(self.main(top, files), (0, ['3 files, 7 bytes written']))
            self.assertEqual((top / 'a/b/one.stdin').read_bytes(), b'12345')
            self.assertEqual(self.main(top, files, '--check'), (0, ['3 files, 7 bytes compared']))
            (top / 'three').write_bytes(b'\0\xFE')
            (top / 'a/two.stdout').unlink()
            self.assertEqual(self.main(top, files, '--check'), (1, ['missing: a/two.stdout', 'differs: three']))
            self.assertEqual((top / 'three').read_bytes(), b'\0\xFE')

    def test_usage(self):
        with redirect_stderr(io.StringIO()):
            self.assertEqual(vectors.main(['--other']), 2)

    def test_no_file_is_made_twice(self):
        with self.assertRaises(ValueError):
            vectors.gathered([module({'a': b'1'}), module({'a': b'1'})])

    def test_case_modules_are_found_by_name_and_sorted(self):
        with tempfile.TemporaryDirectory() as folder:
            package = Path(folder, 'probes')
            package.mkdir()
            for name in ('cases_zz_probe.py', 'cases_aa_probe.py', 'other_probe.py'):
                (package / name).write_text(f'def files():\n    return {{{name!r}: b""}}\n')
            with mock.patch.object(sys, 'path', [folder] + sys.path), \
                    mock.patch.object(sys, 'dont_write_bytecode', True):
                found = vectors.case_modules(package)
            self.assertEqual([each.__name__ for each in found], ['probes.cases_aa_probe', 'probes.cases_zz_probe'])
            self.assertEqual(list(vectors.gathered(found)), ['cases_aa_probe.py', 'cases_zz_probe.py'])

    def test_real_case_modules_are_found(self):
        self.assertIn(cases_emulate, vectors.case_modules())


class Deterministic(unittest.TestCase):
    def test_another_hash_seed_makes_the_same_files(self):
        code = ('import sys, zlib; sys.path.insert(0, sys.argv[1]); from cases import cases_emulate as c; '
                'print(zlib.crc32(repr(list(c.files().items())).encode()))')
        here = str(vectors.HERE)
        sums = [subprocess.run([sys.executable, '-c', code, here], capture_output=True, check=True,
                               env=dict(os.environ, PYTHONHASHSEED=seed)).stdout for seed in ('1', '2')]
        self.assertEqual(sums[0], sums[1])


class EmulateCases(unittest.TestCase):
    def test_case_p(self):
        files = cases_emulate.files()
        self.assertEqual(files['crates/emulate/stdin'].hex(' '),
                         '04 00 00 00 20 00 08 34 12 45 04 00 00 00 21 00 00 00 00 16 '
                         '00 00 00 00 22 00 04 00 00 00 23 00 64 00 00 00')
        self.assertEqual(files['crates/emulate/stdout'], b'end stuck\nturns 4\nt0 1/1\nt1 0/1 waits 103 0\nt2 0/0\n')

    def test_named_runs_end_as_they_are_called(self):
        for name, case in cases_emulate.RUNS.items():
            end = {'p': 'stuck', 'lifted': 'finished', 'mutex': 'finished'}.get(name.split('_')[0], name.split('_')[0])
            if name == 'finished_at_budget':
                self.assertIn(b'turns 3\n', emulate(asm.emulate_input(*case)))
            self.assertEqual(emulate(asm.emulate_input(*case)).split()[1].decode(), end, name)
        for name, data in cases_emulate.BAD.items():
            self.assertTrue(emulate(data).startswith(b'bad record at '), name)

    def test_inputs(self):
        inputs = cases_emulate.inputs()
        answers = Counter(b' '.join(emulate(data).split()[:2]) for data in inputs)
        self.assertGreaterEqual(len(cases_emulate.damaged(Draws(1))), 5000)
        self.assertGreaterEqual(answers[b'bad record'], 3500)
        for end in (b'end finished', b'end stuck', b'end budget', b'end refused'):
            self.assertGreaterEqual(answers[end], 100, end)
        self.assertEqual(max(map(len, inputs)), 12317)  # the longest sound input and one byte


class RunCases(unittest.TestCase):
    def stored(self, name):
        return (vectors.TOP / cases_run.FOLDER / name).read_bytes()

    def test_stored_runs(self):
        lines = [line.split() for line in self.stored('stdout').decode().splitlines()]
        self.assertEqual(len(lines), len(cases_run.cases()))
        self.assertGreaterEqual(len(lines), 2000)
        ends = Counter(' '.join(line[:line.index('turns')]) for line in lines)
        for end in ('finished', 'stuck', 'budget', 'refused 2', 'refused 3',
                    'rejected 4', 'rejected 10', 'rejected 5', 'rejected 6'):
            self.assertGreaterEqual(ends.pop(end), 10, end)
        self.assertEqual(ends, {})
        self.assertGreaterEqual(sum(int(line[line.index('turns') + 1]) > 100 for line in lines), 400)

    def test_kernels_wait_for_each_other(self):
        causes = Counter()
        for case in cases_run.kernels(Draws(5), 40):
            trace = cases_run.played(case)[0].trace
            causes.update(first[1] for first, later in zip(trace, trace[3:])
                          if first[0] == 'stalled' and later == ('passed',))
        for cause in (101, 102, 103):
            self.assertGreaterEqual(causes[cause], 10, cause)

    def test_stored_last_stalls(self):
        """Each thread hands on every cause at each end but finished, and none there or from a call that is refused."""
        handed = {}
        for line in self.stored('stdout').decode().splitlines():
            for thread, stall in enumerate(line.split(' stalls ')[1].split()[:3]):
                handed.setdefault((line.split()[0], thread), set()).add(stall)
        for thread in range(3):
            self.assertEqual((handed['finished', thread], handed['rejected', thread]), ({'-'}, {'-'}))
            causes = {'-', *(f'101:{cause}' for cause in (*range(5, 9), *range(16, 32))), '103:0', '103:1',
                      *(f'102:{holder}' for holder in range(3) if holder != thread)}
            for end in ('stuck', 'budget', 'refused'):
                self.assertEqual(handed[end, thread], causes)

    def test_hurdles(self):
        """The waiter stalls at the first, passes, and stalls at the last; the run ends as it is called."""
        places = list(product(range(3), range(len(cases_run.HURDLES)), cases_run.ENDS))
        for (waiter, _, end), case in zip(places, cases_run.hurdle_runs(Draws(6)), strict=True):
            result = cases_run.played(case)[0]
            self.assertEqual(result.answer[0], end)
            own = result.trace[(waiter - case.cursor.next) % 3::3]
            kinds = [kind for kind, _ in groupby(own, lambda outcome: outcome[0]) if kind in ('passed', 'stalled')]
            self.assertEqual(kinds, ['passed', 'stalled'] * 2 + ['passed'] * (end == 'finished'))
            stalled = [thread for thread in range(3) if result.stalls[thread] is not None]
            self.assertEqual(stalled, [] if end == 'finished' else [waiter])

    def test_streams_are_repeated_from_a_word_on(self):
        self.assertEqual(cases_run.unrolled(cases_run.Stream((7, 8, 9), 1, 8)), [7, 8, 9, 8, 9, 8, 9, 8])
        self.assertEqual(cases_run.unrolled(cases_run.Stream((7, 8, 9), 0, 2)), [7, 8])
        self.assertEqual(cases_run.unrolled(cases_run.EMPTY), [])

    def test_waits_of_a_seed(self):
        for seed in cases_run.QUIET[:3] + cases_run.ANY[:3]:
            self.assertEqual(cases_run.first_waits(seed), whole(seed).waits)

    def test_numbers_at_their_limit(self):
        for numbers, answer in ((AT_END, ('finished',)), (PAST, ('rejected', 10))):
            for number in numbers:
                case = cases_run.Case(cases_run.QUIET[0], [cases_run.EMPTY] * 3, number=number)
                self.assertEqual(cases_run.played(case)[0].answer, answer)

    def test_packed(self):
        case = cases_run.Case(6, [cases_run.Stream((7, 8), 1, 3), cases_run.EMPTY, cases_run.plain(9)], 10,
                              Cursor((1, 2, 3), 4), (5, 6, 7), (8, 9))
        self.assertEqual(struct.unpack('<23I', cases_run.packed(case)),
                         (6, 5, 6, 7, 8, 9, 10, 1, 2, 3, 4, 2, 1, 3, 7, 8, 0, 0, 0, 1, 0, 1, 9))
        self.assertEqual(cases_run.made_of(case._replace(number=UNSET))[1:], (0, 0, 0, 8, 9))
