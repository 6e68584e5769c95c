"""The command ./expand, with the reference program in place of the built one."""

import io
import os
import struct
import subprocess
import sys
import tempfile
import unittest
from contextlib import redirect_stderr, redirect_stdout
from importlib.machinery import SourceFileLoader
from importlib.util import module_from_spec, spec_from_loader
from pathlib import Path
from unittest import mock

import assemble as asm
import program
from cases import cases_expand
from expander import FRESH, Carried, Load

HERE = Path(__file__).resolve().parent.parent
TOP = HERE.parent
REFERENCE = [sys.executable, HERE / 'program.py', 'expand']
NINE, STREAM = (1, 1, *range(102, 109)), (asm.replay(31, 2, 1, 1), asm.nop(), asm.dmanop(), asm.mop_cfg(7), asm.mop(1))
WRITTEN = (asm.nop(), asm.dmanop(), 102, 105, 107, 103, 104)
AFTER = Carried(7, (asm.dmanop(), *FRESH.slots[1:31], asm.nop()), None)
TAKING, MALFORMED = AFTER._replace(load=Load(31, 2, 1)), AFTER._replace(load=Load(31, 33, 0))
# Runs the command as ./expand does, with the reference program.
AS_COMMAND = ('import sys; from tests.test_expand_command import command, REFERENCE; '
              'command.BUILD, command.PROGRAM = ["true"], REFERENCE; sys.exit(command.main(sys.argv[1:]))')


def loaded():
    """The command as a module."""
    loader = SourceFileLoader('expand_command', str(TOP / 'expand'))
    with mock.patch.object(sys, 'dont_write_bytecode', True):
        module = module_from_spec(spec_from_loader('expand_command', loader))
        loader.exec_module(module)
    return module


command = loaded()


def body(carried):
    """What a file of --carried has."""
    return asm.carried_record(carried)[6:]


def words(*numbers):
    return struct.pack(f'<{len(numbers)}I', *numbers)


class Records(unittest.TestCase):
    def test_input(self):
        carried = cases_expand.CARRIED
        self.assertEqual(command.input_of(words(*NINE), body(carried), words(*STREAM), 99),
                         asm.expand_input(NINE, carried, STREAM, 99))
        self.assertEqual(command.close_of(body(carried)), asm.close_input((), carried))
        self.assertEqual(command.FRESH, body(FRESH))

    def test_too_many_words_are_still_too_many(self):
        for nine, stream in ((range(17), []), (range(100), [asm.nop()]), (NINE, [asm.nop()] * 65538), (NINE, [0] * 70000)):
            printed = program.expand(command.input_of(words(*nine), command.FRESH, words(*stream), 65536))
            self.assertEqual(command.answer_in(printed), ('refused 4', command.FRESH, None))

    def test_answers(self):
        printed = program.expand(asm.expand_input(NINE, FRESH, STREAM, 7))
        self.assertEqual(command.answer_in(printed), ('words 7', body(AFTER), words(*WRITTEN)))
        printed = program.expand(asm.expand_input(NINE, cases_expand.CARRIED, STREAM, 6))
        self.assertEqual(command.answer_in(printed), ('refused 8', body(cases_expand.CARRIED), None))
        for before, line, after in ((TAKING, 'closed', AFTER), (MALFORMED, 'refused 10', MALFORMED)):
            self.assertEqual(command.answer_in(program.expand(asm.close_input((), before))), (line, body(after), None))

    def test_no_answers(self):
        whole = program.expand(asm.expand_input(NINE, FRESH, STREAM, 7))
        closed = program.expand(asm.close_input((), TAKING))
        for printed in (b'', b'bad record at 0\n', b'words', whole[:8], whole[:13], whole[:100], whole[:154], whole[:-1],
                        b'close', closed[:6], closed[:7], closed[:12], closed[:-1], b'closed ' + closed[6:]):
            with self.assertRaises(command.Wrong):
                command.answer_in(printed)


class Command(unittest.TestCase):
    def setUp(self):
        folder = tempfile.TemporaryDirectory()
        self.addCleanup(folder.cleanup)
        self.folder = Path(folder.name)
        self.put(nine=words(*NINE), stream=words(*STREAM))

    def put(self, **contents):
        for name, data in contents.items():
            (self.folder / name).write_bytes(data)

    def ran(self, *arguments):
        """Exit code, and the lines printed and those that say what is wrong."""
        out, error = io.StringIO(), io.StringIO()
        with mock.patch.object(command, 'BUILD', ['true']), mock.patch.object(command, 'PROGRAM', REFERENCE), \
                redirect_stdout(out), redirect_stderr(error):
            try:
                code = command.main([str(self.folder / name) if name[0].isalpha() else name for name in arguments])
            except SystemExit as ended:
                code = ended.code
        return code, out.getvalue(), error.getvalue()

    def files(self):
        return {path.name: path.read_bytes() for path in self.folder.iterdir() if path.name not in ('nine', 'stream')}

    def test_words(self):
        self.assertEqual(self.ran('nine', 'stream', 'out'), (0, 'words 7\n', ''))
        self.assertEqual(self.files(), {'out': words(*WRITTEN)})
        self.assertEqual(self.ran('nine', 'stream', 'out', '--room', '8'), (0, 'words 7\n', ''))

    def test_carried(self):
        carried = '--carried', 'kept'
        self.assertEqual(self.ran('nine', 'stream', 'out', *carried), (0, 'words 7\n', ''))
        self.assertEqual(self.files(), {'out': words(*WRITTEN), 'kept': body(AFTER)})
        self.put(stream=words(asm.replay(30, 3), asm.mop_cfg(9)))
        self.assertEqual(self.ran('nine', 'stream', 'out', *carried), (0, 'words 3\n', ''))
        self.assertEqual(self.files()['out'], words(asm.nop(), asm.nop(), asm.dmanop()))
        self.assertEqual(self.files()['kept'], body(AFTER._replace(high=9)))

    def test_a_load_goes_on(self):
        """The worked case in three pieces, and its close."""
        piece = 'nine', 'stream', 'out', '--carried', 'kept'
        a, b, c = 0x45123408, 0x60000000, 0xB00000FF
        for stream, written, load in (
                ((0x0407C033, a), (a,), Load(0, 2, 1)), ((b,), (b,), Load(1, 1, 1)), ((), (), Load(1, 1, 1)),
                ((c, 0x0407C030), (c, a, b, c), None), ((0x04000051,), (), Load(0, 5, 0))):
            self.put(stream=words(*stream))
            self.assertEqual(self.ran(*piece), (0, f'words {len(written)}\n', ''))
            self.assertEqual(self.files()['out'], words(*written))
            self.assertEqual(self.files()['kept'][-10:], body(FRESH._replace(load=load))[-10:])
        before = self.files()['kept']
        self.assertEqual(self.ran('--close', '--carried', 'kept'), (0, 'closed\n', ''))
        self.assertEqual(self.files()['kept'], before[:-10] + bytes(10))

    def test_close(self):
        kept = '--carried', 'kept'
        self.assertEqual(self.ran('--close', *kept), (0, 'closed\n', ''))
        self.assertEqual(self.files(), {'kept': body(FRESH)})
        self.put(kept=body(TAKING))
        self.assertEqual(self.ran(*kept, '--close'), (0, 'closed\n', ''))
        self.assertEqual(self.files(), {'kept': body(AFTER)})

    def test_a_load_that_is_refused_stays(self):
        before = {'out': b'before', 'kept': body(MALFORMED)}
        self.put(**before)
        node = (self.folder / 'kept').stat().st_ino
        self.assertEqual(self.ran('--close', '--carried', 'kept'), (1, 'refused 10\n', ''))
        self.assertEqual(self.ran('nine', 'stream', 'out', '--carried', 'kept'), (1, 'refused 10\n', ''))
        self.assertEqual((self.files(), (self.folder / 'kept').stat().st_ino), (before, node))

    def test_refused_writes_nothing(self):
        self.assertEqual(self.ran('nine', 'stream', 'out', '--carried', 'kept', '--room', '6'), (1, 'refused 8\n', ''))
        self.assertEqual(self.files(), {})
        before = {'out': b'before', 'kept': body(AFTER)}
        self.put(**before, stream=words(asm.mop_cfg(1), asm.replay(0, 33)))
        self.assertEqual(self.ran('nine', 'stream', 'out', '--carried', 'kept'), (1, 'refused 13\n', ''))
        self.put(nine=words(*NINE[:8]))
        self.assertEqual(self.ran('nine', 'stream', 'out', '--carried', 'kept'), (1, 'refused 4\n', ''))
        self.assertEqual(self.files(), before)

    def wrong(self, text, *arguments):
        before = self.files()
        code, out, error = self.ran(*arguments)
        self.assertEqual((code, out), (2, ''))
        self.assertIn(text, error)
        self.assertEqual(self.files(), before)

    def test_usage(self):
        three = 'nine', 'stream', 'out'
        for arguments in ((), three[:2], (*three, 'more'), ('nine', '--room=3'), ('nine', '--carried=out')):
            self.wrong('one file alone, or three', *arguments)
        for room in ('-1', '4294967296', '3.5', 'x'):
            self.wrong('room', *three, f'--room={room}')
        self.wrong('unrecognized', *three, '--other')
        for arguments in ((), ('nine', '--carried=kept'), (*three, '--carried=kept'), ('--carried=kept', '--room=3')):
            self.wrong('--close is of --carried FILE alone', '--close', *arguments)

    def test_files_that_do_not_serve(self):
        self.put(odd=bytes(7), short=bytes(130), long=bytes(141), out=b'before', other_kind=bytes(130) + b'\2' + bytes(9),
                 other_shown=bytes(130) + b'\1' + bytes(8) + b'\2', half_none=bytes(135) + b'\1' + bytes(4))
        self.wrong('gone: No such file', 'gone', 'stream', 'out')
        self.wrong('gone: No such file', 'nine', 'gone', 'out')
        self.wrong('gone: No such file', 'gone')
        self.wrong('7 bytes are not whole words', 'odd', 'stream', 'out')
        self.wrong('7 bytes are not whole words', 'nine', 'odd', 'out')
        for form in (('nine', 'stream', 'out'), ('--close',)):
            self.wrong('short: 130 bytes, where', *form, '--carried', 'short')
            self.wrong('long: 141 bytes, where', *form, '--carried', 'long')
            for name in ('other_kind', 'other_shown', 'half_none'):
                self.wrong(f'{name}: the last 10 bytes are no load', *form, '--carried', name)
        self.wrong('both for', 'nine', 'stream', 'out', '--carried', 'fresh/../out')

    def test_places_that_can_not_be_written(self):
        self.put(kept=command.FRESH)
        self.wrong('/dev/null: not a plain file', 'nine', 'stream', '/dev/null')
        self.wrong('No such file', 'nine', 'stream', 'gone/out', '--carried', 'kept')
        self.wrong('No such file', 'nine', 'stream', 'out', '--carried', 'gone/kept')
        self.wrong('No such file', '--close', '--carried', 'gone/kept')

    def test_a_failure_leaves_all_as_it_was(self):
        self.put(out=b'before', kept=command.FRESH)
        with mock.patch.object(os, 'fsync', side_effect=(None, OSError(28, 'No space left'))):
            self.wrong('kept: No space left', 'nine', 'stream', 'out', '--carried', 'kept')
        with mock.patch.object(os, 'replace', side_effect=OSError(5, 'Input/output error')):
            self.wrong('out: Input/output error', 'nine', 'stream', 'out', '--carried', 'kept')
            self.wrong('kept: Input/output error', '--close', '--carried', 'kept')

    def test_links_and_modes_stay(self):
        self.put(real=b'before')
        (self.folder / 'real').chmod(0o640)
        (self.folder / 'out').symlink_to('real')
        self.assertEqual(self.ran('nine', 'stream', 'out')[0], 0)
        self.assertTrue((self.folder / 'out').is_symlink())
        self.assertEqual(((self.folder / 'real').stat().st_mode & 0o777, self.files()['real']), (0o640, words(*WRITTEN)))

    def test_records(self):
        """The answer goes straight to the standard output of a process of its own."""
        self.put(records=asm.expand_input(NINE, FRESH, STREAM, 7), bad=b'')
        for name in ('records', 'bad'):
            path = self.folder / name
            ran = subprocess.run([sys.executable, '-c', AS_COMMAND, path], cwd=HERE, capture_output=True, check=False)
            self.assertEqual((ran.returncode, ran.stdout, ran.stderr), (0, program.expand(path.read_bytes()), b''))


def readme_session():
    """What README.md has typed with ./expand, without the `$ `, and what it shows that this prints."""
    blocks = [block for block in (TOP / 'README.md').read_text().split('\n\n') if block.startswith('    $ ')]
    lines = [line[4:] for block in blocks for line in block.splitlines()]
    return [line[2:] for line in lines if line.startswith('$ ')], [line for line in lines if not line.startswith('$ ')]


class Readme(unittest.TestCase):
    def test_what_is_typed_prints_what_is_shown(self):
        typed, shown = readme_session()
        self.assertGreater(len(typed), 5)
        with tempfile.TemporaryDirectory() as folder:
            (Path(folder) / 'examples').symlink_to(TOP / 'examples')
            script = Path(folder) / 'expand'
            script.write_text(f'#!/bin/sh\nPYTHONPATH={HERE} exec {sys.executable} -c \'{AS_COMMAND}\' "$@"\n')
            script.chmod(0o755)
            ran = subprocess.run(['sh', '-e', '-c', '\n'.join(typed)], cwd=folder, capture_output=True, check=False, text=True)
        self.assertEqual((ran.returncode, ran.stdout.splitlines(), ran.stderr), (0, shown, ''))
