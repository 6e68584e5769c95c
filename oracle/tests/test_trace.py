"""Each place that README.md and the documents name is there: a file declares the names cited from it."""

import ast
import re
import unittest
from functools import cache
from pathlib import Path

TOP = Path(__file__).resolve().parent.parent.parent
CRATE_FILE = r'[a-z_0-9]+/(?:specs|src|proofs)/\w+'
FILE = CRATE_FILE + r'|oracle/(?:cases/|tests/)?\w+'
NAMES = r'((?:`[^`]+`(?:, )?)+)'
PROSE = ('README.md', 'docs/ARCHITECTURE.md', 'docs/DECISIONS.md', 'docs/COSTS.md', 'docs/TRUST.md')


def in_rattle(text):
    """Functions, methods, types, constants, modules, fields and variants. Imports, parameters and comments are none of them."""
    text = re.sub(r'//.*', '', text)
    names = set(re.findall(r'\b(?:fn|struct|enum|const|type|mod) (\w+)', text))
    for body in re.findall(r'(?ms)^(?:pub )?(?:struct|enum) \w+ \{$(.*?)^\}', text):
        names |= set(re.findall(r'(?m)^\s+(?:pub )?(\w+)', body))
    return names


def in_antt(text):
    """Definitions by their signature, records, data types, fields and constructors."""
    text = re.sub(r'(?<!\S)--.*', '', text)
    names = set(re.findall(r'(?m)^(?:pub )?(?:record|data) (\S+)', text))
    for signature in re.findall(r'(?m)^(?:  )?(?:(?:abbrev|unfoldable|pub|record|data) )*((?:[^\s(){}:]+ )+):\s', text):
        names |= set(signature.split())
    return names


def in_python(text):
    """Functions, classes and constants of the module, and those of its classes."""
    names = set()
    for node in ast.parse(text).body:
        for item in (node, *(node.body if isinstance(node, ast.ClassDef) else ())):
            if isinstance(item, (ast.FunctionDef, ast.ClassDef)):
                names.add(item.name)
            elif isinstance(item, ast.Assign):
                names |= {part.id for target in item.targets for part in ast.walk(target) if isinstance(part, ast.Name)}
    return names


READERS = {'.rt': in_rattle, '.antt': in_antt, '.py': in_python}


def file_at(path):
    """The file of a citation, which leaves out its ending; None where there is none."""
    folder = TOP if path.startswith('oracle/') else TOP / 'crates'
    files = [folder / (path + ending) for ending in READERS]
    return next((file for file in files if file.is_file()), None)


@cache
def declared(path):
    """The names that a cited file declares."""
    file = file_at(path)
    return READERS[file.suffix](file.read_text()) if file else set()


def has_clause(path, clause):
    file = file_at(path)
    return file is not None and f'ensures {clause} {{' in file.read_text()


def names_in(text):
    return re.findall(r'`([^`]+)`', text)


def missing(text):
    """What a text cites as "file: `name`", as a contract's clause, as an edit or as a test program, and is not there."""
    for path, names in re.findall(f'({FILE}): {NAMES}', text):
        yield from (f'{path}: {name}' for name in names_in(names) if name not in declared(path))
    for clause, path in re.findall(f'contract `(\\w+)` of ({CRATE_FILE})', text):
        if not has_clause(path, clause):
            yield f'{path}: contract {clause}'
    for edit in re.findall(r'[a-z_0-9]+/must-fail/\w+', text):
        if not (TOP / 'crates' / f'{edit}.edit').is_file():
            yield edit
    for crate in re.findall(r'`(test_\w+)`', re.sub(f'(?:{FILE}): {NAMES}', '', text)):
        if not (TOP / 'crates' / crate).is_dir():
            yield crate


def missing_in_prose(text):
    """The same of "`file.rt`, `name`", and of "`name`, `file.rt`", "`name` (`file.rt`)" and "`name` in `file.rt`"."""
    text = ' '.join(text.split())
    file, name = f'`({CRATE_FILE})\\.(?:rt|antt)`', r'`[\w-]+`'
    cited = re.findall(f'{file}((?:, {name})+)', text)
    cited += [(path, names) for names, path in re.findall(f'((?:{name}, )*{name})(?:, | \\(| in ){file}', text)]
    return [f'{path}: {one}' for path, names in cited for one in names_in(names) if one not in declared(path)]


def declaration(entry):
    """How a source declares an entry of the README's table: a public function, or a conversion, `u32::from(Refusal)`."""
    converted = re.fullmatch(r'(\w+)::from\((\w+)\)', entry)
    return r'impl From<{1}> for {0} \{{'.format(*converted.groups()) if converted else r'pub fn ' + entry.split('::')[-1] + r'\b'


class Trace(unittest.TestCase):
    def test_every_place_is_there(self):
        self.assertEqual(list(missing((TOP / 'docs/TRACE.md').read_text())), [])

    def test_a_wrong_name_is_seen(self):
        self.assertEqual(list(missing('word_rules/specs/Waits: `holds_later`, `holds_now`')), ['word_rules/specs/Waits: holds_later'])
        self.assertEqual(list(missing('word_rules/specs/Later: `holds_now`')), ['word_rules/specs/Later: holds_now'])
        self.assertEqual(list(missing('oracle/image: `SIZE`, `LATER`')), ['oracle/image: LATER'])

    def test_a_wrong_program_is_seen(self):
        self.assertEqual(list(missing('`test_image`, `test_later`; oracle/tests/test_trace: `test_python`')), ['test_later'])

    def test_an_imported_name_is_seen(self):
        self.assertIn('Stepped', (TOP / 'crates/step/src/lib.rt').read_text())
        self.assertEqual(list(missing('step/src/lib: `Stepped`; word_rules/src/stepped: `Stepped`')), ['step/src/lib: Stepped'])
        self.assertIn('flags_in', (TOP / 'crates/bench_dest/specs/DestRows.antt').read_text())
        self.assertEqual(list(missing('bench_dest/specs/DestRows: `flags_in`')), ['bench_dest/specs/DestRows: flags_in'])

    def test_a_wrong_clause_is_seen(self):
        place = 'word_cell/src/marks'
        self.assertEqual(list(missing(f'contract `half` of {place}: `zero_marks`')), [])
        self.assertEqual(list(missing(f'contract `third` of {place}: `zero_marks`')), [f'{place}: contract third'])


RATTLE = """
ghost use a.specs.B.{imported_too};
use a::Imported;
// fn commented() {}
mod part;
const LONG: usize = 1;
pub enum Wait {
    Clear,
    On { block: u16 }, // Off,
}
pub struct Row(pub u16);
impl Row {
    pub const ROWS: u16 = 2;
    pub fn new(
        given: u16,
    ) -> Row {
        let made = given;
    }
}
struct Pair {
    // of two
    pub first: u8,
    second: u8,
}
"""

ANTT = """
use a.B.{imported}
-- commented : ℕ
abbrev pub short : ℕ → ℕ
short used = other used -- later : ℕ
unfoldable pub long :
    ℕ
low-half : ℕ
pub record Kept (given : ℕ) : Type 0 where
  pub left right : ℕ
pub data Gate : Type 0 where
  Open : Gate
"""

PYTHON = """
import imported
from a import imported_too
# def commented(): pass
ONE, TWO = 1, 2
def made(given):
    local = 1
class Case:
    LIMIT = 3
    def method(self):
        self.field = 1
"""


class Declared(unittest.TestCase):
    def test_rattle(self):
        self.assertEqual(' '.join(sorted(in_rattle(RATTLE))), 'Clear LONG On Pair ROWS Row Wait first new part second')

    def test_antt(self):
        self.assertEqual(' '.join(sorted(in_antt(ANTT))), 'Gate Kept Open left long low-half right short')

    def test_python(self):
        self.assertEqual(' '.join(sorted(in_python(PYTHON))), 'Case LIMIT ONE TWO made method')


class Prose(unittest.TestCase):
    def test_names_beside_a_file_are_declared_there(self):
        for document in PROSE:
            self.assertEqual(missing_in_prose((TOP / document).read_text()), [], document)

    def test_a_wrong_name_is_seen(self):
        self.assertEqual(missing_in_prose('`word_waits/src/lib.rt`, `judge`, `judged`'), ['word_waits/src/lib: judged'])
        self.assertEqual(missing_in_prose('`judge`, `holds_now`, `word_rules/specs/Waits.antt`'), ['word_rules/specs/Waits: judge'])
        self.assertEqual(missing_in_prose('`Control` (`step/src/lib.rt`)'), ['step/src/lib: Control'])


class Files(unittest.TestCase):
    def test_cited_files_are_there(self):
        for document in PROSE:
            text = (TOP / document).read_text()
            cited = re.findall(r'`([a-z_]+/(?:src|specs)/\w+\.(?:rt|antt))`', text)
            self.assertEqual([path for path in cited if not (TOP / 'crates' / path).is_file()], [], document)

    def test_the_map_has_every_crate(self):
        listed = re.findall(r'(?m)^(\w+):', (TOP / 'crates.txt').read_text())
        text = (TOP / 'README.md').read_text()
        self.assertEqual([name for name in listed if f'`{name}`' not in text], [])

    def test_entries_are_there(self):
        """Each entry of the README's table is a public function of its crate."""
        rows = re.findall(r'(?m)^\| (`\w+::[^|]*) \|', (TOP / 'README.md').read_text())
        self.assertGreater(len(rows), 15)
        for row in rows:
            entries = names_in(row)
            crate = entries[0].split('::')[0]
            source = '\n'.join(path.read_text() for path in sorted((TOP / 'crates' / crate / 'src').glob('*.rt')))
            for entry in entries:
                self.assertRegex(source, declaration(entry), entry)

    def test_definitions_are_there(self):
        """Each definition and theorem of that table, and of the conditions above it, is declared in some specs/."""
        specs = set().union(*(in_antt(path.read_text()) for path in (TOP / 'crates').glob('*/specs/*.antt')))
        text = (TOP / 'README.md').read_text()
        cited = [name for row in re.findall(r'(?m)^\| `\w+::.*\| ([^|]*) \|$', text) for name in names_in(row)]
        self.assertGreater(len(cited), 40)
        cited += names_in(re.search(r'(?s)## The customer.*?(?=`docs/TRACE)', text)[0])
        self.assertEqual([name for name in cited if re.fullmatch(r'\w+', name) and name not in specs | {'requires'}], [])
