"""Cases of bench access for crates/test_bench: what the program reads, and what it must write.

    cd oracle && python3 -m cases.cases_bench    prints how many calls have each answer

A case is eleven words of 4 bytes: call; lengths of the lent parts, two bits each; three numbers; seed; two words more; kind, place
and value of a number that is set. The two words are flag words of Config's banks; of a source call they are the seed of the control
part, in which the number is set, and where a number is out of range. The stores are kept from case to case and filled anew from a
seed now and then.
"""

import struct
import zlib
from collections import Counter, namedtuple

import bench
from lent_machines import AT_END, PAST, UNSET, WAIT, any_number, cell_at, set_cell, set_control
from machine import Machine
from seeded import Draws, control_from, flat, rows

FOLDER = 'crates/test_bench'

Case = namedtuple('Case', 'call lengths first second third seed left right number', defaults=(0, 0, 0, 0, UNSET))

FILL, READ_GPR, WRITE_GPR, READ_16, WRITE_16, READ_32, WRITE_32, WRITE_SOURCE, SHOW = range(9)
RIGHT, SHORTER, LONGER, NONE = range(4)  # how long a lent part is
ROW = 16
CELL_LIMIT = 1 << 19
NOWHERE_CELL, NOWHERE = 255, 4095  # no cell and no place of a source store is out of range


def chosen(draws, among):
    return among[draws.draw() % len(among)]


def seldom(draws, times, usual, others):
    """One of the others once in so many times."""
    return chosen(draws, others) if draws.draw() % times == 0 else usual


# The stores, as the program keeps them.

STORES = ('gprs', 'dest', 'marks', 'src_a', 'src_b')


def refilled(machine, seed):
    """Fills the stores, and answers the entry that the program has past the end of each."""
    draws, past = Draws(seed), {}
    makes = (lambda: rows(draws.word, 3, 64), lambda: rows(draws.draw, 1024), lambda: [draws.mark() for _ in range(1024)],
             lambda: [rows(draws.cell, 64) for _ in range(2)], lambda: [rows(draws.cell, 64) for _ in range(2)])
    entries = (draws.word, draws.draw, draws.mark, draws.cell, draws.cell)
    for name, make, entry in zip(STORES, makes, entries):
        setattr(machine, name, make())
        past[name] = entry()
    return past


def words_bytes(words):
    return struct.pack(f'<{len(words)}I', *words)


def halves_bytes(halves):
    return struct.pack(f'<{len(halves)}H', *halves)


# Parts of a wrong length: the program's stores have one entry more.

def cut(part, length):
    """The part as long as it is lent."""
    if length == RIGHT:
        return part
    if length == NONE:
        return []
    if isinstance(part[-1], list):
        return part[:-1] + [cut(part[-1], length)]
    return part[:-1] if length == SHORTER else part + [0]


class Lent:
    """Lends parts of a machine at the lengths of a case, and takes them back."""

    def __init__(self, machine, names, lengths):
        self.machine, self.names, self.lengths = machine, names, lengths

    def __enter__(self):
        self.whole = [getattr(self.machine, name) for name in self.names]
        for name, part, length in zip(self.names, self.whole, self.lengths):
            setattr(self.machine, name, cut(part, length))
        return self.machine

    def __exit__(self, *_):
        for name, part, length in zip(self.names, self.whole, self.lengths):
            if length != RIGHT:
                setattr(self.machine, name, part)


def seventeen(draw):
    """A row's cells, and one more."""
    return [draw() for _ in range(ROW + 1)]


def lent_cells(cells, length):
    """Of seventeen cells: sixteen, one less, one more, or none."""
    return cells[:(ROW, ROW - 1, ROW + 1, 0)[length]]


# Lines.

def line(answer, after):
    text = 'done' if answer[0] == 'written' else f'refused {answer[1]}'
    return f'{text} {zlib.adler32(after)}\n'


class Bench:
    """The state of the program, and its call for a case."""

    def __init__(self):
        self.machine = Machine()
        self.past = dict.fromkeys(STORES, 0)

    # The stores as bytes, each with the entry past its end.

    def gpr_bytes(self):
        return words_bytes([*flat(self.machine.gprs), self.past['gprs']])

    def dest_bytes(self):
        cells = halves_bytes([*flat(self.machine.dest), self.past['dest']])
        return cells + bytes([*self.machine.marks, self.past['marks']])

    def source_bytes(self):
        return b''.join(words_bytes([*flat(flat(getattr(self.machine, name))), self.past[name]])
                        for name in ('src_a', 'src_b'))

    # The calls.

    def fill(self, lengths, first, second, third, seed, left, right, number):
        self.past = refilled(self.machine, seed)
        whole = self.gpr_bytes() + self.dest_bytes() + self.source_bytes()
        return f'filled {zlib.adler32(whole)}\n'

    def read_gpr(self, lengths, thread, register, third, seed, left, right, number):
        with Lent(self.machine, ('gprs',), lengths) as machine:
            answer = bench.read_gpr(machine, thread, register)
        return f'{"value" if answer[0] == "read" else "refused"} {answer[1]}\n'

    def write_gpr(self, lengths, thread, register, value, seed, left, right, number):
        with Lent(self.machine, ('gprs',), lengths) as machine:
            answer = bench.write_gpr(machine, thread, register, value)
        return line(answer, self.gpr_bytes())

    def flagged(self, lengths, left, right):
        self.machine.config[0][255], self.machine.config[1][255] = left, right
        return Lent(self.machine, ('config', 'dest', 'marks'), lengths)

    def read_row(self, read, draw, packed, lengths, bank, row, left, right):
        out = seventeen(draw)
        with self.flagged(lengths, left, right) as machine:
            answer = read(machine, bank, row)
        if answer[0] == 'read':
            if len(lent_cells(out, lengths[3])) < ROW:
                answer = ('refused', 8)
            else:
                out[:ROW] = answer[1]
                answer = ('written',)
        return line(answer, packed(out))

    def write_row(self, write, draw, lengths, bank, row, left, right):
        cells = lent_cells(seventeen(draw), lengths[3])
        with self.flagged(lengths, left, right) as machine:
            answer = write(machine, bank, row, cells)
        return line(answer, self.dest_bytes())

    def read_16(self, lengths, bank, row, third, seed, left, right, number):
        return self.read_row(bench.read_dest_16, Draws(seed).draw, halves_bytes, lengths, bank, row, left, right)

    def write_16(self, lengths, bank, row, third, seed, left, right, number):
        return self.write_row(bench.write_dest_16, Draws(seed).draw, lengths, bank, row, left, right)

    def read_32(self, lengths, bank, row, third, seed, left, right, number):
        return self.read_row(bench.read_dest_32, Draws(seed).word, words_bytes, lengths, bank, row, left, right)

    def write_32(self, lengths, bank, row, third, seed, left, right, number):
        return self.write_row(bench.write_dest_32, Draws(seed).word, lengths, bank, row, left, right)

    def write_source(self, lengths, file, row, over, seed, control, bad, number):
        cells = seventeen(Draws(seed).cell)
        if bad % 256 <= ROW:
            cells[bad % 256] = over
        control_from(Draws(control), self.machine)
        set_control(self.machine, *number)
        spoiled = []
        for store, place in ((self.machine.src_a, bad // 256 % 4096), (self.machine.src_b, bad // 1048576)):
            if place < 2048:
                spoiled.append((store, place, cell_at(store, place)))
                set_cell(store, place, over)
        with Lent(self.machine, ('src_a', 'src_b'), lengths) as machine:
            answer = bench.write_source(machine, file, row, lent_cells(cells, lengths[2]))
        text = line(answer, self.source_bytes())
        for kept in spoiled:  # put back where they stood, into a row that was just written too
            set_cell(*kept)
        return text

    def show(self, lengths, file, bank, row, seed, left, right, number):
        parts = [cut(part, length) for part, length in zip((self.machine.src_a, self.machine.src_b), lengths)]
        cells = bench.show_row(*parts, file, bank, row)
        return f'shown {len(cells)} {zlib.adler32(words_bytes(cells))}\n'

    def line_of(self, case):
        call, lengths, *numbers = case
        calls = (self.fill, self.read_gpr, self.write_gpr, self.read_16, self.write_16, self.read_32, self.write_32,
                 self.write_source, self.show)
        return calls[call]([lengths >> place & 3 for place in (0, 2, 4, 6)], *numbers)


# Cases.

FAR = (0x7FFFFFFF, 0x80000000, 0xFFFFFFFF)


def any_lengths(draws, parts):
    """Mostly right ones."""
    return sum(seldom(draws, 4 * parts, RIGHT, (SHORTER, LONGER, NONE)) << 2 * part for part in range(parts))


def near(draws, limit, times):
    """A number below the limit, or seldom one at or past it."""
    inside = seldom(draws, 6, draws.draw() % limit, (0, limit - 1))
    return seldom(draws, times, inside, (limit, limit, limit + 1, 2 * limit, 65536 + draws.draw() % limit) + FAR)


def gpr_case(draws):
    call = chosen(draws, (READ_GPR, WRITE_GPR))
    return Case(call, any_lengths(draws, 2) & 3, near(draws, 3, 6), near(draws, 64, 6), draws.word())


def flag_words(draws):
    """Words of all settings, with other bits that mean nothing here."""
    return [(0 if draws.draw() % 4 == 0 else draws.word()) & ~3 | draws.draw() % 4 for _ in range(2)]


class DestCases:
    """Dest calls; a row that was written is often read again."""

    def __init__(self, draws):
        self.draws, self.last = draws, None

    def case(self):
        draws = self.draws
        if self.last and draws.draw() % 3:
            call, bank, row, flags = self.last
            reads = {WRITE_16: READ_16, WRITE_32: READ_32}
            self.last = None
            call = chosen(draws, (reads[call], reads[call], READ_16, READ_32))
            return Case(call, 0, bank, row, 0, draws.word(), *flags)
        call = chosen(draws, (READ_16, WRITE_16, READ_32, WRITE_32, WRITE_32))
        limit = 1024 if call in (READ_16, WRITE_16) else 512
        bank, row, flags = near(draws, 2, 8), near(draws, limit, 6), flag_words(draws)
        if call in (WRITE_16, WRITE_32):
            self.last = (call, bank, row, flags)
        row_length = seldom(draws, 6, RIGHT, (SHORTER, LONGER, NONE))
        return Case(call, any_lengths(draws, 3) | row_length << 6, bank, row, 0, draws.word(), *flags)


def of_control(numbers):
    return [number for number in numbers if number[0] <= WAIT]


def source_case(draws):
    number = seldom(draws, 8, chosen(draws, [UNSET, *of_control(AT_END)]), of_control(PAST))
    bad = seldom(draws, 8, NOWHERE_CELL, range(16)) | seldom(draws, 12, NOWHERE, (0, 1023, 1024, 2047)) << 8
    bad |= seldom(draws, 12, NOWHERE, (0, 1023, 1024, 2047, draws.draw() % 2048)) << 20
    over = chosen(draws, (CELL_LIMIT, CELL_LIMIT - 1, CELL_LIMIT + 1, 0xFFFFFFFF, draws.word() | 1 << 31))
    return Case(WRITE_SOURCE, any_lengths(draws, 3), near(draws, 2, 8), near(draws, 64, 8), over, draws.word(), draws.word(), bad,
                number)


def show_case(draws):
    return Case(SHOW, any_lengths(draws, 2), near(draws, 2, 8), near(draws, 2, 8), near(draws, 64, 8))


ROUNDS = 60
CALLS = 190  # of a round


def round_of(draws, calls):
    """The stores filled anew, and so many calls."""
    dest = DestCases(draws)
    yield Case(FILL, 0, 0, 0, 0, draws.word())
    for _ in range(calls):
        kind = draws.draw() % 16
        if kind < 3:
            yield gpr_case(draws)
        elif kind < 9:
            yield dest.case()
        elif kind < 12:
            yield source_case(draws)
        else:
            yield show_case(draws)


def all_cases():
    draws = Draws(30000)
    for _ in range(ROUNDS):
        yield from round_of(draws, CALLS)


def any_cases(draws, calls):
    """A round that is not among those; at times an argument is any number, and so is one of the control part that is set."""
    for case in round_of(draws, calls):
        if draws.draw() % 8 == 0:
            case = case._replace(**{chosen(draws, ('first', 'second', 'third')): draws.word()})
        if case.call == WRITE_SOURCE and draws.draw() % 3 == 0:
            case = case._replace(number=any_number(draws, WAIT))
        yield case


def input_and_output(cases):
    """What the program reads of cases, and what it must write."""
    cases, program = list(cases), Bench()
    return (b''.join(struct.pack('<11I', *case[:-1], *case.number) for case in cases),
            ''.join(map(program.line_of, cases)).encode())


def files():
    stdin, stdout = input_and_output(all_cases())
    return {f'{FOLDER}/stdin': stdin, f'{FOLDER}/stdout': stdout}


def tally(stdout):
    """How many lines there are of each answer."""
    lines = (each.split() for each in stdout.decode().splitlines())
    return Counter(' '.join(words[:2] if words[0] in ('refused', 'shown') else words[:1]) for words in lines)


if __name__ == '__main__':
    for answer, count in sorted(tally(files()[f'{FOLDER}/stdout']).items()):
        print(answer, count)
