"""The programs: `emulate` (document 01, "Program and cases"; document 02, K3), `resume`, which also takes and gives an image,
`trace`, which takes the same and tells of each turn, and `expand`, which is one call of the expander: a piece of a stream, or the
close after the last one.

    python3 oracle/program.py emulate < FILE
    python3 oracle/program.py resume < FILE
    python3 oracle/program.py trace < FILE
    python3 oracle/program.py expand < FILE
"""

import struct
import sys

import expander
from decode import name_of
from image import SIZE, image_of, read_image
from machine import fresh
from run import BUDGET_LIMIT, START, STREAM_LIMIT, Cursor, offers, run

EMULATE_WORDS = 1024  # words of a stream, at most
STREAM_KINDS = (32, 33, 34)
BUDGET_KIND = 35
CURSOR_KIND = 36
NINE_KIND, CARRIED_KIND, WORDS_KIND, ROOM_KIND, CLOSE_KIND = 37, 38, 39, 40, 41
NINE_MOST, WORDS_MOST = 16, expander.STREAM_LIMIT + 1  # more than the expander takes, so that it can refuse them by 4
CARRIED = struct.Struct('<H32I BIIB')  # high mask, slots; of the load a kind, the next slot, words to come, shown


def lines(*texts):
    return ''.join(text + '\n' for text in texts).encode('ascii')


class BadInput(Exception):
    """Its arguments are what is bad, `image` or `record`, and where: the offset of the image's first bad field, or that at which
    the first bad or missing record starts, or extra bytes do."""

    def told(self):
        """What a program prints, and nothing else."""
        what, offset = self.args
        return lines(f'bad {what} at {offset}')


class Records:
    """The records of an input, one after the other: body length (4 bytes), kind (2), body."""

    def __init__(self, data, at=0):
        self.data = data
        self.at = at
        self.start = at  # of the last record taken

    def bad(self):
        """The last record taken is bad."""
        return BadInput('record', self.start)

    def kind(self):
        """The kind of the next record, if it has one."""
        return int.from_bytes(self.data[self.at + 4:self.at + 6], 'little')

    def body(self, kind):
        """The body of the next record, which has this kind."""
        self.start = self.at
        header = self.data[self.at:self.at + 6]
        if len(header) < 6 or int.from_bytes(header[4:], 'little') != kind:
            raise self.bad()
        length = int.from_bytes(header[:4], 'little')
        body = self.data[self.at + 6:self.at + 6 + length]
        if len(body) < length:
            raise self.bad()
        self.at += 6 + length
        return body

    def numbers(self, kind, most):
        """The next record's body as at most so many numbers of 4 bytes."""
        body = self.body(kind)
        if len(body) & 3 or len(body) >> 2 > most:
            raise self.bad()
        return [int.from_bytes(body[at:at + 4], 'little') for at in range(0, len(body), 4)]

    def exactly(self, kind, count):
        """The next record's body as exactly so many numbers of 4 bytes."""
        found = self.numbers(kind, count)
        if len(found) != count:
            raise self.bad()
        return found

    def fields(self, kind, form):
        """The numbers of the next record's body, which has this form."""
        body = self.body(kind)
        if len(body) != form.size:
            raise self.bad()
        return form.unpack(body)

    def end(self):
        """Nothing comes after."""
        if self.at != len(self.data):
            raise BadInput('record', self.at)


def record(kind, body):
    return struct.pack('<IH', len(body), kind) + body


def thread_line(result, streams, thread):
    """How far the thread came and, only where the run is stuck, what it waits for."""
    line = f't{thread} {result.cursor.positions[thread]}/{len(streams[thread])}'
    if result.answer != ('stuck',) or result.stalls[thread] is None:
        return line
    number, cause = result.stalls[thread]
    return f'{line} waits {number} {cause}'


def summary(result, streams):
    """The five lines of a run."""
    return lines(
        ' '.join(['end'] + [str(part) for part in result.answer]),
        f'turns {result.turns}',
        *(thread_line(result, streams, thread) for thread in range(3)))


def emulate(data):
    """Standard output of document 01's program for a standard input."""
    records = Records(data)
    try:
        streams = [records.numbers(kind, EMULATE_WORDS) for kind in STREAM_KINDS]
        budget, = records.exactly(BUDGET_KIND, 1)
        if budget > BUDGET_LIMIT:
            raise records.bad()
        records.end()
    except BadInput as bad:
        return bad.told()
    return summary(run(fresh(), streams, START, budget), streams)


def saved_run(data, load):
    """What `resume` and `trace` read: the machine that an image loads to, streams, cursor and budget."""
    answer = load(data[:SIZE])
    if answer[0] == 'refused':
        raise BadInput('image', answer[2])
    records = Records(data, SIZE)
    streams = [records.numbers(kind, STREAM_LIMIT) for kind in STREAM_KINDS]
    budget, = records.exactly(BUDGET_KIND, 1)
    *positions, following = records.exactly(CURSOR_KIND, 4)
    records.end()
    return answer[1], streams, Cursor(tuple(positions), following), budget


def saved_summary(result, streams):
    """The six lines of such a run, or the one of a refused call."""
    if result.answer[0] == 'rejected':
        return lines(f'rejected {result.answer[1]}')
    return summary(result, streams) + lines(f'next {result.cursor.next}')


def resume(data, load=read_image):
    """Standard output of the whole-state program: an image, streams, budget and cursor in; lines and an image out.
    The machine that the image loads to is run, and written; of a refused call the image is written as it came."""
    try:
        machine, streams, cursor, budget = saved_run(data, load)
    except BadInput as bad:
        return bad.told()
    result = run(machine, streams, cursor, budget)
    after = data[:SIZE] if result.answer[0] == 'rejected' else image_of(machine)
    return saved_summary(result, streams) + after


def turn_line(number, thread, word, outcome):
    """For instance `2 t1 16000000 TRNSPSRCB stalled 103 0`; an idle turn has no word."""
    offered = () if word is None else (f'{word:08X}', name_of(word))
    return ' '.join((str(number), f't{thread}', *offered, *map(str, outcome)))


def trace(data, load=read_image):
    """Standard output of the program that reads what `resume` reads: a line a turn, and then the lines of `resume`."""
    try:
        machine, streams, cursor, budget = saved_run(data, load)
    except BadInput as bad:
        return bad.told()
    result = run(machine, streams, cursor, budget)
    turns = zip(offers(streams, cursor, result.trace), result.trace)
    told = (turn_line(number, *offer, outcome) for number, (offer, outcome) in enumerate(turns, 1))
    return lines(*told) + saved_summary(result, streams)


def carried_in(records):
    """What the next record says is carried. The numbers of a load may be any; without one they are zeros."""
    high, *slots, kind, following, left, shown = records.fields(CARRIED_KIND, CARRIED)
    if kind > 1 or shown > 1 or (kind == 0 and (following, left, shown) != (0, 0, 0)):
        raise records.bad()
    return expander.Carried(high, tuple(slots), expander.Load(following, left, shown) if kind else None)


def carried_out(carried):
    return record(CARRIED_KIND, CARRIED.pack(carried.high, *carried.slots, *expander.load_numbers(carried.load)))


def piece_answer(nine, carried, piece, room):
    """The number of words, what is carried on and the words; or the refusal, and what came."""
    output = [0] * min(room, expander.NEEDED_LIMIT)
    (kind, number), after = expander.expand(carried, nine, piece, output)
    if kind == 'refused':
        return lines(f'refused {number}') + carried_out(after)
    return lines(f'words {number}') + carried_out(after) + record(WORDS_KIND, struct.pack(f'<{number}I', *output[:number]))


def close_answer(carried):
    """The answer, and what is carried on; what came, if it is refused."""
    answer, after = expander.close(carried)
    return lines(' '.join(map(str, answer))) + carried_out(after)


def expand(data):
    """Standard output of the expander's program: the nine words and what is carried, then a piece of a stream and room, or a
    close, which looks at no word."""
    records = Records(data)
    try:
        nine = records.numbers(NINE_KIND, NINE_MOST)
        carried = carried_in(records)
        if records.kind() == CLOSE_KIND:
            records.exactly(CLOSE_KIND, 0)
            records.end()
            return close_answer(carried)
        piece = records.numbers(WORDS_KIND, WORDS_MOST)
        room, = records.exactly(ROOM_KIND, 1)
        records.end()
    except BadInput as bad:
        return bad.told()
    return piece_answer(nine, carried, piece, room)


PROGRAMS = {'emulate': emulate, 'resume': resume, 'trace': trace, 'expand': expand}


def main(arguments):
    if len(arguments) != 1 or arguments[0] not in PROGRAMS:
        sys.exit(f'usage: program.py {"|".join(PROGRAMS)} < FILE')
    sys.stdout.buffer.write(PROGRAMS[arguments[0]](sys.stdin.buffer.read()))


if __name__ == '__main__':
    main(sys.argv[1:])
