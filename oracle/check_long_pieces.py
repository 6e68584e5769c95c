"""Cuts each long stream of the expander's stored cases in two at each place, and compares with one call.

    python3 oracle/check_long_pieces.py    after `rt ci`, or `rt run` in crates/test_expander; takes some minutes

The proved program test_expander makes the two calls of each cut. What they must come to is read off one call of the reference
program, which tells what is written and carried after each word. Only of streams that one call accepts.
"""

import struct
import subprocess
import sys
import zlib
from pathlib import Path

from cases.cases_expander import AT_EACH_PLACE, SEED, carried_line, checksum, closed_line, short_and_long, states
from expander import NEEDED_LIMIT, STREAM_LIMIT, Call, Carried, load_numbers
from seeded import Draws

PROGRAM = Path(__file__).resolve().parent.parent / 'crates/test_expander/out/test_expander'


def after_each_word(call, case):
    """How many words are written and what is carried, before the first word of the stream and after each."""
    yield 0, case.carried
    for word in case.stream:
        call.take(word)
        yield len(call.replay.written), Carried(call.high, tuple(call.replay.slots), call.replay.load)


def added(total, words, carried):
    """The checksum of all calls, and of one more that is accepted."""
    numbers = (0, words, carried.high, *carried.slots, *load_numbers(carried.load))
    return zlib.adler32(struct.pack(f'<{len(numbers)}I', *numbers), total)


def expected(case):
    """The line of the stream cut at each place."""
    call, total = Call(case.carried, case.nine), 1
    places = list(after_each_word(call, case))
    words, last = places[-1]
    for written, carried in places:
        total = added(added(total, written, carried), words - written, last)
    output = states(Draws(case.draws_left), NEEDED_LIMIT)
    output[:words] = call.replay.written
    return f'pieces {2 * len(places)} {words} {total} {carried_line(last)} {checksum(output)} {closed_line(last)}\n'


def came(case):
    data = case.packed(NEEDED_LIMIT, AT_EACH_PLACE)
    return subprocess.run([PROGRAM], input=data, stdout=subprocess.PIPE, check=False).stdout.decode().partition('\n')[2]


def main():
    _, long = short_and_long(Draws(SEED))
    accepted = [case for case in long if case.length <= STREAM_LIMIT and case.goes[2] == 0]
    differ = [case for case in accepted if came(case) != expected(case)]
    for case in differ:
        print(f'DIFFERENT: a stream of {case.length} words, seed {case.seed}')
    print(f'{len(accepted)} long streams of {sum(case.length for case in accepted)} words cut at each place: {len(differ)} differ')
    return int(bool(differ))


if __name__ == '__main__':
    sys.exit(main())
