"""Cases of `test_trace`: runs told of turn by turn, in pieces of several sizes, and inputs that are bad; and one input of `trace`.

    cd oracle && python3 -m cases.cases_trace    prints how many cases end in each way

A case is one of `test_resume` and the most turns that the program under test is to trace before it writes. What it writes does
not depend on that.
"""

import struct
from collections import Counter
from functools import lru_cache
from itertools import chain

import assemble as asm
import seeded
from cases import cases_run
from cases.cases_decode import edges
from cases.cases_resume import (ANY, B5, FULL, MOST, MUTEXES, QUIET, Case, cut_inputs, input_of, kernel, kernels, load, mixed,
                                nops, other_records, packed, pick, rejected, runs, set_bytes, set_records, somewhere, tail_of,
                                waiting_runs)
from program import trace

FOLDER = 'crates/test_trace'
OTHER_SIZES = (2, 4, 5, 7, 16, 100, 4096)
SIZES = (1, 3, *OTHER_SIZES)  # of pieces, in turns


@lru_cache(maxsize=None)
def answer(case):
    """What is printed, whatever the piece."""
    return trace(input_of(case), load)


def turns(case):
    """Of a run: all lines but the last six."""
    return answer(case).count(b'\n') - 6


# Runs.

def at_budgets(draws, count):
    """Runs with a budget of what they take, one less and one more."""
    for _ in range(count):
        seed, streams = pick(draws, QUIET), kernel(draws)
        positions, following = somewhere(draws, streams)
        needed = turns(Case(seed, tail_of(streams, MOST, positions, following)))
        for budget in (needed - 1, needed, needed + 1):
            yield Case(seed, tail_of(streams, max(budget, 0), positions, following))


def saved(cases):
    """Cases of `test_run` as such of `test_resume`."""
    for case in cases:
        streams = [cases_run.unrolled(stream) for stream in case.streams]
        yield Case(case.seed, tail_of(streams, case.budget, *case.cursor))


def of_one_thread(draws, words):
    """These words by any thread; the others have one each that passes."""
    streams = [[asm.nop()] for _ in range(3)]
    streams[draws.draw() % 3] = words
    return Case(pick(draws, QUIET), tail_of(streams, MOST, (0, 0, 0), draws.draw() % 3))


def each_opcode(draws):
    """All 256 opcodes with no bit below set, and with any bits."""
    for opcode in range(256):
        yield of_one_thread(draws, [opcode << 24, opcode << 24 | draws.word() & 0xFFFFFF])


def each_edge(draws):
    """The last numbers in range and the first out of it, of each field that has a limit."""
    for word in edges():
        yield of_one_thread(draws, [asm.nop(), word])


def stuck_late(following):
    """1,365 NOPs of thread 0, while thread 1 waits for a mutex that thread 2 holds. It is stuck after 4,096 turns, or one or two
    more, as thread 0, 2 or 1 is the first."""
    tail = tail_of([[], [asm.atgetm(0)], []], MOST, (FULL - 1365, 0, 0), following)
    return Case(QUIET[0], struct.pack('<I', 4 * FULL) + tail[4:], MUTEXES, 3, fill_at=6, fill=4 * FULL)


def long_runs():
    """About 4,096 turns, by the budget or by what they take; the end of a full stream; positions out of it."""
    yield from (nops(budget % 3, FULL, FULL - 1400, budget) for budget in (MOST, 4095, 4096, 4097))
    yield from (stuck_late(following) for following in range(3))
    for thread in range(3):
        yield from (nops(thread, FULL, position, 7) for position in (FULL - 1, FULL, FULL + 1))


# Bad inputs: some of those of `test_resume`.

def bad_inputs(draws):
    for scene, step in ((cut_inputs(draws), 8), (set_bytes(draws, 16), 1), (set_records(), 30), (other_records(), 6)):
        yield from list(scene)[::step]


# Cases.

def in_pieces(cases):
    """Each case with pieces of 1 turn, of 3, and of two other sizes."""
    count = len(OTHER_SIZES)
    for at, case in enumerate(cases):
        for size in (1, 3, OTHER_SIZES[at % count], OTHER_SIZES[(at + 3) % count]):
            yield size, case


def in_any_piece(draws, cases):
    for case in cases:
        yield pick(draws, SIZES), case


def several_times():
    """The runs that occur with several sizes; those of loops have some hundred turns."""
    draws = seeded.Draws(61)
    loops, hurdles = cases_run.kernels(draws, 12), list(cases_run.hurdle_runs(draws))[::5]
    scenes = (kernels(draws, 80), runs(draws, QUIET, 60, lambda d: mixed(d, 0)), runs(draws, ANY, 30, lambda d: mixed(d, 0)),
              runs(draws, QUIET, 25, lambda d: mixed(d, 40)), list(waiting_runs(draws))[::2], at_budgets(draws, 16),
              saved(loops), saved(hurdles), rejected(draws, 15))
    return [case for scene in scenes for case in scene]


def once():
    draws = seeded.Draws(62)
    return list(in_any_piece(draws, chain(each_opcode(draws), each_edge(draws), rejected(draws, 30), bad_inputs(draws))))


def cases():
    """Pairs of a piece and a case."""
    return [*in_pieces(several_times()), *once(), *((4096, case) for case in long_runs())]


# Files.

# Thread 1 waits until thread 0 has posted; thread 0 then waits for SrcB's bank, for good.
SMALL = Case(QUIET[0], tail_of([[asm.nop(), asm.cleardvalid(reset=1), asm.seminit(1, 0, 3), asm.nop(), asm.sempost(1),
                                 asm.trnspsrcb()],
                                [asm.setdmareg(8, 0x1234), asm.semwait(B5, 1, 1), asm.dmanop()],
                                [asm.rmwcib(3, 10, 0xF0, 0xAB)]], 100, (1, 0, 0), 2))


def files_to_come():
    """Those of the crates `trace` and `test_trace`, which are still to come."""
    made = cases()
    return {
        'crates/trace/stdin': input_of(SMALL),
        'crates/trace/stdout': answer(SMALL),
        f'{FOLDER}/stdin': b''.join(struct.pack('<I', piece) + packed(case) for piece, case in made),
        f'{FOLDER}/stdout': b''.join(answer(case) for _, case in made),
    }


def files():
    """None is stored before those crates stand."""
    return {}


def ending(output):
    """The first of the last six lines, or the only one."""
    return output.decode().splitlines()[-6:][0]


def main():
    made = cases()
    ends = Counter(ending(answer(case)).rstrip('0123456789') for _, case in made)
    for line, count in sorted(ends.items()):
        print(f'{count:6} {line}')
    print(f'{len(made):6} cases')


if __name__ == '__main__':
    main()
