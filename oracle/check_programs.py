"""Runs the programs themselves, as rt built them, and compares what they print with the reference program.

    python3 oracle/check_programs.py    after `rt ci`, or `rt run` in the folder of each

Each is run on its longest sound input, on that with one byte more and with a megabyte more, and on the examples that it reads;
`expand` also on inputs at its limits, with loads, closes, refused, damaged and drawn. rt runs a program on one stored input
alone, and these are too many or too long to be stored. What is run is LLVM's build, crates/NAME/out/NAME.
"""

import subprocess
import sys
from pathlib import Path

import assemble as asm
import seeded
from cases import cases_expand
from cases.cases_run import WORK, pick
from image import image_of
from program import EMULATE_WORDS, PROGRAMS
from run import STREAM_LIMIT

TOP = Path(__file__).resolve().parent.parent
PREFIXES = {'emulate': '', 'resume': 'saved_', 'trace': 'saved_', 'expand': 'recorded_'}  # of the examples that each reads
BUILT = ('emulate', 'resume', 'expand')  # `trace` is still to come


def full_streams(words):
    """Three streams of so many words, each of which leaves its mark in a register."""
    return [[asm.setdmareg((7 * at + thread) % 128, at % 65536) for at in range(words)] for thread in range(3)]


def with_more(longest):
    return {'longest': longest, 'a byte more': longest + b'\0', 'a megabyte more': longest + bytes(1 << 20)}


def prefix_of(name):
    """The longest prefix that an example's name has."""
    return max((prefix for prefix in PREFIXES.values() if name.startswith(prefix)), key=len)


def examples(program):
    """The examples that a program reads."""
    found = sorted((TOP / 'examples').glob('*.bin'))
    return {path.name: path.read_bytes() for path in found if prefix_of(path.name) == PREFIXES[program]}


def emulate_inputs():
    return with_more(asm.emulate_input(full_streams(EMULATE_WORDS), 1000000))


def resume_inputs():
    """The run begins shortly before the streams' ends, so that it reads their last words."""
    image, streams = image_of(seeded.machine(3)), full_streams(STREAM_LIMIT)
    return with_more(asm.resume_input(image, streams, 1000000, (STREAM_LIMIT - 100,) * 3, 1))


def long_run():
    """A run of two turns less than any can have: one thread passes at a time, 0, then 2, then 1. Thread 2 waits for a mutex that
    thread 0 holds to its end, thread 1 for a semaphore that thread 2 posts at its end. Thread 1's last word waits for good."""
    machine, draws = seeded.machine(3), seeded.Draws(58)
    machine.mutexes[0], machine.semaphores[0], machine.waits = 1, [0, 1], [None, ('semaphore', 511, 1, 1), None]
    streams = [[pick(draws, WORK)(draws) for _ in range(STREAM_LIMIT)] for _ in range(3)]
    streams[0][-1] = asm.atrelm(0)
    streams[2][0], streams[2][-1] = asm.atgetm(0), asm.sempost(1)
    streams[1][0], streams[1][-1] = asm.dmanop(), asm.atgetm(0)
    return asm.resume_input(image_of(machine), streams, 1000000, (0, 0, 0), 1)


def trace_inputs():
    return {**resume_inputs(), 'a long run': long_run()}


def expand_inputs():
    return {**with_more(cases_expand.longest()), **cases_expand.named_inputs()}


def inputs(program):
    """The inputs of a program, by what they are."""
    made = {'emulate': emulate_inputs, 'resume': resume_inputs, 'trace': trace_inputs, 'expand': expand_inputs}[program]()
    return {**made, **examples(program)}


def main():
    """The exit code."""
    wrong = tried = 0
    for program in BUILT:
        for name, data in inputs(program).items():
            built = TOP / 'crates' / program / 'out' / program
            came = subprocess.run([built], input=data, stdout=subprocess.PIPE, check=False).stdout
            tried += 1
            if came != PROGRAMS[program](data):
                wrong += 1
                print(f'{program} differs on: {name} ({len(data)} bytes)')
    print(f'{tried} inputs of {", ".join(BUILT)} run: {wrong} differ')
    return int(wrong > 0)


if __name__ == '__main__':
    sys.exit(main())
