#!/usr/bin/env python3
"""Write the input files of the examples: `python3 examples/make.py`.

A kernel here is three lists of words, one a thread, and a budget of turns. Each file NAME.bin is what `./emulate` reads,
saved_NAME.bin what `./resume` and `./trace` read, and recorded_NAME.bin what `./expand` reads; recorded_NAME.nine and
recorded_NAME.stream are the same for `./expand NINE STREAM OUT`.
"""

import os
import struct
import sys

HERE = os.path.dirname(os.path.abspath(__file__))
sys.path.insert(0, os.path.join(HERE, '..', 'oracle'))

import assemble as asm  # noqa: E402
from expander import FRESH, NEEDED_LIMIT  # noqa: E402
from image import image_of  # noqa: E402
from machine import MATRIX, fresh  # noqa: E402

B1, B5, B6 = 1 << 1, 1 << 5, 1 << 6  # block bits: sync, scalar and matrix words
C8 = 1 << 8  # stall condition: SrcB's matrix bank is not Matrix's
ZERO = 1  # semaphore condition: some masked value is zero

# Case P of document 01: thread 0 sets a register, thread 1 waits for a bank that nobody hands over.
case_p = ([asm.setdmareg(8, 0x1234)], [asm.trnspsrcb()], [])

# Math and pack in step, twice: math posts semaphore 0 when a half of Dest is full; pack waits until it is not zero,
# takes it, and would pack. It ends finished.
math = [asm.setdmareg(0, 1), asm.sempost(1), asm.setdmareg(0, 2), asm.sempost(1)]
pack = [asm.semwait(B1 | B5, 1, ZERO), asm.semget(1), asm.dmanop()] * 2
handshake = ([], math, pack)

# Unpack hands SrcB's bank over with SETDVALID; math waits for it with STALLWAIT C8, transposes the face and gives the
# bank back with CLEARDVALID. It ends finished.
unpack = [asm.nop(), asm.nop(), asm.setdvalid(b=1)]
transpose = [asm.stallwait(B6, C8), asm.trnspsrcb(), asm.cleardvalid(b=1)]
bank_handed_over = (unpack, transpose, [])

# Two threads take two mutexes in opposite order: each holds one and waits for the other. It ends stuck, and stays so.
deadlock = ([asm.atgetm(0), asm.nop(), asm.atgetm(1)], [asm.atgetm(1), asm.nop(), asm.atgetm(0)], [])

# A word that the machine does not know, after work that stays: it ends refused 2 with thread 0 at the bad word.
refused_word = ([asm.setdmareg(8, 0x1234), asm.mop(count=3)], [asm.nop()], [])

# A loop recorded and played: REPLAY takes the four words behind it into slots 0 to 3, and the MOP plays them in each of its two
# by three rounds, each time with a DMANOP after them. 36 words come out.
recorded_nine = [2, 3, asm.setdmareg(8, 0), asm.sempost(1), asm.nop(), asm.replay(0, 4), asm.dmanop(), asm.dmanop(), asm.dmanop()]
loop = [asm.adddmareg(4, 4, 1, 1), asm.wrcfg(4, 8), asm.movb2a(0, 16, four=1), asm.zeroacc(0, 4)]
recorded_stream = [asm.replay(0, 4, load=1), *loop, asm.mop(template=1)]


def saved_transpose():
    """A saved machine whose SrcB bank 0 is Matrix's and holds the numbers 0 to 1023; thread 1 transposes its face. In the image
    that is printed rows 16 to 31 are turned: cell 1 of row 16 was 257 and is 272. It ends finished."""
    machine = fresh()
    machine.owners[2] = MATRIX
    machine.src_b[0] = [[16 * row + column for column in range(16)] for row in range(64)]
    return asm.resume_input(image_of(machine), [[], [asm.trnspsrcb()], []], 100, (0, 0, 0), 0)


def saved_deadlock():
    """The deadlock again, turn by turn: thread 0 takes mutex 0 and tells thread 2 of its work, thread 1 takes mutex 1, and then each
    asks for the other's. Thread 2 waits for that work, takes it and is done. It ends stuck; `./trace` shows how it came about."""
    first = [asm.atgetm(0), asm.setdmareg(8, 0x1234), asm.sempost(1), asm.atgetm(1), asm.atrelm(1), asm.atrelm(0)]
    second = [asm.atgetm(1), asm.nop(), asm.atgetm(0), asm.atrelm(0), asm.atrelm(1)]
    third = [asm.semwait(B1 | B5, 1, ZERO), asm.semget(1), asm.setdmareg(8, 0x5678)]
    return asm.resume_input(image_of(fresh()), [first, second, third], 100, (0, 0, 0), 0)


EXAMPLES = {
    'case_p': case_p,
    'handshake': handshake,
    'bank_handed_over': bank_handed_over,
    'deadlock': deadlock,
    'refused_word': refused_word,
}


def words(numbers):
    return struct.pack(f'<{len(numbers)}I', *numbers)


def write(name, data):
    with open(os.path.join(HERE, name), 'wb') as out:
        out.write(data)


if __name__ == '__main__':
    for name, streams in EXAMPLES.items():
        write(f'{name}.bin', asm.emulate_input(streams, 100))
    write('saved_transpose.bin', saved_transpose())
    write('saved_deadlock.bin', saved_deadlock())
    write('recorded_loop.bin', asm.expand_input(recorded_nine, FRESH, recorded_stream, NEEDED_LIMIT))
    write('recorded_loop.nine', words(recorded_nine))
    write('recorded_loop.stream', words(recorded_stream))
