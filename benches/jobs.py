"""The jobs that both sides are given: numbers of 4 bytes, little-endian.

A job is kind, repetitions, seed, limit and three counts of words, then the words.
1 run     three streams, the limit is the budget; the seed's stores (0: zero) with a fresh control part
2 save    the seed's machine (0: fresh) into an output of as many bytes as the limit says
3 load    the image of the seed's machine
4 expand  the nine words, then the stream; the limit is the room, the seed the high mask; the slots are fresh, without a load
"""

import struct
import sys
from pathlib import Path

sys.path.insert(0, str(Path(__file__).resolve().parent.parent / 'oracle'))

import assemble as asm  # noqa: E402
import seeded  # noqa: E402
from expander import FRESH, expand  # noqa: E402
from image import image_of  # noqa: E402
from machine import fresh  # noqa: E402
from seeded import Draws  # noqa: E402

RUN, SAVE, LOAD, EXPAND = 1, 2, 3, 4
STREAM = 65536
IMAGE = 48473

SYNC, SCALAR, MATRIX, CONFIG = 1 << 1, 1 << 5, 1 << 6, 1 << 7
ALL = SYNC | SCALAR | MATRIX | CONFIG
ZERO, FULL = 1, 2  # semaphore conditions
SRC_B_NOT_MATRIX = 1 << 8


def job(kind, times, seed=0, limit=0, parts=((), (), ())):
    parts = [list(part) for part in parts]
    numbers = [kind, times, seed, limit] + [len(part) for part in parts] + sum(parts, [])
    return struct.pack(f'<{len(numbers)}I', *numbers)


# A handshake of three threads: thread 0 unpacks, thread 1 does the matrix work, thread 2 packs. Semaphore 0 counts the faces
# handed to thread 1, at most two; semaphore 1 the results handed to thread 2.

def gpr_words(draws):
    """Up to eleven words of GPR arithmetic, so that now one thread waits and now another."""
    makes = ('SETDMAREG', 'ADDDMAREG', 'MULDMAREG')
    return [SINGLE[makes[draws.draw() % 3]](draws) for _ in range(draws.draw() % 12)]


def unpack_round(draws, _):
    return [
        asm.semwait(ALL, 1, FULL),
        *gpr_words(draws),
        SINGLE['WRCFG'](draws),
        SINGLE['RMWCIB'](draws),
        asm.setdvalid(a=1, b=1),
        asm.sempost(1),
    ]


def matrix_round(draws, r):
    return [
        asm.semwait(ALL, 1, ZERO),
        asm.stallwait(MATRIX, SRC_B_NOT_MATRIX),
        asm.movb2a(draws.draw() % 64, draws.draw() % 64, draws.draw() % 2),
        asm.trnspsrcb() if r % 16 == 0 else asm.zeroacc(0, draws.draw() % 1024),
        *gpr_words(draws),
        asm.cleardvalid(a=1, b=1),
        asm.semget(1),
        asm.semwait(ALL, 2, FULL),
        asm.sempost(2),
    ]


def pack_round(draws, _):
    return [
        asm.semwait(ALL, 2, ZERO),
        asm.atgetm(3),
        SINGLE['RDCFG'](draws),
        *gpr_words(draws),
        SINGLE['WRCFG of four'](draws),
        SINGLE['SETC16'](draws),
        asm.atrelm(3),
        asm.nop() if draws.draw() % 2 else asm.dmanop(),
        asm.semget(2),
    ]


def mixed_streams(seed=1, words=STREAM):
    """Equally many rounds for each thread. The streams start by putting banks and semaphores back, so that a run can follow
    one that was cut off."""
    draws, r = Draws(seed), 0
    streams = [[asm.cleardvalid(reset=1), asm.seminit(3, 0, 2)], [asm.nop()] * 2, [asm.nop()] * 2]
    while True:
        rounds = [make(draws, r) for make in (unpack_round, matrix_round, pack_round)]
        if any(len(stream) + len(more) > words for stream, more in zip(streams, rounds)):
            return streams
        for stream, more in zip(streams, rounds):
            stream += more
        r += 1


# Thread 0 works, and the others wait for it: thread 1 for a semaphore and then for a bank, thread 2 for a mutex.

def stalling_streams(seed=1, words=STREAM, part=20):
    """Rounds of two parts of GPR arithmetic. Thread 0 goes on once thread 2 gives the mutex back."""
    draws, makes = Draws(seed), [SINGLE[name] for name in ('SETDMAREG', 'ADDDMAREG', 'MULDMAREG')]
    streams = [[asm.cleardvalid(reset=1), asm.seminit(1, 0, 1)], [asm.nop()] * 2, [asm.nop()] * 2]
    while True:
        first, second = ([makes[draws.draw() % 3](draws) for _ in range(part)] for _ in range(2))
        rounds = [
            [asm.atgetm(3), *first, asm.sempost(1), *second, asm.setdvalid(b=1), asm.atrelm(3)],
            [asm.semwait(ALL, 1, ZERO), asm.trnspsrcb(), asm.cleardvalid(b=1), asm.semget(1)],
            [asm.atgetm(3), asm.atrelm(3)],
        ]
        if any(len(stream) + len(more) > words for stream, more in zip(streams, rounds)):
            return streams
        for stream, more in zip(streams, rounds):
            stream += more


# One kind of word alone, on all three threads: its fields at random, and for some words also as a kernel has them.

SINGLE = {
    'NOP': lambda d: asm.nop(),
    'SETDMAREG': lambda d: asm.setdmareg(d.draw() % 128, d.draw()),
    'ADDDMAREG': lambda d: asm.adddmareg(d.draw() % 64, d.draw() % 64, d.draw() % 64, d.draw() % 2),
    'MULDMAREG': lambda d: asm.muldmareg(d.draw() % 64, d.draw() % 64, d.draw() % 64, d.draw() % 2),
    'DMANOP': lambda d: asm.dmanop(),
    'SETDVALID': lambda d: asm.setdvalid(d.draw() % 2, d.draw() % 2),
    'SETDVALID of both': lambda d: asm.setdvalid(1, 1),
    'CLEARDVALID': lambda d: asm.cleardvalid(d.draw() % 2, d.draw() % 2, d.draw() % 2),
    'CLEARDVALID of both': lambda d: asm.cleardvalid(1, 1),
    'ATRELM': lambda d: asm.atrelm(d.draw() % 8),
    'STALLWAIT': lambda d: asm.stallwait(SCALAR, d.draw() % 32768),
    'SEMINIT': lambda d: asm.seminit(d.draw() % 256, d.draw() % 16, d.draw() % 16),
    'SEMINIT of one': lambda d: asm.seminit(1, d.draw() % 16, d.draw() % 16),
    'SEMPOST': lambda d: asm.sempost(d.draw() % 256),
    'SEMPOST of one': lambda d: asm.sempost(1),
    'SEMGET': lambda d: asm.semget(d.draw() % 256),
    'SEMGET of one': lambda d: asm.semget(1),
    'SEMWAIT': lambda d: asm.semwait(SCALAR, d.draw() % 256, d.draw() % 4),
    'WRCFG': lambda d: asm.wrcfg(d.draw() % 64, d.draw() % 255),
    'WRCFG of four': lambda d: asm.wrcfg(d.draw() % 64, d.draw() % 252, 1),
    'RDCFG': lambda d: asm.rdcfg(d.draw() % 64, d.draw() % 256),
    'SETC16': lambda d: asm.setc16(1 + d.draw() % 63, d.draw()),
    'RMWCIB': lambda d: asm.rmwcib(d.draw() % 4, d.draw() % 255, d.draw() % 256, d.draw() % 256),
    'RMWCIB0': lambda d: asm.rmwcib(0, d.draw() % 255, d.draw() % 256, d.draw() % 256),
    'ZEROACC of a row': lambda d: asm.zeroacc(0, d.draw() % 512, d.draw() % 2),
    'ZEROACC of 16 rows': lambda d: asm.zeroacc(1, d.draw() % 32, d.draw() % 2),
    'ZEROACC of a half': lambda d: asm.zeroacc(2, d.draw() % 2, d.draw() % 2),
    'ZEROACC of all': lambda d: asm.zeroacc(3, 0, d.draw() % 2),
    'MOVB2A': lambda d: asm.movb2a(d.draw() % 64, d.draw() % 64),
    'MOVB2A of four': lambda d: asm.movb2a(d.draw() % 64, d.draw() % 64, 1),
    'TRNSPSRCB': lambda d: asm.trnspsrcb(),
}


def single_streams(name, words=8192):
    """SrcB's bank is handed to Matrix first."""
    draws = Draws(7)
    make = SINGLE[name]
    first = [asm.setdvalid(b=1)] + [make(draws) for _ in range(words - 1)]
    return [first, [asm.nop()] + [make(draws) for _ in range(words - 1)], [asm.nop()] + [make(draws) for _ in range(words - 1)]]


# The expander.

NINE = [6, 10] + [0x02000000 + i for i in range(2, 9)]


def expand_stream(words=65536, seed=3):
    """MOP words of both templates, MOP_CFG words and others, that need at most so many words."""
    draws, stream, needed = Draws(seed), [], 0
    while True:
        kind = draws.draw() % 16
        if kind < 4:
            count = draws.draw() % 128
            word, gives = asm.mop(0, count, draws.draw()), (count + 1) * 4
        elif kind < 6:
            word, gives = asm.mop(1, draws.draw() % 128, draws.draw()), NINE[0] * (3 + 2 * NINE[1])
        elif kind < 7:
            word, gives = asm.mop_cfg(draws.draw()), 0
        else:
            word, gives = asm.nop() | draws.draw(), 1
        if needed + gives > words:
            return stream + [asm.nop()] * (words - needed)
        stream.append(word)
        needed += gives


# m5 plays slots 0 to 3 in each inner round of template 1; m3 to m8 are what template 0 gives.
NINE_WITH_REPLAY = [6, 10] + [0x02000000 + i for i in range(2, 5)] + [asm.replay(0, 4, 0, 0)] + [0x02000000 + i for i in range(6, 9)]


def replay_part(draws):
    """A loop as kernel writers record it: words and a MOP fill the slots, which are then played; MOPs and other words beside it.
    The load is over before the first play, since a MOP of template 0 gives at least 32 words here."""
    start, length, shown = draws.draw() % 32, 1 + draws.draw() % 32, draws.draw() % 2
    loaded = [asm.nop() | draws.draw() for _ in range(draws.draw() % length)]
    loaded += [asm.mop(0, 7 + draws.draw() % 24, draws.draw()), asm.mop_cfg(draws.draw())]
    plays = [asm.replay(start, length, 0, 0)] * (4 + draws.draw() % 8)
    beside = [asm.mop(1, 0, 0)] * (draws.draw() % 3) + [asm.nop() | draws.draw() for _ in range(draws.draw() % 8)]
    return [asm.replay(start, length, shown, 1)] + loaded + plays + beside


def replay_stream(nine, words=65536, seed=3):
    """Such loops, and words that fill up what they need to so many."""
    draws, stream, needed, carried = Draws(seed), [], 0, FRESH
    while True:
        part = replay_part(draws)
        answer, after = expand(carried, nine, part, [0] * words)
        if needed + answer[1] > words:
            return stream + [asm.nop()] * (words - needed)
        stream, needed, carried = stream + part, needed + answer[1], after


# Inputs of the program `trace`.

CONTROL = ('mutexes', 'semaphores', 'waits', 'owners', 'pointers')


def trace_input(streams, budget, seed=9):
    """The seed's stores with a fresh control part, as a job of kind 1 has them."""
    machine, new = seeded.machine(seed), fresh()
    for part in CONTROL:
        setattr(machine, part, getattr(new, part))
    return asm.resume_input(image_of(machine), streams, budget)
