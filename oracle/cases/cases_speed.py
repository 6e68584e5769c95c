"""Cases of `test_speed` and `test_expander_speed`, the programs that benches/run times: a few jobs of each kind, so that what is timed is
also right.

A job is numbers of 4 bytes: kind, repetitions, seed, limit, three counts of words, then the words. benches/jobs.py has what
each kind makes of them; the streams here are drawn anew, so that nothing of benches/ is relied on.
"""

import struct
import zlib

import assemble as asm
import seeded
from expander import FRESH, expand
from image import SIZE, load, save
from machine import fresh
from run import START, run

SPEED, EXPANDER = 'crates/test_speed', 'crates/test_expander_speed'
CONTROL = ('mutexes', 'semaphores', 'waits', 'owners', 'pointers')
ENDS = {('finished',): 0, ('stuck',): 1, ('budget',): 2}


def packed(kind, times, seed, limit, parts=((), (), ())):
    numbers = [kind, times, seed, limit, *map(len, parts), *(word for part in parts for word in part)]
    return struct.pack(f'<{len(numbers)}I', *numbers)


def of_seed(seed):
    return seeded.machine(seed) if seed else fresh()


def run_case(times, seed, budget, streams):
    """Only the stores are the seed's. Each run starts the streams anew, on the machine that the last one left. The line has the
    numbers and causes of the last stalls that the last run hands on, added up."""
    machine, new, turns, end, stalls = of_seed(seed), fresh(), 0, 0, 0
    for part in CONTROL:
        setattr(machine, part, getattr(new, part))
    for _ in range(times):
        ran = run(machine, streams, START, budget)
        turns += ran.turns
        stalls = sum(sum(stall) for stall in ran.stalls if stall)
        end = ENDS.get(ran.answer)
        if end is None:
            end = {'refused': 100, 'rejected': 200}[ran.answer[0]] + ran.answer[1]
    return packed(1, times, seed, budget, streams), f'run {end} {turns} {stalls} {seeded.digest(machine)}'


def save_case(times, seed, room):
    output = bytearray(room)
    answer = save(of_seed(seed), output) if times else ('saved', SIZE)
    return packed(2, times, seed, room), f'save {answer[1] if answer[0] == "refused" else 0} {zlib.adler32(output)}'


def load_case(times, seed):
    saved, machine = bytearray(SIZE), fresh()
    save(of_seed(seed), saved)
    if times:
        load(machine, bytes(saved))
    return packed(3, times, seed, 0), f'load 0 {seeded.digest(machine)}'


def expand_case(times, high, room, nine, stream):
    """From the high mask, fresh slots and no load; each call takes what the last one handed back."""
    output, answer, carried = [0] * room, ('filled', 0), FRESH._replace(high=high)
    for _ in range(times):
        answer, carried = expand(carried, nine, stream, output)
    refusal, words = (answer[1], 0) if answer[0] == 'refused' else (0, answer[1])
    sum_of = zlib.adler32(struct.pack(f'<{room}I', *output))
    return packed(4, times, high, room, (nine, stream, ())), f'expand {refusal} {words} {carried.high} {sum_of}'


BLOCK = 0b11100010  # B1, B5, B6, B7


def handshake(draws, rounds):
    """Thread 0 hands faces of SrcB to thread 1 by semaphore 2, and thread 2 takes turns with both at mutex 5."""
    streams = [[asm.seminit(4, 0, 2)], [asm.nop()] * 2, [asm.nop()] * 2]
    for _ in range(rounds):
        work = [asm.setdmareg(draws.draw() % 128, draws.draw()) for _ in range(draws.draw() % 6)]
        streams[0] += [asm.semwait(BLOCK, 4, 2), *work, asm.wrcfg(draws.draw() % 64, draws.draw() % 255), asm.setdvalid(a=1, b=1),
                       asm.sempost(4)]
        streams[1] += [asm.semwait(BLOCK, 4, 1), asm.stallwait(1 << 6, 1 << 8), asm.trnspsrcb(),
                       asm.movb2a(draws.draw() % 64, draws.draw() % 64, draws.draw() % 2), asm.zeroacc(0, draws.draw() % 1024),
                       asm.cleardvalid(a=1, b=1), asm.semget(4)]
        streams[2] += [asm.atgetm(5), asm.rdcfg(draws.draw() % 64, draws.draw() % 256), asm.setc16(draws.draw() % 64, draws.draw()),
                       asm.muldmareg(*(draws.draw() % 64 for _ in range(3))), asm.atrelm(5)]
    return streams


def mop_cases():
    nine = [3, 4] + [0x02000000 + i for i in range(2, 9)]
    stream = [asm.mop(0, 40, 0x5A5A), asm.mop_cfg(0xC3C3), asm.mop(1, 0, 0), asm.mop(0, 33, 0x0FF0), asm.nop()]
    for times, room in ((1, 400), (2, 400), (1, 20), (0, 5)):
        yield expand_case(times, 0x1111, room, nine, stream)
    yield expand_case(1, 2, 400, [128] + nine[1:], stream)
    yield expand_case(1, 2, 400, nine[:8], stream)


def replay_cases():
    """Loops recorded from words and MOPs, and played from the stream and the nine words; what a call loads the next one plays."""
    nine = [3, 4] + [0x02000000 + i for i in range(2, 9)]
    load = [asm.replay(30, 6, 0, 1), asm.setdmareg(1, 2), asm.mop_cfg(0x00F0), asm.mop(0, 20, 0x0505)]
    shown = [asm.replay(3, 4, 1, 1), asm.replay(0, 0), asm.mop(1), asm.dmanop()]
    stream = [asm.replay(0, 32), *load, asm.replay(29, 8), *shown, asm.replay(2, 6), asm.mop(1)]
    cut_off = [asm.replay(9, 5, 0, 1), asm.replay(1, 33)]
    for times, room in ((1, 400), (3, 400), (1, 100)):
        yield expand_case(times, 0x1111, room, nine, stream + cut_off)
    yield expand_case(2, 5, 400, nine, stream + cut_off[1:])
    playing = [4, 3, asm.replay(31, 2, 0, 1), asm.dmanop(), asm.replay(31, 3), asm.replay(30, 4), *nine[6:]]
    for times, words in ((1, [asm.mop(1)]), (2, [*load, asm.mop(1), asm.mop(0, 5, 7), asm.mop(1)]), (2, stream)):
        yield expand_case(times, 5, 1000, playing, words)
    yield expand_case(2, 5, 1, [3, 128] + nine[2:], [asm.nop()] * 2 + [asm.replay(0, 0), asm.mop(1)])
    yield expand_case(2, 5, 1, [3, 128] + nine[2:], [asm.nop()] * 2 + [asm.mop(1), asm.replay(0, 0)])


def load_cases():
    """Loads that go over the end of a call: the next call's words, or those of its MOPs, fill them, also a REPLAY that would be
    refused; or the call ends before they are full."""
    nine = [3, 4] + [0x02000000 + i for i in range(2, 9)]
    for shown in (0, 1):
        stream = [asm.setdmareg(1, 2), asm.dmanop(), asm.replay(0, 32), asm.replay(29, 7, shown, 1), asm.adddmareg(1, 2, 3)]
        for times in (1, 2, 3):
            yield expand_case(times, 0x1111, 400, nine, stream)
        yield expand_case(4, 0x1111, 400, nine, [asm.mop_cfg(0x0101), asm.mop(0, 25, 0x2222), asm.replay(31, 32, shown, 1)])
        yield expand_case(3, 5, 400, nine, [asm.dmanop(), asm.replay(3, 32, shown, 1), asm.mop(0, 1, 1)])
        playing = [*nine[:5], asm.replay(31, 4), *nine[6:]]
        yield expand_case(3, 5, 400, playing, [asm.mop(1), asm.replay(2, 20, shown, 1), asm.dmanop()])
    # By the mask of the first call the last word of the next one's MOP is a REPLAY of 33 words: a load of 17 takes it.
    for length in (16, 17):
        stream = [asm.mop(0, 16), asm.mop_cfg(1), asm.replay(3, length, 0, 1)]
        yield expand_case(2, 0, 400, [*nine[:7], asm.replay(1, 33), nine[8]], stream)
    for times in (1, 2, 3):
        yield expand_case(times, 5, 1, nine, [asm.dmanop(), asm.replay(3, 2, 0, 1)])


def machine_cases():
    draws = seeded.Draws(77)
    streams = handshake(draws, 12)
    for times, seed, budget in ((1, 0, 1000000), (3, 5, 1000000), (2, 6, 150), (1, 7, 0), (0, 8, 10), (1, 9, 1000001)):
        yield run_case(times, seed, budget, streams)
    yield run_case(1, 0, 100, [streams[0][:9] + [0xFF000000], streams[1], streams[2]])
    yield run_case(1, 0, 100, [[asm.wrcfg(1, 256)], [], []])
    yield run_case(2, 3, 100, [[asm.setdmareg(8, 0x1234)], [asm.trnspsrcb()], []])
    yield from (save_case(*case) for case in ((1, 0, SIZE), (2, 4, SIZE + 7), (1, 4, SIZE - 1), (0, 4, 100)))
    yield from (load_case(*case) for case in ((1, 0), (2, 4), (0, 4)))


def expander_cases():
    yield from mop_cases()
    yield from replay_cases()
    yield from load_cases()


def files_of(folder, cases):
    made = list(cases)
    return {f'{folder}/stdin': b''.join(job for job, _ in made),
            f'{folder}/stdout': ''.join(line + '\n' for _, line in made).encode()}


def files():
    return files_of(SPEED, machine_cases()) | files_of(EXPANDER, expander_cases())
