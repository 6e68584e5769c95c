"""Cases of `test_resume`: runs from an image to the image after, and inputs that are bad; and one input of `resume`.

    cd oracle && python3 -m cases.cases_resume    prints how many cases have each first line

A case's input is the image of a seed's machine and bytes that follow it, some of them bytes 2 in a row (four are a NOP); then
one byte of it all may be set, and its end cut off.
"""

import struct
import zlib
from collections import Counter, namedtuple
from functools import lru_cache

import assemble as asm
import seeded
from image import RECORDS, SIZE, image_of, read_image
from likely import MAKERS, likely_word
from program import resume

FOLDER = 'crates/test_resume'
NOP = asm.nop()
FULL = 65536  # words of a stream, at most
MOST = 1000000  # turns, at most
NONE = 0xFFFFFFFF

# `fill`: so many bytes 2, `fill_at` bytes into the tail.
Case = namedtuple('Case', 'seed tail place byte keep fill_at fill', defaults=(NONE, 0, NONE, 0, 0))


# Machines.

@lru_cache(maxsize=None)
def seed_image(seed):
    return image_of(seeded.machine(seed))


@lru_cache(maxsize=64)
def loaded(image):
    return read_image(image)


def load(image):
    """As read_image, which is slow: the same image is read once."""
    answer = loaded(image)
    return answer if answer[0] == 'refused' else ('loaded', answer[1].copy())


def quiet(seed):
    """Whether a seed's machine has no waits, which are drawn after 8 mutexes and 8 semaphores."""
    draws = seeded.Draws(seed)
    for _ in range(24):
        draws.draw()
    return [draws.wait() for _ in range(3)] == [None] * 3


QUIET = [seed for seed in range(7000, 9000) if quiet(seed)][:20]
ANY = list(range(9000, 9012))


def pick(draws, items):
    return items[draws.draw() % len(items)]


# Streams.

WORK = [maker for maker in MAKERS if maker(seeded.Draws(1)) >> 24 in (0x02, 0x10, 0x45, 0x58, 0x5A, 0xB0, 0xB1, 0xB2, 0xB3)]
B1, B5, B6, B7 = (1 << bit for bit in (1, 5, 6, 7))


def work(draws):
    return [pick(draws, WORK)(draws) for _ in range(draws.draw() % 3)]


def feeder(draws, mask):
    """Hands a bank of each file to Matrix, once Unpackers own it."""
    return [asm.stallwait(B6 | pick(draws, (0, B5, B7)), 0x60), *work(draws), asm.setdvalid(1, 1)]


def matrix(draws, mask):
    """Works on the banks, hands them back and tells so."""
    row = asm.movb2a(draws.draw() % 64, draws.draw() % 64, draws.draw() % 2)
    return [asm.stallwait(B6, 0x180), pick(draws, (asm.trnspsrcb(), row)), asm.cleardvalid(1, 1), asm.sempost(mask)]


def packer(draws, mask):
    """Takes what was told of, and clears Dest rows."""
    clear = asm.zeroacc(draws.draw() % 2, draws.draw() % 64, draws.draw() % 2)
    return [asm.semwait(B1 | B6, mask, 1), asm.semget(mask), clear, *work(draws)]


def guarded(draws, words):
    """One thread at a time."""
    mutex = draws.draw() % 8
    return [asm.atgetm(mutex), *words, asm.atrelm(mutex)] if draws.draw() % 3 == 0 else words


def kernel(draws):
    """Three threads that wait for each other; which of them does what is drawn."""
    mask = 1 << draws.draw() % 8
    rounds = 1 + draws.draw() % 3
    start = [asm.cleardvalid(reset=1), asm.seminit(mask, 0, 1 + draws.draw() % 15)]
    parts = [feeder, matrix, packer]
    turned = draws.draw() % 3
    streams = []
    for thread, part in enumerate(parts[turned:] + parts[:turned]):
        body = [word for _ in range(rounds) for word in guarded(draws, part(draws, mask))]
        streams.append((start if thread == 0 else [NOP] * 2) + body)
    if draws.draw() % 5 == 0:
        stream = pick(draws, streams)
        stream[draws.draw() % len(stream)] = pick(draws, (0xFF000000, asm.wrcfg(index=256), asm.atgetm(9)))
    return streams


def mixed(draws, random):
    """Likely words; of a hundred, so many are any words at all."""
    return [[draws.word() if draws.draw() % 100 < random else likely_word(draws) for _ in range(draws.draw() % 8)]
            for _ in range(3)]


# Runs.

BUDGETS = (0, 1, 2, 3, 4, 6, 10, 25, 100, MOST, MOST, MOST)


def tail_of(streams, budget, positions=(0, 0, 0), following=0):
    """The records after the image."""
    return asm.resume_input(b'', streams, budget, positions, following)


def somewhere(draws, streams):
    """A cursor within its streams, mostly at their start."""
    positions = [pick(draws, (0, 0, draws.draw() % (len(stream) + 1))) for stream in streams]
    return positions, draws.draw() % 3


def runs(draws, seeds, count, make):
    for _ in range(count):
        streams = make(draws)
        yield Case(pick(draws, seeds), tail_of(streams, pick(draws, BUDGETS), *somewhere(draws, streams)))


def kernels(draws, count):
    """From the start, and mostly to the end."""
    for _ in range(count):
        budget = MOST if draws.draw() % 4 else draws.draw() % 60
        yield Case(pick(draws, QUIET), tail_of(kernel(draws), budget))


def rejected(draws, count):
    """Cursors out of their streams and budgets over the limit, one or both."""
    for turn in range(count):
        streams = mixed(draws, 0)
        positions, following = somewhere(draws, streams)
        budget = pick(draws, BUDGETS)
        if turn % 3 != 2:
            place = draws.draw() % 4
            if place == 3:
                following = pick(draws, (3, 4, NONE))
            else:
                positions[place] = pick(draws, (len(streams[place]) + 1, FULL + 1, NONE))
        if turn % 3 != 0:
            budget = pick(draws, (MOST + 1, 0x80000000, NONE))
        yield Case(pick(draws, QUIET), tail_of(streams, budget, positions, following))


def nops(thread, count, position, budget):
    """A thread with so many NOPs, from one of them on; the other threads have no words."""
    heads = b''.join(struct.pack('<IH', 4 * count if each == thread else 0, 32 + each) for each in range(3))
    positions = [position if each == thread else 0 for each in range(3)]
    tail = heads + asm.number_record(35, budget) + asm.number_record(36, *positions, thread)
    return Case(QUIET[thread], tail, fill_at=6 * (thread + 1), fill=4 * count)


def full_streams():
    """Streams of 65,536 words from near their end on, and one of 65,537; one is run whole."""
    for thread in range(3):
        for count, position, budget in ((FULL, FULL - 1, 7), (FULL, FULL, 7), (FULL, FULL + 1, 7), (FULL + 1, 0, 7),
                                        (FULL, thread * 30000, MOST)):
            yield nops(thread, count, position, budget)


# Places in the image, after the first head and ThreadConfig; waits stand between semaphores and owners, pointers after owners.
MUTEXES = 6 + 384
SEMAPHORES = MUTEXES + 8
OWNERS = SEMAPHORES + 16 + 15


def waiting(draws, seeds, streams, place=NONE, byte=0):
    return Case(pick(draws, seeds), tail_of(streams, MOST, (0, 0, 0), draws.draw() % 3), place, byte)


def waiting_runs(draws):
    """Runs in which threads wait from the start on: for a mutex, a semaphore or banks that one byte sets, or as they came."""
    for mutex in range(8):
        for holder in (1, 2, 3):
            yield waiting(draws, QUIET, [[asm.atgetm(mutex)]] * 3, MUTEXES + mutex, holder)
    for place in range(SEMAPHORES, SEMAPHORES + 16):
        seed, mask = pick(draws, QUIET), 1 << (place - SEMAPHORES) // 2
        for byte in (0, seed_image(seed)[place ^ 1]):  # zero, or value and maximum equal
            streams = [[asm.semwait(B5, mask | draws.draw() % 256 & -mask, condition), asm.dmanop()] for condition in (1, 2, 3)]
            yield waiting(draws, [seed], streams, place, byte)
    for place in range(OWNERS, OWNERS + 8):
        for byte in (0, 1):
            streams = [[asm.stallwait(B5, 0x1E0), asm.dmanop()], [asm.stallwait(B7, pick(draws, (0x40, 0x100))), asm.setc16(1, 1)],
                       [asm.trnspsrcb()]]
            yield waiting(draws, QUIET, streams, place, byte)
    blocked = [asm.dmanop(), asm.setc16(1, 1), asm.setdvalid(), asm.sempost(0)]
    for seed in ANY:
        yield waiting(draws, [seed], [blocked[turn:] + blocked[:turn] for turn in range(3)])


# Bad inputs.

PLAIN = tail_of([[NOP, asm.setdmareg(4, 0x1234)], [asm.sempost(255)], [asm.atgetm(7)]], 100, (1, 0, 0), 2)


def record_starts():
    """Where the records after the image start, and where they end."""
    return [0, 14, 24, 34, 44, len(PLAIN)]


def cut_inputs(draws):
    """The end cut off: within the image around each record's start and anywhere, and everywhere after the image."""
    starts = [0]
    for _, length in RECORDS:
        starts.append(starts[-1] + 6 + length)
    near = {start + step for start in starts for step in (-3, -2, -1, 0, 1, 4, 5, 6, 7) if 0 <= start + step < SIZE}
    for keep in sorted(near | {(draws.word() % SIZE) for _ in range(60)}):
        yield Case(ANY[0], PLAIN, keep=keep)
    for length in range(len(PLAIN) + 1):
        yield Case(ANY[1], PLAIN[:length])


def set_bytes(draws, count):
    """One byte of the image set: mostly in its first record and in heads, where it matters; some are accepted and run."""
    heads, at = [], 0
    for _, length in RECORDS:
        heads += range(at, at + 6)
        at += 6 + length
    for _ in range(count):
        place = pick(draws, (draws.draw() % 437, 390 + draws.draw() % 47, pick(draws, heads), draws.word() % SIZE))
        yield Case(pick(draws, QUIET), PLAIN, place, pick(draws, (0, 1, 2, 3, 4, 15, 16, 127, 128, 255, draws.draw() % 256)))


def set_records():
    """Each byte after the image set to several values: kinds, lengths, words, budget, cursor; the same with a bad image."""
    for at in range(len(PLAIN)):
        for value in (0, 1, 4, 32, 36, 255):
            yield Case(ANY[2], PLAIN, SIZE + at, value)
    for start in record_starts()[:-1]:
        yield Case(ANY[2], PLAIN[:start] + b'\1' + PLAIN[start + 1:], 390, 4)


def other_records():
    """Records left out, doubled, swapped, with longer or shorter bodies; bytes after the end."""
    starts = record_starts()
    records = [PLAIN[a:b] for a, b in zip(starts, starts[1:])]
    for at in range(5):
        yield Case(ANY[3], b''.join(records[:at] + records[at + 1:]))
        yield Case(ANY[3], b''.join(records[:at + 1] + records[at:]))
        swapped = records[:at] + records[at + 1:at + 2] + records[at:at + 1] + records[at + 2:]
        yield Case(ANY[3], b''.join(swapped))
        for length in (0, 1, 2, 3, 4, 5, 6, 8, 12, 15, 16, 17, 20):
            changed = records[:at] + [asm.record(32 + at, bytes(length))] + records[at + 1:]
            yield Case(ANY[3], b''.join(changed))
        for length in (0x10000, 0x40000, 0x40004, 0x1000000, NONE):
            changed = records[:at] + [struct.pack('<IH', length, 32 + at)] + records[at + 1:]
            yield Case(ANY[3], b''.join(changed))
    for more in (1, 2, 6, 22, 100):
        yield Case(ANY[3], PLAIN + bytes(more))


def cases():
    draws = seeded.Draws(57)
    scenes = (kernels(draws, 800), runs(draws, QUIET, 700, lambda d: mixed(d, 0)), runs(draws, ANY, 350, lambda d: mixed(d, 0)),
              runs(draws, QUIET, 100, lambda d: mixed(d, 40)), rejected(draws, 150), full_streams(),
              cut_inputs(draws), set_bytes(draws, 300), set_records(), other_records(), waiting_runs(draws))
    return [case for scene in scenes for case in scene]


# Files.

def packed(case):
    """A case as the test program reads it."""
    numbers = (case.seed, case.place, case.byte, case.keep, case.fill_at, case.fill, len(case.tail) - case.fill_at)
    return struct.pack('<7I', *numbers) + case.tail


def input_of(case):
    """The input of `resume` that a case stands for."""
    data = bytearray(seed_image(case.seed) + case.tail[:case.fill_at] + b'\2' * case.fill + case.tail[case.fill_at:])
    if case.place < len(data):
        data[case.place] = case.byte
    return bytes(data[:case.keep])


def answer(case):
    """The lines, and a line with the sum of the whole output."""
    output = resume(input_of(case), load)
    text = output[:-SIZE] if len(output) >= SIZE else output
    return text + b'%d\n' % zlib.adler32(output)


SMALL = Case(QUIET[0], tail_of([[asm.setdmareg(8, 0x1234)], [asm.trnspsrcb()], []], 100, (0, 0, 0), 1))


def files():
    made = cases()
    return {
        'crates/resume/stdin': input_of(SMALL),
        'crates/resume/stdout': resume(input_of(SMALL)),
        f'{FOLDER}/stdin': b''.join(map(packed, made)),
        f'{FOLDER}/stdout': b''.join(map(answer, made)),
    }


def main():
    made = cases()
    first = Counter(answer(case).split(b'\n')[0].decode().rstrip('0123456789') for case in made)
    for line, count in sorted(first.items()):
        print(f'{count:6} {line}')
    print(f'{len(made):6} cases')


if __name__ == '__main__':
    main()
