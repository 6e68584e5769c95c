"""Cases of `test_image`: machines saved, and images damaged in one place, cut or made longer, loaded.

    cd oracle && python3 -m cases.cases_image    prints how many lines there are of each outcome

A group is a machine that is saved into an output, a machine that is loaded over, and loads (place, byte, length): the byte
stands at the place of the output for this load, and the first so many bytes of the output are the image.
"""

import struct
import zlib
from collections import Counter
from copy import copy

import seeded
from image import SIZE, image_of, load, save
from lent_machines import CELL_A, CELL_B, MUTEX, OWNER, POINTER, RIGHT_LENGTHS, SEMAPHORE, STALL, UNSET, WAIT, WRONG_LENGTHS, \
    Made, any_made, digest, lent, machine_of, packed, semaphore, stall, wait, whole
from machine import fresh

FOLDER = 'crates/test_image'

OUT_MOST = 48640
UNWRITTEN = 0xA5
NOWHERE = 0xFFFFFFFF


# Groups.

def refused(answer, total):
    return ' '.join(map(str, ('r', *answer[1:], total)))


class Group:
    def __init__(self, saved, room, over, loads=()):
        self.saved, self.room, self.over, self.loads = saved, room, over, list(loads)

    def data(self):
        words = [len(self.loads)]
        for each in self.loads:
            words += each
        return b''.join((packed(self.saved), struct.pack('<I', self.room), packed(self.over),
                         struct.pack(f'<{len(words)}I', *words)))

    def output(self):
        """The answer of the save, and the output after it."""
        out = bytearray([UNWRITTEN]) * OUT_MOST
        view = out[:self.room]
        answer = save(lent(machine_of(self.saved), self.saved), view)
        out[:self.room] = view
        return answer, out

    def lines(self):
        answer, out = self.output()
        total = zlib.adler32(out)
        yield f'w {total}' if answer[0] == 'saved' else refused(answer, total)
        over = machine_of(self.over)
        before, handed = digest(over), lent(over, self.over)
        for place, byte, length in self.loads:
            data = bytearray(out)
            if place < OUT_MOST:
                data[place] = byte
            yield load_line(handed, before, bytes(data[:length]))


def load_line(handed, before, data):
    target = copy(handed)  # a load replaces whole parts
    answer = load(target, data)
    if answer[0] == 'refused':
        return refused(answer, before)
    again = bytearray(SIZE)
    if save(target, again) != ('saved', SIZE) or again != data:
        raise AssertionError('an accepted image does not save to its own bytes')
    return f't {digest(target)} {zlib.adler32(again)}'


# Fields.

RECORDS = ((0, 431), (437, 768), (1211, 2048), (3265, 32768), (36039, 128), (36173, 6144), (42323, 6144))
HEADERS = tuple(start + place for start, _ in RECORDS for place in range(6))
CONTROL = range(390, 437)  # mutexes, semaphores, waits, owners, pointers
MARKS = range(36045, 36173)
ANY = (range(6, 390), range(443, 1211), range(1217, 3265), range(3271, 36039))  # bytes that may hold anything
CELLS = (36179, 42329)  # where the cells of SrcA and SrcB start


def changed(image, place, values):
    """Loads of the whole image with the byte at a place set to each value that it does not have."""
    return [(place, value, SIZE) for value in sorted(set(values)) if value != image[place]]


def control_bytes(image, draws):
    loads = []
    for place in CONTROL:
        old = image[place]
        loads += changed(image, place, (0, 1, 2, 3, 4, 15, 16, 127, 128, 255, old ^ 1, old ^ 128, draws.draw() % 256))
    return loads


def header_bytes(image, draws):
    loads = []
    for place in HEADERS:
        old = image[place]
        loads += changed(image, place, ((old + 1) % 256, (old - 1) % 256, old ^ 128, 0, 255, draws.draw() % 256))
    return loads


def any_bytes(image, draws, each=16):
    return [load for part in ANY for _ in range(each)
            for load in changed(image, part[0] + draws.word() % len(part), (draws.draw() % 256,))]


def mark_bits(image, draws):
    return [(place, image[place] ^ 1 << draws.draw() % 8, SIZE) for place in MARKS]


def cell_place(draws, byte):
    return CELLS[draws.draw() % 2] + draws.draw() % 2048 * 3 + byte


def cell_bytes(image, draws, each):
    """Top bytes past the limit, at it and below it, and low bytes."""
    loads = []
    for turn in range(each):
        loads += changed(image, cell_place(draws, 2), (8 + draws.draw() % 248,))
        loads += changed(image, cell_place(draws, 2), ((8, 15, 16, 128, 255)[turn % 5],))
        if turn % 4 == 0:
            loads += changed(image, cell_place(draws, 2), (draws.draw() % 8,))
            loads += changed(image, cell_place(draws, turn // 4 % 2), (draws.draw() % 256,))
    return loads


def cuts(lengths):
    return [(NOWHERE, 0, length) for length in lengths]


def edge_cuts():
    return cuts(sorted({length for start, size in RECORDS for edge in (start, start + 6 + size)
                        for length in range(edge - 7, edge + 10) if 0 <= length < SIZE}))


def random_cuts(draws, each):
    return cuts(sorted(draws.word() % SIZE for _ in range(each)))


def extra_bytes():
    return cuts(range(SIZE, OUT_MOST + 1))


def bad_byte(image, draws):
    """A place and a byte that makes it bad, in a field of any kind."""
    kind = draws.draw() % 3
    if kind == 0:
        place = HEADERS[draws.draw() % len(HEADERS)]
        return place, (image[place] + 1 + draws.draw() % 255) % 256
    if kind == 1:
        return CONTROL[draws.draw() % len(CONTROL)], 200 + draws.draw() % 56
    return cell_place(draws, 2), 8 + draws.draw() % 248


def bad_and_cut(image, draws, each):
    """A bad field before a cut or after it, and a bad field before extra bytes."""
    loads = []
    for turn in range(each):
        place, byte = bad_byte(image, draws)
        near = place + draws.draw() % 12 - 6
        length = (near if turn % 2 else draws.word() % SIZE, SIZE + 1 + draws.draw() % 160)[turn % 3 == 2]
        loads.append((place, byte, max(0, length)))
    return loads


# Groups.

def wait_kinds(seed):
    """The kinds of the three waits of a seed's machine."""
    return tuple({None: 0, 'stall': 1, 'semaphore': 2}[wait and wait[0]] for wait in whole(seed).waits)


def seeds_by_waits():
    """Seeds of machines in which each thread has each kind of wait once."""
    wanted = [(0, 1, 2), (1, 2, 0), (2, 0, 1)]
    return [next(seed for seed in range(700, 1000) if wait_kinds(seed) == kinds) for kinds in wanted]


def damages(draws):
    """Loads of every kind over a machine of another seed."""
    for turn, seed in enumerate(seeds_by_waits()):
        image = image_of(whole(seed))
        loads = control_bytes(image, draws) + header_bytes(image, draws) + any_bytes(image, draws)
        loads += cell_bytes(image, draws, 260) + edge_cuts() + random_cuts(draws, 120) + bad_and_cut(image, draws, 240)
        loads += (mark_bits(image, draws), cuts(range(0, 446)), extra_bytes())[turn]
        yield Group(Made(seed), SIZE + 40 * turn, Made(seed + 1000), loads)


SOME = (  # numbers of every place at their limit and past it
    [(MUTEX, place, value) for place in range(8) for value in (3, 4, 255)]
    + [(SEMAPHORE, place, semaphore(*fields)) for place in range(8) for fields in ((15, 15), (16, 0), (0, 16), (255, 255))]
    + [(kind, place, value) for kind in (OWNER, POINTER) for place in range(4) for value in (1, 2, 255)]
    + [(STALL, place, stall(*fields)) for place in range(3) for fields in ((511, 32767), (512, 0), (0, 32768), (65535, 65535))]
    + [(WAIT, place, wait(*fields)) for place in range(3) for fields in ((511, 255, 3), (512, 255, 3), (0, 0, 4), (0, 0, 255))]
    + [(kind, place, value) for kind in (CELL_A, CELL_B) for place in (0, 1, 1023, 1024, 2047)
       for value in (0x7FFFF, 0x80000, 0xFFFFFFFF)])

LENGTHS = sorted(RIGHT_LENGTHS + WRONG_LENGTHS)
ROOMS = (0, 1, 48472, 48473, 48474, 48600, OUT_MOST)


def saves():
    """Saves that are refused, each number alone and in its order, and saves that are not."""
    yield from (Group(Made(801), room, Made(802)) for room in ROOMS)
    yield from (Group(Made(803, *number), OUT_MOST, Made(802)) for number in SOME)
    yield from (Group(Made(804, *UNSET, *length), OUT_MOST, Made(802)) for length in LENGTHS)
    for turn, length in enumerate(LENGTHS):
        yield Group(Made(805, *SOME[turn * 7 % len(SOME)], *length), ROOMS[turn % 7], Made(802))
    for turn, number in enumerate(SOME[::5]):
        yield Group(Made(806, *number), ROOMS[turn % 3], Made(802))


def few(image, draws):
    """The image as it is, bad ones, cut ones and longer ones."""
    return [(NOWHERE, 0, SIZE), *bad_and_cut(image, draws, 2), (*bad_byte(image, draws), SIZE), *random_cuts(draws, 1),
            (NOWHERE, 0, SIZE + 1)]


def overs(draws):
    """Loads over machines that are not well formed, which is no reason to refuse, and over parts of wrong length, which is."""
    image = image_of(whole(807))
    for number in SOME[::3]:
        yield Group(Made(807), SIZE, Made(808, *number), few(image, draws)[:3])
    for turn, length in enumerate(LENGTHS):
        number = SOME[turn * 11 % len(SOME)] if turn % 2 else UNSET
        yield Group(Made(807), SIZE, Made(809, *number, *length), few(image, draws))


def others(draws):
    """Images of many machines."""
    for seed in range(900, 940):
        yield Group(Made(seed), SIZE + draws.draw() % (OUT_MOST - SIZE), Made(seed + 1), few(image_of(whole(seed)), draws))


def groups():
    draws = seeded.Draws(40417)
    return [*damages(draws), *saves(), *overs(draws), *others(draws)]


def any_group(draws):
    """A group that is not among those: any machine saved, its image damaged in all ways, and any machine loaded over."""
    saved, over = any_made(draws), any_made(draws)
    image = image_of(whole(saved.seed))
    loads = few(image, draws) + any_bytes(image, draws, 1) + cell_bytes(image, draws, 2) + bad_and_cut(image, draws, 6)
    room = (SIZE, ROOMS[draws.draw() % len(ROOMS)], draws.word() % (OUT_MOST + 1))[draws.draw() % 3]
    return Group(saved, room, over, loads)


def input_and_output(made):
    """What the program reads of groups, and what it must write: first it saves a fresh machine."""
    out = bytearray([UNWRITTEN]) * OUT_MOST
    save(fresh(), out)
    stdin, stdout = [], [f'w {zlib.adler32(out)}']
    for group in made:
        stdin.append(group.data())
        stdout += group.lines()
    return b''.join(stdin), ''.join(line + '\n' for line in stdout).encode()


def files():
    stdin, stdout = input_and_output(groups())
    return {f'{FOLDER}/stdin': stdin, f'{FOLDER}/stdout': stdout}


def tally(stdout):
    """How many lines there are of each outcome and number."""
    return Counter(' '.join(line.split()[:2 if line[0] == 'r' else 1]) for line in stdout.decode().splitlines())


if __name__ == '__main__':
    made = files()
    for outcome, number in sorted(tally(made[f'{FOLDER}/stdout']).items()):
        print(outcome, number)
    print({path: len(data) for path, data in made.items()})
