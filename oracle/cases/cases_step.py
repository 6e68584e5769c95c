"""Cases of `test_step`: words on machines of a seed, and calls that must be refused.

    cd oracle && python3 -m cases.cases_step    prints how many cases have each outcome

A group is how its machine is made and lent, and cases (thread, word); the machine goes on from case to case.
"""

import struct
from collections import Counter

import assemble as asm
import seeded
from bits import bits
from cases import stall_scenes
from decode import TABLE
from lent_machines import AT_END, PAST, RIGHT_LENGTHS, UNSET, WRONG_LENGTHS, Made, any_made, digest, lent, machine_of, packed
from machine import well_formed
from waits import holds
from words import offer, step

FOLDER = 'crates/test_step'

CLEAR_WAIT = asm.stallwait(0, 0)
OPCODES = sorted(TABLE)
PLACES = {name: places for name, _, places in TABLE.values()}
OPCODE = {name: opcode for opcode, (name, _, _) in TABLE.items()}


class Group:
    """A machine, its cases so far, and the line of each."""

    def __init__(self, made):
        self.made = made
        self.plain = made == Made(made.seed)
        self.machine = machine_of(made)
        self.lent = lent(self.machine, made)
        self.sum = digest(self.machine)
        self.cases, self.lines = [], []

    def answer(self, thread, word):
        """A well formed machine stays so, and its checks are slow: they are left out where they cannot matter."""
        if self.plain and thread < 3:
            return offer(self.machine, thread, word)
        return step(self.lent, thread, word)

    def case(self, thread, word):
        answer = self.answer(thread, word)
        if answer[0] == 'passed':
            self.sum = digest(self.machine)
        self.cases.append((thread, word))
        self.lines.append(' '.join((answer[0][0], *map(str, answer[1:]), str(self.sum))))
        return answer

    def calm(self):
        """Lifts every wait that a thread can lift, and clears it."""
        for thread in range(3):
            self.case(thread, asm.cleardvalid(reset=1))
            self.case(thread, asm.setdvalid(a=1, b=1))
            self.case(thread, asm.seminit(255, 1, 2))
        for thread in (0, 1, 2, 0):
            self.case(thread, CLEAR_WAIT)

    def ready(self, thread, word, draws):
        """Mostly clears a wait, or gives SrcB's bank to Matrix, so that the next word can pass."""
        if self.machine.waits[thread] is not None and draws.draw() % 4:
            if holds(self.machine, self.machine.waits[thread]):
                self.calm()
            self.case(thread, CLEAR_WAIT)
        if TABLE.get(word >> 24, ('',))[0] in ('TRNSPSRCB', 'MOVB2A') and draws.draw() % 4:
            if self.machine.owner(1, self.machine.matrix_bank(1)) != 1:
                self.case(thread, asm.setdvalid(b=1))

    def check(self):
        """What the digests of the cases rest on."""
        if self.plain and not well_formed(self.machine) or self.sum != digest(self.machine):
            raise AssertionError(self.made)
        return self

    def data(self):
        cases = (struct.pack('<II', *case) for case in self.cases)
        return b''.join((packed(self.made), struct.pack('<I', len(self.cases)), *cases))


# Words from fields.

def put(name, fields):
    """A word with these fields, its ignored bits clear."""
    word = OPCODE[name] << 24
    for field, value in fields.items():
        word |= value << PLACES[name][field][0]
    return word


def ignored(name):
    """The bits 0–23 that the word does not name."""
    mask = 0xFFFFFF
    for low, high in PLACES[name].values():
        mask &= ~(((1 << (high - low + 1)) - 1) << low)
    return mask


def drawn(draws, width):
    return draws.word() & ((1 << width) - 1)


LIMITS = {'addr_mod': 1, 'signal_mode': 1, 'index': 256, 'gpr': 64, 'mutex': 8, 'place': 2}


def mild(name, draws):
    """Fields at random, within what is allowed."""
    fields = {}
    for field, (low, high) in PLACES[name].items():
        value = drawn(draws, high - low + 1)
        fields[field] = value % LIMITS[field] if field in LIMITS else value
    if name == 'ZEROACC':  # mostly few rows, since no word marks a row valid again
        if draws.draw() % 8:
            fields['mode'] &= 1
        fields['place'] = drawn(draws, 14) % ((512 if fields['wide'] else 1024) >> (4 if fields['mode'] == 1 else 0))
        if fields['mode'] == 2:
            fields['place'] &= 1
    return fields


EDGES = {
    'index': (2, 3, 4, 5, 251, 252, 253, 254, 255, 256, 257, 512, 1023, 1024),
    'mutex': (2, 3, 4, 5, 6, 7, 8, 9, 15, 16, 255, 256, 32768),
    'gpr': (2, 3, 4, 5, 59, 60, 61, 62, 63, 64, 65, 127, 128),
    'half': (2, 3, 63, 64, 125, 126, 127),
    'a_row': (2, 3, 4, 15, 16, 31, 32, 60, 61, 63),
    'b_row': (2, 3, 4, 15, 16, 31, 32, 60, 61, 63),
    'value': (2, 14, 15, 0x8000, 0xC000, 0x3FFF),
    'mask': (2, 4, 8, 16, 32, 64, 128, 0x55, 0xAA),
    'conditions': tuple(1 << place for place in range(15)) + (0x1E0, 0x7E1F, 0xA0, 0x140),
    'block': tuple(1 << place for place in range(9)) + (0xE2, 0x11D),
}


def edge_words(draws):
    """Every word of the table with each field at its edges, the others at random, ignored bits clear and set."""
    words = []
    for name, places in PLACES.items():
        rest = ignored(name)
        for field, (low, high) in places.items():
            most = (1 << (high - low + 1)) - 1
            values = {0, 1, most >> 1, (most >> 1) + 1, most - 1, most, *EDGES.get(field, ())}
            for value in sorted(value for value in values if 0 <= value <= most):
                for extra in (0, rest):
                    words.append(put(name, {**mild(name, draws), field: value}) | extra)
        for extra in (0, rest, draws.word() & rest):
            words.append(put(name, mild(name, draws)) | extra)
    return words


def likely_word(draws):
    """A word of the table: fields within what is allowed, or, one in four, at random."""
    name = TABLE[OPCODES[draws.draw() % len(OPCODES)]][0]
    if draws.draw() % 4 == 0:
        return OPCODE[name] << 24 | drawn(draws, 24)
    return put(name, mild(name, draws)) | draws.word() & ignored(name)


def shuffled(items, draws):
    items = list(items)
    for place in range(len(items) - 1, 0, -1):
        other = draws.draw() % (place + 1)
        items[place], items[other] = items[other], items[place]
    return items


# What a group plays. Each takes the group and the draws, and adds cases.

def play(words):
    """Words, each by another thread, mostly readied."""
    def on(group, draws):
        group.calm()
        for word in words:
            thread = draws.draw() % 3
            group.ready(thread, word, draws)
            group.case(thread, word)
    return on


def likely(group, draws):
    """Likely words on the machine as it came, its waits and all; calmed now and then."""
    for turn in range(260):
        if turn % 40 == 39:
            group.calm()
        word, thread = likely_word(draws), draws.draw() % 3
        if turn >= 40:
            group.ready(thread, word, draws)
        group.case(thread, word)


NO_THREADS = (3, 4, 255, 256, 65536, 0x80000000, 0xFFFFFFFF)


def noise(group, draws):
    """Random words, random opcodes, and threads that there are not."""
    for opcode in range(256):
        group.case(draws.draw() % 3, opcode << 24 | drawn(draws, 24))
    for _ in range(40):
        group.case(draws.draw() % 3, draws.word())
    for thread in NO_THREADS:
        for word in (asm.nop(), 0xFF000000, asm.wrcfg(index=256), likely_word(draws)):
            group.case(thread, word)


OF_BLOCKS = (asm.nop(), asm.dmanop(), asm.setc16(5, 0x1234), asm.sempost(0), asm.setdvalid(), asm.atrelm(1), asm.trnspsrcb())


def some_wait(draws):
    """A STALLWAIT or SEMWAIT with few or many bits."""
    kind = draws.draw() % 4
    block = (1 << draws.draw() % 9, 0xE2, 511, drawn(draws, 9))[draws.draw() % 4]
    if kind == 0:
        return asm.stallwait(block, 1 << draws.draw() % 15)
    if kind == 1:
        return asm.stallwait(block, drawn(draws, 15))
    return asm.semwait(block, (1 << draws.draw() % 8, drawn(draws, 8))[kind - 2], draws.draw() % 4)


def waits(group, draws):
    """Waits of both kinds, words of every block bit under them, and what lifts them or makes them hold."""
    group.calm()
    for _ in range(26):
        thread = draws.draw() % 3
        group.ready(thread, CLEAR_WAIT, draws)
        group.case(thread, some_wait(draws))
        for word in shuffled(OF_BLOCKS, draws)[:4]:
            group.case(thread, word)
        group.case((thread + 1) % 3, (asm.setdvalid(draws.draw() % 2, draws.draw() % 2),
                                      asm.cleardvalid(draws.draw() % 2, draws.draw() % 2, draws.draw() % 2),
                                      asm.sempost(drawn(draws, 8)), asm.semget(drawn(draws, 8)))[draws.draw() % 4])
        for word in shuffled(OF_BLOCKS, draws)[:3]:
            group.case(thread, word)


def semaphores(group, draws):
    """Semaphores at 0, at their maximum, past it and at 15, counted up and down, and waited for."""
    group.calm()
    for value, maximum in ((0, 0), (0, 1), (1, 1), (2, 1), (3, 15), (14, 15), (15, 15), (15, 3), (0, 15)):
        mask = drawn(draws, 8) | 1 << draws.draw() % 8
        group.case(0, asm.seminit(mask, value, maximum))
        for word in (asm.sempost, asm.semget, asm.sempost, asm.sempost, asm.semget, asm.semget, asm.semget):
            group.case(draws.draw() % 3, word(drawn(draws, 8)))
            for condition in range(4):
                group.case(1, asm.semwait(1 << 5, drawn(draws, 8) | mask & -mask, condition))
                group.case(1, asm.dmanop())


def mutexes(group, draws):
    """Each mutex taken, taken again, waited for and released by each thread, held ones and free ones."""
    group.calm()
    for turn in range(150):
        word = (asm.atgetm, asm.atrelm)[draws.draw() % 2](draws.draw() % (9 if turn % 5 == 0 else 8))
        group.case(draws.draw() % 3, word)


def banks(group, draws):
    """Banks handed over and back in every way, and rows copied and turned in between."""
    group.calm()
    for flags in shuffled(range(16), draws):
        for word in (asm.setdvalid(draws.draw() % 2, draws.draw() % 2), asm.cleardvalid(*(bits(flags, at, at) for at in range(4))),
                     asm.trnspsrcb(), put('MOVB2A', mild('MOVB2A', draws)), asm.setdvalid(b=1), asm.trnspsrcb(),
                     put('MOVB2A', mild('MOVB2A', draws)), asm.setdvalid(a=1), put('MOVB2A', mild('MOVB2A', draws))):
            group.case(draws.draw() % 3, word)


def zeroacc(flags, wide, half):
    """ZEROACC of one view in one setting of the flags: single rows first, then groups of 16, then half of it or all."""
    def on(group, draws):
        group.calm()
        rows = 512 if wide else 1024
        for thread in range(3):
            group.case(thread, asm.rmwcib(0, 255, 3, flags))
        single = [0, 1, 7, 8, 15, 16, 24, 32, rows - 1, rows, rows + 1, 8191, 8192, 16383] + [draws.draw() % rows for _ in range(40)]
        many = [0, 1, rows // 16 - 1, rows // 16, rows // 16 + 1, 1023, 1024, 16383] + [draws.draw() % (rows // 16) for _ in range(8)]
        for mode, places in ((0, single), (1, many), (2, (2, 3, 16383, half)), (3, (draws.draw() % 16384,))):
            for place in places:
                word = asm.zeroacc(mode, place, wide)
                group.case(draws.draw() % 3, word | draws.word() & ignored('ZEROACC'))
    return on


def checked(group, draws):
    """Calls that a machine which is not well formed, or lent at a wrong length, refuses, whatever the thread and the word."""
    for thread, word in ((0, asm.nop()), (1, asm.setdmareg(4, 0x1234)), (2, 0xFF000000), (2, asm.wrcfg(index=256)),
                         (3, asm.nop()), (0xFFFFFFFF, asm.nop()), (0, likely_word(draws))):
        group.case(thread, word)


def spoiled():
    """Machines with each number at the end of its range and past it, each part lent at its length and at others, and some of both."""
    for number in (UNSET, *AT_END, *PAST):
        yield Made(77, *number)
    for turn, length in enumerate(RIGHT_LENGTHS + WRONG_LENGTHS):
        yield Made(77, *UNSET, *length)
        yield Made(77, *PAST[turn * 5 % len(PAST)], *length)


# Scenes, and how often each is in the plan; those of ZEROACC and of stalls each once.
SCENES = {likely: 16, noise: 4, waits: 28, semaphores: 3, mutexes: 3, banks: 6}
ZEROACC = [zeroacc(flags, wide, half) for flags in range(4) for wide in (0, 1) for half in (0, 1)]
PLAYED = 150  # edge words of a group


def plan(draws):
    """Machines and what their groups play."""
    edges = shuffled(edge_words(draws) + edge_words(draws) + edge_words(draws), draws)
    scenes = [play(edges[at:at + PLAYED]) for at in range(0, len(edges), PLAYED)]
    scenes += [scene for scene, times in SCENES.items() for _ in range(times)] + ZEROACC + stall_scenes.SCENES
    return [(Made(1000 + at), scene) for at, scene in enumerate(scenes)] + [(made, checked) for made in spoiled()]


def groups():
    """All groups, played."""
    draws = seeded.Draws(20240)
    for made, scene in plan(draws):
        group = Group(made)
        scene(group, draws)
        yield group.check()


# Groups that are not in the plan.

def some_edges(group, draws):
    play(shuffled(edge_words(draws), draws)[:PLAYED])(group, draws)


def one_of(scenes):
    """Any one of some scenes."""
    def on(group, draws):
        scenes[draws.draw() % len(scenes)](group, draws)
    return on


def any_words(group, draws):
    """Words of every sort by any thread, at times one that there is not."""
    for _ in range(20):
        thread = NO_THREADS[draws.draw() % len(NO_THREADS)] if draws.draw() % 8 == 0 else draws.draw() % 3
        group.case(thread, draws.word() if draws.draw() % 8 == 0 else likely_word(draws))


def any_group(draws):
    """Any machine, and any scene on it; few words where all may be refused for the machine."""
    group, scenes = Group(any_made(draws)), (*SCENES, some_edges, one_of(ZEROACC), one_of(stall_scenes.SCENES), any_words)
    scene = scenes[draws.draw() % len(scenes)] if group.plain else any_words
    scene(group, draws)
    return group.check()


def input_and_output(played):
    """What the program reads of groups, and what it must write."""
    stdin, stdout = [], []
    for group in played:
        stdin.append(group.data())
        stdout += group.lines
    return b''.join(stdin), ''.join(line + '\n' for line in stdout).encode()


def files():
    stdin, stdout = input_and_output(groups())
    return {f'{FOLDER}/stdin': stdin, f'{FOLDER}/stdout': stdout}


def tally(stdout):
    """How many lines there are of each outcome and number."""
    return Counter(line.rsplit(' ', 1)[0] for line in stdout.decode().splitlines())


if __name__ == '__main__':
    for outcome, count in sorted(tally(files()[f'{FOLDER}/stdout']).items()):
        print(outcome, count)
