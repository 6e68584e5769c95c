"""Cases of `test_run`: whole runs on machines of a seed, and calls that must be refused.

    cd oracle && python3 -m cases.cases_run    prints how the runs end, how long they are and how often threads wait, for what

A case has a machine of its own: a seed's, with one number of it set, or one part of it lent at another length.
"""

import struct
from collections import Counter, namedtuple
from itertools import product

import assemble as asm
import lent_machines
import seeded
from lent_machines import LIMITS, PAST, RIGHT_LENGTHS, UNSET, WRONG_LENGTHS, Made, any_number
from likely import MAKERS, likely_word
from run import START, Cursor, run

FOLDER = 'crates/test_run'
NOP, REFUSED_2, REFUSED_3 = asm.nop(), 0xFF000000, asm.wrcfg(index=256)
FULL = 65536  # words of a stream, at most
MOST = 1000000  # turns, at most

# `words` are the stream's first words; after the last comes number `back` again, until the stream has its length.
Stream = namedtuple('Stream', 'words back length')
EMPTY = Stream((), 0, 0)
# number: kind, place and value of the one that is set; lent: the part that has another length, and that length.
Case = namedtuple('Case', 'seed streams budget cursor number lent', defaults=(MOST, START, UNSET, (0, 0)))


def plain(*words):
    """A stream of just these words."""
    return Stream(tuple(words), 0, len(words))


def unrolled(stream):
    """All words of a stream."""
    words = list(stream.words[:stream.length])
    loop = stream.words[stream.back:]
    while len(words) < stream.length:
        words += loop[:stream.length - len(words)]
    return words


def made_of(case):
    return Made(case.seed, *case.number, *case.lent)


def played(case):
    """The run of a case, and the machine's digest after it."""
    machine = lent_machines.machine_of(made_of(case))
    lent = lent_machines.lent(machine, made_of(case))
    result = run(lent, [unrolled(stream) for stream in case.streams], case.cursor, case.budget)
    if lent is not machine and result.answer[0] != 'rejected':
        raise AssertionError(case)
    return result, lent_machines.digest(machine)


def first_waits(seed):
    """The waits of a seed's machine, which are drawn after 8 mutexes and 8 semaphores."""
    draws = seeded.Draws(seed)
    for _ in range(24):
        draws.draw()
    return [draws.wait() for _ in range(3)]


QUIET = [seed for seed in range(3000) if first_waits(seed) == [None] * 3][:24]  # seeds of machines without waits
ANY = list(range(5000, 5016))


def pick(draws, items):
    return items[draws.draw() % len(items)]


# Kernels: three threads that unpack, calculate and pack, in loops, and wait for each other.

B1, B5, B6, B7 = (1 << bit for bit in (1, 5, 6, 7))
AT_WORK = (0x02, 0x10, 0x45, 0x58, 0x5A, 0x60, 0xB0, 0xB1, 0xB2, 0xB3, 0xB4, 0xB5, 0xB6)
WORK = [maker for maker in MAKERS if maker(seeded.Draws(1)) >> 24 in AT_WORK]


def work(draws, most=3):
    """Words that wait for nothing of their own."""
    return [pick(draws, WORK)(draws) for _ in range(draws.draw() % (most + 1))]


def guarded(draws, mutex):
    """A section that one thread at a time is in."""
    return [asm.atgetm(mutex), *work(draws), asm.atrelm(mutex)]


def unpack(draws, a, b):
    """Hands banks to Matrix, once they are Unpackers'."""
    return [asm.stallwait(B6 | pick(draws, (0, B5, B7)), a << 5 | b << 6), *work(draws, 1), asm.setdvalid(a, b)]


def calculate(draws, a, b):
    """Works on banks and hands them back."""
    words = [] if b and draws.draw() % 3 == 0 else [asm.stallwait(B6, a << 7 | b << 8)]
    if b:
        words += [pick(draws, (asm.trnspsrcb(), asm.movb2a(draws.draw() % 64, draws.draw() % 64, draws.draw() % 2)))
                  for _ in range(1 + draws.draw() % 2)]
    return words + [asm.cleardvalid(a, b)]


def post(draws, mask):
    """Counts up, once there is room."""
    return [asm.semwait(B1 | pick(draws, (0, B6, B7)), mask, 2), *work(draws, 1), asm.sempost(mask)]


def take(draws, mask):
    """Counts down, once there is something."""
    return [asm.semwait(B1 | pick(draws, (0, B5, B7)), mask, 1), *work(draws, 1), asm.semget(mask)]


def prologues(draws, mask):
    """Mutexes released by whoever holds them, all banks back, the semaphores set; as long for each thread."""
    free = [asm.atrelm(mutex) for mutex in range(4)]
    first = free + [asm.cleardvalid(reset=1), asm.seminit(mask, 0, 1 + draws.draw() % 3)]
    return [first, free + [NOP] * 2, free + [NOP] * 2]


def kernel(draws, rounds):
    """Streams of so many rounds each, or a round more or less; which thread does what is drawn."""
    mask = 1 << draws.draw() % 8 | (1 << draws.draw() % 8 if draws.draw() % 3 == 0 else 0)
    a, b = pick(draws, ((0, 1), (1, 1), (1, 0), (0, 1)))
    bodies = [unpack(draws, a, b), calculate(draws, a, b) + post(draws, mask), take(draws, mask)]
    mutex = draws.draw() % 4
    for body in bodies:
        if draws.draw() % 3:
            body[0:0] = guarded(draws, mutex)
        body += work(draws)
    turned = draws.draw() % 3
    bodies = bodies[turned:] + bodies[:turned]
    streams = []
    for first, body in zip(prologues(draws, mask), bodies):
        length = len(first) + rounds * len(body) + pick(draws, (0, 0, 0, 0, len(body), -1))
        streams.append(Stream(tuple(first + body), len(first), length))
    return streams


def kernels(draws, count):
    """Long runs, most of them on machines without waits, some with a refused word among the last."""
    for turn in range(count):
        streams = kernel(draws, pick(draws, (2, 3, 5, 8, 13, 20, 30)))
        if turn % 8 == 0:
            at = draws.draw() % 3
            words = unrolled(streams[at])[:120]
            words[-1 - draws.draw() % 9] = pick(draws, (REFUSED_2, REFUSED_3))
            streams[at] = plain(*words)
        budget = MOST if draws.draw() % 4 else draws.draw() % 400
        yield Case(pick(draws, QUIET if turn % 6 else ANY), streams, budget)


def kernels_cut(draws, count):
    """Kernels from the middle on, with a budget of what they take, one less or one more."""
    for _ in range(count):
        streams = kernel(draws, 4)
        cursor = Cursor(tuple(draws.draw() % (stream.length + 1) for stream in streams), draws.draw() % 3)
        case = Case(pick(draws, QUIET), streams, MOST, cursor)
        turns = played(case)[0].turns
        yield case._replace(budget=max(0, turns - 1 + draws.draw() % 3))


# Short runs.

BUDGETS = (0, 1, 2, 3, 4, 5, 9, 20, 100, MOST)


def some_words(draws, most, random):
    """Likely words, and of a hundred so many any words at all."""
    count = draws.draw() % (most + 1)
    return [draws.word() if draws.draw() % 100 < random else likely_word(draws) for _ in range(count)]


def short_runs(draws, count, random):
    """Short streams on any machine, from any cursor."""
    for _ in range(count):
        streams = [plain(*some_words(draws, 10, random)) for _ in range(3)]
        positions = tuple(pick(draws, (0, 0, draws.draw() % (stream.length + 1))) for stream in streams)
        seed = pick(draws, ANY if draws.draw() % 2 else QUIET)
        yield Case(seed, streams, pick(draws, BUDGETS), Cursor(positions, draws.draw() % 3))


def edges(draws):
    """Runs that end before their first turn, by two ends at once, or at the very last word."""
    stall = asm.trnspsrcb()
    for seed in QUIET[:2] + ANY[:2]:
        for budget in (0, 1, 2, 3, 4, MOST):
            for words in ((), (NOP,), (stall,), (REFUSED_2,), (NOP, stall), (NOP, REFUSED_3), (NOP, NOP, NOP)):
                for next_thread in range(3):
                    streams = [EMPTY] * 3
                    streams[draws.draw() % 3] = plain(*words)
                    yield Case(seed, streams, budget, Cursor((0, 0, 0), next_thread))


# Runs in which a thread stalls by one cause, passes, and stalls by another (document 02, K3).

# setup: a helper's words that make a waiter stall; waits: the waiter's, the last of which stalls; lifts: the helper's that let it
# pass, at times by way of another cause; after: the waiter's once it has passed.
Hurdle = namedtuple('Hurdle', 'setup waits lifts after', defaults=((),))
RESET, SET_A, SET_B = asm.cleardvalid(reset=1), asm.setdvalid(a=1), asm.setdvalid(b=1)
CLEAR_A, CLEAR_B = asm.cleardvalid(a=1), asm.cleardvalid(b=1)


def stall_hurdle(conditions, setup, *lifts):
    return Hurdle((RESET, *setup), (asm.stallwait(B5, conditions << 5), asm.dmanop()), lifts)


def semaphore_hurdle(number, condition, value, lift):
    """Of a semaphore and the last one, which have the same value and 3 as their maximum."""
    mask = 1 << number | 1 << 7
    waits = asm.semwait(B7, mask, condition), asm.setc16(1, 1)
    return Hurdle((asm.seminit(mask, value, 3),), waits, (lift(1 << number), lift(mask)))


HURDLES = (
    stall_hurdle(0b1111, (SET_A, SET_A), CLEAR_A, SET_B),  # 5, then 8
    stall_hurdle(0b0111, (SET_B, SET_B), CLEAR_B, SET_A),  # 6, then 7
    stall_hurdle(0b1111, (), SET_A, SET_B),  # 7, then 8
    stall_hurdle(0b1011, (), SET_B),  # 8
    *(semaphore_hurdle(number, 1 | number & 2, 0, asm.sempost) for number in range(8)),
    *(semaphore_hurdle(number, 2 | number & 1, 3, asm.semget) for number in range(8)),
    Hurdle((asm.atgetm(0),), (asm.atgetm(0),), (asm.atrelm(0),), (asm.atrelm(0),)),
    Hurdle((RESET,), (asm.trnspsrcb(),), (SET_B,)),
    Hurdle((RESET, SET_B, CLEAR_B), (asm.movb2a(3, 5),), (SET_B,)),
)


def hurdle_streams(waiter, helper, hurdles, end):
    """The hurdles one after the other; the last is lifted only if the run shall finish. All threads first release mutex 0."""
    words = [[asm.atrelm(0)] for _ in range(3)]
    for hurdle in hurdles:
        words[waiter] += (*[NOP] * len(hurdle.setup), *hurdle.waits)
        words[helper] += (*hurdle.setup, *[NOP] * (len(hurdle.waits) + 2))
        if end == 'finished' or hurdle is not hurdles[-1]:
            words[waiter] += hurdle.after
            words[helper] += hurdle.lifts
    if end == 'refused':
        words[helper].append(REFUSED_2)
    return words


ENDS = ('finished', 'stuck', 'budget', 'refused')


def hurdle_run(draws, waiter, place, end):
    """A thread at a hurdle after another one, up to an end, from the middle of the streams."""
    hurdles = HURDLES[place - 1 - draws.draw() % (len(HURDLES) - 1)], HURDLES[place]
    words = hurdle_streams(waiter, (waiter + 1 + draws.draw() % 2) % 3, hurdles, end)
    positions = tuple(draws.draw() % 3 for _ in range(3))
    streams = [plain(*[REFUSED_2] * position, *own) for position, own in zip(positions, words)]
    case = Case(pick(draws, QUIET), streams, MOST, Cursor(positions, draws.draw() % 3))
    return case._replace(budget=played(case)[0].turns - 1 - draws.draw() % 2) if end == 'budget' else case


def hurdle_runs(draws):
    """Each thread at each hurdle, up to each end."""
    for waiter, place, end in product(range(3), range(len(HURDLES)), ENDS):
        yield hurdle_run(draws, waiter, place, end)


def any_hurdles(draws, count):
    for _ in range(count):
        yield hurdle_run(draws, draws.draw() % 3, draws.draw() % len(HURDLES), pick(draws, ENDS))


# Calls that are refused, and such that are just not.

def faults(draws):
    """Each number's ways to be wrong: what is replaced in a case."""
    streams = [plain(NOP, REFUSED_2), plain(asm.setdmareg(4, 0x1234)), EMPTY]
    over = streams[:]
    over[draws.draw() % 3] = Stream((NOP,), 0, FULL + 1)
    return {
        4: [{'streams': over}, {'lent': pick(draws, WRONG_LENGTHS)}],
        10: [{'number': pick(draws, PAST)}],
        5: [{'cursor': Cursor((3, 0, 0), 0)}, {'cursor': Cursor((0, 2, 0), 1)}, {'cursor': Cursor((0, 0, 1), 2)},
            {'cursor': Cursor((0, 0, 0xFFFFFFFF), 0)}, {'cursor': Cursor((2, 1, 0), 3)},
            {'cursor': Cursor((0, 0, 0), 0xFFFFFFFF)}],
        6: [{'budget': MOST + 1}, {'budget': 0xFFFFFFFF}],
    }


def refused_calls(draws):
    """Every set of the four refusals, in several ways each."""
    for turn in range(14):
        for chosen in range(1, 16):
            ways, changes = faults(draws), {}
            for place, number in enumerate((4, 10, 5, 6)):
                if chosen >> place & 1:
                    changes.update(pick(draws, ways[number]))
            streams = [plain(NOP, REFUSED_2), plain(asm.setdmareg(4, 0x1234)), EMPTY]
            yield Case(pick(draws, QUIET), streams, pick(draws, BUDGETS))._replace(**changes)


def single_faults():
    """Each part at its length and at others, each number at its limit and past it, each stream full and over."""
    streams = [plain(NOP), plain(asm.setdmareg(4, 0x1234)), plain(asm.sempost(255), asm.atgetm(7))]
    for lent in RIGHT_LENGTHS + WRONG_LENGTHS:
        yield Case(QUIET[0], streams, 9, START, UNSET, lent)
    for limit in LIMITS:
        for value in (0, limit.past - limit.one, limit.past, limit.past + limit.one):
            yield Case(QUIET[1], streams, 9, START, (limit.kind, limit.place, value))
    for at in range(3):
        for length in (FULL, FULL + 1):
            for budget in (0, 1, 7):
                for position in (0, FULL - 1):
                    longer = streams[:]
                    longer[at] = Stream((asm.sempost(1), NOP), 0, length)
                    positions = [0, 0, 0]
                    positions[at] = position
                    yield Case(QUIET[2], longer, budget, Cursor(tuple(positions), at))


def full_streams():
    """Streams of 65,536 words, taken to the end or to where a thread no longer goes on."""
    counted = Stream((asm.adddmareg(5, 5, 1, 1),), 0, FULL)
    handed = [Stream((asm.stallwait(B6, 1 << 6), asm.setdvalid(b=1)), 0, FULL),
              Stream((asm.trnspsrcb(), asm.cleardvalid(b=1)), 0, FULL), EMPTY]
    yield Case(QUIET[3], [counted, EMPTY, EMPTY])
    yield Case(QUIET[4], handed)
    yield Case(QUIET[5], [Stream((NOP,), 0, FULL), EMPTY, plain(asm.atgetm(0))], MOST, Cursor((FULL - 5, 0, 0), 0))


def any_cases(draws, count):
    """Runs of every sort, half of them on machines of any seed; some with a number set, some with a call that may be refused."""
    sorts = (kernels(draws, count), kernels_cut(draws, count), short_runs(draws, count, 0), short_runs(draws, count, 30),
             any_hurdles(draws, count))
    for _ in range(count):
        case = next(pick(draws, sorts))
        if draws.draw() % 2:
            case = case._replace(seed=draws.word())
        if draws.draw() % 8 == 0:
            case = case._replace(number=any_number(draws))
        if draws.draw() % 8 == 0:
            case = case._replace(**pick(draws, [change for ways in faults(draws).values() for change in ways]))
        yield case


def cases():
    draws = seeded.Draws(36)
    scenes = (kernels(draws, 700), kernels_cut(draws, 250), short_runs(draws, 500, 0), short_runs(draws, 100, 30),
              edges(draws), refused_calls(draws), single_faults(), full_streams(), hurdle_runs(draws))
    return [case for scene in scenes for case in scene]


def packed(case):
    """A case as bytes."""
    words = [case.budget, *case.cursor.positions, case.cursor.next]
    for stream in case.streams:
        words += [len(stream.words), stream.back, stream.length, *stream.words]
    return lent_machines.packed(made_of(case)) + struct.pack(f'<{len(words)}I', *words)


def line(result, digest):
    end = ' '.join(str(part) for part in result.answer)
    at = ' '.join(str(position) for position in result.cursor.positions)
    stalls = ' '.join('-' if stall is None else '{}:{}'.format(*stall) for stall in result.stalls)
    return f'{end} turns {result.turns} at {at} next {result.cursor.next} stalls {stalls} machine {digest}\n'


def input_and_output(made):
    """What the program reads of cases, and what it must write."""
    made = list(made)
    return b''.join(map(packed, made)), ''.join(line(*played(case)) for case in made).encode()


def files():
    stdin, stdout = input_and_output(cases())
    return {f'{FOLDER}/stdin': stdin, f'{FOLDER}/stdout': stdout}


def tally():
    """How the runs end and with which last stalls, how many have over 100 turns, how often words stall by each cause, and how
    often a stalled thread's next word passed."""
    counts = Counter()
    for case in cases():
        result = played(case)[0]
        counts['end ' + ' '.join(str(part) for part in result.answer)] += 1
        if result.turns > 100:
            counts['over 100 turns'] += 1
        counts['turns'] += result.turns
        counts.update(f'end {result.answer[0]} after {number}:{cause}' for number, cause in filter(None, result.stalls))
        counts.update(f'stalled {outcome[1]}:{outcome[2]}' for outcome in result.trace if outcome[0] == 'stalled')
        for first, later in zip(result.trace, result.trace[3:]):
            if first[0] == 'stalled':
                counts[f'stalled {first[1]} then {later[0]}'] += 1
    return counts


if __name__ == '__main__':
    for name, count in sorted(tally().items()):
        print(name, count)
