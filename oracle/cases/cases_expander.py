"""Cases of the expander for crates/test_expander: what the program reads, and what it must write.

A case is twelve words of 4 bytes: seed; high mask, and the number of nine words lent from bit 16 on; the mix, a byte each (see
`Mix`); m0; m1; words of the stream; room; the mix of REPLAYs, a byte each; of the load that comes, whether there is one (bit 0)
and whether it is shown (bit 1); its next slot; its words to come; and how the stream comes (see `chains`). All else is drawn
from the seed, in the order of `Case`, as crates/test_expander draws it. Before the lines of the cases stands `fresh`, with
what a fresh expander carries. A line ends with what a close comes to then.
"""

import struct
import zlib
from functools import cached_property
from itertools import product

from bits import bits
from expander import FRESH, NEEDED_LIMIT, REPLAY, SLOTS, STREAM_LIMIT, Call, Carried, Load, close, expand, load_numbers
from expander import malformed
from seeded import Draws

MOST_ROOM = 65600
SEED = 20000
WHOLE, AT_EACH_PLACE = 0, 1  # how a stream comes; else in random pieces
NEVER = 0
ALL = 16


# What is drawn from a seed.

def states(draws, count):
    """The generator's states after the next draws."""
    made = []
    for _ in range(count):
        draws.draw()
        made.append(draws.state)
    return made


def replay_word(high, low, odd):
    """A REPLAY from two draws: short lengths, 31 and 32, and where it may be odd also 0, 33, 63 and any; a fourth start at 31."""
    whole = high << 16 | low
    lengths = (1, 1, 2, 2, 3, 3, 4, 5, 8, 16, 31, 32, *((0, 33, 63, bits(whole, 4, 9)) if odd else (32, 31, 7, 6)))
    start = 31 if bits(high, 12, 13) == 0 else bits(whole, 14, 18)
    return REPLAY << 24 | whole & 0x00F83C0F | lengths[bits(high, 8, 11)] << 4 | start << 14


class Mix:
    """Of sixteen kinds those below mops0 are MOP words of template 0, then those below mops1 of template 1, then those
    below configs MOP_CFG words, then those below replays REPLAY words; counts is the most that template 0's count is. Of the
    nine words and of the slots, those of a kind below in_nine and below in_slots are REPLAY words."""

    def __init__(self, mops0, mops1, configs, counts, replays=NEVER, in_nine=NEVER, in_slots=NEVER, odd=0):
        self.mops0, self.mops1, self.configs, self.counts = mops0, mops1, configs, counts
        self.replays, self.in_nine, self.in_slots, self.odd = max(replays, configs), in_nine, in_slots, odd

    def packed(self):
        """Its two words."""
        return (self.mops0 | self.mops1 << 8 | self.configs << 16 | self.counts << 24,
                self.replays | self.in_nine << 8 | self.in_slots << 16 | self.odd << 24)

    def word(self, draws):
        """A word of the stream."""
        kind, high, low = draws.draw() % 16, draws.draw(), draws.draw()
        if kind < self.mops0:
            return 0x01000000 | min(high % 128, self.counts) << 16 | low
        if kind < self.mops1:
            return 0x01800000 | high % 128 << 16 | low
        if kind < self.configs:
            return 0x03000000 | high % 256 << 16 | low
        if kind < self.replays:
            return replay_word(high, low, self.odd)
        return high << 16 | low

    def with_replays(self, draws, words, share):
        """The words, of which those of a kind below the share give way to REPLAYs."""
        made = []
        for word in words:
            kind, high, low = draws.draw() % 16, draws.draw(), draws.draw()
            made.append(replay_word(high, low, self.odd) if kind < share else word)
        return made


class Case:
    def __init__(self, seed, high, mix, m0, m1, length, lent=9, load=None):
        self.seed, self.high, self.mix, self.m0, self.m1, self.length = seed, high, mix, m0, m1, length
        self.lent, self.load = lent, load
        draws = Draws(seed)
        nine = states(draws, lent)
        if lent > 1:
            nine[:2] = [m0, m1]
        self.nine = nine[:2] + mix.with_replays(draws, nine[2:], mix.in_nine)
        self.carried = Carried(high, tuple(mix.with_replays(draws, states(draws, SLOTS), mix.in_slots)), load)
        self.stream = [mix.word(draws) for _ in range(length)]
        self.draws_left = draws.state

    def but(self, **changes):
        """The case with other arguments."""
        names = 'seed', 'high', 'mix', 'm0', 'm1', 'length', 'lent', 'load'
        return Case(**{**{name: getattr(self, name) for name in names}, **changes})

    @cached_property
    def needed(self):
        """How many words the stream needs in one call; the refusal's number if it is refused whatever the room."""
        answer, _ = expand(self.carried, self.nine, self.stream, [0] * NEEDED_LIMIT)
        return answer[1]

    @cached_property
    def goes(self):
        """How many words of the stream are taken before one that is refused by 7 or 13 or writes too many, how many words are
        written then, and the number that the next is refused by, 0 if there is none. Nine words are lent, or none is taken."""
        if self.lent != 9:
            return 0, 0, 4
        call, written = Call(self.carried, self.nine), 0
        for taken, word in enumerate(self.stream):
            number = call.take(word)
            if number or len(call.replay.written) > NEEDED_LIMIT:
                return taken, written, number or 8
            written = len(call.replay.written)
        return len(self.stream), written, 0

    def packed(self, room, pieces=WHOLE):
        first, last = self.mix.packed()
        kind, following, left, shown = load_numbers(self.load)
        return struct.pack('<12I', self.seed, self.high | self.lent << 16, first, self.m0, self.m1, self.length, room, last,
                           kind | shown << 1, following, left, pieces)

    def line(self, room, pieces=WHOLE):
        calls = Calls(self, states(Draws(self.draws_left), room))
        if pieces == WHOLE:
            told = calls.take(self.stream)
        else:
            for each in chains(self.stream, pieces):
                calls.take_chain(each)
            told = f'pieces {calls.taken} {calls.at} {checksum(calls.came)}'
        return f'{told} {carried_line(calls.carried)} {checksum(calls.output)} {closed_line(calls.carried)}\n'


def chains(stream, pieces):
    """The stream in pieces, one chain of them after another: cut in two at each place; or, from 65,536 on, once, in random
    pieces, of which `pieces` is the seed and its low half the most words of one."""
    if pieces < 65536:
        return [[stream[:place], stream[place:]] for place in range(len(stream) + 1)]
    draws, at, made = Draws(pieces), 0, []
    while at < len(stream):
        words = draws.draw() % (pieces % 65536 + 1)
        made.append(stream[at:at + words])
        at += words
    return [made]


class Calls:
    """Calls one after another, each from what the last one handed back, into one output, each behind what was written."""

    def __init__(self, case, output):
        self.case, self.output = case, output
        self.carried, self.at, self.taken, self.came = case.carried, 0, 0, []

    def take(self, piece):
        """A call's answer; how often it is accepted is counted, and all that comes of it is kept as numbers."""
        lent = [0] * (len(self.output) - self.at)
        (kind, number), self.carried = expand(self.carried, self.case.nine, piece, lent)
        refused = kind == 'refused'
        if not refused:
            self.output[self.at:self.at + number] = lent[:number]
            self.at, self.taken = self.at + number, self.taken + 1
        self.came += (int(refused), number, self.carried.high, *self.carried.slots, *load_numbers(self.carried.load))
        return f'{"refused" if refused else "done"} {number}'

    def take_chain(self, pieces):
        """Begins anew with what the case carries, at the output's start."""
        self.carried, self.at = self.case.carried, 0
        for piece in pieces:
            self.take(piece)


def checksum(words):
    return zlib.adler32(struct.pack(f'<{len(words)}I', *words))


def carried_line(carried):
    return ' '.join(map(str, (carried.high, checksum(carried.slots), *load_numbers(carried.load))))


def closed_line(carried):
    answer, after = close(carried)
    return f'{" ".join(map(str, answer))} {carried_line(after)}'


# Short streams.

def chosen(draws, among):
    return among[draws.draw() % len(among)]


def any_mask(draws):
    """A high mask, zero now and then."""
    return chosen(draws, [0, 0xFFFF] + [draws.draw() for _ in range(6)])


COUNTS = (0, 1, 2, 7, 31, 32, 33, 63, 127)
FEW, FLAGS, OVER = [0, 1, 1, 2, 3, 4, 9], [0, 1, 2, 3, 4, 7], [128, 129, 255, 0x7FFFFFFF, 0xFFFFFFFF]


def mop_mix(draws):
    """MOPs, and REPLAYs only as they come."""
    edges = sorted(draws.draw() % (ALL + 1) for _ in range(3))
    return Mix(*edges, chosen(draws, COUNTS), in_slots=chosen(draws, (NEVER, NEVER, NEVER, 8)))


# REPLAYs alone, beside a few MOPs, and with as many; and so that 7 and 13 come equally often.
SHAPES = ((0, 0, 0, 5), (0, 0, 0, 16), (1, 2, 3, 8), (2, 3, 4, 10), (1, 4, 5, 9), (3, 3, 5, 10), (0, 3, 3, 8), (4, 7, 9, 16))
REFUSED = ((0, 1, 1, 12), (1, 3, 4, 16), (0, 2, 3, 9))


def replay_mix(draws, odd, shapes=SHAPES):
    """REPLAYs in the stream, and now and then in the nine words and the slots."""
    mops0, mops1, configs, replays = chosen(draws, shapes)
    in_nine, in_slots = chosen(draws, (NEVER, NEVER, 3, 5, 8, ALL)), chosen(draws, (NEVER, 4, ALL))
    return Mix(mops0, mops1, configs, chosen(draws, COUNTS), replays, in_nine, in_slots, odd)


def short_case(draws, mix, outer, inner, lent=9, load=None):
    """A short stream of a mix; m0 and m1 from the two lists."""
    return Case(draws.word(), any_mask(draws), mix, chosen(draws, outer), chosen(draws, inner), draws.draw() % 17, lent, load)


def mop_cases(draws):
    for _ in range(1100):
        yield short_case(draws, mop_mix(draws), FEW, FLAGS)
    for _ in range(20):
        yield short_case(draws, mop_mix(draws), [1, 2, 127], [1, 63, 126, 127])
    for _ in range(150):
        yield short_case(draws, mop_mix(draws), FEW + OVER, FLAGS + OVER)
    for lent in (0, 1, 2, 8, 10, 16):
        for _ in range(5):
            yield short_case(draws, mop_mix(draws), FEW + OVER, FLAGS + OVER, lent)


def replay_cases(draws):
    for _ in range(550):
        yield short_case(draws, replay_mix(draws, 0), FEW, FLAGS)
    for _ in range(180):
        yield short_case(draws, replay_mix(draws, 1), FEW, FLAGS)
    for _ in range(100):
        yield short_case(draws, replay_mix(draws, 1, REFUSED), OVER, FLAGS + OVER)
    for lent in (0, 1, 2, 3, 8, 10, 16):
        yield short_case(draws, replay_mix(draws, 1), FEW, FLAGS, lent)


# Long streams.

def at_the_limit(draws, mix, m0, m1, exact=False, most=12000):
    """Two streams: the last word before the limit, exactly at it where asked, and one more."""
    while True:
        whole = Case(draws.word(), draws.draw(), mix, m0, m1, most)
        taken, written, number = whole.goes
        if number == 8 and (written == NEEDED_LIMIT or not exact):
            return whole.but(length=taken), whole.but(length=taken + 1)


def refused_when_full(draws, mix, m0, m1, wanted):
    """A stream that writes too many words before its last one is refused by 7 or 13, as wanted."""
    while True:
        whole = Case(draws.word(), draws.draw(), mix, m0, m1, 12000)
        call = Call(whole.carried, whole.nine)
        length, number = next(((at + 1, number) for at, number in enumerate(map(call.take, whole.stream)) if number), (0, 0))
        if number == wanted and len(call.replay.written) > NEEDED_LIMIT:
            return whole.but(length=length)


def swallowed(draws, m1, length):
    """MOPs of more words than a call may write, most of which their own loads take."""
    while True:
        case = Case(draws.word(), draws.draw(), Mix(NEVER, ALL, ALL, 0, in_nine=ALL), 127, m1, length)
        if case.goes[2] == 0:
            return case


def plain(draws, mix, m0, m1, length):
    """A stream of MOPs none of whose words is a REPLAY."""
    while True:
        case = Case(draws.word(), draws.draw(), mix, m0, m1, length)
        if all(bits(word, 24, 31) != REPLAY for word in case.nine):
            return case


def long_mop_cases(draws):
    """Streams that need about as many words as a call may, or have as many: the last word before the limit, and one more."""
    for _ in range(3):
        yield from at_the_limit(draws, Mix(4, 8, 12, 127), 6, 10)
        yield from at_the_limit(draws, Mix(8, 8, 9, 31), 1, 3)
        yield from at_the_limit(draws, Mix(NEVER, ALL, ALL, 0), 127, 127)
        yield from at_the_limit(draws, Mix(5, 10, 15, 2), 2, 2)
    for flag, each in ((0, 1), (1, 2), (2, 4)):
        for more in (-1, 0, 1):
            yield plain(draws, Mix(ALL, ALL, ALL, 0), 0, flag, NEEDED_LIMIT // each + more)
    yield Case(draws.word(), draws.draw(), Mix(NEVER, NEVER, ALL, 0), 1, 1, STREAM_LIMIT)
    yield Case(draws.word(), draws.draw(), Mix(NEVER, NEVER, ALL, 0), 1, 1, STREAM_LIMIT + 1)
    yield Case(draws.word(), draws.draw(), Mix(NEVER, ALL, ALL, 0), 128, 128, STREAM_LIMIT + 1)


def long_replay_cases(draws):
    """The same by plays, from the stream and from MOPs; 7 and 13 behind a full output; more MOP words than a call may write."""
    yield from at_the_limit(draws, Mix(NEVER, NEVER, NEVER, 0, ALL, in_slots=4), 0, 0, most=STREAM_LIMIT)
    for _ in range(3):
        yield from at_the_limit(draws, Mix(ALL, ALL, ALL, 0, in_nine=ALL), 0, 0, exact=True)
        yield from at_the_limit(draws, Mix(4, 4, 4, 3, ALL, in_nine=ALL), 0, 1, exact=True)
        yield from at_the_limit(draws, Mix(2, 4, 6, 7, ALL, in_nine=5), 3, 4)
        yield refused_when_full(draws, Mix(8, 8, 9, 31), 1, 3, 13)
        yield refused_when_full(draws, Mix(8, 8, 9, 31), 128, 3, 7)
        yield from (swallowed(draws, m1, length) for m1, length in ((15, 20), (40, 8), (127, 3)))
    yield Case(draws.word(), draws.draw(), Mix(NEVER, NEVER, NEVER, 0, ALL, odd=1), 0, 0, STREAM_LIMIT + 1)


# Streams behind a load.

NEXT, LEFT = (0, 9, 31, 32, 0xFFFFFFFF), (0, 1, 6, 32, 33, 0xFFFFFFFF)
LOADS = [Load(*numbers) for numbers in product(NEXT, LEFT, (0, 1))]
MALFORMED = [load for load in LOADS if malformed(load)]


def any_load(draws):
    """None, or one that is mostly well formed."""
    if draws.draw() % 2 == 0:
        return None
    if draws.draw() % 8 == 0:
        return chosen(draws, LOADS)
    return Load(draws.draw() % SLOTS, draws.draw() % (SLOTS + 1), draws.draw() % 2)


def first_that(fits, make):
    """The first of the cases made that fits."""
    return next(filter(fits, iter(make, None)))


def without_replays(draws, load):
    """A stream without a REPLAY in it or in the nine words."""
    return first_that(lambda case: case.stream and all(bits(word, 24, 31) != REPLAY for word in case.nine + case.stream),
                      lambda: short_case(draws, mop_mix(draws), FEW, FLAGS, load=load))


def only_mops(draws, load):
    """MOPs, which fill what the load has to come; REPLAYs among their words now and then."""
    mops0, counts, in_nine = chosen(draws, (ALL, NEVER, 8)), chosen(draws, COUNTS), chosen(draws, (NEVER, 3))
    return short_case(draws, Mix(mops0, ALL, ALL, counts, in_nine=in_nine), FEW[1:], FLAGS, load=load)


def load_cases(draws):
    """Any streams behind each load; behind one that is well formed also such as have no REPLAY, and such as have MOPs alone."""
    for load in LOADS:
        yield short_case(draws, replay_mix(draws, draws.draw() % 2), FEW, FLAGS, load=load)
        if load not in MALFORMED:
            yield without_replays(draws, load)
            yield only_mops(draws, load)


def refused_by(draws, number):
    """A stream that is refused by 7 or 13; with its room."""
    return first_that(lambda case: case.goes[2] == number,
                      lambda: short_case(draws, replay_mix(draws, 1, REFUSED), OVER, FLAGS)), 0


def too_long(draws):
    """A stream that is refused by 8; with its room."""
    case = first_that(lambda case: case.goes[1] > 0 and case.goes[2] == 0,
                      lambda: short_case(draws, replay_mix(draws, 0), FEW, FLAGS))
    return case, case.goes[1] - 1


def beside_10(draws):
    """Loads that are refused by 10, before what is refused by 4, 7, 13 or 8 without them; with their rooms."""
    for number, load in enumerate(MALFORMED):
        yield short_case(draws, replay_mix(draws, 1, REFUSED), FEW, FLAGS, (0, 8, 10, 16)[number % 4], load), 0
        for case, room in (refused_by(draws, (7, 13)[number % 2]), too_long(draws)):
            yield case.but(load=load), room


# All of them, with rooms.

def with_rooms(draws, cases):
    """In one call; rooms one short, exact and ample."""
    for case in cases:
        for room in (max(case.needed - 1, 0), case.needed, case.needed + 1 + draws.draw() % 9):
            yield case, min(room, MOST_ROOM), WHOLE


def with_another(draws, cases):
    """The same, and one anywhere below."""
    for case in cases:
        yield from with_rooms(draws, [case])
        yield case, draws.draw() % (min(case.needed, MOST_ROOM) + 1), WHOLE


def random_pieces(draws, most):
    """Pieces of up to so many words."""
    return (1 + draws.draw() % 65535) << 16 | max(most, 1)


def both_ways(draws, case):
    """At each place and in random pieces, with room for all of them up to a word that is refused."""
    _, written, _ = case.goes
    for pieces in (AT_EACH_PLACE, random_pieces(draws, chosen(draws, (1, 2, 5, 9)))):
        yield case, written + 1 + draws.draw() % 9, pieces


def some_way(draws):
    """One way or the other."""
    return chosen(draws, (AT_EACH_PLACE, random_pieces(draws, 5)))


def with_less_room(draws, case):
    """In pieces, with just room enough or less."""
    _, written, _ = case.goes
    return case, chosen(draws, (written, max(written - 1, 0), draws.draw() % (written + 1))), some_way(draws)


def in_pieces(draws, cases):
    """Both ways, and every fourth stream also with less room."""
    for number, case in enumerate(cases):
        yield from both_ways(draws, case)
        if number % 4 == 0:
            yield with_less_room(draws, case)


def long_in_pieces(draws, cases):
    """In a few pieces and in some hundred."""
    for case in cases:
        for most in (case.length // 2, case.length // 150):
            yield case, chosen(draws, (NEEDED_LIMIT - 1, MOST_ROOM, MOST_ROOM)), random_pieces(draws, most)


def distinct(cases):
    """The first case of each stream."""
    found = {}
    for case in cases:
        found.setdefault(tuple(case.stream), case)
    return found.values()


def short_and_long(draws):
    """Short streams in one call, with their rooms, and the cases of long ones."""
    short = [*with_another(draws, mop_cases(draws)), *with_rooms(draws, replay_cases(draws))]
    return short, [*long_mop_cases(draws), *long_replay_cases(draws)]


def all_cases():
    """Cases with their rooms, and how their streams come."""
    draws = Draws(SEED)
    short, long = short_and_long(draws)
    yield from short
    yield from ((case, room, WHOLE) for case in long for room in (NEEDED_LIMIT - 1, NEEDED_LIMIT, MOST_ROOM))
    yield from in_pieces(draws, distinct(case for case, _, _ in short))
    yield from long_in_pieces(draws, long)
    for case in load_cases(draws):
        yield case, max(case.goes[1] - 1, 0) + draws.draw() % 3, WHOLE
        if case.load not in MALFORMED:
            yield from both_ways(draws, case)
    for case, room in beside_10(draws):
        yield from ((case, room, pieces) for pieces in (WHOLE, some_way(draws)))


def any_streams(draws, count):
    """So many short streams that are not among those, behind any loads."""
    few, over = [0, 1, 1, 2, 2, 3, 3, 5, 9, 127], [128, 0xFFFFFFFF]
    makes = (mop_mix, lambda draws: replay_mix(draws, 0), lambda draws: replay_mix(draws, 0), lambda draws: replay_mix(draws, 1))
    return (short_case(draws, chosen(draws, makes)(draws), 2 * few + over, 2 * few + over,
                       chosen(draws, [9] * 20 + [0, 8, 10]), any_load(draws)) for _ in range(count))


def any_cases(draws, count):
    """Such streams, each in one call with four rooms, and in pieces."""
    for case in any_streams(draws, count):
        yield from with_another(draws, [case])
        yield from both_ways(draws, case)
        yield with_less_room(draws, case)


def input_and_output(cases):
    """What the program reads of cases with their rooms, and what it must write."""
    made = [(case.packed(room, pieces), case.line(room, pieces)) for case, room, pieces in cases]
    stdout = ''.join((f'fresh {carried_line(FRESH)}\n', *(line for _, line in made)))
    return b''.join(packed for packed, _ in made), stdout.encode()


def files():
    stdin, stdout = input_and_output(all_cases())
    return {'crates/test_expander/stdin': stdin, 'crates/test_expander/stdout': stdout}
