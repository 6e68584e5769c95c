"""The expander: the MOP stage (document 01, "Expander"), then the replay stage (document 02, K1); streams in pieces (K2)."""

from functools import lru_cache
from typing import NamedTuple, Optional

from bits import bit, bits

MOP, MOP_CFG, REPLAY = 0x01, 0x03, 0x04
STREAM_LIMIT = 65536
NEEDED_LIMIT = 65536
ROUNDS_LIMIT = 127
SLOTS = 32
NOP = 0x02000000


class Load(NamedTuple):
    """A load that is on."""
    next: int  # slot
    left: int  # words to come
    shown: int  # whether they are written too


class Carried(NamedTuple):
    """What a call takes and hands back."""
    high: int  # mask
    slots: tuple
    load: Optional[Load]


FRESH = Carried(0, (NOP,) * SLOTS, None)  # what a first call takes


def load_numbers(load):
    """Whether there is a load, the next slot, the words to come, whether they are shown; zeros if there is none."""
    return (0, 0, 0, 0) if load is None else (1, *load)


# The MOP stage.

class Emission(NamedTuple):
    """Words that leave the MOP stage, and the places of the REPLAYs among them."""
    words: tuple
    replays: tuple


def emission(words):
    return Emission(words, tuple(place for place, word in enumerate(words) if bits(word, 24, 31) == REPLAY))


def kept(template):
    """A template whose emission is kept for the next MOP that is alike."""
    return lru_cache(maxsize=32)(lambda *arguments: emission(tuple(template(*arguments))))


@kept
def template_0(m, count, mask):
    """Count + 1 rounds; bit i of the mask chooses what round i gives, clear above 31."""
    halo, last = bit(m[1], 1), bit(m[1], 0)
    for i in range(count + 1):
        if i > 31 or not bit(mask, i):
            yield m[3]
            if halo:
                yield from (m[4], m[5], m[6])
            if last:
                yield m[2]
        else:
            yield m[7]
            if halo:
                yield from (m[7], m[7], m[7])
            if last:
                yield m[8]


@kept
def template_1(m):
    """m0 outer rounds of m1 inner ones."""
    outer_rounds, inner_rounds = m[0], m[1]
    for outer in range(1, outer_rounds + 1):
        yield m[2]
        for inner in range(1, inner_rounds + 1):
            yield m[5]
            if inner < inner_rounds:
                yield m[6]
            elif outer < outer_rounds:
                yield m[8]
            else:
                yield m[7]
        yield m[3]
        yield m[4]


def expanded(word, high, m):
    """What one word emits; a MOP_CFG emits nothing. The nine words are a tuple."""
    opcode = bits(word, 24, 31)
    if opcode == MOP_CFG:
        return emission(())
    if opcode != MOP:
        return emission((word,))
    if bit(word, 23):
        return template_1(m)
    return template_0(m, bits(word, 16, 22), (high << 16) | bits(word, 0, 15))


def is_template_1(word):
    return bits(word, 24, 31) == MOP and bit(word, 23) == 1


# The replay stage.

class Replay:
    """The slots, the load if there is one, and what is written, to one word over the limit."""

    def __init__(self, slots, load):
        self.slots, self.load, self.written = list(slots), load, []

    def write(self, words):
        self.written += words[:NEEDED_LIMIT + 1 - len(self.written)]

    def fill(self, words):
        """Puts the first words into slots, as many as the load has to come, and gives their number. The last of them ends the
        load; one that was carried with none to come takes none, and stays."""
        if self.load is None or self.load.left == 0:
            return 0
        first, left, shown = self.load
        taken = words[:left]
        for i, word in enumerate(taken):
            self.slots[(first + i) % SLOTS] = word
        if shown:
            self.write(taken)
        after = Load((first + len(taken)) % SLOTS, left - len(taken), shown)
        self.load = after if after.left > 0 else None
        return len(taken)

    def obey(self, word):
        """Starts a load, or writes slots out. Gives whether the length is one that there is."""
        start, length = bits(word, 14, 18), bits(word, 4, 9)
        if length == 0 or length > SLOTS:
            return False
        if bit(word, 0):
            self.load = Load(start, length, bit(word, 1))
        else:
            self.write([self.slots[(start + i) % SLOTS] for i in range(length)])
        return True

    def take(self, words, replays):
        """Takes an emission; a REPLAY that a load takes is stored and not obeyed. Gives whether all that it obeys can be."""
        at = self.fill(words)
        for place in replays:
            if place >= at:
                self.write(words[at:place])
                if not self.obey(words[place]):
                    return False
                at = place + 1
                at += self.fill(words[at:at + SLOTS])
        self.write(words[at:])
        return True


class Call:
    """A call at work: the high mask and the replay stage as the words of the piece so far left them."""

    def __init__(self, carried, m):
        self.m, self.high, self.replay = tuple(m), carried.high, Replay(carried.slots, carried.load)

    def take(self, word):
        """The number that the next word of the piece is refused by, 7 or 13, or 0."""
        if is_template_1(word) and (self.m[0] > ROUNDS_LIMIT or self.m[1] > ROUNDS_LIMIT):
            return 7
        if bits(word, 24, 31) == MOP_CFG:
            self.high = bits(word, 0, 15)
        return 0 if self.replay.take(*expanded(word, self.high, self.m)) else 13


def malformed(load):
    """Whether a carried load is one that 10 is given for."""
    return load is not None and (load.next > SLOTS - 1 or load.left > SLOTS)


def expand(carried, m, piece, output):
    """Takes a piece of a stream; a load goes on over its end. Fills a lent list from its start and leaves its rest.

    Gives (('filled', words), new carried), or (('refused', 4, 10, 7, 13 or 8), old carried). 7 and 13 are found in one pass
    over the whole piece, and go before 8.
    """
    if len(m) != 9 or len(piece) > STREAM_LIMIT:
        return ('refused', 4), carried
    if malformed(carried.load):
        return ('refused', 10), carried
    call = Call(carried, m)
    for word in piece:
        number = call.take(word)
        if number:
            return ('refused', number), carried
    written = call.replay.written
    if len(written) > min(len(output), NEEDED_LIMIT):
        return ('refused', 8), carried
    output[:len(written)] = written
    return ('filled', len(written)), Carried(call.high, tuple(call.replay.slots), call.replay.load)


def close(carried):
    """The end of a stream: the load is off, and what it took stays. Gives (('closed',), new carried), or (('refused', 10), old
    carried)."""
    if malformed(carried.load):
        return ('refused', 10), carried
    return ('closed',), carried._replace(load=None)
