"""Streams in pieces: a load goes on over a piece's end, a close ends it, 10 is for a load that is none (document 02, K2)."""

import unittest
from collections import Counter

import assemble as asm
from expander import FRESH, SLOTS, Load, close, expand
from seeded import Draws
from tests.test_replay_buffer import A, B, C, M, NOP, NUMBERED, REST, ReplayBuffer, any_call, loaded, word_by_word

BAD = asm.replay(0, 33)
OVER = (128, 1, *M[2:])  # nine words with which a template 1 MOP is refused
ROOM_ENOUGH = [REST] * 65536
EDGES = (0, 1, 31, 32, 33, 64, 0x7FFFFFFF, 0xFFFFFFFF)


def taking(following, left, shown=0, before=NUMBERED):
    """What is carried, with a load that is on."""
    return before._replace(load=Load(following, left, shown))


MALFORMED = [taking(following, left, shown) for following in EDGES for left in EDGES for shown in (0, 1)
             if following > 31 or left > 32]


def in_pieces(carried, m, pieces):
    """What the pieces write, joined, and what is carried after the last one; None if one is refused."""
    written = []
    for piece in pieces:
        answer, carried = expand(carried, m, piece, ROOM_ENOUGH)
        if answer[0] == 'refused':
            return None
        written += ROOM_ENOUGH[:answer[1]]
    return written, carried


class Worked(ReplayBuffer):
    def test_a_load_of_three_in_three_pieces(self):
        first = self.gives([0x0407C033, A], [A], loaded(A, start=31), load=Load(0, 2, 1))
        second = self.gives([B], [B], loaded(A, B, start=31), carried=first, load=Load(1, 1, 1))
        third = self.gives([C, 0x0407C030], [C, A, B, C], loaded(A, B, C, start=31), carried=second)
        whole = self.gives([0x0407C033, A, B, C, 0x0407C030], [A, B, C, A, B, C], loaded(A, B, C, start=31))
        self.assertEqual(third, whole)
        self.assertEqual(close(third), (('closed',), third))


class Going(ReplayBuffer):
    """A load that comes with a piece."""

    def test_every_slot_and_number_of_words(self):
        words = [1000 + i for i in range(40)]
        for following in range(SLOTS):
            for left in range(1, SLOTS + 1):
                slots = loaded(*words[:left], start=following, before=NUMBERED)
                self.gives(words, words[left:], slots, carried=taking(following, left))
                self.gives(words, words, slots, carried=taking(following, left, 1))

    def test_goes_on_over_the_end(self):
        for shown in (0, 1):
            self.gives([A, B], [A, B] * shown, loaded(A, B, start=31, before=NUMBERED), carried=taking(31, 32, shown),
                       load=Load(1, 30, shown))
            self.gives([A, B], [A, B] * shown, loaded(A, B, start=30, before=NUMBERED), carried=taking(30, 2, shown))

    def test_an_empty_piece_carries_the_same(self):
        for load in (None, Load(31, 32, 1), Load(0, 1, 0), Load(7, 0, 1)):
            self.gives([], [], carried=NUMBERED._replace(load=load), load=load)

    def test_mop_cfg_and_mops_that_give_nothing_take_no_slot(self):
        self.gives([asm.mop_cfg(5), asm.mop(1)], [], carried=taking(3, 1), high=5, load=Load(3, 1, 0))

    def test_takes_a_replay_that_would_be_refused(self):
        self.gives([BAD], [], loaded(BAD, start=4, before=NUMBERED), carried=taking(4, 1))
        self.refuses(13, [A, BAD], carried=taking(4, 1))
        self.refuses(13, [BAD], carried=taking(4, 0))

    def test_takes_the_words_of_a_mop(self):
        self.gives([asm.mop(0, 4, 0b100)], [103, 103], loaded(103, 103, 107, start=31, before=NUMBERED), carried=taking(31, 3))
        m = (0, 0, 102, asm.replay(0, 2), 104, 105, 106, BAD, 108)
        play = m[3]
        self.gives([asm.mop(0, 2, 0b001)], [BAD, play, BAD, play], loaded(BAD, play, before=NUMBERED), m, taking(0, 2, 1))
        self.refuses(13, [asm.mop(0, 2, 0b100)], m, taking(0, 2, 1))

    def test_is_followed_by_another(self):
        self.gives([A, asm.replay(9, 2, 1, 1), B], [B], loaded(B, start=9, before=NUMBERED._replace(
            slots=loaded(A, start=5, before=NUMBERED))), carried=taking(5, 1), load=Load(10, 1, 1))

    def test_shown_words_need_room(self):
        self.gives([A] * 32, [A] * 32, (A,) * 32, carried=taking(8, 32, 1))
        self.gives([A] * 32, [], (A,) * 32, carried=taking(8, 32, 0))


class NoneToCome(ReplayBuffer):
    """A load without words to come takes none, and stays until another begins."""

    def test_takes_none_and_stays(self):
        for load in (Load(0, 0, 0), Load(31, 0, 1), Load(5, 0, 1)):
            carried = NUMBERED._replace(load=load)
            self.gives([A, B], [A, B], carried=carried, load=load)
            self.gives([asm.replay(31, 2)], [931, 900], carried=carried, load=load)
            self.gives([asm.mop_cfg(3), asm.mop(0, 1, 0b10)], [103, 107], carried=carried, high=3, load=load)

    def test_another_takes_its_place(self):
        carried = taking(5, 0, 1)
        self.gives([asm.replay(3, 2, 0, 1), A], [], loaded(A, start=3, before=NUMBERED), carried=carried, load=Load(4, 1, 0))
        self.gives([asm.replay(3, 2, 1, 1), A, B], [A, B], loaded(A, B, start=3, before=NUMBERED), carried=carried)


class Close(ReplayBuffer):
    def test_drops_the_load_alone(self):
        for load in (None, Load(0, 1, 0), Load(31, 32, 1), Load(31, 0, 1)):
            self.assertEqual(close(NUMBERED._replace(load=load)), (('closed',), NUMBERED))
        self.assertEqual(close(FRESH), (('closed',), FRESH))

    def test_pieces_may_follow(self):
        after = close(self.gives([asm.replay(0, 3, 1, 1), A], [A], loaded(A), load=Load(1, 2, 1)))[1]
        self.gives([B, asm.replay(0, 2)], [B, A, NOP], carried=after)


class Malformed(ReplayBuffer):
    def test_limits(self):
        for following in (0, 31):
            for left in (0, 1, 32):
                self.assertEqual(expand(taking(following, left), M, [], [])[0], ('filled', 0))
                self.assertEqual(close(taking(following, left))[0], ('closed',))
        self.assertEqual(len(MALFORMED), 2 * (len(EDGES) ** 2 - 3 * 4))
        for carried in MALFORMED:
            self.refuses(10, [], carried=carried)
            self.refuses(10, [asm.replay(0, 2, 0, 1), A], carried=carried)
            self.assertEqual(close(carried), (('refused', 10), carried))

    def test_order(self):
        for carried in (taking(32, 0), taking(0, 33), taking(0xFFFFFFFF, 0xFFFFFFFF, 1)):
            for m in (M[:8], M + (0,), ()):
                self.refuses(4, [BAD], m, carried)
            self.refuses(4, [NOP] * 65537, carried=carried, room=70000)
            self.refuses(10, [asm.mop(1)], OVER, carried)
            self.refuses(10, [BAD], carried=carried)
            self.refuses(10, [NOP] * 20, carried=carried)
            self.refuses(10, [NOP] * 65536, carried=carried, room=0)

    def test_7_and_13_before_8_after_a_load_that_came(self):
        for load in (None, Load(31, 2, 1), Load(31, 0, 1)):
            carried = NUMBERED._replace(load=load)
            self.refuses(7, [NOP, NOP, asm.mop(1), BAD], OVER, carried, 0)
            self.refuses(13, [NOP, NOP, BAD, asm.mop(1)], OVER, carried, 0)
        # A MOP is refused by 7 though the load would take its words; a bad REPLAY that the load takes is no matter.
        self.refuses(7, [asm.mop(1)], OVER, taking(31, 2))
        self.refuses(7, [BAD, asm.mop(1)], OVER, taking(31, 1))
        self.refuses(8, [BAD], carried=taking(31, 1, 1), room=0)


class Refused(ReplayBuffer):
    def test_a_piece_that_is_refused_may_come_again(self):
        first = self.gives([asm.mop_cfg(2), asm.replay(30, 3, 1, 1), A], [A], loaded(A, start=30), high=2, load=Load(31, 2, 1))
        piece = [asm.mop_cfg(9), B, C, A]
        self.refuses(8, piece, carried=first, room=2)
        self.refuses(13, [*piece, BAD], carried=first)
        self.refuses(4, piece, M[:8], first)
        self.gives(piece, [B, C, A], loaded(A, B, C, start=30), carried=first, high=9)


class Limits(ReplayBuffer):
    def test_are_of_a_piece(self):
        self.refuses(4, [asm.mop_cfg(1)] * 65537, carried=taking(3, 32, 1), room=70000)
        # 65,536 words go in and come out, then come out again; the load of that piece takes a word of the next.
        carried = self.gives([NOP] * 65536, [NOP] * 65536, carried=NUMBERED)
        plays, load = [asm.replay(0, 32)] * 2048, [asm.replay(8, 1, 0, 1)]
        carried = self.gives(plays + load, list(NUMBERED.slots) * 2048, carried=carried, load=Load(8, 1, 0))
        self.gives([A], [], loaded(A, start=8, before=NUMBERED), carried=carried)

    def test_joined_they_may_be_too_many(self):
        pieces = [[NOP] * 40000] * 2
        self.assertEqual(in_pieces(NUMBERED, M, pieces), ([NOP] * 80000, NUMBERED))
        self.refuses(4, pieces[0] + pieces[1], room=80000)


class Joined(unittest.TestCase):
    """Pieces against their joined stream in one call, and against the rule as one loop."""

    def check(self, carried, m, pieces):
        """Whether the pieces are accepted; then the joined stream is, and comes to the same."""
        came = in_pieces(carried, m, pieces)
        if came is None:
            return False
        stream = [word for piece in pieces for word in piece]
        self.assertEqual(in_pieces(carried, m, [stream]), came)
        self.assertEqual(word_by_word(carried, tuple(m), stream), came)
        return True

    def test_drawn(self):
        draws, ends = Draws(11), Counter()
        for _ in range(600):
            m, carried, stream = any_call(draws, 24)
            cuts = [[stream[:place], stream[place:]] for place in range(len(stream) + 1)]
            for pieces in [*cuts, self.some_pieces(draws, stream), [[word] for word in stream]]:
                if self.check(carried, m, pieces):
                    ends['accepted'] += 1
                    ends['in a load'] += bool(pieces) and in_pieces(carried, m, pieces[:1])[1].load is not None
                else:
                    ends['refused'] += 1
                    # With room enough a piece is refused by a word that the joined stream is refused by too.
                    self.assertIsNone(in_pieces(carried, m, [stream]))
        self.assertGreater(min(ends.values()), 500, ends)

    @staticmethod
    def some_pieces(draws, stream):
        """Pieces of no word up to five."""
        pieces, at = [], 0
        while at < len(stream):
            more = draws.draw() % 6
            pieces.append(stream[at:at + more])
            at += more
        return pieces
