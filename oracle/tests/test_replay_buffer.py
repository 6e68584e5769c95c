"""The replay stage: loads and plays, words of MOPs among them, and refusals 13, 7 and 8 (document 02, K1)."""

import unittest

import assemble as asm
from expander import FRESH, SLOTS, Carried, Load, close, expand, expanded
from seeded import Draws

A, B, C, NOP = 0x45123408, 0x60000000, 0xB00000FF, 0x02000000
M = (0, 0, 102, 103, 104, 105, 106, 107, 108)
NUMBERED = Carried(0x77, tuple(range(900, 932)), None)
REST = 0xEEEE
BAD_LENGTHS = (0, *range(33, 64))


def loaded(*words, start=0, before=FRESH):
    """The slots with words put in from a place on."""
    slots = list(before.slots)
    for i, word in enumerate(words):
        slots[(start + i) % SLOTS] = word
    return tuple(slots)


def word_by_word(carried, m, stream):
    """The rule as one loop over single words: what is written and carried, or the number of the refusal, with room enough. No
    load that is carried is without words to come."""
    high, slots, written = carried.high, list(carried.slots), []
    place, left, shown = carried.load or (0, 0, 0)
    for word in stream:
        if word >> 23 == 3 and max(m[0], m[1]) > 127:
            return 7
        if word >> 24 == 3:
            high = word & 0xFFFF
        for each in expanded(word, high, m).words:
            if left > 0:
                slots[place] = each
                written += [each] if shown else []
                place, left = (place + 1) & 31, left - 1
            elif each >> 24 == 4:
                start, length = each >> 14 & 31, each >> 4 & 63
                if not 1 <= length <= 32:
                    return 13
                if each & 1:
                    place, left, shown = start, length, each >> 1 & 1
                else:
                    written += (slots + slots)[start:start + length]
            else:
                written.append(each)
    return written, Carried(high, tuple(slots), Load(place, left, shown) if left else None)


def any_word(draws, kind):
    """A REPLAY, another word, a MOP of either template or a MOP_CFG."""
    if kind == 0:
        length = draws.draw() % 34 if draws.draw() % 4 == 0 else 1 + draws.draw() % 4
        return asm.replay(draws.draw() % 32, length, draws.draw() % 2, draws.draw() % 2)
    if kind == 3:
        return asm.mop(draws.draw() % 2, draws.draw() % 40, draws.draw())
    if kind == 4:
        return asm.mop_cfg(draws.draw())
    return 0x60000000 | draws.draw()


def any_call(draws, most):
    """Nine words, what is carried, a load now and then, and a stream of fewer words than the most."""
    m = [draws.draw() % 4, draws.draw() % 4] + [any_word(draws, draws.draw() % 3) for _ in range(7)]
    if draws.draw() % 40 == 0:
        m[draws.draw() % 2] = 128
    load = Load(draws.draw() % 32, 1 + draws.draw() % 32, draws.draw() % 2) if draws.draw() % 3 == 0 else None
    carried = Carried(draws.draw(), tuple(draws.words(32)), load)
    return m, carried, [any_word(draws, draws.draw() % 5) for _ in range(draws.draw() % most)]


class ReplayBuffer(unittest.TestCase):
    def gives(self, stream, written, slots=None, m=M, carried=FRESH, high=None, load=None):
        """A stream's words, the slots and the high mask after it, as before if not told, and the load, none if not told; room
        exact, ample and one short."""
        after = Carried(carried.high if high is None else high, carried.slots if slots is None else slots, load)
        for more in (0, 3):
            output = [REST] * (len(written) + more)
            self.assertEqual(expand(carried, m, stream, output), (('filled', len(written)), after))
            self.assertEqual(output, list(written) + [REST] * more)
        if written:
            self.refuses(8, stream, m, carried, len(written) - 1)
        return after

    def refuses(self, number, stream, m=M, carried=NUMBERED, room=10):
        output = [REST] * room
        self.assertEqual(expand(carried, m, stream, output), (('refused', number), carried))
        self.assertEqual(output, [REST] * room)


class WorkedTable(ReplayBuffer):
    def test_loads_and_plays(self):
        self.gives([0x04000021, A, B, 0x04000020], [A, B], loaded(A, B))
        self.gives([0x0407C023, A, B, 0x0407C020], [A, B, A, B], loaded(A, B, start=31))
        self.gives([0x04000021, 0x04000020, C, 0x04000020], [0x04000020, C], loaded(0x04000020, C))
        self.gives([0x04000030], [NOP] * 3)
        self.gives([0x04000200], [NOP] * 32)
        self.gives([0x04000011, 0x04000001], [], loaded(0x04000001))

    def test_two_calls(self):
        carried = self.gives([0x04000041, A], [], loaded(A), load=Load(1, 3, 0))
        self.gives([0x04000020], [A, NOP], carried=close(carried)[1])

    def test_refusals(self):
        for word in (0x04000001, 0x04000210, 0x040003F0):
            self.refuses(13, [word], carried=FRESH)
        m = (128,) + M[1:]
        self.refuses(13, [0x04000000, 0x01800000], m, FRESH, 0)
        self.refuses(7, [0x01800000, 0x04000000], m, FRESH, 0)
        self.refuses(7, [0x04000011, 0x04000000, 0x01800000], m, FRESH, 0)

    def test_words_of_mops(self):
        self.gives([0x01800000], [NOP, A, B, NOP, A, B, NOP, NOP, NOP], m=(1, 2, NOP, NOP, NOP, 0x04000020, NOP, NOP, NOP),
                   carried=Carried(0, loaded(A, B), None))
        m = (0, 0, NOP, A, NOP, NOP, NOP, B, NOP)
        self.gives([0x04010031, 0x01020002, C, 0x04010030], [C, A, B, A], loaded(A, B, A, start=4), m)
        m = (0, 0, NOP, 0x04000010, NOP, NOP, NOP, NOP, NOP)
        self.gives([0x04000021, 0x01030000], [0x04000010] * 2, loaded(0x04000010, 0x04000010), m)

    def test_the_limit(self):
        plays = [0x04000200] * 2048
        self.gives(plays, [NOP] * 65536)
        self.refuses(8, plays + [NOP], room=70000)
        self.refuses(13, plays + [NOP, 0x04000000], room=70000)


class Fields(ReplayBuffer):
    def test_every_start_and_length(self):
        words = [1000 + i for i in range(SLOTS)]
        for start in range(SLOTS):
            for length in range(1, SLOTS + 1):
                stream = [asm.replay(start, length, 0, 1), *words[:length], asm.replay(start, length)]
                slots = loaded(*words[:length], start=start, before=NUMBERED)
                self.gives(stream, words[:length], slots, carried=NUMBERED)
                stream[0] |= 2
                self.gives(stream, words[:length] * 2, slots, carried=NUMBERED)
                self.gives([asm.replay(start, length)], [900 + (start + i) % 32 for i in range(length)], carried=NUMBERED)

    def test_lengths(self):
        for length in range(64):
            for start in (0, 1, 31):
                for shown in (0, 1):
                    if length in BAD_LENGTHS:
                        self.refuses(13, [NOP, asm.replay(start, length, shown, 0)])
                        self.refuses(13, [NOP, asm.replay(start, length, shown, 1)])
                    else:
                        self.gives([asm.replay(start, length, shown, 1)], [], carried=NUMBERED, load=Load(start, length, shown))

    def test_bit_1_without_load_is_no_matter(self):
        self.gives([asm.replay(31, 3, 1, 0), B], [931, 900, 901, B], carried=NUMBERED)

    def test_other_bits_are_no_matter(self):
        others = 0x00F83C0C
        self.gives([asm.replay(30, 2, 0, 1) | others, A, B, asm.replay(30, 3) | others], [A, B, NOP], loaded(A, B, start=30))
        self.refuses(13, [asm.replay(0, 0) | others])

    def test_only_opcode_4_is_one(self):
        stream = [0x05000021, 0x84000021, 0x14000021, 0x00000021]
        self.gives(stream, stream)


class Loads(ReplayBuffer):
    def test_take_just_their_words(self):
        self.gives([A, asm.replay(5, 2, 0, 1), B, C, A], [A, A], loaded(B, C, start=5))
        self.gives([A, asm.replay(5, 2, 1, 1), B, C, A], [A, B, C, A], loaded(B, C, start=5))

    def test_follow_one_another(self):
        stream = [asm.replay(0, 1, 0, 1), A, asm.replay(0, 2, 1, 1), B, C, asm.replay(31, 3)]
        self.gives(stream, [B, C, NOP, B, C], loaded(B, C))

    def test_a_whole_round_and_over_it_again(self):
        words = list(range(200, 232))
        slots = loaded(A, B, start=6, before=Carried(0, loaded(*words, start=7), None))
        self.gives([asm.replay(7, 32, 0, 1), *words, asm.replay(6, 2, 0, 1), A, B], [], slots)

    def test_store_a_replay_whatever_its_length(self):
        for word in (asm.replay(0, 0), asm.replay(0, 33, 1, 1), asm.replay(3, 63), asm.replay(0, 5, 0, 1)):
            self.gives([asm.replay(0, 2, 0, 1), word, A, asm.replay(0, 3)], [word, A, NOP], loaded(word, A))
            self.gives([asm.replay(0, 1, 1, 1), word, A], [word, A], loaded(word))

    def test_what_comes_out_of_a_slot_is_not_obeyed(self):
        words = (asm.replay(0, 0), asm.replay(9, 2, 1, 1), asm.mop(1), asm.mop_cfg(5))
        self.gives([asm.replay(8, 4), A], [*words, A], carried=Carried(0x77, loaded(*words, start=8), None))

    def test_what_the_words_so_far_filled(self):
        slots = loaded(A, B, C, start=30, before=NUMBERED)
        carried = self.gives([asm.replay(30, 5, 1, 1), A, B, C], [A, B, C], slots, carried=NUMBERED, load=Load(1, 2, 1))
        self.gives([A, asm.replay(29, 5)], [A, 929, A, B, C, 901], carried=close(carried)[1])
        self.gives([asm.replay(1, 32, 0, 1)], [], carried=NUMBERED, load=Load(1, 32, 0))

    def test_mop_cfg_takes_no_slot(self):
        stream = [asm.replay(0, 2, 1, 1), asm.mop_cfg(1), A, asm.mop_cfg(2), asm.mop_cfg(1), asm.mop(0, 16), NOP]
        self.gives(stream, [A] + [103] * 16 + [107, NOP], loaded(A, 103), high=1)

    def test_a_mop_that_gives_nothing_takes_no_slot(self):
        self.gives([asm.replay(0, 2, 0, 1), asm.mop(1), A, asm.mop(1), B, C], [C], loaded(A, B))

    def test_are_refused_whole(self):
        loads = [asm.mop_cfg(9), asm.replay(0, 2, 0, 1), A, B]
        self.refuses(8, loads + [NOP], room=0)
        self.refuses(13, loads + [asm.replay(0, 0)])
        self.refuses(7, loads + [asm.mop(1)], (1, 128) + M[2:])
        self.refuses(4, loads, M[:8])
        self.refuses(4, loads + [NOP] * 65533, room=70000)


class WordsOfMops(ReplayBuffer):
    def test_across_the_end_of_a_load(self):
        self.gives([asm.replay(31, 2, 0, 1), asm.mop(0, 2, 0b010)], [103], loaded(103, 107, start=31))
        self.gives([asm.replay(31, 2, 1, 1), asm.mop(0, 2, 0b100)], [103, 103, 107], loaded(103, 103, start=31))
        m = (1, 2, *M[2:])  # 102 105 106 105 107 103 104
        self.gives([asm.replay(0, 3, 0, 1), A, asm.mop(1), B], [106, 105, 107, 103, 104, B], loaded(A, 102, 105), m=m)

    def test_replays_after_the_end_of_a_load_are_obeyed(self):
        play = asm.replay(0, 2)
        m = (0, 0, 102, play, 104, 105, 106, 107, 108)
        self.gives([asm.replay(0, 2, 0, 1), asm.mop(0, 2)], [play, play], loaded(play, play), m)
        m = (1, 2, A, B, C, play, asm.replay(4, 1, 1, 1), NOP, NOP)  # A, play, load that takes play, NOP B C
        self.gives([asm.mop(1)], [A, NOP, NOP, play, NOP, B, C], loaded(play, start=4), m)

    def test_chosen_by_the_mask(self):
        m = (0, 0, 102, A, 104, 105, 106, asm.replay(30, 3), 108)
        for place in range(32):
            stream = [asm.mop_cfg((1 << place) >> 16), asm.mop(0, 31, (1 << place) & 0xFFFF)]
            self.gives(stream, [A] * place + [930, 931, 900] + [A] * (31 - place), m=m, carried=NUMBERED, high=(1 << place) >> 16)
        self.gives([asm.mop(0, 32, 0xFFFF)], [930, 931, 900] * 32 + [A], m=m, carried=Carried(0xFFFF, NUMBERED.slots, None))

    def test_a_bad_one_counts_where_it_is_emitted(self):
        m = (0, 1, B, A, 104, 105, 106, asm.replay(0, 33), asm.replay(0, 0))
        self.gives([asm.mop(0, 3, 0b10000)], [A, B] * 4, m=m)
        self.refuses(13, [asm.mop(0, 4, 0b10000)], m)
        self.refuses(13, [asm.mop_cfg(1), asm.mop(0, 16)], m)
        self.gives([asm.replay(0, 2, 0, 1), asm.mop(0, 0, 1), A], [A], loaded(*m[7:]), m)
        self.refuses(13, [asm.replay(0, 1, 0, 1), asm.mop(0, 0, 1), A], m)

    def test_a_mop_records_and_plays_its_own(self):
        m = (2, 3, asm.replay(0, 4, 0, 1), C, asm.replay(0, 4), A, B, NOP, NOP)  # load: A B A B; A NOP C; play
        self.gives([asm.mop(1)], [A, NOP, C, A, B, A, B] * 2, loaded(A, B, A, B), m)

    def test_mop_words_emitted_are_ordinary(self):
        m = (0, 1, asm.mop_cfg(5), asm.mop(1), 104, 105, 106, 107, 108)
        self.gives([asm.replay(0, 2, 0, 1), asm.mop(), asm.mop(), asm.replay(0, 2)], [m[3], m[2]] * 2, loaded(m[3], m[2]), m)


class Order(ReplayBuffer):
    def test_7_and_13_by_the_words_of_the_stream(self):
        bad = asm.replay(0, 63)
        for m in ((128, 0, *M[2:]), (0, 128, *M[2:])):
            self.refuses(13, [NOP, bad, asm.mop(1)], m, room=0)
            self.refuses(7, [NOP, asm.mop(1), bad], m, room=0)
            self.refuses(7, [asm.replay(0, 1, 0, 1), bad, asm.mop(1), bad], m, room=0)
            self.refuses(7, [asm.replay(0, 9, 0, 1), asm.mop(1), bad], m, room=0)

    def test_7_before_what_the_same_word_would_emit(self):
        self.refuses(7, [asm.mop(1)], (128, 1, *[asm.replay(0, 0)] * 7))
        self.refuses(13, [asm.mop(0), asm.mop(1)], (128, 1, *[asm.replay(0, 0)] * 7))

    def test_both_before_8_wherever_they_stand(self):
        self.refuses(13, [NOP] * 20 + [asm.replay(0, 33)], room=1)
        self.refuses(13, [asm.mop(1)] * 500 + [asm.replay(0, 33)], (127, 127, *M[2:]), room=65536)
        self.refuses(7, [asm.replay(0, 32)] * 3000 + [asm.mop(1)], (1, 128, *M[2:]), room=65536)
        # After the output is too full a load still takes its words.
        self.refuses(8, [NOP] * 20 + [asm.replay(0, 1, 0, 1), asm.replay(0, 0)], room=1)
        self.refuses(8, [NOP] * 65535 + [asm.replay(0, 2)], room=70000)

    def test_4_before_all(self):
        self.refuses(4, [asm.replay(0, 0)], M + (0,), room=0)
        self.refuses(4, [asm.replay(0, 0)] * 65537, room=0)


class Room(ReplayBuffer):
    def test_words_that_only_fill_slots_need_none(self):
        self.gives([asm.replay(0, 32, 0, 1), *[A] * 32] * 1900, [], loaded(*[A] * 32))
        # An outer round is a load and the 32 words that it takes: 20 times 4,191 words leave the MOP stage, and none is written.
        m = (127, 15, asm.replay(0, 32, 0, 1), *M[3:])
        self.gives([asm.mop(1)] * 20, [], loaded(*[105, 106] * 14, 105, 107, 103, 104), m)

    def test_shown_ones_do(self):
        stream = [asm.replay(0, 32, 1, 1), *[A] * 32] * 1900
        self.gives(stream, [A] * 60800, loaded(*[A] * 32))

    def test_the_last_play_within_the_limit(self):
        for shown in (0, 1):
            stream = [asm.replay(0, 32, shown, 1), *[A] * 32, *[asm.replay(0, 32)] * (2048 - shown)]
            self.gives(stream, [A] * 65536, loaded(*[A] * 32))
            self.refuses(8, stream + [asm.replay(0, 1)], room=65537)


class WordByWord(ReplayBuffer):
    def test_any_streams(self):
        draws, ends = Draws(4), {'filled': 0, 7: 0, 13: 0}
        for _ in range(3000):
            m, carried, stream = any_call(draws, 30)
            expected, output = word_by_word(carried, tuple(m), stream), [REST] * 65536
            answer, after = expand(carried, m, stream, output)
            if answer[0] == 'filled':
                self.assertEqual((output[:answer[1]], after), expected)
            else:
                self.assertEqual((answer[1], after), (expected, carried))
            ends[answer[0] if answer[0] == 'filled' else answer[1]] += 1
        self.assertGreater(min(ends.values()), 50)
