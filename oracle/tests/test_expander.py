"""The MOP stage: both templates, the high mask, and refusals 4, 7 and 8, with no REPLAY about."""

import unittest

import assemble as asm
from expander import FRESH, Carried, expand

M = [0, 0, 102, 103, 104, 105, 106, 107, 108]
REST = 0xEEEE
SLOTS = tuple(range(900, 932))


def nine(m0=0, m1=0):
    return [m0, m1] + M[2:]


class Expander(unittest.TestCase):
    def words(self, stream, m=M, high=0, after=None):
        """What a stream gives, with the new high mask as told (the old one if not) and the slots as they were."""
        output = [REST] * 2000
        answer, now = expand(Carried(high, SLOTS, None), m, stream, output)
        self.assertEqual(answer[0], 'filled')
        self.assertEqual(now, Carried(high if after is None else after, SLOTS, None))
        self.assertEqual(output[answer[1]:], [REST] * (2000 - answer[1]))
        return output[:answer[1]]

    def refuses(self, number, stream, m=M, high=0x77, room=10):
        output, carried = [REST] * room, Carried(high, SLOTS, None)
        self.assertEqual(expand(carried, m, stream, output), (('refused', number), carried))
        self.assertEqual(output, [REST] * room)


class PassThrough(Expander):
    def test_other_words(self):
        stream = [asm.nop(), 0xFFFFFFFF, 0, 0x05000000, 0x02010203]
        self.assertEqual(self.words(stream), stream)
        self.assertEqual(self.words([]), [])

    def test_mop_words_are_not_written_out(self):
        self.assertEqual(self.words([asm.mop_cfg(5)], after=5), [])
        self.assertEqual(self.words([asm.mop(template=1)], nine(0, 5)), [])

    def test_emitted_words_are_not_expanded_again(self):
        m = [1, 1] + [asm.mop(template=1), asm.mop_cfg(9), asm.mop(count=5)] + [asm.mop_cfg(3)] * 4
        self.assertEqual(self.words([asm.mop(template=1)], m), [m[2], m[5], m[7], m[3], m[4]])
        self.assertEqual(self.words([asm.mop(template=0)], m), [m[3], m[2]])


class HighMask(Expander):
    def test_mop_cfg_sets_it_for_later_words(self):
        stream = [asm.mop(count=17), asm.mop_cfg(0x0001), asm.mop(count=17), asm.mop_cfg(0x0002), asm.mop(count=17)]
        clear = [103] * 18
        self.assertEqual(self.words(stream, after=2), clear + clear[:16] + [107, 103] + clear[:16] + [103, 107])

    def test_taken_from_the_call_and_handed_back(self):
        self.assertEqual(self.words([asm.mop(count=16)], high=1), [103] * 16 + [107])
        self.assertEqual(self.words([asm.mop(count=31)], high=0x8000), [103] * 31 + [107])
        self.assertEqual(self.words([asm.nop()], high=0xFFFF), [asm.nop()])
        self.assertEqual(self.words([asm.mop_cfg(0xFFFF)], high=1, after=0xFFFF), [])

    def test_is_bits_0_to_15_of_its_word(self):
        self.assertEqual(self.words([0x03FF1234], after=0x1234), [])

    def test_old_one_comes_back_if_refused(self):
        self.refuses(8, [asm.mop_cfg(5), asm.nop()], room=0)
        self.refuses(7, [asm.mop_cfg(5), asm.mop(template=1)], nine(128, 0))
        self.refuses(4, [asm.mop_cfg(5)], M[:8])

    def test_template_1_leaves_it(self):
        self.assertEqual(self.words([asm.mop(template=1, count=5, low=5)], nine(1, 1), high=9),
                         [102, 105, 107, 103, 104])


class Template0(Expander):
    def test_flags(self):
        clear = {0: [103], 1: [103, 102], 2: [103, 104, 105, 106], 3: [103, 104, 105, 106, 102]}
        is_set = {0: [107], 1: [107, 108], 2: [107] * 4, 3: [107] * 4 + [108]}
        for flags in range(4):
            for m1 in (flags, flags | 0xFFFFFFFC, flags | 128):
                self.assertEqual(self.words([asm.mop(count=0, low=0)], nine(7, m1)), clear[flags])
                self.assertEqual(self.words([asm.mop(count=0, low=1)], nine(7, m1)), is_set[flags])
                self.assertEqual(self.words([asm.mop(count=1, low=2)], nine(7, m1)), clear[flags] + is_set[flags])

    def test_each_bit_of_the_mask(self):
        for place in range(32):
            high, low = (1 << place) >> 16, (1 << place) & 0xFFFF
            expected = [103] * 32
            expected[place] = 107
            self.assertEqual(self.words([asm.mop(count=31, low=low)], high=high), expected)

    def test_above_31_is_clear(self):
        for count in (32, 63, 64, 127):
            self.assertEqual(self.words([asm.mop(count=count, low=0xFFFF)], high=0xFFFF),
                             [107] * 32 + [103] * (count - 31))

    def test_count_127_is_128_rounds(self):
        self.assertEqual(len(self.words([asm.mop(count=127)])), 128)
        self.assertEqual(len(self.words([asm.mop(count=127)], nine(0, 3))), 640)

    def test_m0_and_m1_over_127_are_no_matter(self):
        self.assertEqual(self.words([asm.mop()], nine(0xFFFFFFFF, 0xFFFFFFFC)), [103])


class Template1(Expander):
    def test_small_rounds(self):
        mop = [asm.mop(template=1)]
        for inner in (0, 1, 5):
            self.assertEqual(self.words(mop, nine(0, inner)), [])
        self.assertEqual(self.words(mop, nine(1, 0)), [102, 103, 104])
        self.assertEqual(self.words(mop, nine(3, 0)), [102, 103, 104] * 3)
        self.assertEqual(self.words(mop, nine(1, 1)), [102, 105, 107, 103, 104])
        self.assertEqual(self.words(mop, nine(2, 1)), [102, 105, 108, 103, 104, 102, 105, 107, 103, 104])
        self.assertEqual(self.words(mop, nine(1, 3)), [102, 105, 106, 105, 106, 105, 107, 103, 104])
        self.assertEqual(self.words(mop, nine(3, 2)),
                         [102, 105, 106, 105, 108, 103, 104] * 2 + [102, 105, 106, 105, 107, 103, 104])

    def test_count_and_mask_are_no_matter(self):
        self.assertEqual(self.words([asm.mop(1, 127, 0xFFFF)], nine(1, 1), high=0xFFFF), [102, 105, 107, 103, 104])

    def test_most_rounds(self):
        output = [REST] * 40000
        answer, _ = expand(FRESH, nine(127, 127), [asm.mop(template=1)], output)
        self.assertEqual(answer, ('filled', 127 * 257))
        outer = [102] + [105, 106] * 126 + [105]
        self.assertEqual(output[:32639], (outer + [108, 103, 104]) * 126 + outer + [107, 103, 104])
        self.assertEqual(output[32639:], [REST] * (40000 - 32639))


class Refusals(Expander):
    def test_4(self):
        self.refuses(4, [], M[:8])
        self.refuses(4, [], M + [0])
        self.refuses(4, [], [])
        self.refuses(4, [asm.nop()] * 65537, room=70000)
        self.refuses(4, [asm.mop_cfg()] * 65537, room=0)

    def test_7(self):
        for m in (nine(128, 0), nine(0, 128), nine(0xFFFFFFFF, 1), nine(1, 0xFFFFFFFF)):
            self.refuses(7, [asm.mop(template=1)], m)
            self.refuses(7, [asm.nop()] * 3 + [asm.mop(template=1)], m)
            # Only where the stream has a template 1 MOP.
            self.assertEqual(self.words([asm.nop()], m), [asm.nop()])
            self.assertEqual(self.words([0x02800000], m), [0x02800000])
            self.assertEqual(self.words([0x03800000], m), [])

    def test_8_by_room(self):
        stream = [asm.nop(), asm.mop(count=2), asm.nop()]
        self.refuses(8, stream, room=4)
        self.refuses(8, stream, room=0)
        output = [REST] * 5
        self.assertEqual(expand(Carried(3, SLOTS, None), M, stream, output), (('filled', 5), Carried(3, SLOTS, None)))
        self.assertEqual(output, [asm.nop(), 103, 103, 103, asm.nop()])

    def test_8_by_limit(self):
        output = [REST] * 70000
        self.assertEqual(expand(FRESH, M, [asm.nop()] * 65536, output), (('filled', 65536), FRESH))
        self.assertEqual(output, [asm.nop()] * 65536 + [REST] * 4464)
        self.refuses(8, [asm.nop()] * 65535 + [asm.mop(count=1)], room=70000)
        # 2 x 32,639 words and 258 more are 65,536; one more is too many.
        stream = [asm.mop(template=1)] * 2 + [asm.nop()] * 258
        self.assertEqual(expand(FRESH, nine(127, 127), stream, [0] * 65536)[0], ('filled', 65536))
        self.refuses(8, stream + [asm.nop()], nine(127, 127), room=65537)
        self.refuses(8, [asm.mop(template=1)] * 65536, nine(127, 127), room=65536)

    def test_zero_words_need_no_room(self):
        self.assertEqual(expand(FRESH, nine(0, 127), [asm.mop(template=1)] * 65536, []), (('filled', 0), FRESH))

    def test_order(self):
        long = [asm.nop()] * 65536 + [asm.mop(template=1)]
        self.refuses(4, long, nine(128, 128), room=0)
        self.refuses(4, [asm.mop(template=1)], nine(128, 128)[:8], room=0)
        # 7 goes before 8 wherever in the stream its word stands.
        self.refuses(7, [asm.nop()] * 20 + [asm.mop(template=1)], nine(128, 0), room=1)
        self.refuses(7, [asm.mop(count=127)] * 600 + [asm.mop(template=1)], nine(0, 128), room=70000)
