"""Which words there are, which bits they read, which refusal they meet, and which block bit they have."""

import unittest

import assemble as asm
import seeded
from decode import decode, name_of
from machine import MATRIX, fresh
from words import offer, step

# Opcode: the bits that the table names, and the block bit.
NAMED = {
    0x02: (0x000000, None),
    0x16: (0x000000, 6),
    0x0B: (0x7FE03F, 6),  # 17–22, 14–16, 13, 0–5
    0x10: (0x1DFFFF, 6),  # 19–20, 18, 14–16, 0–13
    0x36: (0xC00003, 6),  # 22, 23, 1, 0
    0x57: (0x000003, 6),  # 0, 1
    0x45: (0xFFFFFF, 5),  # 8–23, 7, 0–6
    0x58: (0x83FFFF, 5),  # 23, 12–17, 6–11, 0–5
    0x5A: (0x83FFFF, 5),
    0x60: (0x000000, 5),
    0xA0: (0x00FFFF, 1),  # 0–15
    0xA1: (0x00FFFF, 1),
    0xA2: (0xFFFFFF, 1),  # 15–23, 0–14
    0xA3: (0xFF03FC, 1),  # 20–23, 16–19, 2–9
    0xA4: (0x0003FC, 1),
    0xA5: (0x0003FC, 1),
    0xA6: (0xFF83FF, 1),  # 15–23, 2–9, 0–1
    0xB0: (0x3F87FF, 7),  # 16–21, 15, 0–10
    0xB1: (0xFF07FF, 7),  # 16–23, 0–10
    0xB2: (0x3FFFFF, 7),  # 16–21, 0–15
    0xB3: (0xFFFFFF, 7),  # 16–23, 8–15, 0–7
    0xB4: (0xFFFFFF, 7),
    0xB5: (0xFFFFFF, 7),
    0xB6: (0xFFFFFF, 7),
}


class Table(unittest.TestCase):
    def test_opcodes(self):
        for opcode in range(256):
            decoded = decode(opcode << 24)
            if opcode in NAMED:
                self.assertEqual(decoded[0], 'word')
            else:
                self.assertEqual(decoded, ('refused', 2))
                self.assertEqual(decode(opcode << 24 | 0xFFFFFF), ('refused', 2))

    def test_expander_words_are_refused_by_the_machine(self):
        for word in (asm.mop(), asm.mop_cfg(), 0x04000000):
            self.assertEqual(step(fresh(), 0, word), ('refused', 2))

    def test_bits_not_named_are_ignored(self):
        draws = seeded.Draws(77)
        for opcode, (named, _) in NAMED.items():
            for _ in range(40):
                word = (opcode << 24) | (draws.word() & 0xFFFFFF)
                other = word ^ (draws.word() & 0xFFFFFF & ~named)
                self.assertEqual(decode(word), decode(other))

    def test_ignored_bits_do_nothing_on_a_machine(self):
        start = seeded.machine(78)
        start.waits = [None] * 3
        start.owners = [MATRIX] * 4
        for opcode, (named, _) in NAMED.items():
            plain, dirty = start.copy(), start.copy()
            first = offer(plain, 1, opcode << 24)
            second = offer(dirty, 1, (opcode << 24) | (0xFFFFFF & ~named))
            self.assertEqual(first, second)
            self.assertEqual(plain, dirty)

    def test_every_named_bit_is_read(self):
        for opcode, (named, _) in NAMED.items():
            for place in range(24):
                if (named >> place) & 1:
                    word = opcode << 24
                    self.assertNotEqual(decode(word), decode(word | 1 << place), (hex(word), place))

    def test_fields_come_from_their_bits(self):
        self.assertEqual(decode(asm.movb2a(a_row=63, b_row=0))[3],
                         {'a_row': 63, 'addr_mod': 0, 'four': 0, 'b_row': 0})
        self.assertEqual(decode(asm.movb2a(a_row=33, b_row=30, four=1))[3],
                         {'a_row': 33, 'addr_mod': 0, 'four': 1, 'b_row': 30})
        self.assertEqual(decode(asm.setdmareg(half=127, value=0xC001))[3],
                         {'value': 0xC001, 'signal_mode': 0, 'half': 127})
        self.assertEqual(decode(asm.adddmareg(result=33, a=20, b=63, constant=1))[3],
                         {'constant': 1, 'result': 33, 'b': 63, 'a': 20})
        self.assertEqual(decode(asm.seminit(mask=0x81, value=9, maximum=6))[3],
                         {'maximum': 6, 'value': 9, 'mask': 0x81})
        self.assertEqual(decode(asm.semwait(block=0x101, mask=0x81, condition=2))[3],
                         {'block': 0x101, 'mask': 0x81, 'condition': 2})
        self.assertEqual(decode(asm.stallwait(block=0x101, conditions=0x4001))[3],
                         {'block': 0x101, 'conditions': 0x4001})
        self.assertEqual(decode(asm.rmwcib(byte=2, index=0xFE, mask=0x81, data=0x42))[3],
                         {'mask': 0x81, 'data': 0x42, 'index': 0xFE})


class Refusals(unittest.TestCase):
    def refuses(self, number, *words):
        for word in words:
            self.assertEqual(decode(word), ('refused', number), hex(word))

    def accepts(self, *words):
        for word in words:
            self.assertEqual(decode(word)[0], 'word', hex(word))

    def test_signal_mode(self):
        self.refuses(2, asm.setdmareg(half=8, value=0x1234, signal_mode=1), 0x45000080, 0x45FFFFFF)

    def test_addr_mod(self):
        for addr_mod in range(1, 8):
            self.refuses(2, asm.movb2a(addr_mod=addr_mod), asm.zeroacc(addr_mod=addr_mod),
                         asm.zeroacc(mode=3, addr_mod=addr_mod))

    def test_config_index(self):
        self.accepts(asm.wrcfg(index=255), asm.wrcfg(index=255, four=1), asm.rdcfg(index=255))
        for index in (256, 257, 511, 512, 1024, 2047):
            self.refuses(3, asm.wrcfg(index=index), asm.wrcfg(index=index, four=1), asm.rdcfg(index=index))
        # Bits 11–14 of WRCFG and 11–15 of RDCFG are not named.
        self.accepts(asm.wrcfg(index=0x7800), asm.rdcfg(index=0xF800))
        # RMWCIB's index ends at bit 7, so it is never over 255.
        self.accepts(*(asm.rmwcib(byte, 255, 255, 255) for byte in range(4)))

    def test_gpr(self):
        self.accepts(asm.rdcfg(gpr=63), asm.wrcfg(gpr=63))
        for gpr in (64, 65, 128, 255):
            self.refuses(3, asm.rdcfg(gpr=gpr))
            self.accepts(asm.wrcfg(gpr=gpr))  # its field is 16–21; bits 22 and 23 are not named

    def test_mutex(self):
        for make in (asm.atgetm, asm.atrelm):
            self.accepts(*(make(mutex) for mutex in range(8)))
            self.refuses(3, *(make(mutex) for mutex in (8, 9, 255, 256, 32768, 65535)))
            self.accepts(make(7) | 0xFF0000)

    def test_zeroacc_place(self):
        for wide, mode, last in ((0, 0, 1023), (0, 1, 63), (0, 2, 1), (1, 0, 511), (1, 1, 31), (1, 2, 1)):
            self.accepts(*(asm.zeroacc(mode, place, wide) for place in (0, 1, last)))
            self.refuses(3, *(asm.zeroacc(mode, place, wide) for place in (last + 1, last + 2, 2048, 16383)))
        for wide in (0, 1):
            self.accepts(*(asm.zeroacc(3, place, wide) for place in (0, 1, 1024, 16383)))

    def test_2_goes_before_3(self):
        self.refuses(2, asm.zeroacc(mode=0, place=1024, addr_mod=1), asm.zeroacc(mode=2, place=2, wide=1, addr_mod=7))


# Opcode: its published name.
NAMES = {
    0x02: 'NOP', 0x16: 'TRNSPSRCB', 0x0B: 'MOVB2A', 0x10: 'ZEROACC', 0x36: 'CLEARDVALID', 0x57: 'SETDVALID', 0x45: 'SETDMAREG',
    0x58: 'ADDDMAREG', 0x5A: 'MULDMAREG', 0x60: 'DMANOP', 0xA0: 'ATGETM', 0xA1: 'ATRELM', 0xA2: 'STALLWAIT', 0xA3: 'SEMINIT',
    0xA4: 'SEMPOST', 0xA5: 'SEMGET', 0xA6: 'SEMWAIT', 0xB0: 'WRCFG', 0xB1: 'RDCFG', 0xB2: 'SETC16', 0xB3: 'RMWCIB0',
    0xB4: 'RMWCIB1', 0xB5: 'RMWCIB2', 0xB6: 'RMWCIB3',
}


class Names(unittest.TestCase):
    def test_by_the_opcode_alone(self):
        for opcode in range(256):
            for below in (0, 1, 0x123456, 0xFFFFFF):
                self.assertEqual(name_of(opcode << 24 | below), NAMES.get(opcode, '?'))

    def test_of_a_decoded_word(self):
        for opcode, name in NAMES.items():
            self.assertEqual(decode(opcode << 24)[1], name)


class BlockBits(unittest.TestCase):
    def test_a_wait_stalls_exactly_the_words_it_names(self):
        for opcode, (_, block) in NAMED.items():
            for place in range(9):
                machine = fresh()
                machine.owners = [0, 0, 1, 0]  # SrcB's matrix bank is Matrix's, SrcA's isn't, so C7 holds
                machine.waits[2] = ('stall', 1 << place, 1 << 7)
                answer = offer(machine, 2, opcode << 24)
                self.assertEqual(answer, ('stalled', 101, 7) if place == block else ('passed',), (hex(opcode), place))

    def test_a_wait_that_names_all_bits_lets_nop_pass(self):
        machine = fresh()
        machine.waits[0] = ('stall', 511, 1 << 7)
        self.assertEqual(offer(machine, 0, asm.nop()), ('passed',))
        self.assertEqual(machine.waits[0], ('stall', 511, 1 << 7))
