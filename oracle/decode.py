"""What a word says: its name, block bit and fields, or refusal 2 or 3 (document 01, "Words of the base")."""

from bits import bits
from destmap import ROWS_16, ROWS_32

B1, B5, B6, B7 = 1, 5, 6, 7

MASKED_WRITE = {'mask': (16, 23), 'data': (8, 15), 'index': (0, 7)}
ARITHMETIC = {'constant': (23, 23), 'result': (12, 17), 'b': (6, 11), 'a': (0, 5)}

# Opcode: name, block bit, and the place of each field as (lowest bit, highest bit).
TABLE = {
    0x02: ('NOP', None, {}),
    0x16: ('TRNSPSRCB', B6, {}),
    0x0B: ('MOVB2A', B6, {'a_row': (17, 22), 'addr_mod': (14, 16), 'four': (13, 13), 'b_row': (0, 5)}),
    0x10: ('ZEROACC', B6, {'mode': (19, 20), 'wide': (18, 18), 'addr_mod': (14, 16), 'place': (0, 13)}),
    0x36: ('CLEARDVALID', B6, {'a': (22, 22), 'b': (23, 23), 'keep': (1, 1), 'reset': (0, 0)}),
    0x57: ('SETDVALID', B6, {'a': (0, 0), 'b': (1, 1)}),
    0x45: ('SETDMAREG', B5, {'value': (8, 23), 'signal_mode': (7, 7), 'half': (0, 6)}),
    0x58: ('ADDDMAREG', B5, ARITHMETIC),
    0x5A: ('MULDMAREG', B5, ARITHMETIC),
    0x60: ('DMANOP', B5, {}),
    0xA0: ('ATGETM', B1, {'mutex': (0, 15)}),
    0xA1: ('ATRELM', B1, {'mutex': (0, 15)}),
    0xA2: ('STALLWAIT', B1, {'block': (15, 23), 'conditions': (0, 14)}),
    0xA3: ('SEMINIT', B1, {'maximum': (20, 23), 'value': (16, 19), 'mask': (2, 9)}),
    0xA4: ('SEMPOST', B1, {'mask': (2, 9)}),
    0xA5: ('SEMGET', B1, {'mask': (2, 9)}),
    0xA6: ('SEMWAIT', B1, {'block': (15, 23), 'mask': (2, 9), 'condition': (0, 1)}),
    0xB0: ('WRCFG', B7, {'gpr': (16, 21), 'four': (15, 15), 'index': (0, 10)}),
    0xB1: ('RDCFG', B7, {'gpr': (16, 23), 'index': (0, 10)}),
    0xB2: ('SETC16', B7, {'entry': (16, 21), 'value': (0, 15)}),
    0xB3: ('RMWCIB0', B7, MASKED_WRITE),
    0xB4: ('RMWCIB1', B7, MASKED_WRITE),
    0xB5: ('RMWCIB2', B7, MASKED_WRITE),
    0xB6: ('RMWCIB3', B7, MASKED_WRITE),
}


def cleared_rows(fields):
    """First view row and number of view rows that a ZEROACC names, whether or not they lie in the view."""
    rows = ROWS_32 if fields['wide'] else ROWS_16
    place = fields['place']
    if fields['mode'] == 0:
        return place, 1
    if fields['mode'] == 1:
        return 16 * place, 16
    if fields['mode'] == 2:
        return (rows >> 1) * place, rows >> 1
    return 0, rows  # all, place ignored


def unsupported(fields):
    """Refusal 2 beside an unknown opcode: signal mode, or AddrMod not 0."""
    return bool(fields.get('signal_mode') or fields.get('addr_mod'))


def out_of_range(name, fields):
    """Refusal 3: Config index over 255, RDCFG GPR over 63, mutex over 7, ZEROACC place past its view."""
    if fields.get('index', 0) > 255 or fields.get('gpr', 0) > 63 or fields.get('mutex', 0) > 7:
        return True
    if name == 'ZEROACC':
        first, count = cleared_rows(fields)
        return first + count > (ROWS_32 if fields['wide'] else ROWS_16)
    return False


def name_of(word):
    """The published name by the word's opcode; `?` where that is in no row of the table."""
    opcode = bits(word, 24, 31)
    return TABLE[opcode][0] if opcode in TABLE else '?'


def decode(word):
    """('word', name, block bit, fields), or ('refused', 2 or 3); 2 goes before 3."""
    opcode = bits(word, 24, 31)
    if opcode not in TABLE:
        return ('refused', 2)
    name, block, places = TABLE[opcode]
    fields = {field: bits(word, low, high) for field, (low, high) in places.items()}
    if unsupported(fields):
        return ('refused', 2)
    if out_of_range(name, fields):
        return ('refused', 3)
    return ('word', name, block, fields)
