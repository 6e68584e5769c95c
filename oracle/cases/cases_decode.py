"""Words for crates/test_decode, 4 bytes each, and the line of each: its name and its fields from the highest bits down, or
`refused N`. In front of a second operand stands whether it is a constant or a register."""

import struct

from assemble import zeroacc
from bits import bits
from decode import TABLE, decode
from seeded import Draws

ALWAYS_0 = ('signal_mode', 'addr_mod')  # in every word that is not refused


def shown(name, fields):
    """The texts of a word's fields."""
    places = TABLE[next(opcode for opcode, row in TABLE.items() if row[0] == name)][2]
    for field in sorted(fields, key=places.get, reverse=True):
        if field == 'b' and 'constant' in fields:
            yield 'constant' if fields['constant'] else 'register'
        if field not in (*ALWAYS_0, 'constant'):
            yield str(fields[field])


def line(word):
    """For instance `ADDDMAREG 3 constant 5 4`."""
    decoded = decode(word)
    if decoded[0] == 'refused':
        return f'refused {decoded[1]}\n'
    _, name, _, fields = decoded
    return ' '.join((name, *shown(name, fields))) + '\n'


def each_opcode():
    """All 256 opcodes with no bit below set and with every bit; those of the table with each bit alone."""
    for opcode in range(256):
        alone = [1 << place for place in range(24)] if opcode in TABLE else []
        yield from (opcode << 24 | below for below in (0, 0xFFFFFF, *alone))


def edges():
    """The last numbers in range and the first out of it, of each field that has a limit."""
    yield from (opcode << 24 | mutex for opcode in (0xA0, 0xA1) for mutex in (7, 8, 9, 15, 16, 255, 256, 65535))
    yield from (opcode << 24 | index for opcode in (0xB0, 0xB1) for index in (255, 256, 257, 511, 512, 2047))
    yield from (0xB1 << 24 | gpr << 16 | index for gpr in (63, 64, 65, 127, 128, 255) for index in (0, 255, 256))
    for wide in (0, 1):
        for mode, first in enumerate((1024, 64, 2, 0)):
            places = {max(first // (wide + 1) + more, 0) for more in (-1, 0, 1)} | {0, 1, 2, 16383}
            yield from (zeroacc(mode, place, wide, addr_mod) for place in sorted(places) for addr_mod in (0, 1, 4))


def any_words(draws, count):
    """So many words with the opcodes of the table, about half of them with few bits set below."""
    opcodes = sorted(TABLE)
    for _ in range(count):
        below = draws.word() & (0xFFFFFF if draws.draw() % 2 else draws.word() & draws.word())
        yield opcodes[draws.draw() % len(opcodes)] << 24 | bits(below, 0, 23)


def all_words():
    yield from each_opcode()
    yield from edges()
    yield from any_words(Draws(8), 6000)


def input_and_output(words):
    words = list(words)
    return struct.pack(f'<{len(words)}I', *words), ''.join(map(line, words)).encode()


def files():
    stdin, stdout = input_and_output(all_words())
    return {'crates/test_decode/stdin': stdin, 'crates/test_decode/stdout': stdout}
