"""Where each row of both Dest views lies, in every setting: what the program test_dest prints."""

import destmap

WORDS_16 = (2, 0xFFFFFFFD)  # Config words: every setting that the view tells apart, and bits that it ignores
WORDS_32 = (0, 1, 0xFFFFFFFE, 3)
FAR = (0x10000, 0xFFFFFFFF)  # row numbers of more than 16 bits


def line(width, flags, row, places):
    """For instance `32 R- 8 64 72`; `past` for a row that is not of the view."""
    letters = ''.join(letter if on else '-' for letter, on in zip('RS', flags))
    text = 'past' if places is None else ' '.join(str(place) for place in places)
    return f'{width} {letters} {row} {text}\n'


def places_16(row, remap, swizzle):
    place = destmap.storage_16(row, remap)
    return None if place is None else (place,)


def view(width, words, rows, places):
    """The lines of a view: its rows, the first past it and the far ones, in the setting of each Config word."""
    for word in words:
        flags = destmap.flags([0] * destmap.FLAG_WORD + [word])
        for row in (*range(rows + 1), *FAR):
            yield line(width, flags, row, places(row, *flags))


def files():
    narrow = view(16, WORDS_16, destmap.ROWS_16, places_16)
    wide = view(32, WORDS_32, destmap.ROWS_32, destmap.storage_32)
    return {'crates/test_dest/stdout': ''.join((*narrow, *wide)).encode()}
