"""Where a Dest view row lies in storage (document 01, "Dest maps")."""

from bits import bit, bits

ROWS_16 = 1024  # rows of the 16-bit view
ROWS_32 = 512  # rows of the 32-bit view
FLAG_WORD = 255  # Config word with remap in bit 0 and swizzle in bit 1
LOW_HALF = 8  # a low half lies this many storage rows after its high half


def flags(config_bank):
    """(remap, swizzle) of a Config bank."""
    word = config_bank[FLAG_WORD]
    return bit(word, 0), bit(word, 1)


def remapped(row):
    """Bit 4 moves to 3, bit 5 to 4, bit 3 to 5; the rest stay."""
    return (row & ~0b111000) | (bit(row, 4) << 3) | (bit(row, 5) << 4) | (bit(row, 3) << 5)


def swizzled(row):
    """New bit 2 is old 3, new bit 3 is old 4 xor old 2; the rest stay."""
    return (row & ~0b1100) | (bit(row, 3) << 2) | ((bit(row, 4) ^ bit(row, 2)) << 3)


def storage_16(row, remap):
    """Storage row of a 16-bit view row, None past the view. Swizzle plays no part."""
    if not 0 <= row < ROWS_16:
        return None
    return remapped(row) if remap else row


def storage_32(row, remap, swizzle):
    """(high halves' row, low halves' row) of a 32-bit view row, None past the view."""
    if not 0 <= row < ROWS_32:
        return None
    if remap:
        row = remapped(row)
    if swizzle:
        row = swizzled(row)
    high = (bits(row, 3, 8) << 4) | bits(row, 0, 2)
    return high, high + LOW_HALF


def storage_rows(row, wide, config_bank):
    """All storage rows of a view row that lies in its view: one, or two in the 32-bit view (wide)."""
    remap, swizzle = flags(config_bank)
    if wide:
        return list(storage_32(row, remap, swizzle))
    return [storage_16(row, remap)]
