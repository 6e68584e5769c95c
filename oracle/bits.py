"""Bits of a number, by shifts and masks."""


def bits(number, low, high):
    """Bits low to high, both ends included: document 01's "16–21" is bits(word, 16, 21)."""
    return (number >> low) & ((1 << (high - low + 1)) - 1)


def bit(number, place):
    """The single bit at a place, 0 or 1."""
    return (number >> place) & 1
