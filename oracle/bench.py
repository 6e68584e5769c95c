"""Bench access to GPRs, Dest rows and source rows (document 01, "Bench access").

Each access checks what is lent to it: the GPRs; Config, Dest and its marks; or the control part and both source
files. Order of refusals: 4, 10, 1, 11, 12. A refused access writes nothing.
"""

from destmap import flags, storage_16, storage_32
from machine import THREADS, UNPACKERS, lent_refusal

COLUMNS = 16
GPRS = 64
BANKS = 2
FILES = 2
SOURCE_ROWS = 64
CELL_BITS = 19

LENT_FOR_GPRS = ('gprs',)
LENT_FOR_DEST = ('config', 'dest', 'marks')
LENT_FOR_SOURCES = ('src_a', 'src_b')


# GPRs.

def gpr_refusal(machine, thread, register):
    number = lent_refusal(machine, LENT_FOR_GPRS, control=False)
    if number is not None:
        return number
    if not 0 <= thread < THREADS:
        return 1
    if not 0 <= register < GPRS:
        return 11
    return None


def read_gpr(machine, thread, register):
    """('read', value) or ('refused', n)."""
    number = gpr_refusal(machine, thread, register)
    if number is not None:
        return ('refused', number)
    return ('read', machine.gprs[thread][register])


def write_gpr(machine, thread, register, value):
    """('written',) or ('refused', n)."""
    number = gpr_refusal(machine, thread, register)
    if number is not None:
        return ('refused', number)
    machine.gprs[thread][register] = value
    return ('written',)


# Dest rows.

def storage_of(machine, bank, row, wide):
    """Storage rows of a view row by the flags of the named Config bank: one, or (high, low); None out of range."""
    if not 0 <= bank < BANKS:
        return None
    remap, swizzle = flags(machine.config[bank])
    if wide:
        return storage_32(row, remap, swizzle)
    place = storage_16(row, remap)
    return None if place is None else (place,)


def dest_refusal(machine, bank, row, wide, cells=None):
    """Refusal of a Dest access; cells are lent for a write, and another number of them than 16 is 4."""
    if cells is not None and len(cells) != COLUMNS:
        return 4
    number = lent_refusal(machine, LENT_FOR_DEST, control=False)
    if number is not None:
        return number
    if storage_of(machine, bank, row, wide) is None:
        return 11
    return None


def stored_row(machine, row):
    """A storage row; an invalid one reads as zeros."""
    return machine.dest[row][:] if machine.marks[row] else [0] * COLUMNS


def store_row(machine, row, cells):
    """Writing marks the storage row valid."""
    machine.dest[row] = list(cells)
    machine.marks[row] = True


def read_dest_16(machine, bank, row):
    """('read', sixteen cells of 16 bits) or ('refused', n)."""
    number = dest_refusal(machine, bank, row, wide=False)
    if number is not None:
        return ('refused', number)
    place, = storage_of(machine, bank, row, wide=False)
    return ('read', stored_row(machine, place))


def read_dest_32(machine, bank, row):
    """('read', sixteen cells of 32 bits) or ('refused', n)."""
    number = dest_refusal(machine, bank, row, wide=True)
    if number is not None:
        return ('refused', number)
    high, low = storage_of(machine, bank, row, wide=True)
    return ('read', [(upper << 16) | lower
                     for upper, lower in zip(stored_row(machine, high), stored_row(machine, low))])


def write_dest_16(machine, bank, row, cells):
    """('written',) or ('refused', n); cells of 16 bits."""
    number = dest_refusal(machine, bank, row, False, cells)
    if number is not None:
        return ('refused', number)
    place, = storage_of(machine, bank, row, wide=False)
    store_row(machine, place, cells)
    return ('written',)


def write_dest_32(machine, bank, row, cells):
    """('written',) or ('refused', n); cells of 32 bits."""
    number = dest_refusal(machine, bank, row, True, cells)
    if number is not None:
        return ('refused', number)
    high, low = storage_of(machine, bank, row, wide=True)
    store_row(machine, high, [cell >> 16 for cell in cells])
    store_row(machine, low, [cell & 0xFFFF for cell in cells])
    return ('written',)


# Source rows.

def write_source(machine, file, row, cells):
    """Writes a row of SrcA (file 0) or SrcB (1) into the bank at the unpack pointer, if Unpackers own it."""
    if len(cells) != COLUMNS:
        return ('refused', 4)
    number = lent_refusal(machine, LENT_FOR_SOURCES, control=True)
    if number is not None:
        return ('refused', number)
    if not 0 <= file < FILES or not 0 <= row < SOURCE_ROWS or any(cell >> CELL_BITS for cell in cells):
        return ('refused', 11)
    bank = machine.unpack_bank(file)
    if machine.owner(file, bank) != UNPACKERS:
        return ('refused', 12)
    machine.source(file)[bank][row] = list(cells)
    return ('written',)


def source_fits(store):
    """Whether a lent source store has its length: 2 banks of 64 rows of 16 cells."""
    return len(store) == BANKS and all(
        len(bank) == SOURCE_ROWS and all(len(row) == COLUMNS for row in bank) for bank in store)


def show_row(src_a, src_b, file, bank, row):
    """A row as the very list in the lent store; empty in place of 4 or 11, and never 10."""
    if not source_fits(src_a) or not source_fits(src_b):
        return []
    if not 0 <= file < FILES or not 0 <= bank < BANKS or not 0 <= row < SOURCE_ROWS:
        return []
    return (src_a, src_b)[file][bank][row]
