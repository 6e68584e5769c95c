"""What each word does to the machine once it passes (document 01, "Words of the base")."""

from bits import bit, bits
from decode import cleared_rows
from destmap import storage_rows
from machine import FILE_A, FILE_B, FREE, MATRIX, UNPACKERS

WORD_32 = 0xFFFFFFFF


def nothing(machine, thread, fields):
    """NOP and DMANOP."""


def transpose_b(machine, thread, fields):
    """TRNSPSRCB: the 16x16 face in rows 16–31 of SrcB's matrix bank."""
    bank = machine.src_b[machine.matrix_bank(FILE_B)]
    face = [bank[16 + row][:] for row in range(16)]
    for row in range(16):
        for column in range(16):
            bank[16 + row][column] = face[column][row]


def move_b_to_a(machine, thread, fields):
    """MOVB2A: one row, or four with both rows rounded down to a multiple of 4."""
    to = machine.src_a[machine.matrix_bank(FILE_A)]
    source = machine.src_b[machine.matrix_bank(FILE_B)]
    a_row, b_row, count = fields['a_row'], fields['b_row'], 1
    if fields['four']:
        a_row, b_row, count = a_row & ~3, b_row & ~3, 4
    for row in range(count):
        to[a_row + row] = source[b_row + row][:]


def zero_acc(machine, thread, fields):
    """ZEROACC only clears valid marks; view rows go through the Dest maps of the thread's Config bank."""
    first, count = cleared_rows(fields)
    bank = machine.config_bank(thread)
    for row in range(first, first + count):
        for storage_row in storage_rows(row, fields['wide'], bank):
            machine.marks[storage_row] = False


def clear_valid(machine, thread, fields):
    """CLEARDVALID: matrix banks go to Unpackers and their pointers flip unless keep; or all is reset."""
    if fields['reset']:
        machine.owners = [UNPACKERS] * 4
        machine.pointers = [0] * 4
        return
    for file, named in ((FILE_A, fields['a']), (FILE_B, fields['b'])):
        if named:
            machine.give(file, machine.matrix_bank(file), UNPACKERS)
            if not fields['keep']:
                machine.flip_matrix(file)


def set_valid(machine, thread, fields):
    """SETDVALID: unpack banks go to Matrix and their pointers flip."""
    for file, named in ((FILE_A, fields['a']), (FILE_B, fields['b'])):
        if named:
            machine.give(file, machine.unpack_bank(file), MATRIX)
            machine.flip_unpack(file)


def set_half(machine, thread, fields):
    """SETDMAREG: an even half register is the low half of its GPR, an odd one the high half."""
    gprs = machine.gprs[thread]
    number = fields['half'] >> 1
    if fields['half'] & 1:
        gprs[number] = (fields['value'] << 16) | (gprs[number] & 0xFFFF)
    else:
        gprs[number] = (gprs[number] & 0xFFFF0000) | fields['value']


def operands(gprs, fields):
    """G[A] and (B or G[B])."""
    return gprs[fields['a']], fields['b'] if fields['constant'] else gprs[fields['b']]


def add(machine, thread, fields):
    """ADDDMAREG: wraps at 32 bits."""
    gprs = machine.gprs[thread]
    left, right = operands(gprs, fields)
    gprs[fields['result']] = (left + right) & WORD_32


def multiply(machine, thread, fields):
    """MULDMAREG: low 16 bits of each multiplied, full 32-bit result."""
    gprs = machine.gprs[thread]
    left, right = operands(gprs, fields)
    gprs[fields['result']] = (left & 0xFFFF) * (right & 0xFFFF)


def get_mutex(machine, thread, fields):
    """ATGETM that passes: the mutex was free or its own already."""
    machine.mutexes[fields['mutex']] = thread + 1


def release_mutex(machine, thread, fields):
    """ATRELM frees its own, else no effect."""
    if machine.mutexes[fields['mutex']] == thread + 1:
        machine.mutexes[fields['mutex']] = FREE


def stall_wait(machine, thread, fields):
    """STALLWAIT becomes the thread's wait."""
    machine.waits[thread] = ('stall', fields['block'], fields['conditions'])


def semaphore_wait(machine, thread, fields):
    """SEMWAIT becomes the thread's wait."""
    machine.waits[thread] = ('semaphore', fields['block'], fields['mask'], fields['condition'])


def masked(machine, fields):
    """The semaphores that a mask names."""
    return [semaphore for number, semaphore in enumerate(machine.semaphores) if bit(fields['mask'], number)]


def init_semaphores(machine, thread, fields):
    """SEMINIT."""
    for semaphore in masked(machine, fields):
        semaphore[:] = [fields['value'], fields['maximum']]


def post_semaphores(machine, thread, fields):
    """SEMPOST: up by 1 unless 15, whatever the maximum."""
    for semaphore in masked(machine, fields):
        if semaphore[0] != 15:
            semaphore[0] += 1


def get_semaphores(machine, thread, fields):
    """SEMGET: down by 1 unless 0."""
    for semaphore in masked(machine, fields):
        if semaphore[0] != 0:
            semaphore[0] -= 1


def write_config(machine, thread, fields):
    """WRCFG: one word, or four with both numbers rounded down to a multiple of 4."""
    bank, gprs = machine.config_bank(thread), machine.gprs[thread]
    gpr, index = fields['gpr'], fields['index']
    if not fields['four']:
        bank[index] = gprs[gpr]
        return
    gpr, index = gpr & ~3, index & ~3
    bank[index:index + 4] = gprs[gpr:gpr + 4]


def read_config(machine, thread, fields):
    """RDCFG: the GPR takes the word at the index."""
    machine.gprs[thread][fields['gpr']] = machine.config_bank(thread)[fields['index']]


def set_entry(machine, thread, fields):
    """SETC16: an entry of the thread's own ThreadConfig."""
    machine.settings[thread][fields['entry']] = fields['value']


def masked_write(number):
    """RMWCIB0–3: byte number (lowest first) becomes (data and mask) or (old and not mask)."""
    def effect(machine, thread, fields):
        bank, index, mask = machine.config_bank(thread), fields['index'], fields['mask']
        low = 8 * number
        old = bits(bank[index], low, low + 7)
        new = (fields['data'] & mask) | (old & ~mask & 0xFF)
        bank[index] = (bank[index] & ~(0xFF << low)) | (new << low)
    return effect


EFFECTS = {
    'NOP': nothing,
    'TRNSPSRCB': transpose_b,
    'MOVB2A': move_b_to_a,
    'ZEROACC': zero_acc,
    'CLEARDVALID': clear_valid,
    'SETDVALID': set_valid,
    'SETDMAREG': set_half,
    'ADDDMAREG': add,
    'MULDMAREG': multiply,
    'DMANOP': nothing,
    'ATGETM': get_mutex,
    'ATRELM': release_mutex,
    'STALLWAIT': stall_wait,
    'SEMINIT': init_semaphores,
    'SEMPOST': post_semaphores,
    'SEMGET': get_semaphores,
    'SEMWAIT': semaphore_wait,
    'WRCFG': write_config,
    'RDCFG': read_config,
    'SETC16': set_entry,
    'RMWCIB0': masked_write(0),
    'RMWCIB1': masked_write(1),
    'RMWCIB2': masked_write(2),
    'RMWCIB3': masked_write(3),
}
