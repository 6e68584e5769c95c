"""One word on a machine: passed, stalled or refused. A stall or refusal changes nothing."""

from decode import decode
from effects import EFFECTS
from machine import FILE_B, FREE, MATRIX, THREADS, lent_refusal
from waits import holds, stalled_by

STALL_WAIT, STALL_MUTEX, STALL_SRC_B = 101, 102, 103
NEEDS_SRC_B = ('TRNSPSRCB', 'MOVB2A')


def stall_of(machine, thread, name, block, fields):
    """The stall of a decoded word, its number and cause, or None. Order: the wait, the mutex, SrcB's owner. The cause is what the
    wait is held by, the thread that holds the mutex, or SrcB's matrix bank (document 02, K3)."""
    cause = stalled_by(machine, machine.waits[thread], block)
    if cause is not None:
        return STALL_WAIT, cause
    if name == 'ATGETM' and machine.mutexes[fields['mutex']] not in (FREE, thread + 1):
        return STALL_MUTEX, machine.mutexes[fields['mutex']] - 1
    bank = machine.matrix_bank(FILE_B)
    if name in NEEDS_SRC_B and machine.owner(FILE_B, bank) != MATRIX:
        return STALL_SRC_B, bank
    return None


def offer(machine, thread, word):
    """Offers a word of thread 0–2 to a well formed machine; neither is checked here."""
    decoded = decode(word)
    if decoded[0] == 'refused':
        return decoded
    _, name, block, fields = decoded
    stall = stall_of(machine, thread, name, block, fields)
    if stall is not None:
        return ('stalled', *stall)
    # A passing word drops a lifted wait, judged before its own effect; STALLWAIT and SEMWAIT then set theirs.
    if not holds(machine, machine.waits[thread]):
        machine.waits[thread] = None
    EFFECTS[name](machine, thread, fields)
    return ('passed',)


def step(machine, thread, word):
    """Offers a word with every check: ('passed',), ('stalled', 101–103, cause) or ('refused', 4, 10, 1, 2 or 3)."""
    number = lent_refusal(machine)
    if number is not None:
        return ('refused', number)
    if not 0 <= thread < THREADS:
        return ('refused', 1)
    return offer(machine, thread, word)
