"""When a thread's wait holds, by what, and what it blocks (document 01, "Waits"; document 02, K3)."""

from bits import bit
from machine import FILE_A, FILE_B, MATRIX, UNPACKERS

AS_ZERO, AS_FULL = 16, 24  # a semaphore's cause is its number and one of these


def condition_holds(machine, number):
    """Stall condition C5 to C8; the other bits never hold."""
    if number == 5:
        return machine.owner(FILE_A, machine.unpack_bank(FILE_A)) != UNPACKERS
    if number == 6:
        return machine.owner(FILE_B, machine.unpack_bank(FILE_B)) != UNPACKERS
    if number == 7:
        return machine.owner(FILE_A, machine.matrix_bank(FILE_A)) != MATRIX
    if number == 8:
        return machine.owner(FILE_B, machine.matrix_bank(FILE_B)) != MATRIX
    return False


def semaphore_cause(number, semaphore, condition):
    """By what a semaphore meets a condition, or None. 1: the value is zero; 2: it is its maximum; 3: either, zero first; 0: never."""
    value, maximum = semaphore
    if bit(condition, 0) and value == 0:
        return number + AS_ZERO
    if bit(condition, 1) and value == maximum:
        return number + AS_FULL
    return None


def causes(machine, wait):
    """By what the wait holds now, lowest first: stall conditions that it names, or masked semaphores."""
    if wait is None:
        return
    if wait[0] == 'stall':
        yield from (number for number in range(15) if bit(wait[2], number) and condition_holds(machine, number))
        return
    _, _, mask, condition = wait
    for number in range(8):
        cause = semaphore_cause(number, machine.semaphores[number], condition)
        if bit(mask, number) and cause is not None:
            yield cause


def held_by(machine, wait):
    """The cause that a stall by the wait names (K3), the lowest; None if nothing in the wait holds now."""
    return next(causes(machine, wait), None)


def holds(machine, wait):
    """Whether anything in the wait holds now. If nothing does, the wait is lifted."""
    return held_by(machine, wait) is not None


def stalled_by(machine, wait, block):
    """The cause by which a wait that isn't lifted stalls a word whose block bit it names, or None. A word without one is never
    stalled."""
    if wait is None or block is None or not bit(wait[1], block):
        return None
    return held_by(machine, wait)
