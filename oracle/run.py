"""A run: three streams, a cursor and a budget of turns (document 01, "A run"; document 02, K3)."""

from collections import namedtuple

from machine import THREADS, lent_refusal
from words import offer

STREAM_LIMIT = 65536
BUDGET_LIMIT = 1000000

# Three positions and the next thread.
Cursor = namedtuple('Cursor', 'positions next')
START = Cursor((0, 0, 0), 0)

# answer: ('finished',), ('stuck',), ('budget',), ('refused', n) for a refused word, or ('rejected', n) for a
# refused call. trace: the outcome of each turn, ('idle',), ('passed',), ('stalled', n, cause) or ('refused', n).
# stalls: each thread's last stall that is handed on, None or (n, cause).
NO_STALLS = (None,) * THREADS
Run = namedtuple('Run', 'answer turns cursor trace stalls', defaults=(NO_STALLS,))


def call_refusal(machine, streams, cursor, budget):
    """The refusal of the call as a whole, or None. Order: 4, 10, 5, 6."""
    if any(len(stream) > STREAM_LIMIT for stream in streams):
        return 4
    number = lent_refusal(machine)
    if number is not None:
        return number
    if any(position > len(stream) for position, stream in zip(cursor.positions, streams)):
        return 5
    if cursor.next >= THREADS:
        return 5
    if budget > BUDGET_LIMIT:
        return 6
    return None


def end_before_turn(streams, cursor, budget, trace):
    """The first end that applies before a turn, or None."""
    if all(position == len(stream) for position, stream in zip(cursor.positions, streams)):
        return ('finished',)
    if len(trace) >= 3 and ('passed',) not in trace[-3:]:
        return ('stuck',)
    if len(trace) == budget:
        return ('budget',)
    return None


def turn(machine, streams, cursor):
    """One turn: its outcome and the cursor after it. The machine is written if the word passes."""
    thread, positions = cursor.next, list(cursor.positions)
    if positions[thread] == len(streams[thread]):
        outcome = ('idle',)
    else:
        outcome = offer(machine, thread, streams[thread][positions[thread]])
    if outcome[0] == 'refused':
        return outcome, cursor  # keeps its position, and the next thread stays on it
    if outcome[0] == 'passed':
        positions[thread] += 1
    return outcome, Cursor(tuple(positions), (thread + 1) % THREADS)


def last_stall(before, outcome):
    """A thread's last stall after its turn: a stall sets it, a pass clears it, an idle or refused turn leaves it."""
    if outcome[0] == 'stalled':
        return outcome[1:]
    return None if outcome[0] == 'passed' else before


def run(machine, streams, cursor, budget):
    """Runs the streams on the machine. A refused call writes nothing; a refused word keeps the earlier turns."""
    number = call_refusal(machine, streams, cursor, budget)
    if number is not None:
        return Run(('rejected', number), 0, cursor, [])
    trace, stalls = [], list(NO_STALLS)
    while True:
        end = end_before_turn(streams, cursor, budget, trace)
        if end is None:
            thread = cursor.next
            outcome, cursor = turn(machine, streams, cursor)
            trace.append(outcome)
            stalls[thread] = last_stall(stalls[thread], outcome)
            if outcome[0] == 'refused':
                end = outcome
        if end is not None:
            return Run(end, len(trace), cursor, trace, tuple(stalls))


def offers(streams, cursor, trace):
    """The thread of each turn of a run from a cursor, and the word that it offered, None if it was idle."""
    thread, positions = cursor.next, list(cursor.positions)
    for outcome in trace:
        yield thread, None if outcome == ('idle',) else streams[thread][positions[thread]]
        if outcome == ('passed',):
            positions[thread] += 1
        thread = (thread + 1) % THREADS
