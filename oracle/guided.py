"""Streams that keep three threads at work: each word is tried on the machine as it will find it, so that most words pass."""

from likely import likely_word
from machine import THREADS
from words import offer

PATIENCE = 12


def chosen_word(draws, machine, thread):
    """A word and its outcome: the first that passes, unless chance or patience ends the search."""
    for _ in range(PATIENCE):
        word = likely_word(draws)
        outcome = offer(machine, thread, word)
        if outcome[0] == 'passed' or draws.draw() % 12 == 0:
            break
    return word, outcome


def guided_streams(draws, machine, first, turns):
    """Three streams for so many turns from thread `first` on. A stalled word may stay until another thread frees it; a
    refused one ends the streams. The machine handed in is not changed."""
    machine, streams, waiting, thread = machine.copy(), [[], [], []], [None] * THREADS, first
    for _ in range(turns):
        if waiting[thread] is None:
            word, outcome = chosen_word(draws, machine, thread)
            streams[thread].append(word)
        else:
            word, outcome = waiting[thread], offer(machine, thread, waiting[thread])
        waiting[thread] = word if outcome[0] == 'stalled' else None
        if outcome[0] == 'refused' or None not in waiting:
            break
        thread = (thread + 1) % THREADS
    return streams
