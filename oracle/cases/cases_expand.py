"""Inputs of `expand`: the stored one, which ends a loop's recording and plays it; those that check_programs runs; and any."""

import assemble as asm
from cases import cases_expander
from expander import NEEDED_LIMIT, SLOTS, STREAM_LIMIT, Carried, Load, load_numbers
from program import NINE_MOST, WORDS_MOST, expand
from seeded import Draws

NINE = (3, 1, asm.nop(), asm.dmanop(), asm.setc16(1, 2), asm.replay(30, 3), asm.setdmareg(4, 5), asm.atgetm(1), asm.atrelm(1))
CARRIED = Carried(0x0003, tuple(asm.setdmareg(slot, slot) for slot in range(SLOTS)), Load(31, 2, 1))

# A load of three words, shown, has come to slot 31: the first two words end it, over the end of the slots. Template 1 plays all
# three in each round. A MOP by the mask fills slots 4 to 23 and goes on after that load. The last load has taken a REPLAY of no
# length, and waits for eight more words.
STREAM = (asm.adddmareg(1, 2, 3), asm.dmanop(), asm.mop(1), asm.mop_cfg(0x0002), asm.replay(4, 20, 0, 1),
          asm.mop(0, 17, 0x0F0F), asm.replay(3, 22), asm.replay(29, 9, 0, 1), asm.replay(0, 0))
NEEDED = 61
RECORDS = (asm.number_record(37, *NINE), asm.carried_record(CARRIED), asm.number_record(39, *STREAM),
           asm.number_record(40, NEEDED))
CLOSE = asm.number_record(41)
IDLE = CARRIED._replace(load=None)


def of_stream(stream, room=NEEDED_LIMIT, nine=NINE, carried=IDLE):
    return asm.expand_input(nine, carried, stream, room)


def long_words(count):
    """Words that can be told apart."""
    return [asm.setdmareg(at % 128, at >> 1) for at in range(count)]


def longest():
    """The longest sound input; it is refused by 4."""
    return of_stream(long_words(WORDS_MOST), nine=range(NINE_MOST))


def long_inputs():
    """Pieces and outputs at their limits, and MOPs of 16 million words, of which loads take some or all."""
    plays = [asm.replay(slot % 32, 32) for slot in range(NEEDED_LIMIT // 32)]
    load, others = asm.replay(5, 32, 0, 1), [asm.dmanop()] * 6
    taking, shown = (IDLE._replace(load=Load(31, 32, shown)) for shown in (0, 1))
    return {
        'a full piece': of_stream(long_words(STREAM_LIMIT)),
        'a word too many': of_stream(long_words(STREAM_LIMIT + 1)),
        'plays to the limit': of_stream(plays),
        'one more': of_stream([*plays, asm.nop()]),
        'one more, and 13 behind it': of_stream([*plays, asm.nop(), asm.replay(0, 33)]),
        'one more, and 7 behind it': of_stream([*plays, asm.nop(), asm.mop(1)], nine=(1, 128, *NINE[2:])),
        'loads take all that MOPs give': of_stream([asm.mop(1)] * 500, 0, (127, 127, *[load] * 7)),
        'too full by MOPs with loads': of_stream([asm.mop(1), load] * 500, nine=(127, 127, load, *others)),
        'a load that comes, and plays to the limit': of_stream([*long_words(32), *plays], carried=taking),
        'a load that comes and is shown, and one too many': of_stream([*long_words(32), *plays], carried=shown),
        'a word too many behind a load': of_stream(long_words(STREAM_LIMIT + 1), carried=taking),
    }


def short_inputs():
    """Rooms about what is needed, and each refusal, alone and after words that change the mask, the slots and the load."""
    bad, mop, others = asm.replay(1, 33), asm.mop(1), NINE[2:]
    made = {f'room {room}': of_stream(STREAM, room, carried=CARRIED)
            for room in (0, 1, NEEDED - 1, NEEDED, NEEDED + 1, NEEDED_LIMIT, NEEDED_LIMIT + 1, 0x80000000, 0xFFFFFFFF)}
    for nine in ((), NINE[:1], NINE[:8], NINE + (0,), range(NINE_MOST)):
        made[f'{len(nine)} words for nine'] = of_stream(STREAM, nine=nine, carried=CARRIED)
    for name, stream in (('13', [bad]), ('7', [mop]), ('13, 7', [bad, mop]), ('7, 13', [mop, bad]), ('no word', []),
                         ('a stored 13, 7', [asm.replay(0, 1, 0, 1), bad, mop]), ('a stored 13', [asm.replay(0, 9, 0, 1), bad])):
        made[f'{name}, no room'] = of_stream(stream, 0, (128, 1, *others))
        for room in (5, NEEDED):
            words = [*STREAM[:2], *STREAM[3:-2], *stream]
            made[f'{name} behind, room {room}'] = of_stream(words, room, (3, 0x80000001, *others), CARRIED)
    return made


def load_name(load):
    return ' '.join(('load', *map(str, load_numbers(load))))


def load_inputs():
    """Loads at the edges of their numbers, before words that they take, before a REPLAY that is refused if it is obeyed, and
    before what is refused by 4, 7 and 8; and their closes."""
    bad, mop = asm.replay(1, 33), asm.mop(1)
    made = {}
    for load in (None, *cases_expander.LOADS):
        carried, name = IDLE._replace(load=load), load_name(load)
        made[name] = of_stream([*long_words(7), asm.mop(0, 30)], carried=carried)
        made[f'{name}, 4'] = of_stream([bad, mop], 0, NINE[:8], carried)
        made[f'{name}, 7'] = of_stream([mop, bad], 0, (128, *NINE[1:]), carried)
        made[f'{name}, 13'] = of_stream([bad, mop], 0, (128, *NINE[1:]), carried)
        made[f'{name}, 8'] = of_stream([asm.nop()] * 33, 0, carried=carried)
        for lent in (0, 8, 9, NINE_MOST):
            made[f'{name}, close with {lent} words for nine'] = asm.close_input(long_words(lent), carried)
    return made


SIZES = {37: (0, 35, 37, 63, 64, 65, 68), 38: (0, 129, 130, 139, 141, 144), 40: (0, 3, 5, 8), 41: (1, 4, 8),
         39: (0, 1, 45, 4 * WORDS_MOST - 1, 4 * WORDS_MOST + 1, 4 * WORDS_MOST + 4)}


def damaged_records(records):
    """Each record cut, left out, twice, of another kind and of a wrong size."""
    made = {'nothing': b''}
    for place, record in enumerate(records):
        before, after, kind = b''.join(records[:place]), b''.join(records[place + 1:]), record[4]
        made.update((f'{kind} cut to {length}', before + record[:length]) for length in (0, 3, 5, 6, 7, len(record) - 1)
                    if length < len(record))
        made[f'{kind} left out'], made[f'{kind} twice'] = before + after, before + record + record + after
        made.update((f'{kind} as {other}', before + record[:4] + other.to_bytes(2, 'little') + record[6:] + after)
                    for other in (0, 36, 39, 41, kind + 1, kind + 256) if other != kind)
        made.update((f'{kind} of {size} bytes', before + asm.record(kind, bytes(size)) + after) for size in SIZES[kind])
        made[f'{kind} of length 0xFFFFFFFF'] = before + b'\xFF\xFF\xFF\xFF' + record[4:] + after
    return made


def damaged_loads(records):
    """Bytes of the load in record 38 that say nothing: its kind, whether it is shown, and any if there is none."""
    nine, carried, rest = records[0], records[1], b''.join(records[2:])
    none = asm.carried_record(IDLE)
    changed = {f'byte {at} of no load': none[:at] + b'\x80' + none[at + 1:] for at in range(len(none) - 9, len(none))}
    for byte in (2, 3, 128, 255):
        changed[f'kind {byte}'] = carried[:-10] + bytes([byte]) + carried[-9:]
        changed[f'kind {byte} of no load'] = none[:-10] + bytes([byte]) + none[-9:]
        changed[f'shown {byte}'] = carried[:-1] + bytes([byte])
    changed['kind 0 of a load'] = carried[:-10] + b'\0' + carried[-9:]
    return {name: nine + record + rest for name, record in changed.items()}


def damaged_inputs():
    """Both forms damaged, and the one within the other."""
    closing = (*RECORDS[:2], CLOSE)
    made = {f'{name}, {form}': data for form, records in (('a piece', RECORDS), ('a close', closing))
            for name, data in {**damaged_records(records), **damaged_loads(records)}.items()}
    made['41 and then 39'] = b''.join((*closing, *RECORDS[2:]))
    made['39 and then 41'] = b''.join((*RECORDS[:3], CLOSE))
    made['40 and then 41'] = b''.join((*RECORDS, CLOSE))
    return made


def any_inputs(draws, count):
    """Sound inputs of calls as cases_expander draws them, four of each, and a close of what is carried."""
    for case in cases_expander.any_streams(draws, count):
        for _, room, _ in cases_expander.with_another(draws, [case]):
            lent = cases_expander.chosen(draws, (room, room, room, 0xFFFFFFFF))
            yield asm.expand_input(case.nine, case.carried, case.stream, lent)
        yield asm.close_input(case.nine, case.carried)


def long_input(draws):
    """A piece of up to 2,000 MOPs and REPLAYs that can be obeyed; the room is what it needs, any, or the most."""
    mix = cases_expander.replay_mix(draws, 0, ((0, 0, 0, 16), (1, 1, 2, 16), (4, 7, 9, 16)))
    case = cases_expander.Case(draws.word(), draws.draw(), mix, draws.draw() % 4, draws.draw() % 4, draws.draw() % 2001,
                               load=cases_expander.any_load(draws))
    room = cases_expander.chosen(draws, (case.needed, draws.draw(), NEEDED_LIMIT))
    return asm.expand_input(case.nine, case.carried, case.stream, room)


def named_inputs():
    """Inputs by what they are, other than the longest."""
    drawn = {f'drawn {number}': data for number, data in enumerate(any_inputs(Draws(40), 25))}
    return {**long_inputs(), **short_inputs(), **load_inputs(), **damaged_inputs(), **drawn}


def files():
    stdin = b''.join(RECORDS)
    return {'crates/expand/stdin': stdin, 'crates/expand/stdout': expand(stdin)}
