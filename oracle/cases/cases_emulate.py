"""Inputs of `emulate`: each end, each refusal and stall that a fresh machine meets, damaged and random inputs.

The program `emulate` is run on case P. `test_emulate` takes many inputs in one: each is its length (4 bytes,
little-endian) and its bytes.
"""

import assemble as asm
from likely import likely_word
from program import emulate
from seeded import Draws

NOP = asm.nop()
PLAIN = asm.emulate_input([[NOP], [NOP], [NOP]], 100)  # records at 0, 10, 20 and 30; 40 bytes

RUNS = {
    'p': ([[0x45123408], [0x16000000], []], 100),
    'finished': ([[NOP] * 3, [NOP], [NOP] * 2], 100),
    'finished_empty': ([[], [], []], 0),
    'finished_at_budget': ([[NOP], [NOP], [NOP]], 3),
    'finished_full_stream': ([[NOP] * 1024, [], []], 1000000),
    'finished_longest': ([[NOP] * 1024] * 3, 1000000),
    'budget': ([[NOP] * 9, [NOP] * 9, [NOP] * 9], 10),
    'budget_zero': ([[NOP], [], []], 0),
    'budget_before_stuck': ([[asm.trnspsrcb()], [], []], 2),
    'stuck_at_budget': ([[asm.trnspsrcb()], [], []], 3),
    'stuck_wait': ([[asm.stallwait(1 << 5, 1 << 7), asm.dmanop()], [NOP], []], 100),
    'stuck_semaphore': ([[asm.semwait(1 << 5, 1, 1), asm.dmanop()], [asm.semget(1)], []], 100),
    'stuck_mutex': ([[asm.atgetm(3)], [asm.atgetm(3)], []], 100),
    'stuck_src_b': ([[], [], [asm.movb2a()]], 100),
    'lifted_wait': ([[asm.stallwait(1 << 6, 1 << 8), asm.trnspsrcb()], [NOP, asm.setdvalid(b=1)], []], 100),
    'lifted_semaphore': ([[asm.semwait(1 << 1, 1, 1), asm.semget(1)], [NOP, NOP, asm.sempost(1)], [NOP] * 3], 100),
    'mutex_handed_over': ([[asm.atgetm(0), NOP, asm.atrelm(0)], [asm.atgetm(0)], [NOP] * 4], 100),
    'refused_opcode': ([[NOP, 0xFF000000], [NOP], []], 100),
    'refused_mop': ([[asm.mop()], [], []], 100),
    'refused_signal_mode': ([[asm.setdmareg(signal_mode=1)], [], []], 100),
    'refused_addr_mod': ([[], [asm.movb2a(addr_mod=1)], []], 100),
    'refused_index': ([[], [], [asm.wrcfg(index=256)]], 100),
    'refused_mutex': ([[asm.atgetm(8)], [], []], 100),
    'refused_gpr': ([[asm.rdcfg(gpr=64)], [], []], 100),
    'refused_place': ([[asm.zeroacc(0, 512, wide=1)], [], []], 100),
    'refused_while_waiting': ([[asm.stallwait(511, 1 << 7), asm.zeroacc(0, 1024)], [], []], 100),
}

# Streams that get stuck: what holds them is in the last lines.
WAITING = {
    'deadlock': [[asm.atgetm(0), NOP, asm.atgetm(1)], [asm.atgetm(1), NOP, asm.atgetm(0)], []],
    'zero': [[0xA6100091, 0x60000000], [], []],
    'full_at_zero': [[0xA6100092, 0x60000000], [], []],
    'either_at_zero': [[0xA6100093, 0x60000000], [], []],
    'lowest_semaphore': [[0xA3220010, 0xA6100093, 0x60000000], [], []],
    'lowest_condition': [[0xA22001A0, 0x16000000], [], []],
    'unpack_bank': [[0x57000001, 0x57000001, 0xA2200120, 0x16000000], [], []],
    'bank_1': [[], [0x57000002, 0x36800000, 0x16000000], []],
    'each_by_its_own': [[asm.atgetm(0), asm.seminit(128, 15, 15), asm.semwait(2, 128, 2), asm.atrelm(0)], [NOP, asm.atgetm(0)],
                        [asm.trnspsrcb()]],
}
RUNS |= {f'stuck_{name}': (streams, 100) for name, streams in WAITING.items()}
RUNS |= {f'budget_{name}': (streams, 3) for name, streams in WAITING.items()}
RUNS |= {
    'budget_p': (RUNS['p'][0], 3),
    'budget_after_a_stall': (WAITING['deadlock'], 7),
    'refused_beside_stalls': ([[asm.trnspsrcb()], [asm.trnspsrcb()], [0xFF000000]], 100),
}


def swapped(data, at, *values):
    """The data with some bytes replaced."""
    return data[:at] + bytes(values) + data[at + len(values):]


BAD = {
    'bad_empty': b'',
    'bad_cut_header': PLAIN[:5],
    'bad_cut_body': PLAIN[:9],
    'bad_second_missing': PLAIN[:10],
    'bad_third_cut': PLAIN[:29],
    'bad_budget_missing': PLAIN[:30],
    'bad_budget_cut': PLAIN[:39],
    'bad_extra': PLAIN + b'\0',
    'bad_extra_record': PLAIN + PLAIN,
    'bad_longest_extra': asm.emulate_input(*RUNS['finished_longest']) + b'\0',  # 12,317 bytes
    'bad_kind': swapped(PLAIN, 14, 34),
    'bad_order': PLAIN[10:20] + PLAIN[:10] + PLAIN[20:],
    'bad_twice': PLAIN[:10] + PLAIN,
    'bad_uneven': swapped(PLAIN, 20, 3),
    'bad_long_stream': asm.emulate_input([[NOP], [NOP] * 1025, []], 100),
    'bad_length': swapped(PLAIN, 0, 255, 255, 255, 255),
    'bad_budget_over': asm.emulate_input([[NOP], [NOP], [NOP]], 1000001),
    'bad_budget_short': PLAIN[:30] + asm.record(35, b'\1\0\0'),
    'bad_budget_long': PLAIN[:30] + asm.record(35, bytes(8)),
}


def random_streams(draws, most):
    """Three streams of likely words."""
    return [[likely_word(draws) for _ in range(draws.draw() % (most + 1))] for _ in range(3)]


def random_runs(draws, count):
    """Sound inputs with short streams and budgets of every size."""
    budgets = [0, 1, 2, 3, 5, 9, 20, 100, 1000000]
    return [asm.emulate_input(random_streams(draws, 12), budgets[draws.draw() % len(budgets)]) for _ in range(count)]


def truncated(data):
    return [data[:at] for at in range(len(data))]


def one_byte_off(data, draws, count):
    """One byte replaced by another."""
    made = []
    for _ in range(count):
        at = draws.draw() % len(data)
        made.append(swapped(data, at, (data[at] + 1 + draws.draw() % 255) % 256))
    return made


def odd_headers(data):
    """Lengths and kinds at their edges, in each record of PLAIN."""
    lengths = [0, 1, 3, 4, 5, 8, 4096, 4100, 0x7FFFFFFF, 0xFFFFFFFC, 0xFFFFFFFF]
    kinds = [0, 1, 31, 32, 33, 34, 35, 36, 0x2000, 0xFFFF]
    made = []
    for at in (0, 10, 20, 30):
        made += [swapped(data, at, *length.to_bytes(4, 'little')) for length in lengths]
        made += [swapped(data, at + 4, *kind.to_bytes(2, 'little')) for kind in kinds]
    return made


def damaged(draws):
    """At least 5,000 inputs that are mostly bad."""
    made = odd_headers(PLAIN) + truncated(PLAIN)
    for data in random_runs(draws, 25):
        made += truncated(data)[:120] + one_byte_off(data, draws, 90)
        made += [data + bytes(extra) for extra in (1, 2, 6, 10)]
    for _ in range(600):
        made.append(bytes(draws.draw() % 256 for _ in range(draws.draw() % 60)))
    return made


def inputs():
    draws = Draws(35)
    made = [asm.emulate_input(*case) for case in RUNS.values()] + list(BAD.values())
    return made + random_runs(draws, 1200) + damaged(draws)


def files():
    p = asm.emulate_input(*RUNS['p'])
    cases = inputs()
    return {
        'crates/emulate/stdin': p,
        'crates/emulate/stdout': emulate(p),
        'crates/test_emulate/stdin': b''.join(len(data).to_bytes(4, 'little') + data for data in cases),
        'crates/test_emulate/stdout': b''.join(emulate(data) for data in cases),
    }
