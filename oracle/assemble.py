"""Words put together from their fields, for cases and tests (document 01, "Words of the base")."""

from expander import load_numbers


def nop():
    return 0x02000000


def trnspsrcb():
    return 0x16000000


def movb2a(a_row=0, b_row=0, four=0, addr_mod=0):
    return 0x0B000000 | a_row << 17 | addr_mod << 14 | four << 13 | b_row


def zeroacc(mode=0, place=0, wide=0, addr_mod=0):
    return 0x10000000 | mode << 19 | wide << 18 | addr_mod << 14 | place


def cleardvalid(a=0, b=0, keep=0, reset=0):
    return 0x36000000 | b << 23 | a << 22 | keep << 1 | reset


def setdvalid(a=0, b=0):
    return 0x57000000 | b << 1 | a


def setdmareg(half=0, value=0, signal_mode=0):
    return 0x45000000 | value << 8 | signal_mode << 7 | half


def adddmareg(result=0, a=0, b=0, constant=0):
    return 0x58000000 | constant << 23 | result << 12 | b << 6 | a


def muldmareg(result=0, a=0, b=0, constant=0):
    return 0x5A000000 | constant << 23 | result << 12 | b << 6 | a


def dmanop():
    return 0x60000000


def atgetm(mutex=0):
    return 0xA0000000 | mutex


def atrelm(mutex=0):
    return 0xA1000000 | mutex


def stallwait(block=0, conditions=0):
    return 0xA2000000 | block << 15 | conditions


def seminit(mask=0, value=0, maximum=0):
    return 0xA3000000 | maximum << 20 | value << 16 | mask << 2


def sempost(mask=0):
    return 0xA4000000 | mask << 2


def semget(mask=0):
    return 0xA5000000 | mask << 2


def semwait(block=0, mask=0, condition=0):
    return 0xA6000000 | block << 15 | mask << 2 | condition


def wrcfg(gpr=0, index=0, four=0):
    return 0xB0000000 | gpr << 16 | four << 15 | index


def rdcfg(gpr=0, index=0):
    return 0xB1000000 | gpr << 16 | index


def setc16(entry=0, value=0):
    return 0xB2000000 | entry << 16 | value


def rmwcib(byte=0, index=0, mask=0, data=0):
    return 0xB3000000 + (byte << 24) | mask << 16 | data << 8 | index


# Words of the expander.

def mop(template=0, count=0, low=0):
    return 0x01000000 | template << 23 | count << 16 | low


def mop_cfg(high=0):
    return 0x03000000 | high


def replay(start=0, length=0, shown=0, load=0):
    return 0x04000000 | start << 14 | length << 4 | shown << 1 | load


# Records of the programs.

def record(kind, body):
    """Body length (4 bytes), kind (2), body."""
    return len(body).to_bytes(4, 'little') + kind.to_bytes(2, 'little') + body


def number_record(kind, *numbers):
    """A record whose body is numbers of 4 bytes."""
    return record(kind, b''.join(number.to_bytes(4, 'little') for number in numbers))


def emulate_input(streams, budget):
    """Standard input of `emulate`."""
    return (b''.join(number_record(32 + thread, *streams[thread]) for thread in range(3))
            + number_record(35, budget))


def resume_input(image, streams, budget, positions=(0, 0, 0), following=0):
    """Standard input of `resume`."""
    return image + emulate_input(streams, budget) + number_record(36, *positions, following)


def carried_record(carried):
    """What the expander carries: the high mask, the slots, and the load as a kind, the next slot, the words to come and whether
    they are shown."""
    high, slots, load = carried
    kind, following, left, shown = load_numbers(load)
    numbers = ((high, 2), *((slot, 4) for slot in slots), (kind, 1), (following, 4), (left, 4), (shown, 1))
    return record(38, b''.join(number.to_bytes(size, 'little') for number, size in numbers))


def expand_input(nine, carried, piece, room):
    """Standard input of `expand` for a piece of a stream."""
    return number_record(37, *nine) + carried_record(carried) + number_record(39, *piece) + number_record(40, room)


def close_input(nine, carried):
    """Standard input of `expand` for the close after the last piece."""
    return number_record(37, *nine) + carried_record(carried) + number_record(41)
