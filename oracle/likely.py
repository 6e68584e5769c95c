"""Words that a kernel is likely to hold, drawn from a generator: most pass, some stall, few are refused."""

import assemble as asm


def few_bits(draws, width):
    """A mask with one or two bits of a width."""
    return (1 << draws.draw() % width) | (1 << draws.draw() % width)


# One entry a word; the more often a word stands here the likelier it is.
MAKERS = [
    lambda d: asm.nop(),
    lambda d: asm.setdmareg(d.draw() % 128, d.draw()),
    lambda d: asm.setdmareg(d.draw() % 128, d.draw()),
    lambda d: asm.adddmareg(d.draw() % 64, d.draw() % 64, d.draw() % 64, d.draw() % 2),
    lambda d: asm.muldmareg(d.draw() % 64, d.draw() % 64, d.draw() % 64, d.draw() % 2),
    lambda d: asm.dmanop(),
    lambda d: asm.atgetm(d.draw() % 4),
    lambda d: asm.atrelm(d.draw() % 4),
    lambda d: asm.stallwait(few_bits(d, 9), few_bits(d, 15)),
    lambda d: asm.stallwait(0, 0),
    lambda d: asm.seminit(few_bits(d, 8), d.draw() % 16, d.draw() % 16),
    lambda d: asm.sempost(few_bits(d, 8)),
    lambda d: asm.sempost(255),
    lambda d: asm.semget(few_bits(d, 8)),
    lambda d: asm.semwait(few_bits(d, 9), few_bits(d, 8), d.draw() % 4),
    lambda d: asm.semwait(0, 0, 0),
    lambda d: asm.wrcfg(d.draw() % 64, d.draw() % 256, d.draw() % 2),
    lambda d: asm.wrcfg(d.draw() % 64, 255),
    lambda d: asm.rdcfg(d.draw() % 64, d.draw() % 256),
    lambda d: asm.setc16(d.draw() % 64, d.draw()),
    lambda d: asm.setc16(0, d.draw() % 2),
    lambda d: asm.rmwcib(d.draw() % 4, d.draw() % 256, d.draw() % 256, d.draw() % 256),
    lambda d: asm.trnspsrcb(),
    lambda d: asm.movb2a(d.draw() % 64, d.draw() % 64, d.draw() % 2),
    lambda d: asm.zeroacc(d.draw() % 4, d.draw() % 2, d.draw() % 2),
    lambda d: asm.zeroacc(0, d.draw() % 512, d.draw() % 2),
    lambda d: asm.zeroacc(1, d.draw() % 32, d.draw() % 2),
    lambda d: asm.setdvalid(d.draw() % 2, d.draw() % 2),
    lambda d: asm.setdvalid(1, 1),
    lambda d: asm.cleardvalid(d.draw() % 2, d.draw() % 2, d.draw() % 2, d.draw() % 8 == 0),
]


def likely_word(draws):
    """One of the table's words with likely fields; once in 64 any word at all."""
    if draws.draw() % 64 == 0:
        return draws.word()
    return MAKERS[draws.draw() % len(MAKERS)](draws)
