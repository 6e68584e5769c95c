"""What a machine is: its parts, their sizes and ranges, and a fresh one (document 01, "The machine")."""

THREADS = 3
UNPACKERS, MATRIX = 0, 1  # owners of a source bank; the image writes 1 for Matrix
FILE_A, FILE_B = 0, 1  # the source files SrcA and SrcB
FREE = 0  # a mutex: 0 free, else the holding thread + 1

# The parts that a caller lends, each with its shape and the width of its numbers.
LENT = {
    'settings': ((3, 64), 16),  # ThreadConfig, by thread
    'gprs': ((3, 64), 32),
    'config': ((2, 256), 32),
    'dest': ((1024, 16), 16),
    'marks': ((1024,), None),  # True where the Dest row is valid
    'src_a': ((2, 64, 16), 19),
    'src_b': ((2, 64, 16), 19),
}


def zeros(shape):
    """Nested lists of a shape, every number zero."""
    if len(shape) == 1:
        return [0] * shape[0]
    if len(shape) == 2:
        return [[0] * shape[1] for _ in range(shape[0])]
    return [zeros(shape[1:]) for _ in range(shape[0])]


def copied(part):
    """A copy of nested lists."""
    if not part or not isinstance(part[0], list):
        return part[:]
    if not part[0] or not isinstance(part[0][0], list):
        return [row[:] for row in part]
    return [copied(inner) for inner in part]


class Machine:
    """All parts of the state. A new one is fresh."""

    def __init__(self):
        # Control part.
        self.mutexes = [FREE] * 8
        self.semaphores = [[0, 0] for _ in range(8)]  # value, maximum
        # None, ('stall', block, conditions) or ('semaphore', block, mask, condition)
        self.waits = [None] * THREADS
        self.owners = [UNPACKERS] * 4  # A0 A1 B0 B1
        self.pointers = [0] * 4  # matrix A, matrix B, unpack A, unpack B
        # Lent parts.
        self.settings = zeros((3, 64))
        self.gprs = zeros((3, 64))
        self.config = zeros((2, 256))
        self.dest = zeros((1024, 16))
        self.marks = [False] * 1024
        self.src_a = zeros((2, 64, 16))
        self.src_b = zeros((2, 64, 16))

    def copy(self):
        """Another machine with the same state and no list in common."""
        other = Machine.__new__(Machine)
        for name, part in vars(self).items():
            setattr(other, name, copied(part))
        return other

    def become(self, other):
        """Takes over the state of another machine."""
        vars(self).update(vars(other.copy()))

    def __eq__(self, other):
        return vars(self) == vars(other)

    __hash__ = None

    # The source files and their banks.

    def source(self, file):
        return self.src_a if file == FILE_A else self.src_b

    def matrix_bank(self, file):
        """The bank at the file's matrix pointer."""
        return self.pointers[file]

    def unpack_bank(self, file):
        """The bank at the file's unpack pointer."""
        return self.pointers[2 + file]

    def owner(self, file, bank):
        return self.owners[2 * file + bank]

    def give(self, file, bank, owner):
        self.owners[2 * file + bank] = owner

    def flip_matrix(self, file):
        self.pointers[file] ^= 1

    def flip_unpack(self, file):
        self.pointers[2 + file] ^= 1

    def config_bank(self, thread):
        """The thread's Config bank: bit 0 of its ThreadConfig entry 0."""
        return self.config[self.settings[thread][0] & 1]


def fresh():
    """Every word and cell zero, rows invalid, mutexes free, no waits, owners Unpackers, pointers 0."""
    return Machine()


def has_shape(part, shape):
    """Whether nested lists have exactly this shape."""
    if len(part) != shape[0]:
        return False
    if len(shape) == 1:
        return True
    if len(shape) == 2:
        return set(map(len, part)) == {shape[1]}
    return all(has_shape(inner, shape[1:]) for inner in part)


def extremes(part):
    """The least and the greatest number in nested lists."""
    if not isinstance(part[0], list):
        return min(part), max(part)
    if not isinstance(part[0][0], list):
        return min(map(min, part)), max(map(max, part))
    inner = [extremes(each) for each in part]
    return min(least for least, _ in inner), max(greatest for _, greatest in inner)


def has_width(part, width):
    """Whether every number in nested lists fits a width; marks (no width) are True or False."""
    if width is None:
        return all(mark is True or mark is False for mark in part)
    least, greatest = extremes(part)
    return least >= 0 and greatest >> width == 0


def wait_in_range(wait):
    """None, a stall wait or a semaphore wait with its fields as wide as in the word."""
    if wait is None:
        return True
    if wait[0] == 'stall' and len(wait) == 3:
        return 0 <= wait[1] < 512 and 0 <= wait[2] < 32768
    if wait[0] == 'semaphore' and len(wait) == 4:
        return 0 <= wait[1] < 512 and 0 <= wait[2] < 256 and 0 <= wait[3] < 4
    return False


def control_well_formed(machine):
    """Sizes and ranges of mutexes, semaphores, waits, owners and pointers."""
    return (len(machine.mutexes) == 8 and all(0 <= m <= THREADS for m in machine.mutexes)
            and len(machine.semaphores) == 8
            and all(len(s) == 2 and 0 <= s[0] <= 15 and 0 <= s[1] <= 15 for s in machine.semaphores)
            and len(machine.waits) == THREADS and all(wait_in_range(w) for w in machine.waits)
            and len(machine.owners) == 4 and all(o in (UNPACKERS, MATRIX) for o in machine.owners)
            and len(machine.pointers) == 4 and all(p in (0, 1) for p in machine.pointers))


def lent_refusal(machine, names=tuple(LENT), control=True):
    """The refusal for what is lent of the machine: 4 a wrong length, then 10 not well formed, else None."""
    if not all(has_shape(getattr(machine, name), LENT[name][0]) for name in names):
        return 4
    if control and not control_well_formed(machine):
        return 10
    if not all(has_width(getattr(machine, name), LENT[name][1]) for name in names):
        return 10
    return None


def well_formed(machine):
    """Each part has its size and each number is in its range."""
    return lent_refusal(machine) is None
