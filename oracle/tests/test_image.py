"""Saved images: their bytes, round trips, and where a bad one goes wrong."""

import unittest
from bisect import bisect_right

from image import SIZE, image_of, load, read_image, save
from machine import fresh
from seeded import Draws
from tests.testing import busy, still

# Offset of each record's length field, and its body length.
STARTS = (0, 437, 1211, 3265, 36039, 36173, 42323)
LENGTHS = (431, 768, 2048, 32768, 128, 6144, 6144)

# Offsets of the parts of record 1, which starts at 6.
SETTINGS, MUTEXES, SEMAPHORES, WAITS, OWNERS, POINTERS = 6, 390, 398, 414, 429, 433


def field_starts():
    """The offset of every field of an image, worked out apart from the loader."""
    starts, at = [], 0

    def fields(count, *sizes):
        nonlocal at
        for _ in range(count):
            for size in sizes:
                starts.append(at)
                at += size
    for sizes in ([(192, 2), (8, 1), (16, 1), (3, 1, 2, 2), (8, 1)], [(192, 4)], [(512, 4)], [(16384, 2)], [(128, 1)],
                  [(2048, 3)], [(2048, 3)]):
        fields(1, 4, 2)
        for count, *each in sizes:
            fields(count, *each)
    assert at == SIZE
    return starts


class Bytes(unittest.TestCase):
    def test_sizes_and_headers(self):
        for machine in (fresh(), busy(60)):
            image = image_of(machine)
            self.assertEqual((len(image), SIZE), (48473, 48473))
            for kind, (start, length) in enumerate(zip(STARTS, LENGTHS), 1):
                self.assertEqual(image[start:start + 4], length.to_bytes(4, 'little'))
                self.assertEqual(image[start + 4:start + 6], bytes([kind, 0]))
            self.assertEqual(STARTS[-1] + 6 + LENGTHS[-1], SIZE)

    def test_fresh_image_is_zero_but_for_headers(self):
        image = bytearray(image_of(fresh()))
        for start in STARTS:
            image[start:start + 6] = bytes(6)
        self.assertEqual(image, bytes(SIZE))

    def place(self, change, expected):
        """The change to a fresh machine shows as exactly these bytes."""
        machine = fresh()
        change(machine)
        image, plain = image_of(machine), image_of(fresh())
        self.assertEqual({at: image[at] for at in range(SIZE) if image[at] != plain[at]}, expected)

    def test_places_of_the_control_part(self):
        self.place(lambda m: m.settings[0].__setitem__(0, 0x1234), {6: 0x34, 7: 0x12})
        self.place(lambda m: m.settings[2].__setitem__(63, 0x1234), {388: 0x34, 389: 0x12})
        self.place(lambda m: m.settings[1].__setitem__(0, 0x1234), {134: 0x34, 135: 0x12})
        self.place(lambda m: m.mutexes.__setitem__(0, 1), {390: 1})
        self.place(lambda m: m.mutexes.__setitem__(7, 3), {397: 3})
        self.place(lambda m: m.semaphores.__setitem__(0, [5, 9]), {398: 5, 399: 9})
        self.place(lambda m: m.semaphores.__setitem__(7, [15, 1]), {412: 15, 413: 1})
        self.place(lambda m: m.waits.__setitem__(0, ('stall', 0x123, 0x7ABC)),
                   {414: 1, 415: 0x23, 416: 1, 417: 0xBC, 418: 0x7A})
        self.place(lambda m: m.waits.__setitem__(1, ('semaphore', 0x1FE, 0xFF, 3)),
                   {419: 2, 420: 0xFE, 421: 1, 422: 0xFF, 423: 3})
        self.place(lambda m: m.waits.__setitem__(2, ('semaphore', 1, 1, 2)), {424: 2, 425: 1, 427: 6})
        for number in range(4):
            self.place(lambda m: m.owners.__setitem__(number, 1), {429 + number: 1})
            self.place(lambda m: m.pointers.__setitem__(number, 1), {433 + number: 1})

    def test_places_of_the_stores(self):
        self.place(lambda m: m.gprs[0].__setitem__(0, 0x12345678), {443: 0x78, 444: 0x56, 445: 0x34, 446: 0x12})
        self.place(lambda m: m.gprs[2].__setitem__(63, 0x12000000), {1210: 0x12})
        self.place(lambda m: m.config[0].__setitem__(0, 1), {1217: 1})
        self.place(lambda m: m.config[1].__setitem__(255, 0x80000000), {3264: 0x80})
        self.place(lambda m: m.dest[0].__setitem__(0, 0x1234), {3271: 0x34, 3272: 0x12})
        self.place(lambda m: m.dest[1].__setitem__(0, 1), {3303: 1})
        self.place(lambda m: m.dest[1023].__setitem__(15, 0x8000), {36038: 0x80})
        for row, at, value in ((0, 36045, 1), (7, 36045, 128), (8, 36046, 1), (1022, 36172, 64), (1023, 36172, 128)):
            self.place(lambda m: m.marks.__setitem__(row, True), {at: value})
        self.place(lambda m: m.src_a[0][0].__setitem__(0, 0x71234), {36179: 0x34, 36180: 0x12, 36181: 7})
        self.place(lambda m: m.src_a[0][1].__setitem__(0, 1), {36227: 1})
        self.place(lambda m: m.src_a[1][0].__setitem__(0, 1), {39251: 1})
        self.place(lambda m: m.src_a[1][63].__setitem__(15, 0x40000), {42322: 4})
        self.place(lambda m: m.src_b[0][0].__setitem__(0, 1), {42329: 1})
        self.place(lambda m: m.src_b[1][63].__setitem__(15, 0x40000), {48472: 4})


class RoundTrips(unittest.TestCase):
    def test_machine_to_image_to_machine(self):
        for seed in range(60, 70):
            machine = busy(seed)
            self.assertEqual(read_image(image_of(machine)), ('loaded', machine))
        self.assertEqual(read_image(image_of(fresh())), ('loaded', fresh()))

    def test_image_to_machine_to_image(self):
        for seed in range(60, 65):
            image = image_of(busy(seed))
            self.assertEqual(image_of(read_image(image)[1]), image)

    def test_load_overwrites(self):
        machine = busy(61)
        self.assertEqual(load(machine, image_of(busy(62))), ('loaded',))
        self.assertEqual(machine, busy(62))

    def test_load_never_answers_10(self):
        machine = busy(61)
        machine.mutexes[0] = 200
        machine.src_a[0][0][0] = 1 << 30
        self.assertEqual(load(machine, image_of(busy(62))), ('loaded',))
        self.assertEqual(machine, busy(62))

    def test_load_answers_4_before_9(self):
        machine = busy(61)
        machine.dest.pop()
        before = machine.copy()
        self.assertEqual(load(machine, b''), ('refused', 4))
        self.assertEqual(machine, before)

    def test_refused_load_writes_nothing(self):
        machine = busy(61)
        self.assertEqual(load(machine, image_of(busy(62))[:-1]), ('refused', 9, 48470))
        self.assertEqual(machine, busy(61))


class Saving(unittest.TestCase):
    def test_output_is_filled_from_its_start_and_its_rest_left(self):
        machine = busy(63)
        output = bytearray(b'\xEE' * (SIZE + 10))
        self.assertEqual(save(machine, output), ('saved', SIZE))
        self.assertEqual(output, image_of(machine) + b'\xEE' * 10)
        output = bytearray(SIZE)
        self.assertEqual(save(machine, output), ('saved', SIZE))
        self.assertEqual(output, image_of(machine))

    def test_refusals_and_their_order(self):
        def refuses(number, room, spoil):
            machine, output = busy(63), bytearray(b'\xEE' * room)
            spoil(machine)
            self.assertEqual(save(machine, output), ('refused', number))
            self.assertEqual(output, b'\xEE' * room)

        def nothing(machine):
            pass

        def malformed(machine):
            machine.semaphores[0][0] = 16

        def short(machine):
            malformed(machine)
            machine.marks.pop()
        refuses(8, SIZE - 1, nothing)
        refuses(8, 0, nothing)
        refuses(10, SIZE, malformed)
        refuses(10, 0, malformed)
        refuses(4, 0, short)
        refuses(4, SIZE, short)


class BadImages(unittest.TestCase):
    image = image_of(still(64))  # no waits, so the wait fields are zero

    def refuses(self, data, offset):
        self.assertEqual(read_image(bytes(data)), ('refused', 9, offset))

    def with_bytes(self, at, *values):
        data = bytearray(self.image)
        data[at:at + len(values)] = bytes(values)
        return data

    def test_cut_anywhere(self):
        starts = field_starts()
        self.assertEqual(len(starts), 14 + 192 + 8 + 16 + 9 + 8 + 192 + 512 + 16384 + 128 + 4096)
        lengths = set(range(0, 20)) | set(range(380, 460)) | {SIZE - 1, SIZE - 2, SIZE - 3, SIZE - 4}
        for start in STARTS[1:]:
            lengths |= set(range(start - 3, start + 8))
        draws = Draws(65)
        lengths |= {draws.word() % SIZE for _ in range(30)}
        for length in sorted(lengths):
            self.refuses(self.image[:length], starts[bisect_right(starts, length) - 1])  # last start not past the cut

    def test_hand_worked_cuts(self):
        for length, offset in ((0, 0), (3, 0), (4, 4), (5, 4), (6, 6), (7, 6), (8, 8), (415, 415), (416, 415),
                               (437, 437), (440, 437), (441, 441), (443, 443), (446, 443), (36179, 36179),
                               (36181, 36179), (36182, 36182), (48472, 48470), (48471, 48470), (48470, 48470)):
            self.refuses(self.image[:length], offset)

    def test_extra_bytes(self):
        for extra in (b'\0', b'abc', bytes(100000)):
            self.refuses(self.image + extra, 48473)
        self.refuses(self.image + self.image, 48473)

    def test_a_bad_field_goes_before_extra_bytes(self):
        self.refuses(self.with_bytes(390, 4) + b'\0', 390)

    def test_header_fields(self):
        for start in STARTS:
            for at in (start, start + 3):
                self.refuses(self.with_bytes(at, self.image[at] ^ 1), start)
            for at in (start + 4, start + 5):
                self.refuses(self.with_bytes(at, self.image[at] ^ 1), start + 4)
            self.refuses(self.with_bytes(start, 0, 0, 0, 0, 0, 0), start)
            self.refuses(self.with_bytes(start, 255, 255, 255, 255), start)
        # Kinds 1–7 exactly in order: two records of one length swapped.
        a, b = self.image[36173:42323], self.image[42323:]
        self.refuses(self.image[:36173] + b + a, 36177)

    def test_control_numbers_out_of_range(self):
        for at in range(MUTEXES, SEMAPHORES):
            self.refuses(self.with_bytes(at, 4), at)
            self.refuses(self.with_bytes(at, 255), at)
            self.assertEqual(read_image(bytes(self.with_bytes(at, 3)))[0], 'loaded')
        for at in range(SEMAPHORES, WAITS):
            self.refuses(self.with_bytes(at, 16), at)
        for at in range(OWNERS, POINTERS + 4):
            self.refuses(self.with_bytes(at, 2), at)
            self.refuses(self.with_bytes(at, 255), at)

    def test_waits(self):
        for thread in range(3):
            at = WAITS + 5 * thread

            def loads(wait, *values):
                answer = read_image(bytes(self.with_bytes(at, *values)))
                self.assertEqual(answer[0], 'loaded')
                self.assertEqual(answer[1].waits[thread], wait)
            loads(None, 0, 0, 0, 0, 0)
            loads(('stall', 0, 0), 1, 0, 0, 0, 0)
            loads(('stall', 511, 32767), 1, 255, 1, 255, 127)
            loads(('semaphore', 511, 255, 3), 2, 255, 1, 255, 3)
            loads(('semaphore', 0, 0, 0), 2, 0, 0, 0, 0)
            loads(('semaphore', 0, 1, 1), 2, 0, 0, 5, 0)
            # Kind over 2.
            self.refuses(self.with_bytes(at, 3), at)
            self.refuses(self.with_bytes(at, 255, 255, 255, 255, 255), at)
            # Block over nine bits.
            self.refuses(self.with_bytes(at, 1, 0, 2), at + 1)
            self.refuses(self.with_bytes(at, 2, 0, 2, 255, 255), at + 1)
            # Low field over 15 or 10 bits.
            self.refuses(self.with_bytes(at, 1, 0, 0, 0, 128), at + 3)
            self.refuses(self.with_bytes(at, 2, 0, 0, 0, 4), at + 3)
            # With kind 0 the block and the low field are zero, each a field of its own.
            self.refuses(self.with_bytes(at, 0, 1, 0, 0, 0), at + 1)
            self.refuses(self.with_bytes(at, 0, 0, 1, 1, 0), at + 1)
            self.refuses(self.with_bytes(at, 0, 0, 0, 1, 0), at + 3)
            self.refuses(self.with_bytes(at, 0, 0, 0, 0, 1), at + 3)

    def test_source_cells(self):
        for at in (36179, 36182, 39251, 42320, 42329, 48470):
            self.refuses(self.with_bytes(at, 0, 0, 8), at)
            self.refuses(self.with_bytes(at, 255, 255, 255), at)
            self.assertEqual(read_image(bytes(self.with_bytes(at, 255, 255, 7)))[0], 'loaded')

    def test_any_bytes_will_do_in_the_other_stores(self):
        data = bytearray(self.image)
        for start, end in ((SETTINGS, MUTEXES), (443, 1211), (1217, 3265), (3271, 36039), (36045, 36173)):
            data[start:end] = b'\xFF' * (end - start)
        self.assertEqual(read_image(bytes(data))[0], 'loaded')

    def test_the_first_bad_field_is_reported(self):
        data = self.with_bytes(48470, 0, 0, 8)
        data[429] = 2
        self.refuses(data, 429)
        data[397] = 9
        self.refuses(data, 397)
        data[4] = 9
        self.refuses(data, 4)
        data[3] = 9
        self.refuses(data, 0)
        # A bad field goes before a later cut.
        self.refuses(self.with_bytes(429, 2)[:1000], 429)
        self.refuses(self.with_bytes(429, 2)[:429], 429)
