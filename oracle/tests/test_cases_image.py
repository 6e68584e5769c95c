"""What the cases of `test_image` rest on."""

import unittest

from cases.cases_image import ANY, CELLS, CONTROL, HEADERS, MARKS, seeds_by_waits, wait_kinds
from image import SIZE
from tests.test_image import field_starts


class Fields(unittest.TestCase):
    def test_the_places_are_every_byte_once(self):
        cells = [start + place for start in CELLS for place in range(6144)]
        places = [*HEADERS, *CONTROL, *MARKS, *cells, *(place for part in ANY for place in part)]
        self.assertEqual(sorted(places), list(range(SIZE)))

    def test_cells_and_headers_start_where_fields_do(self):
        starts = set(field_starts())
        self.assertTrue({start + 3 * place for start in CELLS for place in range(2048)} <= starts)
        self.assertTrue(set(HEADERS[::6]) | {place + 4 for place in HEADERS[::6]} <= starts)


class Machines(unittest.TestCase):
    def test_each_thread_has_each_kind_of_wait(self):
        self.assertEqual([wait_kinds(seed) for seed in seeds_by_waits()], [(0, 1, 2), (1, 2, 0), (2, 0, 1)])
