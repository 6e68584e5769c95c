"""The cases that ./crosscheck draws reach every answer of what they call."""

import unittest

from cases import cases_bench, cases_decode, cases_expander, cases_image, cases_run, cases_step
from decode import TABLE
from seeded import Draws


class Fresh(unittest.TestCase):
    def test_steps(self):
        _, stdout = cases_step.input_and_output(cases_step.any_group(Draws(seed)) for seed in range(24))
        self.assertEqual({' '.join(name.split()[:2]) for name in cases_step.tally(stdout)},
                         {'p', *(f'r {number}' for number in (1, 2, 3, 4, 10)), *(f's {number}' for number in (101, 102, 103))})

    def test_runs(self):
        _, stdout = cases_run.input_and_output(case for seed in range(24) for case in cases_run.any_cases(Draws(seed), 10))
        lines = stdout.decode().splitlines()
        self.assertEqual({line.split(' turns')[0] for line in lines},
                         {'finished', 'stuck', 'budget', 'refused 2', 'refused 3', *(f'rejected {number}' for number in (4, 5, 6, 10))})
        stalls = {stall for line in lines for stall in line.split(' stalls ')[1].split()[:3]}
        self.assertGreater(len(stalls), 15)

    def test_bench(self):
        _, stdout = cases_bench.input_and_output(case for seed in range(12) for case in cases_bench.any_cases(Draws(seed), 60))
        self.assertEqual(set(cases_bench.tally(stdout)),
                         {'filled', 'value', 'done', 'shown 0', 'shown 16', *(f'refused {number}' for number in (1, 4, 8, 10, 11, 12))})

    def test_images(self):
        _, stdout = cases_image.input_and_output(cases_image.any_group(Draws(seed)) for seed in range(24))
        self.assertEqual(set(cases_image.tally(stdout)), {'w', 't', *(f'r {number}' for number in (4, 8, 9, 10))})

    def test_expander(self):
        _, stdout = cases_expander.input_and_output(cases_expander.any_cases(Draws(1), 120))
        words = {' '.join(line.split()[:2 if line.startswith('refused') else 1]) for line in stdout.decode().splitlines()}
        self.assertEqual(words, {'fresh', 'done', 'pieces', *(f'refused {number}' for number in (4, 7, 8, 10, 13))})

    def test_decode(self):
        _, stdout = cases_decode.input_and_output(cases_decode.any_words(Draws(1), 3000))
        words = {' '.join(line.split()[:2 if line.startswith('refused') else 1]) for line in stdout.decode().splitlines()}
        self.assertEqual(words, {'refused 2', 'refused 3', *(name for name, _, _ in TABLE.values())})
