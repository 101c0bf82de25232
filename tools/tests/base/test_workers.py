"""Work in processes of its own: the answers are those of one process, in order."""
import os
import unittest
from typing import List
from unittest import mock

from boardnet_show.base import workers


def doubled(number: int) -> int:
    if number == 13:
        raise ValueError("unlucky")
    return 2 * number


def named(number: int) -> int:
    return os.getpid()


class Mapped(unittest.TestCase):
    def made(self, count: int, numbers: List[int]) -> List[int]:
        with mock.patch.object(workers, "processors", return_value=count):
            sizes = [workers.LARGE * (number % 3 != 1) for number in numbers]
            return [*workers.mapped(doubled, numbers, sizes)]

    def test_same_answers(self):
        numbers = [*range(12)]
        self.assertEqual(self.made(1, numbers), [2 * number for number in numbers])
        self.assertEqual(self.made(3, numbers), self.made(1, numbers))
        self.assertEqual(self.made(3, []), [])

    def test_failures(self):
        """What fails in a process is done here, and fails here."""
        for count in (1, 3):
            with self.assertRaisesRegex(ValueError, "unlucky"):
                self.made(count, [2, 3, 13, 5])
        with mock.patch.object(workers, "processors", return_value=3):
            self.assertEqual([*workers.mapped(doubled, [2, 12, 13], [workers.LARGE] * 3, lambda number: 0)], [4, 24, 0])

    def test_no_processes(self):
        """Where none can be begun the work is done here."""
        for name in ("concurrent.futures.ProcessPoolExecutor", "multiprocessing.get_context"):
            with mock.patch(name, side_effect=OSError("no semaphores")):
                self.assertEqual(self.made(3, [2, 3, 5]), [4, 6, 10])

    def test_what_is_small_stays_here(self):
        with mock.patch.object(workers, "processors", return_value=4):
            found = [*workers.mapped(named, [1, 2, 3, 4], [0, workers.LARGE, 0, workers.LARGE])]
            self.assertEqual([it == os.getpid() for it in found], [True, False, True, False])
            self.assertEqual({*workers.mapped(named, [1, 2, 3], [0, workers.LARGE, 0])}, {os.getpid()})
