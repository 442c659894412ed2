"""What is told of the requests of three tests."""
import unittest

from . import kernel_requests


class Counts(unittest.TestCase):
    def test_differences(self) -> None:
        self.assertEqual(kernel_requests.differences([17, 18, 18]), (1, 0))
        self.assertEqual(kernel_requests.differences([17]), ())

    def test_problem(self) -> None:
        self.assertIsNone(kernel_requests.problem("wide", [17, 18, 18]))
        self.assertIsNone(kernel_requests.problem("narrow", [17, 29, 29]))
        self.assertEqual(kernel_requests.problem("wide", [17, 19, 19]), "wide: prepare and a run ask (2, 0) times, not (1, 0)")
        self.assertEqual(kernel_requests.problem("narrow", [17, 29, 30]), "narrow: prepare and a run ask (12, 1) times, not (12, 0)")


if __name__ == "__main__":
    unittest.main()
