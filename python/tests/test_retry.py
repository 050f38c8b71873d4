"""The pauses between tries, and the errors that pass."""
import unittest

from jagyerti import retry


class Pauses(unittest.TestCase):
    def test_each_is_twice_as_long_up_to_the_longest(self):
        pauses = retry.Pauses(4.0, 0.5, chance=lambda _low, high: high)
        self.assertEqual([pauses.take() for _ in range(6)], [0.5, 1.0, 2.0, 4.0, 4.0, 4.0])
        pauses.reset()
        self.assertEqual((pauses.take(), pauses.tries), (0.5, 1))

    def test_a_part_is_waited(self):
        taken = [retry.Pauses(8.0, 8.0).take() for _ in range(200)]
        self.assertTrue(all(4.0 <= pause <= 8.0 for pause in taken))
        self.assertGreater(max(taken) - min(taken), 1.0)

    def test_many_tries(self):
        pauses = retry.Pauses(30.0, chance=lambda low, _high: low)
        self.assertEqual([pauses.take() for _ in range(5000)][-1], 15.0)

    def test_errors_that_pass(self):
        for text in ("LOADING Redis is loading", "READONLY You can't write", "CLUSTERDOWN", "OOM command not allowed",
                     "ERR max number of clients reached"):
            self.assertTrue(retry.may_pass(text), text)
        for text in ("WRONGPASS invalid", "ERR unknown command", "MOVED 1 h:1", "", "NOAUTH Authentication required."):
            self.assertFalse(retry.may_pass(text), text)


if __name__ == "__main__":
    unittest.main()
