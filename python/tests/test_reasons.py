"""jagyerti run says why a job failed last, once it is given up."""
import unittest

from jagyerti import connect, process
from jagyerti.desk import MOST_REASONS, Desk, Spread
from jagyerti.metrics import BUCKETS

from .test_retry_after import Live


def has_program():
    """Whether stream_run is built: a program in Python that plays it starts too slowly for a job that ends its handler."""
    try:
        return bool(process.find_program("stream_run"))
    except connect.Failed:
        return False


@unittest.skipUnless(has_program(), "no stream_run is built")
class Reasons(Live):
    def test_why_a_job_failed_is_said_when_it_is_given_up(self):
        self.add(("later no item", 99), ("hang", 99), ("exit", 99), ("dead no order", 99), ("later", 99), ("done", 0))
        running = self.begin("c", "--dead", "2", "lost", "--idle", "300", "--every", "1", "--block", "100", "--job-timeout", "1",
                             "--pause", "0.02", "--retry-after", "0.2")
        self.until(lambda: self.server.ask("XLEN", "lost") == 5 and self.pending() == 0, 120)
        said = self.stop(running)
        for job, why in (("1-0", "later: no item"), ("2-0", "the job took more than 1 seconds"), ("3-0", "the handler ended with 3"),
                         ("5-0", "it replied later")):
            self.assertRegex(said, rf"\njagyerti run: {job} was given up after [2-9] deliveries: {why}\n")
        self.assertRegex(said, r"\n4-0 dead: no order\n")
        self.assertRegex(said, r"\njagyerti run: 4-0 was given up after (1 delivery|[2-9] deliveries)(: dead: no order)?\n")
        self.assertEqual(said.count("was given up"), 5)

    def test_why_a_job_failed_without_a_relay(self):
        self.add(("later no item", 99), ("exit", 99), ("dead no order", 99), ("done", 0))
        running = self.begin("c", "--direct", "--dead", "2", "lost", "--idle", "300", "--every", "1", "--block", "100", "--pause", "0.02")
        self.until(lambda: self.server.ask("XLEN", "lost") == 3 and self.pending() == 0, 120)
        said = self.stop(running)
        for job, why in (("1-0", "later: no item"), ("2-0", "the handler ended with 3")):
            self.assertRegex(said, rf"\njagyerti run: {job} was given up after [2-9] deliveries: {why}\n")
        self.assertRegex(said, r"\njagyerti run: 3-0 was given up after (1 delivery|[2-9] deliveries)(: dead: no order)?\n")


class Jobs(unittest.TestCase):
    """The desk of a pair."""

    def test_replies_are_counted(self):
        desk = Desk()
        for reply, kind in ((b"done\n", "done"), (b"later\n", "later"), (b"later \n", "later"), (b"later not\xff yet\n", "later"),
                            (b"dead it\n", "dead"), (b"stop\n", "stop"), (b"done\ndone\n", "done"), (b'{"done":true}\n', "done"),
                            (b'{"add":[["s",{"a":"b"}]],"done":true}\n', "done")):
            desk.begin(b'{"id":"1-0","fields":[],"stream":"k"}\n')
            self.assertEqual((desk.in_hand, desk.end(reply), desk.in_hand), ("1-0", kind, None))
        self.assertEqual((desk.counts, desk.replies), ({"done": 4, "later": 3, "dead": 1, "stop": 1}, 9))
        for reply in (b"", b"{", b'{"done":true}', b' {"done":true}\n', b"done", b"Done\n", b"dead\n", b"dead", b"later", b"laterx\n", b"stop it\n", b"x\ndone\n"):
            desk.begin(b'{"id":"2-0",')
            self.assertEqual((desk.end(reply), desk.in_hand), (None, "2-0"), reply)

    def test_a_line_of_json_that_was_refused_is_taken_back(self):
        desk = Desk()
        for reply, job in ((b"done\n", None), (b'{"done":1}\n', None)):
            desk.begin(b'{"id":"7-0","fields":[]}\n')
            desk.end(reply)
            self.assertEqual(desk.in_hand, job)
        desk.take_back("7-0")
        self.assertEqual((desk.in_hand, desk.counts["done"]), ("7-0", 1))

    def test_the_last_reason_is_kept_until_the_job_is_done(self):
        desk = Desk()
        for reply, why in ((b"later a\n", "later: a"), (b"dead b\x1b\n", "dead: b?"), (b"stop\n", "dead: b?"), (b"done\n", None)):
            desk.begin(b'{"id":"1-0"')
            desk.end(reply)
            self.assertEqual(desk.reasons.get("1-0"), why)
        for at in range(MOST_REASONS + 3):
            desk.note(f"{at}-0", "why")
        self.assertEqual((len(desk.reasons), "2-0" in desk.reasons, "3-0" in desk.reasons), (MOST_REASONS, False, True))

    def test_seconds_are_in_their_bucket(self):
        spread = Spread()
        for seconds in (0.001, 0.002, 30, 3601):
            spread.add(seconds)
        total, *counts = spread.figure()
        self.assertAlmostEqual(total, 3631.003)
        self.assertEqual(counts, [1] + [2] * 8 + [3] * 5 + [4])
        self.assertEqual(BUCKETS[9], 30)


if __name__ == "__main__":
    unittest.main()
