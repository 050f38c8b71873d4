"""Lines of jobs, and the replies of handlers."""
import io
import os
import subprocess
import sys
import unittest

from jagyerti import jobs
from jagyerti.jobs import Dead, Job, Later, Stop

PACKAGES = os.path.dirname(os.path.dirname(os.path.abspath(__file__)))
LINE = b'{"id":"1-0","fields":[["order","7"],["photo",{"base64":"/9j/"}],["order","8"]],"stream":"orders"}\n'


def raise_it(error):
    """Returns a handler that raises this."""
    def handle(_job):
        raise error
    return handle


class ReadJob(unittest.TestCase):
    def test_a_line_is_an_entry(self):
        job = jobs.read_job(LINE)
        self.assertEqual(job, Job("1-0", [("order", "7"), ("photo", b"\xff\xd8\xff"), ("order", "8")], "orders", None))
        self.assertEqual(job.fields["order"], "8")
        self.assertEqual(job.text("order"), "8")
        with self.assertRaises(UnicodeDecodeError):
            job.text("photo")
        with self.assertRaises(KeyError):
            job.text("item")

    def test_a_job_is_a_tuple(self):
        job = Job("1-0", [("a", "b")], deliveries=3)
        self.assertEqual((tuple(job), job._replace(id="2-0").id), (("1-0", [("a", "b")], None, 3), "2-0"))
        job.add("s", {"a": "b"})
        self.assertEqual((job, job.added != b""), (Job("1-0", [("a", "b")], None, 3), True))

    def test_deliveries_are_read_if_they_are_known(self):
        self.assertEqual(jobs.read_job(b'{"id":"1-0","fields":[],"stream":"s","deliveries":3}').deliveries, 3)

    def test_other_lines_are_refused(self):
        for line in (b"", b"done\n", b"[]", b'{"id":1,"fields":[]}', b'{"id":"1-0"}', LINE.strip() + b" {}\n", b"\xff\n"):
            with self.assertRaises(ValueError, msg=line):
                jobs.read_job(line)


class Replies(unittest.TestCase):
    def reply(self, handle):
        """Returns the reply for an entry, with nothing printed."""
        shown, sys.stderr = sys.stderr, io.StringIO()
        try:
            return jobs.reply_to(handle, jobs.read_job(LINE))
        finally:
            sys.stderr = shown

    def test_an_outcome_is_a_line(self):
        self.assertEqual(self.reply(lambda job: None), b"done\n")
        self.assertEqual(self.reply(lambda job: False), b"done\n")
        self.assertEqual(self.reply(raise_it(Stop())), b"stop\n")
        self.assertEqual(self.reply(raise_it(Later())), b"later\n")
        self.assertEqual(self.reply(raise_it(Later("no item"))), b"later no item\n")
        self.assertEqual(self.reply(raise_it(Dead("no\norder"))), b"dead no order\n")
        self.assertEqual(self.reply(raise_it(KeyError("item"))), b"later KeyError: 'item'\n")

    def test_a_text_is_one_short_line(self):
        reply = self.reply(raise_it(Later("ä" * 100_000)))
        self.assertLess(len(reply), 2000)
        self.assertEqual(reply.decode().strip("ä\n"), "later ")

    def test_dead_has_a_text(self):
        self.assertEqual(self.reply(raise_it(Dead())), b"dead no reason is said\n")

    def test_what_a_job_adds_is_in_the_reply(self):
        def handle(job):
            job.add("results", {"id": "7", "n": 8, b"half": 0.5, "": b"\xc3\xa4"})
            job.add("log", {"text": 'a "b"\n\x00'})

        line = ('{"done":true,"add":[["results",{"id":"7","n":"8","half":"0.5","":"\u00e4"}],'
                '["log",{"text":"a \\"b\\"\\n\\u0000"}]]}\n')
        self.assertEqual(self.reply(handle), line.encode())
        self.assertEqual(self.reply(lambda job: None), b"done\n")

    def test_nothing_is_added_if_the_handler_raises(self):
        for error, line in ((Stop(), b"stop\n"), (Later("x"), b"later x\n"), (Dead("x"), b"dead x\n"),
                            (KeyError("x"), b"later KeyError: 'x'\n")):
            def handle(job, error=error):
                job.add("results", {"id": "7"})
                raise error
            self.assertEqual(self.reply(handle), line)

    def test_what_cannot_be_added(self):
        job = Job("1-0", [])
        job.add("s", {"a": "b"})
        for stream, fields in (("", {"a": "b"}), ("s", {}), (b"\xff", {"a": "b"}), ("s", {b"\xff": "b"}), ("s", {"a": b"\xff"}),
                               ("s", {"a": "\ud800"}), ("s", {"a": None}), ("s", {"a": True}), ("s", {"a": ["b"]}), ("s", {2.5: None})):
            with self.assertRaises(ValueError, msg=(stream, fields)):
                job.add(stream, fields)
        self.assertEqual(jobs.reply_to(lambda _: None, job), b'{"done":true,"add":[["s",{"a":"b"}]]}\n')

    def test_a_reply_has_64_kib_at_most(self):
        job = Job("1-0", [])
        room = 65536 - len(b'{"done":true,"add":[["s",{"a":""}]]}')
        job.add("s", {"a": "x" * room})
        self.assertEqual(len(jobs.reply_to(lambda _: None, job)), 65537)
        for more in (Job("1-0", []), job):
            with self.assertRaises(ValueError):
                more.add("s", {"a": "x" * (room + 1)})

    def test_an_exit_is_no_reply(self):
        with self.assertRaises(SystemExit):
            self.reply(raise_it(SystemExit(3)))


class Serve(unittest.TestCase):
    def test_each_line_has_a_reply(self):
        replies = io.BytesIO()
        seen = []
        jobs.serve(lambda job: seen.append(job.id), io.BytesIO(LINE + LINE.replace(b"1-0", b"2-0")), replies)
        self.assertEqual((seen, replies.getvalue()), (["1-0", "2-0"], b"done\ndone\n"))

    def test_what_a_handler_prints_is_no_reply(self):
        program = "from jagyerti import handler\n@handler\ndef pack(job):\n    print('packs', job.id)\npack.serve()\n"
        run = subprocess.run([sys.executable, "-c", program], input=LINE, capture_output=True, timeout=60, check=False,
                             env={**os.environ, "PYTHONPATH": PACKAGES})
        self.assertEqual((run.returncode, run.stdout, run.stderr), (0, b"done\n", b"packs 1-0\n"))

    def test_after_the_signal_to_finish_the_next_line_is_refused(self):
        program = ("import os, signal\nfrom jagyerti import handler\n@handler\ndef pack(job):\n"
                   "    os.kill(os.getpid(), signal.SIGWINCH)\npack.serve()\n")
        run = subprocess.run([sys.executable, "-c", program], input=LINE + LINE, capture_output=True, timeout=60, check=False,
                             env={**os.environ, "PYTHONPATH": PACKAGES})
        self.assertEqual((run.returncode, run.stdout), (0, b"done\nstop\n"))


if __name__ == "__main__":
    unittest.main()
