"""jagyerti run over redis-server: jobs that failed come again after a pause, and none is lost."""
import contextlib
import os
import shutil
import signal
import subprocess
import sys
import tempfile
import time
import unittest
from unittest import mock

from jagyerti import connect, keeper, resp, server
from jagyerti.desk import Desk
from jagyerti.process import PACKAGES
from jagyerti.url import Address

from .playing import program
from .test_command import LAUNCH

# Notes each line with its time, and then fails as the field "how" says, as often as the field "times" says.
HANDLER = f"""import os, sys, time
sys.path.insert(0, {PACKAGES!r})
from jagyerti.jobs import read_job
for line in sys.stdin.buffer:
    job = read_job(line)
    with open(sys.argv[1], "a+") as noted:
        noted.write(f"{{job.id}} {{time.monotonic()}}\\n")
        noted.flush()
        noted.seek(0)
        seen = sum(line.startswith(job.id + " ") for line in noted)
    how = job.text("how") if seen <= int(job.fields.get("times", "1000")) else "done"
    if how == "exit":
        sys.exit(3)
    if how == "hang":
        time.sleep(60)
    sys.stdout.write(how + "\\n")
    sys.stdout.flush()
"""


@unittest.skipUnless(shutil.which("redis-server"), "redis-server is not installed")
class Live(unittest.TestCase):
    """A server, and 'jagyerti run' with a handler that fails as its jobs say."""

    def setUp(self):
        stack = contextlib.ExitStack()
        self.addCleanup(stack.close)
        self.folder = stack.enter_context(tempfile.TemporaryDirectory())
        self.server = stack.enter_context(server.start_redis())
        self.noted = os.path.join(self.folder, "noted")
        self.handler = os.path.join(self.folder, "handler.py")
        with open(self.handler, "w", encoding="ascii") as file:
            file.write(HANDLER)

    def add(self, *jobs):
        """Adds jobs: of each how it fails, and how often."""
        for at, (how, times) in enumerate(jobs, 1):
            self.server.ask("XADD", "k", f"{at}-0", "how", how, "times", times)

    def begin(self, consumer, *words, url=None):
        """Starts 'jagyerti run'."""
        words = [sys.executable, "-I", "-c", LAUNCH, "run", url or self.server.url, "k", "g", consumer, "--program",
                 program(self.folder), "--from", "0", *words, "--", sys.executable, self.handler, self.noted]
        running = subprocess.Popen(words, stdin=subprocess.DEVNULL, stderr=subprocess.PIPE)
        self.addCleanup(running.stderr.close)
        self.addCleanup(running.wait)
        self.addCleanup(running.kill)
        return running

    def until(self, is_so, seconds=60):
        """Waits until this is so."""
        end = time.monotonic() + seconds
        while time.monotonic() < end:
            with contextlib.suppress(resp.ReplyError):
                if is_so():
                    return
            time.sleep(0.05)
        self.fail("it takes too long")

    def pending(self):
        """Returns how many jobs are pending, None if the group is not there."""
        groups = self.server.ask("XINFO", "GROUPS", "k")
        return dict(zip(groups[0][::2], groups[0][1::2]))[b"pending"] if groups else None

    def times(self, job):
        """Returns when a job was handled."""
        if not os.path.exists(self.noted):
            return []
        with open(self.noted, encoding="ascii") as file:
            return [float(line.split()[1]) for line in file if line.startswith(f"{job} ")]

    def stop(self, running, status=0):
        """Ends it by SIGTERM, and returns what it said."""
        running.send_signal(signal.SIGTERM)
        said = running.communicate(timeout=60)[1].decode()
        self.assertEqual(running.returncode, status, said)
        return said


class RetryAfter(Live):
    def gaps(self, job):
        """Returns the seconds between the deliveries of a job."""
        times = self.times(job)
        return [later - sooner for sooner, later in zip(times, times[1:])]

    def test_a_job_comes_again_after_a_pause_that_grows(self):
        self.add(("later", 2), ("done", 0), ("done", 0))
        running = self.begin("c", "--retry-after", "0.5")
        self.until(lambda: len(self.times("1-0")) == 3 and self.pending() == 0)
        first, second = self.gaps("1-0")
        self.assertGreaterEqual(first, 0.5)
        self.assertGreaterEqual(second, 1.0)
        self.assertLess(self.times("3-0")[0], self.times("1-0")[1])
        self.stop(running)

    def test_a_job_that_ends_its_handler_comes_after_the_others(self):
        self.add(("exit", 1), ("hang", 1), ("done", 0))
        running = self.begin("c", "--retry-after", "8", "--job-timeout", "2.5", "--pause", "0.02")
        self.until(lambda: len(self.times("1-0")) == 2 and len(self.times("2-0")) == 2 and self.pending() == 0)
        self.assertLess(self.times("3-0")[0], self.times("1-0")[1])
        self.assertGreaterEqual(self.gaps("1-0")[0], 8)
        self.assertGreaterEqual(self.gaps("2-0")[0], 8)
        said = self.stop(running)
        self.assertIn("the handler ended with 3", said)
        self.assertIn("the job took more than 2.5 seconds", said)

    def test_a_pause_that_is_longer_than_idle(self):
        self.add(("later", 1))
        running = self.begin("c", "--retry-after", "5", "--idle", "2000")
        self.until(lambda: self.times("1-0"))
        other = self.begin("other", "--idle", "2000", "--every", "1", "--block", "100")
        self.until(lambda: b"other" in [consumer[1] for consumer in self.server.ask("XINFO", "CONSUMERS", "k", "g")])
        self.until(lambda: len(self.times("1-0")) == 2 and self.pending() == 0)
        self.assertGreaterEqual(self.gaps("1-0")[0], 5)
        self.stop(running)
        self.stop(other)

    def test_after_a_crash_others_have_the_job(self):
        self.add(("later", 1))
        running = self.begin("c", "--retry-after", "1000", "--idle", "1000")
        self.until(lambda: self.server.ask("XPENDING", "k", "g", "-", "+", 9, "c.later"))
        running.kill()
        running.wait()
        other = self.begin("other", "--idle", "1000", "--every", "1", "--block", "100")
        self.until(lambda: len(self.times("1-0")) == 2 and self.pending() == 0)
        self.stop(other)

    def test_what_was_held_before_is_held_again(self):
        self.add(("later", 1), ("later", 1))
        self.server.ask("XGROUP", "CREATE", "k", "g", "0")
        self.server.ask("XREADGROUP", "GROUP", "g", "c.later", "STREAMS", "k", ">")
        link = keeper.Link(lambda: Address.parse(self.server.url), connect.Options(), self.fail)
        self.addCleanup(link.close)
        held = keeper.Keeper(link, ["k", "g", "c"], 3, 1000, 3600)
        with mock.patch("jagyerti.keeper.random.random", return_value=0.5):  # else one may be due at once
            held.adopt()
        self.assertEqual(sorted(held.due), ["1-0", "2-0"])
        before = dict(held.due)
        held.adopt()
        self.assertEqual(held.due, before)
        time.sleep(1.5)
        held.due["1-0"] = time.monotonic()
        held.tick()
        idles = {row[0]: row[2] for row in self.server.ask("XPENDING", "k", "g", "-", "+", 9)}
        self.assertGreaterEqual(idles[b"1-0"], 3000)
        self.assertLess(idles[b"2-0"], 1500)
        self.assertEqual(sorted(held.due), ["2-0"])
        self.server.ask("XACK", "k", "g", "2-0")
        self.server.ask("XCLAIM", "k", "g", "another", 0, "1-0")
        held.hold("1-0")
        self.assertEqual(self.server.ask("XPENDING", "k", "g", "-", "+", 9)[0][1], b"another")
        held.turn = 0.0
        held.tick()
        self.assertEqual(held.due, {})

    def test_wrong_words(self):
        for words in (["--retry-most", "5"], ["--retry-after", "5", "--retry-most", "4"]):
            running = self.begin("c", *words)
            self.assertIn("--retry-most is for --retry-after", running.communicate(timeout=60)[1].decode())
            self.assertEqual(running.returncode, 2)


class Pauses(unittest.TestCase):
    def test_a_pause_is_doubled_up_to_the_longest(self):
        one = keeper.Keeper(None, ["k", "g", "c"], 60, 2, 10)
        self.assertEqual([one.pause(deliveries) for deliveries in (0, 1, 2, 3, 4, 100_000)], [2, 2, 4, 8, 10, 10])

    def test_a_server_that_is_gone_is_said_once(self):
        said = []
        link = keeper.Link(lambda: Address("redis", "127.0.0.1", server.free_port()), connect.Options(), said.append)
        one = keeper.Keeper(link, ["k", "g", "c"], 60, 2, 10)
        one.hold("1-0")
        one.hold("2-0")
        self.assertEqual(len(said), 1)
        self.assertIn("a job was not held back: no connection with 127.0.0.1", said[0])
        keeper.Beat(link, one, keeper.Letters(link, "dead", Desk(), said.append)).finish()


if __name__ == "__main__":
    unittest.main()
