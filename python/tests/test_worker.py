"""A worker in the process that calls it, over redis-server: how it ends."""
import os
import signal
import threading
import time
import unittest

from jagyerti import Later, Stop, Worker

from .playing import program
from .test_retry_after import Live


class Ends(Live):
    def worker(self, *words):
        """Returns a worker for the jobs of the stream."""
        return Worker(self.server.url, "k", "g", "c", words=["--from", "0", "--block", "100", *words], program=program(self.folder))

    def test_until_empty(self):
        self.add(("done", 0), ("done", 0))
        seen = []

        def handle(job):
            seen.append(job.id)
            if job.id == "1-0":
                raise Later("not yet")

        self.worker("--until-empty").run(handle)
        self.assertEqual((seen, self.pending()), (["1-0", "2-0"], 1))

    def test_stop_leaves_the_job_pending(self):
        self.add(("done", 0), ("done", 0))

        def handle(job):
            if job.id == "2-0":
                raise Stop

        self.worker().run(handle)
        self.assertEqual([row[0] for row in self.server.ask("XPENDING", "k", "g", "-", "+", 9)], [b"2-0"])

    def test_a_signal_is_passed_on(self):
        self.add(("done", 0))
        worker, seen = self.worker(), []
        before = signal.signal(signal.SIGTERM, lambda *_: worker.stop())
        self.addCleanup(signal.signal, signal.SIGTERM, before)

        def handle(job):
            seen.append(job.id)
            threading.Timer(0.3, os.kill, (os.getpid(), signal.SIGTERM)).start()

        begun = time.monotonic()
        worker.run(handle)
        self.assertEqual((seen, self.pending()), (["1-0"], 0))
        self.assertLess(time.monotonic() - begun, 60)


if __name__ == "__main__":
    unittest.main()
