"""A batch past a limit of the reader: the next run takes half of --count, and later ones more again."""
import os
import sys
import unittest

from jagyerti import Worker, cluster, connect, counts, fleet, job_fleet, tries, url
from jagyerti.child import Handling

from .test_command import Running

# A program that notes its words, and ends as the next word of the list says: for each run the first that is left.
PROGRAM = """#!{python} -I
import os, sys
words = sys.argv[1:]
with open({noted!r} + "." + words[2], "a+") as file:
    file.write("\\t".join(words) + "\\n")
    file.seek(0)
    at = len(file.readlines()) - 1
ends = {ends!r}
end = ends[min(at, len(ends) - 1)]
said, status = {{
    "large": ("0 entries in 0 batches\\nError: a reply is larger than 1 GiB: take a smaller --count", 1),
    "many": ("2 entries in 1 batch\\nError: a reply has more than 16,777,216 values: take a smaller --count", 1),
    "memory": ("done 0, batches 0, left pending 0\\nError: out of memory for a reply: take a smaller --count", 1),
    "idle": ("0 entries in 0 batches\\nError: the server closed the connection", 1),
    "works": ("3 entries in 1 batch\\nError: the server closed the connection", 1),
    "well": ("3 entries in 1 batch", 0),
}}[end]
os.write(1, b"x")
print(said, file=sys.stderr)
sys.exit(status)
"""
LARGE = "Error: a reply is larger than 1 GiB: take a smaller --count\n"
SINCE = ", since a batch was past a limit"
HANDLER = ["cat"]


class Words(unittest.TestCase):
    def test_count_is_found_and_replaced(self):
        rows = (
            (["k", "g", "c", "f"], None, ["k", "g", "c", "f", "--count", "7"]),
            (["k", "g", "c", "f", "--count", "50"], 50, ["k", "g", "c", "f", "--count", "7"]),
            (["--count=50", "k", "g", "c", "f"], 50, ["--count=7", "k", "g", "c", "f"]),
            (["--count", "+50", "k", "--json"], 50, ["--count", "7", "k", "--json"]),
            (["k", "--count=50", "--count", "60", "f"], 60, ["k", "--count=50", "--count", "7", "f"]),
            (["k", "--json", "--", "--count", "50"], None, ["k", "--json", "--count", "7", "--", "--count", "50"]),
            (["k", "--count", "5", "--dead", "3", "--count"], 5, ["k", "--count", "7", "--dead", "3", "--count"]),
            (["k", "--dead", "3", "--count", "--", "5"], None, ["k", "--dead", "3", "--count", "--count", "7", "--", "5"]),
            (["k", "--count", "many"], None, ["k", "--count", "many", "--count", "7"]),
            (["k", "--counts", "5"], None, ["k", "--counts", "5", "--count", "7"]),
        )
        for words, number, replaced in rows:
            with self.subTest(words):
                found = counts.find_count(words)
                self.assertEqual(found and found[1], number)
                self.assertEqual(counts.with_count(words, 7), replaced)

    def test_halves_to_one(self):
        one, seen = counts.Counts(["k"], 1000), []
        while one.take_end(LARGE.rstrip(), False):
            seen.append(one.now)
        self.assertEqual((seen, one.now), ([500, 250, 125, 62, 31, 15, 7, 3, 1], 1))

    def test_grows_up_to_what_was_asked_for(self):
        one, seen = counts.Counts(["k", "--count", "10"], 1000), []
        for _ in range(3):
            one.take_end(LARGE.rstrip(), True)
        for is_good in (False, True, True, False, True, True, True, True):
            self.assertFalse(one.take_end("", is_good))
            seen.append(one.now)
        self.assertEqual(seen, [1, 2, 4, 4, 8, 10, 10, 10])
        self.assertEqual(one.in_words(["k", "--count=10"]), ["k", "--count=10"])

    def test_other_errors_and_programs(self):
        one, foreign = counts.Counts(["k"], 1000), counts.Counts(["k", "--count", "50"], None)
        for error in ("", "Error: the server replied ERR take a smaller --count", f"Error: it said: {LARGE[7:-1]}"):
            self.assertFalse(one.take_end(error, True))
        self.assertFalse(foreign.take_end(LARGE.rstrip(), True))
        self.assertEqual((one.now, foreign.in_words(["k", "--count", "50"])), (1000, ["k", "--count", "50"]))


class Runs(Running):
    def setUp(self):
        super().setUp()
        self.listener.listen(64)
        self.server = url.Address("redis", "127.0.0.1", self.listener.getsockname()[1])

    def program(self, *ends):
        """Returns a program whose runs end so, one after the other; the last of these again and again."""
        path = os.path.join(self.folder, "program")
        with open(path, "w", encoding="ascii") as file:
            file.write(PROGRAM.format(python=sys.executable, noted=os.path.join(self.folder, "noted"), ends=ends))
        os.chmod(path, 0o755)
        return path

    def taken(self, consumer="c"):
        """Returns the counts of the runs of a consumer, None for one without --count."""
        with open(os.path.join(self.folder, f"noted.{consumer}"), encoding="ascii") as file:
            found = [counts.find_count(line.rstrip("\n").split("\t")) for line in file]
        return [one and one[1] for one in found]

    def said(self, status, *words):
        """Runs the command, which has to end with this status. Returns what it said."""
        running = self.start(*words)
        said = running.communicate(timeout=60)[1].decode()
        self.assertEqual(running.returncode, status, said)
        return said

    def drained(self, status, *words, ends):
        """Runs a drain whose runs end so. Returns what it said."""
        return self.said(status, "drain", "--program", self.program(*ends), self.url, "k", "g", "c", "f", *words)

    def test_takes_half_at_once(self):
        said = self.drained(0, ends=["large", "many", "memory", "well"])
        self.assertEqual(self.taken(), [None, 500, 250, 125])
        self.assertIn(f"{LARGE}jagyerti drain: takes --count 500{SINCE}\n2 entries in 1 batch\n", said)
        self.assertEqual((said.count(SINCE), "tries again" in said), (3, False))
        self.assertTrue(said.endswith(f"jagyerti drain: takes --count 125{SINCE}\n3 entries in 1 batch\n"), said)

    def test_at_one_the_error_is_told(self):
        said = self.drained(1, "--count=5", ends=["large"])
        self.assertEqual(self.taken(), [5, 2, 1])
        self.assertTrue(said.endswith(f"takes --count 1{SINCE}\n0 entries in 0 batches\n{LARGE}"), said)

    def test_at_one_it_is_tried_again_as_often_as_wanted(self):
        said = self.drained(1, "--count", "2", "--retry", "2", "--pause", "0.01", ends=["large"])
        self.assertEqual(self.taken(), [2, 1, 1, 1])
        self.assertEqual((said.count(SINCE), said.count("tries again")), (1, 2))

    def test_grows_after_runs_that_committed(self):
        ends = ["large", "large", "works", "idle", "works", "works", "many", "well"]
        said = self.drained(0, "--count", "8", "--retry", "forever", "--pause", "0.01", ends=ends)
        self.assertEqual(self.taken(), [8, 4, 2, 4, 4, 8, 8, 4])
        self.assertEqual(said.count(SINCE), 3)

    def test_sqlite(self):
        self.said(0, "sqlite", "--program", self.program("memory", "well"), self.url, "k", "g", "c", "f")
        self.assertEqual(self.taken(), [None, 500])

    def test_another_program_keeps_its_words(self):
        words = [self.program("large"), "k", "g", "c", "--count", "50"]
        self.assertNotIn(SINCE, self.said(1, "connect", self.url, "--", *words))
        self.assertEqual(self.taken(), [50])

    def test_run(self):
        said = self.said(1, "run", "--program", self.program("memory"), self.url, "k", "g", "c", "--retry", "0", "--", *HANDLER)
        self.assertEqual(self.taken(), [None, 5, 2, 1])
        self.assertIn(f"jagyerti run: takes --count 5{SINCE}\n", said)

    def test_processes(self):
        program = self.program("memory", "memory", "well")
        self.said(0, "run", "--program", program, self.url, "k", "g", "c", "--processes", "2", "--count", "8", "--", *HANDLER)
        self.assertEqual((self.taken("c.1"), self.taken("c.2")), ([8, 4, 2], [8, 4, 2]))

    def test_worker(self):
        Worker(self.url, "k", "g", "c", program=self.program("memory", "well")).run(print)
        self.assertEqual(self.taken(), [None, 5])

    def plan(self, program, said, count):
        """Returns what a partition runs."""
        return tries.Plan(program, ["k:{0}", "g", "c", "f"], [self.server], connect.Options(), said.append, count=count)

    def test_partition(self):
        said, states = [], []
        plan = self.plan(self.program("many", "large", "many", "well"), said, 1000)
        nodes = cluster.Nodes(fleet.open_node(plan), [(self.server.host, self.server.port)])
        one = fleet.Partition(plan, 0, nodes, lambda state: states.append(dict(state)), False)
        one.target = self.server.host, self.server.port
        self.assertEqual((one.try_all(), self.taken()), (0, [None, 500, 250, 125]))
        self.assertEqual(said, [f"k:{{0}}: takes --count {count}{SINCE}" for count in (500, 250, 125)])
        self.assertEqual((states[-1]["entries"], states[-1]["starts"], states[-1]["waits"]), (7, 4, 0))

    def test_partition_at_one(self):
        said = []
        plan = self.plan(self.program("large"), said, 2)
        nodes = cluster.Nodes(fleet.open_node(plan), [(self.server.host, self.server.port)])
        one = fleet.Partition(plan, 0, nodes, lambda _: None, False)
        one.target = self.server.host, self.server.port
        self.assertEqual((one.try_all(), self.taken()), (1, [None, 1]))
        self.assertEqual(said, [f"k:{{0}}: takes --count 1{SINCE}", f"k:{{0}}: {LARGE[7:-1]}"])

    def test_partition_of_jobs(self):
        said = []
        plan = self.plan(self.program("memory", "memory", "well"), said, 10)
        nodes = cluster.Nodes(fleet.open_node(plan), [(self.server.host, self.server.port)])
        one = job_fleet.JobPartition(plan, Handling(HANDLER), 0, nodes, lambda _: None)
        one.target = self.server.host, self.server.port
        self.assertEqual((one.try_all(), self.taken()), (0, [None, 5, 2]))
        self.assertEqual(said, [f"k:{{0}}: takes --count {count}{SINCE}" for count in (5, 2)])


if __name__ == "__main__":
    unittest.main()
