"""jagyerti run over redis-server: entries that jobs add, jobs that are given up at once, and how often each was delivered."""
import unittest

from jagyerti import Dead, Later, Worker, connect, dead_letters, keeper
from jagyerti.desk import Desk
from jagyerti.process import PACKAGES
from jagyerti.url import Address

from .playing import program
from .scripted import scripted
from .test_retry_after import Live

# A handler that calls a function on each job, which is given as a text.
FUNCTION = f"import sys\nsys.path.insert(0, {PACKAGES!r})\nfrom jagyerti import Dead, Later, handler\n@handler\ndef handle(job):\n"
SERVE = "\nhandle.serve()\n"
RESULTS = '{"done":true,"add":[["results",{"id":"7","state":"packed"}],["log",{"text":"\\u00e4"}],["results",{"id":"8"}]]}'
UNTIL_EMPTY = "--until-empty", "--block", "100"


class OfJobs(Live):
    def handle_by(self, *lines):
        """Takes a function of these lines for the handler."""
        with open(self.handler, "w", encoding="utf-8") as file:
            file.write(FUNCTION + "".join(f"    {line}\n" for line in lines) + SERVE)

    def said(self, *words, status=0):
        """Runs it until no job is new. Returns what it said."""
        running = self.begin("c", *UNTIL_EMPTY, *words)
        said = running.communicate(timeout=120)[1].decode()
        self.assertEqual(running.returncode, status, said)
        return said

    def fields(self, stream):
        """Returns the fields of each entry of a stream."""
        return [fields for _, fields in self.server.ask("XRANGE", stream, "-", "+")]


class Added(OfJobs):
    def test_entries_are_added_in_order(self):
        self.add((RESULTS, 1), ("done", 0), ('{"add":[["log",{"text":"b","text2":""}]],"done":true}', 1), ('{"done":true}', 1))
        self.assertIn("done 4, ", self.said())
        self.assertEqual(self.fields("results"), [[b"id", b"7", b"state", b"packed"], [b"id", b"8"]])
        self.assertEqual(self.fields("log"), [[b"text", "\u00e4".encode()], [b"text", b"b", b"text2", b""]])
        self.assertEqual(self.pending(), 0)

    def test_by_a_handler_in_python(self):
        self.handle_by('job.add("results", {"id": job.id, "n": 7})', 'if job.text("how") == "later":', '    raise Later("not yet")')
        self.add(("done", 0), ("later", 9), ("done", 0))
        self.said()
        self.assertEqual((self.fields("results"), self.pending()), ([[b"id", b"1-0", b"n", b"7"], [b"id", b"3-0", b"n", b"7"]], 1))

    def test_by_a_worker(self):
        self.add(("done", 0), ("later", 9))

        def handle(job):
            job.add("results", {"id": job.id})
            if job.text("how") == "later":
                raise Later

        words = ["--from", "0", *UNTIL_EMPTY]
        Worker(self.server.url, "k", "g", "c", words=words, program=program(self.folder)).run(handle)
        self.assertEqual((self.fields("results"), self.pending()), ([[b"id", b"1-0"]], 1))

    def test_without_a_relay(self):
        self.add((RESULTS, 1))
        self.said("--direct")
        self.assertEqual((len(self.fields("results")), self.pending()), (2, 0))

    def test_nothing_is_acknowledged_if_an_entry_is_refused(self):
        self.server.ask("SET", "log", "x")
        self.add(("done", 0), (RESULTS, 9), ("done", 0))
        said = self.said("--retry", "0", status=1)
        self.assertRegex(said, r"Error: .*WRONGTYPE")
        # (all are sent in one write: the one after it may be added too)
        self.assertEqual((len(self.fields("results")) in (1, 2), self.pending()), (True, 3))
        self.server.ask("DEL", "log")
        self.said()
        self.assertEqual((len(self.fields("results")) in (3, 4), len(self.fields("log")), self.pending()), (True, 1, 0))

    def test_a_line_of_json_of_another_form(self):
        self.add(("done", 0), ('{"done":true,"add":[["results",{}]]}', 99), ("done", 0))
        said = self.said("--pause", "0.02", status=4)
        self.assertIn("it ended 5 times in a row before any reply", said)
        self.assertIn("the child's reply to the entry 2-0 is not ", said)
        self.assertEqual((self.server.ask("EXISTS", "results"), [row[0] for row in self.server.ask("XPENDING", "k", "g", "-", "+", 9)]),
                         (0, [b"2-0", b"3-0"]))


class GivenUp(OfJobs):
    def letters(self):
        """Returns the dead letters."""
        return list(dead_letters.read_letters(self.connection(), "lost"))

    def connection(self):
        connection = self.server.open()
        self.addCleanup(connection.close)
        return connection

    def test_at_once(self):
        self.add(("done", 0), ("dead no\torder", 99), ("later", 99))
        said = self.said("--dead", "5", "lost")
        self.assertEqual([(letter.entry, letter.times, letter.why, letter.fields) for letter in self.letters()],
                         [("2-0", "1 delivery", b"no\torder", [(b"how", b"dead no\torder"), (b"times", b"99")])])
        self.assertEqual([row[0] for row in self.server.ask("XPENDING", "k", "g", "-", "+", 9)], [b"3-0"])
        self.assertIn("2-0 dead: no?order\n", said.replace("\t", "?"))
        self.assertIn("jagyerti run: 2-0 was given up after 1 delivery\n", said)

    def test_without_dead_it_stays_pending(self):
        self.add(("dead no order", 99), ("done", 0))
        said = self.said()
        self.assertIn("1-0 dead: no order\n", said)
        self.assertNotIn("given up", said)
        self.assertEqual((self.pending(), self.server.ask("EXISTS", "lost")), (1, 0))

    def test_by_a_handler_in_python(self):
        self.handle_by('raise Dead("no\\norder")')
        self.add(("done", 0), ("done", 0))
        self.said("--dead", "5", "lost")
        self.assertEqual(([letter.why for letter in self.letters()], self.pending()), ([b"no order"] * 2, 0))

    def test_by_a_worker(self):
        self.add(("done", 0))

        def handle(_):
            raise Dead("no order")

        words = ["--from", "0", "--dead", "5", "lost", *UNTIL_EMPTY]
        Worker(self.server.url, "k", "g", "c", words=words, program=program(self.folder)).run(handle)
        self.assertEqual(([letter.why for letter in self.letters()], self.pending()), ([b"no order"], 0))

    def test_no_pause_holds_it_back(self):
        self.add(("dead no order", 99), ("later", 2), ("dead again", 99))
        running = self.begin("c", "--dead", "9", "lost", "--retry-after", "0.3")
        self.until(lambda: len(self.times("2-0")) == 3 and self.pending() == 0)
        said = self.stop(running)
        self.assertEqual([letter.why for letter in self.letters()], [b"no order", b"again"])
        self.assertEqual((len(self.times("1-0")), len(self.times("3-0"))), (1, 1))
        self.assertEqual((said.count("was given up after 1 delivery\n"), said.count("was given up")), (2, 2))

    def test_without_a_relay(self):
        self.add(*[("dead no order", 99)] * 3)
        said = self.said("--direct", "--dead", "5", "lost")
        self.assertEqual((len(self.letters()), self.pending()), (3, 0))
        self.assertEqual(said.count("was given up after 1 delivery\n"), 3)

    def test_each_is_replayed_without_its_reason(self):
        self.add(("dead no order", 1))
        self.said("--dead", "5", "lost")
        connection = self.connection()
        letter, = self.letters()
        self.assertIsNotNone(dead_letters.replay_letter(connection, "lost", letter.id, "k"))
        self.assertEqual(self.fields("k")[1:], [[b"how", b"dead no order", b"times", b"1"]])


class Deliveries(OfJobs):
    def test_each_line_says_how_often_its_entry_was_delivered(self):
        self.handle_by(f"open({self.noted!r}, 'a').write(f'{{job.id}} {{job.deliveries}}\\n')", "if job.deliveries < 3:", "    raise Later")
        self.add(("x", 0), ("x", 0))
        running = self.begin("c", "--deliveries", "--idle", "200", "--every", "1", "--block", "100")
        self.until(lambda: self.pending() == 0 and len(self.times("1-0")) == 3)
        self.stop(running)
        self.assertEqual((self.times("1-0"), self.times("2-0")), ([1, 2, 3], [1, 2, 3]))

    def test_pauses_do_not_count(self):
        self.handle_by(f"open({self.noted!r}, 'a').write(f'{{job.id}} {{job.deliveries}}\\n')", "if job.deliveries < 3:", "    raise Later")
        self.add(("x", 0))
        running = self.begin("c", "--deliveries", "--retry-after", "0.2", "--idle", "1000")
        self.until(lambda: self.pending() == 0 and len(self.times("1-0")) == 3)
        self.stop(running)
        self.assertEqual(self.times("1-0"), [1, 2, 3])

    def test_a_user_who_may_not_ask(self):
        self.handle_by(f"open({self.noted!r}, 'a').write(f'{{job.id}} {{job.deliveries or 0}}\\n')")
        self.add(("x", 0), ("x", 0))
        self.server.ask("ACL", "SETUSER", "default", "-xpending")
        said = self.said("--deliveries")
        self.assertEqual((self.times("1-0"), self.times("2-0")), ([0], [0]))
        self.assertEqual(said.count("how often a job was delivered is not known: NOPERM"), 1)


class Told(Live):
    def test_a_letter_of_each_form(self):
        link, desk, said = keeper.Link(lambda: Address.parse(self.server.url), connect.Options(), self.fail), Desk(), []
        self.addCleanup(link.close)
        letters = keeper.Letters(link, "lost", desk, said.append)
        self.server.ask("XADD", "lost", "*", "entry", "1-0", "deliveries", 3, "a", "b")
        for job in range(1, 7):
            desk.note(f"{job}-0", f"later: {job}")
        letters.begin()
        for first, job, times in (([], 2, 4), (["reason", "no order"], 3, 1), ([], 4, 1), (["reason", "x"], 9, 1), (["more", "x"], 5, 1)):
            self.server.ask("XADD", "lost", "*", *first, "entry", f"{job}-0", "deliveries", times, "reason", "of the entry")
        letters.tick()
        self.assertEqual(said, ["2-0 was given up after 4 deliveries: later: 2", "3-0 was given up after 1 delivery",
                                "4-0 was given up after 1 delivery: later: 4"])
        self.assertEqual(sorted(desk.reasons), ["1-0", "5-0", "6-0"])


class Asked(unittest.TestCase):
    """The question for the deliveries of a job, and the node that it goes to."""

    def link(self, *ports):
        """Returns a link whose connections go to these ports, one after the other, and what it says."""
        left, said = list(ports), []
        link = keeper.Link(lambda: Address("redis", "127.0.0.1", left.pop(0)), connect.Options(), said.append)
        self.addCleanup(link.close)
        return link, said

    def test_the_number_of_the_reply(self):
        row = b"*1\r\n*4\r\n$3\r\n1-0\r\n$1\r\nc\r\n:5\r\n:3\r\n"
        with scripted([row, b"*0\r\n", b"-NOPERM no\r\n", b"-NOPERM no\r\n", row]) as (port, noted):
            link, said = self.link(port)
            self.assertEqual([keeper.find_deliveries(link, ["k", "g", "c"], "1-0") for _ in range(5)], [3, None, None, None, 3])
            link.close()
        self.assertEqual(noted[0], [b"XPENDING", b"k", b"g", b"1-0", b"1-0", b"1"])
        self.assertEqual(said, ["how often a job was delivered is not known: NOPERM no"])

    def test_after_a_redirection_it_asks_where_the_program_is(self):
        with scripted([b"-MOVED 5 127.0.0.1:1\r\n"]) as (port, _), scripted([b"*0\r\n"]) as (other, noted):
            link, said = self.link(port, other)
            for _ in range(2):
                keeper.find_deliveries(link, ["k", "g", "c"], "1-0")
            link.close()
        self.assertEqual((len(noted), len(said)), (1, 1))

    def test_a_server_that_is_gone(self):
        link, said = self.link(1)
        self.assertIsNone(keeper.find_deliveries(link, ["k", "g", "c"], "1-0"))
        self.assertIsNone(keeper.find_deliveries(link, ["k", "g", "c"], "1-0"))
        self.assertEqual(len(said), 1)


if __name__ == "__main__":
    unittest.main()
