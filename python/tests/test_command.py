"""The command on a connection: signals, retries, exit statuses, and what a program is given."""
import contextlib
import os
import signal
import socket
import subprocess
import sys
import tempfile
import time
import unittest

from jagyerti.process import PACKAGES
from jagyerti.tries import TOGETHER

LAUNCH = f"import sys; sys.path.insert(0, {PACKAGES!r}); from jagyerti.cli import main; sys.exit(main(sys.argv[1:]))"
# A program that is ready, reads to the end, and then prints this and ends with this status.
FAKE = """#!{python} -I
import os, sys, time
print("ready", file=sys.stderr, flush=True)
while os.read(0, 100):
    pass
{then}
"""
CLOSED = 'print("3 entries in 1 batch\\nError: the server closed the connection", file=sys.stderr); sys.exit(1)'
RESET = 'print("Error: cannot write to the server: Connection reset by peer (os error 104)", file=sys.stderr); sys.exit(1)'
FULL = 'print("Error: cannot write the file: no space left on device", file=sys.stderr); sys.exit(1)'
REFUSED = 'print("error: 0 is not in 1..=10000", file=sys.stderr); sys.exit(2)'
SLOW = "time.sleep(0.5); " + CLOSED
STAYS = 'print("stays", file=sys.stderr, flush=True); time.sleep(60)'


class Running(unittest.TestCase):
    """A command that runs, a folder, and a port to which it connects."""

    def setUp(self):
        stack = contextlib.ExitStack()
        self.addCleanup(stack.close)
        self.folder = stack.enter_context(tempfile.TemporaryDirectory())
        self.listener = stack.enter_context(socket.create_server(("127.0.0.1", 0)))
        self.listener.settimeout(60)
        self.url = f"redis://127.0.0.1:{self.listener.getsockname()[1]}"

    def fake(self, then):
        path = os.path.join(self.folder, "fake")
        with open(path, "w", encoding="ascii") as file:
            file.write(FAKE.format(python=sys.executable, then=then))
        os.chmod(path, 0o755)
        return path

    def start(self, *words, **variables):
        """Starts the command, and ends it with the test."""
        running = subprocess.Popen([sys.executable, "-I", "-c", LAUNCH, *words], stdin=subprocess.DEVNULL,
                                   stdout=subprocess.PIPE, stderr=subprocess.PIPE, env={**os.environ, **variables})
        self.addCleanup(running.stdout.close)
        self.addCleanup(running.stderr.close)
        self.addCleanup(running.wait)
        self.addCleanup(running.kill)
        return running


class Command(Running):
    def started(self, then, *words, command=("drain", "k", "g", "c", "f")):
        """Starts a command, a drain if nothing is said, by this program. It is ready when this returns."""
        running = self.start(command[0], "--program", self.fake(then), self.url, *command[1:], *words)
        self.connection, _ = self.listener.accept()
        self.addCleanup(self.connection.close)
        self.assertEqual(running.stderr.readline(), b"ready\n")
        return running

    def ends(self, running, status, said):
        self.assertEqual((running.communicate(timeout=60)[1].decode(), running.returncode), (said, status))

    def test_first_signal_ends_it_cleanly(self):
        for number in (signal.SIGTERM, signal.SIGINT):
            running = self.started(CLOSED, "--retry", "forever")
            running.send_signal(number)
            self.ends(running, 0, "3 entries in 1 batch\n")

    def test_a_signal_before_all_lines_are_in_is_no_success(self):
        running = self.started(CLOSED, "--retry", "forever", command=("fill", "k", "f"))
        running.terminate()
        self.ends(running, 143, "3 entries in 1 batch\n")
        ended = self.started("sys.exit(0)", command=("fill", "k", "f"))
        ended.terminate()
        self.ends(ended, 0, "")

    def test_closed_by_the_server(self):
        running = self.started(CLOSED)
        self.connection.close()
        self.ends(running, 1, "3 entries in 1 batch\nError: the server closed the connection\n")

    def test_another_failure_is_shown_after_a_signal(self):
        running = self.started(FULL)
        running.terminate()
        self.ends(running, 1, "Error: cannot write the file: no space left on device\n")

    def test_two_signals_together_are_one(self):
        running = self.started(SLOW)
        running.terminate()
        time.sleep(TOGETHER / 20)
        running.terminate()
        self.ends(running, 0, "3 entries in 1 batch\n")

    def test_second_signal_ends_it_at_once(self):
        running = self.started(STAYS)
        running.terminate()
        self.assertEqual(running.stderr.readline(), b"stays\n")
        time.sleep(TOGETHER)
        running.terminate()
        self.ends(running, 137, "jagyerti drain: the program was ended by SIGKILL\n")

    def test_signal_in_a_pause(self):
        self.listener.close()
        for status, (name, *words) in ((0, ("drain", "k", "g", "c", "f")), (143, ("fill", "k", "f"))):
            running = self.start(name, "--program", self.fake(CLOSED), self.url, *words, "--retry", "9", "--pause", "60")
            first = running.stderr.readline().decode()
            self.assertIn("no connection with 127.0.0.1:", first)
            self.assertIn("tries again in ", running.stderr.readline().decode())
            running.terminate()
            running.communicate(timeout=60)
            self.assertEqual(running.returncode, status)

    def test_retry_counts_its_tries(self):
        self.listener.close()
        running = self.start("drain", "--program", self.fake(CLOSED), self.url, "k", "g", "c", "f", "--retry", "2", "--pause", "0.01")
        said = running.communicate(timeout=60)[1].decode()
        self.assertEqual((said.count("no connection with"), said.count("tries again"), running.returncode), (3, 2, 1))

    def test_no_retry_if_it_could_acknowledge_what_is_not_there(self):
        again = "jagyerti drain: it is not started again: look at the file and the stream first\n"
        for error in ("cannot write the file: Input/output error (os error 5)",
                      "cannot write the file: it could not be synced: No space left on device (os error 28)",
                      "cannot write the file: it could not be synced: Disk quota exceeded (os error 122)",
                      "cannot open f\n\nCaused by:\n    it could not be synced: No space left on device (os error 28)",
                      "cannot keep the base in f.onto\n\nCaused by:\n    it could not be synced: Input/output error (os error 5)",
                      "cannot write the line of the entry 5-1: a line of its id is there with other fields",
                      "cannot write the line of the entry 5-1: the file was changed"):
            running = self.started(f'print({"Error: " + error!r}, file=sys.stderr); sys.exit(1)', "--retry", "forever")
            self.connection.sendall(b"x")
            self.connection.close()
            self.ends(running, 5, f"Error: {error}\n{again}")

    def test_retry_if_the_connection_broke_before_anything_was_sent(self):
        for then, tries, status in ((RESET, 2, 1), (FULL, 0, 1), (REFUSED, 0, 2)):
            running = self.start("drain", "--program", self.fake(then), self.url, "k", "g", "c", "f", "--retry", "2",
                                 "--pause", "0.01")
            for _ in range(1 + tries):
                self.listener.accept()[0].close()
            said = running.communicate(timeout=60)[1].decode()
            self.assertEqual((said.count("tries again"), running.returncode), (tries, status), said)

    def test_words_of_the_program_pass_through(self):
        fake = self.fake('print(sys.argv[1:], file=sys.stderr)')
        words = ["--count", "5", "--retry", "0", "k", "g", self.url, "c", "f", "--dead=3", "-1", "--name", "me", "--json"]
        running = self.start("drain", "--program", fake, *words, "--", "--timeout", "x")
        connection, _ = self.listener.accept()
        with connection:
            connection.recv(100)
            connection.sendall(b"+OK\r\n")
            connection.shutdown(socket.SHUT_WR)
            wanted = ["--count", "5", "k", "g", "c", "f", "--dead=3", "-1", "--json", "--", "--timeout", "x"]
            self.ends(running, 0, f"ready\n{wanted}\n")

    def test_no_password_in_ps_nor_in_the_program(self):
        then = "print(os.environ.get('REDIS_URL'), os.environ.get('REDISCLI_AUTH'), file=sys.stderr)"
        url = self.url.replace("//", "//ann:secret-word@")
        running = self.start("drain", "--program", self.fake(then), url, "k", "g", "c", "f", REDISCLI_AUTH="secret-word")
        connection, _ = self.listener.accept()
        with connection:
            self.assertIn(b"secret-word", connection.recv(100))
            connection.sendall(b"+OK\r\n")
            self.assertEqual(running.stderr.readline(), b"ready\n")
            with open(f"/proc/{running.pid}/task/{running.pid}/children", encoding="ascii") as file:
                programs = file.read().split()
            self.assertEqual(len(programs), 1)
            for pid in (running.pid, *programs):
                with open(f"/proc/{pid}/cmdline", "rb") as file:
                    self.assertNotIn(b"secret-word", file.read())
            connection.shutdown(socket.SHUT_WR)
            self.ends(running, 0, "None None\n")

    def test_connect_kills_after_the_grace(self):
        running = self.start("connect", self.url, "--grace", "0.2", "--", self.fake(STAYS), "word")
        connection, _ = self.listener.accept()
        with connection:
            self.assertEqual(running.stderr.readline(), b"ready\n")
            begun = time.monotonic()
            running.terminate()
            running.communicate(timeout=60)
        self.assertEqual(running.returncode, 137)
        self.assertGreater(time.monotonic() - begun, 0.2)

    def test_connect_closes_the_input_first(self):
        running = self.start("connect", self.url, "--", self.fake("sys.exit(5)"))
        connection, _ = self.listener.accept()
        with connection:
            self.assertEqual(running.stderr.readline(), b"ready\n")
            running.terminate()
            running.communicate(timeout=60)
        self.assertEqual(running.returncode, 5)

    def test_without_words_it_lists_the_commands(self):
        running = self.start()
        self.assertIn("Drains a stream", running.communicate(timeout=60)[1].decode())
        self.assertEqual(running.returncode, 2)

    def test_an_error_begins_with_the_command(self):
        with socket.socket() as closed:
            closed.bind(("127.0.0.1", 0))
            url = f"redis://127.0.0.1:{closed.getsockname()[1]}"
            for words in (["drain", "k", "g", "c", "f"], ["fill", "k", "f"], ["sqlite", "k", "g", "c", "f"]):
                running = self.start(words[0], "--program", self.fake(""), url, *words[1:])
                said = running.communicate(timeout=60)[1].decode()
                self.assertRegex(said, f"^jagyerti {words[0]}: no connection with ")
                self.assertEqual(running.returncode, 1)

    def test_wrong_words(self):
        rows = (
            (["drain", "http://h", "k"], 2, "wanted redis://"),
            (["drain", "redis://:secret-word@h:x", "k"], 2, "wanted HOST or HOST:PORT"),
            (["drain", "redis://a,b", "k", "g", "c", "f"], 2, "several hosts are for --cluster and --sentinel"),
            (["drain", "redis://h", "k", "g", "c", "f", "--cacert", "x"], 2, "are for rediss://"),
            (["drain", "redis://h", "k", "g", "c", "f", "--partitions", "3"], 2, "are for --cluster"),
            (["drain", "redis://h", "k", "g", "c", "f", "--cluster"], 2, "--cluster wants --partitions"),
            (["drain", "redis://h", "k", "--cluster", "--partitions", "3"], 2, "want KEY GROUP CONSUMER FILE"),
            (["drain", "redis://h", "k", "g", "c", "f", "--retry", "often"], 2, "wanted a number"),
            (["drain", "redis://h", "k", "g", "c", "f", "--timeout", "0"], 2, "wanted a number"),
            (["sqlite", "redis://h", "k", "g", "c", "f", "--cluster"], 2, "--cluster is for"),
            (["connect", "redis://h"], 2, "-- PROGRAM"),
            (["connect", "redis://h", "--", "/no/such/program"], 1, "no program"),
            (["drain", "--program", "/no/such/program", "redis://h"], 1, "is no program"),
            (["serve", "--prot", "1"], 2, "--prot"),
        )
        fake = self.fake("")
        for words, status, text in rows:
            given = ["--program", fake] if words[0] in ("drain", "sqlite") and "--program" not in words else []
            with self.subTest(words):
                running = self.start(words[0], *given, *words[1:], REDIS_URL="")
                said = running.communicate(timeout=60)[1].decode()
                self.assertIn(text, said)
                self.assertNotIn("secret-word", said)
                self.assertEqual(running.returncode, status)


if __name__ == "__main__":
    unittest.main()
