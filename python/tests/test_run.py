"""jagyerti run: handlers that work, end, hang and are stopped, beside a program in place of stream_run."""
import contextlib
import os
import re
import shutil
import signal
import socket
import subprocess
import sys
import threading
import time
import unittest
import unittest.mock

from jagyerti.child import Handling, Relay, try_without_job
from jagyerti.desk import Desk
from jagyerti.process import PACKAGES

from .test_command import Running

HANDLERS = os.path.join(os.path.dirname(PACKAGES), "examples", "handlers")

# Passes this many jobs to the handler, says its words and what it was replied, and waits for the end of its connection.
FAKE = """#!{python} -I
import os, sys
words = sys.argv[1:]
lines = open(words[words.index("--lines") + 1], "wb", buffering=0)
replies = open(words[words.index("--replies") + 1], "rb")
print("words", *words[:words.index("--lines")], file=sys.stderr, flush=True)
for k in range(1, {jobs} + 1):
    lines.write(b'{{"id":"%d-0","fields":[["k","%d"]],"stream":"k"}}\\n' % (k, k))
    reply = replies.readline()
    print("reply", k, reply, file=sys.stderr, flush=True)
    if not reply:
        print(f"done {{k - 1}}, batches 1, left pending 0\\nError: the handler's output ended", file=sys.stderr)
        sys.exit(4)
    if reply == b"stop\\n":
        break
while {waits} and os.read(0, 100):
    pass
print("done {jobs}, batches 1, left pending 0", file=sys.stderr)
"""
# The same, but it refuses a line of JSON whose member "done" is not true, as stream_run does.
REFUSING = FAKE.replace("if not reply:", """if reply[:1] == b"{{" and b'"done":true' not in reply:
        print(f"done {{k - 1}}, batches 1, left pending 0\\nError: the child's reply to the entry {{k}}-0 is not done, later, dead "
              "or stop", file=sys.stderr)
        sys.exit(4)
    if not reply:""")
DONE = "import sys\nfor line in sys.stdin:\n    print('done', flush=True)\n"
PYTHON = "from jagyerti import handler\n@handler\ndef handle(job):\n"


class Run(Running):
    def begin(self, handler, *words, jobs=2, waits=False, program=FAKE):
        """Starts 'jagyerti run' with this handler. Returns it; its connections are accepted by themselves."""
        path = os.path.join(self.folder, "fake_run")
        with open(path, "w", encoding="ascii") as file:
            file.write(program.format(python=sys.executable, jobs=jobs, waits=waits))
        os.chmod(path, 0o755)
        script = os.path.join(self.folder, "handler.py")
        with open(script, "w", encoding="ascii") as file:
            file.write(handler)
        self.listener.listen(16)
        return self.start("run", self.url, "k", "g", "--program", path, *words, "--", sys.executable, "-u", script)

    def of_command(self, *command, options=(), **variables):
        """Starts 'jagyerti run' with this command as the handler."""
        path = os.path.join(self.folder, "fake_run")
        with open(path, "w", encoding="ascii") as file:
            file.write(FAKE.format(python=sys.executable, jobs=2, waits=False).replace('["k","%d"]', '["item","cup %d"]'))
        os.chmod(path, 0o755)
        self.listener.listen(16)
        return self.start("run", self.url, "k", "g", "--program", path, *options, "--", *command, **variables)

    def said(self, running, status):
        """Waits for its end, and returns what it said."""
        _, said = running.communicate(timeout=60)
        self.assertEqual(running.returncode, status, said)
        return said.decode()

    def test_each_line_is_replied_to(self):
        said = self.said(self.begin(DONE), 0)
        self.assertIn("reply 1 b'done\\n'\nreply 2 b'done\\n'\ndone 2, batches 1, left pending 0\n", said)

    def test_consumers(self):
        host = os.uname().nodename
        self.assertIn(f"words k g {host}\n", self.said(self.begin(DONE), 0))
        said = self.said(self.begin(DONE, "--count", "3", "--processes", "2"), 0)
        self.assertIn(f"words k g {host}.1 --count 3\n", said)
        self.assertIn(f"words k g {host}.2 --count 3\n", said)
        self.assertIn("KEY GROUP", self.said(self.start("run", self.url, "k", "--", "true"), 2))
        self.assertIn("wanted: jagyerti run", self.said(self.start("run", self.url, "k", "g"), 2))

    def test_what_it_prints_has_the_name_of_its_consumer(self):
        said = self.said(self.begin(DONE + "print('ends', file=sys.stderr)\n"), 0)
        self.assertIn(f"{os.uname().nodename}: ends\n", said)

    def test_no_signal_is_blocked_in_a_handler(self):
        handler = "import signal, sys\nprint('blocked', *signal.pthread_sigmask(signal.SIG_BLOCK, []), file=sys.stderr)\n"
        self.assertIn(": blocked\n", self.said(self.begin(handler + DONE), 0))

    def test_a_handler_that_ends_at_once_is_started_five_times(self):
        said = self.said(self.begin("import sys\nsys.stdin.readline()\nsys.exit(3)\n", "--pause", "0.02"), 4)
        self.assertEqual(said.count("the handler ended with 3"), 5)
        self.assertIn("it ended 5 times in a row before any reply", said)

    def test_a_handler_that_ends_before_any_job(self):
        running = self.begin("import no_such_module\n", "--pause", "0.02", waits=True, jobs=0)
        said = self.said(running, 4)
        why = "ModuleNotFoundError: No module named 'no_such_module'"
        self.assertEqual(said.count(f"the handler ended with 1: {why}\n"), 5)
        self.assertTrue(said.endswith(f"jagyerti run: it ended 5 times in a row before any reply: {why}\n"), said)

    def test_a_handler_that_cannot_start_reads_no_job(self):
        broken = "import no_such_module\n"
        said = self.said(self.begin(broken, "--dead", "3", "lost"), 4)
        self.assertIn("\njagyerti run: no job was read: without one the handler ended with 1: ModuleNotFoundError", said)
        self.assertNotIn("words", said)
        said = self.said(self.begin(broken, "--dead", "3", "lost", "--no-trial", "--pause", "0.02"), 4)
        self.assertEqual(said.count("words"), 5)

    def test_a_handler_is_tried_after_an_end_before_any_reply(self):
        mark = os.path.join(self.folder, "mark")
        handler = (f"import os, sys\nif os.path.exists({mark!r}):\n    sys.exit('broken')\n"
                   f"if sys.stdin.readline():\n    open({mark!r}, 'w')\n    sys.exit('ends')\n")
        said = self.said(self.begin(handler, "--dead=3", "lost", "--pause", "0.02"), 4)
        self.assertEqual((said.count("words"), said.count(": ends\n")), (1, 2))
        self.assertIn("\njagyerti run: no job was read: without one the handler ended with 1: broken (--no-trial", said)

    def test_a_handler_that_works_is_tried_once(self):
        notes = os.path.join(self.folder, "notes")
        handler = f"open({notes!r}, 'a').write('x')\n" + DONE
        self.assertIn("done 2, batches 1", self.said(self.begin(handler, "--dead", "3", "lost"), 0))
        with open(notes, encoding="ascii") as file:
            self.assertEqual(file.read(), "xx")

    def test_a_trial_that_does_not_end(self):
        child = Handling([sys.executable, "-c", "import time; time.sleep(60)"])
        said = []
        with unittest.mock.patch("jagyerti.child.TRIAL", 0.1):
            try_without_job(child, "", said.append)
        self.assertEqual(said, ["without a job the handler has not ended in 0.1 seconds"])

    def test_a_signal_ends_a_trial(self):
        running = self.begin("import sys, time\nprint('waits', file=sys.stderr, flush=True)\ntime.sleep(60)\n", "--dead", "3", "lost")
        while b"waits" not in running.stderr.readline():
            pass
        running.terminate()
        self.assertNotIn("words", self.said(running, 0))

    def test_a_line_that_nobody_asked_for(self):
        handler = "import time\nprint('hello', flush=True)\ntime.sleep(60)\n"
        said = self.said(self.begin(handler, "--pause", "0.02", waits=True, jobs=0), 4)
        self.assertEqual(said.count("the handler wrote a line before it was asked"), 5)

    def test_a_group_that_is_missing(self):
        text = "Error: XREADGROUP of pending entries: the server replied NOGROUP No such key"
        program = self.fake(f"print('done 0, batches 0, left pending 0\\n{text}', file=sys.stderr); sys.exit(1)")
        self.listener.listen(16)
        running = self.start("run", self.url, "k", "g", "--program", program, "--", sys.executable, "-c", "input()")
        connection, _ = self.listener.accept()
        connection.sendall(b"x")
        connection.close()
        said = self.said(running, 1)
        self.assertIn(f"{text}\n", said)
        self.assertIn("\njagyerti run: k has no group g: --from 0 makes it, for all entries of the stream", said)
        self.assertNotIn("tries again", said)

    def test_a_handler_in_python_finds_the_package(self):
        handler = PYTHON + "    print('has', job.id)\nhandle.serve()\n"
        self.assertIn(": has 2-0\n", self.said(self.begin(handler), 0))

    @unittest.skipUnless(shutil.which("cc") and shutil.which("stdbuf"), "no cc or no stdbuf is installed")
    def test_line_buffered(self):
        source, built = os.path.join(self.folder, "it.c"), os.path.join(self.folder, "it")
        with open(source, "w", encoding="ascii") as file:
            file.write('#include <stdio.h>\nint main(void) { char line[999]; while (fgets(line, 999, stdin)) puts("done"); return 0; }\n')
        subprocess.run(["cc", "-o", built, source], check=True)
        self.assertIn("done 2, batches 1", self.said(self.of_command(built, options=["--line-buffered", "--job-timeout", "30"]), 0))

    def test_line_buffered_wants_stdbuf(self):
        running = self.of_command(sys.executable, "-c", "", options=["--line-buffered"], PATH=self.folder)
        self.assertIn("--line-buffered wants the program stdbuf", self.said(running, 2))

    def test_a_handler_that_cannot_be_started(self):
        for command, why in (("/no/such", "there is no such program"), ("no-such-word", "there is no such program"),
                             (self.folder, "it is no program")):
            running = self.start("run", self.url, "k", "g", "--program", self.fake(""), "--", command)
            self.assertEqual(f"jagyerti run: cannot run {command}: {why}\n", self.said(running, 4))

    def test_a_file_that_the_script_misses_is_no_script(self):
        handler = "import sys\nopen(sys.argv[1] if sys.argv[1:] else 'no.such')\n"
        said = self.said(self.begin(handler, "--pause", "0.02"), 4)
        self.assertIn("it ended 5 times in a row before any reply", said)

    def test_direct(self):
        script = "while read line; do echo done; done; echo ends >&2"
        said = self.said(self.of_command("sh", "-c", script, options=["--direct"]), 0)
        self.assertIn("reply 1 b'done\\n'\nreply 2 b'done\\n'\ndone 2, batches 1, left pending 0\n", said)
        self.assertIn(": ends\n", said)
        for words in (["--job-timeout", "1"], ["--retry-after", "1"], ["--metrics", "x"], ["--deliveries"]):
            self.assertIn("--direct excludes", self.said(self.of_command("true", options=["--direct", *words]), 2))

    def test_a_line_of_json_is_passed_on(self):
        line = '{"add":[["results",{"id":"7"}]],"done":true}'
        path = os.path.join(self.folder, "metrics")
        said = self.said(self.begin(f"import sys\nfor line in sys.stdin:\n    print({line!r}, flush=True)\n", "--metrics", path,
                                    program=REFUSING), 0)
        self.assertIn(f"reply 1 {line.encode() + bytes([10])!r}\n", said)
        self.assertEqual(self.metrics(path)["stream_run_done_total"], [2])

    def test_a_line_of_json_that_is_refused_is_no_reply(self):
        path = os.path.join(self.folder, "metrics")
        handler = "import sys\nfor line in sys.stdin:\n    print('{}', flush=True)\n".replace("{}", '{"done":false}')
        said = self.said(self.begin(handler, "--pause", "0.02", "--metrics", path, program=REFUSING), 4)
        self.assertEqual(said.count("is not done, later, dead or stop"), 5)
        self.assertIn("it ended 5 times in a row before any reply", said)
        self.assertEqual(self.metrics(path)["stream_run_done_total"], [0])

    def test_deliveries_that_the_server_does_not_say(self):
        said = self.said(self.begin("import sys\nfor line in sys.stdin:\n    print('got', line.rstrip(), file=sys.stderr, flush=True)\n"
                                    "    print('done', flush=True)\n", "--deliveries", "--timeout", "0.3"), 0)
        self.assertIn('got {"id":"1-0","fields":[["k","1"]],"stream":"k"}\n', said)
        self.assertIn("done 2, batches 1", said)
        self.assertEqual(said.count("jagyerti run: how often a job was delivered is not known: "), 1)

    def test_direct_with_a_handler_that_ends(self):
        said = self.said(self.of_command("sh", "-c", "read line; exit 3", options=["--direct", "--pause", "0.02"]), 4)
        self.assertEqual(said.count("the handler ended with 3"), 5)
        mark = os.path.join(self.folder, "mark")
        script = f"read line; if mkdir {mark}; then echo done; read line; exit 3; fi; echo done; read line; echo done"
        said = self.said(self.of_command("sh", "-c", script, options=["--direct", "--pause", "60"]), 0)
        self.assertEqual((said.count("the handler ended with 3"), said.count("words k g")), (1, 2))

    def test_direct_with_a_handler_that_ends_before_any_job(self):
        running = self.begin("import no_such_module\n", "--direct", "--pause", "0.02", "--timeout", "60", waits=True, jobs=0)
        self.assertEqual(self.said(running, 4).count("the handler ended with 1: ModuleNotFoundError"), 5)

    def test_a_handler_file_that_is_missing(self):
        path = os.path.join(self.folder, "no_such")
        for command in (["python3", "-u", path], ["sh", path], ["bash", path], ["node", path], ["perl", path]):
            if shutil.which(command[0]):
                with self.subTest(command[0]):
                    said = self.said(self.of_command(*command), 4)
                    # (the program may be ended before it says its words)
                    self.assertLessEqual(said.count("words k g"), 1, said)
                    self.assertEqual(said.count("the handler ended with"), 1, said)
                    self.assertTrue(said.endswith(f"jagyerti run: cannot run {command[0]}: there is no file {path}\n"), said)

    def test_another_file_that_a_handler_wants(self):
        handler = "import sys\nsys.stdin.readline()\nopen('/no/' + sys.argv[1] + '/such')\n"
        said = self.said(self.of_command(sys.executable, "-c", handler, "red", options=["--pause", "0.02"]), 4)
        self.assertEqual(said.count("the handler ended with 1"), 5)

    def killed(self, times, then, status):
        """Returns what is said if a handler is killed so often before any reply, and then does something else."""
        mark = os.path.join(self.folder, f"killed-{times}")
        script = f"read line; echo x >> {mark}; if [ $(wc -l < {mark}) -le {times} ]; then kill -9 $$; fi; {then}"
        return self.said(self.of_command("sh", "-c", script, options=["--pause", "0.02"]), status)

    def test_a_handler_that_is_killed_from_outside_is_not_broken(self):
        said = self.killed(5, "echo done; while read line; do echo done; done", 0)
        self.assertEqual(said.count("the handler was ended by SIGKILL"), 5)

    def test_a_handler_that_was_killed_may_be_broken_too(self):
        said = self.killed(1, "exit 3", 4)
        self.assertEqual((said.count("ended by SIGKILL"), said.count("the handler ended with 3")), (1, 5))

    def test_jobs_that_take_too_long_are_counted(self):
        handler = "import sys, time\nsys.stdin.readline()\ntime.sleep(60)\n"
        said = self.said(self.begin(handler, "--pause", "0.02", "--job-timeout", "0.1"), 4)
        self.assertEqual(said.count("the job took more than 0.1 seconds"), 5)

    def test_if_one_of_several_fails_all_end(self):
        handler = ("import sys, time\nmark = sys.argv[0] + '.mark'\nsys.stdin.readline()\n"
                   "try:\n    open(mark, 'x')\nexcept FileExistsError:\n    sys.exit(3)\nprint('done', flush=True)\n" + DONE)
        running = self.begin(handler, "--pause", "0.02", "--processes", "2", "--timeout", "60", waits=True)
        accepted = []

        def accept():
            with contextlib.suppress(OSError):
                while True:
                    accepted.append(self.listener.accept())

        accepting = threading.Thread(target=accept, daemon=True)
        accepting.start()
        said = self.said(running, 4)
        # It ends in this test: an error of a thread that is left is printed into the output of another test.
        self.listener.shutdown(socket.SHUT_RDWR)
        accepting.join(20)
        self.assertFalse(accepting.is_alive())
        self.assertIn("it ended 5 times in a row before any reply", said)
        self.assertIn("done 2, batches 1", said)

    def test_a_handler_that_worked_is_started_again_at_once(self):
        handler = ("import os, sys, time\nmark = sys.argv[0] + '.mark'\nsys.stdin.readline()\n"
                   "if not os.path.exists(mark):\n    open(mark, 'w')\n    time.sleep(1.2)\n    os.kill(os.getpid(), 9)\n"
                   "print('done', flush=True)\n" + DONE)
        running = self.begin(handler)
        while b"the handler was ended by SIGKILL" not in running.stderr.readline():
            pass
        begun = time.monotonic()
        said = self.said(running, 0)
        self.assertLess(time.monotonic() - begun, 20)
        self.assertEqual(said.count("words k g"), 1)

    def test_a_job_that_takes_too_long(self):
        handler = ("import os, sys, time\nmark = sys.argv[0] + '.mark'\nsys.stdin.readline()\n"
                   "if not os.path.exists(mark):\n    open(mark, 'w')\n    time.sleep(50)\n"
                   "print('done', flush=True)\n" + DONE)
        said = self.said(self.begin(handler, "--job-timeout", "3", "--pause", "0.02"), 0)
        self.assertIn("the job took more than 3 seconds", said)

    def test_time_between_jobs_is_no_job(self):
        running = self.begin(DONE, "--job-timeout", "3", waits=True)
        connection, _ = self.listener.accept()
        time.sleep(6)
        connection.close()
        self.assertNotIn("took more than", self.said(running, 0))

    def test_the_examples(self):
        built = os.path.join(self.folder, "pack")
        commands = {"pack.py": [sys.executable], "pack.sh": ["sh"], "pack.js": ["node"]}
        if shutil.which("cc"):
            subprocess.run(["cc", "-o", built, os.path.join(HANDLERS, "pack.c")], check=True)
            commands["pack.c"] = [built]
        for name, command in commands.items():
            if shutil.which(command[0]) is None:
                continue
            with self.subTest(name), open(os.path.join(HANDLERS, name), encoding="utf-8") as file:
                self.assertLessEqual(len(file.readlines()), 15)
                path = os.path.join(self.folder, name + ".txt")
                script = [] if name == "pack.c" else [os.path.join(HANDLERS, name)]
                words = [*command, *script, path]
                try_without_job(Handling(words), "", self.fail)
                said = self.said(self.of_command(*words), 0)
                self.assertIn("done 2, batches 1, left pending 0", said)
                with open(path, encoding="utf-8") as packed:
                    text = packed.read()
                self.assertEqual([line for line in ("1-0", "2-0", "cup 1", "cup 2") if line not in text], [])

    def metrics(self, path):
        """Returns the samples of the file, without their labels. promtool has to find nothing in it, if it is there."""
        with open(path, encoding="utf-8") as file:
            text = file.read()
        self.assertTrue(text.endswith("# EOF\n"))
        if shutil.which("promtool"):
            ran = subprocess.run(["promtool", "check", "metrics"], input=text.encode(), capture_output=True, timeout=60, check=False)
            self.assertEqual((ran.stdout + ran.stderr, ran.returncode), (b"", 0))
        samples = {}
        for line in text.splitlines():
            found = re.fullmatch(r'(stream_run_\w+){stream="k",group="g",consumer="[^"]*"(?:,le="(.*)")?} (.*)', line)
            self.assertTrue(found or line.startswith("# "), line)
            if found:
                samples.setdefault(found[1] if found[2] is None else f"{found[1]} {found[2]}", []).append(float(found[3]))
        return samples

    def test_metrics(self):
        path = os.path.join(self.folder, "metrics")
        handler = ("import sys, time\nfor at, line in enumerate(sys.stdin):\n    time.sleep(0.02)\n"
                   "    print(('done', 'later', 'later no', 'dead it')[at % 4], flush=True)\n")
        self.said(self.begin(handler, "--metrics", path, jobs=8), 0)
        samples = self.metrics(path)
        wanted = {"stream_run_entries_total": [8], "stream_run_batches_total": [1], "stream_run_dead_letters_total": [0],
                  "stream_run_starts_total": [1], "stream_run_done_total": [2], "stream_run_later_total": [4],
                  "stream_run_dead_total": [2], "stream_run_timeouts_total": [0], "stream_run_restarts_total": [0],
                  "stream_run_in_hand": [0], "stream_run_job_seconds_count": [8], "stream_run_job_seconds_bucket 0.01": [0],
                  "stream_run_job_seconds_bucket 3600.0": [8], "stream_run_job_seconds_bucket +Inf": [8]}
        self.assertEqual({name: samples[name] for name in wanted}, wanted)
        self.assertGreaterEqual(samples["stream_run_job_seconds_sum"][0], 0.16)
        self.assertLess(abs(samples["stream_run_last_entry_timestamp_seconds"][0] - time.time()), 600)

    def test_metrics_while_jobs_are_in_hand(self):
        path = os.path.join(self.folder, "metrics")
        handler = "import sys, time\nsys.stdin.readline()\nprint('done', flush=True)\nsys.stdin.readline()\ntime.sleep(60)\n"
        running = self.begin(handler, "--metrics", path, "--processes", "2")
        end, samples = time.monotonic() + 60, {}
        while time.monotonic() < end and not samples.get("stream_run_in_hand") == samples.get("stream_run_done_total") == [1, 1]:
            time.sleep(0.2)
            samples = self.metrics(path) if os.path.exists(path) else {}
        names = "stream_run_in_hand", "stream_run_done_total", "stream_run_job_seconds_count"
        self.assertEqual([samples[name] for name in names], [[1, 1]] * 3)
        running.kill()

    def test_metrics_of_jobs_that_take_too_long(self):
        path = os.path.join(self.folder, "metrics")
        handler = ("import os, sys, time\nmark = sys.argv[0] + '.mark'\nsys.stdin.readline()\n"
                   "if not os.path.exists(mark):\n    open(mark, 'w')\n    time.sleep(50)\nprint('done', flush=True)\n" + DONE)
        self.said(self.begin(handler, "--metrics", path, "--job-timeout", "3", "--pause", "0.02"), 0)
        samples = self.metrics(path)
        names = "stream_run_timeouts_total", "stream_run_restarts_total", "stream_run_starts_total"
        self.assertEqual([samples[name] for name in names], [[1], [1], [2]])

    def test_first_signal_lets_the_job_in_hand_end(self):
        handler = PYTHON + "    import time\n    print('begins', job.id)\n    time.sleep(0.7)\nhandle.serve()\n"
        running = self.begin(handler, jobs=50)
        while b"begins 1-0" not in running.stderr.readline():
            pass
        running.send_signal(signal.SIGTERM)
        said = self.said(running, 0)
        self.assertIn("reply 1 b'done\\n'", said)
        self.assertIn("reply 2 b'stop\\n'", said)
        self.assertNotIn("begins 2-0", said)

    def test_after_the_grace_the_handler_is_killed(self):
        running = self.begin("import sys, time\nsys.stdin.readline()\nprint('begins', file=sys.stderr, flush=True)\ntime.sleep(60)\n",
                             "--grace", "0.3")
        while b"begins" not in running.stderr.readline():
            pass
        begun = time.monotonic()
        running.send_signal(signal.SIGTERM)
        self.said(running, 0)
        self.assertLess(time.monotonic() - begun, 10)

    def test_second_signal_ends_it_at_once(self):
        running = self.begin("import sys, time\nsys.stdin.readline()\nprint('begins', file=sys.stderr, flush=True)\ntime.sleep(60)\n")
        while b"begins" not in running.stderr.readline():
            pass
        running.send_signal(signal.SIGTERM)
        time.sleep(0.3)
        running.send_signal(signal.SIGTERM)
        begun = time.monotonic()
        running.communicate(timeout=60)
        self.assertLess(time.monotonic() - begun, 10)


class Relays(unittest.TestCase):
    """The relay alone, between four pipes."""

    def setUp(self):
        (given, self.line), (self.lines, to_handler), (from_handler, self.reply), (self.replies, taken) = (os.pipe() for _ in range(4))
        self.ends = [self.line, self.lines, self.reply, self.replies]
        self.addCleanup(lambda: [os.close(end) for end in self.ends])
        self.desk, self.said = Desk(), []
        self.relay = Relay((given, to_handler, from_handler, taken), self.desk, self.said.append, self.said.append)

    def close(self, end):
        self.ends.remove(end)
        os.close(end)

    def test_lines_and_replies_are_passed_on(self):
        self.relay.start()
        for line, reply in ((b'{"id":"1-0"}\n', b"done\n"), (b'{"id":"2-0"' + b"x" * 300_000 + b"\n", b"later\n")):
            writing = threading.Thread(target=lambda: os.write(self.line, line))
            writing.start()
            got = b""
            while not got.endswith(b"\n"):
                got += os.read(self.lines, 1 << 20)
            writing.join()
            self.assertEqual((got == line, self.desk.in_hand), (True, line[7:10].decode()))
            for at in range(len(reply)):
                os.write(self.reply, reply[at:at + 1])
            self.assertEqual(os.read(self.replies, 100), reply)
        self.close(self.line)
        self.assertEqual((os.read(self.lines, 9), os.read(self.replies, 9)), (b"", b""))
        self.assertEqual((self.said, self.relay.count, self.desk.in_hand), (["2-0"], 2, None))

    def run_to_its_end(self):
        self.relay.start()
        self.relay.join(20)
        self.assertFalse(self.relay.is_alive())

    def reply_of(self, size):
        """Has a job replied to by a line of this size. Returns how many replies that is, and the job in hand."""
        self.relay.start()
        os.write(self.line, b'{"id":"1-0"}\n')
        os.read(self.lines, 100)
        threading.Thread(target=lambda: os.write(self.reply, b"{" + b" " * (size - 1) + b"\n")).start()
        got = b""
        while not got.endswith(b"\n"):
            got += os.read(self.replies, 100_000)
        self.assertEqual(len(got), size + 1)
        return self.relay.count, self.desk.in_hand

    def test_the_longest_reply(self):
        self.assertEqual(self.reply_of(65536), (1, None))

    def test_a_reply_that_is_too_long_is_none(self):
        self.assertEqual(self.reply_of(65537), (0, "1-0"))

    def test_deliveries_are_the_last_member_of_a_line(self):
        times = {"1-0": 3, "2-0": 12, "3-0": None}
        self.relay.deliveries = times.get
        self.relay.start()
        for id in times:
            for more in (b"", b"x" * 9, b"x" * 65535, b"x" * 200_000):
                for size in (1 << 20, 65536):
                    line = b'{"id":"%b","fields":[["a","%b"]]}\n' % (id.encode(), more)
                    writing = threading.Thread(target=lambda: [os.write(self.line, line[at:at + size]) for at in range(0, len(line), size)])
                    writing.start()
                    got = b""
                    while not got.endswith(b"\n"):
                        got += os.read(self.lines, 1 << 20)
                    writing.join()
                    wanted = line if times[id] is None else line[:-2] + b',"deliveries":%d}\n' % times[id]
                    self.assertTrue(got == wanted, (id, len(more), got[-50:]))
                    os.write(self.reply, b"done\n")
                    self.assertEqual(os.read(self.replies, 100), b"done\n")
        self.assertEqual((self.relay.count, self.desk.counts["done"]), (24, 24))

    def test_deliveries_of_a_line_in_two_pieces(self):
        self.relay.deliveries = lambda _: 7
        self.relay.start()
        line = b'{"id":"1-0","fields":[]}\n'
        for at in range(12, len(line)):
            for piece in (line[:at], line[at:]):
                os.write(self.line, piece)
                time.sleep(0.02)
            got = b""
            while not got.endswith(b"\n"):
                got += os.read(self.lines, 100)
            self.assertEqual(got, b'{"id":"1-0","fields":[],"deliveries":7}\n')
            os.write(self.reply, b"done\n")
            os.read(self.replies, 100)

    def test_a_reply_that_was_there_before_the_line_is_none(self):
        os.write(self.reply, b"done\n")
        os.write(self.line, b'{"id":"1-0"}\n')
        self.run_to_its_end()
        self.assertEqual(self.said, ["the handler wrote a line before it was asked"])
        self.assertEqual((os.read(self.lines, 99), os.read(self.replies, 99), self.desk.in_hand), (b"", b"", None))

    def test_a_handler_that_ends_before_the_line(self):
        self.close(self.reply)
        self.run_to_its_end()
        self.assertEqual(self.said, [""])


if __name__ == "__main__":
    unittest.main()
