"""A handler that runs, and the relay between it and stream_run."""
from __future__ import annotations

import contextlib
import dataclasses
import os
import re
import select
import shutil
import signal
import subprocess
import threading
import time
from typing import Callable, Dict, List, Optional, Sequence

from .connect import Failed
from .desk import LATER, Desk, id_of
from .process import HELD, PACKAGES, Listener, Run, die_with_parent, do_nothing

LOOK_EACH = 0.1  # seconds between two looks at a job's time
IN_HAND = 1.0  # seconds in which stream_run ends by itself if the handler ended with a job in hand
CLOSING = 5.0  # seconds that a handler has to end after its lines have ended
PIECE = 65536  # bytes that are passed on at once, and the longest reply
HANDLER_FAILED = 4  # the status of stream_run if the handler ended or gave a wrong reply
FINISH = signal.SIGWINCH  # 'finish the job in hand', as nginx and Apache take it; ignored by other programs
SHARED = ("site-packages", "dist-packages")  # folders that Python finds by itself
TRIAL = 60.0  # seconds that a handler has to end if there is no job
ENDS_AT_ONCE = 10.0  # seconds: a handler that ended sooner, with no reply, is broken or has a job that ends it
KILLS = (-signal.SIGKILL, -signal.SIGTERM)  # statuses of what was ended by another process, or for want of memory
NO_FILE = re.compile("no such file|cannot find module|could not open|can(no|')t open", re.I)


Deliveries = Callable[[str], Optional[int]]


@dataclasses.dataclass(frozen=True)
class Handling:
    """How jobs are handled: by which command, how long a job may take, and how long the last one after a signal."""

    command: Sequence[str]
    job_timeout: Optional[float] = None
    grace: float = 25.0
    retry_after: Optional[float] = None
    retry_most: float = 3600.0
    has_trial: bool = False
    is_direct: bool = False
    has_deliveries: bool = False


def handler_environment() -> Dict[str, str]:
    """Returns the environment of a handler, in which Python finds this package after all that PYTHONPATH names."""
    paths = [path for path in os.environ.get("PYTHONPATH", "").split(os.pathsep) if path]
    if PACKAGES not in paths and os.path.basename(PACKAGES) not in SHARED:
        paths.append(PACKAGES)
    return {**os.environ, **({"PYTHONPATH": os.pathsep.join(paths)} if paths else {})}


def find_command(command: Sequence[str]) -> str:
    """Returns the path of a command. Raises Failed if it is no program."""
    path = shutil.which(command[0])
    if path is None:
        why = "it is no program" if os.path.exists(command[0]) else "there is no such program"
        raise Failed(f"cannot run {command[0]}: {why}", HANDLER_FAILED)
    return path


def names(line: str, path: str) -> bool:
    """Returns whether a line names this path, as it is or from the root."""
    whole = os.path.join(os.getcwd(), path)
    return any(re.search(rf"(?<![\w./-]){re.escape(one)}(?![\w/-])", line) for one in (path, whole))


class Relay(threading.Thread):
    """Passes each line on to the handler and its reply back, all bytes as they come, and tells the desk of both.

    A handler that ends or writes while no job is in hand is told to `broken`. `later` is called with the id of a job
    that was replied so, before the reply is passed on. If there is `deliveries`, it says how often a job was delivered, and
    the job's line gets that as its last member.
    """

    def __init__(self, pipes: Sequence[int], desk: Desk, later: Callable[[str], None], broken: Callable[[str], None],
                 deliveries: Optional[Deliveries] = None) -> None:
        super().__init__(daemon=True)
        self.deliveries = deliveries
        self.lines, self.to_handler, self.from_handler, self.replies = self.pipes = tuple(pipes)
        self.desk, self.later, self.broken = desk, later, broken
        self.count, self.poll = 0, select.poll()
        for pipe in (self.lines, self.from_handler):
            self.poll.register(pipe, select.POLLIN)

    def run(self) -> None:
        """Passes on until one of both ends."""
        try:
            while self._pass_line() and self._pass_reply():
                pass
        except OSError:
            pass  # one of both has closed its end
        finally:
            for pipe in self.pipes:
                os.close(pipe)

    def _pass_line(self) -> bool:
        """Waits for a line and passes it on. Returns whether it came and the handler is there."""
        ready = dict(self.poll.poll())
        is_unasked = ready.get(self.from_handler, 0) & select.POLLIN
        if is_unasked or self.lines not in ready:
            self.broken("the handler wrote a line before it was asked" if is_unasked else "")
            return False
        piece = os.read(self.lines, PIECE)
        times = self.deliveries(id_of(piece)) if self.deliveries is not None and piece else None
        if piece:
            self.desk.begin(piece)
        if times is not None:
            return self._pass_with(piece, b',"deliveries":%d}\n' % times)
        while piece:
            _write_all(self.to_handler, piece)
            if piece.endswith(b"\n"):
                return True
            piece = os.read(self.lines, PIECE)
        return False

    def _pass_with(self, piece: bytes, end: bytes) -> bool:
        """Passes on the line that begins with this piece, with another end in place of its brace. Returns whether it is whole."""
        while not piece.endswith(b"\n"):
            _write_all(self.to_handler, piece[:-1])
            more = os.read(self.lines, PIECE)
            if not more:
                return False
            piece = piece[-1:] + more
        _write_all(self.to_handler, piece[:-2] + end)
        return True

    def _pass_reply(self) -> bool:
        """Waits for a reply and passes it on. Returns whether it was one."""
        reply, line = b"", self.desk.line
        while b"\n" not in reply and len(reply) <= PIECE:
            piece = os.read(self.from_handler, PIECE)
            if not piece:
                return False
            reply += piece
        said = self.desk.end(reply) if len(reply) <= PIECE or reply.find(b"\n") <= PIECE else None
        self.count += said is not None
        if said == LATER and line is not None:
            self.later(id_of(line))
        _write_all(self.replies, reply)
        return said is not None


def _write_all(pipe: int, piece: bytes) -> None:
    while piece:
        piece = piece[os.write(pipe, piece):]


class Child:
    """A handler that runs: a process in a session of its own, with a relay between its pipes and those of stream_run.

    `lines` and `replies` are the ends for stream_run. What the process prints on standard error is shown with a prefix.
    If it is direct there is no relay, and `count`, the replies, is what stream_run says in the end.
    """

    def __init__(self, handling: Handling, prefix: str, desk: Desk, later: Callable[[str], None],
                 deliveries: Optional[Deliveries] = None) -> None:
        self.handling, self.prefix, self.desk = handling, prefix, desk
        self.begun, self.lasted, self.is_late, self.last_line = time.monotonic(), 0.0, False, ""
        self.status, self.is_killed, self.missing, self.count = 0, False, "", 0
        self.absent = [word for word in handling.command[1:] if word[:1] not in ("", "-") and not os.path.exists(word)]
        self.broken: Optional[str] = None
        self.run: Optional[Run] = None
        desk.line = None
        find_command(handling.command)
        given, self.lines = os.pipe()
        self.replies, taken = os.pipe()
        inner = []
        if not handling.is_direct:
            (from_program, to_program), (given, to_handler), (from_handler, taken) = (given, taken), os.pipe(), os.pipe()
            inner = [from_program, to_handler, from_handler, to_program]
        try:
            self.process = self._start(handling.command, given, taken)
        except OSError as error:
            for pipe in (self.lines, self.replies, *inner):
                os.close(pipe)
            raise Failed(f"cannot run {handling.command[0]}: {error}", HANDLER_FAILED) from None
        finally:
            os.close(given)
            os.close(taken)
        assert self.process.stderr is not None
        self.listener = Listener(self.process.stderr, self._show, do_nothing)
        self.listener.start()
        self.relay = Relay(inner, desk, later, self._break, deliveries) if inner else None
        if self.relay is not None:
            self.relay.start()

    @staticmethod
    def _start(command: Sequence[str], given: int, taken: int) -> subprocess.Popen[bytes]:
        parent = os.getpid()

        def prepare() -> None:
            die_with_parent(parent)
            signal.pthread_sigmask(signal.SIG_UNBLOCK, HELD)

        return subprocess.Popen(command, stdin=given, stdout=taken, stderr=subprocess.PIPE, env=handler_environment(),
                                start_new_session=True, preexec_fn=prepare)

    def _show(self, line: str) -> bool:
        if line.strip():
            self.last_line = line.strip()
        if NO_FILE.search(line):
            self.missing = self.missing or next((word for word in self.absent if names(line, word)), "")
        os.write(2, f"{self.prefix}{line}\n".encode(errors="replace"))
        return False

    def _break(self, why: str) -> None:
        """Ends the program, since the handler broke while no job was in hand. One that ends has a second for its status."""
        self.broken = why
        if not why:
            with contextlib.suppress(subprocess.TimeoutExpired):
                self.process.wait(1)
        self.kill()
        if self.run is not None:
            self.run.stop()

    def take_back(self, job: str) -> None:
        """Takes the last reply for none, since stream_run refused it: a line of JSON, which the relay takes for 'done'."""
        if self.relay is not None and self.desk.line is None:
            self.relay.count -= 1
            self.desk.take_back(job)

    def attach(self, run: Run) -> None:
        """Takes the run that it works for, and watches how long each job takes."""
        self.run = run
        if self.broken is not None:
            run.stop()
        threading.Thread(target=self._watch, daemon=True).start()

    def finish(self) -> None:
        """Asks it to reply 'stop' to the next line. A handler that does not know FINISH goes on."""
        if self.process.poll() is None:
            self.process.send_signal(FINISH)

    def kill(self) -> None:
        """Ends it at once, and all that it started in its session."""
        self.is_killed = self.is_killed or self.process.poll() is None
        with contextlib.suppress(ProcessLookupError, PermissionError):
            os.killpg(self.process.pid, signal.SIGKILL)

    def end(self) -> None:
        """Waits for its end, now that its lines have ended, and keeps its status."""
        try:
            self.status = self.process.wait(CLOSING)
        except subprocess.TimeoutExpired:
            self.kill()
            self.status = self.process.wait()
        self.lasted = time.monotonic() - self.begun
        self.kill()
        if self.relay is not None:
            self.relay.join(CLOSING)
            self.count = self.relay.count
        self.listener.join()
        assert self.process.stderr is not None
        self.process.stderr.close()

    @property
    def has_worked(self) -> bool:
        """Whether it replied to a job, or ran for a while."""
        return self.count > 0 or self.lasted >= ENDS_AT_ONCE

    @property
    def was_killed(self) -> bool:
        """Whether something else than this killed it."""
        return self.status in KILLS and not self.is_killed

    def _watch(self) -> None:
        """Kills it if a job takes too long. If it ended, ends what it left, so that its replies end too."""
        most, desk = self.handling.job_timeout, self.desk
        while self.process.poll() is None:
            time.sleep(LOOK_EACH)
            since = desk.since
            if most is not None and time.monotonic() - since > most and desk.line is not None and desk.since == since:
                self.is_late = True
                break
        self.kill()
        if self.relay is None and self.run is not None and self.run.lasts(IN_HAND):
            self.broken = ""
            self.run.stop()

    def says_missing(self) -> str:
        """Returns that the file is missing which its last words name."""
        return f"cannot run {self.handling.command[0]}: there is no file {self.missing}"

    def outcome(self) -> str:
        """Returns how it ended, in words."""
        if self.is_late:
            return f"the job took more than {self.handling.job_timeout:g} seconds"
        if self.broken:
            return self.broken
        last = f": {self.last_line}" if self.last_line else ""
        if self.status < 0:
            return f"the handler was ended by {signal.Signals(-self.status).name}{last}"
        return f"the handler ended with {self.status}{last}"


def try_without_job(handling: Handling, prefix: str, say: Callable[[str], None]) -> None:
    """Starts a handler whose lines have ended, and waits for its end. Raises Failed if that is not with 0.

    One that does not end is killed after TRIAL, and may be started all the same.
    """
    child = Child(dataclasses.replace(handling, is_direct=True), prefix, Desk(), lambda _: None)
    os.close(child.lines)
    try:
        with contextlib.suppress(subprocess.TimeoutExpired):
            child.process.wait(TRIAL)
    finally:
        child.kill()
        child.end()
        os.close(child.replies)
    if child.is_killed:
        say(f"without a job the handler has not ended in {TRIAL:g} seconds")
    elif child.missing:
        raise Failed(child.says_missing(), HANDLER_FAILED)
    elif child.status:
        raise Failed(f"no job was read: without one {child.outcome()} (--no-trial starts it all the same)", HANDLER_FAILED)


def arguments_of(words: Sequence[str], name: str, number: int = 1) -> Optional[List[str]]:
    """Returns the values of an option among the words of a program, None if it is not there."""
    for at, word in enumerate(words):
        head, equals, value = word.partition("=")
        if head == name:
            values = [value, *words[at + 1:]] if equals else list(words[at + 1:])
            return values[:number] if len(values) >= number else None
    return None
