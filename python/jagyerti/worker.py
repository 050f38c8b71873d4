"""A worker in this process: a function handles the entries of a stream, through stream_run."""
from __future__ import annotations

import math
import os
import socket
import sys
import threading
from typing import Callable, List, Optional, Sequence

from . import url as urls
from .connect import Failed, Options
from .counts import DEFAULTS
from .jobs import Handle, serve
from .process import Run, find_program
from .tries import Plan, Stopped, Tries


class Worker:
    """Handles each entry of a stream once or more, as a consumer of a group.

    An entry is acknowledged after the handler returned for it, and never before. If the handler raises `Later`, or any
    exception, the entry stays pending and comes again; `Dead` and `Stop` are as `jagyerti.jobs` says.
    """

    def __init__(self, url: Optional[str], key: str, group: str, consumer: Optional[str] = None, *,
                 words: Sequence[str] = (), timeout: float = 10.0, retry: float = math.inf, pause: float = 30.0,
                 program: Optional[str] = None) -> None:
        """`url` None is that of REDIS_URL, and `consumer` None the host's name. `words` are options of stream_run.

        A connection that breaks is made again, `retry` times in a row, after pauses of up to `pause` seconds.
        """
        server = urls.all_from_words(url, urls.PORT)[0]
        program = find_program("stream_run", program)
        self.plan = Plan(program, [key, group, consumer or socket.gethostname(), *words], [server], Options(timeout), _say,
                         retry=retry, pause=pause, count=DEFAULTS["stream_run"])
        self._runs: Optional[_Runs] = None

    def run(self, handle: Handle) -> None:
        """Handles entries until `stop` is called, or the handler raises Stop, or with `--until-empty` until none is new.

        Raises Failed if the server cannot be reached or refuses what is asked. The handler runs in this thread.
        """
        self._runs = _Runs(self.plan, handle)
        try:
            status = self._runs.try_all()
        except Stopped:
            status = 0
        if status != 0:
            raise Failed(self._runs.error or f"stream_run ended with {status}", status)

    def stop(self) -> None:
        """Lets `run` return after the entries that it has in hand; a handler may call it, or another thread."""
        if self._runs is not None:
            self._runs.take_signal(0, None)


def _say(text: str) -> None:
    print(f"jagyerti: {text}", file=sys.stderr, flush=True)


class _Runs(Tries):
    """Runs of stream_run, for which this process handles the jobs."""

    def __init__(self, plan: Plan, handle: Handle) -> None:
        super().__init__(plan)
        self.handle = handle

    def make_run(self, connection: socket.socket) -> Run:
        """Returns a run at whose pipes the jobs are handled."""
        given, lines = os.pipe()
        replies, taken = os.pipe()
        words = [*self.program_words(), "--lines", f"/dev/fd/{lines}", "--replies", f"/dev/fd/{replies}"]
        return _HandledRun(words, connection, self.plan, (lines, replies), lambda: _serve(self.handle, given, taken))


def _serve(handle: Handle, given: int, taken: int) -> None:
    with open(given, "rb") as lines, open(taken, "wb") as replies:
        serve(handle, lines, replies)


class _HandledRun(Run):
    """A run that is waited for by handling its jobs."""

    def __init__(self, words: List[str], connection: socket.socket, plan: Plan, pipes: Sequence[int],
                 handle_all: Callable[[], None]) -> None:
        super().__init__(words, connection, plan.silence, plan.options.timeout, pipes)
        self.handle_all = handle_all

    def wait(self) -> int:
        """Handles jobs until the program ends. Returns its status. What the handler raises ends the program too."""
        status: List[int] = []
        waiting = threading.Thread(target=lambda: status.append(super(_HandledRun, self).wait()), daemon=True)
        waiting.start()
        try:
            self.handle_all()
        except BrokenPipeError:
            pass
        except BaseException:
            self.kill()
            waiting.join()
            raise
        waiting.join()
        return status[0]
