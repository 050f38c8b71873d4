"""Processes that are forked, each with a number. Each reports its state, and a signal is passed on to all."""
from __future__ import annotations

import contextlib
import json
import os
import random
import select
import signal
import sys
from typing import Any, Callable, Dict, Sequence

from .connect import FAILED
from .process import HELD, die_with_parent

State = Dict[str, Any]
Tell = Callable[[State], None]


class Team:
    """One process for each number, which runs `serve` with its number and with what it reports by.

    A state has the number at "at". `rows` are the last states, and `ended` the exit statuses.
    """

    def __init__(self, numbers: Sequence[int], serve: Callable[[int, Tell], int]) -> None:
        self.numbers, self.serve = numbers, serve
        self.rows: Dict[int, State] = {}
        self.children: Dict[int, int] = {}
        self.ended: Dict[int, int] = {}
        self.left, self.pipe = b"", -1

    def start(self) -> None:
        """Starts them. Each is killed if this process ends."""
        self.pipe, given = os.pipe()
        mine = os.getpid()
        signal.pthread_sigmask(signal.SIG_BLOCK, HELD)
        for at in self.numbers:
            child = os.fork()
            if child == 0:
                self._be_one(at, given, mine)
            self.children[child] = at
        os.close(given)
        signal.pthread_sigmask(signal.SIG_UNBLOCK, HELD)

    def _be_one(self, at: int, given: int, parent: int) -> None:
        """Runs one of them, and ends this process. Signals are blocked until `serve` takes them."""
        status = FAILED

        def tell(state: State) -> None:
            os.write(given, json.dumps(state).encode() + b"\n")

        try:
            die_with_parent(parent)
            os.setpgid(0, 0)
            os.close(self.pipe)
            random.seed()
            status = self.serve(at, tell)
        except BaseException:
            sys.excepthook(*sys.exc_info())
        os._exit(status)

    def pass_on(self) -> None:
        """Ends all that run by SIGTERM."""
        for child in list(self.children):
            with contextlib.suppress(ProcessLookupError):
                os.kill(child, signal.SIGTERM)

    def take_rows(self, seconds: float) -> bool:
        """Takes what they report within these seconds. Returns whether anything came."""
        if not select.select([self.pipe], [], [], seconds)[0]:
            return False
        piece = os.read(self.pipe, 65536)
        *lines, self.left = (self.left + piece).split(b"\n")
        for line in lines:
            row = json.loads(line)
            self.rows[row["at"]] = row
        return bool(piece)

    def reap(self) -> None:
        """Takes the status of each that ended."""
        while self.children:
            child, status = os.waitpid(-1, os.WNOHANG)
            if child == 0:
                return
            if child in self.children:
                self.ended[self.children.pop(child)] = _exit_code(status)

    def worst(self) -> int:
        """Returns 0, or the status of the first that has another."""
        return next((self.ended[at] for at in self.numbers if self.ended[at]), 0)


def _exit_code(status: int) -> int:
    return os.WEXITSTATUS(status) if os.WIFEXITED(status) else 128 + os.WTERMSIG(status)
