"""A terminal that shows lines anew each time, and is as before in the end."""
from __future__ import annotations

import contextlib
import os
import select
import shutil
import signal
import sys
import termios
import time
import tty
import unicodedata
from typing import Any, Iterator, List, Optional, Sequence

ENDS = (signal.SIGINT, signal.SIGTERM, signal.SIGHUP, signal.SIGQUIT)
# The alternate screen and no cursor, and back.
ENTER, LEAVE = b"\x1b[?1049h\x1b[?25l", b"\x1b[?25h\x1b[?1049l"
HOME, REST_OF_LINE, REST = b"\x1b[H", b"\x1b[K", b"\x1b[J"


class Signals:
    """Notes which signal came, for a loop that looks for it."""

    def __init__(self) -> None:
        self.end = 0
        self.suspend = False

    def _note(self, number: int, _frame: Any) -> None:
        if number == signal.SIGTSTP:
            self.suspend = True
        else:
            self.end = number

    @contextlib.contextmanager
    def noted(self) -> Iterator[None]:
        """Notes signals that end a process or suspend it."""
        before = {number: signal.signal(number, self._note) for number in (*ENDS, signal.SIGTSTP)}
        try:
            yield
        finally:
            for number, handler in before.items():
                signal.signal(number, handler)


class Screen:
    """The terminal of standard output, and the keys of standard input if that is a terminal too."""

    def __init__(self) -> None:
        self.keys = sys.stdin.fileno() if sys.stdin.isatty() else None
        self.modes: Optional[List[Any]] = None

    def __enter__(self) -> Screen:
        self.enter()
        return self

    def __exit__(self, *_error: Any) -> None:
        self.leave()

    def enter(self) -> None:
        """Clears the screen, and has each key come at once. Ctrl-C is a signal as before."""
        if self.keys is not None:
            self.modes = termios.tcgetattr(self.keys)
            tty.setcbreak(self.keys)
        _write(ENTER)

    def leave(self) -> None:
        """Gives the terminal back as it was."""
        if self.keys is not None and self.modes is not None:
            termios.tcsetattr(self.keys, termios.TCSADRAIN, self.modes)
            self.modes = None
        _write(LEAVE)

    def suspend(self) -> None:
        """Stops this process as Ctrl-Z does, with the terminal as before, until the shell goes on with it."""
        self.leave()
        handler = signal.signal(signal.SIGTSTP, signal.SIG_DFL)
        os.kill(os.getpid(), signal.SIGTSTP)
        signal.signal(signal.SIGTSTP, handler)
        self.enter()

    def draw(self, lines: Sequence[str]) -> None:
        """Shows these lines, as many and as much of each as there is room for."""
        columns, rows = shutil.get_terminal_size()
        shown = fitting(lines, columns, rows)
        _write(HOME + b"\r\n".join(line.encode("utf-8", "replace") + REST_OF_LINE for line in shown) + REST)

    def read_key(self, seconds: float) -> str:
        """Waits for a key. Returns nothing if none came in time."""
        if self.keys is None:
            time.sleep(seconds)
            return ""
        if not select.select([self.keys], [], [], seconds)[0]:
            return ""
        key = os.read(self.keys, 1)
        if not key:  # the terminal is gone
            self.keys = None
        return key.decode("latin-1")


def fitting(lines: Sequence[str], columns: int, rows: int) -> List[str]:
    """Returns the lines cut to the width and the height of a terminal. The last one says how many are left out."""
    shown = [cut(line, columns) for line in lines]
    if len(shown) <= rows:
        return shown
    return shown[: max(rows - 1, 0)] + [cut(f"and {len(shown) - rows + 1} more lines", columns)]


def cut(line: str, columns: int) -> str:
    """Returns the part of a line that fits, with what is no printing mark as a question mark."""
    shown, width = [], 0
    for mark in line:
        mark = mark if mark.isprintable() else "?"
        width += 0 if unicodedata.combining(mark) else 2 if unicodedata.east_asian_width(mark) in "WF" else 1
        if width > columns:
            break
        shown.append(mark)
    return "".join(shown)


def _write(text: bytes) -> None:
    sys.stdout.flush()
    while text:
        text = text[os.write(sys.stdout.fileno(), text):]
