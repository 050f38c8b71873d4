"""Handlers of jobs: a job is an entry of a stream, as `jagyerti run` passes it to a program line by line."""
from __future__ import annotations

import base64
import io
import json
import os
import signal
import sys
import traceback
from typing import Any, BinaryIO, Callable, Dict, List, Mapping, NamedTuple, Optional, Tuple, Union

Field = Union[str, bytes]
Value = Union[str, bytes, int, float]
# Its keys are of Field; but then mypy would refuse a Dict[str, str], since the keys of a Mapping are of one type.
Fields = Mapping[Any, Value]
MOST_TEXT = 1000  # bytes of the text that goes with a reply
MOST_REPLY = 65536  # bytes of a reply, without its line feed
ADDING = b'{"done":true,"add":[%b]}'
READ_JSON = json.JSONDecoder().raw_decode  # a third of the time of json.loads, for a short line


class Later(Exception):
    """A handler raises it for a job that stays pending, and comes again. Its text says why."""


class Dead(Exception):
    """A handler raises it for a job that no further try can help. With --dead its text goes to the dead letters, at once."""


class Stop(Exception):
    """A handler raises it to end the worker. The job stays pending."""


class _Entry(NamedTuple):
    id: str
    pairs: List[Tuple[Field, Field]]
    stream: Optional[str] = None
    deliveries: Optional[int] = None


class Job(_Entry):
    """An entry of a stream. A name or a value is bytes if it is not UTF-8.

    `deliveries` is how often it was delivered so far, with `jagyerti run --deliveries`. `added` is for the reply.
    """

    added: bytes = b""

    @property
    def fields(self) -> Dict[Field, Field]:
        """Returns the fields as a dictionary. Of repeated names it has the last."""
        return dict(self.pairs)

    def text(self, name: Field) -> str:
        """Returns the last value of a field, which has to be text. Raises KeyError or UnicodeDecodeError."""
        value = self.fields[name]
        return value if isinstance(value, str) else value.decode()


    def add(self, stream: Field, fields: Fields) -> None:
        """Adds an entry to another stream once the job is done, before it is acknowledged; nothing if the handler raises.

        Numbers are written as `str` does it. Raises ValueError if there is no name of a stream or no field, if a name or a
        value is no text in UTF-8 and no number, and if the entries of the job make its reply longer than 64 KiB.
        """
        if not stream or not fields:
            raise ValueError("an entry wants the name of its stream, and one field at least")
        entry = [_text(stream), {_text(name): _text(value) for name, value in fields.items()}]
        added = json.dumps(entry, ensure_ascii=False, separators=(",", ":")).encode()
        added = b"%b,%b" % (self.added, added) if self.added else added
        if len(ADDING % added) > MOST_REPLY:
            raise ValueError(f"the entries that a job adds make a reply of more than {MOST_REPLY} bytes")
        self.added = added


Handle = Callable[[Job], Any]


def read_job(line: bytes) -> Job:
    """Reads the line of an entry. Raises ValueError."""
    text = line.decode()
    it, end = READ_JSON(text)
    is_entry = isinstance(it, dict) and isinstance(it.get("id"), str) and isinstance(it.get("fields"), list)
    if not is_entry or text[end:].strip():
        raise ValueError("a line that is no entry")
    pairs = [(name if type(name) is str else _field(name), value if type(value) is str else _field(value))
             for name, value in it["fields"]]
    return Job(it["id"], pairs, it.get("stream"), it.get("deliveries"))


def _field(value: Any) -> Field:
    return base64.b64decode(value["base64"], validate=True)


def _text(value: Value) -> str:
    """Returns a name or a value as text."""
    if isinstance(value, bytes):
        return value.decode()
    if isinstance(value, (str, int, float)) and not isinstance(value, bool):
        return str(value)
    raise ValueError(f"{value!r} is no text and no number")


def reply_to(handle: Handle, job: Job) -> bytes:
    """Calls the handler. Returns the line that says what became of the job.

    The job is done if the handler returns. What it added is in the line then. An exception other than those of this module
    is shown on standard error, and the job comes again later.
    """
    try:
        handle(job)
        return ADDING % job.added + b"\n" if job.added else b"done\n"
    except Stop:
        return b"stop\n"
    except Later as said:
        return _line("later", str(said))
    except Dead as said:
        return _line("dead", str(said).strip() or "no reason is said")
    except Exception as error:  # pylint: disable=broad-except
        traceback.print_exc()
        return _line("later", f"{type(error).__name__}: {error}")


def _line(word: str, text: str) -> bytes:
    shown = " ".join(text.split()).encode(errors="replace")[:MOST_TEXT].decode(errors="ignore")
    return f"{word} {shown}".strip().encode() + b"\n"


def serve(handle: Handle, lines: BinaryIO, replies: BinaryIO, is_asked_to_end: Callable[[], bool] = lambda: False) -> None:
    """Handles one job after the other, until the lines end. Once it is asked to end, the next line gets 'stop'."""
    for line in lines:
        replies.write(b"stop\n" if is_asked_to_end() else reply_to(handle, read_job(line)))
        replies.flush()


class Handler:
    """A function that handles jobs. It can be called as before."""

    def __init__(self, handle: Handle) -> None:
        self.handle = handle
        self.__doc__ = handle.__doc__

    def __call__(self, job: Job) -> Any:
        return self.handle(job)

    def serve(self) -> None:
        """Handles the jobs of standard input, and replies on standard output. What is printed goes to standard error.

        At a signal `jagyerti run` asks by SIGWINCH that the job in hand is the last one.
        """
        asked: List[int] = []
        signal.signal(signal.SIGWINCH, lambda number, _: asked.append(number))
        if isinstance(sys.stdout, io.TextIOWrapper):
            sys.stdout.reconfigure(line_buffering=True)
        replies = os.fdopen(os.dup(1), "wb", buffering=0)
        os.dup2(2, 1)
        with replies:
            serve(self.handle, sys.stdin.buffer, replies, lambda: bool(asked))


def handler(handle: Handle) -> Handler:
    """Makes a function the handler of jobs that `jagyerti run` passes to this program: `serve` handles them all."""
    return Handler(handle)
