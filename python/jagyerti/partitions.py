"""The parts of a file, one for each partition of a stream, and what is written beside them."""
from __future__ import annotations

import base64
import contextlib
import fcntl
import json
import os
from typing import Any, BinaryIO, Callable, Dict, List, Optional, Sequence

from .cluster import partition_of

# After this many bytes of a file it is written down how far the split came.
STRETCH = 64 << 20

State = Dict[str, Any]


class Refused(Exception):
    """A file, or a number of partitions, is not as it has to be."""


def read_state(path: str) -> Optional[State]:
    """Returns what FILE.partitions says; None if there is no such file."""
    try:
        with open(f"{path}.partitions", encoding="ascii") as file:
            state: State = json.load(file)
            return state
    except FileNotFoundError:
        return None
    except ValueError:
        raise Refused(f"{path}.partitions was not written by this command") from None


def write_state(path: str, state: State) -> None:
    """Replaces FILE.partitions, by a new file that is on the disk before it gets the name."""
    made = f"{path}.partitions.{os.getpid()}"
    with open(made, "w", encoding="ascii") as file:
        file.write(json.dumps(state) + "\n")
        file.flush()
        os.fsync(file.fileno())
    os.rename(made, f"{path}.partitions")


def keep_number(path: str, number: int) -> None:
    """Writes the number of partitions beside a file. Raises Refused if another number is there."""
    state = read_state(path)
    if state is None:
        write_state(path, {"partitions": number})
    elif state.get("partitions") != number:
        raise Refused(f"{path} has {state.get('partitions')} partitions, and not {number}: {path}.partitions")


def json_text(value: Any) -> bytes:
    """Returns a text of JSON as stream_fill reads it: a string, or an object of its Base64."""
    if isinstance(value, str):
        return value.encode()
    (name, text), = value.items()
    if name != "base64":
        raise ValueError
    return base64.b64decode(text, validate=True)


def key_by(by: str, is_json: bool) -> Callable[[bytes], bytes]:
    """Returns what finds the key of a record in its line: the line, a column between tabs, or a field of JSON."""
    kind, _, name = by.partition(":")
    if by == "line":
        return lambda line: line
    if kind == "column" and name.isdecimal() and int(name) > 0 and not is_json:
        return lambda line: line.split(b"\t")[int(name) - 1]
    if kind == "field" and name and is_json:
        def key_of(line: bytes) -> bytes:
            value = json.loads(line)
            fields = value["fields"] if isinstance(value.get("fields"), list) else value.items()
            return json_text(dict((json_text(one), other) for one, other in fields)[name.encode()])

        return key_of
    raise Refused(f"--by {by}: wanted line, column:N of lines with tabs, or field:NAME with --json")


class Parts:
    """The parts of a file: FILE.0 and so on. FILE.partitions says how far the file is split."""

    def __init__(self, path: str, number: int, by: str, is_json: bool) -> None:
        self.path, self.number, self.by, self.key_of = path, number, by, key_by(by, is_json)
        self.is_torn = False

    def split(self) -> List[int]:
        """Splits what came into the file since the last time. Returns the number of lines of each part."""
        state = self._begin()
        with contextlib.ExitStack() as stack:
            parts = self._open_parts(state, stack)
            file = stack.enter_context(open(self.path, "rb"))
            file.seek(state["split"])
            while self._split_stretch(file, parts, state):
                for part in parts:
                    part.flush()
                    os.fsync(part.fileno())
                write_state(self.path, state)
        lines: List[int] = state["lines"]
        return lines

    def _begin(self) -> State:
        """Returns the state from which the split goes on."""
        state = read_state(self.path) or {"partitions": self.number, "by": self.by, "split": 0,
                                          "lines": [0] * self.number, "bytes": [0] * self.number}
        if state.get("partitions") != self.number or state.get("by") != self.by:
            raise Refused(f"{self.path} was split into {state.get('partitions')} partitions by {state.get('by')}, "
                          f"and not {self.number} by {self.by}: {self.path}.partitions")
        if os.path.getsize(self.path) < state["split"]:
            raise Refused(f"{self.path} became shorter")
        return state

    def _open_parts(self, state: State, stack: contextlib.ExitStack) -> List[BinaryIO]:
        """Opens the parts, and cuts each back to the length that is written down."""
        parts: List[BinaryIO] = []
        for at in range(self.number):
            part = stack.enter_context(open(f"{self.path}.{at}", "ab"))
            if at == 0:
                fcntl.flock(part, fcntl.LOCK_EX)
                state.update(self._begin())
            if part.tell() < state["bytes"][at]:
                raise Refused(f"{self.path}.{at} became shorter")
            part.truncate(state["bytes"][at])
            parts.append(part)
        return parts

    def _split_stretch(self, file: BinaryIO, parts: Sequence[BinaryIO], state: State) -> bool:
        """Splits a stretch of the file. Returns whether there was a line."""
        begun = state["split"]
        for line in file:
            if not line.endswith(b"\n"):
                self.is_torn = True
                break
            try:
                at = partition_of(self.key_of(line[:-1]), self.number)
            except (ValueError, KeyError, IndexError, AttributeError, TypeError):
                raise Refused(f"{self.path}: line {sum(state['lines']) + 1} has no {self.by}") from None
            parts[at].write(line)
            state["split"] += len(line)
            state["bytes"][at] += len(line)
            state["lines"][at] += 1
            if state["split"] - begun >= STRETCH:
                break
        return bool(state["split"] > begun)
