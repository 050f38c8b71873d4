"""jagyerti demo: shows that what goes in comes out, once, though both ends are killed on the way."""
from __future__ import annotations

import argparse
import contextlib
import os
import subprocess
import tempfile
from typing import IO, Any, Iterator, List, NamedTuple, Optional, Tuple

from .. import process, resp, server
from ..connect import Failed

LINES, BATCH = 500, 100
FILL = ["stream_fill", "orders", "in.txt", "--batch", str(BATCH)]
DRAIN = ["stream_drain", "orders", "packers", "ann", "out.txt", "--from", "0", "--count", str(BATCH), "--quiet",
         "--until-empty"]
CLAIM = ["stream_drain", "shop", "packers", "ann", "shop.txt", "--idle", "10", "--quiet", "--until-empty"]
SHOP = """\
XADD shop 1-0 item tea
XADD shop 2-0 item cup
XADD shop 3-0 item tin
XADD shop 4-0 item pot
XGROUP CREATE shop packers 0
XREADGROUP GROUP packers ann COUNT 1 STREAMS shop >
XREADGROUP GROUP packers bob COUNT 2 STREAMS shop >
XCLAIM shop packers bob 0 2-0 3-0 IDLE 20 JUSTID
XDEL shop 3-0
"""
DESCRIPTION = f"""\
stream_fill brings {LINES} lines of a file into a stream, and stream_drain writes them to another file. Both are killed by
SIGKILL at moments that are shown, and called again with the same words. At the end the two files are compared. The last
part is a group with a dead consumer and a deleted entry.

The server is stream_serve, in memory, or with --redis a redis-server of its own. It lives through it all. The demo is the
line between the server and one program at a time. At a kill, what is on the line is lost, and so is a MULTI without its
EXEC, as at any server whose client is gone. Nothing is kept.
"""
EPILOG = """\
exit status: 0 if the lines that came out are those that went in, each once and in order, and no entry is left; else 1.

example: jagyerti demo
"""


class Cut(NamedTuple):
    """The moment of a kill: at this command of a run, counted from 1, before the server has it, or else after it."""

    name: str
    number: int
    is_before: bool
    shown: str


FILL_CUTS = [
    Cut("XADD", 251, True, "in the middle of its third batch: 50 of 100 XADDs are sent, and no EXEC"),
    Cut("EXEC", 2, False, "after its second EXEC is done at the server, and before it hears so"),
]
DRAIN_CUTS = [
    Cut("XACK", 2, True, "after its file has the second batch, and before the server has its XACK"),
    Cut("XREADGROUP", 3, False, "after the server gave it a batch, and before it hears so"),
]


def add_parser(subparsers: Any) -> None:
    """Adds the subcommand."""
    parser = subparsers.add_parser("demo", help="see a stream lose nothing, though both ends are killed", epilog=EPILOG,
                                   description=DESCRIPTION, formatter_class=argparse.RawDescriptionHelpFormatter,
                                   allow_abbrev=False)
    parser.add_argument("--redis", action="store_true", help="over a redis-server of its own, which has to be installed")


def run(arguments: argparse.Namespace) -> int:
    """Runs the demo, and returns the exit status."""
    with tempfile.TemporaryDirectory(prefix="jagyerti-demo-") as folder, start_server(arguments.redis) as line:
        demo = Demo(folder, line)
        demo.write_lines()
        demo.fill()
        is_right = [demo.drain(), demo.compare(), demo.claim()]
    return 0 if all(is_right) else 1


class Line:
    """The line to a server, as one program at a time has it."""

    def __init__(self, reader: IO[bytes], writer: IO[bytes]) -> None:
        self.reader, self.writer = reader, writer

    def ask(self, words: List[bytes]) -> bytes:
        """Returns the bytes of the reply to a command."""
        self.writer.write(resp.encode(words))
        self.writer.flush()
        return self._read_reply()

    def ask_number(self, text: str) -> int:
        """Returns the first number of a reply: how many entries XLEN or XPENDING found."""
        lines = self.ask(text.encode().split()).split(b"\r\n")
        return next((int(line[1:]) for line in lines if line.startswith(b":")), 0)

    def _read_reply(self) -> bytes:
        line = self.reader.readline()
        if not line:
            raise Failed("the server has ended")
        kind, size = line[:1], line[1:-2]
        if kind == b"$" and size != b"-1":
            line += self.reader.read(int(size) + 2)
        elif kind == b"*" and size != b"-1":
            line += b"".join(self._read_reply() for _ in range(int(size)))
        return line


@contextlib.contextmanager
def start_server(is_redis: bool) -> Iterator[Line]:
    """Starts the server, and yields the line to it."""
    if is_redis:
        with server.start_redis() as started, started.open() as connection:
            yield Line(connection.makefile("rb"), connection.makefile("wb"))
        return
    words = [process.find_program("stream_serve")]
    with subprocess.Popen(words, stdin=subprocess.PIPE, stdout=subprocess.PIPE) as serve:
        assert serve.stdin and serve.stdout
        yield Line(serve.stdout, serve.stdin)


def read_word(program: IO[bytes]) -> Optional[bytes]:
    """Returns the next word of a command that a program sends; None if the program has ended before the word's end."""
    head = program.readline()
    size = int(head[1:]) + 2 if head.endswith(b"\r\n") else 0
    text = program.read(size)
    return text[:-2] if size and len(text) == size else None


def read_command(program: IO[bytes]) -> List[bytes]:
    """Returns the words of the next command that a program sends; none if it has ended before the command's end."""
    head = program.readline()
    words = [read_word(program) for _ in range(int(head[1:]) if head.endswith(b"\r\n") else 0)]
    whole = [word for word in words if word is not None]
    return whole if len(whole) == len(words) else []


class Demo:
    """The demo: its folder, and the line to its server."""

    def __init__(self, folder: str, line: Line) -> None:
        self.folder, self.line = folder, line

    def run(self, words: List[str], cut: Optional[Cut] = None) -> Tuple[List[List[bytes]], str]:
        """Calls a program up to its end or the cut. Returns the commands that it sent, and what it printed."""
        print("$ " + " ".join(words), flush=True)
        call = [process.find_program(words[0]), *words[1:]]
        with tempfile.TemporaryFile() as said:
            program = subprocess.Popen(call, cwd=self.folder, stdin=subprocess.PIPE, stdout=subprocess.PIPE, stderr=said)
            sent: List[List[bytes]] = []
            is_cut = False
            try:
                is_cut = self.pass_on(program, cut, sent)
                if is_cut:
                    program.kill()
            finally:
                with contextlib.suppress(BrokenPipeError):
                    program.communicate()
            said.seek(0)
            text = said.read().decode().strip()
        if cut and not is_cut or not cut and program.returncode:
            raise Failed(f"{words[0]} ended with {program.returncode}: {text}")
        return sent, text

    def pass_on(self, program: "subprocess.Popen[bytes]", cut: Optional[Cut], sent: List[List[bytes]]) -> bool:
        """Passes commands and replies on. Returns whether the cut came."""
        assert program.stdin and program.stdout
        is_queued = False
        while words := read_command(program.stdout):
            name = words[0].decode()
            sent.append(words)
            is_here = bool(cut and name == cut.name and [it[0] for it in sent].count(words[0]) == cut.number)
            if is_here and cut and cut.is_before:
                if is_queued:
                    self.line.ask([b"DISCARD"])
                return True
            is_queued = name == "MULTI" or is_queued and name != "EXEC"
            reply = self.line.ask(words)
            if is_here:
                return True
            with contextlib.suppress(BrokenPipeError):
                program.stdin.write(reply)
                program.stdin.flush()
        return False

    def write_lines(self) -> None:
        """Writes the file that goes in."""
        lines = [f"order {number}: {number % 7 + 1} cups of tea" for number in range(1, LINES + 1)]
        with open(os.path.join(self.folder, "in.txt"), "w", encoding="ascii") as file:
            file.writelines(f"{line}\n" for line in lines)
        print(f"in.txt has {LINES} lines: '{lines[0]}' .. '{lines[-1]}'")

    def read_lines(self, name: str) -> List[bytes]:
        """Returns the lines of a file."""
        with open(os.path.join(self.folder, name), "rb") as file:
            return file.read().splitlines()

    def fill(self) -> None:
        """Fills the stream."""
        for cut in [*FILL_CUTS, None]:
            _, said = self.run(FILL, cut)
            print(f"  killed {cut.shown}\n " if cut else f"  it ends by itself: {said};", end="")
            print(f" the stream has {self.line.ask_number('XLEN orders')} entries")

    def drain(self) -> bool:
        """Drains the stream. Returns whether no entry is left pending."""
        pending = 0
        for cut in [*DRAIN_CUTS, None]:
            _, said = self.run(DRAIN, cut)
            pending = self.line.ask_number("XPENDING orders packers")
            print(f"  killed {cut.shown}\n " if cut else f"  it ends by itself: {said};", end="")
            print(f" out.txt has {len(self.read_lines('out.txt'))} lines; {pending} entries are pending")
        return pending == 0

    def compare(self) -> bool:
        """Compares the two files by a command that anybody can type. Returns whether they are the same."""
        print("$ tail -n 1 out.txt\n" + self.read_lines("out.txt")[-1].decode())
        shown = "cut -f 3 out.txt | cmp - in.txt"
        print(f"$ {shown} && echo the same", flush=True)
        status = subprocess.run(["bash", "-c", f"set -o pipefail; {shown}"], cwd=self.folder, check=False).returncode
        print("the same" if status == 0 else "THEY DIFFER")
        return status == 0

    def claim(self) -> bool:
        """Drains a group with a dead consumer and a deleted entry. Returns whether no entry is left."""
        for line in SHOP.splitlines():
            self.line.ask(line.encode().split())
        print("shop, another stream: ann was given 1-0 and died; bob 2-0 and 3-0, and he is gone; 3-0 was deleted")
        sent, _ = self.run(CLAIM)
        pending = self.line.ask_number("XPENDING shop packers")
        shown = [b" ".join([b"XACK", *words[3:]]) if words[0] == b"XACK" else words[0] for words in sent]
        print("  it sent " + b", ".join(shown).decode())
        ids = [line.split(b"\t")[0].decode() for line in self.read_lines("shop.txt")]
        print(f"  shop.txt has {' '.join(ids)}; {pending} entries are pending")
        return ids == ["1-0", "2-0", "4-0"] and pending == 0
