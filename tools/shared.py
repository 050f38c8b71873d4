"""What the tools share: words and ends, clocks, tables, processes, connections, and sessions of programs."""
import argparse
import base64
import contextlib
import glob
import json
import os
import pathlib
import re
import resource
import shutil
import socket
import sqlite3
import subprocess
import sys
import threading
import time
from typing import Any, Callable, Dict, Iterable, Iterator, List, Optional, Sequence, Tuple, Union

sys.dont_write_bytecode = True
ROOT = os.path.dirname(os.path.dirname(os.path.abspath(__file__)))
sys.path.insert(0, f"{ROOT}/python")
from jagyerti import connect, process, resp, server as servers

TOOL = os.path.basename(sys.argv[0])
TOOLS, JAGYERTI = f"{ROOT}/tools", f"{ROOT}/bin/jagyerti"
# What a tool says at --help that ends as all do.
STATUS = ("\n\nExit status: 0 if all is as it has to be, 1 if not; 2 for other words, or if something that it wants is "
          "not there.")
SIMPLE, SIZED = (b"+", b"-", b"_", b":", b",", b"#", b"("), (b"$", b"=", b"!", b"*", b"~", b">", b"%", b"|")


def words_of(doc: Optional[str], *places: str, **options: Any) -> argparse.Namespace:
    """Reads the words of a tool, whose `doc` is printed at --help, and at other words, with which it ends with 2.

    A place is a name, with what argparse calls nargs behind it. The usual value of an option says what it takes: False
    takes nothing, None and '' a text, a number a number, and an empty list all words after it, or None without it.
    """
    parser = argparse.ArgumentParser()
    told = (doc or "").strip() + ("" if "Exit status" in (doc or "") else STATUS)
    parser.format_help = parser.format_usage = lambda: f"{told}\n"  # type: ignore[method-assign]
    for place in places:
        name = place.rstrip("?*+.")
        parser.add_argument(name, nargs=place[len(name):] or None)
    for option, usual in options.items():
        kind: Dict[str, Any] = {"default": usual, "type": str if usual is None else type(usual)}
        if usual is False or isinstance(usual, list):
            kind = {"action": "store_true"} if usual is False else {"nargs": argparse.REMAINDER}
        parser.add_argument(f"--{option.replace('_', '-')}", **kind)
    return parser.parse_args()


def fail(text: object) -> Any:
    """Says on standard error why the tool does nothing, and ends it with 2."""
    print(f"{TOOL}: {text}", file=sys.stderr)
    sys.exit(2)


def want(*names: str) -> None:
    """Ends with 2 if one of these programs is not there; those of this repository are found as the command does it."""
    lacking = [name for name in names if not name.startswith("stream_") and shutil.which(name) is None]
    if lacking:
        fail(f"not there: {', '.join(lacking)}")
    for name in filter(re.compile("stream_").match, names):
        find_program(name)


def program_of(crate: str, given: Optional[str] = None) -> str:
    """The given program, or that of this name in JAGYERTI_PROGRAMS, or that 'rt run' builds; ends with 2 if none is."""
    folder = os.environ.get("JAGYERTI_PROGRAMS") or f"{ROOT}/crates/{crate}/out"
    path = os.path.abspath(given or f"{folder}/{crate}")
    return path if os.path.isfile(path) else fail(f"{path} is not there: 'rt run' in crates/{crate} makes it")


def find_program(name: str) -> str:
    """A program as the command jagyerti finds it; ends with 2 if there is none."""
    try:
        return process.find_program(name)
    except connect.Failed as failed:
        return fail(failed)


def compiled(folder: str, source: str, *words: str) -> Optional[str]:
    """The path of what cc makes of a file of tools/, None if it makes nothing."""
    path = f"{folder}/{os.path.basename(source)}.out"
    command = ["cc", "-O2", "-o", path, os.path.join(TOOLS, source), *words]
    return path if subprocess.run(command, stderr=subprocess.DEVNULL, check=False).returncode == 0 else None


class Failed(Exception):
    """What is not as it has to be."""


def end_with(main: Callable[[], Optional[int]]) -> None:
    """Ends the tool with the status that its `main` returns, or with 1 and the reason if that fails."""
    try:
        sys.exit(main())
    except (Failed, connect.Failed, OSError, subprocess.CalledProcessError) as reason:
        sys.exit(f"{TOOL}: {reason}")


def ran(words: Sequence[str], folder: str = ROOT, **more: Any) -> str:
    """Runs a command to its end, and returns what it prints. Fails if its status is not 0."""
    done = subprocess.run(words, cwd=folder, stdin=subprocess.DEVNULL, stdout=subprocess.PIPE, stderr=subprocess.STDOUT,
                          text=True, errors="replace", check=False, **more)
    if done.returncode:
        raise Failed(f"{' '.join(words)[:300]} ended with {done.returncode}: {done.stdout[-2000:]}")
    return done.stdout


def python_with(module: str) -> Optional[str]:
    """An interpreter that has this module, None if there is none."""
    for python in (sys.executable, "/usr/bin/python3"):
        command = [python, "-c", f"import {module}"]
        if os.path.exists(python) and not subprocess.run(command, stderr=subprocess.DEVNULL, check=False).returncode:
            return python
    return None


def content(path: str) -> Optional[bytes]:
    """The bytes of a file, None if there is none."""
    return pathlib.Path(path).read_bytes() if os.path.exists(path) else None


def text_of(path: str) -> str:
    """The text of a file, whose path begins at the root of the repository if it is not absolute."""
    return pathlib.Path(ROOT, path).read_text("utf-8", "replace")


def write(path: str, data: Union[str, bytes], mode: int = 0) -> str:
    """Writes a file, with this mode if one is given, and returns its path."""
    pathlib.Path(path).write_bytes(data.encode() if isinstance(data, str) else data)
    if mode:
        os.chmod(path, mode)
    return path


def query(path: str, *statements: str) -> List[Tuple[Any, ...]]:
    """Runs statements of SQL on a file, and returns the rows of the last one."""
    with contextlib.closing(sqlite3.connect(path)) as database, database:
        return [database.execute(statement).fetchall() for statement in statements][-1]


def blocks_of(lines: Sequence[str]) -> Iterator[Tuple[Optional[str], int, List[str]]]:
    """Yields the language of each block of a page, None for an indented one, its first line's number, and its lines."""
    at = 0
    while at < len(lines):
        fence, end = re.match(r"\s*```(\w*)$", lines[at]), at + 1
        if fence:
            end = next((each for each in range(end, len(lines)) if lines[each].strip() == "```"), len(lines))
            yield fence[1], at + 2, list(lines[at + 1:end])
            end += 1
        elif lines[at].startswith("    ") and (at == 0 or not lines[at - 1].strip()):
            while end < len(lines) and (lines[end].startswith("    ") or not lines[end].strip()):
                end += 1
            yield None, at + 1, [line.strip() for line in lines[at:end]]
        at = end


def crates() -> Dict[str, List[str]]:
    """The crates of crates.txt, in its order, each with those that it uses."""
    lines = [line.partition("#")[0].partition(":") for line in text_of("crates.txt").splitlines()]
    return {names.split()[0]: below.split() for names, _, below in lines if names.strip()}


def crates_below(*names: str) -> List[str]:
    """These crates, and all crates of the repository that they need."""
    uses, found = crates(), list(names)
    for each in found:
        found += [it for it in uses.get(each, []) if it in uses and it not in found]
    return found


def of_crate(crate: str, file: str) -> bytes:
    return content(f"{ROOT}/crates/{crate}/{file}") or b""


def short_run(crate: str) -> Tuple[bytes, bytes]:
    """The input that a program is run on, and its right output. If it has a file `sweep`, they are of its cases alone:
    lines that begin with one and a tab, or paragraphs with the title of one."""
    stdin, stored, swept = (of_crate(crate, file) for file in ("stdin", "stdout", "sweep"))
    if not swept:
        return stdin, stored
    if swept.startswith(b"#"):
        parts = {text.split(b"\n")[0]: text + b"\n\n" for text in stored.split(b"\n\n")}
        return swept, b"".join(parts[script.split(b"\n")[0]] for script in swept.split(b"\n\n"))
    parts = {line.rsplit(b"\t", 1)[0]: line for line in stored.splitlines(keepends=True)}
    return swept, b"".join(parts[case] for case in swept.splitlines())


def taken(work: Callable[[], object]) -> Tuple[float, float]:
    """Does some work. Returns the seconds of the clock, and those of a processor in children, that it took."""
    worked = lambda: sum(resource.getrusage(resource.RUSAGE_CHILDREN)[:2])
    before, begun = worked(), time.monotonic()
    work()
    return time.monotonic() - begun, worked() - before


def figures(command: Sequence[str], pattern: str, preload: str = "") -> List[int]:
    """The numbers that standard error of a run has at this pattern, with a library preloaded, or ChildProcessError."""
    env = {**os.environ, "LD_PRELOAD": preload, "COUNT_REQUESTS": "1"} if preload else None
    ran = subprocess.run(command, env=env, capture_output=True, text=True, check=False)
    found = re.search(pattern, ran.stderr)
    if ran.returncode or found is None:
        raise ChildProcessError(f"{' '.join(command)}: ended with {ran.returncode}\n{ran.stderr[-2000:]}")
    return [int(number.replace(",", "")) for number in found.groups()]


def requests_of(command: Sequence[str], shim: str) -> List[int]:
    return figures(command, r"requests (\d+) (\d+)", shim)


def in_turn(ways: Dict[Any, Callable[[], Sequence[float]]], runs: int,
            fold: Callable[[Any], float] = min) -> Dict[Any, List[float]]:
    """Goes these ways in turn, so often, from the other end each second time. Returns what each took, folded."""
    took: Dict[Any, List[Sequence[float]]] = {name: [] for name in ways}
    for turn in range(runs):
        for name in list(ways)[::-1] if turn % 2 else list(ways):
            took[name].append(ways[name]())
    return {name: [fold(column) for column in zip(*each)] for name, each in took.items()}


def row(*cells: object) -> None:
    """Prints a row of a table, with a comma in each number of four digits and more."""
    print(f"| {' | '.join(f'{cell:,}' if isinstance(cell, int) else str(cell) for cell in cells)} |", flush=True)


def print_load() -> None:
    """Prints how busy the machine was in the last minute, since figures of a busy one are lower."""
    print(f"\nload {os.getloadavg()[0]:.1f} on {len(os.sched_getaffinity(0))} processors\n", flush=True)


def head(*names: str) -> None:
    row(*names)
    print("|" + "---|" * len(names), flush=True)


def table(cells: Dict[str, object]) -> None:
    head(*cells)
    row(*cells.values())
    print()


@contextlib.contextmanager
def step(done: str) -> Iterator[None]:
    """Says that something is done, and the seconds that it took, once it is."""
    begun = time.monotonic()
    yield
    print(f"{TOOL}: {done} ({time.monotonic() - begun:.0f} s)", flush=True)


def until(holds: Callable[[], object], seconds: float, what: str) -> None:
    """Waits until this holds."""
    end = time.monotonic() + seconds
    while time.monotonic() < end:
        with contextlib.suppress(OSError, resp.ReplyError, connect.Failed):
            if holds():
                return
        time.sleep(0.1)
    raise TimeoutError(f"{what}: not within {seconds} seconds")


def below(top: int) -> Dict[int, int]:
    """The processes below this one, each with its parent. It takes less than a millisecond."""
    pids, parents = [top], {}
    for pid in pids:
        for children in glob.glob(f"/proc/{pid}/task/*/children"):
            with contextlib.suppress(OSError):
                begun = list(map(int, text_of(children).split()))
                parents.update(dict.fromkeys(begun, pid))
                pids += begun
    return parents


def words_of_process(pid: int) -> List[str]:
    """The words of a process, none if it is over."""
    with contextlib.suppress(OSError):
        return text_of(f"/proc/{pid}/cmdline").split("\0")[:-1]
    return []


def begin(*works: Callable[[], object]) -> List[threading.Thread]:
    """Does each work in a thread of its own, which ends with the process."""
    threads = [threading.Thread(target=work, daemon=True) for work in works]
    for thread in threads:
        thread.start()
    return threads


def join(threads: Iterable[threading.Thread]) -> None:
    for thread in threads:
        thread.join()


def named(reply: Sequence[Any]) -> Dict[Any, Any]:
    """A reply of names and values, or the fields of an entry, as a dict."""
    return dict(zip(reply[::2], reply[1::2]))


def shown(text: bytes) -> Union[str, Dict[str, str]]:
    """A text as the programs' JSON has it: one that is not UTF-8 is an object of its Base64."""
    try:
        return text.decode()
    except UnicodeDecodeError:
        return {"base64": base64.b64encode(text).decode()}


def as_json(value: Any) -> str:
    """A value as the programs' JSON has it, in which a text that is not UTF-8 is as `shown` has it."""
    return json.dumps(value, ensure_ascii=False, separators=(",", ":"))


def line_of(id: resp.Word, fields: Iterable[resp.Word], is_json: bool = False) -> bytes:
    """The line of an entry in a file of stream_drain, without its end."""
    texts = list(map(resp.to_bytes, [id, *fields]))
    if is_json:
        told, *pairs = map(shown, texts)
        return as_json({"id": told, "fields": list(zip(pairs[::2], pairs[1::2]))}).encode()
    for byte, letter in (b"\\", b"\\"), (b"\t", b"t"), (b"\n", b"n"), (b"\r", b"r"):
        texts = [text.replace(byte, b"\\" + letter) for text in texts]
    return b"\t".join(texts)


def ask_all(server: servers.Server, commands: Iterable[Sequence[resp.Word]]) -> List[Any]:
    """Sends commands over a connection of their own, and returns all replies."""
    with server.open() as connection:
        return resp.ask_all(connection, commands)


def over(port: int, command: str) -> List[str]:
    """The words that run a command of the shell whose standard input and output are a connection to this port."""
    return ["bash", "-c", f"exec 3<>/dev/tcp/127.0.0.1/{port}; exec {command} <&3 >&3"]


def listen(take: Callable[[socket.socket], object]) -> int:
    """Has each connection to a port of its own taken, one after the other; returns the port."""
    listener = socket.create_server(("127.0.0.1", 0))

    def accept() -> None:
        while True:
            take(listener.accept()[0])

    begin(accept)
    return int(listener.getsockname()[1])


def says(replies: bytes, ends: bool = True) -> Callable[[socket.socket], None]:
    """Takes a connection: says this, whatever is asked. Its side is over then if it ends."""
    def take(client: socket.socket) -> None:
        client.sendall(replies)
        if ends:
            client.shutdown(socket.SHUT_WR)
        while client.recv(65536):
            pass
    return take


def raw_replies(connection: socket.socket, commands: Iterable[Sequence[resp.Word]]) -> bytes:
    """The bytes of the replies to these commands, which are sent at once."""
    connection.sendall(b"".join(map(resp.encode, [*commands, ["ECHO", "end-of-replies"]])))
    data, mark = b"", resp.encode_reply("end-of-replies")
    while not data.endswith(mark):
        if not (piece := connection.recv(1 << 20)):
            raise ConnectionError("the server closed the connection")
        data += piece
    return data[:-len(mark)]


def reply_at(data: bytes, at: int = 0) -> Tuple[Tuple[bytes, Any], int]:
    """The reply that begins there, as its kind and its text or its parts, and where it ends. It is read by its type and
    length alone, by none of the package's readers. The text of nil is None, and the last part of an attribute is the
    reply that has it. ValueError if no whole reply begins there."""
    end = data.index(b"\r\n", at)
    kind, text, at = data[at:at + 1], data[at + 1:end], end + 2
    if kind not in SIMPLE + SIZED:
        raise ValueError(f"no kind of a reply: {kind!r}")
    if kind in SIMPLE or int(text) < 0:
        return (kind, text if kind in SIMPLE else None), at
    if kind in (b"$", b"=", b"!"):
        end = at + int(text)
        if data[end:end + 2] != b"\r\n":
            raise ValueError("a text without its end")
        return (kind, data[at:end]), end + 2
    parts = []
    for _ in range(int(text) * (2 if kind in (b"%", b"|") else 1) + (kind == b"|")):
        part, at = reply_at(data, at)
        parts.append(part)
    return (kind, parts), at


def replies_in(data: bytes) -> List[bytes]:
    """The bytes of each reply, one after the other; ValueError if they are no whole ones."""
    ends = [0]
    while ends[-1] < len(data):
        ends.append(reply_at(data, ends[-1])[1])
    return [data[at:end] for at, end in zip(ends, ends[1:])]
