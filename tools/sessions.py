"""Sessions of programs, as tools/check/try-* play them: what a program sends, says and leaves in files, to the byte."""
import contextlib
import dataclasses
import fcntl
import itertools
import os
import re
import shutil
import subprocess
import tempfile
from typing import Any, Callable, Dict, Iterable, Iterator, List, Optional, Sequence, Tuple, Union

from shared import TOOL, content, program_of, resp, text_of, words_of, write

CLOSED = "the server closed the connection"
PIPES = dict(stdin=subprocess.PIPE, stdout=subprocess.PIPE, stderr=subprocess.PIPE)


@dataclasses.dataclass
class Session:
    """A session: the words that a program is called with, and what it asks its server, each with the reply to it. All
    replies are at the standard input of the program from the start. Texts of words are as a line, or one by one; bytes
    are a reply as it is sent."""

    name: str
    words: Union[str, List[str]]
    talk: List[Any]
    said: str = ""  # the whole of standard error
    status: int = 0
    unasked: Sequence[Any] = ()  # replies that are there too, after the others
    locked: str = ""  # a file that another process has

    protocol = 3  # of the replies

    def replies(self) -> bytes:
        return as_sent([*self.talk[1::2], *self.unasked], self.protocol)

    def asked(self) -> bytes:
        return b"".join(resp.encode(words_in(command)) for command in self.talk[::2])

    def files(self) -> Dict[str, Tuple[Optional[bytes], Optional[bytes]]]:
        """Of each file its bytes before and after, None if it is not there."""
        return {}

    def run(self, program: str, **more: Any) -> List[str]:
        """Runs it. Returns what goes otherwise in what is sent and said, and in the status."""
        command = [program, *words_in(self.words)]
        ran = subprocess.run(command, input=self.replies(), capture_output=True, timeout=60, **more)
        return differences(sent=(ran.stdout, self.asked()), status=(ran.returncode, self.status),
                           said=(ran.stderr.decode(), self.said))

    def differs(self, program: str, **more: Any) -> List[str]:
        """Runs it in a folder of its own. Returns what goes otherwise, in its files too."""
        with tempfile.TemporaryDirectory() as folder, contextlib.ExitStack() as held:
            for name, (before, _) in self.files().items():
                if before is not None:
                    write(f"{folder}/{name}", before)
            if self.locked:
                fcntl.flock(held.enter_context(open(f"{folder}/{self.locked}", "ab")), fcntl.LOCK_EX)
            wrong = self.run(program, cwd=folder, **more)
            files = {name: (content(f"{folder}/{name}"), after) for name, (_, after) in self.files().items()}
            return wrong + differences(**files)


def weave(asked: Sequence[Any], replies: Sequence[Any]) -> List[Any]:
    """Questions, each with the reply to it, and with none if they are more."""
    return [part for pair in itertools.zip_longest(asked, replies, fillvalue=b"") for part in pair]


def words_in(line: Union[str, List[Any]]) -> List[Any]:
    return line.split() if isinstance(line, str) else line


def as_sent(replies: Iterable[Any], protocol: int = 3) -> bytes:
    """Replies as the server sends them: bytes are one as it is."""
    return b"".join(reply if isinstance(reply, bytes) else resp.encode_reply(reply, protocol) for reply in replies)


def pushed(message: bytes, talk: Sequence[Any]) -> List[Any]:
    """The same talk with a message before each reply."""
    return weave(talk[::2], [message + as_sent([reply]) for reply in talk[1::2]])


def differences(**pairs: Tuple[Any, Any]) -> List[str]:
    """What was got otherwise than it has to be; of what is long the end is shown."""
    end = lambda value: repr(value[-2000:] if isinstance(value, (bytes, str)) else value)
    return [f"{what}: {end(got)}, not {end(right)}" for what, (got, right) in pairs.items() if got != right]


def outcomes(tool: Dict[str, Any], program: str) -> Iterator[Tuple[str, Any]]:
    """The name of each session and each check of a tool, and what goes otherwise in it."""
    for name, work in tool.items():
        if name.startswith("sessions_"):
            yield from ((f"{session.name} ({session.words})", session.differs(program)) for session in work())
        elif name.startswith("check_"):
            yield work.__doc__, work(program)


def judge(crate: str, tool: Dict[str, Any]) -> int:
    """Plays the sessions that the functions sessions_* of a tool make, with its program. Then its checks: functions
    check_*, whose text is their name; one that did not run returns why. Says what goes otherwise; the tool's status."""
    program = program_of(crate, words_of(tool["__doc__"], "PROGRAM?").PROGRAM)
    run = failed = 0
    for name, wrong in outcomes(dict(tool), program):
        if isinstance(wrong, str):
            print(f"{TOOL}: NOT RUN, since {wrong}: that {name}")
            continue
        lines = [f"{TOOL}: {name}: {line}" for line in wrong]
        print("\n".join(lines), end="\n" if lines else "")
        run, failed = run + 1, failed + bool(lines)
    print(f"{TOOL}: {run} sessions, {failed} went otherwise")
    return 1 if failed else 0


def disk_differs(program: str, words: str, coming: bytes) -> Union[str, List[str]]:
    """What goes otherwise in this: a file named f.. is written, the disk takes that in, and then an XACK is sent."""
    if not shutil.which("strace"):
        return "strace is not there"
    with tempfile.TemporaryDirectory() as folder:
        command = ["strace", "-f", "-y", "-s", "999", "-o", "calls", "-e",
                   "trace=write,writev,pwrite64,pwritev,fdatasync,fsync", program, *words.split()]
        subprocess.run(command, input=coming, capture_output=True, timeout=60, cwd=folder)
        calls = re.findall(r"(\w+)\(\d+<([^>]*)>(.*)", text_of(f"{folder}/calls"))
    before = list(itertools.takewhile(lambda call: "XACK" not in call[2], calls))
    writes = [at for at, (call, file, _) in enumerate(before) if "write" in call and os.path.basename(file)[:1] == "f"]
    if writes and before != calls and any(call.endswith("sync") and file == before[writes[-1]][1]
                                          for call, file, _ in before[writes[-1]:]):
        return []
    return [f"no call has the disk take in the last write before the XACK: {calls!r}"]


def error(text: str, cause: Optional[str] = None, most: int = 120) -> str:
    """How an error is told, of which no more than so many bytes are shown."""
    told = f"Error: {text if len(text) <= most else text[:most - 3] + '...'}\n"
    return told if cause is None else f"{told}\nCaused by:\n    {cause}\n"


def refusal(text: str, hint: str = "") -> Tuple[bytes, str]:
    return f"-{text}\r\n".encode(), "\n".join([f"the server replied {text}", *[hint] * bool(hint)])


def in_batches(entries: int, batches: int, what: str = "entry entries") -> str:
    one, many = what.split()
    return f"{entries} {one if entries == 1 else many} in {batches} {'batch' if batches == 1 else 'batches'}"


# Replies that end each program, and those that confirm no WAIT for two replicas, and what is said of them.
ENDS = [(b"HTTP/1.1 400 Bad Request\r\n\r\n", "the server does not speak the protocol: unknown type of a value"),
        (b"-ERR \x1b[2J\x07\xff\r\n", "the server replied ERR ?[2J?\ufffd"), refusal("READONLY x"), (b"", CLOSED)]
UNCONFIRMED = [*((number, f"{number} replicas confirmed, and more are wanted") for number in (1, 0)),
               (b"-ERR x\r\n", "WAIT: the server replied ERR x"), (b"", "WAIT: " + CLOSED)]

# What the crate clap tells of words, by kinds of rows: with the value that is refused, an option, and more.
REFUSED = {
    "missing": "the following required arguments were not provided:\n  {option}{used}",
    "unexpected": "unexpected argument '{value}' found{usage}",
    "unknown": "unexpected argument '{value}' found\n\n  tip: to pass '{value}' as a value, use '-- {value}'{used}",
    "similar": "unexpected argument '{value}' found\n\n  tip: a similar argument exists: '{name}'{used_with}",
    "none": "a value is required for '{option}' but none was supplied",
    "one of two": "2 values required for '{option}' but 1 was provided{usage}",
    "no digits": "invalid value '{value}' for '{option}': invalid digit found in string",
    "too large": "invalid value '{value}' for '{option}': number too large to fit in target type",
    "not in": "invalid value '{value}' for '{option}': {value} is not in {more}",
    "not one of": "invalid value '{value}' for '{option}'\n  [possible values: {more}]",
    "invalid": "invalid value '{value}' for '{option}': {more}{usage}",
    "not with": "the argument '{option}' cannot be used with '{more}'{used_with}",
    "rule": "{option}{usage}",
    "no value": "unexpected value '{value}' for '{option}' found; no more were expected{usage}",
}


def refusals(program: str, places: str, rows: str, usage: str = "") -> Iterator[Tuple[str, str]]:
    """Words that are refused, and what is said. A row of a text is a kind of REFUSED, with : its option and : what else
    it tells, and lines of words after |, in which the value that is refused is in quotes."""
    for what, *lines in (row.split(" | ") for row in rows.strip().splitlines()):
        kind, option, more = (*what.split(": ", 2), "", "")[:3]
        for line in lines:
            value = "".join(re.findall("'(.*)'", line)).replace("\x1b", "?").replace("\udcff", "\\xff")
            using = lambda part: f"\n\nUsage: {usage or f'{program} {part}{places}'}"
            said = REFUSED[kind].format(
                value=value, option=option.replace(", ", "\n  "), more=more, name=option.split(" ")[0],
                usage=using("[OPTIONS] "), used=using(""), used_with=using(f"{option} "))
            yield line.replace("'", ""), f"error: {said}\n\nFor more information, try '--help'.\n"


def on_words(make: Callable[..., Session], program: str, places: str, refused: str, told: str = "",
             helps: Sequence[str] = (), versions: Sequence[str] = (), usage: str = "",
             **more: Any) -> Iterator[Session]:
    """The sessions of words that are refused, and of those that ask for help or for the version."""
    version = f"{program} {text_of('VERSION').strip()} (unproved, built from a checkout)\n"
    for words, said in refusals(program, places, refused, usage):
        yield make("other words are refused", words, [], said, 2, **more)
    for words in (*helps, *versions):
        name, said = ("help", told) if words in helps else ("the version", version)
        yield make(f"{name} is told on standard error", words, [], said, 0, **more)


def help_of(about: str, usage: str, arguments: Dict[str, str], options: Dict[str, str]) -> str:
    options = {**{f"    {option}": told for option, told in options.items()},
               "-h, --help": "Print help", "-V, --version": "Print version"}
    listed = lambda rows: "".join(f"  {name:<{max(map(len, rows))}}  {told}\n" for name, told in rows.items())
    return (f"{about}\n\nUsage: {usage}\n\nArguments:\n{listed(arguments)}\nOptions:\n{listed(options)}\n"
            "Standard input and standard output are the connection with the server, so this text and each error\n"
            "go to standard error. Names that begin with a hyphen come last, after the word --.\n")


def open_metrics(metrics: Dict[str, Tuple[str, str]], samples: Iterable[str]) -> str:
    """The text of OpenMetrics with these samples, each after the head of its metric: its kind, and what it is."""
    lines = []
    for sample, (kind, told) in metrics.items():
        name = sample.removesuffix("_total")
        lines += [f"# TYPE {name} {kind}", *[f"# UNIT {name} seconds"] * name.endswith("_seconds"),
                  f"# HELP {name} {told}", *(line for line in samples if line.startswith(sample + "{"))]
    return "\n".join([*lines, "# EOF\n"])


FROM = {"--from <ID>": "Makes a group that is missing: with all entries (0), or with those from then on ($) "
                       "[possible values: 0, $]"}
READS = {"--block <MS>": "How long the server waits for new entries, in milliseconds; 0: no limit [default: 5000]",
         "--idle <MS>": "Minimum idle time of claimed entries, in milliseconds [default: 60000]",
         "--every <READS>": "Number of reads of new entries between two claims; 0 and 1: a claim after each "
                            "[default: 10]"}
UNTIL_EMPTY = {"--until-empty": "It ends with status 0 once a read finds nothing new"}
WORKER = {"<KEY>": "The stream", "<GROUP>": "The group of consumers", "<CONSUMER>": "The name of the consumer"}

# Words that all workers refuse, after their places.
OF_WORKERS = """
not in: --count <ENTRIES>: 1..=10000 | {0} --count '0'
not one of: --from <ID>: 0, $ | {0} --from '1'
invalid: --dead <TIMES> <STREAM>: TIMES is a number, 1 at least | {0} --dead '0' dead
invalid: --dead <TIMES> <STREAM>: STREAM must not be KEY | {0} --dead 3 'k'
"""


# The texts of an entry's fields, and these as JSON.
FIELDS = [
    (["b", "tea", "a", "", "b", "cup"], '[["b","tea"],["a",""],["b","cup"]]'),
    (['a\tb"\\', b"\n\r\x00\x1f/"], '[["a\\tb\\"\\\\","\\n\\r\\u0000\\u001f/"]]'),
    (["\u00e9\U0001f375", b"\xff\x00"], '[["\u00e9\U0001f375",{"base64":"/wA="}]]'),
    ([], "[]"),
]
# With --dead a worker asks first what is pending: for the consumer itself, and for anybody.
OWN_PENDING, ALL_PENDING = "XPENDING k g - + 100 c", "XPENDING k g IDLE 50 - + 100"
NO_NEWS, NO_CLAIM, NO_ENTRIES = b"*-1\r\n", ["0-0", [], []], [["k", []]]


def own(count: int = 1000, after: str = "0") -> str:
    """The question for the consumer's own entries after an id."""
    return f"XREADGROUP GROUP g c COUNT {count} STREAMS k {after}"


def claim(count: int = 1000, start: str = "0-0") -> str:
    """The question for entries that others left."""
    return f"XAUTOCLAIM k g c 50 {start} COUNT {count}"


def news(count: int = 1000) -> str:
    """The question for new entries."""
    return f"XREADGROUP GROUP g c BLOCK 5000 COUNT {count} STREAMS k >"


# Nothing is there, asked for as many as are read at once, and one by one; and nothing is new.
LOOKED, LOOKED_ALONE = [own(), NO_ENTRIES, claim(), NO_CLAIM], [own(1), NO_ENTRIES, claim(1), NO_CLAIM]
NO_NEW = [news(), NO_NEWS]
QUIET, QUIET_ALONE = [*LOOKED, *NO_NEW], [*LOOKED_ALONE, *NO_NEW]


def acked(*ids: str) -> List[Any]:
    """The acknowledgement of these entries, and the reply."""
    return [f"XACK k g {' '.join(ids)}", len(ids)] if ids else []


def came(*entries: Any) -> List[Any]:
    """The reply that has these entries of the stream: each an id and its fields, or a line of them."""
    pairs = ((entry.split()[0], entry.split()[1:]) if isinstance(entry, str) else entry for entry in entries)
    return [["k", [[id, list(fields)] for id, fields in pairs]]]


def handled(reply: Any, *ids: str, last: str = "", count: int = 1000, sends: Sequence[Any] = (),
            end: bytes = NO_NEWS) -> List[Any]:
    """The talk of a worker that has entries in hand, acknowledges these of them, and finds nothing more."""
    return [own(count), reply, *acked(*ids), *sends, own(count, last or ids[-1]), NO_ENTRIES, claim(count), NO_CLAIM,
            news(count), end]
