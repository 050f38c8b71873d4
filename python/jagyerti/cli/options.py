"""The options that subcommands share: of a connection, and of a program that runs on one."""
from __future__ import annotations

import argparse
import functools
import math
import os
from typing import Any, List, Optional, Tuple

from .. import url
from ..connect import USAGE, Failed, Options
from ..counts import DEFAULTS
from ..process import find_program
from ..tries import Plan, Tries
from . import say

BLOCK = 5000  # milliseconds: the default of the programs' --block


def seconds(text: str) -> float:
    """Reads a number of seconds."""
    return _number(text, 0.01)


def times(text: str) -> float:
    """Reads a number of times, or 'forever'."""
    return math.inf if text == "forever" else float(int(_number(text, 0)))


def _number(text: str, least: float) -> float:
    try:
        value = float(text)
    except ValueError:
        value = -1.0
    if not least <= value <= 1_000_000:
        raise argparse.ArgumentTypeError(f"{text}: wanted a number, at least {least:g}")
    return value


def add_command(subparsers: Any, name: str, about: str, usage: str, text: str) -> argparse.ArgumentParser:
    """Adds a subcommand with its help: one line, its usage, and a text with an example."""
    parser: argparse.ArgumentParser = subparsers.add_parser(
        name, help=about, description=about, usage=usage, epilog=text, allow_abbrev=False,
        formatter_class=argparse.RawDescriptionHelpFormatter)
    return parser


def add_connection_options(parser: argparse.ArgumentParser, has_block: bool = True) -> None:
    """Adds the options of a connection. `has_block` says that the program has an option --block."""
    group = parser.add_argument_group("connection")
    more = ", beyond what --block lets it wait" if has_block else ""
    group.add_argument("--timeout", metavar="SECONDS", type=seconds, default=10.0,
                       help=f"how long the server may say nothing{more} (10)")
    group.add_argument("--protocol", type=int, choices=(2, 3), help="HELLO with this version first")
    group.add_argument("--name", metavar="NAME", help="CLIENT SETNAME with this name")
    group.add_argument("--cacert", metavar="FILE", help="rediss://: certificates to verify the server with, in place of the system's")
    group.add_argument("--cert", metavar="FILE", help="rediss://: the certificate that the server is shown")
    group.add_argument("--key", metavar="FILE", help="rediss://: the key of that certificate")
    group.add_argument("--tls-no-verify", action="store_true",
                       help="rediss://: the server is not verified, so anybody may be the server")
    group.add_argument("--sentinel", metavar="MASTER", help="URL names sentinels, with commas between them (port 26379); the "
                       "server is the master of this name, which they are asked for before each connection")


def add_run_options(parser: argparse.ArgumentParser, retry: float = 0.0) -> None:
    """Adds the options of a program that runs on a connection. `retry` is how often it tries again without --retry."""
    group = parser.add_argument_group("runs")
    group.add_argument("--retry", metavar="TIMES", type=times, default=retry,
                       help="tries again this many times in a row, or 'forever' "
                       f"({'without end' if retry == math.inf else int(retry)})")
    group.add_argument("--pause", metavar="SECONDS", type=seconds, default=30.0,
                       help="the longest pause before a try (30). The first is half a second, each next one twice as long. "
                       "Of each a part between a half and the whole is waited, by chance")


def connection_options(arguments: argparse.Namespace, addresses: List[url.Address]) -> Options:
    """Returns the options of connections with these servers. Raises Failed if they contradict the URL."""
    has_tls = arguments.cacert or arguments.cert or arguments.key or arguments.tls_no_verify
    if has_tls and not addresses[0].is_tls:
        raise Failed("--cacert, --cert, --key and --tls-no-verify are for rediss://", USAGE)
    return Options(arguments.timeout, arguments.protocol, arguments.name, arguments.cacert, arguments.cert, arguments.key,
                   not arguments.tls_no_verify)


def take_url(words: List[str]) -> Tuple[Optional[str], List[str]]:
    """Returns the URL among these words, None if there is none, and the other words."""
    for at, word in enumerate(words):
        if url.is_url(word):
            return word, words[:at] + words[at + 1:]
    return None, words


def block_seconds(words: List[str]) -> float:
    """Returns the seconds that a program's words let the server wait, for entries or for replicas; 0 if without end.

    The program itself refuses what is no number.
    """
    block, replicas = BLOCK, 0
    for place, word in enumerate(words):
        name, equals, value = word.partition("=")
        value = value if equals else "".join(words[place + 1:place + 2])
        if name == "--block" and value.isdecimal():
            block = int(value)
        if name == "--wait" and "".join(words[place + 2:place + 3]).isdecimal():
            replicas = int(words[place + 2])
    return max(block, replicas) / 1000 if block else 0.0


def make_plan(arguments: argparse.Namespace, program: str, words: List[str], **more: Any) -> Plan:
    """Returns what a subcommand runs. Raises Failed or UrlError."""
    given, words = take_url(words)
    servers = url.all_from_words(given, url.PORT if arguments.sentinel is None else url.SENTINEL_PORT)
    is_many = arguments.sentinel is not None or getattr(arguments, "cluster", False)
    if len(servers) > 1 and not is_many:
        raise Failed("several hosts are for --cluster and --sentinel", USAGE)
    return Plan(program, words, servers, connection_options(arguments, servers),
                functools.partial(say, arguments.subcommand), arguments.sentinel, block_seconds(words), arguments.retry,
                arguments.pause, **more)


def run_program(arguments: argparse.Namespace, name: str, **more: Any) -> int:
    """Runs a program of this package on a connection. Its own words are those that the parser does not know."""
    program = find_program(name, arguments.program)
    plan = make_plan(arguments, program, program_words(arguments, program), count=DEFAULTS.get(name), **more)
    return Tries(plan).run_to_the_end()


def program_words(arguments: argparse.Namespace, program: str) -> List[str]:
    """Returns the words that are the program's. If these are `-- --help` or `-- --version`, it is run here and now."""
    if not arguments.rest and arguments.after in (["--help"], ["-h"], ["--version"], ["-V"]):
        os.execv(program, [program, *arguments.after])
    return [*arguments.rest, *(["--"] if arguments.after else []), *arguments.after]
