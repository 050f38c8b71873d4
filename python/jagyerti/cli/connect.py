"""jagyerti connect: any program on a connection."""
from __future__ import annotations

import argparse
import dataclasses
import shutil
from typing import Any

from ..connect import USAGE, Failed
from ..tries import Tries
from .options import add_command, add_connection_options, add_run_options, make_plan, seconds

USAGE_LINE = "jagyerti connect [URL] [options] -- PROGRAM WORDS .."
TEXT = """\
The program gets the connection, which is logged in, as its standard input and output. Over TLS and Unix sockets it gets a
socket from which all is passed on. The server may be silent for as long as it likes: only keepalive finds a machine that
is gone.

The first SIGTERM or SIGINT closes the program's input. A program that then ends with 1, and as the last error says 'the
server closed the connection', has ended cleanly: that is not shown, and the status is 0. The program is killed if it has
not ended after --grace seconds, and by a second signal.

exit status: that of the program; 1 if the server is not there or takes no login; 3 if it says nothing at the login;
128 + N if the signal N ended the program.

example: jagyerti connect redis://127.0.0.1:6379 --retry forever -- ./my_worker orders packers ann
"""


def add_parser(subparsers: Any) -> None:
    """Adds the subcommand."""
    parser = add_command(subparsers, "connect", "Runs a program on a connection.", USAGE_LINE, TEXT)
    parser.add_argument("url", metavar="URL", nargs="?", help=argparse.SUPPRESS)
    add_connection_options(parser)
    add_run_options(parser)
    parser.add_argument("--grace", metavar="SECONDS", type=seconds, default=10.0,
                        help="the program is killed this long after a signal (10)")


def run(arguments: argparse.Namespace) -> int:
    """Runs it. Returns the exit status."""
    if not arguments.after:
        raise Failed("wanted: jagyerti connect URL -- PROGRAM WORDS ..", USAGE)
    program, *words = arguments.after
    found = shutil.which(program)
    if found is None:
        raise Failed(f"no program {program}")
    plan = make_plan(arguments, found, [arguments.url] if arguments.url else [], grace=arguments.grace, is_foreign=True)
    return Tries(dataclasses.replace(plan, words=words, block=0.0)).run_to_the_end()
