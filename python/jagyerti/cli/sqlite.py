"""jagyerti sqlite: a stream into a table of SQLite, by stream_sqlite."""
from __future__ import annotations

import argparse
from typing import Any

from ..connect import USAGE, Failed
from .options import add_command, add_connection_options, add_run_options, run_program

TAKES_REST = True
USAGE_LINE = "jagyerti sqlite [URL] KEY GROUP CONSUMER DB [options] [options of stream_sqlite]"
TEXT = """\
All other options are those of stream_sqlite, which 'jagyerti sqlite -- --help' shows.

SIGTERM and SIGINT end it cleanly: the batch in hand is committed and acknowledged, and the status is 0. A second signal
ends it at once. Nothing is lost by that: the batch in hand comes again, and no row is there twice.

--dead N STREAM leaves entries that fit no row pending, and the others of their batch go on. Those that were delivered N
times or more go to STREAM, where 'jagyerti dead' lists them.

A stream with partitions over a Redis Cluster is for 'jagyerti run', 'drain' and 'fill': there is no --cluster here.

exit status: as that of 'jagyerti drain', but never 5.

example: jagyerti sqlite redis://127.0.0.1:6379 orders packers ann orders.db --from 0 --columns item:text,pieces:integer
"""


def add_parser(subparsers: Any) -> None:
    """Adds the subcommand."""
    about = "Drains a stream for one consumer of a group into a table of a SQLite file."
    parser = add_command(subparsers, "sqlite", about, USAGE_LINE, TEXT)
    add_connection_options(parser)
    add_run_options(parser)
    parser.add_argument("--metrics", metavar="FILE", help="writes what it did into this file at the end of each run, as OpenMetrics")
    parser.add_argument("--program", metavar="FILE", help="the program, in place of the stream_sqlite that is installed")
    parser.add_argument("--cluster", action="store_true", help=argparse.SUPPRESS)


def run(arguments: argparse.Namespace) -> int:
    """Runs it. Returns the exit status."""
    if arguments.cluster:
        raise Failed("--cluster is for jagyerti run, drain and fill", USAGE)
    return run_program(arguments, "stream_sqlite", metrics=arguments.metrics, metrics_prefix="stream_sqlite")
