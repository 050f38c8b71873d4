"""jagyerti fill: the lines of a file into a stream, by stream_fill."""
from __future__ import annotations

import argparse
import dataclasses
from typing import Any

from ..connect import USAGE, Failed
from ..fleet import Fleet
from ..process import find_program
from ..tries import Tries
from .drain import add_cluster_options, leading_words, refuse_partitions, share_of
from .options import add_command, add_connection_options, add_run_options, make_plan, program_words

TAKES_REST = True
USAGE_LINE = "jagyerti fill [URL] KEY FILE [options] [options of stream_fill]"
TEXT = """\
All other options are those of stream_fill, which 'jagyerti fill -- --help' shows. With --retry it goes on after what is in
the stream. Two at once on one stream add nothing twice, if they have the same file, field and base.

SIGTERM and SIGINT end it cleanly. Not all lines are in then, so the status is 143. Call it again with the same words, and it
goes on.

With --cluster it first splits FILE into a part for each partition, FILE.0 and so on. Then it brings the part k into
KEY:{k}, with a program for each at once. The partition of a line is the CRC-16 of its key modulo N, so the lines of one
key keep their order. FILE.partitions says how far FILE is split: call it again with the same words after whatever failed,
and after lines were added at the end of FILE. Another N or --by is refused, and so is an N with a stream KEY:{N} there.

exit status: 0 if all lines are in, 143 after a signal before that, else as that of 'jagyerti drain'.

example: jagyerti fill redis://127.0.0.1:6379 orders orders.txt --retry 5
"""


def add_parser(subparsers: Any) -> None:
    """Adds the subcommand."""
    parser = add_command(subparsers, "fill", "Fills a stream with the lines of a file, each once and in order.", USAGE_LINE, TEXT)
    add_connection_options(parser)
    add_run_options(parser)
    parser.add_argument("--program", metavar="FILE", help="the program, in place of the stream_fill that is installed")
    add_cluster_options(parser)
    parser.add_argument("--by", metavar="WHAT", help="the key of a line: 'line', the whole line, which is the default; "
                        "'column:2', the second between tabs; or with --json 'field:NAME'")


def run(arguments: argparse.Namespace) -> int:
    """Runs it. Returns the exit status."""
    program = find_program("stream_fill", arguments.program)
    plan = dataclasses.replace(make_plan(arguments, program, program_words(arguments, program)), has_end=True)
    if not arguments.cluster:
        refuse_partitions(arguments)
        return Tries(plan).run_to_the_end()
    if len(leading_words(list(plan.words))) < 2:
        raise Failed("--cluster wants KEY FILE before the options of stream_fill", USAGE)
    return Fleet(plan, dataclasses.replace(share_of(arguments, 1), by=arguments.by or "line")).run_to_the_end()
