"""jagyerti drain: a stream into a file, by stream_drain."""
from __future__ import annotations

import argparse
from typing import Any, List, Optional

from .. import cluster
from ..connect import USAGE, Failed
from ..counts import DEFAULTS
from ..fleet import Fleet, Share
from ..process import find_program
from ..tries import Tries
from .options import add_command, add_connection_options, add_run_options, make_plan, program_words

TAKES_REST = True
USAGE_LINE = "jagyerti drain [URL] KEY GROUP CONSUMER FILE [options] [options of stream_drain]"
TEXT = """\
All other options are those of stream_drain, which 'jagyerti drain -- --help' shows. Its standard input and output is the
connection itself, but over TLS and Unix sockets. A read or a write that takes longer than --block and --timeout together
fails. With --block 0 the server may be silent for as long as it likes, and only keepalive finds a machine that is gone.

SIGTERM and SIGINT end it cleanly: the batch in hand is written, synced and acknowledged, and the status is 0. A second
signal ends it at once, and so does SIGKILL. Nothing is lost by that: the batch in hand comes again.

A run is not tried again if it ended before it asked the server anything: its words or its file are wrong. A run of a
minute or more begins the count of tries anew.

--metrics counts entries, batches, dead letters and starts of all runs together. It has the time of the last entries, and
what the group still has to do. A reader never sees half a file, so node_exporter's textfile collector can read it.

With --cluster a program for each partition k drains KEY:{k} into FILE.k, over a connection with the node that serves its
slot. URL names one node or more. The number of partitions is written to FILE.partitions, and another one is refused later.
After MOVED it connects to the node that was named. After ASK, CLUSTERDOWN, LOADING and the like, and after a connection
that broke, it waits and goes on, without end. After all else a partition is tried again as often as --retry says; the
others go on. A table of all partitions is shown each second in which it changed; with --quiet at the end alone.
--dead N STREAM gives up to STREAM:{k}.

exit status: 0 after --until-empty or one signal; 1 if the program failed, or the server is not there or takes no login;
2 if words are wrong; 3 if the server said nothing for too long; 5 if the file could not be synced, had an input or output
error, or has a line of the same id with other fields, after which nothing is started again; 128 + N if the signal N ended
the program.

example: jagyerti drain redis://127.0.0.1:6379 orders archive ann orders.txt --from 0 --retry forever
"""


def add_cluster_options(parser: argparse.ArgumentParser) -> None:
    """Adds the options of a stream that has partitions over a cluster."""
    group = parser.add_argument_group("partitions over a Redis Cluster")
    group.add_argument("--cluster", action="store_true", help="the stream has partitions, with a program for each")
    group.add_argument("--partitions", metavar="N", type=int, help="the number of partitions")
    group.add_argument("--of", metavar="M", type=int, help="the partitions are shared by M processes (1)")
    group.add_argument("--mine", metavar="K", type=int, help="this process has the partitions k with k mod M = K (0)")


def add_parser(subparsers: Any) -> None:
    """Adds the subcommand."""
    parser = add_command(subparsers, "drain", "Drains a stream for one consumer of a group into a file.", USAGE_LINE, TEXT)
    add_connection_options(parser)
    add_run_options(parser)
    parser.add_argument("--metrics", metavar="FILE", help="writes what it did into this file once a second, as OpenMetrics")
    parser.add_argument("--program", metavar="FILE", help="the program, in place of the stream_drain that is installed")
    add_cluster_options(parser)


def run(arguments: argparse.Namespace) -> int:
    """Runs it. Returns the exit status."""
    program = find_program("stream_drain", arguments.program)
    plan = make_plan(arguments, program, program_words(arguments, program), metrics=arguments.metrics,
                     count=DEFAULTS["stream_drain"])
    if (arguments.metrics or arguments.cluster) and len(leading_words(list(plan.words))) < 4:
        raise Failed("--metrics and --cluster want KEY GROUP CONSUMER FILE before the options of stream_drain", USAGE)
    if not arguments.cluster:
        refuse_partitions(arguments)
        return Tries(plan).run_to_the_end()
    return Fleet(plan, share_of(arguments, 3)).run_to_the_end()


def leading_words(words: List[str]) -> List[str]:
    """Returns the words before the first option."""
    return words[:next((at for at, word in enumerate(words) if word.startswith("--")), len(words))]


def refuse_partitions(arguments: argparse.Namespace) -> None:
    """Refuses the options of partitions, since there is no --cluster."""
    given = (arguments.partitions, arguments.of, arguments.mine, getattr(arguments, "by", None))
    if any(value is not None for value in given):
        raise Failed("--partitions, --of, --mine and --by are for --cluster", USAGE)


def share_of(arguments: argparse.Namespace, place: Optional[int]) -> Share:
    """Returns the partitions of this process; FILE is the word at this place, if there is one."""
    if arguments.sentinel is not None:
        raise Failed("--cluster and --sentinel exclude each other", USAGE)
    number, of, mine = arguments.partitions or 0, arguments.of or 1, arguments.mine or 0
    if not 1 <= number <= cluster.MOST_PARTITIONS or not 0 <= mine < of:
        raise Failed("--cluster wants --partitions from 1 to 65535, and --mine from 0 and below --of", USAGE)
    return Share(number, [at for at in range(number) if at % of == mine], place)
