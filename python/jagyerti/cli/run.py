"""jagyerti run: any program handles the entries of a stream, by stream_run."""
from __future__ import annotations

import argparse
import math
import shutil
import socket
from typing import Any, List, Optional

from ..child import Handling, arguments_of, find_command
from ..connect import USAGE, Failed
from ..counts import DEFAULTS
from ..handling import Crew
from ..job_fleet import JobFleet
from ..process import find_program
from .drain import add_cluster_options, leading_words, refuse_partitions, share_of
from .options import BLOCK, add_command, add_connection_options, add_run_options, make_plan, program_words, seconds, take_url

TAKES_REST = True
USAGE_LINE = "jagyerti run [URL] KEY GROUP [CONSUMER] [options] [options of stream_run] -- COMMAND WORDS .."
TEXT = """\
COMMAND reads a line for each entry on its standard input: {"id":"1-0","fields":[["name","value"]],"stream":"KEY"}. It
replies with a line on its standard output: 'done', 'later TEXT', 'dead TEXT' or 'stop'. An entry is acknowledged after
'done', and never before. One line is on the way at a time. What COMMAND prints on standard error is shown with the name
of its consumer.

The reply {"done":true,"add":[["results",{"id":"7"}]]} is 'done' too, and adds entries to other streams first. With --dead N
STREAM an entry that is replied 'dead TEXT' goes to STREAM with its batch, and any other after N deliveries.

All other options are those of stream_run, which 'jagyerti run -- --help' shows. CONSUMER is the host's name, if it is
left out. With --processes N there are N commands, each with a stream_run, as CONSUMER.1 to CONSUMER.N.

With --retry-after a job that failed is pending for CONSUMER.later during its pause. Any consumer claims it after that, also
if this is gone. When a job is given up by --dead, it is told why it failed last.

A command that ends is started again, after a growing pause if it replied to nothing. After five such ends in a row, each
within ten seconds, this ends. So a job that ends each command needs --dead with a number up to 4, or a service that starts
this again. Each end is a delivery of the job in hand.

With --dead, COMMAND is first started without a job, and again after an end before any reply: its input is at its end, and
its status has to be 0. Else this ends with 4. So a command that cannot start costs no job a delivery. A command that does
not end is killed after 60 seconds, and is started all the same.

A command that another process killed is not counted. If one of --processes ends with an error, the others finish their batches and
end too.
After a connection that broke it connects again, without end unless --retry says how often.

With --cluster there is a stream_run and a COMMAND for each partition k of N, on KEY:{k}. URL names one node or more, and
redirections are followed as 'jagyerti drain' follows them. --dead N STREAM gives up to STREAM:{k}.

The first SIGTERM or SIGINT lets the job in hand end, and the jobs of its batch, for at most --grace seconds. COMMAND gets
SIGWINCH: one that takes it may reply 'stop' to the next line. Then all ends with status 0. A second signal ends it at
once; jobs that were in hand come again.

exit status: 0 after --until-empty, 'stop' or a signal; 1 if, without --from, there is no such group; 2 if words are wrong;
4 if COMMAND or its file is not there, if it ends again and again, or with --dead if it fails without a job. With --retry
TIMES also 1 if the server is not there, takes no login or refuses a command, 3 if it said nothing for too long, and
128 + N if the signal N ended stream_run.

example: jagyerti run redis://127.0.0.1:6379 orders packers --from 0 -- python3 pack.py
"""


def count(text: str) -> int:
    """Reads a number of processes."""
    if not text.isascii() or not text.isdecimal() or not 1 <= int(text) <= 1000:
        raise argparse.ArgumentTypeError(f"{text}: wanted a number from 1 to 1000")
    return int(text)


def add_parser(subparsers: Any) -> None:
    """Adds the subcommand."""
    parser = add_command(subparsers, "run", "Runs a program of any language for each entry of a stream.", USAGE_LINE, TEXT)
    add_connection_options(parser)
    add_run_options(parser, math.inf)
    group = parser.add_argument_group("jobs")
    group.add_argument("--processes", metavar="N", type=count, default=1, help="how many commands run side by side (1)")
    group.add_argument("--job-timeout", metavar="SECONDS", type=seconds,
                       help="a command that takes longer for a job is killed; the job stays pending")
    group.add_argument("--retry-after", metavar="SECONDS", type=seconds,
                       help="a job that failed or was replied 'later' comes again after this long, twice as long for each "
                       "delivery, and up to a quarter more by chance; else after --idle, or at once if the command ended")
    group.add_argument("--retry-most", metavar="SECONDS", type=seconds, default=None,
                       help="--retry-after grows up to this long (3600)")
    group.add_argument("--deliveries", action="store_true",
                       help='each line ends with "deliveries":N, how often its entry was delivered so far, with this delivery; '
                       "each job costs a request more")
    group.add_argument("--direct", action="store_true",
                       help="the command and stream_run share two pipes: a job costs less, but nothing sees a reply that comes "
                       "before its line, which is taken for the reply to it; not with --job-timeout, --retry-after, --metrics, "
                       "--deliveries")
    group.add_argument("--no-trial", action="store_true",
                       help="with --dead the command is not tried without a job first")
    group.add_argument("--line-buffered", action="store_true",
                       help="the command is started with 'stdbuf -oL', so that a program of C prints each line at once")
    group.add_argument("--grace", metavar="SECONDS", type=seconds, default=25.0,
                       help="how long jobs in hand have after a signal (25)")
    group.add_argument("--metrics", metavar="FILE", help="writes what it did into this file once a second, for Prometheus")
    parser.add_argument("--program", metavar="FILE", help="the program, in place of the stream_run that is installed")
    add_cluster_options(parser)


def run(arguments: argparse.Namespace) -> int:
    """Runs it. Returns the exit status."""
    command, words = arguments.after, list(arguments.rest)
    if not words:
        # '-- --help' is the program's.
        program_words(arguments, find_program("stream_run", arguments.program))
    if not words or not command:
        raise Failed("wanted: jagyerti run URL KEY GROUP [CONSUMER] -- COMMAND WORDS ..", USAGE)
    url, words = take_url(words)
    words = with_claims(with_consumer(words), arguments.retry_after)
    plan = make_plan(arguments, find_program("stream_run", arguments.program), [*([url] if url else []), *words],
                     metrics=arguments.metrics, metrics_prefix="stream_run", count=DEFAULTS["stream_run"])
    handling = handling_of(arguments, arguments_of(words, "--dead", 2) is not None)
    if arguments.cluster:
        if arguments.processes != 1:
            raise Failed("--cluster and --processes exclude each other: each partition has a command", USAGE)
        return JobFleet(plan, share_of(arguments, None), handling).run_to_the_end()
    refuse_partitions(arguments)
    return Crew(plan, handling, arguments.processes).run_to_the_end()


def handling_of(arguments: argparse.Namespace, gives_up: bool) -> Handling:
    """Returns how jobs are handled. If jobs are given up, the command is tried without one."""
    after, most = arguments.retry_after, arguments.retry_most
    if most is not None and (after is None or most < after):
        raise Failed("--retry-most is for --retry-after, and not below it", USAGE)
    if arguments.direct and (arguments.job_timeout is not None or after is not None or arguments.metrics or arguments.deliveries):
        raise Failed("--direct excludes --job-timeout, --retry-after, --metrics and --deliveries, which want each line and "
                     "each reply seen", USAGE)
    find_command(arguments.after)
    command = line_buffered(arguments.after) if arguments.line_buffered else arguments.after
    return Handling(command, arguments.job_timeout, arguments.grace, after, max(3600.0, after or 0) if most is None else most,
                    gives_up and not arguments.no_trial, arguments.direct, arguments.deliveries)


def line_buffered(command: List[str]) -> List[str]:
    """Returns a command that has a C library print each line at once."""
    if shutil.which("stdbuf") is None:
        raise Failed("--line-buffered wants the program stdbuf, of GNU coreutils, which is not installed", USAGE)
    return ["stdbuf", "-oL", *command]


def with_claims(words: List[str], after: Optional[float]) -> List[str]:
    """Returns the words of stream_run. With --retry-after it claims after each read, and does not wait long for one."""
    more: List[str] = []
    if after is not None and arguments_of(words, "--every") is None:
        more += ["--every", "1"]
    if after is not None and arguments_of(words, "--block") is None:
        more += ["--block", str(round(max(100, min(BLOCK, after * 500))))]
    return [*words, *more]


def with_consumer(words: List[str]) -> List[str]:
    """Returns the words of stream_run: the consumer is the host's name, if there is none."""
    leading = leading_words(words)
    if not 2 <= len(leading) <= 3:
        raise Failed("wanted KEY GROUP, and CONSUMER if it is another than the host's name, before all options", USAGE)
    return words if len(leading) == 3 else [*leading, socket.gethostname(), *words[2:]]
