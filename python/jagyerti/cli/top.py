"""jagyerti top: shows the groups of streams, or their figures, by the program stream_top."""
from __future__ import annotations

import argparse
import os
import signal
import sys
import threading
import time
from typing import Any, List

from .. import monitor, process
from ..connect import USAGE, Failed
from ..monitor import Plan, Watch
from ..screen import Screen, Signals
from ..shown import on_one_line
from . import reach, say
from .options import add_command, add_connection_options, connection_options

TAKES_REST = True
TICK = 0.1  # seconds
USAGE_LINE = "jagyerti top [URL] KEY .. [options]"
TEXT = """\
Shows the groups of streams: how much is to read, what is pending for which consumer, and since when. The screen is new each
second, and as soon as an entry comes, until q or Ctrl-C. If standard output is no terminal, each table is a text.

With --listen each scrape connects to the server, and one goes on at a time. If it fails, the reply is 503 with the reason,
which is on standard error too. PORT 0 is any free port; the line on standard output names it. SIGTERM ends it. There is no
TLS and no login at this port: whoever reaches it sees the names of groups and consumers. Keys that begin with a hyphen come
last, after the word --.

exit status: 0; 1 for the reason that is printed; 2 if the words are others; 3 if the server says nothing.

example: jagyerti top redis://127.0.0.1:6379 orders orders:dead
         jagyerti top redis://127.0.0.1:6379 orders --once --json
         jagyerti top redis://127.0.0.1:6379 orders --listen 127.0.0.1:9121
"""


def add_parser(subparsers: Any) -> None:
    """Adds the subcommand."""
    parser = add_command(subparsers, "top", "Shows the groups of streams, or serves their figures to Prometheus.",
                         USAGE_LINE, TEXT)
    parser.add_argument("words", nargs="*", metavar="[URL] KEY ..", help="the streams")
    parser.add_argument("--once", action="store_true", help="shows it once, and ends")
    form = parser.add_mutually_exclusive_group()
    form.add_argument("--json", dest="form", action="store_const", const="--json", help="prints a document of JSON, once")
    form.add_argument("--openmetrics", dest="form", action="store_const", const="--openmetrics",
                      help="prints a text of OpenMetrics, once")
    form.add_argument("--listen", metavar="HOST:PORT", help="serves http://HOST:PORT/metrics to Prometheus")
    parser.add_argument("--program", metavar="FILE", help="the program, in place of the stream_top that is installed")
    add_connection_options(parser, has_block=False)


def run(arguments: argparse.Namespace) -> int:
    """Runs the subcommand, and returns the exit status."""
    servers, keys = reach.take_words(arguments)
    if not keys:
        raise Failed("no stream is named: jagyerti top --help", USAGE)
    if arguments.listen and arguments.once:
        raise Failed("--once does not go with --listen", USAGE)
    plan = Plan(process.find_program("stream_top", arguments.program), tuple(servers), connection_options(arguments, servers),
                tuple(keys), arguments.sentinel)
    if arguments.listen:
        return serve(plan, arguments.listen)
    if arguments.form or arguments.once:
        sys.stdout.write(monitor.figures(plan, arguments.form) if arguments.form else monitor.tables(plan))
        return 0
    return watch(plan)


def serve(plan: Plan, text: str) -> int:
    """Serves scrapes until a signal comes."""
    try:
        place = monitor.read_place(text)
    except ValueError as error:
        raise Failed(f"--listen {error}", USAGE) from None
    with monitor.listen(plan, place, lambda reason: say("top", reason)) as server:
        host = f"[{place[0]}]" if ":" in place[0] else place[0]
        for number in (signal.SIGTERM, signal.SIGINT):
            signal.signal(number, lambda *_: threading.Thread(target=server.shutdown).start())
        print(f"http://{host}:{server.server_address[1]}/metrics", flush=True)
        server.serve_forever(TICK)
    return 0


def watch(plan: Plan) -> int:
    """Shows tables until q or a signal."""
    signals, watches = Signals(), [Watch(plan, key) for key in plan.keys]
    for one in watches:
        one.start()
    try:
        with signals.noted():
            if sys.stdout.isatty():
                with Screen() as screen:
                    show(plan, watches, screen, signals)
            else:
                copy(watches, signals)
    finally:
        for one in watches:
            one.end()
    for one in watches:
        if one.failure is not None:
            raise Failed(f"{on_one_line(one.key.encode('utf-8', 'surrogateescape'))}: {one.failure}", one.failure.status)
    return 128 + signals.end if signals.end in (signal.SIGHUP, signal.SIGQUIT) else 0


def show(plan: Plan, watches: List[Watch], screen: Screen, signals: Signals) -> None:
    """Draws all tables, until a key or a signal ends it or a stream cannot be watched."""
    while not signals.end and not any(one.failure for one in watches):
        if signals.suspend:
            signals.suspend = False
            screen.suspend()
        for one in watches:
            one.take()
        screen.draw([f"{plan.place}  {time.strftime('%H:%M:%S')}  q ends", *lines_of(watches)])
        if screen.read_key(TICK) in ("q", "Q"):
            return


def lines_of(watches: List[Watch]) -> List[str]:
    """Returns all tables, each after an empty line and with the error after it."""
    lines = []
    for one in watches:
        lines += ["", *one.table]
        if one.error:
            lines.append(f"not current: {one.error}")
    return lines


def copy(watches: List[Watch], signals: Signals) -> None:
    """Prints each table that comes, until nobody reads them any more."""
    while not signals.end and not any(one.failure for one in watches):
        for one in watches:
            if one.take():
                try:
                    print("\n".join(one.table), end="\n\n", flush=True)
                except BrokenPipeError:
                    os.dup2(os.open(os.devnull, os.O_WRONLY), sys.stdout.fileno())  # for the flush at the end
                    return
        time.sleep(TICK)
