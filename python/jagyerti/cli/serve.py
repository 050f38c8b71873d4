"""jagyerti serve: stream_serve on a port, for tests."""
from __future__ import annotations

import argparse
import signal
import socket
from typing import Any

from ..connect import Failed
from ..process import HELD, find_program
from ..serving import Program, serve_forever
from .options import add_command

USAGE_LINE = "jagyerti serve [--port P] [--clock MS]"
TEXT = """\
It is a server in memory for tests: when it ends, its streams are gone. All connections share one stream_serve, as they
would share redis-server, each with its own protocol and transactions. Commands are done one after the other. A read with
BLOCK waits until another connection adds an entry. From WATCH or MULTI to EXEC, DISCARD or UNWATCH, the other
connections wait. There is no password and no TLS, and nobody but this machine reaches it.

It prints its URL once it listens. SIGTERM and SIGINT end it, with the status 0.

example: jagyerti serve --port 6400 &
         jagyerti fill redis://127.0.0.1:6400 orders orders.txt
"""


def add_parser(subparsers: Any) -> None:
    """Adds the subcommand."""
    about = "Serves stream commands at a port of the loopback, without Redis."
    parser = add_command(subparsers, "serve", about, USAGE_LINE, TEXT)
    parser.add_argument("--port", metavar="P", type=int, default=0, help="the port (any free one)")
    parser.add_argument("--clock", metavar="MS", type=int, help="the time, in milliseconds since 1970, which then does not move")
    parser.add_argument("--program", metavar="FILE", help="the program, in place of the stream_serve that is installed")


class _Ended(Exception):
    """A signal came."""


def run(arguments: argparse.Namespace) -> int:
    """Runs it. Returns the exit status."""
    words = [find_program("stream_serve", arguments.program)]
    words += [] if arguments.clock is None else [str(arguments.clock)]

    def end(_number: int, _frame: object) -> None:
        raise _Ended

    try:
        listener = socket.create_server(("127.0.0.1", arguments.port))
    except (OSError, OverflowError) as error:
        raise Failed(f"cannot listen at port {arguments.port}: {error}") from None
    for held in HELD:
        signal.signal(held, end)
    with listener:
        program = Program(words)
        print(f"redis://127.0.0.1:{listener.getsockname()[1]}", flush=True)
        try:
            serve_forever(listener, program)
        except _Ended:
            pass
        finally:
            program.process.kill()
            program.process.wait()
    return 0
