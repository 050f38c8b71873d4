"""The command line of `jagyerti`: one subcommand for each module of this package.

A module has `add_parser(subparsers)` and `run(arguments) -> int`, the exit status. `arguments.after` are the words after
the first `--`. If the module has `TAKES_REST = True`, `arguments.rest` are the words that its parser does not know, in
order; else they are refused.
"""
from __future__ import annotations

import argparse
import importlib
import sys
from typing import List, Optional, Sequence

from .. import hide, version
from ..connect import USAGE, Failed
from ..url import UrlError

NAMES = ("run", "drain", "fill", "sqlite", "top", "serve", "connect", "dead", "doctor", "demo", "completions")

EPILOG = """\
URL is redis://[user[:password]@]host[:port][/database], rediss:// for TLS, or unix://[user:password@]/path[?db=N], as
redis-cli's -u has it. It may end with ?protocol=3&name=NAME, as --protocol and --name say it. If it is left out,
REDIS_URL is the server. REDISCLI_AUTH is the password and REDISCLI_USER the user's name, if the URL has none. A password
of the command line is taken out of what 'ps' shows at once.

example: jagyerti drain redis://127.0.0.1:6379 orders archive ann orders.txt --from 0 --until-empty
"""


def make_parser(names: Sequence[str] = NAMES) -> argparse.ArgumentParser:
    """Returns the parser of these subcommands. One whose module is not installed is left out."""
    parser = argparse.ArgumentParser(prog="jagyerti", description="Redis streams that lose nothing.", epilog=EPILOG,
                                     formatter_class=argparse.RawDescriptionHelpFormatter, allow_abbrev=False)
    parser.add_argument("--version", action=ShowVersion, nargs=0, help="show the version, and what it was built from")
    subparsers = parser.add_subparsers(dest="subcommand", metavar="COMMAND", required=True)
    for name in names:
        try:
            module = importlib.import_module(f"{__name__}.{name}")
        except ModuleNotFoundError as error:
            if error.name != f"{__name__}.{name}":
                raise
            continue
        module.add_parser(subparsers)
    return parser


class ShowVersion(argparse.Action):
    """Prints the version, which asks git in a checkout, and ends."""

    def __call__(self, parser: argparse.ArgumentParser, *_: object) -> None:
        print(version.text())
        parser.exit()


def say(command: str, text: str) -> None:
    """Prints an error, with what is no printing character masked."""
    shown = "".join(mark if mark.isprintable() else "?" for mark in text)
    print(f"jagyerti {command}: {shown}\n", end="", file=sys.stderr, flush=True)


def main(argv: Optional[List[str]] = None) -> int:
    """Runs the subcommand that these words say, or those of the process, and returns the exit status."""
    hide.passwords()
    argv = sys.argv[1:] if argv is None else argv
    if not argv:
        make_parser().print_help(sys.stderr)
        return USAGE
    end = argv.index("--") if "--" in argv else len(argv)
    # Only the module of the subcommand is loaded, so that it starts soon.
    arguments, rest = make_parser(argv[:1] if argv[0:1] and argv[0] in NAMES else NAMES).parse_known_args(argv[:end])
    command = arguments.subcommand
    module = importlib.import_module(f"{__name__}.{command}")
    if rest and not getattr(module, "TAKES_REST", False):
        say(command, f"{rest[0]} is unknown: jagyerti {command} --help")
        return USAGE
    arguments.rest, arguments.after = rest, argv[end + 1:]
    try:
        return int(module.run(arguments))
    except Failed as failed:
        say(command, str(failed))
        return failed.status
    except UrlError as error:
        say(command, str(error))
        return USAGE
    except KeyboardInterrupt:
        return 130
