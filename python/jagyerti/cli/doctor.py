"""jagyerti doctor: says what of a server's settings can lose messages."""
from __future__ import annotations

import argparse
import dataclasses
import json
from typing import Any, List

from .. import connect, durability
from ..connect import USAGE, Failed
from ..durability import Finding
from . import reach
from .options import add_command, add_connection_options

TAKES_REST = True
TEXT = """\
Asks a server for its version, its persistence, its limit of memory and its replicas, by INFO and CONFIG GET, and says what of
it can lose messages that were added or acknowledged. It changes nothing.

If the server forbids CONFIG, what INFO does not have is not known, and counts as something that can lose messages.

exit status: 0 if nothing can lose messages; 1 if something can, or if there is no connection; 2 if the words are others; 3 if
the server says nothing.

example: jagyerti doctor redis://127.0.0.1:6379
"""


def add_parser(subparsers: Any) -> None:
    """Adds the subcommand."""
    parser = add_command(subparsers, "doctor", "Says what of a server's settings can lose messages.",
                         "jagyerti doctor [URL] [options]", TEXT)
    parser.add_argument("words", nargs="*", metavar="URL", help="the server")
    parser.add_argument("--wait", action="store_true", help="all programs confirm what they write, by their option --wait: a "
                        "failover then loses nothing of it")
    parser.add_argument("--json", action="store_true", help="one document of JSON")
    add_connection_options(parser, has_block=False)


def run(arguments: argparse.Namespace) -> int:
    """Runs the subcommand, and returns the exit status."""
    servers, words = reach.take_words(arguments)
    if words:
        raise Failed(f"{words[0]} is no URL: jagyerti doctor --help", USAGE)
    address, options = reach.find_server(arguments, servers)
    with connect.open(address, options) as connection, reach.failures_of(address, options):
        findings = durability.examine(durability.read_facts(connection), arguments.wait)
    losing, unknown = durability.can_lose(findings)
    if arguments.json:
        rows = [dataclasses.asdict(finding) for finding in findings]
        print(json.dumps({"server": str(address), "can_lose": bool(losing or unknown), "findings": rows}, ensure_ascii=False))
    else:
        print("\n".join([*table(findings), "", summary(losing, unknown)]))
    return 1 if losing or unknown else 0


def table(findings: List[Finding]) -> List[str]:
    """Returns a line for each finding."""
    names = max(len(finding.name) for finding in findings)
    values = max(len(finding.value) for finding in findings)
    return [f"{it.state:7}  {it.name:{names}}  {it.value:{values}}  {it.text}".rstrip() for it in findings]


def summary(losing: int, unknown: int) -> str:
    """Returns the last line."""
    if not losing and not unknown:
        return "nothing of these settings loses messages"
    counted = [f"{losing} can lose messages"] if losing else []
    return ", ".join(counted + ([f"{unknown} not known"] if unknown else []))
