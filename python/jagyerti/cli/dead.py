"""jagyerti dead: looks at dead letters, adds their entries again, or drops them."""
from __future__ import annotations

import argparse
import json
import socket
from typing import Any, Callable, Dict, Iterator, List

from .. import dead_letters, resp
from ..connect import FAILED, USAGE, Failed
from ..dead_letters import Letter
from ..shown import as_text, on_one_line
from . import reach, say
from .options import add_command, add_connection_options

TAKES_REST = True
ACTIONS = ("list", "show", "replay", "drop")
USAGE_LINE = "jagyerti dead list|show|replay|drop [URL] STREAM [ID ..] [options]"
TEXT = """\
Dead letters are the entries that a worker gave up: 'jagyerti drain --dead 3 orders:dead' adds them to orders:dead.

  list     a line for each letter: its id, the id of the entry, its deliveries, and the reason if it has one
  show     the fields of each letter, or of these letters
  replay   adds the entry of each letter to the stream of --to, without the reason, and deletes the letter, in one step of
           the server
  drop     deletes each letter

replay and drop want ids, or --all. A letter is replayed once, however often this is called: it is gone after it. All groups
of the stream get the entry again. The new entry has an id of its own.

exit status: 0; 1 if a letter is not there, or for the reason that is printed; 2 if the words are others; 3 if the server
says nothing.

example: jagyerti dead list redis://127.0.0.1:6379 orders:dead
         jagyerti dead replay redis://127.0.0.1:6379 orders:dead --to orders 1764165600000-0
"""


def add_parser(subparsers: Any) -> None:
    """Adds the subcommand."""
    parser = add_command(subparsers, "dead", "Lists, shows, replays or drops dead letters.", USAGE_LINE, TEXT)
    parser.add_argument("action", choices=ACTIONS, metavar="ACTION", help="list, show, replay or drop")
    parser.add_argument("words", nargs="*", metavar="[URL] STREAM [ID ..]", help="the stream of the letters, and their ids")
    parser.add_argument("--to", metavar="KEY", help="replay: the stream that the entries came from")
    parser.add_argument("--all", action="store_true", help="replay, drop: all letters")
    parser.add_argument("--json", action="store_true", help="list, show: a line of JSON for each letter")
    add_connection_options(parser, has_block=False)


def run(arguments: argparse.Namespace) -> int:
    """Runs the subcommand, and returns the exit status."""
    servers, words = reach.take_words(arguments)
    if not words:
        raise Failed("no stream is named: jagyerti dead --help", USAGE)
    try:
        stream, ids = words[0], [dead_letters.complete_id(word) for word in words[1:]]
    except ValueError as error:
        raise Failed(str(error), USAGE) from None
    refuse_words(arguments, stream, ids)
    address, options = reach.find_server(arguments, servers)
    with reach.failures_of(address, options), reach.open_at_key(address, options, stream) as connection:
        return ACTING[arguments.action](connection, stream, ids, arguments)


def refuse_words(arguments: argparse.Namespace, stream: str, ids: List[str]) -> None:
    """Raises Failed if the words do not go together."""
    action, changes = arguments.action, arguments.action in ("replay", "drop")
    wrong = {
        f"{action} takes no ids": action == "list" and ids,
        f"{action} wants the ids of letters, or --all": changes and not ids and not arguments.all,
        f"{action} takes ids or --all, and not both": changes and ids and arguments.all,
        f"{action} takes no --all": not changes and arguments.all,
        f"{action} takes no --json": changes and arguments.json,
        "replay wants --to KEY: a letter does not say which stream its entry is of":
            action == "replay" and arguments.to is None,
        f"{action} takes no --to": action != "replay" and arguments.to is not None,
        "--to is the stream of the letters itself": arguments.to == stream,
    }
    for text, is_wrong in wrong.items():
        if is_wrong:
            raise Failed(text, USAGE)


def list_letters(connection: socket.socket, stream: str, ids: List[str], arguments: argparse.Namespace) -> int:
    """Prints a line for each letter."""
    for letter in all_letters(connection, stream):
        if arguments.json:
            print(json.dumps(as_json(letter), ensure_ascii=False))
        elif letter.entry is None:
            print(f"{letter.id}  is no dead letter")
        else:
            reason = "" if letter.reason is None else f"  reason: {on_one_line(letter.reason)}"
            print(f"{letter.id}  entry {letter.entry}  {letter.times}{reason}")
    return 0


def show_letters(connection: socket.socket, stream: str, ids: List[str], arguments: argparse.Namespace) -> int:
    """Prints the fields of letters."""
    status = 0
    for letter in chosen(connection, stream, ids):
        if isinstance(letter, str):
            status = say_missing(letter, stream)
        elif arguments.json:
            print(json.dumps(as_json(letter), ensure_ascii=False))
        else:
            print(letter.id)
            about = [] if letter.why is None else [("reason", on_one_line(letter.why))]
            about += [] if letter.entry is None else [("entry", letter.entry), ("deliveries", str(letter.deliveries))]
            for name, value in about + [(on_one_line(name), on_one_line(value)) for name, value in letter.fields]:
                print(f"    {name}: {value}")
    return status


def replay_letters(connection: socket.socket, stream: str, ids: List[str], arguments: argparse.Namespace) -> int:
    """Adds the entries of letters again, and prints the new ids."""

    def replay(id: str) -> str:
        try:
            added = dead_letters.replay_letter(connection, stream, id, arguments.to)
        except resp.ReplyError as error:
            raise Failed(refusal(error, id, stream, arguments.to)) from None
        return "" if added is None else f"{id}: added to {on_one_line(resp.to_bytes(arguments.to))} as {added}"

    return change(connection, stream, ids, replay)


def drop_letters(connection: socket.socket, stream: str, ids: List[str], arguments: argparse.Namespace) -> int:
    """Deletes letters."""
    return change(connection, stream, ids,
                  lambda id: f"{id}: dropped" if dead_letters.drop_letter(connection, stream, id) else "")


def change(connection: socket.socket, stream: str, ids: List[str], one: Callable[[str], str]) -> int:
    """Changes these letters, or all of them. `one` returns the line to print, an empty one if the letter is not there."""
    status = 0
    for id in ids or [letter.id for letter in all_letters(connection, stream)]:
        line = one(id)
        if line:
            print(line, flush=True)
        else:
            status = say_missing(id, stream)
    return status


def chosen(connection: socket.socket, stream: str, ids: List[str]) -> Iterator[Any]:
    """Yields these letters, or all; for one that is not there, its id."""
    if not ids:
        yield from all_letters(connection, stream)
    for id in ids:
        yield dead_letters.find_letter(connection, stream, id) or id


def all_letters(connection: socket.socket, stream: str) -> Iterator[Letter]:
    """Yields all letters, and says if there is none: the stream may have another name."""
    is_empty = True
    for letter in dead_letters.read_letters(connection, stream):
        is_empty = False
        yield letter
    if is_empty:
        say("dead", f"{stream} has no letters")


def say_missing(id: str, stream: str) -> int:
    say("dead", f"{id}: no such letter in {stream}")
    return FAILED


def refusal(error: resp.ReplyError, id: str, stream: str, onto: str) -> str:
    """Returns what to say if the server refuses to replay a letter."""
    texts = {
        "CROSSSLOT": f"CROSSSLOT: this cluster keeps {stream} and {onto} in different slots, and replays between keys of one"
                     " slot alone, such as {orders} and {orders}:dead",
        "NOSTREAM": f"{onto} does not exist, and nothing was added: --to is the stream that the entries came from",
        "NOLETTER": f"{id} of {stream} is no dead letter",
    }
    return texts.get(error.code, f"{id}: the server replies {error}")


def as_json(letter: Letter) -> Dict[str, Any]:
    """Returns a letter as JSON has it: fields are pairs, since a name may be there twice. A reason is there if it has one."""
    fields = [[as_text(name), as_text(value)] for name, value in letter.fields]
    reason = {} if letter.why is None else {"reason": as_text(letter.why)}
    return {"id": letter.id, **reason, "entry": letter.entry, "deliveries": letter.deliveries, "fields": fields}


ACTING = {"list": list_letters, "show": show_letters, "replay": replay_letters, "drop": drop_letters}
