"""Writes the man pages of `jagyerti` and its subcommands from their parsers, which print --help too."""
import argparse
import re
import time
from typing import List

from jagyerti.cli import completions


def write(name: str, command: completions.Command, version: str, moment: int) -> str:
    """Returns the page of a command, with the date of this moment, in seconds since 1970."""
    parser = command.parser
    usage = re.sub(r"^usage: |\n\s*", " ", parser.format_usage()).strip()
    lines = [*_head(name, (command.help or parser.description or "").rstrip("."), version, moment),
             ".SH SYNOPSIS", _plain(usage), ".SH DESCRIPTION", *_paragraphs(parser.description or "")]
    for group in parser._action_groups:
        actions = [action for action in group._group_actions if action.help != argparse.SUPPRESS]
        if actions:
            lines += [f".SH {(group.title or 'options').upper()}"]
            lines += [line for action in actions for line in _lines_of(parser, action)]
    if parser.epilog:
        lines += [".SH NOTES", *_unfilled(parser.epilog)]
    also = ["jagyerti", *completions.PROGRAMS.get(command.words[-1], "").split()] if command.words else \
        [f"jagyerti-{word}" for word in command.below]
    lines += [".SH SEE ALSO", ", ".join(f"\\fB{_plain(page)}\\fR(1)" for page in also)]
    return "\n".join(lines) + "\n"


def write_of_help(name: str, help: str, version: str, moment: int) -> str:
    about, _, rest = help.partition("\n")
    return "\n".join([*_head(name, about.rstrip("."), version, moment), ".SH DESCRIPTION",
                      *_unfilled(rest.strip())]) + "\n"


def _head(name: str, about: str, version: str, moment: int) -> List[str]:
    date = time.strftime("%Y-%m-%d", time.gmtime(moment))
    return [f'.TH {name.upper()} 1 "{date}" "jagyerti {version}" "User Commands"', ".SH NAME",
            f"{_plain(name)} \\- {_plain(about)}"]


def _lines_of(parser: argparse.ArgumentParser, action: argparse.Action) -> List[str]:
    """Returns what a page has of an option, of a word without a name, or of subcommands."""
    if isinstance(action, argparse._SubParsersAction):
        return [line for choice in action._choices_actions
                for line in (".TP", f"\\fB{_plain(choice.dest)}\\fR", *_paragraphs(choice.help or ""))]
    formatter = parser._get_formatter()
    shown = formatter._format_action_invocation(action)
    return [".TP", f"\\fB{_plain(shown)}\\fR", *_paragraphs(formatter._expand_help(action) if action.help else "")]


def _unfilled(text: str) -> List[str]:
    return [".nf", *(_plain(line) for line in text.rstrip().splitlines()), ".fi"]


def _paragraphs(text: str) -> List[str]:
    return [_plain(line) if line else ".PP" for line in text.strip().splitlines()]


def _plain(text: str) -> str:
    """Returns a text as roff prints it unchanged."""
    text = text.replace("\\", "\\e").replace("-", "\\-")
    return "\\&" + text if text.startswith((".", "'")) else text
