"""jagyerti completions: prints what completes the words of `jagyerti` in bash, zsh or fish."""
from __future__ import annotations

import argparse
import dataclasses
import re
import subprocess
from typing import Iterator, List, Sequence, Tuple

from ..connect import Failed
from ..process import find_program

EXAMPLE = """\
example: jagyerti completions bash > ~/.local/share/bash-completion/completions/jagyerti
"""
# The subcommands that take the options of a program too.
PROGRAMS = {"run": "stream_run", "drain": "stream_drain", "fill": "stream_fill", "sqlite": "stream_sqlite"}
# An option as a program prints it at --help.
SHOWN = re.compile(r"^ +(?:(-\w), )?(--[\w-]+)((?: <\w+>)*) +(.*?)(?: \[possible values: (.*)\])?$", re.M)


@dataclasses.dataclass(frozen=True)
class Option:
    """An option, or a word without a name: whether it has a value, and which values it may have."""

    names: Tuple[str, ...]
    has_value: bool
    choices: Tuple[str, ...]
    help: str


@dataclasses.dataclass(frozen=True)
class Command:
    """A command or a subcommand: its words up to here, what it takes, and the words that may come next."""

    words: Tuple[str, ...]
    help: str
    options: Tuple[Option, ...]
    below: Tuple[str, ...]
    parser: argparse.ArgumentParser
    program_help: str

    @property
    def flags(self) -> List[str]:
        """The names of all options."""
        return [name for option in self.options for name in option.names]

    @property
    def next(self) -> List[str]:
        """The words that may come next: subcommands, or what the first word without a name may be."""
        first = next((option.choices for option in self.options if not option.names), ())
        return [*self.below, *first]


def find_commands(parser: argparse.ArgumentParser, words: Sequence[str] = (), help: str = "") -> Iterator[Command]:
    """Yields the command of a parser, and all below it."""
    options, parsers, helps = [], {}, {}
    for action in parser._actions:
        if isinstance(action, argparse._SubParsersAction):
            parsers.update(action.choices)
            helps.update({choice.dest: choice.help or "" for choice in action._choices_actions})
        elif action.help != argparse.SUPPRESS:
            choices = tuple(str(choice) for choice in action.choices or ())
            shown = (action.help or "") % {"default": action.default, "prog": parser.prog}
            options.append(Option(tuple(action.option_strings), action.nargs != 0, choices, shown))
    program_help = ask_help(PROGRAMS[words[-1]]) if words and words[-1] in PROGRAMS else ""
    known = {name for option in options for name in option.names}
    options += [option for option in read_options(program_help) if not known & set(option.names)]
    yield Command(tuple(words), help, tuple(options), tuple(parsers), parser, program_help)
    for name, below in parsers.items():
        yield from find_commands(below, [*words, name], helps.get(name, ""))


def ask_help(program: str) -> str:
    """Returns what a program prints at --help; nothing if it is not installed."""
    try:
        asked = subprocess.run([find_program(program), "--help"], stdin=subprocess.DEVNULL, stdout=subprocess.PIPE,
                               stderr=subprocess.STDOUT, timeout=60, check=False)
    except (Failed, OSError):
        return ""
    return asked.stdout.decode("utf-8", "replace")


def read_options(text: str) -> Iterator[Option]:
    """Yields the options that the help of a program lists."""
    for short, name, values, help, choices in SHOWN.findall(text):
        yield Option(tuple(filter(None, (short, name))), bool(values), tuple(choices.split(", ")) if choices else (), help)


def write_bash(commands: Sequence[Command]) -> str:
    """Returns the completion for bash. A word that is neither an option nor a choice is completed as a file."""
    lines = ["# Completes the words of jagyerti in bash.", "_jagyerti() {",
             '    local line="${COMP_WORDS[*]:1:COMP_CWORD-1}" word=${COMP_WORDS[COMP_CWORD]} words= flags=',
             '    case "${line:+ $line}" in', *_cases(commands, '        {pattern}) words={words} flags={flags} ;;'), "    esac",
             '    [[ $word != -* ]] || words=$flags', '    mapfile -t COMPREPLY < <(compgen -W "$words" -- "$word")', "}",
             "complete -o default -F _jagyerti jagyerti"]
    return "\n".join(lines) + "\n"


def write_zsh(commands: Sequence[Command]) -> str:
    """Returns the completion for zsh."""
    lines = ["#compdef jagyerti", "# Completes the words of jagyerti in zsh.",
             'local line="${(j: :)words[2,CURRENT-1]}" choices= flags=', 'case "${line:+ $line}" in',
             *_cases(commands, "    ({pattern}) choices={words} flags={flags} ;;"), "esac",
             "[[ $PREFIX != -* ]] || choices=$flags", "if [[ -n $choices ]]; then compadd -- ${=choices}; else _files; fi"]
    return "\n".join(lines) + "\n"


def write_fish(commands: Sequence[Command]) -> str:
    """Returns the completion for fish."""
    lines = ["# Completes the words of jagyerti in fish."]
    helps = {command.words: command.help for command in commands}
    for command in commands:
        seen = [f"__fish_seen_subcommand_from {word}" for word in command.words] or ["__fish_use_subcommand"]
        for word in command.next:
            first = [*seen, f"not __fish_seen_subcommand_from {' '.join(command.next)}"]
            said = helps.get((*command.words, word), "")
            lines.append(f"{_fish_begin(first)} -f -a {_quoted(word)}" + (f" -d {_quoted(said)}" if said else ""))
        lines += [_fish_begin(seen) + _fish_words(option) for option in command.options if option.names]
    return "\n".join(lines) + "\n"


WRITERS = {"bash": write_bash, "zsh": write_zsh, "fish": write_fish}


def add_parser(subparsers: argparse._SubParsersAction[argparse.ArgumentParser]) -> None:
    """Adds the subcommand."""
    parser = subparsers.add_parser("completions", help="print the completions for a shell", epilog=EXAMPLE,
                                   description="Prints what completes the words of jagyerti in a shell.",
                                   formatter_class=argparse.RawDescriptionHelpFormatter, allow_abbrev=False)
    parser.add_argument("shell", choices=sorted(WRITERS), help="the shell")


def run(arguments: argparse.Namespace) -> int:
    """Prints the completions."""
    from . import make_parser

    print(WRITERS[arguments.shell](list(find_commands(make_parser()))), end="")
    return 0


def _cases(commands: Sequence[Command], form: str) -> Iterator[str]:
    """Yields the cases of the shell, the longest command first: each option that has a value, the word after the command,
    and any later word."""
    for command in sorted(commands, key=lambda it: -len(it.words)):
        begin = "".join(f" {word}" for word in command.words)
        for option in command.options:
            if option.names and option.has_value:
                ends = "|".join(f"'{begin}'*' {name}'" for name in option.names)
                yield form.format(pattern=ends, words=_quoted(" ".join(option.choices)), flags="''")
        flags = _quoted(" ".join(command.flags))
        yield form.format(pattern=f"'{begin}'", words=_quoted(" ".join(command.next)), flags=flags)
        yield form.format(pattern=f"'{begin} '*", words="''", flags=flags)


def _fish_begin(seen: Sequence[str]) -> str:
    """Returns the begin of a line for fish, which holds if all of this was seen."""
    return f"complete -c jagyerti -n {_quoted('; and '.join(seen))}"


def _fish_words(option: Option) -> str:
    """Returns how fish names an option."""
    named = "".join(f" -l {name[2:]}" if name.startswith("--") else f" -s {name[1:]}" for name in option.names)
    listed = " ".join(option.choices).replace("$", "\\$")  # fish expands it once more
    choices = f" -x -a {_quoted(listed)}" if listed else " -r" if option.has_value else ""
    return named + choices + (f" -d {_quoted(option.help)}" if option.help else "")


def _quoted(text: str) -> str:
    """Returns a text as one word of a shell."""
    return "'" + text.replace("'", "'\\''") + "'"
