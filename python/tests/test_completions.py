"""What is completed, beside what --help prints."""
from __future__ import annotations

import contextlib
import io
import re
import shutil
import subprocess
import unittest
from typing import Set

from jagyerti.cli import completions, main, make_parser

COMMANDS = list(completions.find_commands(make_parser()))
ASK = '_jagyerti; printf "%s\\n" "${COMPREPLY[@]}"'


PROGRAM = """\
Usage: stream_drain [OPTIONS] <KEY>

Options:
      --from <ID>              Makes a group that is missing [possible values: 0, $]
      --dead <TIMES> <STREAM>  Entries go to this stream after TIMES deliveries
      --quiet                  Nothing is shown
  -h, --help                   Print help

Names that begin with a hyphen come last, after the word --.
"""


def options_of_help(command: completions.Command) -> Set[str]:
    """Returns the options that --help lists, and those of the program below the command, if that is installed."""
    said = io.StringIO()
    with contextlib.redirect_stdout(said), contextlib.suppress(SystemExit):
        main([*command.words, "--help"])
    listed = re.findall(r"^ {2,6}(-.*?)(?:  |$)", said.getvalue() + command.program_help, re.M)
    return {name for line in listed for name in re.findall(r"(?:^|, )(--?[a-zA-Z-]+)", line)}


class OfPrograms(unittest.TestCase):
    def test_options_are_read(self) -> None:
        options = list(completions.read_options(PROGRAM))
        self.assertEqual([option.names for option in options], [("--from",), ("--dead",), ("--quiet",), ("-h", "--help")])
        self.assertEqual([option.has_value for option in options], [True, True, False, False])
        self.assertEqual(options[0].choices, ("0", "$"))
        self.assertEqual(options[0].help, "Makes a group that is missing")


@unittest.skipUnless(shutil.which("bash"), "bash is not installed")
class Bash(unittest.TestCase):
    def complete(self, *words: str) -> Set[str]:
        """Returns what bash offers for the last word."""
        script = completions.write_bash(COMMANDS) + ASK
        line = " ".join(completions._quoted(word) for word in ("jagyerti", *words))
        asked = subprocess.run(["bash", "-c", f"COMP_WORDS=({line}) COMP_CWORD={len(words)}\n{script}"],
                               stdout=subprocess.PIPE, check=True, text=True)
        return set(asked.stdout.split())

    def test_each_option_of_each_command(self) -> None:
        for command in COMMANDS:
            with self.subTest(words=command.words):
                self.assertEqual(self.complete(*command.words, "-"), options_of_help(command))

    def test_first_word(self) -> None:
        self.assertIn("completions", self.complete(""))
        self.assertEqual(self.complete("comp"), {"completions"})

    def test_choices(self) -> None:
        self.assertEqual(self.complete("completions", ""), {"bash", "fish", "zsh"})
        self.assertEqual(self.complete("completions", "f"), {"fish"})


@unittest.skipUnless(shutil.which("zsh"), "zsh is not installed")
class Zsh(unittest.TestCase):
    def test_each_option_of_each_command(self) -> None:
        script = completions.write_zsh(COMMANDS)
        for command in COMMANDS:
            line = " ".join(("jagyerti", *command.words, "-"))
            head = f"compadd() {{ shift; print -rl -- $@ }}; words=({line}); CURRENT=$#words; PREFIX=-\n"
            asked = subprocess.run(["zsh", "-fc", f"ask() {{\n{head}{script}}}\nask"], stdout=subprocess.PIPE, check=True, text=True)
            self.assertEqual(set(asked.stdout.split()), options_of_help(command), line)


@unittest.skipUnless(shutil.which("fish"), "fish is not installed")
class Fish(unittest.TestCase):
    def test_each_long_option_of_each_command(self) -> None:
        script = completions.write_fish(COMMANDS)
        for command in COMMANDS:
            line = " ".join(("jagyerti", *command.words, "--"))
            asked = subprocess.run(["fish", "--no-config", "-c", f"{script}\ncomplete -C {completions._quoted(line)}"],
                                   stdout=subprocess.PIPE, check=True, text=True)
            offered = {row.split("\t")[0] for row in asked.stdout.splitlines()}
            self.assertEqual(offered, {name for name in options_of_help(command) if name.startswith("--")}, line)
