"""What tools/install of a checkout says as it goes, and if something that it wants is not there."""
from __future__ import annotations

import os
import shutil
import subprocess
import sys
import tempfile
import unittest

from jagyerti.connect import USAGE
from jagyerti.process import PACKAGES
from jagyerti.tries import UNSAFE

INSTALL = os.path.join(os.path.dirname(PACKAGES), "tools", "install")
# Builds what takes no time, in a folder.
QUICK = """
import os, sys
tools, sys.argv = sys.argv[1], ["tools/install"]
sys.path.insert(0, tools)
import layout
layout.ROOT = os.getcwd()
layout.is_current = lambda path, crate: False
layout.build_library = lambda is_proved: {}
layout.tree_of = lambda build, programs, library: {}
layout.make_tree(layout.Build("1", False, "", False, 0))
"""


@unittest.skipUnless(os.path.exists(INSTALL) and shutil.which("rt"), "this is no checkout, or rt is not installed")
class InstallTest(unittest.TestCase):
    def install(self, *programs: str) -> str:
        """What it says with these programs alone on the PATH."""
        with tempfile.TemporaryDirectory() as folder:
            for name in programs:
                with open(os.path.join(folder, name), "w", encoding="ascii") as file:
                    file.write(f'#!/bin/sh\nexec {shutil.which(name)} "$@"\n')
                os.chmod(os.path.join(folder, name), 0o755)
            environment = {**os.environ, "PATH": folder}
            ran = subprocess.run([sys.executable, INSTALL, "--unproved", os.path.join(folder, "prefix")], env=environment,
                                 stdin=subprocess.DEVNULL, stdout=subprocess.PIPE, stderr=subprocess.STDOUT, text=True, check=False)
            self.assertEqual((ran.returncode, os.path.exists(os.path.join(folder, "prefix"))), (1, False))
            return ran.stdout

    def test_programs_that_are_not_there(self) -> None:
        self.assertIn("rt is not on the PATH: ", self.install("git"))
        self.assertEqual(self.install("git", "python3", "rt", "strip"), "install: cc is not installed: Debian's package gcc has it\n")
        self.assertEqual(self.install("git", "python3", "rt", "cc"), "install: strip is not installed: Debian's package binutils has it\n")


@unittest.skipUnless(os.path.exists(INSTALL), "this is no checkout")
class UnitsTest(unittest.TestCase):
    def test_no_unit_starts_again_where_another_start_would_not_help(self) -> None:
        for name, statuses in (("drain", f"{USAGE} {UNSAFE}"), ("run", str(USAGE))):
            path = os.path.join(os.path.dirname(INSTALL), "templates", "package", f"jagyerti-{name}@.service")
            with open(path, encoding="ascii") as file:
                lines = file.read().splitlines()
            self.assertIn("Restart=on-failure", lines)
            self.assertIn(f"RestartPreventExitStatus={statuses}", lines)


@unittest.skipUnless(os.path.exists(INSTALL), "this is no checkout")
class StepsTest(unittest.TestCase):
    def make(self, builder: str) -> "subprocess.CompletedProcess[str]":
        """Builds what takes no time: this script is tools/build-program."""
        with tempfile.TemporaryDirectory() as folder:
            os.mkdir(f"{folder}/tools")
            scripts = {"rt": "echo /nowhere/doc", "cc": "exit 1", "strip": "exit 1", "tools/build-program": builder}
            for name, text in scripts.items():
                with open(os.path.join(folder, name), "w", encoding="ascii") as file:
                    file.write(f"#!/bin/sh\n{text}\n")
                os.chmod(os.path.join(folder, name), 0o755)
            return subprocess.run([sys.executable, "-c", QUICK, os.path.dirname(INSTALL)], cwd=folder, env={"PATH": folder},
                                  stdin=subprocess.DEVNULL, capture_output=True, text=True, check=False)

    def test_a_line_for_each_step(self) -> None:
        ran = self.make('echo "build-program: $1 is compiled (7 s)"')
        first, *lines = ran.stdout.splitlines()
        self.assertEqual((ran.returncode, ran.stderr), (0, ""))
        self.assertRegex(first, "^install: (the C library is there|compiles these, which takes minutes: stream_sqlite, )")
        for line in ("build-program: stream_sqlite is compiled (7 s)", "install: the programs are there (0 s)",
                     "install: the man pages, completions and licences are made (0 s)"):
            self.assertIn(line, lines)

    def test_a_program_that_is_not_built(self) -> None:
        ran = self.make("echo it is wrong >&2; exit 1")
        self.assertIn("Failed: ", ran.stderr)
        self.assertIn("it is wrong", ran.stderr)
        self.assertNotIn("the programs are there", ran.stdout)
