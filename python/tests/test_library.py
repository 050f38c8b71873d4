"""The shared library: how it is found."""
from __future__ import annotations

import os
import shutil
import subprocess
import sys
import tempfile
import unittest
import unittest.mock

import jagyerti
from jagyerti import library

PACKAGE = os.path.dirname(jagyerti.__file__)

TRIED = """
import jagyerti
try:
    jagyerti.find_streams(b"_\\r\\n")
except jagyerti.LibraryNotFound as error:
    print(error)
"""


class LibraryTest(unittest.TestCase):
    def shown_by(self, path: str) -> str:
        env = dict(os.environ, REDIS_C_LIBRARY=path, PYTHONPATH=os.path.dirname(PACKAGE))
        return subprocess.run([sys.executable, "-c", TRIED], env=env, capture_output=True, text=True, check=True).stdout

    def test_a_library_that_is_not_there(self) -> None:
        self.assertIn("/nowhere/libredis_c.so", self.shown_by("/nowhere/libredis_c.so"))

    def test_what_is_no_library(self) -> None:
        self.assertEqual(self.shown_by(__file__).count(__file__), 1)

    def test_a_place_is_named_once(self) -> None:
        with tempfile.TemporaryDirectory() as root:
            home = os.path.join(root, "lib", "jagyerti")
            shutil.copytree(PACKAGE, home, ignore=shutil.ignore_patterns("__pycache__", "lib"))
            env = {name: value for name, value in os.environ.items() if name != library.VARIABLE}
            env["PYTHONPATH"] = os.path.dirname(home)
            said = subprocess.run([sys.executable, "-c", TRIED], cwd=root, env=env, capture_output=True, text=True, check=True).stdout
            self.assertEqual(said.count(f" {root}/lib/{library.NAME}"), 1, said)
            self.assertEqual(said.count(f" {home}/lib/{library.NAME}"), 1, said)

    def test_the_path_in_the_variable(self) -> None:
        path = library.library()._name
        self.assertEqual(self.shown_by(path), "")

    def folder_of_checkout(self) -> str:
        """The folder of a checkout that the library is made in."""
        with unittest.mock.patch.dict(os.environ):
            os.environ.pop(library.VARIABLE, None)
            return os.path.basename(os.path.dirname(library.library_paths()[-1]))

    def test_the_places_of_an_installation(self) -> None:
        for home, place in (("lib/jagyerti", "lib/jagyerti/lib"), ("lib/jagyerti", "lib"), ("python/jagyerti", "lib"),
                            ("python/jagyerti", self.folder_of_checkout())):
            with self.subTest(home=home, place=place), tempfile.TemporaryDirectory() as root:
                shutil.copytree(PACKAGE, os.path.join(root, home), ignore=shutil.ignore_patterns("__pycache__", "lib"))
                os.makedirs(os.path.join(root, place), exist_ok=True)
                os.symlink(library.library()._name, os.path.join(root, place, library.NAME))
                env = {"PYTHONPATH": os.path.dirname(os.path.join(root, home))}
                code = TRIED + "from jagyerti import library\nprint(library.library()._name)"
                # (in another folder than this one, whose package would be taken)
                ran = subprocess.run([sys.executable, "-c", code], cwd=root, env=env, capture_output=True, text=True, check=True)
                self.assertTrue(os.path.samefile(ran.stdout.strip(), library.library()._name), ran.stdout)


if __name__ == "__main__":
    unittest.main()
