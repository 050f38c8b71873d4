"""A partition's runs with --cluster: what is printed of a program that fails."""
import contextlib
import functools
import io
import os
import tempfile
import unittest

from jagyerti import cli, cluster, connect, fleet, tries, url

from .scripted import scripted

PROGRAM = """#!/bin/sh
echo "0 entries in 0 batches" >&2
echo "Error: the server replied NOGROUP No such key" >&2
echo "With --from 0 a group that is missing is made." >&2
exit 1
"""


class Remedies(unittest.TestCase):
    def test_each_line_of_an_error_is_printed(self):
        said, states = io.StringIO(), []
        with tempfile.TemporaryDirectory() as folder, scripted([]) as (port, _):
            program = os.path.join(folder, "program")
            with open(program, "w", encoding="ascii") as file:
                file.write(PROGRAM)
            os.chmod(program, 0o700)
            plan = tries.Plan(program, ["orders:{0}", "g", "c", "f"], [url.Address("redis", "127.0.0.1", port)],
                              connect.Options(), functools.partial(cli.say, "drain"))
            nodes = cluster.Nodes(fleet.open_node(plan), [("127.0.0.1", port)])
            one = fleet.Partition(plan, 0, nodes, states.append, False)
            one.target = "127.0.0.1", port
            with contextlib.redirect_stderr(said):
                self.assertEqual(one.try_all(), 1)
        self.assertEqual(said.getvalue(), "jagyerti drain: orders:{0}: the server replied NOGROUP No such key\n"
                         "jagyerti drain: orders:{0}: With --from 0 a group that is missing is made.\n")


if __name__ == "__main__":
    unittest.main()
