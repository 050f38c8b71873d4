"""The parts of a file, and the words of a partition's program."""
import os
import tempfile
import unittest

from jagyerti import partitions
from jagyerti.cluster import partition_of
from jagyerti.fleet import table, words_of_partition


class Parts(unittest.TestCase):
    def setUp(self):
        folder = tempfile.TemporaryDirectory()
        self.addCleanup(folder.cleanup)
        self.path = os.path.join(folder.name, "in")

    def add(self, text):
        with open(self.path, "ab") as file:
            file.write(text)

    def part(self, at):
        with open(f"{self.path}.{at}", "rb") as file:
            return file.read()

    def test_each_line_is_in_its_part_in_order(self):
        lines = [b"%d\ttea\n" % number for number in range(200)]
        self.add(b"".join(lines[:150]))
        first = partitions.Parts(self.path, 3, "line", False).split()
        self.add(b"".join(lines[150:]) + b"torn")
        parts = partitions.Parts(self.path, 3, "line", False)
        second = parts.split()
        self.assertEqual((sum(first), sum(second), parts.is_torn), (150, 200, True))
        for at in range(3):
            wanted = [line for line in lines if partition_of(line[:-1], 3) == at]
            self.assertEqual((self.part(at), second[at]), (b"".join(wanted), len(wanted)))

    def test_a_part_that_was_not_written_down_is_cut(self):
        self.add(b"a\nb\nc\n")
        partitions.Parts(self.path, 1, "line", False).split()
        with open(f"{self.path}.0", "ab") as file:
            file.write(b"half a li")
        self.add(b"d\n")
        self.assertEqual(partitions.Parts(self.path, 1, "line", False).split(), [4])
        self.assertEqual(self.part(0), b"a\nb\nc\nd\n")

    def test_keys(self):
        rows = (("line", False, b"a\tb", b"a\tb"), ("column:2", False, b"a\tb\tc", b"b"), ("field:n", True, b'{"n":"v"}', b"v"),
                ("field:n", True, b'{"n":{"base64":"/w=="}}', b"\xff"), ("field:n", True, b'{"id":"1-0","fields":[["m","w"],["n","v"]]}', b"v"))
        for by, is_json, line, key in rows:
            with self.subTest(by=by, line=line):
                self.assertEqual(partitions.key_by(by, is_json)(line), key)

    def test_refused(self):
        self.add(b"a\tb\nc\n")
        for by, is_json in (("column:0", False), ("column:2", True), ("field:n", False), ("field:", True), ("row", False)):
            with self.subTest(by), self.assertRaisesRegex(partitions.Refused, "--by"):
                partitions.Parts(self.path, 2, by, is_json)
        with self.assertRaisesRegex(partitions.Refused, "line 2 has no column:2"):
            partitions.Parts(self.path, 2, "column:2", False).split()
        partitions.Parts(self.path, 2, "line", False).split()
        with self.assertRaisesRegex(partitions.Refused, "was split into 2 partitions by line, and not 3 by line"):
            partitions.Parts(self.path, 3, "line", False).split()
        os.truncate(self.path, 1)
        with self.assertRaisesRegex(partitions.Refused, "became shorter"):
            partitions.Parts(self.path, 2, "line", False).split()

    def test_number_is_kept(self):
        partitions.keep_number(self.path, 4)
        partitions.keep_number(self.path, 4)
        with self.assertRaisesRegex(partitions.Refused, "has 4 partitions, and not 5"):
            partitions.keep_number(self.path, 5)

    def test_words_of_a_partition(self):
        words = ["orders", "g", "c", "out", "--dead", "3", "lost", "--count", "5"]
        self.assertEqual(words_of_partition(words, 3, 7), ["orders:{7}", "g", "c", "out.7", "--dead", "3", "lost:{7}", "--count", "5"])

    def test_table(self):
        rows = [["k:{0}", "h:1", "runs", 1234, None, 2, 1, 0, 0, 0], ["k:{1}", "", "begins", None, None, None, 0, 0, 0, 0]]
        self.assertEqual(table(rows), """\
PARTITION  NODE  STATE   ENTRIES  TO COME  PENDING  STARTS  MOVED  ASK  WAITS
k:{0}      h:1   runs      1,234                 2       1      0    0      0
k:{1}            begins                                  0      0    0      0
all                        1,234                 2       1      0    0      0
""")


if __name__ == "__main__":
    unittest.main()
