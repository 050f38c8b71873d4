"""Slots, partitions and redirections, as the rows of crates/test_cases have them."""
from __future__ import annotations

import os
import unittest

from jagyerti import cluster

ROWS = os.path.join(os.path.dirname(__file__), "../../crates/test_cases/stdout")
STEPS = {b"MOVED": "connect", b"ASK": "ask once", b"READONLY": "give up"}
CODES = {
    b"TRYAGAIN": "try again", b"CLUSTERDOWN": "cluster down", b"LOADING": "loading", b"MASTERDOWN": "master down",
    b"READONLY": "read only", b"NOREPLICAS": "no replicas",
}


def tell_error(text: str) -> str:
    """Returns how a row tells an error of a cluster."""
    error = cluster.cluster_error(text.encode())
    if error is None:
        return "none of these"
    name = CODES.get(error.code, error.code.decode().lower())
    where = "" if error.slot is None else f" slot {error.slot} host {error.host.decode()} port {error.port}"
    return f"{name}{where}: {STEPS.get(error.code, 'wait')}"


def tell_partition(text: str) -> str:
    number, _, key = text.partition(" ")
    return str(cluster.partition_of(key.encode(), int(number)))


def tell_name(text: str) -> str:
    number, _, name = text.partition(" ")
    key = cluster.partition_name(name, int(number))
    return f"{key} slot {cluster.key_slot(key.encode())}"


KINDS = {
    "slot": lambda text: str(cluster.key_slot(text.encode())),
    "slot-of-hex": lambda text: str(cluster.key_slot(bytes.fromhex(text))),
    "error": tell_error, "partition": tell_partition, "partition-name": tell_name,
}
NO_CASE = ("no hex digits", "no partitions", "no number")


class RowsTest(unittest.TestCase):
    def test_rows(self) -> None:
        with open(ROWS, encoding="utf-8") as file:
            rows = [row.split("\t") for row in file.read().splitlines()]
        for kind, tell in KINDS.items():
            wanted = {text: answer for of, text, answer, *_ in rows if of == kind and answer not in NO_CASE}
            with self.subTest(kind):
                self.assertTrue(wanted)
                self.assertEqual({text: tell(text) for text in wanted}, wanted)


if __name__ == "__main__":
    unittest.main()
