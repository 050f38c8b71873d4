"""Redis Cluster: slots, redirections, who serves a slot, and the partitions of a stream.

Slots, partitions and redirections are as the crate redis_client defines them: tests/test_cluster.py holds these functions
to the stored rows of crates/test_cases.
"""
from __future__ import annotations

import binascii
import random
import re
from typing import Any, Callable, ContextManager, List, NamedTuple, Optional, Sequence, Tuple

from . import connect, resp

SLOTS = 16384
MOST_PARTITIONS = 65535
# This many redirections in a row are followed.
MOST_REDIRECTIONS = 16
PLACED = re.compile(rb"(MOVED|ASK) (0|[1-9][0-9]*) ([^ ]*):([1-9][0-9]*)", re.S)
CODES = (b"TRYAGAIN", b"CLUSTERDOWN", b"LOADING", b"MASTERDOWN", b"READONLY", b"NOREPLICAS")

Place = Tuple[str, int]


class ClusterError(NamedTuple):
    """What an error says of the cluster: its code, and with MOVED and ASK the slot and the node."""

    code: bytes
    slot: Optional[int] = None
    host: bytes = b""
    port: int = 0


def crc16(text: bytes) -> int:
    """Returns the CRC-16/XMODEM."""
    return binascii.crc_hqx(text, 0)


def key_slot(key: bytes) -> int:
    """Returns the slot of a key: of its hash tag, or of the whole key if it has none."""
    tag, closing, _ = key.partition(b"{")[2].partition(b"}")
    return crc16(tag if closing and tag else key) % SLOTS


def partition_of(record_key: bytes, number: int) -> int:
    """Returns the partition of a record."""
    return crc16(record_key) % number


def partition_name(name: str, partition: int) -> str:
    """Returns the key of a partition of a stream."""
    return f"{name}:{{{partition}}}"


def cluster_error(text: bytes) -> Optional[ClusterError]:
    """Returns what an error says of the cluster; None if it says nothing of it."""
    found = PLACED.fullmatch(text)
    if found and int(found[2]) < SLOTS and int(found[4]) < 65536:
        return ClusterError(found[1], int(found[2]), found[3], int(found[4]))
    code = text.partition(b" ")[0]
    return ClusterError(code) if code in CODES else None


class Nodes:
    """The nodes of a cluster, and who serves which slots. `connect_to` opens a connection with one of them."""

    def __init__(self, connect_to: Callable[[str, int], ContextManager[Any]], seeds: Sequence[Place]) -> None:
        self.connect_to, self.seeds = connect_to, list(seeds)
        self.known: List[Place] = list(seeds)
        self.ranges: List[Tuple[int, int, Place]] = []

    def find_master(self, slot: int) -> Place:
        """Asks the nodes, in random order, until one reports who serves a slot. Raises connect.Failed."""
        failed = connect.Failed("no node is known")
        for host, port in random.sample(self.known, len(self.known)):
            try:
                with self.connect_to(host, port) as connection:
                    self.take(resp.ask(connection, "CLUSTER", "SLOTS"), host)
                return self.known_master(slot)
            except connect.Failed as error:
                failed = error
            except resp.ReplyError as error:
                failed = connect.Failed(f"CLUSTER SLOTS: the server replied {error}")
            except (OSError, resp.ProtocolError) as error:
                failed = connect.Failed(f"{host}:{port}: {error}")
        raise failed

    def take(self, ranges: resp.Reply, host: str) -> None:
        """Takes the reply to CLUSTER SLOTS. A node without a host of its own is at the host that was asked."""
        def place(node: resp.Reply) -> Place:
            return host if node[0] in (None, b"", b"?") else node[0].decode(), node[1]

        self.ranges = [(first, last, place(nodes[0])) for first, last, *nodes in ranges]
        replied = [place(node) for _, _, *nodes in ranges for node in nodes]
        self.known = list(dict.fromkeys(self.seeds + replied))

    def known_master(self, slot: int) -> Place:
        """Returns the node that served a slot when the nodes were asked last. Raises connect.Failed."""
        for first, last, node in self.ranges:
            if first <= slot <= last:
                return node
        raise connect.Failed(f"no node serves the slot {slot}")

    def add(self, node: Place) -> None:
        """Adds a node that a redirection named."""
        if node not in self.known:
            self.known.append(node)
