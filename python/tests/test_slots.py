"""Slots and partitions."""
from __future__ import annotations

import binascii
import random
import unittest

from jagyerti import NoPartition, key_slot, partition_name, partition_of

# As redis-server 7.0.15 says by CLUSTER KEYSLOT.
SLOTS = {
    "": 0, "foo": 12182, "user1000": 3443, "{user1000}.following": 3443, "foo{}{bar}": 8363, "foo{{bar}}zap": 4015,
    "foo{bar}{zap}": 5061, "{}": 15257, "{}a": 10875, "{{x}}": 11068, "}{": 12793, "123456789": 12739,
    b"\xff\x00": 1023,
}
# Of another implementation of the checksum.
PARTITIONS = {
    ("user1000", 12): 3, ("user1000", 1): 0, ("user1000", 65535): 19827, ("", 12): 0, ("{a}b", 12): 0, ("{a}c", 12): 1,
}


class ClusterTest(unittest.TestCase):
    def test_slots(self) -> None:
        self.assertEqual({key: key_slot(key) for key in SLOTS}, SLOTS)

    def test_partitions(self) -> None:
        self.assertEqual({of: partition_of(*of) for of in PARTITIONS}, PARTITIONS)

    def test_names(self) -> None:
        self.assertEqual(partition_name("orders", 3), b"orders:{3}")
        self.assertEqual(partition_name(b"\xff" * 1000, 65535), b"\xff" * 1000 + b":{65535}")
        self.assertEqual(key_slot(partition_name("orders", 3)), key_slot(partition_name("events", 3)))

    def test_random_keys(self) -> None:
        chance = random.Random(16384)
        for _ in range(10000):
            key, number = bytes(chance.choices(range(256), k=chance.randrange(24))), chance.randint(1, 65535)
            self.assertEqual(partition_of(key, number), binascii.crc_hqx(key, 0) % number)

    def test_what_is_no_partition(self) -> None:
        for number in (0, -1, 65536, 1 << 64):
            self.assertRaises(NoPartition, lambda: partition_of("k", number))
        for number in (-1, 65536, 1 << 64):
            self.assertRaises(NoPartition, lambda: partition_name("k", number))
        self.assertTrue(issubclass(NoPartition, ValueError))


if __name__ == "__main__":
    unittest.main()
