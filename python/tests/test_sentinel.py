"""The master that sentinels report, and the nodes that a cluster reports."""
import argparse
import unittest

from jagyerti import cluster, connect, sentinel, server, url
from jagyerti.cli import reach

from .scripted import scripted

MASTER = b"*2\r\n$9\r\n127.0.0.2\r\n$4\r\n7001\r\n"


class Sentinels(unittest.TestCase):
    def find(self, *ports):
        places = ",".join(f"127.0.0.1:{port}" for port in ports)
        return sentinel.find_master(url.parse_all(f"redis://ann:secret@{places}/3?protocol=3&name=me"), "orders", connect.Options(protocol=3))

    def test_master_has_the_login(self):
        with scripted([MASTER]) as (port, noted):
            self.assertEqual(self.find(port), url.Address("redis", "127.0.0.2", 7001, "", "ann", "secret", 3, 3, "me"))
        self.assertEqual(noted, [[b"SENTINEL", b"GET-MASTER-ADDR-BY-NAME", b"orders"]])

    def test_next_sentinel_is_asked(self):
        with scripted([b"*-1\r\n"]) as (first, _), scripted([MASTER]) as (second, _):
            self.assertEqual(self.find(server.free_port(), first, second).port, 7001)

    def test_nobody_knows_it(self):
        with scripted([b"*-1\r\n"]) as (port, _), self.assertRaisesRegex(connect.Failed, "knows no master orders"):
            self.find(port)
        with scripted([b"-ERR unknown command\r\n"]) as (port, _), self.assertRaisesRegex(connect.Failed, "ERR unknown command"):
            self.find(port)


class Words(unittest.TestCase):
    def ports(self, master):
        words = argparse.Namespace(words=["redis://a,b:7" if master else "redis://a", "orders"], rest=[], after=[], sentinel=master)
        servers, left = reach.take_words(words)
        self.assertEqual(left, ["orders"])
        return [one.port for one in servers]

    def test_sentinels_have_their_port(self):
        self.assertEqual((self.ports("orders"), self.ports(None)), ([26379, 7], [6379]))


class Nodes(unittest.TestCase):
    # Two ranges; the node of the second has no host of its own.
    SLOTS = (b"*2\r\n*3\r\n:0\r\n:99\r\n*2\r\n$9\r\n127.0.0.3\r\n:7003\r\n"
             b"*3\r\n:100\r\n:16383\r\n*2\r\n$0\r\n\r\n:7004\r\n")

    def nodes(self, port):
        return cluster.Nodes(lambda host, port: connect.open(url.Address("redis", host, port)), [("127.0.0.1", port)])

    def test_master_of_a_slot(self):
        for slot, place in ((99, ("127.0.0.3", 7003)), (100, ("127.0.0.1", 7004))):
            with scripted([self.SLOTS]) as (port, noted):
                self.assertEqual(self.nodes(port).find_master(slot), place)
            self.assertEqual(noted, [[b"CLUSTER", b"SLOTS"]])

    def test_nobody_serves_it(self):
        with scripted([b"*0\r\n"]) as (port, _), self.assertRaisesRegex(connect.Failed, "no node serves the slot 5"):
            self.nodes(port).find_master(5)

    def test_no_cluster(self):
        with scripted([b"-ERR This instance has cluster support disabled\r\n"]) as (port, _):
            with self.assertRaisesRegex(connect.Failed, "the server replied ERR This instance has cluster support disabled"):
                self.nodes(port).find_master(5)


if __name__ == "__main__":
    unittest.main()
