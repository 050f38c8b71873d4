"""The bridge between a program and a connection that it cannot have itself."""
import socket
import threading
import unittest

from jagyerti.bridge import Bridge


class BridgeTest(unittest.TestCase):
    def setUp(self):
        self.server, self.peer = socket.socketpair()
        self.bridge = Bridge(self.server, 1.0, 1.0)
        self.thread = threading.Thread(target=self.bridge.run, daemon=True)
        self.thread.start()

    def tearDown(self):
        self.peer.close()
        self.thread.join(5)
        for one in (self.server, self.bridge.inner, self.bridge.outer):
            one.close()

    def fill(self):
        """Writes as the program does, until nothing takes more."""
        with self.assertRaises(BlockingIOError):
            while True:
                self.bridge.outer.send(bytes(65536))

    def test_it_copies_both_ways(self):
        self.bridge.outer.send(b"PING")
        self.assertEqual(self.peer.recv(64), b"PING")
        self.peer.send(b"+PONG")
        self.assertEqual(self.bridge.outer.recv(64), b"+PONG")

    def test_a_write_fails_after_the_server_has_closed(self):
        self.peer.send(b"+OK")
        self.fill()
        self.peer.close()
        self.thread.join(5)
        with self.assertRaises(BrokenPipeError):
            self.bridge.outer.send(bytes(1 << 20))
        self.assertEqual(self.bridge.outer.recv(64), b"+OK")
        self.assertEqual(self.bridge.outer.recv(64), b"")

    def test_it_ends_after_the_program_if_the_server_takes_nothing(self):
        self.fill()
        self.bridge.outer.close()
        self.thread.join(10)
        self.assertFalse(self.thread.is_alive())
