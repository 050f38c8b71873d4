"""Servers of one's own: ended, started again, and those that do not start."""
import shutil
import signal
import socket
import unittest

from jagyerti import connect, server


@unittest.skipUnless(shutil.which("redis-server"), "redis-server is not installed")
class Redis(unittest.TestCase):
    def test_started_again(self):
        with server.start_redis("--appendonly", "yes", "--appendfsync", "always") as redis:
            redis.ask("SET", "k", "v")
            redis.end(signal.SIGKILL)
            self.assertEqual(redis.process.returncode, -signal.SIGKILL)
            redis.start()
            self.assertEqual(redis.ask("GET", "k"), b"v")
        self.assertEqual(redis.process.returncode, 0)
        with self.assertRaises(connect.Failed):
            redis.ask("PING")

    def test_with_a_password(self):
        with server.start_redis("--requirepass", "secret") as redis, redis.open() as connection:
            connection.sendall(b"PING\r\n")
            self.assertEqual(connection.recv(7), b"-NOAUTH")

    def test_a_port_that_is_taken(self):
        with socket.create_server(("127.0.0.1", 0)) as listener:
            with self.assertRaisesRegex(connect.Failed, "did not start"), server.start_redis(port=listener.getsockname()[1]):
                pass


if __name__ == "__main__":
    unittest.main()
