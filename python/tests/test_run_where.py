"""jagyerti run over a cluster, by a sentinel, and over TLS."""
import contextlib
import os
import select
import shutil
import socket
import ssl
import subprocess
import threading
import unittest

from jagyerti import server

from .scripted import scripted
from .test_retry_after import Live


@contextlib.contextmanager
def over_tls(port, cert, key):
    """Serves what is at this port over TLS, at the port that is given."""
    context = ssl.SSLContext(ssl.PROTOCOL_TLS_SERVER)
    context.load_cert_chain(cert, key)
    listener = socket.create_server(("127.0.0.1", server.free_port()))

    def pass_on(outer):
        with contextlib.suppress(OSError), context.wrap_socket(outer, server_side=True) as one:
            with socket.create_connection(("127.0.0.1", port)) as other:
                while True:
                    ready = [one] if one.pending() else select.select([one, other], [], [])[0]
                    for source, to in ((one, other), (other, one)):
                        piece = source.recv(65536) if source in ready else b" "
                        if not piece:
                            return
                        if source in ready:
                            to.sendall(piece)

    def accept():
        with contextlib.suppress(OSError):
            while True:
                threading.Thread(target=pass_on, args=(listener.accept()[0],), daemon=True).start()

    threading.Thread(target=accept, daemon=True).start()
    with listener:
        yield listener.getsockname()[1]


class Where(Live):
    def run_until_empty(self, url, *words, status=0):
        """Runs all jobs. Returns what it said."""
        running = self.begin("c", "--until-empty", "--block", "100", *words, url=url)
        said = running.communicate(timeout=120)[1].decode()
        self.assertEqual(running.returncode, status, said)
        return said

    def test_by_a_sentinel(self):
        self.add(("done", 0))
        port = str(self.server.port).encode()
        with scripted([b"*2\r\n$9\r\n127.0.0.1\r\n$%d\r\n%s\r\n" % (len(port), port)]) as (sentinel, noted):
            self.run_until_empty(f"redis://127.0.0.1:{sentinel}", "--sentinel", "orders")
        self.assertEqual(noted, [[b"SENTINEL", b"GET-MASTER-ADDR-BY-NAME", b"orders"]])
        self.assertEqual((len(self.times("1-0")), self.pending()), (1, 0))

    @unittest.skipUnless(shutil.which("openssl"), "no openssl is installed")
    def test_over_tls(self):
        cert, key = os.path.join(self.folder, "cert"), os.path.join(self.folder, "key")
        subprocess.run(["openssl", "req", "-x509", "-newkey", "rsa:2048", "-nodes", "-days", "2", "-subj", "/CN=test", "-addext",
                        "subjectAltName=IP:127.0.0.1", "-keyout", key, "-out", cert], check=True, stderr=subprocess.DEVNULL)
        self.add(("later", 1), ("done", 0))
        with over_tls(self.server.port, cert, key) as port:
            running = self.begin("c", "--retry-after", "0.3", "--cacert", cert, url=f"rediss://127.0.0.1:{port}")
            self.until(lambda: len(self.times("1-0")) == 2 and self.pending() == 0)
            self.stop(running)
            self.assertEqual(len(self.times("2-0")), 1)

    def test_over_a_cluster(self):
        with server.start_redis("--cluster-enabled", "yes", "--cluster-port", str(server.free_port())) as self.server:
            self.server.ask("CLUSTER", "ADDSLOTSRANGE", 0, 16383)
            self.until(lambda: b"cluster_state:ok" in self.server.ask("CLUSTER", "INFO"))
            for at in range(3):
                for job in (1, 2):
                    self.server.ask("XADD", f"k:{{{at}}}", f"{job}{at}-0", "how", "later later" if job == 2 else "done", "times", 1)
            path = os.path.join(self.folder, "metrics")
            said = self.run_until_empty(self.server.url, "--cluster", "--partitions", "3", "--metrics", path)
            self.assertIn("k:{1}: 21-0 later: later\n", said)
            self.assertRegex(said, r"\nall +3 ")
            self.assertEqual([len(self.times(f"{job}{at}-0")) for at in range(3) for job in (1, 2)], [1] * 6)
            with open(path, encoding="utf-8") as file:
                self.assertIn('stream_run_later_total{stream="k:{2}",group="g",consumer="c"} 1\n', file.read())
            running = self.begin("c", "--cluster", "--partitions", "3", "--retry-after", "0.3", "--idle", "500")
            self.until(lambda: all(len(self.times(f"2{at}-0")) == 2 for at in range(3)))
            self.stop(running)

    def test_entries_are_sent_on_within_a_slot(self):
        with server.start_redis("--cluster-enabled", "yes", "--cluster-port", str(server.free_port())) as self.server:
            self.server.ask("CLUSTER", "ADDSLOTSRANGE", 0, 16383)
            self.until(lambda: b"cluster_state:ok" in self.server.ask("CLUSTER", "INFO"))
            for at in range(2):
                reply = '{"done":true,"add":[["results:{%d}",{"id":"7"}]]}' % at
                for job, how in enumerate((reply, "dead no order", "done"), 1):
                    self.server.ask("XADD", f"k:{{{at}}}", f"{job}{at}-0", "how", how, "times", 99)
            said = self.run_until_empty(self.server.url, "--cluster", "--partitions", "2", "--dead", "5", "lost", "--deliveries")
            for at in range(2):
                self.assertEqual([fields for _, fields in self.server.ask("XRANGE", f"results:{{{at}}}", "-", "+")], [[b"id", b"7"]])
                letter, = self.server.ask("XRANGE", f"lost:{{{at}}}", "-", "+")
                self.assertEqual(letter[1][:6], [b"reason", b"no order", b"entry", b"2%d-0" % at, b"deliveries", b"1"])
                self.assertIn(f"k:{{{at}}}: 2{at}-0 dead: no order\n", said)
                self.assertIn(f"k:{{{at}}}: 2{at}-0 was given up after 1 delivery\n", said)
                self.assertEqual(self.server.ask("XPENDING", f"k:{{{at}}}", "g")[0], 0)

    def test_wrong_words(self):
        for words, why in ((["--partitions", "2"], "are for --cluster"), (["--cluster"], "--cluster wants --partitions"),
                           (["--cluster", "--partitions", "2", "--processes", "2"], "--cluster and --processes exclude")):
            self.assertIn(why, self.run_until_empty(self.server.url, *words, status=2))


if __name__ == "__main__":
    unittest.main()
