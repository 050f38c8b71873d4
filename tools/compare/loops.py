#!/usr/bin/env -S python3 -B
"""Loops in Python as one writes them by hand, beside which other tools run the programs. They end if nothing is new.

usage: loops.py look PORT KEY GROUP                looks at a field of a hundred jobs at once
       loops.py table PORT KEY GROUP FILE          puts a thousand entries at once into a table of SQLite
       loops.py kill PORT KEY GROUP WAY            does jobs one by one, without end. WAY is new, pending or noack
       loops.py fill NODES NAME FILE PARTITIONS SKIP             adds the lines of FILE behind the first SKIP ones
       loops.py drain NODES NAME FILE WHICH [--until-empty]      entries of the partitions WHICH, or without end
       loops.py handler, lines, or worker URL KEY GROUP          looks at a field of each job, without redis-py

NODES is HOST:PORT,.., and WHICH is numbers with commas between them.
"""
import os
import signal
import sqlite3
import sys
import time

sys.path[:0] = [f"{sys.path[0]}/..", f"{sys.path[0]}/../../python"]

BATCH, PAUSE = 50, 0.1


class Loop:
    """A consumer: from an id on what is pending for it, and then what is new. What handles entries returns ids."""

    def __init__(self, client, key, group, handle, start="0", **more):
        self.client, self.key, self.group, self.handle, self.start, self.more = client, key, group, handle, start, more

    def turn(self):
        """Takes a batch; whether there was one, or may be one."""
        told = self.client().xreadgroup(self.group, "ann", {self.key: self.start}, **self.more)
        entries = told[0][1] if told else []
        if not entries:
            was_pending, self.start = self.start != ">", ">"
            return was_pending
        if ids := self.handle(entries):
            self.client().xack(self.key, self.group, *ids)
        return True


def loop_over(port, *words, **more):
    import redis
    client = redis.Redis(port=int(port))
    return Loop(lambda: client, *words, **more)


def look(port, key, group):
    handle = lambda entries: [id for id, fields in entries if fields[b"item"].decode()]
    loop = loop_over(port, key, group, handle, ">", count=100, block=100)
    while loop.turn():
        pass


def table(port, key, group, path):
    from shared import as_json, shown
    database = sqlite3.connect(path, isolation_level=None)
    database.executescript("""PRAGMA journal_mode = WAL; PRAGMA synchronous = FULL;
        CREATE TABLE IF NOT EXISTS entries (milliseconds INTEGER NOT NULL, sequence INTEGER NOT NULL,
        fields TEXT NOT NULL, PRIMARY KEY (milliseconds, sequence)) STRICT""")

    def row_of(entry):
        return *map(int, entry[0].split(b"-")), as_json([[shown(it) for it in pair] for pair in entry[1].items()])

    def handle(entries):
        database.execute("BEGIN IMMEDIATE")
        database.executemany("INSERT INTO entries (milliseconds, sequence, fields) VALUES (?1, ?2, ?3)",
                             map(row_of, entries))
        database.execute("COMMIT")
        return [id for id, _ in entries]

    loop = loop_over(port, key, group, handle, count=1000, block=100)
    while loop.turn():
        pass
    database.close()


def kill(port, key, group, way):
    from work import work  # of tools/compare/kills

    def handle(entries):
        for id, fields in entries:
            work(fields[b"n"])
            if way != "noack":
                loop.client().xack(key, group, id)

    loop = loop_over(port, key, group, handle, "0" if way == "pending" else ">", count=10, block=1000,
                     noack=way == "noack")
    while True:
        loop.turn()


def handler():
    from jagyerti import jobs
    jobs.handler(lambda job: job.text("item")).serve()


def lines():
    for _ in sys.stdin:
        print("done", flush=True)


def worker(url, key, group):
    from jagyerti import Worker
    words = "--count 100 --block 100 --until-empty".split()
    Worker(url, key, group, "ann", words=words).run(lambda job: job.text("item"))


class Nodes:
    """The cluster's client, made anew after an error: its own errors come out of it too while nodes change."""

    def __init__(self, nodes):
        self.places, self.made = [place.rsplit(":", 1) for place in nodes.split(",")], None

    def __call__(self):
        from redis.cluster import ClusterNode, RedisCluster
        if self.made is None:
            nodes = [ClusterNode(host, int(port)) for host, port in self.places]
            self.made = RedisCluster(startup_nodes=nodes, socket_timeout=5)
        return self.made

    def again(self, work, after=lambda: None):
        """Does it until the client tells no error, and something else after each error."""
        while True:
            try:
                return work()
            except Exception:
                self.made = None
                time.sleep(PAUSE)
                after()


def fill(nodes, name, path, partitions, skip):
    from jagyerti import cluster
    client, number = Nodes(nodes), int(partitions)
    with open(path, "rb") as file:
        texts = file.read().split(b"\n")[int(skip):-1]

    def add(batch):
        pipeline = client().pipeline()
        for text in batch:
            pipeline.xadd(cluster.partition_name(name, cluster.partition_of(text, number)), {"line": text})
        pipeline.execute()

    for at in range(0, len(texts), BATCH):
        client.again(lambda: add(texts[at:at + BATCH]))


class Drained(Loop):
    """A partition, and the file that its entries come into."""

    def __init__(self, client, key, path):
        super().__init__(client, key, "packers", self.write, count=100)
        self.file = open(path, "ab")

    def begin(self):
        """Begins with what is pending, in a group that may be there."""
        import redis
        self.start = "0"
        try:
            self.client().xgroup_create(self.key, self.group, id="0", mkstream=True)
        except redis.ResponseError as error:
            if not str(error).startswith("BUSYGROUP"):
                raise

    def write(self, entries):
        self.file.write(b"".join(fields[b"line"] + b"\n" for _, fields in entries if fields))
        self.file.flush()
        os.fsync(self.file.fileno())
        return [id for id, _ in entries]


def drain(nodes, name, path, which, *words):
    from jagyerti import cluster
    client, told, took = Nodes(nodes), [], [True]
    signal.signal(signal.SIGTERM, lambda *_: told.append(True))
    parts = [Drained(client, cluster.partition_name(name, int(at)), f"{path}.{at}") for at in which.split(",")]
    for part in parts:
        client.again(part.begin)
    while any(took) or not words:
        time.sleep(0 if any(took) else PAUSE)
        took = [client.again(part.turn, lambda: client.again(part.begin)) for part in parts]
        if told:
            return


if __name__ == "__main__":
    if sys.argv[1:2] in (["-h"], ["--help"]):
        print(__doc__.strip())
    else:
        globals()[sys.argv[1]](*sys.argv[2:])
