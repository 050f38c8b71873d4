"""What of a server's settings can lose messages."""
from __future__ import annotations

import contextlib
import json
import shutil
import time
import unittest
from typing import Dict, List, Tuple

from jagyerti import durability, resp, server
from jagyerti.durability import LOSES, OK, UNKNOWN, Facts

from .scripted import scripted
from .test_dead_letters import called

SAFE = {"appendonly": "yes", "appendfsync": "always", "no-appendfsync-on-rewrite": "no", "save": "", "maxmemory": "0",
        "maxmemory-policy": "noeviction", "min-replicas-to-write": "0", "min-replicas-max-lag": "10"}
INFO = {"redis_version": "7.0.15", "role": "master", "connected_slaves": "0", "cluster_enabled": "0"}


def states(info: Dict[str, str], settings: Dict[str, str], waits: bool = False) -> Dict[str, str]:
    """The names of what is not ok, with what they are."""
    found = durability.examine(Facts({**INFO, **info}, {**SAFE, **settings}), waits)
    return {one.name: one.state for one in found if one.state != OK}




class ExamineTest(unittest.TestCase):
    def test_a_server_that_loses_nothing(self) -> None:
        self.assertEqual(states({}, {}), {})
        self.assertEqual(durability.can_lose(durability.examine(Facts(INFO, SAFE))), (0, 0))

    def test_each_setting(self) -> None:
        # As docs/WORKER.md says: appendonly yes with appendfsync always, noeviction, WAIT, min-replicas-to-write.
        rows: List[Tuple[Dict[str, str], Dict[str, str], Dict[str, str]]] = [
            ({}, {"appendonly": "no"}, {"appendonly": LOSES}),
            ({}, {"appendonly": "no", "save": "60 1000"}, {"appendonly": LOSES}),
            ({}, {"appendfsync": "everysec"}, {"appendfsync": LOSES}),
            ({}, {"appendfsync": "no"}, {"appendfsync": LOSES}),
            ({}, {"no-appendfsync-on-rewrite": "yes"}, {"no-appendfsync-on-rewrite": LOSES}),
            ({}, {"maxmemory-policy": "allkeys-lru"}, {}),
            ({}, {"maxmemory": "1000"}, {}),
            ({}, {"maxmemory": "1000", "maxmemory-policy": "allkeys-lru"}, {"maxmemory-policy": LOSES}),
            ({}, {"maxmemory": "1000", "maxmemory-policy": "volatile-ttl"}, {"maxmemory-policy": LOSES}),
            ({"connected_slaves": "1"}, {}, {"min-replicas-to-write": LOSES}),
            ({"connected_slaves": "2"}, {"min-replicas-to-write": "1"}, {"min-replicas-to-write": LOSES}),
            ({"aof_last_write_status": "err"}, {}, {"aof_last_write_status": LOSES}),
            ({"rdb_last_bgsave_status": "err"}, {}, {}),
        ]
        for info, settings, wanted in rows:
            self.assertEqual(states(info, settings), wanted, (info, settings))
        self.assertEqual(states({"connected_slaves": "1"}, {}, waits=True), {})

    def test_what_is_not_known(self) -> None:
        facts = Facts(INFO, {"appendonly": "yes", "maxmemory": "0", "maxmemory-policy": "noeviction"}, "NOPERM no")
        found = {one.name: one.state for one in durability.examine(facts) if one.state != OK}
        self.assertEqual(found, {"CONFIG": UNKNOWN, "appendfsync": UNKNOWN})

    def test_how_much_a_failover_loses(self) -> None:
        def text(**settings: str) -> str:
            facts = Facts({**INFO, "connected_slaves": "1"}, {**SAFE, **{name.replace("_", "-"): it for name, it in settings.items()}})
            return [one.text for one in durability.examine(facts) if one.name == "min-replicas-to-write"][0]

        self.assertIn("nothing bounds it", text(min_replicas_to_write="0"))
        self.assertIn("nothing bounds it", text(min_replicas_to_write="1", min_replicas_max_lag="0"))
        self.assertIn("up to 7 seconds", text(min_replicas_to_write="1", min_replicas_max_lag="7"))

    def test_info(self) -> None:
        self.assertEqual(durability.parse_info(b"# Server\r\nredis_version:7.0.15\r\n\r\nslave0:ip=a:b,port=1\r\n"),
                         {"redis_version": "7.0.15", "slave0": "ip=a:b,port=1"})


class CommandTest(unittest.TestCase):
    def test_words_that_are_refused(self) -> None:
        for given in (("orders",), ("redis://127.0.0.1:1", "orders"), ("redis://127.0.0.1:1", "--jsn"), ("http://a",)):
            self.assertEqual(called("doctor", *given)[0], 2, given)

    def test_a_map_of_resp3_and_no_config(self) -> None:
        info = b"redis_version:7.2.4\r\nrole:slave\r\nmaster_host:a\r\nmaster_port:6379\r\naof_enabled:0\r\n" \
               b"maxmemory:0\r\nmaxmemory_policy:noeviction\r\n"
        replies = [resp.encode_reply(info), resp.encode_reply({"appendonly": "no"}), b"-ERR unknown command\r\n"]
        with scripted(replies) as (port, noted):
            status, shown, error = called("doctor", f"redis://127.0.0.1:{port}", "--json")
        found = json.loads(shown)
        rows = {row["name"]: row for row in found["findings"]}
        self.assertEqual((status, error, found["can_lose"]), (1, "", True))
        self.assertEqual((rows["CONFIG"]["state"], rows["appendonly"]["state"], rows["role"]["value"]), (UNKNOWN, LOSES, "replica"))
        self.assertEqual(noted[:2], [[b"INFO"], [b"CONFIG", b"GET", b"appendonly"]])

    @unittest.skipUnless(shutil.which("redis-server"), "redis-server is not installed")
    def test_a_live_server(self) -> None:
        with server.start_redis("--appendonly", "yes", "--appendfsync", "always") as one:
            status, shown, error = called("doctor", one.url)
            self.assertEqual((status, error), (0, ""))
            self.assertTrue(shown.endswith("nothing of these settings loses messages\n"), shown)
            with contextlib.closing(one.open()) as connection:
                self.assertEqual(set(durability.read_facts(connection).settings), set(durability.SETTINGS))
            with server.start_redis("--replicaof", "127.0.0.1", str(one.port)) as other:
                self.until_connected(one)
                status, shown, _ = called("doctor", one.url)
                self.assertEqual(status, 1)
                self.assertIn("min-replicas-to-write", shown)
                self.assertEqual(called("doctor", one.url, "--wait")[0], 0)
                shown = called("doctor", other.url)[1]
                self.assertIn(f"of 127.0.0.1:{one.port}", shown)
                self.assertNotIn("failover", shown)
            one.ask("ACL", "SETUSER", "bob", "on", ">pw", "+@all", "-config", "~*")
            status, shown, error = called("doctor", f"redis://bob:pw@127.0.0.1:{one.port}")
            self.assertEqual((status, error), (1, ""))
            self.assertRegex(shown, "unknown +CONFIG +forbidden .*NOPERM")
            one.ask("ACL", "SETUSER", "bob", "-info")
            status, shown, error = called("doctor", f"redis://bob:pw@127.0.0.1:{one.port}")
            self.assertEqual((status, shown), (1, ""))
            self.assertIn("NOPERM", error)

    def until_connected(self, one: server.Server) -> None:
        for _ in range(200):
            with contextlib.closing(one.open()) as connection:
                if durability.read_facts(connection).info["connected_slaves"] == "1":
                    return
            time.sleep(0.05)
        self.fail("the replica did not connect")


if __name__ == "__main__":
    unittest.main()
