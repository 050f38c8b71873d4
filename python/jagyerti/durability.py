"""What of a server's settings can lose messages, as docs/WORKER.md and docs/CLUSTER.md say."""
from __future__ import annotations

import dataclasses
import socket
from typing import Dict, List, Optional, Tuple

from . import resp

OK, LOSES, UNKNOWN = "ok", "loses", "unknown"
SETTINGS = ("appendonly", "appendfsync", "no-appendfsync-on-rewrite", "save", "maxmemory", "maxmemory-policy",
            "min-replicas-to-write", "min-replicas-max-lag")
# Where INFO has a setting too, if CONFIG is forbidden.
OF_INFO = {"maxmemory": "maxmemory", "maxmemory-policy": "maxmemory_policy"}


@dataclasses.dataclass(frozen=True)
class Finding:
    """One line: what was looked at, its value, whether it can lose messages, and what that means."""

    name: str
    value: str
    state: str
    text: str


@dataclasses.dataclass(frozen=True)
class Facts:
    """What a server says of itself: INFO, and the settings that CONFIG GET returned.

    `refusal` is its error if it forbids CONFIG. Then the settings are those that INFO has too.
    """

    info: Dict[str, str]
    settings: Dict[str, str]
    refusal: Optional[str] = None


def read_facts(connection: socket.socket) -> Facts:
    """Asks a server for what `examine` looks at. Raises resp.ReplyError if it forbids INFO too."""
    info = parse_info(resp.ask(connection, "INFO"))
    settings = {name: info[field] for name, field in OF_INFO.items() if field in info}
    if "aof_enabled" in info:
        settings["appendonly"] = "yes" if info["aof_enabled"] == "1" else "no"
    try:
        for name in SETTINGS:
            rows = resp.ask(connection, "CONFIG", "GET", name)
            pairs = rows if isinstance(rows, dict) else dict(zip(rows[::2], rows[1::2]))
            settings.update({key.decode(): value.decode(errors="replace") for key, value in pairs.items()})
    except resp.ReplyError as error:
        return Facts(info, settings, str(error))
    return Facts(info, settings)


def parse_info(text: bytes) -> Dict[str, str]:
    """Returns the fields of INFO."""
    rows = (line.partition(":") for line in text.decode(errors="replace").splitlines() if not line.startswith("#"))
    return {name: value for name, colon, value in rows if colon}


def examine(facts: Facts, waits: bool = False) -> List[Finding]:
    """Returns what was found, in the order in which it is shown.

    `waits` says that all programs confirm what they write by WAIT.
    """
    findings = [_version(facts)]
    if facts.refusal is not None:
        findings.append(Finding("CONFIG", "forbidden", UNKNOWN, f"what INFO does not say is not known: {facts.refusal}"))
    findings += [_role(facts), *_persistence(facts), *_failed_writes(facts), _memory(facts), *_replicas(facts, waits)]
    return findings + [_cluster(facts)]


def _version(facts: Facts) -> Finding:
    version = facts.info.get("redis_version", "?")
    number = tuple(int(part) for part in version.split(".")[:2] if part.isdigit())
    if number < (6, 2):
        return Finding("version", version, OK if len(number) == 2 else UNKNOWN,
                       "XAUTOCLAIM, by which workers claim what others left, is of 6.2")
    return Finding("version", version, OK, "" if number >= (7, 0) else "the lag of a group is shown from 7.0 on")


def _role(facts: Facts) -> Finding:
    role = facts.info.get("role", "?")
    if role == "slave":
        master = f"{facts.info.get('master_host')}:{facts.info.get('master_port')}"
        return Finding("role", "replica", OK, f"of {master}: ask the master too, since what it keeps is what counts")
    return Finding("role", role, OK, "")


def _persistence(facts: Facts) -> List[Finding]:
    """The append-only file and the snapshots."""
    settings = facts.settings
    appendonly, save = settings.get("appendonly"), settings.get("save")
    if appendonly is None:
        return [_not_known("appendonly")]
    if appendonly != "yes":
        kept = "since the last snapshot" if save else "" if save is None else "since it started: it keeps nothing on disk"
        more = "; replicas copy an empty master that restarts" if _count_replicas(facts) else ""
        text = f"a restart loses what was written {kept}".rstrip() + f"{more}: appendonly yes"
        return [Finding("appendonly", appendonly, LOSES, text), *_snapshots(save)]
    return [Finding("appendonly", "yes", OK, ""), _sync(settings.get("appendfsync")),
            *_sync_while_rewriting(settings), *_snapshots(save)]


def _snapshots(save: Optional[str]) -> List[Finding]:
    return [] if save is None else [Finding("save", save or "none", OK, "")]


def _sync(value: Optional[str]) -> Finding:
    if value is None:
        return _not_known("appendfsync")
    lost = {"everysec": "up to two seconds of what was written",
            "no": "what the system had not put on disk, up to half a minute of it"}
    if value == "always":
        return Finding("appendfsync", value, OK, "each reply comes after a sync")
    return Finding("appendfsync", value, LOSES, f"a crash of the machine loses {lost.get(value, 'what was not synced')}: "
                   "appendfsync always")


def _sync_while_rewriting(settings: Dict[str, str]) -> List[Finding]:
    name = "no-appendfsync-on-rewrite"
    if settings.get(name) != "yes":
        return []
    text = "while the file is rewritten nothing is synced, whatever appendfsync says: set it to no"
    return [Finding(name, "yes", LOSES, text)]


def _failed_writes(facts: Facts) -> List[Finding]:
    """An error of the disk, which the server notes."""
    has_file = facts.settings.get("appendonly") == "yes"
    field = "aof_last_write_status" if has_file else "rdb_last_bgsave_status"
    if facts.info.get(field, "ok") == "ok":
        return []
    text = "the last write of the append-only file failed" if has_file else "the last snapshot failed"
    return [Finding(field, facts.info[field], LOSES, f"{text}: look at the disk, and at the server's log")]


def _memory(facts: Facts) -> Finding:
    limit, policy = facts.settings.get("maxmemory"), facts.settings.get("maxmemory-policy")
    if limit is None or policy is None:
        return _not_known("maxmemory-policy")
    if policy == "noeviction":
        text = "" if limit == "0" else f"beyond {limit} bytes additions are refused with OOM, and nothing is evicted"
        return Finding("maxmemory-policy", policy, OK, text)
    if limit == "0":
        return Finding("maxmemory-policy", policy, OK, "maxmemory is not set; before it is, set maxmemory-policy noeviction")
    victims = "a stream with a time to live" if policy.startswith("volatile") else "any stream"
    return Finding("maxmemory-policy", policy, LOSES,
                   f"beyond {limit} bytes {victims} may be evicted, with its groups: maxmemory-policy noeviction")


def _count_replicas(facts: Facts) -> int:
    return int(facts.info.get("connected_slaves", "0"))


def _replicas(facts: Facts, waits: bool) -> List[Finding]:
    """What a failover can lose. Without a replica there is none, and a replica itself does not know of it."""
    count = _count_replicas(facts)
    if facts.info.get("role") == "slave":
        return []
    if not count:
        return [Finding("replicas", "0", OK, "no failover; if the machine is lost, so is what it keeps")]
    found = Finding("replicas", str(count), OK, "")
    if waits:
        return [found, Finding("WAIT", "--wait", OK, "a failover keeps what was confirmed, if all replicas confirmed it")]
    least, lag = facts.settings.get("min-replicas-to-write"), facts.settings.get("min-replicas-max-lag")
    if least is None:
        return [found, _not_known("min-replicas-to-write")]
    if least == "0" or lag == "0":
        text = "a failover loses what no replica has, and nothing bounds it: min-replicas-to-write 1, and programs with --wait"
    else:
        text = f"a failover loses up to {lag} seconds of what was written, unless programs confirm it by --wait"
    value = least if least == "0" else f"{least}, max-lag {lag}"
    return [found, Finding("min-replicas-to-write", value, LOSES, text)]


def _cluster(facts: Facts) -> Finding:
    enabled = facts.info.get("cluster_enabled") == "1"
    return Finding("cluster", "yes" if enabled else "no", OK, "this is one node of it: ask each master" if enabled else "")


def _not_known(name: str) -> Finding:
    return Finding(name, "?", UNKNOWN, "the server does not say it")


def can_lose(findings: List[Finding]) -> Tuple[int, int]:
    """Returns how many findings can lose messages, and how many are not known."""
    states = [finding.state for finding in findings]
    return states.count(LOSES), states.count(UNKNOWN)
