"""The partitions of a stream over a Redis Cluster: a process and a program for each, and a table of them."""
from __future__ import annotations

import dataclasses
import os
import re
import signal
import time
from types import FrameType
from typing import Any, Callable, Dict, List, Optional, Sequence

from . import cluster, connect, partitions, resp
from .connect import FAILED, Failed
from .metrics import MetricsFile, Row
from .process import HELD
from .retry import BROKE, PASSING, SAME_SERVER, Pauses
from .team import State, Team, Tell
from .tries import Plan, Stopped, Tries
from .url import Address

FIRST_PAUSE = 0.1  # seconds
ANSWERED = "the server replied "
HEAD = ("PARTITION", "NODE", "STATE", "ENTRIES", "TO COME", "PENDING", "STARTS", "MOVED", "ASK", "WAITS")
COLUMNS = ("entries", "to_come", "pending", "starts", "moved", "ask", "waits")


@dataclasses.dataclass(frozen=True)
class Share:
    """The partitions: their number, those of this process, and the place of FILE among the words, None if there is none.
    Lines of a file that are brought in are spread `by` their key."""

    number: int
    mine: Sequence[int]
    place: Optional[int]
    by: Optional[str] = None


def words_of_partition(words: Sequence[str], place: Optional[int], at: int) -> List[str]:
    """Returns the words of a partition's program: its key, its file if it has one, and its stream of dead letters."""
    own = list(words)
    own[0] = cluster.partition_name(own[0], at)
    if place is not None:
        own[place] += f".{at}"
    for index in range(1 if place is None else place + 1, len(own) - 2):
        if own[index] == "--dead":
            own[index + 2] = cluster.partition_name(own[index + 2], at)
    return own


def open_node(plan: Plan) -> Callable[[str, int], Any]:
    """Returns what connects to a node, to ask it something."""
    options, server = dataclasses.replace(plan.options, client_name=None), dataclasses.replace(plan.servers[0], client_name=None)
    return lambda host, port: connect.open(server.at(host, port), options)


class Partition(Tries):
    """The runs of one partition, one after the other. What happens is reported by `tell`."""

    def __init__(self, plan: Plan, at: int, nodes: cluster.Nodes, tell: Callable[[State], None], fills: bool) -> None:
        super().__init__(plan)
        self.slot, self.nodes, self.tell, self.fills = cluster.key_slot(os.fsencode(plan.words[0])), nodes, tell, fills
        self.state: State = {"at": at, "node": None, "state": "begins", "entries": None, "to_come": None, "pending": None,
                             "starts": 0, "moved": 0, "ask": 0, "waits": 0, "figures": {}}
        self.before, self.tries, self.redirections = 0, 0, 0
        self.remedy = ""
        self.pauses = Pauses(plan.pause, FIRST_PAUSE)
        self.target: Optional[cluster.Place] = None
        self.server: Optional[Address] = None
        self.started: Optional[float] = None

    def say(self, text: str) -> None:
        """Prints each of its lines with the name of the partition."""
        for line in text.split("\n"):
            self.plan.say(f"{self.plan.words[0]}: {line}")

    def report(self, **changes: Any) -> None:
        """Reports what changed."""
        self.state.update(changes)
        self.tell(self.state)

    def hear(self, line: str) -> bool:
        """Takes the counts, the error, and the lines after it. Nothing is shown but the table."""
        before = self.error
        super().hear(line)
        self.remedy = self.remedy + f"\n{line}" if self.error and self.error is before else ""
        self.held_counts = self.held_error = ""
        return False

    def take_counts(self, line: str) -> None:
        """Reports the counts of the program."""
        if self.fills:
            numbers = [int(number) for number in re.findall(r"(?:^|, )([0-9]+) (?=[a-z])", line)]
            self.report(entries=numbers[0] + numbers[-1])
        else:
            self.report(entries=self.before + self.entries, **self.figures.backlog, figures=self.figures.all())

    def find_server(self) -> Address:
        """Returns the node that serves the slot: as the last MOVED said, or as the nodes report."""
        if self.target is not None:
            place = self.target
        elif self.state["starts"] == 0 and self.nodes.ranges:
            place = self.nodes.known_master(self.slot)
        else:
            place = self.nodes.find_master(self.slot)
        self.target = None
        self.server = self.plan.servers[0].at(*place)
        self.report(state="connects", node=self.server.place)
        return self.server

    def try_all(self) -> int:
        """Runs it until it is done, or no try helps."""
        while True:
            self.error, self.remedy, self.entries, self.started = "", "", 0, None
            try:
                status, may_help = self.run_once(self._found_and_counted)
                text = self.error[7:].strip()
            except Failed as failed:
                status, may_help, text = failed.status, True, str(failed)
            if self.state["entries"] is not None and not self.fills:
                self.before = self.state["entries"]
            if status == 0 or self.signals:
                break
            if self.entries or self.started is not None and time.monotonic() - self.started > 5:
                self.tries = self.redirections = 0
                self.pauses.reset()
            if self.is_fewer and self.server is not None:
                self.target = self.server.host, self.server.port
            elif not self._goes_on(status, may_help, text):
                break
        self.report(state=f"ended with {status}")
        return status

    def _found_and_counted(self) -> Address:
        server = self.find_server()
        self.started = time.monotonic()
        self.report(state="runs", starts=self.state["starts"] + 1)
        return server

    def _goes_on(self, status: int, may_help: bool, text: str) -> bool:
        """Waits as the end of a run asks for. Returns whether there is to be another one."""
        answered = text.partition(ANSWERED)[2]
        error = cluster.cluster_error(os.fsencode(answered))
        if error is not None and error.slot is not None:
            return self._is_redirected(error, answered)
        code = answered.partition(" ")[0]
        passes = code in PASSING if answered else bool(BROKE.search(text)) or not self.error
        if not passes and (not may_help or self.tries >= self.plan.retry):
            self.say((text or f"ended with {status}") + self.remedy)
            return False
        self.tries += not passes
        if (not text or code in SAME_SERVER) and self.server is not None:
            self.target = self.server.host, self.server.port
        self._wait(text or f"ended with {status}")
        return True

    def _is_redirected(self, error: cluster.ClusterError, text: str) -> bool:
        """Follows a redirection: MOVED at once if it is the first in a row. Returns whether it did.

        ASK lasts while the slot moves, and a program asks without ASKING. So it waits, and tries the same node, which says
        MOVED in the end.
        """
        assert self.server is not None
        self.redirections += 1
        if self.redirections > cluster.MOST_REDIRECTIONS:
            self.say(f"more than {cluster.MOST_REDIRECTIONS} redirections in a row, the last of them {text}")
            return False
        if error.code == b"MOVED":
            self.state["moved"] += 1
            self.target = os.fsdecode(error.host) or self.server.host, error.port
            self.nodes.add(self.target)
        else:
            self.state["ask"] += 1
            self.target = self.server.host, self.server.port
        if error.code == b"MOVED" and self.redirections == 1:
            self.say(f"{text}: connects there")
        else:
            self._wait(text)
        return True

    def _wait(self, text: str) -> None:
        pause = self.pauses.take()
        self.say(f"{text}: tries again in {pause:.1f} seconds")
        self.report(state="waits", waits=self.state["waits"] + 1)
        self.sleep(pause)


class Fleet:
    """The partitions of this process, each in a process of its own, and the table of them."""

    def __init__(self, plan: Plan, share: Share) -> None:
        self.plan, self.share, self.signals = plan, share, 0
        self.nodes = cluster.Nodes(open_node(plan), [(one.host, one.port) for one in plan.servers])
        self.team = Team(share.mine, self._serve)
        self.shown, self.is_torn = "", False
        self.metrics = MetricsFile(plan.metrics, plan.metrics_prefix, plan.say) if plan.metrics else None

    def run_to_the_end(self) -> int:
        """Runs all partitions. Returns 0, or the status of one that has another."""
        for held in HELD:
            signal.signal(held, self.take_signal)
        try:
            self._prepare()
            self._refuse_more()
            self.team.start()
        except Stopped:
            return self.plan.stopped
        due = time.monotonic() + 1
        while self.team.children:
            self.team.take_rows(0.2)
            self.team.reap()
            if time.monotonic() >= due:
                self._write_metrics()
                if not self.plan.is_quiet:
                    self._show()
                due = time.monotonic() + 1
        while self.team.take_rows(0):
            pass
        self._show()
        self._write_metrics()
        if self.is_torn:
            self.plan.say("the last line has no end, and is not added")
        return self.team.worst() or (FAILED if self.is_torn and not self.signals else 0)

    def take_signal(self, _number: int, _frame: Optional[FrameType]) -> None:
        """Passes SIGTERM and SIGINT on to all partitions."""
        self.signals += 1
        if not self.team.children:
            raise Stopped
        self.team.pass_on()

    def _prepare(self) -> None:
        """Splits the file that is to be brought in. Refuses another number of partitions than there was."""
        if self.share.place is None:
            return
        path, number = self.plan.words[self.share.place], self.share.number
        try:
            if self.share.by is None:
                partitions.keep_number(path, number)
                return
            parts = partitions.Parts(path, number, self.share.by, "--json" in self.plan.words)
            lines = parts.split()
            self.is_torn = parts.is_torn
            self.plan.say(f"{sum(lines)} lines in {number} parts, of {min(lines)} to {max(lines)}")
        except (partitions.Refused, OSError) as error:
            raise Failed(str(error)) from None

    def _refuse_more(self) -> None:
        """Refuses a number of partitions that is lower than that of the streams that are there."""
        key, pauses = cluster.partition_name(self.plan.words[0], self.share.number), Pauses(self.plan.pause, FIRST_PAUSE)
        while True:
            try:
                place = self.nodes.find_master(cluster.key_slot(os.fsencode(key)))
                with self.nodes.connect_to(*place) as connection:
                    is_there = resp.ask(connection, "EXISTS", key)
                break
            except (Failed, resp.ReplyError, resp.ProtocolError, OSError) as error:
                text = f"{ANSWERED}{error}" if isinstance(error, resp.ReplyError) else str(error)
                answered = text.partition(ANSWERED)[2]
                if answered and answered.partition(" ")[0] not in (*PASSING, "MOVED", "ASK"):
                    raise Failed(text) from None
                pause = pauses.take()
                self.plan.say(f"{text}: tries again in {pause:.1f} seconds")
                time.sleep(pause)
        if is_there:
            raise Failed(f"there are more than {self.share.number} partitions: the cluster has {key}")

    def _serve(self, at: int, tell: Tell) -> int:
        """Runs a partition, in the process of its own."""
        words = words_of_partition(self.plan.program_words()[1:], self.share.place, at)
        plan = dataclasses.replace(self.plan, words=words, metrics=None)
        one = self.make_partition(plan, at, tell)
        for held in HELD:
            signal.signal(held, one.take_signal)
        signal.pthread_sigmask(signal.SIG_UNBLOCK, HELD)
        return one.run_to_the_end()

    def make_partition(self, plan: Plan, at: int, tell: Tell) -> Partition:
        """Returns the runs of a partition."""
        return Partition(plan, at, self.nodes, tell, self.share.by is not None)

    def _show(self) -> None:
        """Shows the table, if it changed."""
        rows = []
        for at in self.share.mine:
            row = self.team.rows.get(at) or {}
            state = f"ended with {self.team.ended[at]}" if at in self.team.ended else row.get("state", "begins")
            name = cluster.partition_name(self.plan.words[0], at)
            rows.append([name, row.get("node") or "", state, *(row.get(column) for column in COLUMNS)])
        shown = table(rows)
        if shown != self.shown:
            self.shown = shown
            os.write(2, shown.encode(errors="replace"))

    def _write_metrics(self) -> None:
        """Writes the figures of all partitions, if they are wanted."""
        if self.metrics is not None:
            rows: List[Row] = [([cluster.partition_name(self.plan.words[0], at), *self.plan.words[1:]],
                                (self.team.rows.get(at) or {}).get("figures") or {}) for at in self.share.mine]
            self.metrics.write(rows)


def table(rows: Sequence[Sequence[Any]]) -> str:
    """Returns the rows of partitions as a table, with their sums."""
    def cell(value: Any) -> str:
        return "" if value is None else f"{value:,}" if isinstance(value, int) else str(value)

    def total(column: int) -> Optional[int]:
        values = [row[column] for row in rows if row[column] is not None]
        return sum(values) if values else None

    sums = ["all", "", "", *map(total, range(3, len(HEAD)))]
    cells = [list(HEAD), *([cell(value) for value in row] for row in [*rows, sums])]
    widths = [max(len(row[column]) for row in cells) for column in range(len(HEAD))]
    lines = ["  ".join(text.rjust(width) if column > 2 else text.ljust(width)
                       for column, (text, width) in enumerate(zip(row, widths))).rstrip() for row in cells]
    return "\n".join(lines) + "\n"
