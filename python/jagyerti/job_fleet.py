"""The jobs of partitions over a Redis Cluster: a stream_run and a handler for each, in a process of their own."""
from __future__ import annotations

import os
import re
from typing import Dict

from . import cluster
from .child import Handling
from .fleet import Fleet, Partition, Share
from .handling import Pair
from .metrics import Value
from .team import Tell
from .tries import Plan

NOTE = re.compile("[0-9]+-[0-9]+ (later|dead): ")


class JobPartition(Pair, Partition):
    """The jobs of one partition. Its handler's lines on standard error are shown with the name of the partition."""

    def __init__(self, plan: Plan, handling: Handling, at: int, nodes: cluster.Nodes, tell: Tell) -> None:
        Partition.__init__(self, plan, at, nodes, tell, False)
        self.set_up(handling, self._report_jobs)

    @property
    def name(self) -> str:
        """The name of the partition."""
        return self.plan.words[0]

    def _report_jobs(self, figures: Dict[str, Value]) -> None:
        self.report(entries=self.desk.counts["done"], figures=figures)

    def hear(self, line: str) -> bool:
        """Takes a line of stream_run. The texts of replies are shown with the name of the partition."""
        if NOTE.match(line):
            os.write(2, f"{self.name}: {line}\n".encode(errors="replace"))
        super().hear(line)
        return False


class JobFleet(Fleet):
    """The partitions of this process, with a handler for each."""

    def __init__(self, plan: Plan, share: Share, handling: Handling) -> None:
        super().__init__(plan, share)
        self.handling = handling

    def make_partition(self, plan: Plan, at: int, tell: Tell) -> Partition:
        """Returns the jobs of a partition."""
        return JobPartition(plan, self.handling, at, self.nodes, tell)
