"""What a drain did, or a worker, as a text in a file: OpenMetrics, or what promtool calls the text format."""
from __future__ import annotations

import os
import re
import time
from typing import Callable, Dict, List, Optional, Sequence, Tuple, Union

# A histogram is its sum, and after it the count up to each bucket.
Value = Union[int, str, None, List[float]]
Row = Tuple[Sequence[str], Dict[str, Value]]

# The name of each figure, its type, and what it is.
FIGURES = (
    ("entries", "counter", "Entries that were written and acknowledged."),
    ("batches", "counter", "Batches of entries."),
    ("dead_letters", "counter", "Entries that were given up to the stream of dead letters."),
    ("starts", "counter", "Runs of the program."),
    ("last_entry_timestamp_seconds", "gauge", "Time at which the last entries were counted."),
    ("to_come", "gauge", "Entries that the group has not read yet."),
    ("pending", "gauge", "Entries that were delivered and not acknowledged."),
)
# Those of 'jagyerti run' alone.
MORE_FIGURES = (
    ("done", "counter", "Replies 'done'."),
    ("later", "counter", "Replies 'later'."),
    ("dead", "counter", "Replies 'dead'."),
    ("timeouts", "counter", "Jobs that took longer than --job-timeout."),
    ("restarts", "counter", "Starts of the command after the first one."),
    ("in_hand", "gauge", "Jobs that the command has now."),
    ("job_seconds", "histogram", "Seconds from the line of a job to its reply."),
)
# The seconds of jobs are counted up to each of these.
BUCKETS = (0.001, 0.003, 0.01, 0.03, 0.1, 0.3, 1.0, 3.0, 10.0, 30.0, 60.0, 300.0, 900.0, 3600.0)
COUNTS = {"entries": "entr(?:y|ies)", "batches": "batch(?:es)?", "dead_letters": "dead letters?"}
BACKLOG = {"to_come": "to come", "pending": "pending"}
LABELS = ("stream", "group", "consumer")


class Figures:
    """What the runs of a program did so far, and what the group still has to do."""

    def __init__(self) -> None:
        self.before, self.now = dict.fromkeys(COUNTS, 0), dict.fromkeys(COUNTS, 0)
        self.starts = 0
        self.last_entry: Optional[str] = None
        self.backlog: Dict[str, Optional[int]] = {}

    def begin(self) -> None:
        """Counts a run, whose own counts begin at 0."""
        self.before, self.now = self.counts(), dict.fromkeys(COUNTS, 0)
        self.starts += 1

    def counts(self) -> Dict[str, int]:
        """Returns the counts of all runs together."""
        return {name: self.before[name] + self.now[name] for name in COUNTS}

    def take(self, line: str) -> None:
        """Takes a line of counts, as in '7 entries in 2 batches, 3 to come, 1 pending'."""
        self.set({name: found_number(line, text) for name, text in COUNTS.items()})
        self.backlog = {name: found_number(line, text) for name, text in BACKLOG.items()}

    def set(self, counts: Dict[str, Optional[int]]) -> None:
        """Takes the counts of the run. Those that are not known stay as they are."""
        if (counts["entries"] or 0) > self.now["entries"]:
            self.last_entry = f"{time.time():.3f}"
        self.now.update((name, count) for name, count in counts.items() if count is not None)

    def all(self) -> Dict[str, Value]:
        """Returns each figure; one that is not known is None or missing."""
        return {**self.counts(), "starts": self.starts, "last_entry_timestamp_seconds": self.last_entry, **self.backlog}


def found_number(line: str, text: str) -> Optional[int]:
    """Returns the number that is before this text in a line."""
    found = re.search(rf"\b([0-9]+) {text}\b", line)
    return int(found[1]) if found else None


def render(prefix: str, rows: Sequence[Row]) -> str:
    """Returns the figures of streams as a text. A row is KEY, GROUP and CONSUMER, and the figures.

    It is OpenMetrics for a drain. For jobs the type of a counter is that of the name with _total, as promtool wants it.
    """
    text = ""
    more = [figure for figure in MORE_FIGURES if any(figure[0] in figures for _, figures in rows)]
    for name, kind, meaning in (*FIGURES, *more):
        whole = f"{prefix}_{name}"
        unit = f"# UNIT {whole} seconds\n" if name.endswith("_seconds") and not more else ""
        typed = f"{whole}_total" if kind == "counter" and more else whole
        text += f"# TYPE {typed} {kind}\n{unit}# HELP {typed} {meaning}\n"
        for words, figures in rows:
            labels = ",".join(f'{label}="{escaped(word)}"' for label, word in zip(LABELS, words))
            value = figures.get(name)
            if isinstance(value, list):
                text += histogram(whole, labels, value)
            elif value is not None:
                text += f"{whole}{'_total' if kind == 'counter' else ''}{{{labels}}} {value}\n"
    return text + "# EOF\n"


def histogram(name: str, labels: str, figure: Sequence[float]) -> str:
    """Returns the samples of a histogram: its sum, and the count up to each bucket."""
    total, *counts = figure
    places = [*(str(most) for most in BUCKETS), "+Inf"]
    buckets = "".join(f'{name}_bucket{{{labels},le="{place}"}} {count}\n' for place, count in zip(places, counts))
    return f"{buckets}{name}_sum{{{labels}}} {total}\n{name}_count{{{labels}}} {counts[-1]}\n"


def escaped(word: str) -> str:
    """Returns the value of a label. A byte that is not UTF-8 is the replacement character."""
    text = os.fsencode(word).decode(errors="replace")
    return text.replace("\\", "\\\\").replace('"', '\\"').replace("\n", "\\n")


class MetricsFile:
    """The file of the figures. If it cannot be written, that is said once, and the work goes on."""

    def __init__(self, path: str, prefix: str, say: Callable[[str], None]) -> None:
        self.path, self.prefix, self.say = path, prefix, say
        self.failed: Optional[str] = None

    def write(self, rows: Sequence[Row]) -> None:
        """Writes FILE.tmp and renames it, so that a reader never sees half a file."""
        try:
            with open(self.path + ".tmp", "w", encoding="utf-8") as file:
                file.write(render(self.prefix, rows))
            os.replace(self.path + ".tmp", self.path)
            self.failed = None
        except OSError as error:
            if self.failed != str(error):
                self.say(f"--metrics: {error}")
            self.failed = str(error)
