"""Handlers of jobs in any language: a program that reads the lines of stream_run, and writes a reply to each."""
from __future__ import annotations

import dataclasses
import re
import signal
import socket
import threading
from types import FrameType
from typing import Callable, Dict, List, Optional, Tuple

from .child import CLOSING, HANDLER_FAILED, Child, Handling, arguments_of, try_without_job
from .connect import Failed
from .desk import Desk
from .keeper import Beat, Keeper, Letters, Link, find_deliveries
from .metrics import MetricsFile, Row, Value
from .process import HELD, Run
from .retry import Pauses
from .team import Team, Tell
from .tries import Plan, Tries
from .url import Address

Report = Callable[[Dict[str, Value]], None]

MOST_ENDS = 5  # of handlers in a row that had not worked
IDLE = 60_000  # milliseconds: the default of --idle of stream_run
COUNTS = re.compile(r"done ([0-9]+), batches ([0-9]+), left pending ([0-9]+)(?:, dead letters ([0-9]+))?")
FAILED_JOB = re.compile(r"the child(?:'s reply| has no reply) to the entry ([0-9]+-[0-9]+)")
REFUSED = re.compile("Error: the child's reply to the entry ([0-9]+-[0-9]+) ")
NOTE = re.compile("([0-9]+-[0-9]+) ((?:later|dead): .*)")
NO_GROUP = "the server replied NOGROUP"


class Pair(Tries):
    """Runs of stream_run, each with a handler of its own. A handler that ends is started again, after a pause."""

    def __init__(self, plan: Plan, handling: Handling, report: Report = lambda _: None) -> None:
        super().__init__(plan)
        self.set_up(handling, report)

    def set_up(self, handling: Handling, report: Report) -> None:
        """Takes how jobs are handled, and what their figures are told to."""
        self.handling, self.tell_figures = handling, report
        self.child: Optional[Child] = None
        self.desk, self.place = Desk(), None
        self.ends_at_once, self.wants_trial = 0, handling.has_trial
        self.rests = Pauses(self.plan.pause)
        self.link = Link(lambda: self.place, self.plan.options, self.say)
        self.keeper, self.beat = self._make_keeper(), None

    place: Optional[Address]
    beat: Optional[Beat]

    @property
    def name(self) -> str:
        """The name that is shown before what the handler prints."""
        return self.plan.words[2]

    def _make_keeper(self) -> Optional[Keeper]:
        """Returns what holds back jobs that failed, if that is wanted."""
        words, handling = self.plan.words, self.handling
        if handling.retry_after is None:
            return None
        idle = (arguments_of(words, "--idle") or [""])[0]
        seconds = (int(idle) if idle.isdecimal() else IDLE) / 1000
        return Keeper(self.link, words, seconds, handling.retry_after, handling.retry_most)

    def run_to_the_end(self) -> int:
        """Runs both as often as it may help, and meanwhile looks after jobs that failed. Returns the exit status."""
        dead = arguments_of(self.plan.words, "--dead", 2)
        letters = Letters(self.link, dead[1], self.desk, self.say) if dead else None
        if self.keeper is not None or letters is not None:
            self.beat = Beat(self.link, self.keeper, letters)
            self.beat.start()
        try:
            return super().run_to_the_end()
        finally:
            if self.beat is not None:
                self.beat.finish()
            self.link.close()

    def make_run(self, connection: socket.socket) -> Run:
        """Starts a handler, and returns a run of stream_run that has it at the other end of two pipes."""
        if self.beat is not None:
            self.beat.begin()
        later = self.keeper.hold if self.keeper is not None else lambda _: None
        deliveries = self._deliveries if self.handling.has_deliveries else None
        self.child = child = Child(self.handling, f"{self.name}: ", self.desk, later, deliveries)
        self.desk.handlers += 1
        words = [*self.program_words(), "--lines", f"/dev/fd/{child.lines}", "--replies", f"/dev/fd/{child.replies}"]
        run = Run(words, connection, self.plan.silence, self.plan.options.timeout, (child.lines, child.replies))
        run.grace = self.handling.grace + CLOSING
        return run

    def _deliveries(self, job: str) -> Optional[int]:
        return find_deliveries(self.link, self.plan.words, job)

    def begun(self, run: Run) -> None:
        """Has the handler watched."""
        assert self.child is not None
        self.child.attach(run)

    def take_signal(self, number: int, frame: Optional[FrameType]) -> None:
        """Handles SIGTERM and SIGINT: the first lets the job in hand end in the time of --grace, the second does not."""
        child = self.child
        if child is not None and not self.signals:
            child.finish()
            timer = threading.Timer(self.handling.grace, child.kill)
            timer.daemon = True
            timer.start()
        elif child is not None:
            child.kill()
        super().take_signal(number, frame)

    def run_once(self, find_server: Callable[[], Address]) -> Tuple[int, bool]:
        """Runs both, again and again if the handler ended. Returns the status, and whether another connection may help."""
        def found() -> Address:
            self.place = find_server()
            return self.place

        while True:
            try:
                self._try_handler()
                status, may_help = self._run_both(found)
            except Failed as failed:
                if failed.status != HANDLER_FAILED:
                    raise
                self.say(str(failed))
                return HANDLER_FAILED, False
            if status != HANDLER_FAILED:
                return status, not self._lacks_group() and may_help
            if self.signals:
                return 0, False
            if not self._may_go_on():
                return status, False

    def _try_handler(self) -> None:
        """Tries the handler without a job, if it may not be able to start. Raises Failed."""
        if self.wants_trial:
            with self.idle():
                try_without_job(self.handling, f"{self.name}: ", self.say)
            self.wants_trial = False

    def _run_both(self, find_server: Callable[[], Address]) -> Tuple[int, bool]:
        self.child = None
        try:
            return super().run_once(find_server)
        finally:
            if self.child is not None:
                self.child.end()
                if self.child.has_worked:
                    self.ends_at_once = 0
                    self.rests.reset()
            self.tell_figures(self.figures_of_jobs())

    def _outcome(self, status: int, silent: float, has_asked: bool) -> Tuple[int, bool]:
        """Returns what run_once does. A program that was ended since its handler broke has the status for that."""
        if self.child is not None and self.child.broken is not None and not self.signals:
            self.held_error = ""
            return HANDLER_FAILED, False
        return super()._outcome(status, silent, has_asked)

    def _lacks_group(self) -> bool:
        """Whether the program ended since there is no group, and none is made. Then says what makes one."""
        if NO_GROUP not in self.error or arguments_of(self.plan.words, "--from") is not None:
            return False
        key, group = self.plan.words[:2]
        self.say(f"{key} has no group {group}: --from 0 makes it, for all entries of the stream, and '--from $' for new ones")
        return True

    def _may_go_on(self) -> bool:
        """Says how the handler ended, and waits if it replied to nothing. Returns whether it may be started again.

        One that was killed from outside is not broken: so it is not counted, but the pauses grow.
        """
        child = self.child
        assert child is not None
        why = child.outcome()
        self.say(why)
        self.desk.timeouts += child.is_late
        self._take_failed(why)
        if child.has_worked:
            return True
        self.wants_trial = self.handling.has_trial
        if child.missing:
            self.say(child.says_missing())
            return False
        self.ends_at_once += not child.was_killed
        if self.ends_at_once >= MOST_ENDS:
            last = f": {child.last_line}" if child.last_line else ""
            self.say(f"it ended {MOST_ENDS} times in a row before any reply{last}")
            return False
        self.sleep(self.rests.take())
        return True

    def _take_failed(self, why: str) -> None:
        """Keeps why the job in hand failed, and holds it back."""
        named = FAILED_JOB.search(self.error) if self.handling.is_direct else None
        job, self.desk.line = self.desk.in_hand or (named[1] if named else None), None
        if job is None:
            return
        self.desk.note(job, "its reply was none" if "'s reply to the entry" in self.error else why)
        if self.keeper is not None:
            self.keeper.hold(job)

    def hear(self, line: str) -> bool:
        """Takes a line of stream_run. Its counts are told, and shown unless --quiet is given."""
        note, found, refused = NOTE.fullmatch(line), COUNTS.fullmatch(line), REFUSED.match(line)
        if note is not None and self.handling.is_direct:
            self.desk.note(note[1], note[2])
            self._has_replied(1)
        if refused is not None and self.child is not None:
            self.child.take_back(refused[1])
        if found is None:
            return super().hear(line)
        self._has_replied(int(found[1]) + int(found[3]))
        self.entries = int(found[1])
        self.figures.set({"entries": self.entries, "batches": int(found[2]), "dead_letters": int(found[4] or 0)})
        self.tell_figures(self.figures_of_jobs())
        return not self.plan.is_quiet

    def _has_replied(self, times: int) -> None:
        """Takes that the handler replied so often at least, if no relay counts that."""
        if self.child is not None and self.handling.is_direct:
            self.child.count = max(self.child.count, times)

    def figures_of_jobs(self) -> Dict[str, Value]:
        """Returns what all runs together did."""
        return {**self.figures.all(), **self.desk.figures()}

    def write_metrics(self) -> None:
        """Tells the figures once a second, and writes the metrics file, if one is wanted."""
        self.tell_figures(self.figures_of_jobs())
        super().write_metrics()

    def metric_rows(self) -> List[Row]:
        """Returns what the metrics file says."""
        return [(self.plan.words, self.figures_of_jobs())]


class Crew:
    """Pairs of stream_run and a handler, each in a process of its own if there are several."""

    def __init__(self, plan: Plan, handling: Handling, number: int) -> None:
        self.plan, self.handling, self.number, self.is_ending = plan, handling, number, False
        self.team = Team(range(1, number + 1), self._serve)
        self.metrics = MetricsFile(plan.metrics, plan.metrics_prefix, plan.say) if plan.metrics else None

    def run_to_the_end(self) -> int:
        """Runs all. Returns 0, or the status of one that has another."""
        if self.number == 1:
            return Pair(self.plan, self.handling).run_to_the_end()
        for held in HELD:
            signal.signal(held, lambda *_: self._end_all())
        self.team.start()
        while self.team.children:
            self.team.take_rows(1)
            self.team.reap()
            if any(self.team.ended.values()) and not self.is_ending:
                self._end_all()
            self._write_metrics()
        while self.team.take_rows(0):
            pass
        self._write_metrics()
        return self.team.worst()

    def _end_all(self) -> None:
        """Has all end cleanly: after a signal, and if one of them has failed, so that it is not one less for long."""
        self.is_ending = True
        self.team.pass_on()

    def _serve(self, at: int, tell: Tell) -> int:
        """Runs one pair, in the process of its own."""
        plan = dataclasses.replace(self.plan, words=self._words_of(at), metrics=None)
        return Pair(plan, self.handling, lambda figures: tell({"at": at, "figures": figures})).run_to_the_end()

    def _words_of(self, at: int) -> List[str]:
        key, group, consumer, *more = self.plan.words
        return [key, group, f"{consumer}.{at}", *more]

    def _write_metrics(self) -> None:
        """Writes the figures of all, if they are wanted."""
        if self.metrics is not None:
            self.metrics.write([(self._words_of(at), (self.team.rows.get(at) or {}).get("figures") or {})
                                for at in self.team.numbers])
