"""Pauses between tries, and the errors after which another try helps."""
from __future__ import annotations

import random
import re
from typing import Callable

# A server that replies with one of these is starting, failing over, or short of memory: later the same command works.
PASSING = ("TRYAGAIN", "CLUSTERDOWN", "LOADING", "MASTERDOWN", "READONLY", "NOREPLICAS", "UNBLOCKED", "BUSY", "OOM",
           "MISCONF")
# After these the same server is the right one; after the others it may be another one.
SAME_SERVER = ("TRYAGAIN", "UNBLOCKED", "BUSY", "OOM", "MISCONF")
# What a program says of a connection that broke: maybe before it sent anything.
BROKE = re.compile("the server closed the connection|cannot (read from|write to) the server")


def may_pass(error: str) -> bool:
    """Whether a server that replied with this error is likely to take the same command later."""
    return error.partition(" ")[0] in PASSING or error.startswith("ERR max number of clients reached")


class Pauses:
    """Pauses before tries in a row. Each is twice as long as the one before it, up to the longest.

    Of each a part between a half and the whole is waited, by chance, so that many clients do not come at once.
    """

    def __init__(self, longest: float = 30.0, first: float = 0.5,
                 chance: Callable[[float, float], float] = random.uniform) -> None:
        self.longest, self.first, self.chance = longest, first, chance
        self.tries = 0

    def take(self) -> float:
        """Returns the seconds to wait now, and counts a try."""
        pause = min(self.longest, self.first * float(2 ** min(self.tries, 40)))
        self.tries += 1
        return pause * self.chance(0.5, 1.0)

    def reset(self) -> None:
        """Begins again with the first pause: something was achieved."""
        self.tries = 0
