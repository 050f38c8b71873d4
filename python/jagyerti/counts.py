"""How many entries a program takes at once: its --count, and fewer after a batch that was past a limit of the reader."""
from __future__ import annotations

import re
from typing import List, Optional, Sequence, Tuple

# What the programs take at once without --count.
DEFAULTS = {"stream_drain": 1000, "stream_sqlite": 1000, "stream_run": 10}
OPTION = "--count"
NUMBER = re.compile(r"\+?[0-9]{1,9}")
PAST_A_LIMIT = re.compile("error: (a reply is larger than .+|a reply has more than .+ values|out of memory for a reply)"
                          ": take a smaller --count", re.I)


class Counts:
    """How many entries each run of a program takes at once: `now`, which is never above `most`.

    `most` is what its words say, or else the default. A batch past a limit halves the count, down to 1, and a good run
    doubles it. With the default None the program has no such option, and its words stay as they are.
    """

    def __init__(self, words: Sequence[str], default: Optional[int]) -> None:
        found = find_count(words)
        self.most = 1 if default is None else default if found is None else found[1]
        self.now = self.most

    def in_words(self, words: Sequence[str]) -> List[str]:
        """Returns the words of the next run."""
        return list(words) if self.now == self.most else with_count(words, self.now)

    def take_end(self, error: str, is_good: bool) -> bool:
        """Takes the last error of a run, and whether it committed something or lasted. Sets the count of the next run.

        Returns whether that is to begin at once: a batch was past a limit, and the next run takes fewer.
        """
        if PAST_A_LIMIT.fullmatch(error):
            is_fewer = self.now > 1
            self.now = self.now // 2 if is_fewer else self.now
            return is_fewer
        if is_good:
            self.now = min(self.most, 2 * self.now)
        return False


def find_count(words: Sequence[str]) -> Optional[Tuple[slice, int]]:
    """Returns where the words of a program have --count, and its number; None if they have none. The last one counts."""
    end = _end_of_options(words)
    for at in reversed(range(end)):
        name, equals, value = words[at].partition("=")
        place = slice(at, at + 1 if equals else at + 2)
        text = value if equals else "".join(words[at + 1:end][:1])
        if name == OPTION and NUMBER.fullmatch(text):
            return place, int(text)
    return None


def with_count(words: Sequence[str], count: int) -> List[str]:
    """Returns the words of a program with this --count: in its place, or after all options if it is not there."""
    end, found = _end_of_options(words), find_count(words)
    place = slice(end, end) if found is None else found[0]
    option = [f"{OPTION}={count}"] if place.stop - place.start == 1 else [OPTION, str(count)]
    return [*words[:place.start], *option, *words[place.stop:]]


def _end_of_options(words: Sequence[str]) -> int:
    """Returns the place of the word --, after which there are only names, or that of the end."""
    return words.index("--") if "--" in words else len(words)
