"""Takes passwords out of the command line that `ps` shows of this process."""
from __future__ import annotations

import ctypes
import re

# The login of a URL: what is before the last @ of a word that begins with redis://, rediss:// or unix://.
LOGIN = re.compile(rb"\A((?:redis|rediss|unix)://).*@", re.DOTALL)


def masked(word: bytes) -> bytes:
    """Returns a word of the command line without the login of a URL."""
    return LOGIN.sub(rb"\1***@", word)


def passwords() -> None:
    """Masks the logins of URLs in /proc/self/cmdline, where `ps` reads the words of a process.

    The kernel reads them from the memory of the process, at the address that /proc/self/stat names: so they are written
    over there. The words that the process itself has stay as they are.
    """
    try:
        with open("/proc/self/cmdline", "rb") as file:
            words = file.read()
        shown = b"\0".join(masked(word) for word in words.split(b"\0"))
        if shown == words:
            return
        with open("/proc/self/stat", "rb") as file:
            fields = file.read().rpartition(b")")[2].split()
    except OSError:
        return
    begin, end = int(fields[45]), int(fields[46])
    ctypes.memmove(begin, shown.ljust(end - begin, b"\0"), end - begin)
