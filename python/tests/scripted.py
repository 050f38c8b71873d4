"""A server on the loopback that plays a script: for each command that comes, a reply that is written down."""
from __future__ import annotations

import contextlib
import socket
import threading
from typing import Iterator, List, Sequence, Tuple


def read_command(file) -> List[bytes]:
    """Reads one command, an array of bulk strings."""
    line = file.readline()
    if not line:
        return []
    words = []
    for _ in range(int(line[1:])):
        words.append(file.read(int(file.readline()[1:]) + 2)[:-2])
    return words


@contextlib.contextmanager
def scripted(replies: Sequence[bytes], family: int = socket.AF_INET, path: str = "") -> Iterator[Tuple[int, List[List[bytes]]]]:
    """Takes one connection, and replies to each command with the next reply. An empty reply closes it at once.

    Gives the port, and the list in which the commands are noted.
    """
    listener = socket.socket(family, socket.SOCK_STREAM)
    listener.bind(path if family == socket.AF_UNIX else ("127.0.0.1", 0))
    listener.listen()
    listener.settimeout(60)
    noted: List[List[bytes]] = []

    def play() -> None:
        with contextlib.suppress(OSError):
            connection, _ = listener.accept()
            with connection, connection.makefile("rb") as file:
                connection.settimeout(60)
                for reply in replies:
                    noted.append(read_command(file))
                    if not reply:
                        return
                    connection.sendall(reply)
                file.read(1)

    thread = threading.Thread(target=play, daemon=True)
    thread.start()
    try:
        yield (0 if family == socket.AF_UNIX else listener.getsockname()[1]), noted
    finally:
        thread.join(10)
        listener.close()
