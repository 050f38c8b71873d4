"""A worker of beanstalkd; with a number it adds so many jobs."""
import os
import socket
import sys

from work import work

lines = socket.create_connection(("127.0.0.1", int(os.environ["PORT"]))).makefile("rwb")


def ask(text):
    lines.write(text)
    lines.flush()
    return lines.readline().split()


if sys.argv[1:]:
    for n in range(1, int(sys.argv[1]) + 1):
        assert ask(b"put 0 0 600 %d\r\n%d\r\n" % (len(str(n)), n)) == [b"INSERTED", b"%d" % n]
    sys.exit()
while True:
    _, id, _ = ask(b"reserve\r\n")
    work(lines.readline())
    assert ask(b"delete %s\r\n" % id) == [b"DELETED"]
