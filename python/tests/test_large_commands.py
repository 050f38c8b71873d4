"""Commands of several megabytes, which come to stream_serve in pieces. Wants stream_serve; without it nothing is tried."""
import os
import subprocess
import unittest

from jagyerti import connect, process, resp

SMALL, LARGE = 2_000_000, 8_000_000  # bytes


def find_program():
    try:
        return process.find_program("stream_serve")
    except connect.Failed:
        return None


def serve(command, wanted):
    """Sends a command, and reads the reply, which is wanted. Returns the seconds of processor time and the most bytes of memory."""
    with subprocess.Popen([find_program(), "1000"], stdin=subprocess.PIPE, stdout=subprocess.PIPE) as program:
        program.stdin.write(command)
        program.stdin.flush()
        reply = program.stdout.read(len(wanted))
        with open(f"/proc/{program.pid}/status", encoding="ascii") as file:
            most = next(int(line.split()[1]) * 1024 for line in file if line.startswith("VmHWM"))
        program.stdin.close()
        rest = program.stdout.read()
        _, status, used = os.wait4(program.pid, 0)
        program.returncode = os.waitstatus_to_exitcode(status)
    if (reply + rest, program.returncode) != (wanted, 0):
        raise AssertionError(f"{reply + rest!r}, and the status {program.returncode}")
    return used.ru_utime + used.ru_stime, most


def add(size):
    """XADD of one value."""
    return resp.encode(["XADD", "k", "5-1", "a", bytes(size)])


def delete(size):
    """XDEL of many ids, which are nine bytes each."""
    return resp.encode(["XDEL", "k"] + ["1-1"] * (size // 9))


@unittest.skipUnless(find_program(), "no stream_serve is built")
class LargeCommands(unittest.TestCase):
    def test_time_grows_with_the_bytes(self):
        for command, wanted in ((add, b"$3\r\n5-1\r\n"), (delete, b":0\r\n")):
            with self.subTest(command.__doc__):
                few, many = (min(serve(command(size), wanted)[0] for _ in range(3)) for size in (SMALL, LARGE))
                # Four times the bytes. If each piece had all that came before looked through, it would be sixteen times.
                self.assertLess(many, 8 * few)

    def test_memory_is_twice_the_bytes(self):
        self.assertLess(serve(add(LARGE), b"$3\r\n5-1\r\n")[1], 2.5 * LARGE)


if __name__ == "__main__":
    unittest.main()
