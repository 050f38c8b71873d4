"""A job of tools/compare/compare-kills."""
import os
import time

DONE = os.open(os.environ["DONE"], os.O_WRONLY | os.O_APPEND)


def work(number):
    time.sleep(0.002)
    os.write(DONE, b"%d\n" % int(number))
    time.sleep(0.002)
