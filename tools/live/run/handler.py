"""A handler of 'jagyerti run' that notes what it has done in a file, and misbehaves as often as it is told."""
import os
import random
import sys
import time

from jagyerti.jobs import read_job

noted, odds = os.open(sys.argv[1], os.O_WRONLY | os.O_CREAT | os.O_APPEND, 0o644), float(sys.argv[2])
random.seed()
for line in sys.stdin.buffer:
    job = read_job(line)
    if odds and job.text("kind") == "poison":
        os._exit(1)
    chance = random.random() / odds if odds else 1.0
    if chance < 0.5:
        os._exit(2)
    if chance < 0.51:
        time.sleep(3600)
    reply = b"done\n"
    if chance < 0.6:
        reply = b"dones\n"
    elif chance < 0.7:
        reply = b"later not now\n"
    elif chance < 0.8:
        os.close(1)
        continue
    if reply == b"done\n":
        os.write(noted, job.id.encode() + b"\n")
    os.write(1, reply + (b"done\n" if 0.8 <= chance < 0.9 else b""))
