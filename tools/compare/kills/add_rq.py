"""Adds so many jobs of RQ."""
import os
import sys

import redis
import rq
from work import work

queue = rq.Queue(connection=redis.Redis(port=int(os.environ["PORT"])))
for n in range(1, int(sys.argv[1]) + 1):
    queue.enqueue(work, n, job_id=str(n))
