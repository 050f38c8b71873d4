"""An app of Celery; as a program it adds so many jobs."""
import os
import sys

import celery
from work import work

app = celery.Celery("by_celery", broker=os.environ["REDIS_URL"])
app.conf.task_acks_late = "LATE" in os.environ
if "TIMEOUT" in os.environ:
    app.conf.task_reject_on_worker_lost = True
    app.conf.broker_transport_options = {"visibility_timeout": int(os.environ["TIMEOUT"])}
do = app.task(name="do")(work)
if __name__ == "__main__":
    for n in range(1, int(sys.argv[1]) + 1):
        do.apply_async((n,), task_id=str(n))
