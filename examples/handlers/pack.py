"""A handler of jobs in Python: jagyerti run URL orders packers --from 0 -- python3 pack.py packed.txt"""
import sys

from jagyerti import Job, Later, handler


@handler
def pack(job: Job) -> None:
    if "item" not in job.fields:
        raise Later("no item yet")
    with open(sys.argv[1], "a") as file:
        file.write(f"{job.id} {job.text('item')}\n")


pack.serve()
