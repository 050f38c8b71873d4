"""A handler of 'jagyerti run'."""
from jagyerti.jobs import handler
from work import work


@handler
def handle(job):
    work(job.text("n"))


handle.serve()
