"""The same workloads under a policy and under Linux's own scheduler, measured by one recorder: the kernel's own
tracing.
"""

import re
import statistics
import tempfile
from collections import namedtuple
from pathlib import Path

from building import build_scheduler
from common import write
from guests import Job, answer_of, boot
from places import TOP, WORKLOADS, Refused
from tracing import TRACED, read_trace

POLICIES = ["numa", "fair"]
OWN = "Linux"
SHOWN = ["crowd", "mixed", "short", "forks", "hog"]
TIMES, SECONDS = 3, 30

Measured = namedtuple("Measured", "seconds wasted migrations")


def measure(answer, cpus):
    """What the trace of one run says. How the run ended is in the record, or where there is none in the output."""
    told = answer.record or answer.output
    took = re.search(r"^took ([\d.]+)", told, re.M)
    if not took or not re.search("^run ended", told, re.M):
        raise Refused(f"a run under measurement didn't end: {answer.error.strip() or 'it says nothing'}")
    clock = read_trace(answer.output, cpus)
    return Measured(float(took[1]), clock.wasted, clock.migrations)


def job_of(scheduler, workload, number):
    made = "none" if scheduler == OWN else f"/{scheduler}.bpf.o"
    call = f"/loader {made} /tmp/record {SECONDS} /{workload}.txt"
    return Job(f"{scheduler}-{workload}-{number}", TRACED.format(call=call))


def middle(runs):
    """The median of each measure."""
    return Measured(*(statistics.median(column) for column in zip(*runs)))


def files_of(loader):
    files = {f"{name}.txt": (WORKLOADS / f"{name}.txt").read_bytes() for name in SHOWN}
    with tempfile.TemporaryDirectory(prefix="kernel.") as folder:
        for name in POLICIES:
            files[f"{name}.bpf.o"] = build_scheduler(TOP / f"examples/gallery/{name}.policy", Path(folder)).read_bytes()
    return {**files, "loader": loader.read_bytes()}


def print_table(loader, cpus=4):
    files = files_of(loader)
    write("| Workload | Scheduler | Time to the end | Wasted core time | Migrations |\n|---|---|---|---|---|\n")
    for workload in SHOWN:
        jobs = {name: [job_of(name, workload, number) for number in range(TIMES)] for name in [OWN, *POLICIES]}
        done = boot([job for one in jobs.values() for job in one], files, cpus)
        for scheduler, one in jobs.items():
            found = middle([measure(answer_of(done, job.name), cpus) for job in one])
            write(f"| `{workload}` | {scheduler if scheduler == OWN else f'`{scheduler}`'} | {found.seconds:.2f} s | "
                  f"{found.wasted * 1000:.0f} ms | {found.migrations:.0f} |\n")
    return 0
