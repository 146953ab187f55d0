"""What may go wrong once a scheduler is to be loaded, provoked in the guest. After each row the kernel has to be on its
own scheduler.

A row is written as its name, the statuses of the calls, and what was said on standard error.
"""

import shutil
import tempfile
from pathlib import Path

from building import build_scheduler
from common import write
from guests import Job, answer_of, boot
from places import SOURCES, TOP, WORKLOADS, Refused

POLICY = TOP / "examples/gallery/numa.policy"
# One line of the sources without which the verifier can't know that an entry is there.
UNTESTED = ("model.h", "	if (!e) {", "	if (0) {")
CALL = "/loader /numa.bpf.o /tmp/record 20"
# A run in the background that has begun, as process $!.
BEGUN = f"{CALL} /long.txt & sleep 2"
LONG = b"thread 0 run 6000\nthread 0 run 6000\n"
# More threads than a record has room for: each of these makes another one.
MANY = b"thread 0 fork 0 run 1\n" * 600
ROWS = {
    "no_sched_ext": "mount -t tmpfs none /sys/kernel/sched_ext; "
                    f"{CALL} /crowd.txt; echo $?; umount /sys/kernel/sched_ext",
    "not_root": f"su nobody -s /bin/sh -c '{CALL} /crowd.txt'; echo $?",
    "another_is_loaded": f"{BEGUN}; /loader /numa.bpf.o /tmp/other 20 /crowd.txt; echo $?; kill $!; wait $!; echo $?",
    "verifier": "/loader /untested.bpf.o /tmp/record 20 /crowd.txt; echo $?",
    "bad_line": f"{CALL} /bad.txt; echo $?",
    "bad_constant": f"{CALL} /far.txt; echo $?",
    "no_command": f"{CALL} -- nothing-of-this-name; echo $?",
    "disk_full": "mkdir /tmp/small; mount -t tmpfs -o size=4k none /tmp/small; "
                 "/loader /numa.bpf.o /tmp/small/record 20 /crowd.txt; echo $?; umount /tmp/small",
    "interrupted": f"{BEGUN}; kill -INT $!; wait $!; echo $?; grep '^run ' /tmp/record >&2",
    "ended": f"{BEGUN}; kill -TERM $!; wait $!; echo $?; grep '^run ' /tmp/record >&2",
    "killed": f"{BEGUN}; kill -KILL $!; wait $!; echo $?",
    "record_full": "/loader /numa.bpf.o /tmp/record 60 /many.txt; echo $?; grep '^run ' /tmp/record >&2",
    "time_over": "/loader /numa.bpf.o /tmp/record 1 /long.txt; echo $?; grep '^run ' /tmp/record >&2",
}
TEXTS = {"long.txt": LONG, "many.txt": MANY, "bad.txt": b"thread 0 run 5\nthread 1 rum 5\n",
         "far.txt": b"core 0 node 7\nthread 0 run 5\n",
         "etc/passwd": b"root:x:0:0::/:/bin/sh\nnobody:x:65534:65534::/:/bin/sh\n"}
AFTER = "; sleep 0.5; cat /sys/kernel/sched_ext/state"


def build_untested(folder):
    """A scheduler that the kernel's verifier has to refuse."""
    name, old, new = UNTESTED
    shutil.copytree(SOURCES, folder / "sources", ignore=shutil.ignore_patterns("wrong", "workloads", "records"))
    text = (folder / "sources" / name).read_text()
    if text.count(old) != 1:
        raise Refused(f"{name}: what a row changes stands {text.count(old)} times there")
    (folder / "sources" / name).write_text(text.replace(old, new))
    return build_scheduler(POLICY, folder / "built", folder / "sources").read_bytes()


def print_rows(loader):
    with tempfile.TemporaryDirectory(prefix="kernel.") as folder:
        untested = build_untested(Path(folder))
        scheduler = build_scheduler(POLICY, Path(folder)).read_bytes()
    files = {"loader": loader.read_bytes(), "numa.bpf.o": scheduler, "untested.bpf.o": untested,
             "crowd.txt": (WORKLOADS / "crowd.txt").read_bytes(), **TEXTS}
    done = boot([Job(name, command + AFTER) for name, command in ROWS.items()], files, 2)
    for name in ROWS:
        answer = answer_of(done, name)
        *statuses, state = answer.output.split()
        write(f"{name}: {' '.join(statuses)}{'' if state == 'disabled' else ', and the scheduler is still there'}\n")
        for line in answer.error.splitlines():
            write(f"  {line}\n")
    return 0
