"""Loads a scheduler on this machine, runs a workload or a command under it, and judges what it recorded."""

import os
import subprocess
import sys
import tempfile
from pathlib import Path

from building import build_loader, build_scheduler, header_of
from judging import write_files
from places import BTF, OUT, Refused

# Where the kernel says whether a scheduler is loaded. Tests name another folder.
SCHED_EXT = Path(os.environ.get("SCHED_EXT", "/sys/kernel/sched_ext"))
LOADED, BAD_WORDS = 0, 2


def check_machine():
    """Whether a scheduler may be loaded here."""
    if os.geteuid() != 0:
        raise Refused("only root may load a scheduler")
    try:
        state = (SCHED_EXT / "state").read_text().strip()
    except OSError as error:
        raise Refused("the running kernel has no sched_ext: Linux 6.13 or later with CONFIG_SCHED_CLASS_EXT is "
                      "wanted") from error
    if state != "disabled":
        raise Refused("another scheduler of sched_ext is loaded")


def ask(what):
    """Asks before something is loaded into the running kernel."""
    question = f"kernel: this loads a scheduler into the running kernel, for {what} alone. Load it? [y/N] "
    print(question, end="", file=sys.stderr, flush=True)
    if sys.stdin.readline().strip().lower() not in ("y", "yes"):
        raise Refused("nothing was loaded")


def load(words):
    """Runs the loader until it has unloaded the scheduler. An interrupt reaches the loader itself, which then ends the
    run."""
    with subprocess.Popen([str(word) for word in words]) as loader:
        while True:
            try:
                return loader.wait()
            except KeyboardInterrupt:
                continue


def run_here(words, workload_file, options, say_judged):
    """Loads, runs, unloads and judges. The status is 0 for a good run, else 1."""
    if bool(words.workload) == bool(words.command):
        raise Refused("either a workload or `--` and a command is wanted")
    header_of(words.policy)
    what = [workload_file(words.workload)] if words.workload else ["--", *words.command]
    check_machine()
    if not words.yes:
        ask("the threads of the workload" if words.workload else "what the command starts")
    scheduler, loader = build_scheduler(words.policy, OUT / "running", kernel=BTF), build_loader()
    with tempfile.TemporaryDirectory(prefix="kernel.") as folder:
        record = Path(folder) / "record"
        status = load([loader, scheduler, record, words.seconds, *options, *what])
        if status < 0:
            raise Refused(f"the loader was killed by signal {-status}, so there is no record; the kernel has unloaded the "
                          "scheduler")
        if status != LOADED:
            return status
        text = record.read_text(errors="replace")
    if words.keep:
        write_files(Path(words.keep), {"record": text})
    return 1 if say_judged("run", words.policy, text, words.keep) else 0
