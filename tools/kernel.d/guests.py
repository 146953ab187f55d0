"""Boots the kernel that was fetched in an emulated machine, runs jobs there, and gives what each of them wrote."""

import contextlib
import ctypes
import gzip
import os
import shlex
import signal
import subprocess
import tempfile
import time
from collections import namedtuple
from pathlib import Path

from places import ROOT, Refused, guest_kernel, unpacked, with_libraries

# A command of the guest's shell, which may write /tmp/record; and how many seconds it may take.
Job = namedtuple("Job", "name command")
# Its status, what it said on standard output and on standard error, and the record, if it wrote one.
Done = namedtuple("Done", "status output error record")

# Lines of the kernel's log that say nothing bad.
EXPECTED = ("enabled (partial)", "disabled (unregistered from user space)")
ALARMS = "sched_ext|scx|BUG|WARN|Oops|stall|lockup|Call Trace|RIP:"

INIT = """#!/bin/busybox sh
/bin/busybox --install -s /bin
export PATH=/bin
mount -t proc proc /proc; mount -t sysfs sys /sys; mount -t devtmpfs dev /dev; mount -t tmpfs tmp /tmp
mount -t tracefs trace /sys/kernel/tracing
ulimit -l unlimited
echo 1 > /proc/sys/kernel/panic_on_oops
tell() { echo "$1 $(wc -c < "$2")"; cat "$2"; }
job() {
  echo "guest: $1"
  rm -f /tmp/record /tmp/output /tmp/error
  sh -c "$2" > /tmp/output 2> /tmp/error
  status=$?
  touch /tmp/record
  { echo "job $1 $status"; tell output /tmp/output; tell error /tmp/error; tell record /tmp/record; } > /dev/vport0p1
}
"""
LAST = """
dmesg | grep -E '{alarms}' | grep -v PCI > /tmp/log
{{ echo "job log 0"; tell output /tmp/log; echo "error 0"; echo "record 0"; }} > /dev/vport0p1
sync
reboot -f
"""


def member(name, data, mode, number):
    """A file of an archive, in the form `newc` that a kernel unpacks as its first root folder."""
    fields = [number, mode, 0, 0, 1, 0, len(data), 0, 0, 0, 0, len(name) + 1, 0]
    head = b"070701" + b"".join(b"%08X" % field for field in fields) + name.encode() + b"\0"
    return head + b"\0" * (-len(head) % 4) + data + b"\0" * (-len(data) % 4)


def archive(files):
    """The root folder with these files, which may all be run."""
    parts = [member(name, b"", 0o040755, at) for at, name in enumerate(["bin", "proc", "sys", "dev", "tmp", "etc"], 1)]
    parts += [member(name, data, 0o100755, at) for at, (name, data) in enumerate(files.items(), 10)]
    return gzip.compress(b"".join(parts) + member("TRAILER!!!", b"", 0, 0), 1)


def script(jobs):
    calls = [f"job {shlex.quote(job.name)} {shlex.quote(job.command)}" for job in jobs]
    return INIT + "\n".join(calls) + LAST.format(alarms=ALARMS)


def emulator(folder, cpus, accelerator):
    programs = {**with_libraries(), "TMPDIR": str(folder)}
    share = ROOT / "usr/share"
    words = [unpacked("usr/bin/qemu-system-x86_64"), "-L", share / "qemu", "-L", share / "seabios",
             "-accel", accelerator, "-cpu", "max", "-smp", cpus, "-m", 768, "-nodefaults", "-no-user-config",
             "-display", "none", "-no-reboot", "-serial", "stdio", "-nic", "none", "-device", "virtio-serial-pci",
             "-chardev", f"file,id=data,path={folder}/data", "-device", "virtserialport,chardev=data,name=data",
             "-kernel", guest_kernel(), "-initrd", folder / "root.gz", "-append", "console=ttyS0 panic=-1 quiet"]
    return [str(word) for word in words], programs


def end_with_parent():
    """For the emulator: it ends when this script is killed."""
    ctypes.CDLL(None).prctl(1, signal.SIGKILL)      # PR_SET_PDEATHSIG


def watch(guest, folder, seconds):
    """Waits until the guest ends, or has neither said nor written anything for so long."""
    said, last = 0, time.monotonic()
    while guest.poll() is None and time.monotonic() - last < seconds:
        now = sum((folder / name).stat().st_size for name in ("console", "data"))
        if now != said:
            said, last = now, time.monotonic()
        time.sleep(0.2)


def take_part(data, at, name):
    """What stands behind a line `NAME SIZE`, and where the next line begins."""
    end = data.index(b"\n", at)
    word, size = data[at:end].split()
    if word != name.encode():
        raise ValueError(word)
    return data[end + 1:end + 1 + int(size)], end + 1 + int(size)


def read_answers(data):
    """The jobs that were done, by name."""
    done, at = {}, 0
    with contextlib.suppress(ValueError):       # the guest may end in the middle of one
        while at < len(data):
            end = data.index(b"\n", at)
            _, name, status = data[at:end].decode().split(" ")
            at, parts = end + 1, []
            for part in ("output", "error", "record"):
                text, at = take_part(data, at, part)
                parts.append(text.decode("utf-8", "replace"))
            done[name] = Done(int(status), *parts)
    return done


def boot(jobs, files, cpus=4, seconds=180, console=None):
    """Runs the jobs in one boot, which ends when nothing is said for so many seconds. Of those that the guest didn't come
    to there is no answer. The log is under the name `log`.
    """
    accelerator = os.environ.get("KERNEL_ACCELERATOR", "tcg,thread=multi")
    with tempfile.TemporaryDirectory(prefix="guest.") as name:
        folder = Path(name)
        busybox = unpacked("usr/bin/busybox" if (ROOT / "usr/bin/busybox").exists() else "bin/busybox").read_bytes()
        (folder / "root.gz").write_bytes(archive({"init": script(jobs).encode(), "bin/busybox": busybox, **files}))
        (folder / "data").touch()
        words, programs = emulator(folder, cpus, accelerator)
        with open(folder / "console", "wb") as out:
            # pylint: disable-next=subprocess-popen-preexec-fn # no other thread runs as a guest is begun
            guest = subprocess.Popen(words, stdin=subprocess.DEVNULL, stdout=out, stderr=out, env=programs,
                                     preexec_fn=end_with_parent)
            try:
                watch(guest, folder, seconds)
            finally:
                guest.kill()
                guest.wait()
        said = (folder / "console").read_text(errors="replace")
        if console:
            Path(console).write_text(said, encoding="utf-8")
        return read_answers((folder / "data").read_bytes())


def answer_of(done, name):
    """The answer of a job that has to be there."""
    if name not in done:
        raise Refused(f"the guest ended before {name}")
    return done[name]


def bad_lines(log):
    """What the kernel's log has beside that schedulers came and went."""
    return [line for line in log.splitlines() if not line.rstrip().endswith(EXPECTED)]
