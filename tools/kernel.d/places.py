"""Where things of `tools/kernel` are, and the one way to run other programs."""

import os
import shutil
import subprocess
import sys
from pathlib import Path

TOP = Path(__file__).resolve().parent.parent.parent
sys.path.insert(0, str(TOP / "tools"))
from common import Refused  # pylint: disable=wrong-import-position # the folder of the module is named first

SOURCES = TOP / "kernel"
WORKLOADS = SOURCES / "workloads"
OUT = TOP / "out/kernel"
ROOT = OUT / "root"             # the packages, unpacked
LIBRARIES = ROOT / "usr/lib/x86_64-linux-gnu"
VMLINUX = OUT / "vmlinux.h"     # the types of the guest's kernel
BTF = Path("/sys/kernel/btf/vmlinux")


def reason_in(said):
    """The first line that speaks of an error, else the first of all."""
    lines = [line for line in said.splitlines() if line.strip()]
    return next((line for line in lines if "error" in line.lower() or line.startswith("E:")), lines[0] if lines else "")


def run(words, what, **more):
    """What the command writes. Where it fails, the first line that it said on standard error is the reason."""
    try:
        done = subprocess.run([str(word) for word in words], stdout=subprocess.PIPE, stderr=subprocess.PIPE, check=False,
                              **more)
    except OSError as error:
        raise Refused(f"{what}: {words[0]}: {error.strerror}") from error
    if done.returncode:
        reason = reason_in(done.stderr.decode("utf-8", "replace"))
        raise Refused(f"{what}: {reason or f'{words[0]} ends with status {done.returncode}'}")
    return done.stdout


def with_libraries():
    """The environment in which a program that was unpacked finds its libraries."""
    paths = [LIBRARIES, ROOT / "lib/x86_64-linux-gnu", *filter(None, [os.environ.get("LD_LIBRARY_PATH")])]
    return {**os.environ, "LD_LIBRARY_PATH": ":".join(map(str, paths))}


def ended_by_signal(number, _frame=None):
    """Ends this script as a signal does, but for what has to be cleared away before."""
    sys.exit(128 + number)


def needed(name):
    """The program of that name on the path."""
    found = shutil.which(name)
    if not found:
        raise Refused(f"there is no {name}")
    return found


def unpacked(path):
    """A file of the packages, which must have been fetched."""
    file = ROOT / path
    if not file.exists():
        raise Refused(f"{file.name} isn't there: call tools/kernel fetch first")
    return file


def guest_kernel():
    """The kernel that was fetched, as it boots."""
    found = sorted(ROOT.glob("usr/lib/modules/*/vmlinuz"))
    if not found:
        raise Refused("the guest's kernel isn't there: call tools/kernel fetch first")
    return found[-1]
