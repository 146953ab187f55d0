"""Compiles the scheduler over a policy's header, and the loader."""

import subprocess
from pathlib import Path

from ask_ipanema import PROGRAM, fault_in
from places import LIBRARIES, OUT, ROOT, SOURCES, VMLINUX, Refused, needed, run, unpacked, with_libraries

BPF = ["--target=bpf", "-mcpu=v3", "-O2", "-g", "-Wall", "-Werror", "-fms-extensions", "-Wno-microsoft-anon-tag",
       "-Wno-unknown-warning-option", "-Wno-missing-declarations", "-D__TARGET_ARCH_x86"]
LOADER = ["loader", "run", "record", "workload"]
# What prints a header: of an accepted policy alone, or of each that can be played.
EMIT, DRAFT = "emit", "draft"


def header_of(policy, verb=EMIT):
    """The header of the policy, which must be accepted, or by `draft` one that can be played."""
    done = subprocess.run([PROGRAM, verb, policy], stdout=subprocess.PIPE, stderr=subprocess.DEVNULL, check=False)
    if done.returncode:
        raise Refused(f"{policy}: {fault_in(done.stdout.decode('ascii', 'replace').splitlines(), done.returncode)}")
    return done.stdout.decode("ascii")


def name_in(header):
    """The policy's name, by which its identifiers begin."""
    for line in header.splitlines():
        if line.startswith("#ifndef ") and line.endswith("_POLICY_H"):
            return line[len("#ifndef "):-len("_POLICY_H")]
    raise Refused("the header isn't one that emit prints")


def types_in(kernel, what):
    """The kernel's types as a header."""
    return run([unpacked("usr/sbin/bpftool"), "btf", "dump", "file", kernel, "format", "c"], what, env=with_libraries())


def types_of(kernel, folder):
    """The folder with the header of the kernel's types: those of the guest's, or of the kernel whose file is named."""
    if not kernel:
        if not VMLINUX.exists():
            raise Refused("the guest's kernel isn't there: call tools/kernel fetch first")
        return VMLINUX.parent
    header = types_in(kernel, f"{kernel}: a kernel's types can't be read")
    if b"struct sched_ext_ops {" not in header:
        raise Refused(f"{kernel}: this kernel has no sched_ext")
    (folder / "vmlinux.h").write_bytes(header)
    return folder


def compiler():
    clang = needed("clang")
    if b" bpf " not in run([clang, "--print-targets"], "clang doesn't work"):
        raise Refused("this clang makes no code for BPF")
    return clang


def build_scheduler(policy, folder, source=None, kernel=None, verb=EMIT):
    """Compiles the scheduler of the policy into the folder, and gives its file. Another source stands for a wrong
    scheduler. Where no kernel is named, it is compiled for the guest's."""
    header = header_of(policy, verb)
    name = name_in(header)
    if f"#define {name}_WIDE 1" in header:
        raise Refused(f"{policy}: a rule of it needs numbers of 128 bits, which BPF doesn't have")
    folder.mkdir(parents=True, exist_ok=True)
    (folder / f"{name}.h").write_text(header)
    made = folder / f"{Path(policy).stem}.bpf.o"
    source = source or SOURCES
    includes = ["-I", types_of(kernel, folder), "-I", ROOT / "usr/include"]
    included = ["-include", "vmlinux.h", "-include", folder / f"{name}.h"]
    run([compiler(), *BPF, f"-DPOLICY={name}", *includes, *included, "-c", source / "balancer.bpf.c", "-o", made],
        f"{policy}: the scheduler can't be compiled")
    return made


def build_checker():
    """Compiles what reads a workload and does nothing else, where a source is newer than it. It needs none of the
    packages."""
    checker, sources = OUT / "check", [SOURCES / "check.c", SOURCES / "workload.c"]
    if not checker.exists() or checker.stat().st_mtime < max(file.stat().st_mtime for file in SOURCES.glob("*.[ch]")):
        OUT.mkdir(parents=True, exist_ok=True)
        run([needed("cc"), "-O2", "-Wall", "-Wextra", *sources, "-o", checker],
            "the workload's reader can't be compiled")
    return checker


def build_loader():
    """Compiles the loader, where a source is newer than it."""
    loader, sources = OUT / "loader", [SOURCES / f"{name}.c" for name in LOADER]
    newest = max(file.stat().st_mtime for file in SOURCES.glob("*.[ch]"))
    if loader.exists() and loader.stat().st_mtime >= newest:
        return loader
    unpacked("usr/include/bpf/libbpf.h")
    libraries = [LIBRARIES / "libbpf.a", LIBRARIES / "libelf.a", "-lz", "-lpthread"]
    run([needed("cc"), "-O2", "-Wall", "-Wextra", "-static", "-I", ROOT / "usr/include", *sources, *libraries,
         "-o", loader], "the loader can't be compiled")
    return loader
