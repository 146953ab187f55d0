"""Gets the packages of packages.txt from Debian, checks their sums, and unpacks them into out/kernel."""

import hashlib
import subprocess
import tempfile
from pathlib import Path

from building import types_in
from common import write
from places import LIBRARIES, OUT, ROOT, TOP, VMLINUX, Refused, guest_kernel, needed, run

LIST = Path(__file__).with_name("packages.txt")
KEY = "/usr/share/keyrings/debian-archive-keyring.gpg"
SUITES = [("", "bookworm"), ("", "bookworm-updates"), ("", "bookworm-backports"), ("", "trixie-backports"),
          ("-security", "bookworm-security")]
MIRROR = "http://deb.debian.org/debian"
# How a kernel is packed in its boot image: the first bytes, and what unpacks it.
PACKINGS = [(b"\x28\xb5\x2f\xfd", "zstd"), (b"\xfd7zXZ\0", "xz"), (b"\x1f\x8b\x08", "gzip")]


def packages():
    """Name, version and checksum of each."""
    return [line.split() for line in LIST.read_text(encoding="ascii").splitlines() if line and not line.startswith("#")]


def sum_of(file):
    return hashlib.sha256(file.read_bytes()).hexdigest()


def kept(folder, name, version):
    """The file of a package, where it was downloaded before."""
    found = list(folder.glob(f"{name}_{version.replace(':', '%3a')}_*.deb"))
    return found[0] if found else None


def apt(folder):
    """The call of apt-get with lists and a cache of its own."""
    (folder / "lists/partial").mkdir(parents=True, exist_ok=True)
    (folder / "cache/archives/partial").mkdir(parents=True, exist_ok=True)
    lines = [f"deb [signed-by={KEY}] {MIRROR}{more} {suite} main\n" for more, suite in SUITES]
    (folder / "sources.list").write_text("".join(lines))
    settings = [f"Dir::Etc::sourcelist={folder}/sources.list", "Dir::Etc::sourceparts=-", f"Dir::State::lists={folder}/lists",
                f"Dir::Cache={folder}/cache", "APT::Sandbox::User=root"]
    return [needed("apt-get"), "-q", *(word for setting in settings for word in ("-o", setting))]


def download(folder, missing):
    with tempfile.TemporaryDirectory(prefix="apt.", dir=OUT) as lists:
        call = apt(Path(lists))
        run([*call, "update"], "Debian's lists can't be read")
        wanted = [f"{name}={version}" for name, version, _ in missing]
        run([*call, "download", *wanted], "the packages can't be had", cwd=folder)


def check(folder):
    for name, version, wanted in packages():
        file = kept(folder, name, version)
        if not file:
            raise Refused(f"{name} {version} wasn't downloaded")
        if sum_of(file) != wanted:
            file.unlink()
            raise Refused(f"{file.name} isn't the file that packages.txt has the sum of")


def unpack_kernel(image, target):
    """Writes the kernel's own file, which the boot image packs, and of which bpftool reads the types."""
    data = image.read_bytes()
    for magic, program in PACKINGS:
        at = data.find(magic)
        while at >= 0:
            done = subprocess.run([needed(program), "-dc"], input=data[at:], stdout=subprocess.PIPE,
                                  stderr=subprocess.DEVNULL, check=False)
            if done.stdout.startswith(b"\x7fELF"):
                target.write_bytes(done.stdout)
                return
            at = data.find(magic, at + 1)
    raise Refused(f"no kernel was found in {image.name}")


def write_types():
    """The types of the guest's kernel, as a header."""
    with tempfile.TemporaryDirectory(prefix="types.", dir=OUT) as folder:
        kernel = Path(folder) / "vmlinux"
        unpack_kernel(guest_kernel(), kernel)
        VMLINUX.write_bytes(types_in(kernel, "the kernel's types can't be read"))


def fetch():
    """Leaves what was fetched before, where its sums are right."""
    folder = OUT / "packages"
    folder.mkdir(parents=True, exist_ok=True)
    missing = [one for one in packages() if not kept(folder, *one[:2])]
    if missing:
        download(folder, missing)
    check(folder)
    for name, version, _ in packages():
        run([needed("dpkg-deb"), "-x", kept(folder, name, version), ROOT], f"{name} can't be unpacked")
    if not LIBRARIES.is_dir():
        raise Refused("the packages have no libraries")
    write_types()
    write(f"kernel: {len(packages())} packages are unpacked in {ROOT.relative_to(TOP)}\n")
