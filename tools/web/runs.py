"""Runs programs for the requests of `tools/workbench`.

Each runs in an empty folder of its own, in a group of processes that is ended as a whole. It is ended where it takes
too long, or too much memory, or where nobody waits for its answer any more. At most four requests have programs at a
time; others wait for their turn.
"""

import os
import select
import shutil
import signal
import socket
import subprocess
import tempfile
import threading
import time
from collections import namedtuple
from contextlib import contextmanager
from pathlib import Path

MOST_AT_A_TIME = 4
SECONDS = 20
MEMORY = 2 << 30
MOST_WRITTEN = 64 << 20
WAIT_FOR_TURN = 60
LOOK_EVERY = 0.1
PAGE = os.sysconf("SC_PAGE_SIZE")

# How a program ended, what it wrote, and what it said on standard error.
Answer = namedtuple("Answer", "status output said")


class Ended(Exception):
    """A program was ended before it came to its answer. The arguments are a status of HTTP, and why."""


class Gone(Exception):
    """Nobody waits for the answer any more."""


class Client:
    """Who waits for an answer, at the other end of a socket."""

    def __init__(self, connection):
        self.socket = connection

    def require(self):
        """The client must still be there: a socket that can be read and has nothing was closed at its other end."""
        if select.select([self.socket], [], [], 0)[0] and not self.peek():
            raise Gone

    def peek(self):
        try:
            return self.socket.recv(1, socket.MSG_PEEK | socket.MSG_DONTWAIT)
        except OSError:
            return b""


class Runs:
    """All programs that run for requests. `kernel_limits`: whether they live with a limit of memory by the system."""

    def __init__(self, folder, environment, kernel_limits):
        self.folder, self.environment, self.kernel_limits = folder, environment, kernel_limits
        self.turns = threading.Semaphore(MOST_AT_A_TIME)
        self.lock, self.groups, self.closed = threading.Lock(), set(), False

    # ---- a request's turn and folder

    @contextmanager
    def turn(self, client):
        """Waits until fewer than four requests have programs, for as long as the client does."""
        ends = time.monotonic() + WAIT_FOR_TURN
        while not self.turns.acquire(timeout=LOOK_EVERY):
            client.require()
            if self.closed or time.monotonic() > ends:
                raise Ended(503, "the workbench has too much to do; try again")
        try:
            yield
        finally:
            self.turns.release()

    @contextmanager
    def room(self, texts):
        """A folder with those texts as files, and nothing else. It is removed in the end."""
        with self.lock:
            if self.closed:
                raise Gone
            place = Path(tempfile.mkdtemp(dir=self.folder))
        try:
            for name, text in texts.items():
                (place / name).write_bytes(text)
            yield place
        finally:
            shutil.rmtree(place, ignore_errors=True)

    # ---- a program

    def run(self, words, place, client):
        """Runs the program on these words in that folder, and returns its answer."""
        with tempfile.TemporaryFile() as output, tempfile.TemporaryFile() as said:
            process = self.start(words, place, output, said)
            try:
                self.wait(process, client)
            finally:
                self.end(process)
            for file in (output, said):
                file.seek(0)
            return Answer(process.returncode, output.read(), said.read())

    def start(self, words, place, output, said):
        """Starts it in a group of its own, with limits by the system: of files, of processor time, and of memory."""
        limits = f"ulimit -f {MOST_WRITTEN // 512}; ulimit -t {SECONDS}"
        if self.kernel_limits:
            limits += f"; ulimit -d {MEMORY // 1024}"
        guarded = ["setpriv", "--pdeathsig", "KILL", "--"] if shutil.which("setpriv") else []
        whole = [*guarded, "sh", "-c", f'{limits}; exec "$@"', "sh", *map(str, words)]
        with self.lock:
            if self.closed:
                raise Gone
            process = subprocess.Popen(whole, cwd=place, env={**self.environment, "TMPDIR": str(place)}, stdout=output,
                                       stdin=subprocess.DEVNULL, stderr=said, start_new_session=True)
            self.groups.add(process.pid)
            return process

    def wait(self, process, client):
        """Waits for its end, and looks at the clock, at the client, and at the memory."""
        ends, descriptor = time.monotonic() + SECONDS, os.pidfd_open(process.pid)
        watched, ready = [descriptor, client.socket], []
        try:
            while descriptor not in ready:
                ready = select.select(watched, [], [], LOOK_EVERY)[0]
                if client.socket in ready:
                    client.require()
                    watched = [descriptor]  # it has sent more than it should, which nobody reads
                if time.monotonic() > ends:
                    raise Ended(504, f"the program took longer than {SECONDS} seconds, and was ended")
                if not self.kernel_limits and memory_of(process.pid) > MEMORY:
                    raise Ended(507, f"the program took more than {MEMORY >> 20} MB of memory, and was ended")
        finally:
            os.close(descriptor)

    def end(self, process):
        """Ends all that is left of its group, whose number is its own until it is waited for."""
        with self.lock:
            end_group(process.pid)
            self.groups.discard(process.pid)
        process.wait()

    def close(self):
        """Ends all programs, lets none begin any more, and waits until their folders are removed."""
        with self.lock:
            self.closed = True
            for group in self.groups:
                end_group(group)
        for _ in range(MOST_AT_A_TIME):
            self.turns.acquire(timeout=LOOK_EVERY * 20)


def end_group(group):
    try:
        os.killpg(group, signal.SIGKILL)
    except ProcessLookupError:
        pass


def memory_of(process):
    """The bytes that a process and those that it started have in memory. One that has ended meanwhile has none."""
    pages, children = (words_of(f"/proc/{process}/{name}") for name in ("statm", f"task/{process}/children"))
    return (int(pages[1]) * PAGE if pages else 0) + sum(map(memory_of, children))


def words_of(name):
    """The words of a file of the system, or none where it isn't there any more."""
    try:
        return Path(name).read_text(encoding="ascii").split()
    except OSError:
        return []
