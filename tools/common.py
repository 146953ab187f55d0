"""What the scripts of python beside this file have in common. They read with a limit, whatever is at the end of a name,
and write a file whole or not at all. Their temporary files don't outlive them. They end with a status, and one sentence
where something is wrong.
"""

import concurrent.futures
import contextlib
import errno
import os
import signal
import stat
import sys
import tempfile
import threading
from pathlib import Path

# How many bytes a text may have, as docs/FORMATS.md says. No format has more than a history.
LONGEST = {"policy": 65_536, "trace": 4_194_304, "history": 33_554_432, "certs": 33_554_432}
ENDING_SIGNALS = (signal.SIGHUP, signal.SIGINT, signal.SIGTERM)


class Refused(Exception):
    """It can't be done. The argument says why, in a sentence."""


class TooLong(Refused):
    """A text is longer than any of its kind."""


class Ended(BaseException):
    """A signal ends the script. The argument is its number."""


# ---- what a caller has closed

CLOSED = set()


def open_closed():
    """Opens those of the first three descriptors that are closed, so that no file takes their places."""
    for number in range(3):
        try:
            os.fstat(number)
        except OSError:
            CLOSED.add(number)
            os.open(os.devnull, os.O_RDWR)
    if 2 in CLOSED:
        # pylint: disable-next=consider-using-with # it is open to the end
        sys.stderr = open(os.devnull, "w", encoding="utf-8")


# ---- the first words and the last


def say(words):
    """Writes a line on standard error, if it can be written there."""
    with contextlib.suppress(OSError, ValueError):
        sys.stderr.buffer.write(os.fsencode(f"{words}\n"))
        sys.stderr.flush()


@contextlib.contextmanager
def undisturbed():
    """Signals that end the script wait meanwhile."""
    before = signal.pthread_sigmask(signal.SIG_BLOCK, ENDING_SIGNALS)
    try:
        yield
    finally:
        signal.pthread_sigmask(signal.SIG_SETMASK, before)


def disturbed():
    """Signals that end the script wait no longer in this thread, so that they don't wait in what it starts."""
    signal.pthread_sigmask(signal.SIG_UNBLOCK, ENDING_SIGNALS)


def end_by(number, _):
    for each in ENDING_SIGNALS:
        signal.signal(each, signal.SIG_IGN)
    raise Ended(number)


def run(tool, main, refused=2):
    """Ends with the status of `main` on the words of the call, or with `refused` and a sentence."""
    with undisturbed(), contextlib.suppress(OSError):
        tempfile.gettempdir()  # it tries the folder, by a file there
    for each in ENDING_SIGNALS:
        if signal.getsignal(each) != signal.SIG_IGN:
            signal.signal(each, end_by)
    try:
        status = main(sys.argv[1:])
    except Refused as why:
        say(f"{tool}: {why}")
        status = refused
    except MemoryError:
        say(f"{tool}: there is no memory")
        status = refused
    except Ended as ended:
        status = 128 + ended.args[0]
        signal.signal(ended.args[0], signal.SIG_DFL)
        signal.pthread_kill(threading.get_ident(), ended.args[0])
    sys.exit(status)


# ---- reading


def read_file(name, most=LONGEST["history"]):
    """The bytes of that file, pipe or device, if they are no more than so many."""
    try:
        with open(name, "rb") as file:
            data = file.read(most + 1)
    except (OSError, ValueError) as error:
        raise Refused(f"{name} can't be read: {reason(error)}") from error
    return limited(data, most, name)


def read_plain(name, most=LONGEST["history"]):
    """The same of a plain file alone: of a pipe there may be no end, and a link may lead anywhere."""
    try:
        is_plain = stat.S_ISREG(os.lstat(name).st_mode)
    except (OSError, ValueError) as error:
        raise Refused(f"{name} can't be read: {reason(error)}") from error
    if not is_plain:
        raise Refused(f"{name} is no plain file")
    return read_file(name, most)


def read_input(most=LONGEST["history"]):
    """The same of the standard input."""
    try:
        if 0 in CLOSED:
            raise ValueError("it is closed")
        data = sys.stdin.buffer.read(most + 1)
    except (OSError, ValueError) as error:
        raise Refused(f"the standard input can't be read: {reason(error)}") from error
    return limited(data, most, "the standard input")


def limited(data, most, name):
    if len(data) > most:
        raise TooLong(f"{name} is longer than {most:,} bytes, the most that are read")
    return data


def reason(error):
    return getattr(error, "strerror", None) or str(error)


# ---- writing


def write(text, what="output"):
    """Writes the text, or the bytes, to the standard output."""
    data = text if isinstance(text, bytes) else text.encode("utf-8", "replace")
    try:
        if 1 in CLOSED:
            raise ValueError("the standard output is closed")
        sys.stdout.flush()
        while data:
            data = data[os.write(1, data):]
    except (OSError, ValueError) as error:
        raise Refused(f"the {what} can't be written: {reason(error)}") from error


def keep(texts):
    """Writes each text to the file of its name. Each is there whole or not at all, and no link is followed. None is
    replaced before all are written.
    """
    with contextlib.ExitStack() as parts:
        made = [(parts.enter_context(part_of(name, data)), name) for name, data in texts.items()]
        for part, name in made:
            with writing(name):
                os.replace(part, name)


@contextlib.contextmanager
def writing(name):
    try:
        yield
    except OSError as error:
        raise Refused(f"{name} can't be written: {reason(error)}") from error


@contextlib.contextmanager
def part_of(name, data):
    """A new file beside that name, which has the bytes and is gone in the end. All may read it whom the caller lets."""
    with contextlib.ExitStack() as stack:
        with writing(name), undisturbed():
            require_place(name)
            number, part = tempfile.mkstemp(prefix=".", suffix=".part", dir=Path(name).parent)
            stack.callback(Path(part).unlink, missing_ok=True)
        with writing(name), open(number, "wb") as file:
            file.write(data)
            file.flush()
            os.fsync(number)
            mask = os.umask(0)
            os.umask(mask)
            os.fchmod(number, 0o666 & ~mask)
        yield part


def require_place(name):
    """There must be a plain file of that name, or nothing."""
    with contextlib.suppress(FileNotFoundError):
        mode = os.lstat(name).st_mode
        if stat.S_ISDIR(mode):
            raise IsADirectoryError(errno.EISDIR, os.strerror(errno.EISDIR))
        if not stat.S_ISREG(mode):
            raise Refused(f"{name} can't be written: it is {'a link' if stat.S_ISLNK(mode) else 'no plain file'}")


@contextlib.contextmanager
def passing(data, suffix=""):
    """The name of a temporary file with that text."""
    with contextlib.ExitStack() as stack:
        try:
            with undisturbed():
                file = stack.enter_context(tempfile.NamedTemporaryFile(suffix=suffix))
            file.write(data)
            file.flush()
        except OSError as error:
            raise Refused(f"a temporary file can't be written: {reason(error)}") from error
        yield file.name


@contextlib.contextmanager
def folder(prefix="tmp."):
    """The name of a temporary folder, which begins so. That something is still written there stops no script."""
    with contextlib.ExitStack() as stack:
        with undisturbed():
            made = stack.enter_context(tempfile.TemporaryDirectory(prefix=prefix, ignore_cleanup_errors=True))
        yield made


# ---- many at a time


@contextlib.contextmanager
def pool_of_threads():
    """Threads to ask the program from. What they haven't begun is left out where a signal ends the script, and what they have
    begun is waited for. All are started before such a signal may come: one that comes while a thread starts loses it.
    """
    count = min(32, (os.cpu_count() or 1) + 4)
    started = threading.Barrier(count + 1)
    with concurrent.futures.ThreadPoolExecutor(count, initializer=disturbed) as pool:
        try:
            with undisturbed():
                for _ in range(count):
                    pool.submit(started.wait)
                started.wait()
            yield pool
        except BaseException:
            pool.shutdown(wait=False, cancel_futures=True)
            raise


open_closed()
