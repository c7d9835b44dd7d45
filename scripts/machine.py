"""What the scripts ask of the machine, and how whatever they start ends with them."""
import contextlib
import ctypes
import errno
import functools
import os
import re
import select
import shutil
import signal
import subprocess
import sys
import tempfile
import threading
import time
from pathlib import Path

# The status of a script whose program was not built or could not run.
NOT_RUN = 125

# The memory that one check may take, in bytes.
MEMORY = 3 << 30

# Options of the call `prctl`: orphans below a process become its children; a signal comes when the parent dies.
CHILD_SUBREAPER, DEATH_SIGNAL = 36, 1
LIBC = ctypes.CDLL(None)


class Stop(Exception):
    """Why a script can't go on, in words for its user."""


class Ended(BaseException):
    """A signal that ends the script."""


def say(script, text):
    print(f"{script}: {text}", file=sys.stderr, flush=True)


def shown(minutes):
    """A time in words."""
    return "a minute" if minutes < 1.5 else f"{minutes:.0f} minutes"


class Shared:
    """Memory that threads share: each takes what it needs, once there is so much or no other has any."""

    def __init__(self, most):
        self.most, self.left, self.changed, self.is_over = most, most, threading.Condition(), False

    @contextlib.contextmanager
    def taken(self, much):
        with self.changed:
            self.changed.wait_for(lambda: self.is_over or self.left >= min(much, self.most))
            if self.is_over:
                raise Stop("ended")
            self.left -= much
        try:
            yield
        finally:
            with self.changed:
                self.left += much
                self.changed.notify_all()

    def end(self):
        """Has no thread begin any more."""
        with self.changed:
            self.is_over = True
            self.changed.notify_all()


class Clock:
    """Knows about how many minutes are left of some work, which never grow, and when to say so: once a minute."""

    def __init__(self, planned):
        self.start = self.last = time.monotonic()
        self.left = planned

    def minutes(self):
        return (time.monotonic() - self.start) / 60

    def is_time(self):
        if time.monotonic() < self.last + 60:
            return False
        self.last = time.monotonic()
        return True

    def note(self, done, begun, undone, whole):
        """Takes how many of the planned minutes are done, begun and not done, and how many the whole takes."""
        pace = (self.minutes() + 2) / (done + begun + 2)
        self.left = min(self.left, max(undone * pace, whole * pace - self.minutes(), 0))

    def shown(self):
        return f"about {shown(self.left)} left"


@functools.lru_cache(maxsize=None)
def kit():
    """The folder of the toolchain."""
    rt = shutil.which("rt")
    if not rt:
        raise Stop("needs `rt`, the toolchain of Rattle, which is not in PATH")
    folder = Path(rt).resolve().parent.parent
    if not (folder / "KIT-ID").exists():
        folder = Path(subprocess.run([rt, "doc"], stdout=subprocess.PIPE).stdout.decode().strip()).parent
    if not (folder / "KIT-ID").exists():
        raise Stop(f"{rt} is not the `rt` of a kit of Rattle")
    return folder


def has_compiler(needed):
    """Stops where one of these commands, which build from C, is missing."""
    for command in needed:
        if not shutil.which(command):
            raise Stop(f"needs a C compiler, as of Debian's package gcc: `{command}` is not in PATH")


def number_in(file, pattern):
    """The number in a file of the system's, or None."""
    try:
        found = re.search(pattern, Path(file).read_text())
    except OSError:
        return None
    return int(found[1]) if found else None


def free_memory():
    """The memory that can still be had, in bytes, within the limit of a control group."""
    found = 1024 * sum(number_in("/proc/meminfo", rf"{it}:\s+(\d+)") or 0 for it in ("MemAvailable", "SwapFree"))
    group = "/sys/fs/cgroup/memory"
    limit, held = number_in(f"{group}.max", r"(\d+)"), number_in(f"{group}.stat", r"(?m)^anon (\d+)")
    return found if None in (limit, held) else min(found, limit - held)


def at_once(each=MEMORY):
    """How many commands to run at a time that take so much memory: one for each processor, as far as memory lasts."""
    return max(1, min(len(os.sched_getaffinity(0)), free_memory() // each))


def stop_if_read_only(folder):
    """Stops where nothing can be written in a folder."""
    try:
        tempfile.TemporaryFile(dir=folder).close()
    except OSError as error:
        raise Stop(f"needs a checkout that can be written: {folder}: {error.strerror}")


def stop_if_short(memory, disk, folder):
    """Stops where there is less memory than this, in bytes, or less room in a folder."""
    if free_memory() < memory:
        raise Stop(f"needs {memory / 1e9:.1f} GB of memory, and {free_memory() / 1e9:.1f} GB are free")
    room = shutil.disk_usage(folder).free
    if room < disk:
        raise Stop(f"needs {disk / 1e9:.1f} GB of disk in {folder}, and {room / 1e9:.1f} GB are free")


def follow(words, folder, on_line, on_tick, tick, most=None, **environment):
    """Runs a command, by at most so many processors, and returns its status. Passes on each line that it writes."""
    chosen = sorted(os.sched_getaffinity(0))[:most]

    def begin():
        os.setsid()
        os.sched_setaffinity(0, chosen)
        prctl(DEATH_SIGNAL, signal.SIGTERM)

    how = {"stdin": subprocess.DEVNULL, "stdout": subprocess.PIPE, "stderr": subprocess.STDOUT, "preexec_fn": begin}
    ran = subprocess.Popen(words, cwd=folder, env={**os.environ, **environment}, **how)
    try:
        rest = b""
        while True:
            if select.select([ran.stdout], [], [], tick)[0]:
                more = os.read(ran.stdout.fileno(), 1 << 16)
                if not more:
                    break
                *lines, rest = (rest + more).split(b"\n")
                for it in lines:
                    on_line(it.decode("utf-8", "replace"))
            on_tick()
        if rest:
            on_line(rest.decode("utf-8", "replace"))
        return ran.wait()
    except BaseException:
        # (before any folder in which it writes is removed)
        end_all()
        raise


def prctl(option, value):
    LIBC.prctl(option, value, 0, 0, 0)


def started():
    """The processes that this one started, and those that they started in their turn, but those that have ended."""
    parents = {}
    for it in filter(str.isdigit, os.listdir("/proc")):
        try:
            state, parent = Path("/proc", it, "stat").read_text(errors="replace").rpartition(")")[2].split()[:2]
        except OSError:
            continue
        if state != "Z":
            parents[int(it)] = int(parent)
    found, new = set(), {os.getpid()}
    while new:
        new = {it for it, parent in parents.items() if parent in new}
        found |= new
    return found


def end_all():
    """Ends whatever this process started."""
    send(started(), signal.SIGTERM)
    until = time.monotonic() + 2
    while started() and time.monotonic() < until + 8:
        time.sleep(0.05)
        if time.monotonic() > until:
            send(started(), signal.SIGKILL)


def send(processes, number):
    for it in processes:
        try:
            os.kill(it, number)
        except OSError:
            pass


def on_signal(number, _):
    for it in (signal.SIGINT, signal.SIGTERM, signal.SIGHUP):
        signal.signal(it, signal.SIG_IGN)
    raise Ended(number)


def run(script, main):
    """Runs what a script does, and returns its status. However that ends, all that it started ends with it."""
    if sys.version_info < (3, 8):
        say(script, f"needs Python 3.8 or later, and this is {sys.version.split()[0]}")
        return NOT_RUN
    if sys.platform != "linux" or os.uname().machine != "x86_64":
        say(script, "needs Linux on x86-64, as the toolchain does")
        return NOT_RUN
    prctl(CHILD_SUBREAPER, 1)
    for it in (signal.SIGINT, signal.SIGTERM, signal.SIGHUP):
        # (one that is ignored stays so, as under nohup)
        if signal.getsignal(it) is not signal.SIG_IGN:
            signal.signal(it, on_signal)
    try:
        return main()
    except Ended as ended:
        return 128 + ended.args[0]
    except Stop as stop:
        say(script, stop)
    except BrokenPipeError:
        # Whoever read the output has enough of it.
        os.dup2(os.open(os.devnull, os.O_WRONLY), 1)
        return 128 + signal.SIGPIPE
    except OSError as error:
        if error.errno not in (errno.ENOSPC, errno.EDQUOT, errno.EACCES, errno.EROFS):
            raise
        say(script, f"{error.strerror}: {error.filename or 'a disk'}")
    finally:
        end_all()
    return NOT_RUN
