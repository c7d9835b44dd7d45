"""Keeps what was compiled for later calls from any folder, by the checksums of all that it was made from.

An entry is a folder with a file and its checksum. It is written apart and then renamed, so no call meets half of one.
"""
import contextlib
import fcntl
import functools
import hashlib
import os
import re
import shutil
import tempfile
from pathlib import Path

import crates
import machine

# So many entries are kept, those that were used last.
MOST = 12


@functools.lru_cache(maxsize=None)
def places():
    """The folders in which something may be kept: the user's, and this checkout's for when that can't be written."""
    user = os.environ.get("XDG_CACHE_HOME") or os.path.join(os.environ.get("HOME", ""), ".cache")
    return [*([Path(user, "vorxindak")] if os.path.isabs(user) else []), crates.TOP / "out" / "cache"]


@functools.lru_cache(maxsize=None)
def folder():
    """The first of these folders that can be written, or None."""
    for it in places():
        with contextlib.suppress(OSError):
            it.mkdir(mode=0o700, parents=True, exist_ok=True)
            with tempfile.TemporaryFile(dir=it):
                return it
    return None


def place():
    """Where to write what is large: the folder of what is kept, or that of temporary files."""
    return folder() if folder() == places()[0] else Path(tempfile.gettempdir())


@contextlib.contextmanager
def room(parent):
    """A new folder of this process alone, which is removed at the end."""
    sweep(parent)
    made = Path(tempfile.mkdtemp(prefix=f"vorxindak-{os.getpid()}-", dir=parent))
    try:
        yield made
    finally:
        shutil.rmtree(made, ignore_errors=True)


def sweep(parent):
    """Removes what processes that were killed left in a folder."""
    for it in os.scandir(parent):
        of = re.match(r"vorxindak-(\d+)-", it.name)
        if of and not os.path.exists(f"/proc/{of[1]}"):
            shutil.rmtree(it.path, ignore_errors=True)


@contextlib.contextmanager
def turn(name, say):
    """Waits until no other call makes what has this name, if there is a folder for its lock."""
    if not folder():
        yield
        return
    with open(folder() / f"{name}.lock", "w") as held:
        try:
            fcntl.flock(held, fcntl.LOCK_EX | fcntl.LOCK_NB)
        except BlockingIOError:
            say("waiting for another call, which makes it now")
            fcntl.flock(held, fcntl.LOCK_EX)
        yield


def find(name, key, say):
    """The file that was kept by this name and key, if it is whole, or None."""
    for it in places():
        entry = it / f"{name}-{key[:32]}"
        with contextlib.suppress(OSError):
            if sum_of(entry / name) == (entry / "sha256").read_text().strip():
                with contextlib.suppress(OSError):
                    os.utime(entry)
                return entry / name
        if entry.exists():
            say(f"what was kept in {entry} is damaged, and is made again")
            shutil.rmtree(entry, ignore_errors=True)
    return None


def keep(name, key, file, say):
    """Keeps a file, and returns where it can be read: where it can't be kept, so long as this process lasts."""
    try:
        if not folder():
            raise OSError(0, "can't be written", " and ".join(map(str, places())))
        entry = folder() / f"{name}-{key[:32]}"
        with room(folder()) as made:
            apart = made / "entry"
            apart.mkdir()
            shutil.copyfile(file, apart / name)
            (apart / name).chmod(0o700)
            (apart / "sha256").write_text(f"{sum_of(file)}\n")
            # (another call may have kept the same)
            if not (entry / "sha256").exists():
                os.rename(apart, entry)
        every = [it for it in folder().iterdir() if (it / "sha256").exists()]
        for it in sorted(every, key=lambda it: it.stat().st_mtime)[:-MOST]:
            shutil.rmtree(it, ignore_errors=True)
        return entry / name
    except OSError as error:
        say(f"not kept, so the next call makes it again: {error.filename or folder()}: {error.strerror}")
        return Path("/proc", str(os.getpid()), "fd", str(os.open(file, os.O_RDONLY)))


def sum_of(file):
    """The checksum of a file."""
    found = hashlib.sha256()
    with open(file, "rb") as it:
        while True:
            block = it.read(1 << 20)
            if not block:
                return found.hexdigest()
            found.update(block)


def key(chosen, parts, top=crates.TOP):
    """The checksum of these parts of crates, of what crates.txt says of them, of HANDLES and of the toolchain."""
    found, kit = hashlib.sha256(), machine.kit()
    found.update(repr(((kit / "KIT-ID").read_text(), (top / "HANDLES").read_text())).encode())
    for part in ("bin", "c", "toolchain"):
        for at, folders, names in os.walk(kit / part):
            folders.sort()
            for it in sorted(names):
                file = os.lstat(os.path.join(at, it))
                found.update(repr((it, file.st_size, file.st_mtime_ns)).encode())
    for crate in chosen:
        found.update(repr(crates.line_of(crate, top)).encode())
        for file in crates.files(crate, parts, top):
            found.update(repr((str(file.relative_to(top)), file.read_bytes())).encode())
    return found.hexdigest()
