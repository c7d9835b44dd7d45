"""Compiles programs by `rt try`, with nothing proved, and keeps them; passes tests so.

`rt try` compiles a program among its temporary files, and runs it there once for each of some cases. Meanwhile the file
is opened here, and can be read after it is removed.
"""
import os
import re
import shutil
import stat
import subprocess
from concurrent.futures import FIRST_COMPLETED, ThreadPoolExecutor, wait

import cache
import crates
import machine

# What compiling takes: seconds and bytes of memory, and more of them for 1,000 lines of code; bytes of disk.
SECONDS, SECONDS_OF_LINES = 20, 2.6
MEMORY, MEMORY_OF_LINES = 1_200_000_000, 120_000_000
DISK = 1_000_000_000

# How often the program is looked for, in seconds, and how many runs of it last long enough to find it.
LOOK, RUNS = 0.01, 20

# The status of the first run, in what `rt try` writes.
ENDED = re.compile(r"(?m)^case=1 run=ended status=(\d+) ")


def minutes(chosen):
    """About how many minutes it takes to compile these crates."""
    return (SECONDS + SECONDS_OF_LINES * sum(map(crates.lines, chosen)) / 1000) / 60


def memory(chosen):
    """About how much memory it takes to compile these crates, in bytes."""
    return MEMORY + MEMORY_OF_LINES * sum(map(crates.lines, chosen)) // 1000


def program(crate, words, say):
    """The program of a crate, compiled with nothing proved, now or earlier. With these words it ends at once."""
    chosen = crates.with_below(crate, crates.uses())
    name, key = f"{crate}-tried", cache.key(chosen, ["src"])
    found = cache.find(name, key, say)
    if found:
        return found
    with cache.turn(name, say):
        return cache.find(name, key, say) or compiled(crate, chosen, words, say)


def compiled(crate, chosen, words, say):
    """Compiles the program of a crate from a copy, and keeps it."""
    clock, said = machine.Clock(minutes(chosen)), []
    machine.stop_if_short(memory(chosen), DISK, cache.place())
    say(f"compiling the program with nothing proved, in about {machine.shown(clock.left)}")
    with cache.room(cache.place()) as room:
        top, made, cases, empty = room / "top", room / "made", room / "cases", room / "empty"
        crates.copy(chosen, ["src"], top)
        for it in (made, cases, empty):
            it.mkdir()
        for number in range(1, RUNS + 1):
            (cases / str(number)).touch()
        taken = Taken(made)

        def look():
            taken.look()
            if clock.is_time():
                clock.left = minutes(chosen) - clock.minutes()
                say(f"compiling, {clock.shown()}")

        call = ["rt", "try", "--steps", "1", "--cases", str(cases), "--", *words]
        machine.follow(call, top / "crates" / crate, said.append, look, LOOK, TMPDIR=str(made))
        ended = ENDED.search("\n".join(said))
        file = taken.write(room / "program") if ended else None
        if not file or status_of(file, words, empty) != int(ended[1]):
            why = "it left no program" if ended else "\n".join(said[-20:]).replace(str(top), str(crates.TOP))
            raise machine.Stop(f"`rt try` did not compile the program: {why}")
        found = cache.keep(f"{crate}-tried", cache.key(chosen, ["src"], top), file, say)
    passed = round(60 * clock.minutes())
    say(f"compiled in {passed // 60}:{passed % 60:02} minutes")
    return found


def status_of(file, words, folder):
    return subprocess.run([file, *words], cwd=folder, stdin=subprocess.DEVNULL, capture_output=True).returncode


class Taken:
    """The program that `rt try` compiles in a folder, once it is there."""

    def __init__(self, folder):
        self.folder, self.opened = folder, {}

    def look(self):
        """Opens the programs that are there now, at most a few of those that `rt try` copies for its runs."""
        for at, _, names in os.walk(self.folder):
            for it in names:
                if it == "program" and len(self.opened) < 3:
                    self.open(os.path.join(at, it))

    def open(self, path):
        try:
            file = os.stat(path)
            if file.st_mode & stat.S_IXUSR and file.st_ino not in self.opened:
                self.opened[file.st_ino] = open(path, "rb")
        except OSError:
            pass

    def write(self, to):
        """Writes the program to a file, if there is one."""
        for it in self.opened.values():
            with open(to, "wb") as out:
                shutil.copyfileobj(it, out)
            it.close()
            to.chmod(0o700)
        return to if self.opened else None


def run_as_kept(crate, say):
    """Runs a program, compiled with nothing proved, on its crate's files, and returns what is wrong, if anything."""
    folder = crates.CRATES / crate
    text = lambda name: (folder / name).read_bytes() if (folder / name).exists() else b""
    given = text("args").decode().splitlines()
    file = program(crate, given, say)
    with cache.room(cache.place()) as room:
        if (folder / "data").is_dir():
            shutil.copytree(folder / "data", room / "data")
        else:
            (room / "data").mkdir()
        ran = subprocess.run([file, *given], cwd=room / "data", input=text("stdin"), capture_output=True)
    if ran.returncode != int(text("status") or 0):
        return f"it ended with {ran.returncode}: {ran.stderr.decode('utf-8', 'replace')[-300:]}"
    return "" if ran.stdout == text("stdout") else "it writes something else than its file stdout has"


def run_tests(crate, _):
    """Runs the tests of a crate, compiled with nothing proved, and returns what is wrong, if anything."""
    said = []
    with cache.room(cache.place()) as room:
        crates.copy(crates.with_below(crate, crates.uses()), ["src"], room / "top")
        (room / "made").mkdir()
        call, folder = ["rt", "try", "--test", "--seconds", "600"], room / "top" / "crates" / crate
        status = machine.follow(call, folder, said.append, lambda: None, 1, TMPDIR=str(room / "made"))
    return "\n".join(said[-30:]) if status else ""


def wrong_with(run, crate, needs, shared):
    """What is wrong with a crate's tests or program, once there is memory to compile them."""
    try:
        with shared.taken(needs):
            return run(crate, lambda _: None)
    except machine.Stop as stop:
        return str(stop)


def pass_all(say):
    """Passes all tests and programs with nothing proved, side by side, and returns how many passed and which failed."""
    named, failed = crates.uses(), []
    tasks = [(run_tests, it) for it in named if crates.has_tests(it)]
    tasks += [(run_as_kept, it) for it in named if crates.is_program(it)]
    below = {it: crates.with_below(it, named) for _, it in tasks}
    tasks.sort(key=lambda it: -minutes(below[it[1]]))
    needs = {it: memory(below[it]) for it in below}
    machine.kit()
    machine.stop_if_short(max(needs.values()), DISK, cache.place())
    processors, room = len(os.sched_getaffinity(0)), 0.85 * machine.free_memory()
    # (beside each, rt makes a quick pass over the sources)
    at_once = max(1, min(processors / 1.5, room * len(needs) / sum(needs.values())))
    whole = sum(minutes(below[it]) for it in below) / at_once
    shared, clock = machine.Shared(room), machine.Clock(whole)
    say(f"compiling {len(tasks)} programs with nothing proved, in about {machine.shown(whole)}")
    with ThreadPoolExecutor(processors) as pool:
        running = {pool.submit(wrong_with, run, it, needs[it], shared): it for run, it in tasks}
        pending = {*running}
        try:
            while pending:
                ended, pending = wait(pending, 60, FIRST_COMPLETED)
                for it in ended:
                    failed += [running[it]] if it.result() else []
                    what = "tests" if crates.has_tests(running[it]) else "program"
                    say(f"{running[it]}: its {what} {'FAILED: ' + it.result() if it.result() else 'passed'}")
                undone = sum(minutes(below[running[it]]) for it in pending) / at_once
                clock.note(whole - undone, whole * at_once / len(tasks) / 2, undone, whole)
                say(f"{len(tasks) - len(pending)} of {len(tasks)} are done, {clock.shown()}")
        except BaseException:
            for it in running:
                it.cancel()
            shared.end()
            machine.end_all()
            raise
    return len(tasks) - len(failed), failed
