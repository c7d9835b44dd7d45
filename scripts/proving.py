"""Proves crates by `rt ci`, which begins at once on all processors. It keeps each crate that it proved, for every clone
on this machine, so a later call takes up where this one stopped."""
import os
import re
import tempfile

import cache
import crates
import machine

# A first proof of a crate takes about so many minutes of a processor, and so many more for 1,000 lines of code.
MINUTES, MINUTES_OF_LINES = 1.1, 3.3

# The disk that a proof takes, in bytes.
DISK = 3 << 30

# What `rt ci` says of a crate that is done, and where another run proves the same.
DONE = re.compile(r"rt: (\w+) (is kept|proved|NOT PROVED)\b")
WAITS = re.compile(r"rt: (\w+.*: another run on this machine is proving the same; .*|note: .*)")


def program(crate, say):
    """The program of a crate, proved and built now or by an earlier call."""
    return built(crate, say, lambda top: top / "crates" / crate / "out" / crate)


def built(crate, say, make):
    """What `make` builds of a crate that is proved, in a folder with the crates below it, now or by an earlier call."""
    chosen = crates.with_below(crate, crates.uses())
    name, key = f"{crate}-proved", cache.key(chosen, crates.PARTS)
    found = cache.find(name, key, say)
    if found:
        return found
    # One proof at a time: a second call waits for the first, and uses what it has built.
    with cache.turn("proving", say):
        found = cache.find(name, key, say)
        if found:
            return found
        with cache.room(cache.place()) as room:
            top = room / "top"
            crates.copy(chosen, [*crates.PARTS, *crates.OF_A_RUN], top)
            prove(top, chosen, say)
            return cache.keep(name, cache.key(chosen, crates.PARTS, top), make(top), say)


def keep(crate, key, say):
    """Keeps the program of a crate that `rt ci` has built in this checkout, unless its sources changed meanwhile."""
    if cache.key(crates.with_below(crate, crates.uses()), crates.PARTS) == key:
        cache.keep(f"{crate}-proved", key, crates.CRATES / crate / "out" / crate, say)


def prove(top, chosen, say):
    """Proves the crates of a folder; stops where they are not proved."""
    said = []
    if rt_ci(top, chosen, say, lambda line: said.append(line.replace(str(top), str(crates.TOP)))):
        with tempfile.NamedTemporaryFile("w", prefix="rt-ci-", suffix=".log", delete=False) as log:
            print(*said, sep="\n", file=log)
        raise machine.Stop("\n".join(["not proved:", *said[-20:], f"all that `rt ci` wrote is in {log.name}"]))


def rt_ci(top, chosen, say, on_line, times=1.0):
    """Runs `rt ci` in a folder with these crates, says each minute how far it is, and returns its status. The whole may
    take some times as long as the proofs of the crates alone."""
    machine.kit()
    machine.stop_if_read_only(top)
    machine.stop_if_short(machine.MEMORY, DISK, top)
    store = machine.kit().parent / "rattle-kept"
    if not os.access(store if store.exists() else store.parent, os.W_OK):
        say(f"the toolchain can't write {store}, so a call that is stopped begins anew")
    most = machine.at_once()
    progress = Progress(chosen, most, times, say)
    say(
        f"proving {len(chosen)} crate{'s' if len(chosen) > 1 else ''}, up to {most} at a time, "
        f"in about {machine.shown(progress.clock.left)} at most: "
        "what an earlier run on this machine proved is not proved again"
    )

    def each(line):
        on_line(line)
        progress.read(line)

    with cache.room(tempfile.gettempdir()) as room:
        # (as root, rt runs programs as nobody, who has to come in)
        room.chmod(0o711)
        return machine.follow(["rt", "ci"], top, each, progress.report, 1, most, TMPDIR=str(room))


def minutes_of(crate):
    """About how many minutes of a processor a first proof of the crate takes."""
    return MINUTES + MINUTES_OF_LINES * crates.lines(crate) / 1000


class Progress:
    """Tells how far a proof of some crates is, by the lines of `rt ci`. The minutes that are left never grow."""

    def __init__(self, chosen, at_once, times, say):
        self.at_once, self.times, self.say = at_once, times, say
        self.named, self.count = crates.uses(), len(chosen)
        # The minutes of a processor of the crates that are not done, and of those that were proved in this run.
        self.waiting, self.proved = {it: minutes_of(it) for it in chosen}, {}
        self.clock = machine.Clock(times * self.least())

    def least(self):
        """About how many minutes the crates take that are not done: no less than their longest chain."""
        chains = {}
        for crate, minutes in self.waiting.items():
            chains[crate] = minutes + max((chains.get(it, 0) for it in self.named[crate]), default=0)
        return max(sum(self.waiting.values()) / self.at_once, max(chains.values(), default=0))

    def read(self, line):
        """Reads a line of `rt ci`."""
        done, waits = DONE.match(line), WAITS.match(line)
        if done and done[1] in self.waiting:
            minutes = self.waiting.pop(done[1])
            if done[2] == "proved":
                self.proved[done[1]] = minutes
        elif waits:
            self.say(waits[1])

    def report(self):
        """Says once a minute how far it is."""
        if not self.clock.is_time():
            return
        done, undone = sum(self.proved.values()) / self.at_once, sum(self.waiting.values()) / self.at_once
        begun = sum(self.waiting.values()) / max(1, len(self.waiting)) / 2
        self.clock.note(done, begun, self.least(), self.times * (done + undone))
        self.say(f"{self.count - len(self.waiting)} of {self.count} crates are done, {self.clock.shown()}")
