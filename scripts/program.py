"""What the scripts at the top share: each runs a program that is proved and built, or compiled with nothing proved."""
import os
import subprocess
import sys

import cache
import crates
import machine
import proving
import trying

# What the usage of a program ends with.
FIRST_CALL = """
The first call proves and builds the program, and says how long that takes. Later calls start at once.
`./{0} --try ..` compiles it with nothing proved, in about three minutes, and then starts at once, too.
Programs are kept in $XDG_CACHE_HOME/vorxindak, or else in ~/.cache/vorxindak, or in out/cache here. Where none of these
can be written, each call builds again. Status 125: the program was not built, or could not run.
"""


class Program:
    """A program of this repository: the script that runs it, its crate, and words with which it ends at once."""

    def __init__(self, script, crate, words):
        self.script, self.crate, self.words = script, crate, words
        self.binary = None

    def say(self, text):
        machine.say(self.script, text)

    def build(self):
        """Proves and builds the program, unless it is built from the crates as they are."""
        self.binary = proving.program(self.crate, self.say)
        return self.binary

    def compile(self):
        """Compiles the program with nothing proved, unless that was done from the crates as they are."""
        self.binary = trying.program(self.crate, self.words, self.say)
        return self.binary

    def run(self, words):
        """Runs the program with these words in place of the script."""
        os.execv(self.binary, [self.script, *words])

    def main(self, usage):
        """Does what the script's words ask for. Help comes before any proof."""
        words = sys.argv[1:]
        is_tried = words[:1] == ["--try"]
        own = words[: words.index("--")] if "--" in words else words
        if {"-h", "--help"} & {*own}:
            print(usage, end="" if is_tried else FIRST_CALL.format(self.script))
            return 0
        if not is_tried:
            self.build()
            self.run(words)
        self.compile()
        if sys.stderr.isatty():
            self.say(f"nothing is proved yet; `./{self.script} ..` without --try proves the program first")
        self.run(words[1:])
