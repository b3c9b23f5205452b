"""Shows on standard error that a build is at work: on a terminal one line that is written over, else a plain line now and then."""
import os
import re
import sys
import time


class Seconds:
    """Counts the seconds, as no number of steps is known. Off a terminal nothing is shown: the line before the build is enough."""

    def __init__(self, program, what):
        self.program, self.what, self.began, self.shown = program, what, time.monotonic(), ""

    def __enter__(self):
        return self

    def __exit__(self, *_):
        if self.shown and sys.stderr.isatty():
            sys.stderr.write("\n")
            sys.stderr.flush()

    def text(self):
        return f"{self.what}: {time.monotonic() - self.began:.0f} s"

    def show(self):
        text = self.text()
        if text == self.shown:
            return
        if sys.stderr.isatty():
            sys.stderr.write(f"\r{self.program}: {text:<{len(self.shown)}}")
            sys.stderr.flush()
        elif type(self) is not Seconds:
            print(f"{self.program}: {text}", file=sys.stderr, flush=True)
        self.shown = text


class Crates(Seconds):
    """Tells which crate is proved, and how many there are, by what the log of `rt run` names."""

    def __init__(self, program, what, log, crates):
        super().__init__(program, what)
        self.log, self.crates, self.size, self.at = log, crates, 0, 0

    def text(self):
        size = os.path.getsize(self.log)
        if size != self.size:
            self.size = size
            with open(self.log, encoding="utf-8", errors="replace") as it:
                named = re.findall(r"^rt: chose .* for (\w+)$", it.read(), re.M)
            self.at = max([self.crates.index(name) + 1 for name in named if name in self.crates], default=0)
        name = f" {self.crates[self.at - 1]}" if self.at else ""
        return f"{self.what}{name}, crate {max(self.at, 1)} of {len(self.crates)}"
