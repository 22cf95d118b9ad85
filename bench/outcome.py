"""The results of hostile inputs, and the books to which they go; for `hostile`."""
import collections
import subprocess
import sys

import formats
from loopback import CHARGECTL, ROOT

# Seconds, and megabytes.
MOST_SECONDS, MOST_MEMORY = 5, 64

# How many faults of a batch are shown, and how many digits of each input.
MOST_SHOWN, MOST_DIGITS = 20, 2_000

SAMPLES = ROOT / "samples"
MONTH, FEBRUARY, TARIFF = (
    (SAMPLES / name).read_bytes() for name in ("month.smf", "february.smf", "office.toml"))


class Outcome:
    """What came of a batch of inputs: how often each answer came, and the longest time and the most
    memory by HTTP and by commands."""

    def __init__(self):
        self.answers, self.seconds, self.memory, self.wrong = collections.Counter(), {}, {}, 0

    def took(self, part, seconds):
        self.seconds[part] = max(seconds, self.seconds.get(part, 0))

    def used(self, part, megabytes):
        self.memory[part] = max(megabytes, self.memory.get(part, 0))

    def fault(self, index, text, given=b""):
        self.wrong += 1
        if self.wrong <= MOST_SHOWN:
            shown = given[:MOST_DIGITS // 2].hex()
            print("hostile: input %s: %s: %s" % (index, text, shown), flush=True)

    def join(self, other):
        self.answers += other.answers
        for part, seconds in other.seconds.items():
            self.took(part, seconds)
        for part, megabytes in other.memory.items():
            self.used(part, megabytes)
        self.wrong += other.wrong


def chargectl(*words):
    """A command that has to do what it is asked."""
    ended = subprocess.run([CHARGECTL, *map(str, words)], capture_output=True, timeout=60)
    if ended.returncode != 0:
        sys.exit("hostile: status %d of %s: %r" % (ended.returncode, words, ended.stderr))
    return ended.stdout


def new_books(book):
    """Books with January, which is closed, and what they hold."""
    chargectl("init", book)
    chargectl("tariff", book, SAMPLES / "office.toml")
    chargectl("import", book, SAMPLES / "month.smf")
    chargectl("close", book, 1, formats.CLOSED_THROUGH)
    model = formats.Books()
    model.held |= model.receipt(MONTH, "rdw")[2]
    return model


def audited(book, model, outcome, last):
    """The books are sound, and hold what was kept."""
    ended = subprocess.run([CHARGECTL, "audit", str(book)], capture_output=True, timeout=60)
    if ended.returncode != 0 or b"\nRECORDS %d\n" % len(model.held) not in ended.stdout:
        outcome.fault(last, "audit of %d records: %r" % (len(model.held), ended))
