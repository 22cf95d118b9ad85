"""Which lines of the scripts are played on the program, and which by tests_books."""
import dataclasses
import re

import books
import scripts
import sessions

CRATE = scripts.DATA.parent
COUNTS = CRATE / "played"

# A script that is wrong on purpose, and how many of its answers are.
WRONG = {"vacuous.rows": 5}

# Lines that name something, or begin a row: nothing is answered.
NAMING = frozenset("row dump text".split())

# Lines that leave books as they are, whoever answers them.
ASKING = frozenset("""changes check trial reader writer what-if what-if-table disputes periods record office-page get post-text
    connection split records layout price plan receipt write say rows lines marks closed choices tariffs detail book credits
    replaced identities index""".split()) | frozenset(books.REPORTS)

# How many lines of a script are named that nobody plays.
MOST_NAMED = 3


class Row:
    """A row as it is read: whether its books are those that its lines so far have made here, and what is limited."""

    def __init__(self, kind):
        self.kind, self.limited = kind, set()
        self.is_lost = kind not in (["new"], ["commands"])

    def is_said(self, verb, words, body):
        """A command says this line."""
        if self.kind == ["commands"]:
            return verb in sessions.OF_SESSIONS
        if verb in books.DUMPS and "reader" in self.limited:
            return False
        if (verb in books.REPORTS or verb in books.LISTS or verb in ("check", "trial")) and "writer" in self.limited:
            return False
        if verb == "list":
            return not words and all(self.is_said(it.split()[0], it.split()[1:], "") for it in body.splitlines())
        if verb in ("adopt", "reader", "writer"):
            return words in {"adopt": [["2"]], "reader": [[], ["bdw"]], "writer": [[]]}[verb]
        return verb in ("changes", *books.REPORTS, *books.LISTS, *books.DUMPS, *books.RULINGS, *books.OTHER_PRICES)

    def is_played(self, line):
        """Whether a line is played here; the row is lost after one that is not, and changes its books."""
        verb, *words = line.words
        if self.is_lost:
            return False
        is_said = self.is_said(verb, words, line.body)
        if verb in ("reader", "writer"):
            self.limited = self.limited - {verb} if is_said else self.limited | {verb}
        asking = verb in ASKING or verb == "adopt" or verb == "each-call" and words[:1] and words[0] in ASKING
        self.is_lost = not is_said and not asking
        return is_said


@dataclasses.dataclass
class Script:
    """A script, the lines of it that are asked, and those of them that are passed over here."""
    name: str
    lines: list
    asked: int = 0
    passed: list = dataclasses.field(default_factory=list)

    def count(self):
        return "%s: %d played, %d passed over" % (self.name, self.asked - len(self.passed), len(self.passed))


def script_of(name):
    script, row = Script(name, scripts.read(name)), Row([])
    for line in script.lines:
        if line.verb == "row":
            row = Row(line.words[2:])
        if line.verb in NAMING:
            continue
        script.asked += 1
        # In a script that is wrong on purpose a line that nobody understands is answered so.
        if not row.is_played(line) and name not in WRONG:
            script.passed.append(line)
    return script


def played_whole():
    """Of each script that tests_books plays the number of its lines, where it answers all of them as they are written."""
    line = re.compile(r"^(\S+): \d+ rows, (\d+) answers, 0 not understood, as written$", re.M)
    return {name: int(answers) for name, answers in line.findall((CRATE / "stdout").read_text())}


def faults(all_scripts):
    """Lines that nobody plays, and scripts of which another number is played than was written."""
    whole, counts = played_whole(), COUNTS.read_text().splitlines()
    for script in all_scripts:
        if script.passed and whole.get(script.name) != script.asked:
            for line in script.passed[:MOST_NAMED]:
                yield "%s:%d: nobody plays it: %s" % (script.name, line.number, " ".join(line.words))
        if script.count() not in counts:
            yield "%s, which is not what crates/tests_books/played says" % script.count()
    gone = {line.partition(":")[0] for line in counts} - set(scripts.names())
    yield from ("%s is not there, but crates/tests_books/played has it" % name for name in sorted(gone))
