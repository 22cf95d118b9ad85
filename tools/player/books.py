"""Rows on new books. Their lines are commands for short on these books, as tests_ledgers describes them: what a line names is
written to a file that the command reads.

    A line                                   Is the command

    tariff TEXT.., with a body               tariff BOOK FILE
    import PARTS.., check PARTS..            import BOOK FILE, check FILE; with --layout bdw after `reader bdw`
    trial CPU EXCP RECORD PARTS..            trial with these rates, of a dump on standard input
    close PERIOD DAY, adopt 2                close BOOK PERIOD DATE, adopt BOOK
    choose RECORD, record RECORD             the same, with the name of the record
    replace TEXT.., withhold RECORD          tariff with --replace, choose with --none
    credit PERIOD CENTRE AMOUNT REASON       the same, with a point before the last four digits of the amount
    disputes, periods                        the same
    statement PERIOD [CENTRE]                the same, with --centre; so are adjustments, details and bill
    focus PERIOD, coverage PERIOD            the same, and so is page; coverage-table is coverage with --csv
    table PERIOD [CENTRE]                    statement with --csv; so are details-table and bill-table; bill-page is bill with --html
    what-if PERIOD[/CENTRE] TEXT..           statement with --tariff FILE; with --csv what-if-table
    list, with a body of such lines          each of them
    changes                                  the statement and the adjustments of each period, the disputes and the periods;
                                             shown are those that are not as they were shown last"""
import datetime
import re

from commands import lines_of, ran, status_by
from scripts import Unread
from sessions import Session

# A day is far after what books hold, where it is later by more days than this; a close is so after their records by fewer
# (FORMATS).
FAR_DAYS, NEAR_DAYS = 366, 7

# The command of a report of a period.
REPORTS = {"statement": ["statement"], "table": ["statement", "--csv"], "adjustments": ["adjustments"],
           "details": ["details"], "details-table": ["details", "--csv"], "bill": ["bill"], "bill-table": ["bill", "--csv"],
           "bill-page": ["bill", "--html"],
           "focus": ["focus"], "coverage": ["coverage"], "coverage-table": ["coverage", "--csv"], "page": ["page"]}
LISTS = frozenset("disputes periods record".split())
OTHER_PRICES = frozenset("what-if what-if-table".split())
DUMPS = frozenset("import check trial".split())
RULINGS = frozenset("tariff replace close choose withhold credit".split())


class Books(Session):
    """A row on new books. Its lines show what the answer is, and not what the program adds to it on standard error; so that has
    to be what FORMATS says, and so has the status. By which entry a record came is not shown: elsewhere such rows have none."""

    def __init__(self, folder):
        super().__init__(folder)
        self.layout, self.closes, self.has_records, self.texts = [], [], False, {}
        self.told(["init", "@books"])

    def dump_file(self, names, parts):
        self.write("@dump.smf", [names.dump(parts)])
        return "@dump.smf"

    def text_file(self, names, words, body):
        self.write("@tariff.toml", [names.text(words, body).encode()])
        return "@tariff.toml"

    def words_for(self, names, verb, words, body):
        """The words of the command that a line is for short."""
        if verb in ("tariff", "replace"):
            return ["tariff", "@books", self.text_file(names, words, body), *["--replace"] * (verb == "replace")]
        if verb == "import":
            return ["import", "@books", self.dump_file(names, words), *self.layout]
        if verb == "check":
            return ["check", self.dump_file(names, words), *self.layout]
        if verb == "trial" and len(words) >= 3:
            return ["trial", "--cpu", words[0], "--excp", words[1], "--record", words[2], *self.layout]
        if verb in ("choose", "record") and len(words) == 1:
            return [verb, "@books", names.record(words[0])]
        if verb == "withhold" and len(words) == 1:
            return ["choose", "@books", names.record(words[0]), "--none"]
        if verb == "credit" and len(words) == 4:
            period, centre, amount, reason = words
            return ["credit", "@books", period, centre, "--", units(int(amount)), reason]
        if verb == "close" and len(words) == 2:
            return ["close", "@books", *words]
        if verb == "adopt" and words == ["2"] or verb in ("disputes", "periods") and not words:
            return [verb, "@books"]
        if verb in OTHER_PRICES and words:
            period, _, centre = words[0].partition("/")
            return ["statement", "@books", period, *["--csv"] * (verb == "what-if-table"), *of_centre([centre] * bool(centre)),
                    "--tariff", self.text_file(names, words[1:], body)]
        if verb in REPORTS and len(words) in (1, 2):
            command, *options = REPORTS[verb]
            return [command, "@books", words[0], *options, *of_centre(words[1:])]
        raise Unread("no command is so for short")

    def told(self, words, given=b"", due=lambda answer: []):
        """The answer of a command, and what it says on standard error but for the lines that are due to that answer."""
        self.streams.data = given
        left = ran([self.path(word) for word in words], self.streams)
        answer, errors = (lines_of(stream.decode("utf-8", "replace")) for stream in (left.output, left.errors))
        answer = [re.sub(r"^CAME \d.*", "CAME -", line) for line in answer]
        wrong = ["STATUS %d" % left.status] * (left.status != status_by(errors))
        lines = due(answer)
        if errors[:len(lines)] == lines:
            return answer + errors[len(lines):] + wrong
        return answer + errors + ["NOT SAID: %s" % line for line in lines] + wrong

    # ---- What is due on standard error

    def is_far(self, periods, day, most):
        """A day is far after the newest one in the statements of some periods, by more days than these, or, where they are empty,
        after the last close."""
        if not (self.has_records or self.closes):
            return False
        lines = [line for period in periods for line in self.told(["statement", "@books", str(period)])]
        days = [line[:10] for line in lines if re.match(r"\d{4}-\d\d-\d\d ", line)]
        newest = max(days or self.closes[-1:], default=day)
        return (date(day) - date(newest)).days > (most if days else FAR_DAYS)

    def due_to_tariff(self, text, answer):
        day = re.search(r'^ *effective *= *"([0-9-]+)"', text, re.M)
        is_far = answer == ["DONE"] and self.is_far([len(self.closes) + 1], day[1], FAR_DAYS)
        return ["chargectl: far"] * is_far

    def due_to_close(self, day, answer):
        """What a period has of later days is in the next one, once it is closed."""
        periods = [len(self.closes) + 1, len(self.closes) + 2]
        today = datetime.datetime.now(datetime.timezone.utc).date()
        is_far = answer == ["DONE"] and (date(day) > today or self.is_far(periods, day, NEAR_DAYS))
        self.closes += [day] * (answer == ["DONE"])
        return ["chargectl: far"] * is_far

    def due_to_dump(self, answer):
        """A dump that was read to its end is torn that has no record, or fewer trailers than headers."""
        receipt = dict(re.findall(r"([A-Z]+) (\d+)", answer[0])) if answer and answer[0].startswith("KEPT") else None
        if receipt and answer[0].endswith(" STOP END"):
            is_torn = not any(map(int, receipt.values())) or int(receipt["TRAILERS"]) < int(receipt["HEADERS"])
        elif not receipt and answer and re.fullmatch(r"RECORDS \d+ STOP END", answer[-1]):
            headers, trailers = (sum(line.endswith(mark) for line in answer) for mark in (" HEADER", " TRAILER"))
            is_torn = len(answer) == 1 or trailers < headers
        else:
            is_torn = False
        return ["chargectl: torn"] * is_torn

    def due_to_import(self, answer):
        """A fault that stopped an import has its line."""
        self.has_records = True
        stop = re.search(r" STOP (FRAME|LEDGER) (\d+)$", answer[0] if answer else "")
        return ["chargectl: %s %s" % (stop[1].lower(), stop[2])] if stop else self.due_to_dump(answer)

    def said(self, names, verb, words, body):
        """The answer to a line that is a command for short."""
        given = self.words_for(names, verb, words, body)
        if verb == "tariff":
            return self.told(given, due=lambda answer: self.due_to_tariff(names.text(words, body), answer))
        if verb == "close":
            return self.told(given, due=lambda answer: self.due_to_close(words[1], answer))
        if verb == "import":
            return self.told(given, due=self.due_to_import)
        due = self.due_to_dump if verb in DUMPS else lambda answer: []
        return self.told(given, names.dump(words[3:]) if verb == "trial" else b"", due)

    # ---- Lines

    def changes(self):
        """The texts that are not as they were shown last. Of a period that there is not, before the first and after the open one,
        nothing is to be shown."""
        found = []
        periods = map(str, range(len(self.closes) + 3))
        asked = [(verb, "@books", period) for period in periods for verb in ("statement", "adjustments")]
        for words in asked + [("disputes", "@books"), ("periods", "@books")]:
            now = self.told(words)
            found += now * (now != self.texts.get(words, ["chargectl: ledger 11"]))
            self.texts[words] = now
        return found

    def answer(self, names, line):
        verb, *words = line.words
        if verb == "reader":
            self.layout = ["--layout", "bdw"] if words else []
            return []
        if verb == "writer":
            return []
        if verb == "changes" and not words:
            return self.changes()
        if verb == "list" and not words:
            each = [it.split() for it in line.body.splitlines()]
            return [told for verb, *words in each for told in self.said(names, verb, words, "")]
        return self.said(names, verb, words, line.body)


def of_centre(words):
    return [part for word in words for part in ("--centre", word)]


def units(amount):
    """An amount that is counted in ten-thousandths."""
    return "%s%d.%04d" % ("-" * (amount < 0), *divmod(abs(amount), 10000))


def date(text):
    return datetime.date.fromisoformat(text)
