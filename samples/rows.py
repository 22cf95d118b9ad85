"""Worked rows answered by office.py, apart from the program: a script is read as the program's player reads it, and
each answer is made anew. Tables are what they have to hold by the books as a whole, and not kept step by step."""
import copy
import datetime
import hashlib
import itertools
import re

import bill_pages
import office
import pages


class NotKnown(Exception):
    """A line that is not answered here."""


def read(script):
    """Each line of a script that is no answer, with its body and the answer after it."""
    lines = []
    for line in script.splitlines():
        if line.startswith("|"):
            lines[-1][1].append(line[2:])
        elif not line or line.startswith(("> ", "#")):
            lines.append((line, [], []))
        else:
            lines[-1][2].append(line)
    return lines


def dump_of(named, words):
    """The dump of parts, as scripts name them."""
    dump = bytearray()
    for part in words:
        if part.startswith("x:"):
            dump += bytes.fromhex(part[2:])
        elif part.startswith("zeros:"):
            dump += bytes(int(part[6:]))
        elif ":" in part:
            place, digits = part.split(":")
            dump[int(place):int(place) + len(digits) // 2] = bytes.fromhex(digits)
        else:
            part, _, count = part.partition("*")
            count, _, place = count.partition("@")
            name, _, places = part.partition("/")
            first, last = places.split("..") if places else (0, "")
            copy = bytearray(named[name][int(first):int(last or len(named[name]))])
            for number in range(int(count or 1)):
                if place:
                    copy[int(place):int(place) + 2] = number.to_bytes(2, "big")
                dump += copy
    return bytes(dump)


def options(words):
    """The options among words, each with its value, if it has one."""
    parts = [part for word in words for part in word.split("=", 1)]
    for at, word in enumerate(parts):
        if word.startswith("--"):
            yield word, parts[at + 1] if at + 1 < len(parts) else None


def told(turns, unit):
    """What came of each turn: once of all that follow each other and are the same."""
    at = 0
    for turn, group in itertools.groupby(turns):
        last = at + len(list(group)) - 1
        yield "%d%s %s" % (at, " TO %d" % last if last > at else "", unit)
        yield from turn
        at = last + 1


def days(day):
    return (day - office.EPOCH).days


def said_by(line):
    """What a line of a list says, of which nothing is passed over if it is too long. A carriage return before its end is a part
    of that."""
    line = line.removesuffix(b"\r")
    if len(line) > MOST_LINE:
        return line.decode("latin-1")
    said = line.removeprefix(MARK).rstrip(BLANKS).decode("latin-1")
    return said[1:-1] if len(said) > 1 and said[0] == said[-1] == QUOTE else said


def day_of(word):
    """The day that a word names, if it does: exactly YYYY-MM-DD, of a year from 1900 to 2099."""
    try:
        return datetime.date.fromisoformat(word) if re.fullmatch("(19|20)[0-9]{2}-[0-9]{2}-[0-9]{2}", word) else None
    except ValueError:
        return None


class Tables:
    """What the tables of books have to hold."""
    def __init__(self, books):
        self.books = books

    def book(self):
        books = self.books
        amount = sum(one.amount for one in books.held.values())
        yield "1 %d %d %d %d" % (books.rule, books.adopted or 0, len(books.held), amount)

    def closed(self):
        for number, through in enumerate(self.books.closes, 1):
            yield "%d %d" % (number, days(through))

    def tariffs(self):
        for tariff in self.books.tariffs:
            yield from ("%d {%s}" % (days(tariff.effective), tariff.file.decode())).split("\n")

    def rows(self):
        for period in range(1, self.books.open + 1):
            for (day, centre, shift), sums in self.books.rows(period):
                place = period, days(datetime.date.fromisoformat(day)), centre, shift
                yield " ".join(str(column) for column in place + tuple(sums))

    def lines(self):
        books = self.books
        for period in range(1, books.open + 1):
            added, removed = books.changes(period)
            for name in sorted(added | removed):
                one = books.held[name]
                yield "%d %d %d %s %s %d %d %d %s" % (
                    period, name in added, days(one.day), one.centre, one.shift, one.cpu, one.blocks, one.amount,
                    name.upper())

    def marks(self):
        charged, posted = self.books.undisputed(), self.books.posted()
        for name in sorted(self.books.held):
            yield "%s %d %d" % (name.upper(), name in charged, name in posted)

    def choices(self):
        for number, (name, period) in enumerate(self.books.choices, 1):
            yield "%d %s %d %d" % (number, name.upper(), period, number not in self.books.nones)

    def credits(self):
        for number, credit in enumerate(self.books.credits, 1):
            yield "%d %d %s %d %s" % (number, *credit)

    def replaced(self):
        for number, (period, tariff) in enumerate(self.books.replaced, 1):
            yield from ("%d %d %d {%s}" % (number, days(tariff.effective), period, tariff.file.decode())).split("\n")

    def identities(self):
        for name, one in sorted(self.books.held.items()):
            yield "%s %s" % (name.upper(), self.books.identity(one).hex().upper())

    def index(self, name):
        books, charged = self.books, self.books.undisputed()
        if name == "choice_name":
            entries = sorted((name, number) for number, (name, _) in enumerate(books.choices, 1))
            return ["%s %d" % (name.upper(), number) for name, number in entries]
        held = sorted((books.identity(one), name) for name, one in books.held.items())
        if name == "record_ident":
            return [("%s %s" % (identity.hex(), name)).upper() for identity, name in held]
        return [("%d %s %s" % (mark, identity.hex(), name)).upper()
                for mark in (False, True) for identity, name in held if (name in charged) == mark]

    def detail(self):
        for row in self.books.detail_rows():
            yield " ".join("" if column is None else column.hex().upper() if isinstance(column, bytes) else str(column)
                           for column in row)

    def audit(self):
        yield "SOUND"
        yield "FORM 3"
        for word, rows in (("RECORDS", self.marks()), ("TARIFFS", self.books.tariffs), ("CLOSES", self.closed()),
                           ("CHOICES", self.choices()), ("ROWS", self.rows()), ("LINES", self.lines())):
            yield "%s %d" % (word, len(list(rows)))


TABLES = "book closed tariffs rows lines marks choices credits replaced identities detail index".split()

# The commands that are rulings: each is one call of the books.
RULINGS = "tariff replace close choose withhold credit adopt".split()

# How often a report asks the books: for the days of the closes, and for what it lists. The rulings are asked for one
# after the other.
ASKS = {"statement": 2, "table": 1, "adjustments": 2, "adjustment_table": 1, "disputes": 1, "dispute_table": 1,
        "periods": 1}

# The details of a period: for the days of the closes, for each detail, and for the end.
DETAILS = {"details": 2, "details-table": 2}

# The bills of a period.
BILLS = {"bill": "bill", "bill-table": "bill_table", "bill-page": "bill_page"}

# What is of a period of the whole office alone: its table of cost and usage, and its coverage.
OF_OFFICE = {"focus": "focus", "coverage": "coverage", "coverage-table": "coverage_table"}

# The pages: of the office, and of a period.
PAGES = "office-page page".split()

# The same of what a period would have cost by a tariff: for the days of the closes, before the tariff is read; for what
# it would have cost; and, for a text, for what it is charged.
WHAT_IFS = {"what-if": 3, "what-if-table": 2}

# The report of a path, and the form of its text.
PATHS = {"statement": ("statement", "plain"), "statement-csv": ("table", "csv"),
         "adjustments": ("adjustments", "plain"), "adjustments-csv": ("adjustment_table", "csv"),
         "details": ("details", "plain"), "details-csv": ("details-table", "csv"), "focus": ("focus", "csv"),
         "coverage": ("coverage", "plain"), "coverage-csv": ("coverage-table", "csv"),
         "bill": ("bill-page", "html"), "bill-csv": ("bill-table", "csv"),
         "disputes": ("disputes", "plain"), "disputes-csv": ("dispute_table", "csv"),
         "periods": ("periods", "plain"), "rulings": ("rulings", "plain")}

# What spells the name of a record.
DIGITS = re.compile("[0-9A-Fa-f]{64}")

# What a spreadsheet may write before the first line of a text, behind each line, and round a name; and how long a line may be.
MARK, BLANKS, QUOTE, MOST_LINE = b"\xef\xbb\xbf", b" \t\x0c\r", '"', 128

OF_PERIODS = "statement table adjustments adjustment_table".split()

# What spells an amount, in ten-thousandths without its point, and what a reason is.
AMOUNT = re.compile(r"-?(?:0|[1-9][0-9]{0,9})\.[0-9]{4}")
REASON = re.compile("[ -~]{1,200}")

# A period in a path.
NUMBER = re.compile("[1-9][0-9]{0,3}")

# The paths at which a tariff is handed in: of what form the answer is, and of which period, and which centre, if of one.
WHAT_IF_PATH = re.compile(r"/what-if(-csv)?/([1-9][0-9]{0,3}(?:/[A-Z0-9-]{1,16})?)")

# The paths of pages: of the office, and of a period.
PAGE_PATH = re.compile("/(?:period/([1-9][0-9]{0,3}))?")

PHRASES = {200: "OK", 400: "Bad Request", 404: "Not Found", 503: "Service Unavailable"}

# Of a page, which works by its style alone.
NO_SNIFFING = ["X-Content-Type-Options: nosniff"]
PAGE_LINES = ["Content-Security-Policy: default-src 'none'; style-src 'unsafe-inline'; frame-ancestors 'none'", *NO_SNIFFING]


def bytes_of(text):
    return "".join(line + "\n" for line in text).encode()


def shown_bytes(body):
    """Bytes as an exchange shows them: what prints as itself as it is, and a backslash where no line's end is last."""
    def shown(byte):
        code = chr(byte)
        return {"\r": "\\r", "\\": "\\\\"}.get(code, code if code == "\n" or " " <= code <= "~" else "\\x%02X" % byte)
    text = "".join(map(shown, body))
    return (text if text.endswith("\n") or not text else text + "\\\n").splitlines()


def served(status, text, form="plain", charset="us-ascii"):
    """An answer over HTTP, as it is shown. A refusal without a text of its own has its status and phrase."""
    first = "%d %s" % (status, PHRASES[status])
    body = text if isinstance(text, bytes) else bytes_of(text or [first])
    head = ["HTTP/1.1 " + first, "Content-Type: text/%s; charset=%s" % (form, charset), *PAGE_LINES * (form == "html"),
            *NO_SNIFFING * (charset == "utf-8"), "Content-Length: %d" % len(body), "Connection: close", ""]
    return [line + "\\r" for line in head] + shown_bytes(body) + ["SERVED %d" % status]


def output_shown(verb, words, output):
    """What a command wrote, as a line shows it that asks for it so: all of it, its first bytes, or how much it is."""
    if verb == "count-lines":
        return ["LINES %d" % output.count(b"\n")]
    if verb == "count-bytes":
        return ["BYTES %d" % len(output)]
    if verb == "first" and len(output) > int(words[0]):
        output = output[:int(words[0])] + b"..\n"
    # A line's end may have a carriage return, which is not shown.
    *lines, last = output.decode().split("\n")
    return [line.removesuffix("\r") for line in lines] + [last, "\\"] * (last != "")


class Rows:
    """Scripts, one after the other: what one names is named in those after it. Beside them in their folder lie files."""
    def __init__(self, folder):
        self.folder, self.dumps, self.texts = folder, {}, {}
        self.books, self.shown, self.files, self.input = None, {}, {}, b""
        # How many calls of the books come before one that is refused for memory, if one is to be.
        self.calls_left, self.is_counted = None, False
        # What the last command said on standard error beside a refusal.
        self.notices = []

    def begin(self, kind):
        if kind not in (["new"], ["commands"]):
            raise NotKnown
        self.books, self.shown, self.files, self.input = office.Books(), {}, {}, b""
        self.is_counted, self.user = False, "player"

    def is_refused(self):
        """Counts a call of the books, and says whether it is the one that is refused."""
        if self.calls_left is None:
            return False
        self.calls_left -= 1
        if self.calls_left < 0:
            self.calls_left = None
        return self.calls_left is None

    def is_refused_of(self, asks, period=None, centre=None):
        """Whether one of so many calls of the books is refused. Of a centre that is named they are asked before whether it is
        there: for the days of the closes, for each tariff, and for the end. Of one that is not there no more is asked."""
        if centre is not None:
            known = 2 + len(self.books.tariffs)
            asks = known + asks if self.books.has_centre(period, centre) else known
        return any(self.is_refused() for _ in range(asks))

    def take(self, dump):
        """The receipt of a dump. The books are asked of usage records alone."""
        kinds = []
        for data in office.joined(dump):
            if office.kind_of(data) == "USAGE" and self.is_refused():
                return [office.receipt(kinds, "LEDGER %d" % office.MEMORY)]
            kinds.append(self.books.take_one(data))
        return [office.receipt(kinds)]

    def report(self, verb, words):
        """A report, or why there is none."""
        asks = len(list(self.books.rulings())) if verb == "rulings" else ASKS[verb]
        place = (int(words[0]), *words[1:]) if words else ()
        if self.is_refused_of(asks, *place):
            return office.refused(office.MEMORY)
        if words:
            return self.books.of_period(getattr(self.books, verb), *place)
        return list(getattr(self.books, verb)())

    def details(self, verb, period, centre=None):
        """The details of a period, or of one centre in it, or why there are none."""
        books, period = self.books, int(period)
        asks = DETAILS[verb] + (len(books.counted_in_order(period, centre)) if 0 < period <= books.open else 0)
        if self.is_refused_of(asks, period, centre):
            return office.refused(office.MEMORY)
        return books.of_period(getattr(books, verb.replace("-", "_")), period, centre)

    def bill_asks(self, period, centre):
        """How often a bill asks the books. For its steps and jobs: for the days of the closes, for each detail, and for
        the end, which is all where there is no such period. For its lines: for these, and of a centre for the trail of
        each record. For what is held back: for the days, and while the period is open for each dispute and the end. For
        its first day: for the days. For its tariffs: for the days, for each tariff, and for the end. For its credits: for
        each credit of the books, and for the end."""
        books = self.books
        if not 0 < period <= books.open:
            return 2
        lines = 0 if centre is None else len(books.lines(period, centre))
        disputes = len(books.disputed()) + 1 if period == books.open else 0
        asks = 2 + len(books.counted_in_order(period, centre)) + 1 + lines + 1 + disputes + 1 + 2 + len(books.tariffs)
        return asks + len(books.credits) + 1

    def bill(self, verb, period, centre=None):
        """The bill of a centre for a period, or of all, or why there is none."""
        if self.is_refused_of(self.bill_asks(int(period), centre), int(period), centre):
            return office.refused(office.MEMORY)
        if verb == "bill-page":
            return self.books.of_period(self.bill_page, int(period), centre)
        return self.books.of_period(getattr(self.books, BILLS[verb]), int(period), centre)

    def bill_page(self, period, centre=None):
        return bill_pages.bill_page(self.books, period, centre).splitlines()

    def office_asks(self, verb, period):
        """How often such a text asks the books. FOCUS: for the days of the closes; for the tariffs, which is for the days, for
        each tariff, and for the end; for the rows, which is all where there is no such period, and for the lines. Coverage: for
        the days of the close before and of its own; for each detail and for its record, and for the end."""
        books = self.books
        is_there = 0 < period <= books.open
        if verb == "focus":
            return 1 + 2 + len(books.tariffs) + 1 + is_there
        return 2 + 2 * (len(books.counted(period)) if is_there else 0) + 1

    def of_office(self, verb, period):
        """A table of cost and usage or a coverage, or why there is none."""
        if any(self.is_refused() for _ in range(self.office_asks(verb, int(period)))):
            return office.refused(office.MEMORY)
        return self.books.of_period(getattr(self.books, OF_OFFICE[verb]), int(period))

    def page_asks(self, period):
        """How often a page asks the books. That of the office: for the days of the closes, for each credit and the end, for the
        rows and the lines of each period, for the tariffs, and for each dispute and the end. That of a period: for its
        coverage, which is all where there is no such period, for its rows and its lines, for each credit of the books and the
        end, for the disputes, for the days of the closes, and for the tariffs. For tariffs it asks for the days, for each of
        them, and for the end."""
        books, tariffs, credits = self.books, 2 + len(self.books.tariffs), len(self.books.credits) + 1
        if period is None:
            return 1 + credits + 2 * books.open + tariffs + len(books.disputed()) + 1
        return self.office_asks("coverage", period) + (4 + credits + tariffs) * (0 < period <= books.open)

    def page(self, period=None):
        """The page of a period, or of the office, or why there is none."""
        period = None if period is None else int(period)
        if any(self.is_refused() for _ in range(self.page_asks(period))):
            return office.refused(office.MEMORY)
        if period is None:
            return pages.office_page(self.books).splitlines()
        return self.books.of_period(lambda period: pages.period_page(self.books, period).splitlines(), period)

    def trail(self, name):
        """The trail of a record, or why there is none. The books are asked by which entry it came, and then for the trail."""
        return office.refused(office.MEMORY) if any(self.is_refused() for _ in range(2)) else self.books.trail(name)

    def what_if(self, verb, place, file):
        """What a period would have cost by a tariff file, or why that is not told: of all centres, or of the one that is
        named after a slash."""
        period, _, centre = place.partition("/")
        text = self.books.what_if(file, int(period), centre or None, verb == "what-if-table")
        is_tariff = not text[0].startswith("chargectl: tariff ")
        asks = WHAT_IFS[verb] if not text[0].startswith("chargectl: ") else 2 if is_tariff else 1
        if any(self.is_refused() for _ in range(asks)):
            return office.refused(office.MEMORY)
        return text

    def name_of(self, word):
        if len(word) == 64:
            return word.lower()
        [data] = office.joined(self.dumps[word])
        return hashlib.sha256(data).hexdigest()

    def text(self, names, body):
        return "".join([line + "\n" for line in body] + [self.texts[name] for name in names])

    def changes(self):
        """Each text of the books that is not as it was shown last."""
        texts = office.texts(self.books)
        changed = [line for text, lines in texts.items() if self.shown.get(text) != lines for line in lines]
        self.shown = texts
        return changed

    def command(self, verb, words, body=()):
        """The answer to a command of books."""
        books = self.books
        if verb == "noted":
            return self.with_note(*words[:4], words[4], words[5:], body)
        if verb == "group":
            self.take(dump_of(self.dumps, words[1:]))
            return ["DONE"]
        if verb == "ended":
            return ["DONE"]
        if verb == "import":
            return self.take(dump_of(self.dumps, words))
        if verb in RULINGS and self.is_refused():
            return office.refused(office.MEMORY)
        if verb == "tariff":
            return books.tariff(self.text(words, body).encode())
        if verb == "replace":
            return books.replace(self.text(words, body).encode())
        if verb == "close":
            return books.close(int(words[0]), datetime.date.fromisoformat(words[1]))
        if verb == "choose":
            return books.choose(self.name_of(words[0]))
        if verb == "withhold":
            return books.withhold(self.name_of(words[0]))
        if verb == "credit":
            period, centre, amount, reason = words
            return books.credit(int(period), centre, int(amount), reason)
        if verb == "adopt":
            return books.adopt(int(words[0]))
        raise NotKnown

    def with_note(self, seconds, person, remark, file, verb, words, body):
        """The answer to a command with a note: a dash is none of its texts."""
        books = self.books
        before = list(books.rulings()), set(books.held)
        lines = self.command(verb, words, body)
        moment = datetime.datetime.fromtimestamp(int(seconds), datetime.timezone.utc)
        # After 2099 no day is shown.
        time = moment.strftime("%Y-%m-%d %H:%M:%SZ") if moment.year < 2100 else seconds
        note = [text if text != "-" else "" for text in (person, remark, file)]
        dump = dump_of(self.dumps, words) if verb == "import" else None
        books.journal.after(before, books, lines, (*note, time), dump)
        return lines

    def journal(self, verb):
        """The journal, or why it is not told: its entries are counted, and then read."""
        books = self.books
        if any(self.is_refused() for _ in range(2 * (len(books.journal.entries) + 1))):
            return office.refused(office.MEMORY)
        return list(books.journal.lines() if verb == "journal" else books.journal.table())

    def swept(self, what, body):
        """A run of commands, each answered with no fault."""
        answers = [line for words in body for line in self.command(words.split()[0], words.split()[1:])]
        told = sum(1 if line == "DONE" else int(line.split()[1]) if line.startswith("KEPT") else 0 for line in answers)
        if any(line.startswith("chargectl") for line in answers):
            raise ValueError("a run that is refused")
        return ["CHANGES %d %s MORE" % (told, what)]

    def get(self, path):
        """The answer to a request for a report. What stands after a question mark changes nothing."""
        path = path.partition("?")[0]
        page = PAGE_PATH.fullmatch(path)
        if page is not None:
            return self.get_page(page[1])
        _, name, *words = path.split("/")
        if name in ("tariff", "record"):
            found = self.get_tariff if name == "tariff" else self.get_record
            return found(*words) if len(words) == 1 else served(404, [])
        if name not in PATHS:
            return served(404, [])
        verb, form = PATHS[name]
        has_period = verb in OF_PERIODS or verb in DETAILS or verb in OF_OFFICE or verb in BILLS
        most = 1 if verb in OF_OFFICE else 2
        if bool(words) != has_period or len(words) > most or not all(map(office.is_name, words[1:])):
            return served(404, [])
        if has_period and not NUMBER.fullmatch(words[0]):
            return served(404, [])
        found = (self.details if verb in DETAILS else self.of_office if verb in OF_OFFICE
                 else self.bill if verb in BILLS else None)
        text = found(verb, *words) if found else self.report(verb, words)
        if text == office.refused(office.MEMORY):
            return served(503, [])
        if text in (office.refused(office.NO_SUCH_PERIOD), office.refused(office.NO_SUCH_CENTRE)):
            return served(404, [])
        # Details are read once more, to be gathered before they are sent: those of these rows are short.
        is_refused = verb in DETAILS and self.details(verb, *words) == office.refused(office.MEMORY)
        return served(503, []) if is_refused else served(200, text, form)

    def get_page(self, period):
        """The answer to a request for a page."""
        text = self.page(period)
        if text == office.refused(office.MEMORY):
            return served(503, [])
        return served(404, []) if text == office.refused(office.NO_SUCH_PERIOD) else served(200, text, "html")

    def get_tariff(self, word):
        """The answer to a request for a tariff's file. The tariffs are asked for in their order."""
        day = day_of(word)
        if day is None:
            return served(404, [])
        days = [tariff.effective for tariff in self.books.tariffs]
        if any(self.is_refused() for _ in range(days.index(day) + 1 if day in days else len(days) + 1)):
            return served(503, [])
        file = self.books.tariff_text(day)
        return served(404, []) if file is None else served(200, file, charset="utf-8")

    def get_record(self, word):
        """The answer to a request for the trail of a record."""
        text = self.trail(word.lower()) if DIGITS.fullmatch(word) else office.refused(office.NO_SUCH_RECORD)
        if text == office.refused(office.MEMORY):
            return served(503, [])
        return served(404, []) if text == office.refused(office.NO_SUCH_RECORD) else served(200, text)

    def post(self, parts):
        """The answer to a request that hands in a dump."""
        text = self.take(dump_of(self.dumps, parts))
        return served(200 if text[0].endswith(" END") else 503, text)

    def post_tariff(self, path, file):
        """The answer to a request that hands in a tariff file, to be told what a period would have cost by it."""
        asked = WHAT_IF_PATH.fullmatch(path)
        if asked is None:
            return served(404, [])
        text = self.what_if("what-if-table" if asked[1] else "what-if", asked[2], file)
        if text == office.refused(office.MEMORY):
            return served(503, [])
        if text == office.refused(office.NO_SUCH_PERIOD):
            return served(404, [])
        is_refused = text[0].startswith("chargectl: ")
        return served(400, []) if is_refused else served(200, text, "csv" if asked[1] else "plain")

    def each_call(self, verb, words, body):
        """The answers where the first call of the books is refused, then the second, and so on up to where none is;
        with each, what it changed."""
        turns, has_refused = [], True
        while has_refused:
            self.calls_left = len(turns)
            answer = self.answer(verb, words, body)
            has_refused, self.calls_left = self.calls_left is None, None
            turns.append(answer + self.changes())
        return list(told(turns, "CALLS"))

    def records(self, parts):
        """The records of a dump that is whole: the descriptor of each, and its name."""
        joined = list(office.joined(dump_of(self.dumps, parts)))
        return ["RECORDS %d FAULT 0" % len(joined)] + [
            "%04x0000 %s" % (len(data) + 4, hashlib.sha256(data).hexdigest()) for data in joined]

    def answer(self, verb, words, body):
        """The answer to a line on books."""
        if verb in TABLES:
            return list(getattr(Tables(self.books), verb)(*words))
        if verb in ASKS:
            text = self.report(verb, words)
            return ["TOOK %d IN 1" % sum(len(line) + 1 for line in text)] if self.is_counted else text
        if verb in DETAILS:
            return self.details(verb, *words)
        if verb in BILLS:
            return self.bill(verb, *words)
        if verb in OF_OFFICE:
            return self.of_office(verb, *words)
        if verb in PAGES:
            return self.page(*words)
        if verb == "record":
            return self.trail(self.name_of(*words))
        if verb in ("journal", "journal-table"):
            return self.journal(verb)
        if verb == "writer":
            self.is_counted = words == ["all", "1..2"]
            return []
        if verb == "changes":
            return self.changes()
        if verb == "list":
            commands = [asked.split() for asked in body] * int(words[0] if words else 1)
            answers = [self.command(asked, rest) for asked, *rest in commands]
            return list(told(answers, "COMMANDS")) if words else sum(answers, [])
        if verb == "get":
            return self.get(*words)
        if verb in WHAT_IFS:
            return self.what_if(verb, words[0], self.text(words[1:], body).encode())
        if verb == "post" and words[0] == "/import":
            return self.post(words[1:])
        if verb == "post":
            return self.post_tariff(words[0], dump_of(self.dumps, words[1:]))
        if verb == "post-text":
            return self.post_tariff(words[0], self.text(words[1:], body).encode())
        if verb == "each-call":
            return self.each_call(words[0], words[1:], body)
        if verb == "records":
            return self.records(words)
        if verb in ("stops", "refuses"):
            return self.swept("STOPS" if verb == "stops" else "REFUSED", body)
        return self.command(verb, words, body)

    def file(self, name):
        """The bytes of a file: one of the row alone, whose name begins with @, if it is there, or one beside the scripts.
        In the file of the books is what their tables have to hold, and nothing else."""
        if name == "@books":
            tables = Tables(self.books)
            return bytes_of(line for verb in TABLES[:-1] for line in getattr(tables, verb)())
        return self.files.get(name) if name.startswith("@") else (self.folder / name).read_bytes()

    def session(self, verb, words, body):
        """The answer to a line of a session, which has the books @books alone."""
        if verb == "file":
            self.files[words[0]] = dump_of(self.dumps, words[1:])
            return []
        if verb == "text-file":
            self.files[words[0]] = self.text(words[1:], body).encode()
            return []
        if verb == "input":
            self.input = dump_of(self.dumps, words)
            return []
        if verb == "user":
            # What is no text is none.
            self.user = next((word for word in words if word != "-" and "\\x" not in word), "")
            return []
        if verb == "copy":
            self.files[words[1]] = self.file(words[0])
            return []
        if verb == "same":
            return ["SAME" if self.file(words[0]) == self.file(words[1]) else "OTHER"]
        if verb != "chargectl" and "chargectl" not in words:
            raise NotKnown
        at = words.index("chargectl") if verb != "chargectl" else -1
        self.notices = []
        # A word that is no text is refused before all else.
        is_text = not any("\\x" in word for word in words)
        output = self.noted(words[at + 1:]) if is_text else ["error: a word is not UTF-8"]
        errors = []
        if not isinstance(output, bytes):
            errors = [line for line in output if line.startswith(("chargectl", "error: "))]
            output = bytes_of(line for line in output if line not in errors)
        refusal = ["! " + line for line in errors]
        refusal += ["STATUS %d" % (2 if line.startswith("error: ") else 1 if line == "chargectl: io" else 3) for line in errors]
        notices = ["! " + line for line in self.notices]
        return output_shown(verb, words[:at + 1], output) + notices + refusal

    def noted(self, words):
        """What a command writes; what it did has its note in the journal."""
        books, given = self.books, dict(options(words))
        before = list(books.rulings()), set(books.held)
        output = self.output(words)
        of_file = words[2] if words[0] in ("tariff", "import") else given.get("--from") or given.get("--dump") or ""
        person, name = (re.sub(b"[^ -~]", b"?", text.encode()).decode() for text in (given.get("--by", self.user), of_file))
        note = person[:40], given.get("--note", ""), name[-255:], "NOW"
        books.journal.after(before, books, output, note, self.file(of_file) if words[0] == "import" else None)
        return output

    def dumped(self, lines):
        """What a command writes of a dump: and whether the dump is torn."""
        if lines and office.is_torn(lines[0]):
            self.notices.append("chargectl: torn")
        return lines

    def ruled(self, ruling, is_tried):
        """What a command writes of a ruling, or of its dry run: and whether its day is noticed."""
        books, after = self.books, copy.deepcopy(self.books)
        if books.is_noticed(ruling, ruling.rule(after)):
            self.notices.append("chargectl: far")
        return books.dry_run(ruling) if is_tried else ruling.rule(books)

    def output(self, words):
        """What a command writes: bytes, or lines, of which the last may be that of a refusal."""
        if words[0] == "trial":
            return self.dumped(office.tried(self.files[dict(options(words[1:]))["--tariff"]], self.input))
        # How long a command waits for books, for whom it is run, and why, changes nothing that it says of them.
        words = [word for word, before in zip(words, [""] + words) if not {"--wait", "--by", "--note"} & {word, before}]
        is_tried = "--dry-run" in words
        # After -- a word is no option, whatever it begins with.
        verb, book, *words = [word for word in words if word not in ("--dry-run", "--")]
        if book != "@books":
            raise NotKnown
        books, given = self.books, dict(options(words))

        def of_period(report, table, period):
            """A report of a period, of the centre that an option names. What is no name of a centre is a wrong word."""
            centre = given.get("--centre")
            if centre is not None and not office.is_name(centre):
                return ["chargectl: word"]
            return books.of_period(table if "--csv" in given else report, int(period), centre)

        def bill(period, *_):
            """A bill as a text or a table, or as a page. As both at once it is asked for by wrong words."""
            if {"--csv", "--html"} <= given.keys():
                raise NotKnown
            return of_period(self.bill_page if "--html" in given else books.bill, books.bill_table, period)

        def statement(period, *_):
            """A statement, or what it would say by a tariff file. The name of the centre is looked at before the file, and
            the file before the books."""
            file, centre = given.get("--tariff"), given.get("--centre")
            if file is None or centre is not None and not office.is_name(centre):
                return of_period(books.statement, books.table, period)
            file = self.file(file)
            return ["chargectl: io"] if file is None else books.what_if(file, int(period), centre, "--csv" in given)

        def tariff_text(word, *_):
            """The file of a tariff, by the day on which it begins, or one that another took the place of. What is no day is a
            wrong word, and so is what spells no SHA-256."""
            digest = given.get("--replaced")
            if day_of(word) is None or digest is not None and not DIGITS.fullmatch(digest):
                return ["chargectl: word"]
            file = books.tariff_text(day_of(word)) if digest is None else books.replaced_text(day_of(word), digest.lower())
            return office.refused(office.NO_SUCH_TARIFF) if file is None else file

        def record(word):
            """The trail of a record. What spells no name is a wrong word."""
            return books.trail(word.lower()) if DIGITS.fullmatch(word) else ["chargectl: word"]

        def close(period, word):
            """A close through a day. What is no day is a wrong word."""
            if day_of(word) is None:
                return ["chargectl: word"]
            return self.ruled(office.ruling_of_close(int(period), day_of(word)), is_tried)

        def credit(period, centre, amount, reason):
            """A credit. What is no name of a centre is a wrong word; then the amount is looked at, and the reason."""
            if not office.is_name(centre):
                return ["chargectl: word"]
            units = int(amount.replace(".", "")) if AMOUNT.fullmatch(amount) else 0
            if units == 0:
                return ["error: AMOUNT has four decimals and is not 0"]
            if not REASON.fullmatch(reason):
                return ["error: REASON has 1 to 200 printable characters"]
            return self.ruled(office.ruling_of_credit(int(period), centre, units, reason), is_tried)

        def choose(name=None, *_):
            """One choice, or those of a file. What is no name in the file is a wrong word, before the first of them. Or none of the
            works of a dump counts."""
            if "--import" in given:
                number = given["--import"]
                is_number = re.fullmatch("[0-9]{1,19}", number) and int(number) > 0
                return books.withhold_import(int(number)) if is_number else ["chargectl: word"]
            if "--dump" in given:
                return books.withhold_dump(self.file(given["--dump"]))
            if "--from" not in given:
                ruling_of = office.ruling_of_none if "--none" in given else office.ruling_of_choice
                return self.ruled(ruling_of(self.name_of(name)), is_tried)
            said = [(number, said_by(line)) for number, line in enumerate(self.files[given["--from"]].split(b"\n"), 1)]
            listed = [(number, name) for number, name in said if name != ""]
            for number, name in listed:
                if not DIGITS.fullmatch(name):
                    return ["chargectl: word line %d" % number]
            tried = copy.deepcopy(books) if is_tried else books
            return tried.choose_each(((number, name.lower()) for number, name in listed), "--none" in given)

        return {"init": lambda: [],
                "tariff": lambda file, *_: self.ruled(
                    (office.ruling_of_replacement if "--replace" in given else office.ruling_of_tariff)(self.file(file)), is_tried),
                "close": close,
                "tariff-text": tariff_text,
                "record": record,
                "import": lambda file: self.dumped(books.take(self.file(file))),
                "choose": choose,
                "credit": credit,
                "adopt": lambda: self.ruled(office.ruling_of_adoption(), is_tried),
                "rulings": lambda: list(books.rulings()),
                "journal": lambda *_: list(books.journal.table() if "--csv" in given else books.journal.lines()),
                "periods": lambda: list(books.periods()),
                "disputes": lambda *_: list(books.dispute_table() if "--csv" in given else books.disputes()),
                "audit": lambda: list(Tables(books).audit()),
                "statement": statement,
                "details": lambda period, *_: of_period(books.details, books.details_table, period),
                "bill": bill,
                "focus": lambda period: self.of_office("focus", period),
                "coverage": lambda period, *_: self.of_office("coverage-table" if "--csv" in given else "coverage", period),
                "page": self.page,
                "adjustments": lambda period, *_: of_period(books.adjustments, books.adjustment_table, period)
                }.get(verb, lambda *words: self.command(verb, words))(*words)

    def act(self, kind, line, body):
        verb, *words = line.split()
        if verb == "row":
            self.begin(words[1:])
        elif verb == "dump":
            spelled = [part for text in body for part in text.split(";")[0].split()]
            self.dumps[words[0]] = dump_of(self.dumps, words[1:]) + bytes.fromhex("".join(spelled))
        elif verb == "text":
            self.texts[words[0]] = self.text(words[1:], body)
        elif self.books is None:
            raise NotKnown
        else:
            return (self.session if kind == ["commands"] else self.answer)(verb, words, body)
        return []

    def play(self, script):
        """The lines of a script with its answers made anew."""
        kind = []
        for line, body, _ in read(script):
            yield line
            yield from ("| " + one if one else "|" for one in body)
            if line.startswith("> "):
                kind = line.split()[3:] if line.startswith("> row ") else kind
                yield from self.act(kind, line[2:], body)


def played(data, script):
    """The lines of a script with its answers made anew. It names what the script of all samples names."""
    rows = Rows(data)
    list(rows.play((data / "samples.rows").read_text()))
    return rows.play(script)


def answered(data, name):
    """The same of a script that is there."""
    return played(data, (data / name).read_text())
