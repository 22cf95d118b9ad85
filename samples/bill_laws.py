#!/usr/bin/env python3
"""What holds of the bills of any books, and of their cost and usage and their coverage, tried by the rules of office.py on
random histories of imports, closes, choices, tariffs that come late, and, in two of three, an adoption of the second rule;
and of what takes back: works of which none counts, tariffs in the place of others, and credits. Some of the steps run on
another system. Two of three calls have a note.

    bill_laws.py HISTORIES CALLS [SCRIPT]   tries so many histories of so many calls: 400 of 60 take some minutes. With
                                            SCRIPT it also writes them there as rows, which ask after each ruling for the
                                            bills of each period and centre, and at the end for these as tables and pages,
                                            for cost and usage, for coverage, for the office's pages, for the journal and
                                            for some records, for tests_books to play

After each call: the steps and jobs of a bill are the rows of its centre's statement; what it comes to is that statement's
total with the centre's adjustments, without what is credited; of a work that is withheld nothing is charged; the centres'
bills come to the office's; each record that a period counts has its
price by a tariff that stands on the bill; what a bill says is reversed was charged by the period that it names; however
the disputes end, a centre is charged no less and no more for them than its bill says; and the bills of closed periods
stay as they were. Cost and usage is read by Python's csv: each row has the columns of FOCUS, moments, numbers and tags; the
rows cost what the bill says is owed, of the office and of each centre, those without a class what the statement comes to, and
the corrections what the adjustments do. Coverage counts the records of the statement, and has each day of the period with each
system."""
import collections
import copy
import csv
import datetime
import decimal
import hashlib
import io
import json
import pathlib
import sys

sys.dont_write_bytecode = True

import bill_pages
import history
import office
import pages


class Broken(Exception):
    """What does not hold."""


def holds(is_so, what):
    if not is_so:
        raise Broken(what)


def summed(rows):
    """Charge rows by their places."""
    sums = collections.defaultdict(lambda: [0, 0, 0, 0])
    for place, row in rows:
        sums[place] = [one + more for one, more in zip(sums[place], row)]
    return dict(sums)


def owed_before(parts):
    """What a bill comes to before its credits: cost and usage has none."""
    *charges, _ = parts
    return office.owed(*charges, 0)


def charged(books, period, centre=None):
    """What the statement and the adjustments of a period come to."""
    return (sum(sums[3] for _, sums in books.rows(period, centre))
            + sum(sign * one.amount for sign, one in books.lines(period, centre)))


def try_bill(books, period, centre):
    """The bill of one centre."""
    steps, jobs = books.work(period, centre)
    credited = sum(amount for _, amount, _ in books.credits_of(period, centre))
    holds(summed(steps + jobs) == summed(books.rows(period, centre)), "steps and jobs are the statement's rows")
    holds(owed_before(books.parts(period, centre)) == charged(books, period, centre), "parts come to what is charged")
    holds(office.owed(*books.parts(period, centre)) == charged(books, period, centre) - credited, "credits are taken off")
    for sign, one in books.lines(period, centre):
        named = books.of_which(period, sign, one)
        holds(named < period, "a line is about an earlier period")
        if sign < 0:
            holds(one.name in books.counted(named) or one.name in books.changes(named)[0], "what is reversed was charged")
        else:
            holds(books.before(named) < one.day <= books.closes[named - 1], "what came late is dated in its period")


def totals(rows):
    """What rows come to."""
    return [sum(sums[at] for _, sums in rows) for at in range(4)]


def try_rows(books, period, centre):
    """The rows of one centre's bill: each is worked out from what stands on the bill, and those by shift come to those by
    day."""
    for is_job, subtype in ((False, b"\0\4"), (True, b"\0\5")):
        by_shift, by_day = (books.work_rows(period, centre, is_job, by_tariff) for by_tariff in (True, False))
        holds(totals(by_shift) == totals(by_day), "sums by shift come to those by day")
        for (day, shift, percent), (count, cpu, blocks, amount) in by_shift + by_day:
            tariff = books.tariff_on(day)
            cpu_price, excp_price, record_price = tariff.prices(subtype)
            parts = (10 * cpu * cpu_price + blocks * excp_price + 1000 * count * record_price) * percent
            holds(tariff in books.tariffs_in(period) and (shift, percent) in tariff.percents(), "terms stand on the bill")
            holds(abs(parts - 100000 * amount) <= 50000 * count, "a row checks")


def try_booked(books, period, centres):
    """What the office and its centres book: each the nearest, and the office what they do together."""
    places = books.booked_decimals(period)
    unit, owed = 10 ** (4 - places), [office.owed(*books.parts(period, centre)) for centre in centres]
    units = [office.booked(one, places) for one in owed]
    holds(all(2 * abs(unit * one - of) <= unit for one, of in zip(units, owed)), "what is booked is the nearest")
    holds(2 * abs(unit * sum(units) - sum(owed)) <= unit * len(units), "so it is together")


def try_period(books, period, centres):
    """The bills of one period."""
    try_booked(books, period, centres)
    for centre in centres:
        try_rows(books, period, centre)
    for centre in centres:
        try_bill(books, period, centre)
    parts = [books.parts(period, centre) for centre in centres]
    holds([sum(column) for column in zip(*parts)] == books.parts(period), "centres come to the office")
    holds(owed_before(books.parts(period)) == charged(books, period), "the office is owed what is charged")
    tariffs = books.tariffs_in(period)
    holds(all(books.in_force(books.data[name]) in tariffs for name in books.counted(period)), "prices are by its tariffs")


def moment(text):
    """What a moment says, as a tool reads it."""
    return datetime.datetime.strptime(text, "%Y-%m-%dT%H:%M:%SZ")


def try_focus_row(row):
    """A row of cost and usage, by itself."""
    holds(None not in row and None not in row.values(), "a row has the columns of the heading")
    begins, ends = (moment(row["BillingPeriod" + word]) for word in ("Start", "End"))
    day, next_day = (moment(row["ChargePeriod" + word]) for word in ("Start", "End"))
    holds(begins < ends and next_day - day == datetime.timedelta(1), "no period is empty, and a charge is of one day")
    tags = json.loads(row["Tags"])
    holds(list(tags) == ["Shift", "Line"] and office.is_name(tags["Shift"]), "tags have a shift and the kind of line")
    costs = {row[cost] for cost in ("BilledCost", "EffectiveCost", "ContractedCost", "ListCost")}
    holds(len(costs) == 1, "there are no discounts")
    if row["ChargeClass"]:
        holds(row["ChargeClass"] == "Correction" and next_day <= begins, "a correction is of an earlier period")
        holds(tags["Line"] in ("PLUS", "MINUS") and not row["ConsumedQuantity"], "a correction says no quantity")
    else:
        holds(begins <= day and next_day <= ends and tags["Line"] == "CHARGE", "a charge is of a day of its period")
        holds(decimal.Decimal(row["ConsumedQuantity"]) >= 0, "a charge says how much was used")


def cost(rows):
    """What rows of cost and usage come to, in the unit of amounts."""
    return int(sum(decimal.Decimal(row["BilledCost"]) for row in rows) * 10000)


def try_focus(books, period, centres):
    """The cost and usage of a period, as a tool of finance reads it."""
    text = "".join(line + "\n" for line in books.focus(period))
    rows = list(csv.DictReader(io.StringIO(text, newline="")))
    for row in rows:
        try_focus_row(row)
    holds(cost(rows) == owed_before(books.parts(period)), "cost and usage is what the office is owed before credits")
    for centre in centres:
        of_centre = [row for row in rows if row["SubAccountId"] == centre]
        holds(cost(of_centre) == owed_before(books.parts(period, centre)), "cost and usage is what it owes before credits")
    charges, corrections = ([row for row in rows if bool(row["ChargeClass"]) == is_so] for is_so in (False, True))
    holds(cost(charges) == sum(sums[3] for _, sums in books.rows(period)), "charges cost what the statement says")
    holds(cost(corrections) == sum(sign * one.amount for sign, one in books.lines(period)),
          "corrections cost what the adjustments say")


def try_coverage(books, period):
    """The coverage of a period, as a list and as a table."""
    text = "".join(line + "\n" for line in books.coverage_table(period))
    rows = list(csv.DictReader(io.StringIO(text, newline="")))
    counts = [int(row["count"]) for row in rows]
    holds(sum(counts) == sum(sums[0] for _, sums in books.rows(period)), "coverage counts what the statement counts")
    holds(list(books.coverage(period))[-1] == "GAPS %d" % counts.count(0), "gaps are the rows without a record")
    days = [datetime.date.fromisoformat(row["day"]) for row in rows]
    systems = [row["system"] for row in rows if row["day"] == rows[0]["day"]]
    wanted = [(min(days) + datetime.timedelta(at), system)
              for at in range((max(days) - min(days)).days + 1 if days else 0) for system in systems]
    holds(list(zip(days, (row["system"] for row in rows))) == wanted, "each system stands once on each day, in order")
    if rows and period > 1:
        holds(days[0] == books.before(period) + datetime.timedelta(1), "a period begins after the close before")
    if rows and period < books.open:
        holds(days[-1] == books.closes[period - 1], "a closed period ends with its close")


def try_disputes(books, numbers, centres):
    """Ends each dispute by some choice."""
    after = copy.copy(books)
    after.choices = books.choices + [(members[numbers.below(len(members))].name, books.open)
                                     for _, members in books.disputed()]
    for centre in [None, *centres]:
        count, least, greatest = books.held_back(centre)
        more = charged(after, after.open, centre) - charged(books, books.open, centre)
        holds(least <= more <= greatest, "the ends of disputes are between the least and the greatest")
        holds(count > 0 or more == 0, "where there is no dispute there is no charge")


def try_withheld(books):
    """Of a work that is withheld nothing is charged."""
    withheld = books.withheld()
    counted = {books.identity(books.held[name]) for name in books.charged(books.open)}
    holds(not counted & withheld, "of a work that is withheld nothing is charged")


REASONS = "courier tape-lost ticket-4711,twice".split()

# What notes may say: persons, remarks and files; a dash is none.
PERSONS, REMARKS, FILES = ("meier", "huber", "-"), ("-", "-", 'ticket-4711,"twice"'), ("month.smf", "-")


class Tried(history.History):
    """A history of which each call is tried."""
    def __init__(self, sample, first, calls):
        super().__init__(sample, first)
        self.calls, self.stands = calls, {}
        self.adopted_at = None if first % 3 == 0 else self.numbers.below(calls)

    def name_dump(self, name, words):
        """Names a dump. Each third step that is new ran on system SYS1, which stands behind SYSA."""
        is_new = words.startswith("sample 72:")
        super().name_dump(name, words + " 14:E2E8E2F1" * (is_new and len(self.steps) % 3 == 0))

    def replacement_words(self):
        """A tariff of the first day of one that came before, with another price."""
        front, *rules = self.earlier(self.fronts).split()[1:]
        first_day, *_ = self.texts[front].splitlines(keepends=True)
        name = "u%d" % len(self.texts)
        self.name_text(name, first_day + "[rates]\nstep_cpu = %d\n" % (20000 + 1000 * self.numbers.below(3)))
        return " ".join(["replace", name, *rules])

    def credit_words(self):
        """A credit of the open period, or of the one before; now and then one that came before, and one below 0."""
        period, centres = self.books.open - (self.numbers.below(6) == 0), self.centres()
        return "credit %d %s %d %s" % (period, centres[self.numbers.below(len(centres))],
                                       [-30000, 12500, 12500, 1][self.numbers.below(4)], REASONS[self.numbers.below(3)])

    def words(self, turn):
        """One call in four takes something back."""
        if turn % 4 != 3 or not self.steps:
            return super().words(turn)
        kind = self.numbers.below(3)
        if kind == 0 and self.fronts:
            return self.replacement_words()
        return self.credit_words() if kind == 1 else "withhold " + self.earlier(self.steps)

    def answer(self, words):
        """The answer to a call."""
        verb, *rest = words.split()
        if verb == "replace":
            [answer] = self.books.replace("".join(self.texts[name] for name in rest).encode())
        elif verb == "credit":
            period, centre, amount, reason = rest
            [answer] = self.books.credit(int(period), centre, int(amount), reason)
        elif verb == "withhold":
            [answer] = self.books.withhold(self.name_of(*rest))
        else:
            return super().answer(words)
        self.came[" ".join([verb, *answer.removeprefix("chargectl: ").split()[:2]])] += 1
        return [answer]

    def noted(self, turn, words):
        """The answer to a call, and the call with its note, if it has one: the journal keeps it where something was done. The last
        record of an import with a note is kept, or none is: books in memory take one at a time, and count no later one there."""
        books, numbers = self.books, self.numbers
        seconds = 1706767200 + 60 * numbers.below(60 * turn + 1)
        note = [texts[numbers.below(len(texts))] for texts in (PERSONS, REMARKS, FILES)]
        before = list(books.rulings()), set(books.held)
        lines = list(self.answer(words))
        verb, *rest = words.split()
        dump = history.dump_of(self.dumps, rest) if verb == "import" else None
        kept = books.held.keys() - before[1]
        names = [hashlib.sha256(data).hexdigest() for data in office.joined(dump or b"")]
        if turn % 3 == 0 or kept and (names[-1] not in kept or names[-1] in names[:-1]):
            return words, lines
        time = datetime.datetime.fromtimestamp(seconds, datetime.timezone.utc).strftime("%Y-%m-%d %H:%M:%SZ")
        books.journal.after(before, books, lines, (*("" if text == "-" else text for text in note), time), dump)
        return " ".join(["noted", str(seconds), *note, words]), lines

    def ask_of_the_journal(self):
        """The journal, and the last records that came, with their entries."""
        self.ask("journal", self.books.journal.lines())
        self.ask("journal-table", self.books.journal.table())
        for name in self.steps[-6:]:
            [data] = office.joined(self.dumps[name])
            digest = hashlib.sha256(data).hexdigest()
            if digest in self.books.held:
                self.ask("record " + name, self.books.trail(digest))

    def centres(self):
        """All centres that some record or credit is of, and one that none is of."""
        held = {one.centre for one in self.books.held.values()}
        return sorted(held | {centre for _, centre, _, _ in self.books.credits}) + ["NOBODY"]

    def try_all(self):
        """The bills as they are now. Of a closed period's bill each text has to stay."""
        books, centres = self.books, self.centres()
        for period in range(1, books.open + 1):
            try_period(books, period, centres)
            try_focus(books, period, centres)
            try_coverage(books, period)
            charged_to = {centre for (_, centre, _), _ in books.rows(period)} | {one.centre for _, one in books.lines(period)}
            holds(all(books.has_centre(period, centre) for centre in charged_to),
                  "a centre that a period has rows or lines of is there in it")
            if period < books.open:
                for centre in [None, *centres]:
                    texts = [*books.bill(period, centre), *books.bill_table(period, centre)]
                    texts += [*books.focus(period), *books.coverage(period)] * (centre is None)
                    holds(self.stands.setdefault((period, centre), texts) == texts, "a closed period's bill stays")
        try_withheld(books)
        try_disputes(books, self.numbers, centres)

    def bill_page(self, period, centre=None):
        return bill_pages.bill_page(self.books, period, centre).splitlines()

    def ask_bills_of_all(self, *forms):
        """Each bill in these forms, as rows ask for it: of each centre, also of those that a period has nothing of."""
        made = {"bill": self.books.bill, "bill-table": self.books.bill_table, "bill-page": self.bill_page}
        for period in range(1, self.books.open + 1):
            for centre in [None, *self.centres()]:
                place = " ".join([str(period)] + [centre] * (centre is not None))
                for form in forms:
                    self.ask(form + " " + place, self.books.of_period(made[form], period, centre))

    def ask_of_all_periods(self):
        """Each bill, each table of cost and usage, each coverage, and each page."""
        self.ask_bills_of_all("bill", "bill-table", "bill-page")
        for period in range(1, self.books.open + 2):
            self.ask_of_office(period)
        self.ask("office-page", pages.office_page(self.books).splitlines())
        for period in range(1, self.books.open + 1):
            self.ask("page %d" % period, pages.period_page(self.books, period).splitlines())

    def play_all(self):
        for turn in range(self.calls):
            words = "adopt 2" if turn == self.adopted_at else self.words(turn)
            words, answer = self.noted(turn, words)
            self.ask(words, answer)
            self.try_all()
            if answer == ["DONE"]:
                self.ask_bills_of_all("bill")
        self.ask_of_all_periods()
        self.ask_of_the_journal()


def main(histories, calls, script=None):
    sample = (pathlib.Path(__file__).parent / "one-step.smf").read_bytes()
    lines, came = [], collections.Counter()
    for first in range(1, int(histories) + 1):
        made = Tried(sample, first, int(calls))
        for name, words in history.UNHELD:
            made.name_dump(name, words)
        for name, text in history.TEXTS.items():
            made.name_text(name, text)
        made.lines += ["", "> row history_%d new" % first]
        try:
            made.play_all()
        except Broken as broken:
            sys.exit("history %d, after %s: %s" % (first, made.lines[-2:], broken))
        lines, came = lines + made.lines, came + made.came
    for kind, number in sorted(came.items()):
        print("%7d %s" % (number, kind))
    if script:
        pathlib.Path(script).write_text("".join(line + "\n" for line in lines))
    print("%s histories of %s calls: each law held" % (histories, calls))


if __name__ == "__main__":
    if len(sys.argv) not in (3, 4):
        sys.exit(__doc__)
    main(*sys.argv[1:])
