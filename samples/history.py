"""A long history of books as a script of rows: each command, the answer to it, and the texts of the books that it
changed, by the rules of office.py. The commands are made by arithmetic alone, so the history is the same each time.
It fails where a kind of record or of answer did not come that a history may have."""
import collections
import datetime
import hashlib
import re
import struct

import office
from rows import dump_of, served

TURNS = 330

# The turn at which the second rule of identity is adopted, and those at which that or the first one is asked for
# otherwise.
ADOPTED, ADOPTIONS = 200, {60: 1, 141: 1, 222: 1, 255: 2, 282: 1, 312: 2}

# The time of initiation of a second run of a step, and of a third; that of the first is 002BDA90.
LATER_STARTS = 0x2BDA91, 0x2BDA92
LAST_OF_2023 = datetime.date(2023, 12, 31)

# The name of a job, the hour at which it runs, and its accounting fields.
JOBS = (("PAYROLL1", 8, ()), ("PAYROLL2", 20, ()), ("LEDGER07", 8, ()), ("TESTRUN", 3, ("", "ABCD")))

# Records that no books hold, by their parts.
UNHELD = (("dump_header", "sample/0..18 0:0012 5:02"), ("dump_trailer", "sample/0..18 0:0012 5:03"),
          ("data_lost", "sample/0..18 0:0012 5:07"), ("job_begins", "sample 22:0001"),
          ("step_goes_on", "sample 62:0000"), ("cut_short", "sample/0..150 0:0096"))


def table(kind, **terms):
    """An entry of a tariff file."""
    shown = ("%s = %s\n" % (key, '"%s"' % term if isinstance(term, str) else term) for key, term in terms.items())
    return "[[%s]]\n" % kind + "".join(shown)


WORKING_DAYS, ALL_DAYS = [1, 2, 3, 4, 5], [1, 2, 3, 4, 5, 6, 7]
EVENING = {"from": "18:00", "to": "24:00", "percent": 50}

# What stands after the day of a tariff file and its price of CPU time.
TEXTS = {
    "free_jobs": "step_excp = 500\nstep_record = 0\njob_cpu = 0\njob_excp = 0\njob_record = 0\n",
    "paid_jobs": "step_excp = 333\nstep_record = 100\njob_cpu = 0\njob_excp = 0\njob_record = 2500\n",
    "evenings": table("shift", name="NIGHT", days=WORKING_DAYS, **EVENING),
    "nights": table("shift", name="NIGHT", days=ALL_DAYS, **{"from": "00:00", "to": "06:00", "percent": 50}),
    "weekends": table("shift", name="WEEKEND", days=[6, 7], **{"from": "06:00", "to": "24:00", "percent": 25}),
    "by_job": table("centre", name="PAYROLL", job="PAY") + table("centre", name="ACCOUNTS", job="LEDGER"),
    "by_field": table("centre", name="AUDIT", account=2, prefix="AB") + table("centre", name="PAYROLL", job="PAYROLL1"),
    "no_fee": "step_excp = 500\njob_cpu = 0\n",
    "below_zero": "step_excp = 500\nstep_record = 0\njob_cpu = -1\n",
    "no_toml": "step_excp = 500 500\n",
    "no_name": table("shift", name="by night", days=WORKING_DAYS, **EVENING),
    "other_nights": table("shift", name="NIGHT", days=[6, 7], **{"from": "18:00", "to": "24:00", "percent": 60})}

# What stands between them, of one tariff after the other, for the heads of bills.
LETTERHEADS = ("", 'office = "Nord"\n', 'currency = "EUR"\noffice = "Computing centre"\n', 'office = ""\ncurrency = 7\n')

# Two that are rules, and five that no tariff has.
RULES = ("free_jobs evenings by_job", "paid_jobs nights weekends by_field", "no_fee", "below_zero", "no_toml",
         "free_jobs no_name", "free_jobs evenings other_nights by_job")

# A tariff by which it is asked what periods would have cost, and which is never handed in: it begins later than any
# record, at prices, and with shifts and centres, that none of the others has together.
OTHER_PRICES = ("next_year", 'effective = "2025-01-01"\n[rates]\nstep_cpu = 30000\n'), "paid_jobs nights by_job"

# What has to come, each of it more than once.
NEEDED = ["import " + kind for kind in (
    "repeated", "unpriced", "in time", "late", "variant", "variant of a late record", "variant of a posted record",
    "later variant of a posted record", "third variant", "variant after a choice", "other")]
NEEDED += ["tariff " + answer for answer in (
    "DONE", "ALREADY", "ledger 6", "ledger 7", "that changed prices", "that changed prices in dispute", "tariff 1",
    "tariff 2 step_record", "tariff 3 job_cpu", "tariff 4", "tariff 5")]
NEEDED += ["close " + answer for answer in ("DONE", "ALREADY", "ledger 9", "ledger 10", "that moved rows")]
NEEDED += ["choose " + answer for answer in (
    "DONE", "ALREADY", "ledger 12", "ledger 13", "a posted record", "a late record", "a record in time",
    "in place of a posted record", "in place of a late record", "in place of a record in time")]
NEEDED += ["adopt " + answer for answer in (
    "ALREADY", "ledger 14", "set free a posted record", "set free a late record", "set free a record in time",
    "set free by an older choice", "a choice that is alone", "left in dispute")]
NEEDED += ["import under the second rule " + kind for kind in (
    "a run of its own", "variant after a choice that was alone", "variant", "variant of a posted record")]


class Numbers:
    """Numbers in no order that can be seen: each follows from the one before."""
    def __init__(self, first):
        self.state = first

    def below(self, limit):
        self.state = (self.state * 1664525 + 1013904223) % 2**32
        return (self.state >> 16) % limit


def packed(day):
    """A day of 2024 by its number, as a record has it."""
    return "0124%03dF" % day


def day_of(day):
    return LAST_OF_2023 + datetime.timedelta(day)


def step_parts(numbers, today):
    """The parts of a record of about a day, whose number is that of the step; now and then it is dated later."""
    name, hour, fields = JOBS[numbers.below(len(JOBS))]
    step = max(1, today - numbers.below(40 if numbers.below(8) == 0 else 7))
    dated = step + (9 + numbers.below(12) if numbers.below(10) == 0 else 0)
    tcb, blocks = 1200 + step * 37 % 500, step * 613 % 9001
    parts = ["sample", "72:" + name.ljust(8).encode("cp037").hex().upper(), "6:%08X" % (hour * 360000),
             "10:" + packed(dated), "160:%08X 148:%08X" % (tcb, blocks),
             "22:0005 140:" + packed(step) if numbers.below(12) == 0 else "112:%04X" % step]
    if fields:
        texts = b"".join(struct.pack("B", len(field)) + field.encode("cp037") for field in fields)
        parts.append("0:%04X 64:000000A8 70:%04X x:%s" % (168 + len(texts), len(fields), texts.hex().upper()))
    return " ".join(parts)


class History:
    def __init__(self, sample, first=2118):
        self.books, self.numbers = office.Books(), Numbers(first)
        self.dumps, self.steps, self.texts, self.fronts = {"sample": sample}, [], dict(TEXTS), []
        self.lines, self.shown, self.came = [], {}, collections.Counter()

    def ask(self, words, answer, body=()):
        self.lines += ["> " + words] + ["| " + line for line in body] + list(answer)

    def name_dump(self, name, words):
        self.ask("dump %s %s" % (name, words), ())
        self.dumps[name] = dump_of(self.dumps, words.split())

    def name_text(self, name, text):
        self.ask("text " + name, (), text.splitlines())
        self.texts[name] = text

    def earlier(self, names):
        """One of the last few."""
        return names[-1 - self.numbers.below(min(12, len(names)))]

    def variant_parts(self, today):
        """A step that was handed in before: measured otherwise, dated today, or run once more."""
        change, kind = "160:%08X" % (1101 + self.numbers.below(3)), self.numbers.below(4)
        if kind == 0:
            change = "10:" + packed(today)
        elif kind == 1:
            change += " 128:%08X" % LATER_STARTS[self.numbers.below(2)]
        steps = self.numbers.below(4) == 0 and self.contradicted()[-4:] or self.steps
        return "%s %s" % (self.earlier(steps), change)

    def step(self, today):
        """The name of a step that was handed in before, or of a new one, or of a variant of one."""
        kind = self.numbers.below(10) if self.steps else 9
        if kind < 2:
            return self.earlier(self.steps)
        name = "r%d" % len(self.steps)
        self.name_dump(name, self.variant_parts(today) if kind == 2 else step_parts(self.numbers, today))
        self.steps.append(name)
        return name

    def import_words(self, today):
        """A dump of one step or two, and now and then of a record that no books hold."""
        names = [self.step(today) for _ in range(1 + self.numbers.below(2))]
        if self.numbers.below(6) == 0:
            names.append(UNHELD[self.numbers.below(len(UNHELD))][0])
        return "import " + " ".join(names)

    def tariff_words(self, today):
        """A tariff from a day on whose number ends in 0, or one that came before; now and then a file that is none."""
        if self.fronts and self.numbers.below(5) == 0:
            return self.earlier(self.fronts)
        first = (today + self.numbers.below(15)) // 10 * 10
        rules = RULES[self.numbers.below(2) if self.numbers.below(3) else 2 + self.numbers.below(5)]
        front = "t%d" % len(self.fronts)
        self.name_text(front, 'effective = "%s"\n%s[rates]\nstep_cpu = %d\n'
                       % (day_of(first), LETTERHEADS[len(self.fronts) % len(LETTERHEADS)],
                          20000 + 5000 * self.numbers.below(2)))
        self.fronts.append("tariff %s %s" % (front, rules))
        return self.fronts[-1]

    def close_words(self, today):
        """A close of the open period, or one that is out of turn."""
        closes, kind = self.books.closes, self.numbers.below(7)
        last = closes[-1] if closes else LAST_OF_2023
        period, through = self.books.open, day_of(today - self.numbers.below(6))
        if kind == 0:
            period, through = len(closes), last
        elif kind == 1:
            period, through = len(closes), last + datetime.timedelta(1)
        elif kind == 2:
            through = last - datetime.timedelta(self.numbers.below(2))
        return "close %d %s" % (period, through)

    def choice_words(self):
        """A choice among the last records that contradict each other; now and then of any, or of what no books hold."""
        if self.numbers.below(8) == 0:
            return "choose " + UNHELD[self.numbers.below(len(UNHELD))][0]
        if self.numbers.below(4) == 0:
            return "choose " + self.earlier(self.steps)
        return "choose " + self.earlier(self.contradicted()[-4:] or self.steps)

    def step_of(self, name, words):
        """Names a step."""
        self.name_dump(name, words)
        self.steps.append(name)

    def runs(self, numbers, day):
        """Names steps of a day that ran twice, and for each run a record that contradicts it."""
        for number in numbers:
            name = "run%d" % number
            self.step_of(name, "sample 112:%04X 10:%s" % (number, packed(day)))
            self.step_of(name + "_other", name + " 160:00000501")
            self.step_of(name + "_again", name + " 128:%08X 160:00000502" % LATER_STARTS[0])
            self.step_of(name + "_again_other", name + "_again 160:00000503")

    def around_the_adoption(self, today):
        """The commands of a day on which steps that ran twice come before a close and after it, and some are chosen;
        then the second rule is adopted, and more of them come."""
        self.runs(range(801, 811), today)
        self.runs(range(811, 814), today + 1)
        yield "import run801 run802 run803 run804 run805 run806"
        yield "import run803_other run803_again run804_other run804_again"
        yield from ("choose run803", "choose run804")
        yield "close %d %s" % (self.books.open, day_of(today))
        yield from ("choose run803_again", "choose run804_again", "choose run803", "choose run804")
        yield from ("choose run803_again", "choose run804_again")
        yield "import run801_again run802_again run807 run808 run807_again run808_again run809 run809_other"
        yield "import run811 run812 run811_again run812_again run813 run813_other"
        yield from ("choose run813_other", "choose run813")
        yield "adopt 2"
        yield "import run803_again_other run804_again_other run805_again run806_again"
        yield "choose run803_again_other"
        yield "import run805_other run806_other run811_other run812_again_other"
        yield from ("choose run801", "choose run804_again", "choose run812_again")

    def words(self, turn):
        """The command of a turn. A day has two turns; the first command is a tariff."""
        today, kind = 8 + turn // 2, self.numbers.below(16)
        if turn == 0:
            self.name_text("t0", 'effective = "2024-01-05"\n[rates]\nstep_cpu = 20000\n')
            self.fronts.append("tariff t0 " + RULES[0])
            return self.fronts[0]
        if turn in ADOPTIONS:
            return "adopt %d" % ADOPTIONS[turn]
        if kind < 2:
            return self.tariff_words(today)
        if kind < 4:
            return self.close_words(today)
        return self.choice_words() if kind < 6 and self.steps else self.import_words(today)

    def name_of(self, dump):
        """The name of the one record of a dump."""
        [data] = office.joined(self.dumps[dump])
        return hashlib.sha256(data).hexdigest()

    def contradicted(self):
        """The steps that others contradict."""
        names = ((step, self.name_of(step)) for step in self.steps)
        return [step for step, name in names if name in self.books.held and self.books.rivals(name)]

    def kind_of(self, data):
        """What a record is to the books before they take it."""
        if office.kind_of(data) != "USAGE":
            return "other"
        books, record = self.books, self.books.priced(data)
        if record is None or record.name in books.held:
            return "unpriced" if record is None else "repeated"
        others = [held for held in books.held.values() if books.identity(held) == books.identity(record)]
        is_late, posted = record.day <= books.before(books.open), books.posted()
        if books.identity(record) in books.chosen():
            return "variant after a choice" + (" that was alone" if len(others) == 1 else "")
        if len(others) != 1:
            runs = [held for held in books.held.values() if held.identity[:24] == record.identity[:24]]
            return "third variant" if others else "a run of its own" if runs else "late" if is_late else "in time"
        if others[0].name in posted:
            return "variant of a posted record" if is_late else "later variant of a posted record"
        return "variant of a late record" if others[0].day <= books.before(books.open) else "variant"

    def take_one(self, data):
        kind = self.kind_of(data)
        self.came["import " + kind] += 1
        self.came["import under the second rule " + kind] += self.books.rule == 2
        return self.books.take_one(data)

    def close(self, period, through):
        charged = [self.books.held[name].day for name in self.books.undisputed()]
        answer = self.books.close(int(period), datetime.date.fromisoformat(through))
        if answer == ["DONE"] and any(day > self.books.closes[-1] for day in charged):
            self.came["close that moved rows"] += 1
        return answer

    def tariff(self, text):
        before, charged = dict(self.books.held), self.books.undisputed()
        answer = self.books.tariff(text.encode())
        changed = {name for name, record in before.items() if self.books.held[name] != record}
        self.came["tariff that changed prices"] += bool(changed)
        self.came["tariff that changed prices in dispute"] += bool(changed - charged)
        return answer

    def standing(self, name):
        """What a held record is to the open period."""
        books = self.books
        if name in books.posted():
            return "a posted record"
        return "a late record" if books.held[name].day <= books.before(books.open) else "a record in time"

    def choose(self, dump):
        name, charged = self.name_of(dump), self.books.undisputed()
        answer = self.books.choose(name)
        if answer == ["DONE"]:
            self.came["choose " + self.standing(name)] += 1
            for other in self.books.rivals(name) & charged:
                self.came["choose in place of " + self.standing(other)] += 1
        return answer

    def adopt(self, rule):
        books, charged = self.books, self.books.undisputed()
        was_chosen, answer = set(books.chosen().values()), books.adopt(rule)
        if answer == ["DONE"]:
            chosen = set(books.chosen().values())
            for name in books.undisputed() - charged:
                self.came["adopt set free " + self.standing(name)] += 1
                self.came["adopt set free by an older choice"] += name in chosen - was_chosen
            self.came["adopt a choice that is alone"] += sum(not books.rivals(name) for name in chosen)
            self.came["adopt left in dispute"] += len(books.held) - len(books.undisputed())
        return answer

    def answer(self, words):
        """The answer to a command."""
        verb, *rest = words.split()
        if verb == "import":
            dump = dump_of(self.dumps, rest)
            return [office.receipt(self.take_one(data) for data in office.joined(dump))]
        if verb == "close":
            answer = self.close(*rest)
        elif verb == "choose":
            answer = self.choose(*rest)
        elif verb == "adopt":
            answer = self.adopt(int(*rest))
        else:
            answer = self.tariff("".join(self.texts[name] for name in rest))
        self.came["%s %s" % (verb, re.sub("chargectl: |(?<=ledger 9) .*", "", answer[0]))] += 1
        return answer

    def changes(self):
        """Each text of the books that is not as it was shown last."""
        texts = office.texts(self.books)
        changed = [line for text, lines in texts.items() if self.shown.get(text) != lines for line in lines]
        self.shown = texts
        return changed

    def ask_what_if(self, verb, period):
        """Asks what a period would have cost by other prices."""
        (front, text), rules = OTHER_PRICES
        file = (text + "".join(self.texts[name] for name in rules.split())).encode()
        words = "%s %d %s %s" % (verb, period, front, rules)
        self.ask(words, self.books.what_if(file, period, as_table=verb == "what-if-table"))

    def ask_bills(self, period):
        """Asks for the bills of a period: the office's, and that of each centre that has rows or lines in it."""
        books = self.books
        self.ask("bill %d" % period, books.of_period(books.bill, period))
        for centre, _ in books.billed(period) if 0 < period <= books.open else ():
            self.ask("bill %d %s" % (period, centre), books.of_period(books.bill, period, centre))

    def ask_bill_tables(self, period):
        """Asks for the same as comma-separated values."""
        books = self.books
        self.ask("bill-table %d" % period, books.of_period(books.bill_table, period))
        for centre, _ in books.billed(period) if 0 < period <= books.open else ():
            self.ask("bill-table %d %s" % (period, centre), books.of_period(books.bill_table, period, centre))

    def ask_of_office(self, period):
        """Asks for the table of cost and usage of a period, and for its coverage."""
        books = self.books
        self.ask("focus %d" % period, books.of_period(books.focus, period))
        self.ask("coverage %d" % period, books.of_period(books.coverage, period))
        self.ask("coverage-table %d" % period, books.of_period(books.coverage_table, period))

    def ask_more(self, turn):
        """Asks for a table, and of periods that are not there; what some would have cost; and for the details of one, its
        bills, its cost and usage, and its coverage."""
        books, later = self.books, self.books.open + 1
        for period in (max(1, books.open - 1), 0, later):
            self.ask("table %d" % period, books.of_period(books.table, period))
        self.ask("statement %d" % later, books.of_period(books.statement, later))
        self.ask("adjustments 0", books.of_period(books.adjustments, 0))
        for period in sorted({1 + turn // 10 % books.open, max(1, books.open - 1)}):
            self.ask_what_if("what-if", period)
        period = 1 + turn // 10 % books.open
        self.ask("details %d" % period, books.of_period(books.details, period))
        self.ask_bills(period)
        self.ask_of_office(period)

    def ask_trail(self, turn):
        """Asks for the trail of one of the steps that were named so far, whether or not it is held."""
        step = self.steps[7 * turn % len(self.steps)]
        self.ask("record " + step, self.books.trail(self.name_of(step)))

    def ask_lists(self):
        """Asks by requests for the rulings, for each tariff's file, and for the lists as comma-separated values; what
        each period would have cost, its details and its bills; and for the trails of the steps that were named last."""
        books = self.books
        self.ask("get /rulings", served(200, list(books.rulings())))
        for tariff in books.tariffs:
            self.ask("get /tariff/%s" % tariff.effective, served(200, tariff.file, charset="utf-8"))
        for period in range(1, books.open + 1):
            self.ask("get /adjustments-csv/%d" % period, served(200, list(books.adjustment_table(period)), "csv"))
        self.ask("get /disputes-csv", served(200, list(books.dispute_table()), "csv"))
        for period in range(0, books.open + 2):
            self.ask_what_if("what-if-table", period)
            self.ask("details-table %d" % period, books.of_period(books.details_table, period))
            self.ask_bill_tables(period)
        for step in self.steps[-40:]:
            self.ask("record " + step, books.trail(self.name_of(step)))

    def ask_books(self, words, answer, body=()):
        """A command, or a list of some, and what changed."""
        self.ask(words, answer, body)
        self.ask("changes", self.changes())

    def play(self, turn):
        """One command, or now and then a list of some; those around the adoption one by one."""
        if turn == ADOPTED:
            for words in self.around_the_adoption(8 + turn // 2):
                self.ask_books(words, self.answer(words))
        elif turn % 9 == 8:
            commands = [self.words(turn) for _ in range(2 + self.numbers.below(3))]
            self.ask_books("list", [line for words in commands for line in self.answer(words)], commands)
        else:
            words = self.words(turn)
            self.ask_books(words, self.answer(words))
        if turn % 10 == 9:
            self.ask_more(turn)
        if turn % 4 == 3:
            self.ask_trail(turn)
        if turn == TURNS - 1:
            for period in range(1, self.books.open + 2):
                self.ask_bills(period)
                self.ask_of_office(period)


def history(sample):
    """The lines of the script. The record of the worked rows is named there already."""
    made = History(sample)
    made.lines += ["# A long history, made by samples/make: commands, the answers to them, and the texts that changed."]
    for name, words in UNHELD:
        made.name_dump(name, words)
    for name, text in TEXTS.items():
        made.name_text(name, text)
    made.name_text(*OTHER_PRICES[0])
    made.lines += ["", "> row long_history new"]
    for turn in range(TURNS):
        made.play(turn)
        if turn in (ADOPTED - 1, TURNS - 1):
            made.ask_lists()
    missing = [kind for kind in NEEDED if made.came[kind] < 2]
    if missing:
        raise ValueError("what did not come twice: " + ", ".join(missing))
    return made.lines
