"""The office's rules once more, apart from the program: what its commands print of a dump, of a tariff file, of a
close, of choices among records in dispute, of the second rule of identity, and as each report. `samples/make` writes
by it what a month of commands has to print, history.py the answers to a long history, rows.py those to worked rows and
the rows of their tables, and pages.py the pages of books; `samples/recompute` recomputes the reports of any books. Only
what these need is here: no dump is torn, no books are full, though by another tariff a period may cost more than they
hold, and six faults of a tariff file are known."""
import collections
import copy
import datetime
import hashlib
import json
import re
import struct
import tomllib

Record = collections.namedtuple(
    "Record", "name identity day time job centre shift cpu blocks amount code job_id program")
ADJUSTMENT_COLUMNS = "period,action,day,centre,shift,amount,name,job"
STATEMENT_COLUMNS = "period,day,centre,shift,count,cpu,blocks,"
DETAIL_COLUMNS = "period,day,centre,shift,time,job,program,jobid,step,cpu,blocks,amount,name"
BILL_COLUMNS = "period,day,centre,shift,kind,count,cpu,blocks,amount,of_period,name,job,program,jobid,step,percent"
OFFICE_BILL_COLUMNS = "period,centre,steps,jobs,late,reversed,owed,booked,credits"
COVERAGE_COLUMNS = "period,day,system,count,first,last"
# The columns of FOCUS 1.0 that have something to say of a period, by their public names.
FOCUS_COLUMNS = (
    "BillingAccountId,BillingAccountName,InvoiceIssuerName,ProviderName,PublisherName,BillingCurrency,BillingPeriodStart,"
    "BillingPeriodEnd,ServiceCategory,ServiceName,SubAccountId,SubAccountName,ChargePeriodStart,ChargePeriodEnd,"
    "ChargeCategory,ChargeClass,ChargeFrequency,ChargeDescription,ConsumedQuantity,ConsumedUnit,PricingQuantity,"
    "PricingUnit,BilledCost,EffectiveCost,ContractedCost,ListCost,Tags")
DISPUTE_COLUMNS = ("dispute,system,job,reader,initiation,subtype,step,name,day,cpu,blocks,amount,completion,jobid,"
                   "program")
EPOCH = datetime.date(1970, 1, 1)
# The last day that books know, and how far it is to the next one.
LAST_DAY, A_DAY = datetime.date(2099, 12, 31), datetime.timedelta(1)
RATES = ["%s_%s" % (kind, unit) for kind in ("step", "job") for unit in ("cpu", "excp", "record")]
MEMORY, FULL = 1, 4
(TARIFF_DATE, TARIFF_EXISTS, _, WRONG_PERIOD, NOT_LATER, NO_SUCH_PERIOD, NO_SUCH_RECORD, NOT_DISPUTED,
 OLD_RULE) = range(6, 15)
NO_SUCH_TARIFF, NO_SUCH_CENTRE = 19, 20
# The most that all records of books may cost together.
MOST_COST = 4000000000000000000
# The most bytes that a tariff file has.
MOST_TARIFF = 1048576
ACTIONS = {1: "PLUS", -1: "MINUS"}
# A day is far after what books hold, where it is later than the newest day by more days than a leap year has; the last day of a
# period, where it is later than the newest record by more than a week.
FAR_DAYS, NEAR_DAYS = 366, 7
# How many bytes say whose work a record measures, by the first rule of identity and by the second.
IDENTITY_LENGTHS = {1: 24, 2: 32}
# The bytes of code page 037 that are shown as characters: printable ASCII without the backslash.
SHOWN = {chr(code).encode("cp037")[0]: chr(code) for code in range(32, 127) if chr(code) != "\\"}


def refused(fault, *more):
    """The line of a refusal by the books."""
    return [" ".join(["chargectl: ledger"] + [str(number) for number in (fault,) + more])]


def joined(dump):
    """The joined records of a dump of segments, without their descriptors."""
    at, parts = 0, []
    while at < len(dump):
        length, kind = struct.unpack_from(">HB", dump, at)
        parts.append(dump[at + 4:at + length])
        at += length
        if kind & 3 in (0, 2):
            yield b"".join(parts)
            parts = []


def kind_of(data):
    """What the receipt counts a record as."""
    if data[1] != 30:
        return {2: "HEADERS", 3: "TRAILERS", 7: "LOST"}.get(data[1], "OTHER")
    if struct.unpack_from(">H", data, 18)[0] not in (4, 5):
        return "OTHER"
    places = [struct.unpack_from(">IHH", data, at - 4) for at in (32, 40, 48, 56)]
    if places[3][2] == 0:
        return "CONTINUED"
    fits = all(number == 0 or offset + length <= len(data) + 4 for offset, length, number in places)
    return "USAGE" if fits else "DAMAGED"


def receipt(kinds, stop="END"):
    """The line of an import whose records were counted as these, up to its stop."""
    counts = collections.Counter(kinds)
    words = "KEPT KNOWN UNPRICED OTHER HEADERS TRAILERS LOST CONTINUED DAMAGED".split()
    return " ".join("%s %d" % (word, counts[word]) for word in words) + " STOP " + stop


def text(field):
    """As it is shown: without blanks at its end, and bytes that are no such characters in hexadecimal."""
    return "".join(SHOWN.get(byte, "\\%02X" % byte) for byte in field.rstrip(b"\x40"))


def moment(word, field):
    """A word, and a time and a date in digits."""
    return "%s %s %s" % (word, field[:4].hex().upper(), field[4:].hex().upper())


def packed_day(packed):
    """The day of a packed date, if it is one: 0cyydddF, of which the sign may be C too."""
    digits = re.fullmatch("0([01])([0-9]{2})([0-9]{3})[cf]", packed.hex())
    if digits is None:
        return None
    century, year, number = map(int, digits.groups())
    day = datetime.date(1900 + 100 * century + year, 1, 1) + datetime.timedelta(number - 1)
    return day if number > 0 and day.year == 1900 + 100 * century + year else None


def time_of_day(hundredths):
    return "%02d:%02d:%02d.%02d" % (
        hundredths // 360000, hundredths // 6000 % 60, hundredths // 100 % 60, hundredths % 100)


def ends(times):
    """The first and the last of some times of day, if there are any."""
    return (time_of_day(min(times)), time_of_day(max(times))) if times else ("-", "-")


def clock(field):
    """A time and a date as people write them; where there is no such time or day, in digits."""
    hundredths, day = int.from_bytes(field[:4], "big"), packed_day(field[4:])
    if hundredths >= 8640000 or day is None:
        return "%s %s" % (field[:4].hex().upper(), field[4:].hex().upper())
    return "%s %s" % (day, time_of_day(hundredths))


def midnight(day, later=0):
    """The moment at which a day begins, or one that is so many days later."""
    return "%sT00:00:00Z" % (day + later * A_DAY)


def comma_line(*fields):
    """A line of comma-separated values: in quotes what has a comma, a quote or a line's end, its quotes doubled."""
    shown = [str(field) for field in fields]
    return ",".join('"%s"' % one.replace('"', '""') if re.search('[,"\r\n]', one) else one for one in shown)


def day_of(packed):
    return datetime.date(1900 + 100 * (packed[0] & 15) + int("%02x" % packed[1]), 1, 1) + datetime.timedelta(
        int(packed[2:].hex()[:3]) - 1)


def framed(data):
    """The record: all offsets count from its descriptor."""
    return struct.pack(">HH", len(data) + 4, 0) + data


def section(record, at):
    """The first section that the triplet there names; nothing where it counts none."""
    offset, length, number = struct.unpack_from(">IHH", record, at)
    return record[offset:offset + length] if number else b""


def fields_of(record):
    """The accounting fields."""
    at, _, number = struct.unpack_from(">IHH", record, 64)
    for _ in range(number):
        yield record[at + 1:at + 1 + record[at]]
        at += 1 + record[at]


def is_name(text):
    """It can name a centre or a shift."""
    return re.fullmatch("[A-Z0-9-]{1,16}", text) is not None


def fault_of(file):
    """The number of what is wrong with a tariff file, and the key, if it is one of these: too many bytes, no TOML, a key
    of its front that is not there, a price out of its range, a shift that has no name, shifts of one name with two
    percents."""
    if len(file) > MOST_TARIFF:
        return "6"
    try:
        terms = tomllib.loads(file.decode())
    except (tomllib.TOMLDecodeError, UnicodeDecodeError):
        return "1"
    if "effective" not in terms or "rates" not in terms:
        return "2 effective" if "effective" not in terms else "2 rates"
    for key in RATES:
        if not 0 <= terms["rates"].get(key, -1) <= 100000000:
            return "%d %s" % (3 if key in terms["rates"] else 2, key)
    shifts = [(shift["name"], shift["percent"]) for shift in terms.get("shift", ())]
    if not all(is_name(name) for name, _ in shifts):
        return "4"
    return "5" if len(dict(shifts)) < len(set(shifts)) else None


class Tariff:
    def __init__(self, file):
        self.file, self.terms = file, tomllib.loads(file.decode())
        self.effective = datetime.date.fromisoformat(self.terms["effective"])

    def shift_rule(self, weekday, minute):
        """The number of the first shift rule that has the minute of the weekday, from 1, and the rule; None and BASE where
        none has it."""
        def of(clock):
            return 60 * int(clock[:2]) + int(clock[3:])
        for number, shift in enumerate(self.terms.get("shift", ()), 1):
            if weekday in shift["days"] and of(shift["from"]) <= minute < of(shift["to"]):
                return number, shift
        return None, {"name": "BASE", "percent": 100}

    def centre_rule(self, job, fields):
        """The number of the first centre rule that applies, from 1, and its centre; None and UNASSIGNED where none does. A
        rule goes by the bytes of a field, blanks at its end among them."""
        for number, centre in enumerate(self.terms.get("centre", ()), 1):
            at = centre.get("account", 0)
            field = job if at == 0 else fields[at - 1] if at <= len(fields) else None
            if field is not None and field.startswith(centre["prefix" if at else "job"].encode("cp037")):
                return number, centre["name"]
        return None, "UNASSIGNED"

    def prices(self, subtype):
        """What a second of CPU time, 1,000 blocks and a record cost, of a step's end or of a job's end."""
        prefix = "step" if subtype == b"\0\4" else "job"
        return [self.terms["rates"]["%s_%s" % (prefix, unit)] for unit in ("cpu", "excp", "record")]

    def prices_of(self, subtype):
        """What a record, a second of CPU time and 1,000 blocks cost, as a bill shows it."""
        cpu, excp, record = (decimals(price, 4) for price in self.prices(subtype))
        return record, cpu, excp

    def percents(self):
        """Its shifts with their percents, and BASE, each once and by name."""
        return sorted({("BASE", 100)} | {(shift["name"], shift["percent"]) for shift in self.terms.get("shift", ())})

    def booked_decimals(self):
        """How many decimals are booked: 0 to 4, or else 2."""
        said = self.terms.get("decimals")
        return said if type(said) is int and 0 <= said <= 4 else 2

    def letterhead(self, key):
        """Whose bills are made by it, for the key `office`, or of which money, for `currency`: where that is a text of 1 to 40
        characters of printable ASCII, or else an empty one."""
        shown = self.terms.get(key)
        return shown if isinstance(shown, str) and re.fullmatch("[ -~]{1,40}", shown) else ""

    def reckoning(self, data):
        """Which rules decide about a record, by their numbers, and the lines of its price: the formula with its numbers."""
        whole, one = framed(data), self.record(data)
        shift, rule = self.shift_rule(one.day.isoweekday(), one.time // 6000)
        centre, _ = self.centre_rule(section(whole, 32)[:8], list(fields_of(whole)))
        cpu, excp, record = self.prices(data[18:20])
        yield "TARIFF %s SHIFT %s RULE %s CENTRE %s RULE %s" % (
            self.effective, one.shift, shift or "-", one.centre, centre or "-")
        yield "PRICE (10 * %d * %d + %d * %d + 1000 * %d) * %d / 100000 = %d" % (
            one.cpu, cpu, one.blocks, excp, record, rule["percent"], one.amount)
        yield "AMOUNT " + decimals(one.amount, 4)

    def record(self, data):
        whole = framed(data)
        work, activity, completion, processor = (section(whole, at) for at in (32, 40, 48, 56))
        subtype, step = data[18:20], work[40:42]
        day, time = day_of(data[6:10]), int.from_bytes(data[2:6], "big")
        cpu = sum(struct.unpack_from(">II", processor, 4))
        blocks = struct.unpack_from(">I", activity, 4)[0] if activity else 0
        _, shift = self.shift_rule(day.isoweekday(), time // 6000)
        cpu_price, excp_price, record_price = self.prices(subtype)
        base = 10 * cpu * cpu_price + blocks * excp_price + 1000 * record_price
        identity = data[10:14] + work[:8] + work[64:72] + subtype + (step if subtype == b"\0\4" else b"\0\0")
        identity += work[56:64]
        code = "/".join(part.hex().upper() for part in (completion[:2], completion[2:4])) if completion else "----"
        _, centre = self.centre_rule(work[:8], list(fields_of(whole)))
        amount = (base * shift["percent"] + 50000) // 100000
        return Record(hashlib.sha256(data).hexdigest(), identity, day, time, text(work[:8]), centre, shift["name"], cpu,
                      blocks, amount, code, text(work[32:40]), text(work[8:16]))


def decimals(number, places):
    digits = str(abs(number)).rjust(places + 1, "0")
    return ("-" if number < 0 else "") + (digits[:-places] + "." + digits[-places:] if places else digits)


def charge_rows(records, centre=None):
    """The charge rows of records: of all centres, or of one."""
    groups = {}
    for record in records:
        if centre in (None, record.centre):
            sums = groups.setdefault((str(record.day), record.centre, record.shift), [0, 0, 0, 0])
            for at, more in enumerate((1, record.cpu, record.blocks, record.amount)):
                sums[at] += more
    return sorted(groups.items())


def columns(day, centre, shift, count, cpu, blocks, amount):
    """A line of a statement."""
    return "%-10s %-16s %-16s %8s %19s %18s %21s" % (day, centre, shift, count, cpu, blocks, amount)


def row_line(place, sums):
    """The line of a charge row."""
    count, cpu, blocks, amount = sums
    return columns(*place, count, decimals(cpu, 2), blocks, decimals(amount, 4))


def total_line(word, rows):
    """The line of what charge rows come to."""
    return row_line((word, "", ""), [sum(sums[at] for _, sums in rows) for at in range(4)])


def row_lines(rows):
    """Charge rows below the names of their columns, and their total."""
    yield columns("DAY", "CENTRE", "SHIFT", "COUNT", "CPU", "BLOCKS", "AMOUNT")
    for place, sums in rows:
        yield row_line(place, sums)
    yield total_line("TOTAL", rows)


def placed(widths, cells):
    """Cells with a blank between: a negative width has its cell at the left. Blanks at the end of a line are none."""
    return " ".join(str(cell).ljust(-width) if width < 0 else str(cell).rjust(width)
                    for width, cell in zip(widths, cells)).rstrip()


def sums_columns(*cells):
    """A line of sums: a centre, and five amounts; or six, where something is credited."""
    return placed((-16, *(len(cells) - 1) * (13,)), cells)


def work_columns(*cells):
    """A line of work, of prices or of percents."""
    return placed((-10, -16, 7, 10, 15, 15, 21), cells)


def record_columns(*cells):
    """A line of a record that came late or was reversed."""
    return placed((-10, -16, -8, -8, -8, 5, 6, 32), cells)


def credit_columns(*cells):
    """A line of a credit: its reason, and its amount."""
    return placed((-78, 21), cells)


def booked(amount, places):
    """So many units of the last of some decimals, the nearest ones: halves go away from zero."""
    unit = 10 ** (4 - places)
    units = (2 * abs(amount) + unit) // (2 * unit)
    return units if amount >= 0 else -units


def owed(steps, jobs, late, taken_back, credited):
    """What a bill comes to."""
    return steps + jobs + late - taken_back - credited


def step_of(one):
    """The number of the step that a record is of the end of; a job's end has none."""
    subtype, step = struct.unpack(">HH", one.identity[20:24])
    return "-" if subtype == 5 else step


def line_columns(sign, one):
    """An adjustment line, up to its amount."""
    return "%-5s %s %-16s %-16s %21s" % (ACTIONS[sign], one.day, one.centre, one.shift, decimals(sign * one.amount, 4))


def lines_total(lines):
    """The line of what adjustment lines come to."""
    return "TOTAL" + 46 * " " + "%21s" % decimals(sum(sign * one.amount for sign, one in lines), 4)


def detail_line(place, job, work, amount, *name):
    """A line of details: which work it is stands between the columns of a statement."""
    line = "%-10s %-16s %-16s %-11s %-8s %-8s %-8s" % (*place, *job) + " %8s %19s %18s %21s" % (*work, amount)
    return " ".join((line, *name))


def figure(name, before, after):
    """A line of a dry run."""
    return "%-16s %21s %21s" % (name, before, after)


# A ruling: how a dry run names it, its day, if it has one, and what it does to books.
Ruling = collections.namedtuple("Ruling", "words day rule")


def ruling_of_tariff(file):
    """A tariff. A text that is none has no day."""
    day = None if fault_of(file) else Tariff(file).effective
    return Ruling("TARIFF %s" % day, day, lambda books: books.tariff(file))


def ruling_of_close(period, through):
    return Ruling("CLOSE %d %s" % (period, through), through, lambda books: books.close(period, through))


def ruling_of_choice(name):
    return Ruling("CHOOSE " + name, None, lambda books: books.choose(name))


def ruling_of_none(name):
    return Ruling("CHOOSE NONE " + name, None, lambda books: books.withhold(name))


def ruling_of_replacement(file):
    """A tariff in the place of another has the day of that one."""
    day = None if fault_of(file) else Tariff(file).effective
    return Ruling("TARIFF %s REPLACE" % day, None, lambda books: books.replace(file))


def ruling_of_credit(period, centre, amount, reason):
    return Ruling("CREDIT %d %s" % (period, centre), None, lambda books: books.credit(period, centre, amount, reason))


def ruling_of_adoption():
    return Ruling("ADOPT", None, lambda books: books.adopt(2))


def row_table(period, rows, amount):
    """Charge rows as comma-separated values, of which the last has this name."""
    yield STATEMENT_COLUMNS + amount
    for place, (count, cpu, blocks, cost) in rows:
        yield comma_line(period, *place, count, decimals(cpu, 2), blocks, decimals(cost, 4))


def identity_line(identity, no_step):
    """Whose work records measure, by the first rule of identity, with this word for the step of a job's end."""
    subtype, step = struct.unpack(">HH", identity[20:24])
    return "%s %s %s SUBTYPE %d STEP %s" % (text(identity[:4]), text(identity[4:12]), moment("READER", identity[12:20]),
                                            subtype, no_step if subtype == 5 else step)


def dispute_line(identity):
    """The line of an identity in dispute: by the second rule it has the initiation too."""
    return identity_line(identity, "0") + (" " + moment("START", identity[24:]) if identity[24:] else "")


def member_line(one):
    """A record among others of its identity."""
    return "  %s %s %21s %s %s %s" % (one.name, one.day, decimals(one.amount, 4), one.code, one.job_id, one.program)


class Journal:
    """Who did what: the lines of each entry, the oldest first, and by which one each record came, with its file. NOW stands for
    the time of the clock."""

    # The word of what was ruled, where it is another than the first of its line.
    WORDS = {"NONE": "CHOICE", "ADOPTED": "ADOPTION"}

    def __init__(self):
        self.entries, self.came = [], {}

    def after(self, before, books, lines, note, dump=None):
        """What a command did that found such rulings and records, with its note: a person, a remark, a file and a time."""
        rulings, held = before
        new = list((collections.Counter(books.rulings()) - collections.Counter(rulings)).elements())
        replaced = [line for line in new if line.startswith("REPLACED")]
        for line in new:
            if line not in replaced:
                last = " REPLACES %d" % len(books.replaced) if replaced else ""
                self.entries.append((self.WORDS.get(line.split()[0], "REPLACEMENT" if replaced else line.split()[0]),
                                     line + last, [""] * 12, note))
        kept = books.held.keys() - held
        if kept:
            counts, stop = re.fullmatch(r"(KEPT .*) STOP (.*)", lines[0]).groups()
            counts = counts.split()[1::2]
            self.entries.append(("IMPORT", "", [hashlib.sha256(dump).hexdigest(), str(len(dump)), *counts, stop], note))
            self.came |= {name: len(self.entries) for name in kept}

    def came_line(self, name):
        if name not in self.came:
            return "CAME -"
        person, remark, file, time = self.entries[self.came[name] - 1][3]
        return "CAME %d %s" % (self.came[name], time) + (" " + file if file else "")

    def lines(self):
        yield "JOURNAL %d" % len(self.entries)
        for number, (act, words, read, note) in enumerate(self.entries, 1):
            counted = " ".join("%s %s" % pair for pair in zip(COUNTED, read[2:]))
            person, remark, file, time = note
            yield "%d %s %s" % (number, time, words or "IMPORT %s %s %s STOP %s" % (*read[:2], counted, read[-1]))
            yield from ("  %s %s" % pair for pair in (("BY", person), ("FILE", file), ("NOTE", remark)) if pair[1])

    def table(self):
        yield ("number,time,act,words,digest,length,kept,known,unpriced,other,headers,trailers,lost,continued,damaged,stop,"
               "person,file,note")
        for number, (act, words, read, (person, remark, file, time)) in enumerate(self.entries, 1):
            yield ",".join(map(quoted, (str(number), time, act, words, *read, person, file, remark)))


# The words of a receipt.
COUNTED = "KEPT KNOWN UNPRICED OTHER HEADERS TRAILERS LOST CONTINUED DAMAGED".split()


def quoted(field):
    """A field of a table."""
    return '"%s"' % field.replace('"', '""') if re.search('[,"]', field) else field


class Books:
    def __init__(self):
        # Lines that are no commands have no entry, but those with a note.
        self.journal = Journal()
        self.tariffs, self.held, self.data, self.charged_at, self.closes = [], {}, {}, [], []
        # The names of the records that were chosen, each with the period that was open then; and the numbers of those choices,
        # from 1, that chose none of the record's work.
        self.choices, self.nones = [], set()
        # The tariffs that another took the place of, and the credits: the period that was open then, and what it was.
        self.replaced, self.credits = [], []
        # The period that was open when the second rule of identity was adopted.
        self.adopted = None

    @property
    def rule(self):
        """The rule of identity that is in force."""
        return 1 if self.adopted is None else 2

    def identity(self, record):
        """Whose work a record measures, by the rule in force."""
        return record.identity[:IDENTITY_LENGTHS[self.rule]]

    @property
    def open(self):
        """The number of the open period."""
        return len(self.closes) + 1

    def tariff(self, file):
        fault = fault_of(file)
        if fault:
            return ["chargectl: tariff " + fault]
        new = Tariff(file)
        if any(old.file == file for old in self.tariffs):
            return ["ALREADY"]
        if any(old.effective == new.effective for old in self.tariffs):
            return refused(TARIFF_EXISTS)
        if any(new.effective <= day for day in [old.effective for old in self.tariffs] + self.closes):
            return refused(TARIFF_DATE)
        self.tariffs.append(new)
        for name, record in self.held.items():
            if new.effective <= record.day:
                self.held[name] = new.record(self.data[name])
        return ["DONE"]

    def replace(self, file):
        """A tariff in the place of the one that begins on its first day."""
        fault = fault_of(file)
        if fault:
            return ["chargectl: tariff " + fault]
        new = Tariff(file)
        if any(old.file == file for old in self.tariffs):
            return ["ALREADY"]
        place = next((place for place, old in enumerate(self.tariffs) if old.effective == new.effective), None)
        if place is None:
            return refused(NO_SUCH_TARIFF)
        if any(new.effective <= day for day in self.closes):
            return refused(TARIFF_DATE)
        self.replaced.append((self.open, self.tariffs[place]))
        self.tariffs[place] = new
        for name, data in self.data.items():
            if self.in_force(data) is new:
                self.held[name] = new.record(data)
        return ["DONE"]

    def credit(self, period, centre, amount, reason):
        """A credit, in ten-thousandths of the money unit. It charges no record and changes no price."""
        if (period, centre, amount, reason) in self.credits:
            return ["ALREADY"]
        if period != self.open:
            return refused(WRONG_PERIOD, self.open)
        if not self.has_centre(period, centre):
            return refused(NO_SUCH_CENTRE)
        self.credits.append((period, centre, amount, reason))
        return ["DONE"]

    def in_force(self, data):
        """The last tariff that has begun on a record's day, if one has."""
        return next((tariff for tariff in self.tariffs[::-1] if tariff.effective <= day_of(data[6:10])), None)

    def priced(self, data):
        """A usage record, by the tariff in force, if there is one."""
        tariff = self.in_force(data)
        return tariff.record(data) if tariff else None

    def take_one(self, data):
        """What the receipt counts a record as. A new usage record is held."""
        kind = kind_of(data)
        if kind != "USAGE":
            return kind
        record = self.priced(data)
        if record is None:
            return "UNPRICED"
        if record.name in self.held:
            return "KNOWN"
        self.held[record.name], self.data[record.name] = record, data
        return "KEPT"

    def take(self, dump):
        return [receipt(self.take_one(data) for data in joined(dump))]

    def rivals(self, name):
        """The other records of its identity."""
        identity = self.identity(self.held[name])
        return {other for other, record in self.held.items() if self.identity(record) == identity} - {name}

    def chosen(self):
        """The name that was chosen last of each identity of which some was."""
        return {self.identity(self.held[name]): name for name, _ in self.choices}

    def withheld(self):
        """The identities of which none was chosen last."""
        last = {self.identity(self.held[name]): number for number, (name, _) in enumerate(self.choices, 1)}
        return {identity for identity, number in last.items() if number in self.nones}

    def was_withheld(self, identity):
        """None of its records was chosen at some time."""
        return any(number in self.nones and self.identity(self.held[name]) == identity
                   for number, (name, _) in enumerate(self.choices, 1))

    def undisputed(self):
        count, chosen = collections.Counter(self.identity(record) for record in self.held.values()), self.chosen()
        withheld = self.withheld()
        return {name for name, record in self.held.items() if self.identity(record) not in withheld
                and (count[self.identity(record)] == 1 or chosen.get(self.identity(record)) == name)}

    def choose(self, name):
        if name not in self.held:
            return refused(NO_SUCH_RECORD)
        identity = self.identity(self.held[name])
        if not self.rivals(name) and not self.was_withheld(identity):
            return refused(NOT_DISPUTED)
        if self.chosen().get(identity) == name and identity not in self.withheld():
            return ["ALREADY"]
        self.choices.append((name, self.open))
        return ["DONE"]

    def withhold(self, name):
        """No record of its work counts from now on, until one of them is chosen."""
        if name not in self.held:
            return refused(NO_SUCH_RECORD)
        if self.identity(self.held[name]) in self.withheld():
            return ["ALREADY"]
        self.choices.append((name, self.open))
        self.nones.add(len(self.choices))
        return ["DONE"]

    def choose_each(self, listed, is_none=False):
        """One choice after the other, up to the first refusal: the answers to those before it, and the refusal with the
        number of its line. The names come with the numbers of their lines."""
        answers = []
        for number, name in listed:
            [answer] = self.withhold(name) if is_none else self.choose(name)
            if answer.startswith("chargectl"):
                return answers + ["%s line %d" % (answer, number)]
            answers.append(answer)
        return answers

    def withhold_dump(self, dump):
        """The works of the usage records of a dump, one after the other. Those that are not held are passed over."""
        answers = collections.Counter()
        for name in (hashlib.sha256(data).hexdigest() for data in joined(dump) if kind_of(data) == "USAGE"):
            answers[self.withhold(name)[0] if name in self.held else "NOT HELD"] += 1
        return ["WITHHELD %d ALREADY %d NOT HELD %d STOP END" % (answers["DONE"], answers["ALREADY"], answers["NOT HELD"])]

    def withhold_import(self, number):
        """The works of the records that came by an entry, by name."""
        names = sorted(name for name, came in self.journal.came.items() if came == number)
        answers = collections.Counter(self.withhold(name)[0] for name in names)
        return ["WITHHELD %d ALREADY %d NOT HELD 0 STOP END" % (answers["DONE"], answers["ALREADY"])]

    def adopt(self, rule):
        """From now on identities are those of this rule, of held records too. What closes charged stays."""
        if rule == self.rule:
            return ["ALREADY"]
        if rule < self.rule:
            return refused(OLD_RULE)
        self.adopted = self.open
        return ["DONE"]

    def close(self, period, through):
        if 0 < period < self.open and self.closes[period - 1] == through:
            return ["ALREADY"]
        if period != self.open:
            return refused(WRONG_PERIOD, self.open)
        if any(through <= day for day in self.closes):
            return refused(NOT_LATER)
        self.charged_at.append({name for name in self.undisputed() if self.held[name].day <= through})
        self.closes.append(through)
        return ["DONE"]

    def head(self, period):
        return "CLOSED THROUGH %s" % self.closes[period - 1] if period <= len(self.closes) else "OPEN"

    def charged(self, period):
        """At the period's end, or now."""
        return self.charged_at[period - 1] if period <= len(self.closes) else self.undisputed()

    def before(self, period):
        return self.closes[period - 2] if period > 1 else datetime.date.min

    def counted(self, period):
        """The names of the records that a period's statement counts: those that it charges of its own days."""
        return [name for name in self.charged(period) if self.held[name].day > self.before(period)]

    def rows(self, period, centre=None):
        """The charge rows of a period: of all centres, or of one."""
        return charge_rows((self.held[name] for name in self.counted(period)), centre)

    def title(self, report, period, centre):
        return "%s%s PERIOD %d %s" % (report, " CENTRE " + centre if centre else "", period, self.head(period))

    def statement(self, period, centre=None):
        yield self.title("STATEMENT", period, centre)
        yield from row_lines(self.rows(period, centre))

    def table(self, period, centre=None):
        yield from row_table(period, self.rows(period, centre), "amount")

    def counted_in_order(self, period, centre=None):
        """The records that a period's statement counts, of all centres or of one, in the order of its rows, then by time and
        name."""
        records = (self.held[name] for name in self.counted(period))
        return sorted((one for one in records if centre in (None, one.centre)),
                      key=lambda one: (one.day, one.centre, one.shift, one.time, one.name))

    def detail_row(self, one):
        """What the table of details keeps of a record that is counted."""
        work, step = section(framed(self.data[one.name]), 32), step_of(one)
        return ((one.day - EPOCH).days, one.centre, one.shift, one.time, bytes.fromhex(one.name), work[:8], work[8:16],
                work[32:40], None if step == "-" else step, one.cpu, one.blocks, one.amount)

    def detail_rows(self):
        """The rows of all periods, in the order of that table."""
        return [self.detail_row(one) for period in range(1, self.open + 1) for one in self.counted_in_order(period)]

    def details(self, period, centre=None):
        """A line for each record that a period's statement counts, and what they come to."""
        yield self.title("DETAILS", period, centre)
        yield detail_line(("DAY", "CENTRE", "SHIFT"), ("TIME", "JOB", "PROGRAM", "JOBID"), ("STEP", "CPU", "BLOCKS"),
                          "AMOUNT", "NAME")
        records = self.counted_in_order(period, centre)
        for one in records:
            yield detail_line((one.day, one.centre, one.shift), (time_of_day(one.time), one.job, one.program, one.job_id),
                              (step_of(one), decimals(one.cpu, 2), one.blocks), decimals(one.amount, 4), one.name)
        cpu, blocks, amount = (sum(column) for column in (
            [one.cpu for one in records], [one.blocks for one in records], [one.amount for one in records]))
        yield detail_line(("TOTAL", "", ""), 4 * ("",), (len(records), decimals(cpu, 2), blocks), decimals(amount, 4))

    def details_table(self, period, centre=None):
        yield DETAIL_COLUMNS
        for one in self.counted_in_order(period, centre):
            yield comma_line(period, one.day, one.centre, one.shift, time_of_day(one.time), one.job, one.program, one.job_id,
                             step_of(one), decimals(one.cpu, 2), one.blocks, decimals(one.amount, 4), one.name)

    def what_if(self, file, period, centre=None, as_table=False):
        """What a period would have cost by a tariff file: the records that its statement counts, each priced anew by the
        file, whatever its first day is. The last line has what they cost by the rulings. Nothing is kept of it."""
        fault = fault_of(file)
        if fault:
            return ["chargectl: tariff " + fault]
        if not 0 < period <= self.open:
            return refused(NO_SUCH_PERIOD)
        tariff = Tariff(file)
        priced = [tariff.record(self.data[name]) for name in self.counted(period)]
        if sum(record.amount for record in priced) > MOST_COST:
            return refused(FULL)
        rows = charge_rows(priced, centre)
        if as_table:
            return list(row_table(period, rows, "what_if"))
        return [self.title("WHAT-IF", period, centre), "TARIFF " + hashlib.sha256(file).hexdigest(), *row_lines(rows),
                total_line("CHARGED", self.rows(period, centre))]

    def is_far(self, ruling):
        """The day of a ruling is far after the newest one of the records that the open period counts; where it counts none, after
        the last close. From books without either no day is far. (That of a close is also far if it is later than today, which no
        sample has.)"""
        days = [self.held[name].day for name in self.counted(self.open)]
        most = NEAR_DAYS if days and ruling.words.startswith("CLOSE ") else FAR_DAYS
        return (ruling.day - max(days or self.closes[-1:], default=ruling.day)).days > most

    def is_noticed(self, ruling, answer):
        """A ruling that would be in force by this answer is noticed, where its day is far."""
        return answer == ["DONE"] and ruling.day is not None and self.is_far(ruling)

    def figures(self, period):
        """What a dry run shows of a period: what its statement comes to, what its adjustments come to, and how many
        records the statement counts."""
        records, amount = self.counted(period), sum(sign * one.amount for sign, one in self.lines(period))
        return (decimals(sum(self.held[name].amount for name in records), 4), decimals(amount, 4), len(records))

    def dry_run(self, ruling):
        """What a ruling would answer, and what it would change of the period that is open. The last line is of a tariff how
        many records of that period it prices anew, of a close how many records the next period counts, of a credit how many
        the period has, and of others how many disputes there are. Nothing is kept of it."""
        after, period = copy.deepcopy(self), self.open
        [answer] = ruling.rule(after)
        if answer.startswith("chargectl: "):
            return [answer]
        names = ["%s %d" % (word, period) for word in ("STATEMENT", "ADJUSTMENTS", "RECORDS")]
        lines = list(map(figure, names, self.figures(period), after.figures(period)))
        if ruling.words.startswith("TARIFF "):
            first = datetime.date.fromisoformat(ruling.words.split()[1])
            priced = [name for name in after.counted(period) if after.in_force(after.data[name]).effective == first]
            lines.append(figure("PRICED", 0, len(priced) if answer == "DONE" else 0))
        elif ruling.words.startswith("CLOSE "):
            lines.append(figure("RECORDS %d" % (period + 1), 0,
                                len(after.counted(period + 1)) if after.open > period else 0))
        elif ruling.words.startswith("CREDIT "):
            lines.append(figure("CREDITS %d" % period, *(sum(credit[0] == period for credit in books.credits)
                                                         for books in (self, after))))
        else:
            lines.append(figure("DISPUTES", len(self.disputed()), len(after.disputed())))
        return ["DRY RUN %s %s" % (ruling.words, answer), figure("", "BEFORE", "AFTER")] + lines

    def posted(self):
        """At the last close."""
        return self.charged_at[-1] if self.charged_at else set()

    def changes(self, period):
        """The names of what a period adds to closed ones, and of what it takes back."""
        before = self.charged(period - 1) if period > 1 else set()
        added = {name for name in self.charged(period) - before if self.held[name].day <= self.before(period)}
        return added, before - self.charged(period)

    def lines(self, period, centre=None):
        """The adjustment lines of a period: of all centres, or of one."""
        added, removed = self.changes(period)
        lines = [(1, self.held[name]) for name in added] + [(-1, self.held[name]) for name in removed]
        lines = [line for line in lines if centre in (None, line[1].centre)]
        return sorted(lines, key=lambda line: (line[1].day, line[1].name))

    def adjustments(self, period, centre=None):
        lines = self.lines(period, centre)
        yield self.title("ADJUSTMENTS", period, centre)
        for sign, one in lines:
            yield "%s %s %s" % (line_columns(sign, one), one.name, one.job)
        yield lines_total(lines)

    def adjustment_table(self, period, centre=None):
        yield ADJUSTMENT_COLUMNS
        for sign, one in self.lines(period, centre):
            yield comma_line(period, ACTIONS[sign], one.day, one.centre, one.shift, decimals(sign * one.amount, 4),
                             one.name, one.job)

    def work(self, period, centre=None):
        """The charge rows of the steps that a period counts, and those of the jobs: of all centres, or of one."""
        records = [self.held[name] for name in self.counted(period)]
        return [charge_rows([one for one in records if (step_of(one) == "-") == is_job], centre)
                for is_job in (False, True)]

    def period_of(self, day):
        """The period that a day belongs to."""
        return 1 + sum(through < day for through in self.closes)

    def of_which(self, period, sign, one):
        """Of a record that a period adds, the period of its day; of one that it reverses, the last period before it that
        charged it."""
        if sign > 0:
            return self.period_of(one.day)
        return max(charged for charged, deed in self.life(one.name) if charged < period and deed != "REVERSED")

    def held_back(self, centre=None):
        """How many disputes have a record of the centre, or of any; and the least and the most that it may be charged as
        they end: of each dispute one record is chosen, and that may be another centre's."""
        ends = [[one.amount if centre in (None, one.centre) else 0 for one in members]
                for _, members in self.disputed() if any(centre in (None, one.centre) for one in members)]
        return len(ends), sum(map(min, ends)), sum(map(max, ends))

    def tariffs_in(self, period):
        """The tariffs in force on some day of a period: those that have begun as it ends, if it has ended, but for those
        after which another one has begun by its first day."""
        first = self.before(period) + datetime.timedelta(1)
        begun = [one for one in self.tariffs if period == self.open or one.effective <= self.closes[period - 1]]
        return [one for one in begun if not any(one.effective < later.effective <= first for later in begun)]

    def bill_head(self, period, centre):
        """What stands above all else on a bill: whose it is, and its first day. A bill of an open period is a draft."""
        tariffs = self.tariffs_in(period)
        yield self.title("BILL", period, centre)
        yield ("DRAFT %d" if period == self.open else "NUMBER %d") % period + ("" if centre is None else "-" + centre)
        if period == 1:
            yield from ("FROM %s" % one.effective for one in tariffs[:1])
        elif self.before(period) < LAST_DAY:
            yield "FROM %s" % (self.before(period) + A_DAY)
        for last in tariffs[-1:]:
            shown = ((key, last.letterhead(key)) for key in ("office", "currency"))
            yield from ("%s %s" % (key.upper(), said) for key, said in shown if said)

    def bill_terms(self, period):
        """The prices of a bill's days, and the percents of its shifts."""
        tariffs = self.tariffs_in(period)
        if tariffs:
            yield "PRICES"
            yield placed((-10, -16, 18, 15, 15), ("TARIFF", "OF A", "RECORD", "CPU", "1000 BLOCKS"))
        for one in tariffs:
            for word, subtype in (("STEP", b"\0\4"), ("JOB", b"\0\5")):
                yield placed((-10, -16, 18, 15, 15), (one.effective, word, *one.prices_of(subtype)))
        if tariffs:
            yield "PERCENTS"
            yield work_columns("TARIFF", "SHIFT", "PERCENT")
        for one in tariffs:
            yield from (work_columns(one.effective, *shift) for shift in one.percents())

    def booked_decimals(self, period):
        """How many decimals a bill books: as the last of its tariffs says."""
        return ([2] + [one.booked_decimals() for one in self.tariffs_in(period)])[-1]

    def sums_heading(self, has_credits):
        """The names of the columns of sums."""
        return sums_columns("CENTRE", "CHARGED", "LATE", "REVERSED", *["CREDITS"] * has_credits, "OWED", "BOOKED")

    def sums_line(self, period, word, parts, has_credits, booked_units=None):
        """The line of sums of a centre, or of all. What is credited stands there only on a bill that has a credit."""
        steps, jobs, late, back, credited = parts
        places = self.booked_decimals(period)
        units = booked(owed(*parts), places) if booked_units is None else booked_units
        amounts = (steps + jobs, late, back, *[credited] * has_credits, owed(*parts))
        return sums_columns(word, *(decimals(one, 4) for one in amounts), decimals(units, places))

    def tariff_on(self, day):
        """The tariff in force on a day."""
        return [one for one in self.tariffs if one.effective <= day][-1]

    def work_rows(self, period, centre, is_job, by_tariff):
        """What the steps or the jobs of a centre cost, by tariff or by day, and by shift with its percent."""
        groups = {}
        for name in self.counted(period):
            one = self.held[name]
            if one.centre == centre and (step_of(one) == "-") == is_job:
                tariff = self.tariff_on(one.day)
                day = tariff.effective if by_tariff else one.day
                sums = groups.setdefault((day, one.shift, dict(tariff.percents())[one.shift]), [0, 0, 0, 0])
                for at, more in enumerate((1, one.cpu, one.blocks, one.amount)):
                    sums[at] += more
        return sorted(groups.items())

    def jobs_have_work(self, period):
        """Some tariff of the bill has a price for the CPU time or for the blocks of jobs."""
        return any(price for one in self.tariffs_in(period) for price in one.prices(b"\0\5")[:2])

    def work_part(self, period, centre, is_job, by_tariff):
        """A part of a bill, if it has rows."""
        rows = self.work_rows(period, centre, is_job, by_tariff)
        has_work = not is_job or self.jobs_have_work(period)

        def line(place, sums):
            count, cpu, blocks, amount = sums
            return work_columns(*place, count, *((decimals(cpu, 2), blocks) if has_work else ("", "")), decimals(amount, 4))
        if rows:
            yield ("JOBS" if is_job else "STEPS") + (" BY SHIFT" if by_tariff else " BY DAY")
            yield work_columns("TARIFF" if by_tariff else "DAY", "SHIFT", "PERCENT", "COUNT",
                               *(("CPU", "BLOCKS") if has_work else ("", "")), "AMOUNT")
            yield from (line(*row) for row in rows)
            yield line(("TOTAL", "", ""), [sum(sums[at] for _, sums in rows) for at in range(4)])

    def record_part(self, period, centre, which):
        """What came late, or what was reversed, if there is some: each with the period that it is of, and its name."""
        lines = [one for sign, one in self.lines(period, centre) if sign == which]
        if lines:
            yield "LATE" if which == 1 else "REVERSED"
            yield record_columns("DAY", "SHIFT", "JOB", "PROGRAM", "JOBID", "STEP", "PERIOD", "AMOUNT")
            for one in lines:
                yield record_columns(one.day, one.shift, one.job, one.program, one.job_id, step_of(one),
                                     self.of_which(period, which, one), decimals(one.amount, 4))
                yield "  " + one.name
            yield record_columns("TOTAL", *6 * ("",), decimals(sum(one.amount for one in lines), 4))

    def credit_part(self, period, centre):
        """What is credited, if something is: each with its reason."""
        credits = self.credits_of(period, centre)
        if credits:
            yield "CREDITS"
            yield credit_columns("REASON", "AMOUNT")
            yield from (credit_columns(reason, decimals(amount, 4)) for _, amount, reason in credits)
            yield credit_columns("TOTAL", decimals(sum(amount for _, amount, _ in credits), 4))

    def bill_end(self, period, centre):
        """What a bill says of disputes, while its period is open. As they end a closed period's bill stays as it is."""
        if period == self.open:
            count, least, greatest = self.held_back(centre)
            yield "DISPUTES %d LEAST %s GREATEST %s" % (count, decimals(least, 4), decimals(greatest, 4))

    def credits_of(self, period, centre=None):
        """The credits of a period, of all centres or of one: of each its centre, its amount and its reason."""
        return [credit for of_period, *credit in self.credits if of_period == period and centre in (None, credit[0])]

    def parts(self, period, centre=None):
        """What a bill has of steps, of jobs, of what came late, of what was reversed, and of what is credited."""
        rows = [sum(sums[3] for _, sums in rows) for rows in self.work(period, centre)]
        rows += [sum(one.amount for sign, one in self.lines(period, centre) if sign == which) for which in (1, -1)]
        return rows + [sum(amount for _, amount, _ in self.credits_of(period, centre))]

    def billed(self, period):
        """The centres that a period has rows, lines or credits of, each with the parts of its bill."""
        centres = {self.held[name].centre for name in self.counted(period)}
        centres |= {one.centre for _, one in self.lines(period)} | {centre for centre, _, _ in self.credits_of(period)}
        return [(centre, self.parts(period, centre)) for centre in sorted(centres)]

    def bill(self, period, centre=None):
        """The bill of a centre, or of the whole office with a line for each."""
        yield from self.bill_head(period, centre)
        yield from self.office_bill(period) if centre is None else self.centre_bill(period, centre)

    def centre_bill(self, period, centre):
        """What a department gets below the head: its sums, the prices and percents, and what the sums are made of."""
        has_credits = self.credits_of(period, centre) != []
        yield self.sums_heading(has_credits)
        yield self.sums_line(period, centre, self.parts(period, centre), has_credits)
        yield from self.bill_end(period, centre)
        yield from self.bill_terms(period)
        for by_tariff in (True, False):
            for is_job in (False, True):
                yield from self.work_part(period, centre, is_job, by_tariff)
        for which in (1, -1):
            yield from self.record_part(period, centre, which)
        yield from self.credit_part(period, centre)

    def office_bill(self, period):
        """A line for each centre, and the office's total, which books what they do together."""
        has_credits = self.credits_of(period) != []
        yield self.sums_heading(has_credits)
        billed, places = self.billed(period), self.booked_decimals(period)
        for word, parts in billed:
            yield self.sums_line(period, word, parts, has_credits)
        yield self.sums_line(period, "TOTAL", self.parts(period), has_credits,
                             sum(booked(owed(*parts), places) for _, parts in billed))
        yield from self.bill_end(period, None)
        yield from self.bill_terms(period)

    def bill_table(self, period, centre=None):
        if centre is None:
            yield OFFICE_BILL_COLUMNS
            places = self.booked_decimals(period)
            for name, parts in self.billed(period):
                *charges, credited = parts
                yield comma_line(period, name, *(decimals(amount, 4) for amount in (*charges, owed(*parts))),
                                 decimals(booked(owed(*parts), places), places), decimals(credited, 4))
            return
        yield BILL_COLUMNS
        for is_job in (False, True):
            has_work = not is_job or self.jobs_have_work(period)
            for (day, shift, percent), (count, cpu, blocks, amount) in self.work_rows(period, centre, is_job, False):
                yield comma_line(period, day, centre, shift, "JOBS" if is_job else "STEPS", count,
                                 *((decimals(cpu, 2), blocks) if has_work else ("", "")), decimals(amount, 4),
                                 *6 * ("",), percent)
        for sign, one in self.lines(period, centre):
            yield comma_line(period, one.day, one.centre, one.shift, ACTIONS[sign], "", "", "",
                             decimals(sign * one.amount, 4), self.of_which(period, sign, one), one.name, one.job,
                             one.program, one.job_id, step_of(one), "")
        for _, amount, reason in self.credits_of(period, centre):
            yield comma_line(period, "", centre, "", "CREDIT", *3 * ("",), decimals(-amount, 4), "", "", reason, *4 * ("",))
        for one in self.tariffs_in(period):
            for kind, subtype in (("STEP-PRICE", b"\0\4"), ("JOB-PRICE", b"\0\5")):
                yield comma_line(period, one.effective, centre, "", kind, *one.prices_of(subtype), *8 * ("",))
            for shift, percent in one.percents():
                yield comma_line(period, one.effective, centre, shift, "PERCENT", *10 * ("",), percent)

    def billing_period(self, period):
        """The midnights with which a period begins and ends. The first begins with its first tariff, each other after the
        close before. An open one ends after its newest charge row or, without one, after the day that it begins on."""
        rows, tariffs = self.rows(period), self.tariffs_in(period)
        begins = self.before(period) + A_DAY if period > 1 else tariffs[0].effective
        if period < self.open:
            last = self.closes[period - 1]
        else:
            last = datetime.date.fromisoformat(rows[-1][0][0]) if rows else min(begins, LAST_DAY)
        return midnight(begins), midnight(last, 1)

    def focus_head(self, period):
        """What stands first in each row of a period: who bills, in which money, for which days, and what for."""
        last = self.tariffs_in(period)[-1]
        return (*5 * (last.letterhead("office"),), last.letterhead("currency"), *self.billing_period(period), "Compute",
                "Batch processing")

    def focus_rows(self, period):
        """Its charge rows and then its adjustment lines, as FOCUS has them: the centre, the day, the class, the description, how
        much was used, what it costs, the shift, and what kind of line it is."""
        for (day, centre, shift), (count, cpu, _, amount) in self.rows(period):
            used = 2 * (decimals(cpu, 2), "CPU-Seconds")
            yield centre, datetime.date.fromisoformat(day), "", "Records: %d" % count, used, amount, shift, "CHARGE"
        for sign, one in self.lines(period):
            yield (one.centre, one.day, "Correction", "Record: " + one.name, 4 * ("",), sign * one.amount, one.shift,
                   ACTIONS[sign])

    def focus(self, period):
        """A period by FOCUS 1.0, of the FinOps Foundation: cost and usage in columns that finance knows from elsewhere."""
        yield FOCUS_COLUMNS
        rows = list(self.focus_rows(period))
        head = self.focus_head(period) if rows else ()
        for centre, day, correction, description, used, amount, shift, kind in rows:
            tags = json.dumps({"Shift": shift, "Line": kind}, separators=(",", ":"))
            yield comma_line(*head, centre, centre, midnight(day), midnight(day, 1), "Usage", correction, "Usage-Based",
                             description, *used, *4 * (decimals(amount, 4),), tags)

    def coverage_rows(self, period):
        """By day and system, in the order of the bytes of its name, the times of the records that a period counts: a system
        stands on each day of the period, also where it has no record. The first period begins with its first record, each
        other after the close before; an open one ends with its newest record."""
        times = collections.defaultdict(list)
        for name in self.counted(period):
            times[self.held[name].day, self.data[name][10:14]].append(self.held[name].time)
        days, systems = [day for day, _ in times], sorted({system for _, system in times})
        if not days:
            return
        day = self.before(period) + A_DAY if period > 1 else min(days)
        last = self.closes[period - 1] if period < self.open else max(days)
        while day <= last:
            yield from ((day, text(system), times.get((day, system), [])) for system in systems)
            day += A_DAY

    def coverage(self, period):
        """How many records a period counts, by day and system, and their first and last time."""
        rows = list(self.coverage_rows(period))
        yield self.title("COVERAGE", period, None)
        for day, system, times in rows:
            yield "%s %-4s %9d %-11s %s" % (day, system, len(times), *ends(times))
        yield "GAPS %d" % sum(not times for _, _, times in rows)

    def coverage_table(self, period):
        yield COVERAGE_COLUMNS
        for day, system, times in self.coverage_rows(period):
            yield comma_line(period, day, system, len(times), *ends(times))

    def periods(self):
        yield "PERIODS %d" % self.open
        for period in range(1, self.open + 1):
            yield "%d %s" % (period, self.head(period))

    def rulings(self):
        yield "RULINGS"
        for tariff in self.tariffs:
            yield "TARIFF %s %s %d" % (tariff.effective, hashlib.sha256(tariff.file).hexdigest(), len(tariff.file))
        for number, through in enumerate(self.closes, 1):
            yield "CLOSE %d %s" % (number, through)
        for number, (name, period) in enumerate(self.choices, 1):
            yield "%s %d PERIOD %d %s" % ("NONE" if number in self.nones else "CHOICE", number, period, name)
        if self.adopted is not None:
            yield "ADOPTED PERIOD %d" % self.adopted
        for period, old in self.replaced:
            yield "REPLACED %s PERIOD %d %s %d" % (old.effective, period, hashlib.sha256(old.file).hexdigest(), len(old.file))
        for number, (period, centre, amount, reason) in enumerate(self.credits, 1):
            yield "CREDIT %d PERIOD %d %s %s %s" % (number, period, centre, decimals(amount, 4), reason)

    def tariff_text(self, day):
        """The file of the tariff that begins on a day, if one does."""
        return next((tariff.file for tariff in self.tariffs if tariff.effective == day), None)

    def replaced_text(self, day, digest):
        """The file of a tariff of a day that another took the place of, by its SHA-256, if there is one."""
        files = [old.file for _, old in self.replaced if old.effective == day]
        return next((file for file in files if hashlib.sha256(file).hexdigest() == digest), None)

    def has_centre(self, period, centre):
        """A centre is there in a period, if a tariff has a rule for it that begins no later than the period's last day; and that
        of the work to which no rule applies is."""
        last = self.closes[period - 1] if 0 < period < self.open else datetime.date.max
        rules = [rule for tariff in self.tariffs if tariff.effective <= last for rule in tariff.terms.get("centre", ())]
        return centre == "UNASSIGNED" or any(rule["name"] == centre for rule in rules)

    def of_period(self, report, period, centre=None):
        """A report of a period, if there is such a period: of all centres, or of one that is there."""
        if centre is not None and not self.has_centre(period, centre):
            return refused(NO_SUCH_CENTRE)
        if not 0 < period <= self.open:
            return refused(NO_SUCH_PERIOD)
        return list(report(period) if centre is None else report(period, centre))

    def disputed(self):
        """The identities in dispute in their order, each with its records."""
        groups = collections.defaultdict(list)
        for record in self.held.values():
            groups[self.identity(record)].append(record)
        chosen = self.chosen()
        return [(identity, sorted(members)) for identity, members in sorted(groups.items())
                if len(members) > 1 and identity not in chosen]

    def disputes(self):
        disputed = self.disputed()
        yield "DISPUTES %d" % len(disputed)
        for identity, members in disputed:
            yield dispute_line(identity)
            yield from map(member_line, members)

    def life(self, name):
        """What the periods did with a record, in their order: it was charged by its statement, added late, or reversed."""
        for period in range(1, self.open + 1):
            added, removed = self.changes(period)
            for deed, names in (("CHARGED", self.counted(period)), ("ADDED", added), ("REVERSED", removed)):
                if name in names:
                    yield period, deed

    def trail(self, name):
        """What a record measures, whose work that is, how its price came about, and what became of it."""
        if name not in self.held:
            return refused(NO_SUCH_RECORD)
        one, data, rivals, life = self.held[name], self.data[name], self.rivals(name), list(self.life(name))
        fields = list(fields_of(framed(data)))
        choices = [(chosen, period, " NONE" * (number in self.nones))
                   for number, (chosen, period) in enumerate(self.choices, 1) if chosen in rivals | {name}]
        return ["RECORD " + name,
                "DATED %s IN PERIOD %d" % (clock(data[2:10]), self.period_of(one.day)),
                self.journal.came_line(name),
                identity_line(one.identity, "-"),
                "%s COMPLETION %s %s %s ACCOUNTS %d" % (
                    moment("START", one.identity[24:]), one.code, one.job_id, one.program, len(fields)),
                *("  " + text(field) for field in fields),
                "CPU %s BLOCKS %d" % (decimals(one.cpu, 2), one.blocks),
                *self.in_force(data).reckoning(data),
                "RIVALS %d" % len(rivals), *(member_line(self.held[other]) for other in sorted(rivals)),
                "CHOICES %d" % len(choices),
                *("  PERIOD %d %s%s" % (period, chosen, none) for chosen, period, none in choices),
                "LIFE %d" % len(life), *("  PERIOD %d %s" % turn for turn in life),
                "NET %d" % sum(-1 if deed == "REVERSED" else 1 for _, deed in life)]

    def dispute_table(self):
        yield DISPUTE_COLUMNS
        for number, (identity, members) in enumerate(self.disputed(), 1):
            subtype, step = struct.unpack(">HH", identity[20:24])
            for one in members:
                yield comma_line(number, text(identity[:4]), text(identity[4:12]), clock(identity[12:20]),
                                 clock(one.identity[24:]), subtype, step, one.name, one.day, decimals(one.cpu, 2),
                                 one.blocks, decimals(one.amount, 4), one.code, one.job_id, one.program)


def is_torn(line):
    """A dump of which this is the receipt was read to its end, and has no record, or fewer trailers than headers."""
    counts = {word: int(count) for word, count in re.findall(r"([A-Z]+) (\d+)", line)}
    return line.startswith("KEPT ") and line.endswith(" STOP END") and (
        not any(counts.values()) or counts["TRAILERS"] < counts["HEADERS"])


def tried(file, dump):
    """What a trial prints of a dump that is priced by a tariff file, or why there is none: the file is in force from
    1900-01-01 on, whatever its own first day is."""
    fault = fault_of(file)
    if fault:
        return ["chargectl: tariff " + fault]
    books, tariff = Books(), Tariff(file)
    tariff.effective = datetime.date(1900, 1, 1)
    books.tariffs.append(tariff)
    return books.take(dump) + list(books.statement(1)) + list(books.disputes())


def texts(books):
    """All texts of books but for tables, in the order in which changes are shown."""
    shown = {}
    for period in range(1, books.open + 1):
        shown["statement", period] = list(books.statement(period))
        shown["adjustments", period] = list(books.adjustments(period))
    shown["disputes"], shown["periods"] = list(books.disputes()), list(books.periods())
    return shown
