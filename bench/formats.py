"""What docs/FORMATS.md says about dumps, requests and texts, once more apart from the program:
`hostile` compares each answer with it. Of a check list, a receipt and a refused request it knows
every byte; of reports, audits and lines on standard error, the form."""
import calendar
import collections
import datetime
import functools
import re
import struct
import tomllib

COMPLETE, FIRST, LAST, BETWEEN = 0, 1, 2, 3
DESCRIPTOR, MOST_DATA, EXTENDED = 4, 65_531, 0x8000
MOST_HEAD, MOST_FIELDS, MOST_BODY = 16_384, 64, 16_777_216
# So many bytes of a dump are looked at before it is read.
MOST_FIRST = 65_535
MOST_TARIFF = 1_048_576
DAY_END = 8_640_000

# The first day of the tariff that all books here have first, as a packed date without its sign.
FIRST_DAY = "0124001"
CLOSED_THROUGH = "2024-01-31"


def block_fault(length):
    return 3 if length >= EXTENDED else 2 if length < DESCRIPTOR else 0


def segment_fault(is_begun, left, length, kind, size):
    """The first test that a segment's descriptor fails, or 0."""
    if length < DESCRIPTOR:
        return 1
    if left is not None and left < length:
        return 4
    if is_begun != (kind in (LAST, BETWEEN)):
        return 6 if is_begun else 5
    return 7 if size + length - DESCRIPTOR > MOST_DATA else 0


def framed(dump, layout):
    """The records of a dump, each joined after its descriptor, and last why there are no more."""
    at, left, parts, size = 0, None, [], 0
    while left is None or left >= DESCRIPTOR:
        if len(dump) - at < DESCRIPTOR:
            break
        length, kind = struct.unpack_from(">HB", dump, at)
        is_block = layout == "bdw" and left is None
        fault = (block_fault(length) if is_block
                 else segment_fault(parts != [], left, length, kind & 3, size))
        if fault:
            yield "FRAME %d" % fault
            return
        if is_block:
            at, left = at + DESCRIPTOR, (length - DESCRIPTOR) or None
            continue
        if len(dump) - at < length:
            break
        parts.append(dump[at + DESCRIPTOR:at + length])
        at, size, left = at + length, size + length - DESCRIPTOR, left and (left - length) or None
        if kind & 3 in (COMPLETE, LAST):
            yield struct.pack(">HH", size + DESCRIPTOR, 0) + b"".join(parts)
            parts, size = [], 0
    else:
        yield "FRAME 4"
        return
    yield "FRAME 8" if left is not None or at < len(dump) else "FRAME 6" if parts else "END"


def is_block(record):
    """What was taken for a record has the form of a block: segments fill it, one or more, the last
    of whose records may go on."""
    at, size = DESCRIPTOR, None
    while at < len(record) < EXTENDED:
        length, kind = struct.unpack_from(">HB", record[at:at + DESCRIPTOR].ljust(DESCRIPTOR, b"\0"))
        is_first = kind & 3 in (COMPLETE, FIRST)
        size = (size or 0) + length - DESCRIPTOR if is_first == (size is None) else -1
        if not (DESCRIPTOR <= length <= len(record) - at and 0 <= size <= MOST_DATA):
            return False
        at, size = at + length, size if kind & 3 in (FIRST, BETWEEN) else None
    return DESCRIPTOR < at == len(record)


def is_misread(dump, layout):
    """The first record of a dump that is read as segments is a block."""
    first = next(framed(dump[:MOST_FIRST], layout))
    return layout == "rdw" and not isinstance(first, str) and is_block(first)


def is_day(packed):
    digits = packed.hex()
    if not re.fullmatch("0[01][0-9]{5}[cf]", digits):
        return False
    year = 1900 + 100 * int(digits[1]) + int(digits[2:4])
    return 1 <= int(digits[4:7]) <= 365 + calendar.isleap(year)


def has_accounts(record):
    """Its accounting fields lie inside it."""
    at, _, count = struct.unpack_from(">IHH", record, 64)
    for _ in range(count):
        if at >= len(record):
            return False
        at += 1 + record[at]
        if at > len(record):
            return False
    return True


def damage_of(record):
    """The number of the first damage of a work record that measures CPU time, or 0."""
    if not is_day(record[10:14]):
        return 2
    if struct.unpack_from(">I", record, 6)[0] >= DAY_END:
        return 3
    if record[38:40] == b"\0\0":
        return 4
    for at, least, damage in ((32, 72, 5), (56, 12, 6), (40, 8, 7), (48, 4, 8)):
        offset, length, count = struct.unpack_from(">IHH", record, at)
        if count and (length < least or offset + length > len(record)):
            return damage
    return 0 if has_accounts(record) else 9


def class_of(record):
    """The class of a joined record, as the check list shows it."""
    if len(record) < 18:
        return "DAMAGED 1"
    if record[5] != 30:
        return {2: "HEADER", 3: "TRAILER", 7: "LOST"}.get(record[5], "OTHER")
    if len(record) < 24:
        return "DAMAGED 1"
    if record[22:24] not in (b"\0\4", b"\0\5"):
        return "OTHER"
    if len(record) < 72:
        return "DAMAGED 1"
    if record[62:64] == b"\0\0":
        return "CONTINUED"
    damage = damage_of(record)
    return "DAMAGED %d" % damage if damage else "USAGE"


def check_list(dump, layout):
    """The check list of a dump, and why it stops."""
    *records, stop = framed(dump, layout)
    lines = ["%d TYPE %s %s\n" % (at, record[5] if len(record) >= 18 else "-", class_of(record))
             for at, record in enumerate(records, 1)]
    return "".join(lines + ["RECORDS %d STOP %s\n" % (len(records), stop)]).encode(), stop


def is_torn(dump, layout):
    """A dump has no record, or fewer trailers than headers."""
    *records, stop = framed(dump, layout)
    classes = [class_of(record) for record in records]
    return not records or classes.count("TRAILER") < classes.count("HEADER")


COUNTED = "KEPT KNOWN UNPRICED OTHER HEADERS TRAILERS LOST CONTINUED DAMAGED".split()
PLURALS = {"HEADER": "HEADERS", "TRAILER": "TRAILERS"}


class Books:
    """What books hold whose first tariff is in force from a day on."""

    def __init__(self, first_day=FIRST_DAY):
        self.first_day, self.held = first_day, set()

    def counted(self, record, new):
        """What the receipt counts a record as. New data join the others that are new."""
        kind = class_of(record).split()[0]
        if kind != "USAGE":
            return PLURALS.get(kind, kind)
        if record[10:14].hex()[:7] < self.first_day:
            return "UNPRICED"
        if record[DESCRIPTOR:] in self.held or record[DESCRIPTOR:] in new:
            return "KNOWN"
        new.add(record[DESCRIPTOR:])
        return "KEPT"

    def receipt(self, dump, layout):
        """The receipt line of an import, why it stops, and the data that are new."""
        counts, new, stop = collections.Counter(), set(), None
        for record in framed(dump, layout):
            if isinstance(record, str):
                stop = record
            else:
                counts[self.counted(record, new)] += 1
        words = ["%s %d" % (word, counts[word]) for word in COUNTED]
        return (" ".join(words) + " STOP %s\n" % stop).encode(), stop, new


# The head of a request, as RFC 9112 has it; a line may end with LF alone.
TOKEN = rb"[!#$%&'*+.^_`|~0-9A-Za-z-]+"
HEAD = re.compile(rb"(?:\r?\n)*(" + TOKEN + rb") ([!-~\x80-\xff]+) HTTP/1\.[01]\r?\n"
                  rb"((?:" + TOKEN + rb":[\t -~\x80-\xff]*\r?\n)*)\r?\n")
FIELD = re.compile(rb"([^:\r\n]+):([^\r\n]*)\r?\n")
PATH = re.compile(rb"/(?:(?P<office>)"
                  rb"|(?P<undivided>period|focus|coverage|coverage-csv)/(?P<number>[1-9][0-9]{0,3})"
                  rb"|(?P<whole>periods|disputes|disputes-csv|rulings)"
                  rb"|(?:(?P<report>(?:statement|adjustments|bill)(?:-csv)?)"
                  rb"|(?P<tried>what-if(?:-csv)?))"
                  rb"/(?P<period>[1-9][0-9]{0,3})(?:/(?P<centre>[A-Z0-9-]{1,16}))?"
                  rb"|(?P<dump>import)(?P<blocks>-bdw)?"
                  rb"|record/(?P<record>[0-9A-Fa-f]{64})"
                  rb"|tariff/(?P<day>[0-9]{4}-[0-9]{2}-[0-9]{2}))")
LENGTH = re.compile(rb"[0-9]{1,19}")
HOST = re.compile(rb"(?i:127\.0\.0\.1|localhost|\[::1\])(?::[0-9]*)?")
PHRASES = {200: "OK", 400: "Bad Request", 403: "Forbidden", 404: "Not Found",
           405: "Method Not Allowed", 411: "Length Required", 413: "Payload Too Large",
           422: "Unprocessable Entity", 503: "Service Unavailable"}

# What a request is to be answered: the status, the method that `Allow` names, the report by its
# name, period and centre, the dump that is imported in a layout, or the tariff that is tried, for
# which there is a report too. The one tariff of the books has a report of its name.
Asked = collections.namedtuple("Asked", "status allow report layout body", defaults=(None,) * 4)
TARIFF = "tariff", 0, None
TARIFF_DAY = b"2024-01-01"

# The centre of the records that no rule applies to.
NO_CENTRE = "UNASSIGNED"

# A record that all books here hold, one of the two of January that contradict each other.
HELD_RECORD = b"3c624f4eaf77558d6d39e098bf4e625a2a494aac158483dc62a837330bbbafe9"


def is_day_text(text):
    """A day of the calendar, from 1900 to 2099."""
    try:
        return 1900 <= datetime.date.fromisoformat(text.decode()).year <= 2099
    except ValueError:
        return False


def is_toml(text):
    try:
        tomllib.loads(text.decode())
    except (tomllib.TOMLDecodeError, UnicodeDecodeError):
        return False
    except (RecursionError, ValueError):
        return True
    return True


def is_no_tariff(text):
    """It is too long, or no TOML. Long texts are not read here: they take their time."""
    return len(text) > MOST_TARIFF or len(text) < 10_000 and not is_toml(text)


def may_be_far(text):
    """A tariff begins more than 366 days after the close of period 1. No other one is far: what the
    books hold is that close, and records."""
    newest = datetime.date.fromisoformat(CLOSED_THROUGH)
    try:
        first = tomllib.loads(text.decode())["effective"]
        return datetime.date.fromisoformat(first) - newest > datetime.timedelta(366)
    except (KeyError, TypeError, ValueError):
        return False


def is_text(target):
    try:
        target.decode()
    except UnicodeDecodeError:
        return False
    return True


def asked(request, last_period):
    """What a request asks of books with a given number of periods."""
    head = HEAD.match(request, 0, MOST_HEAD)
    fields = FIELD.findall(head[3]) if head else ()
    if not head or len(fields) > MOST_FIELDS or not is_text(head[2]):
        return Asked(400)
    names = {name.lower() for name, _ in fields}
    lengths = [value.strip(b" \t") for name, value in fields if name.lower() == b"content-length"]
    if len(lengths) > 1 or lengths and not LENGTH.fullmatch(lengths[0]):
        return Asked(400)
    hosts = [value.strip(b" \t") for name, value in fields if name.lower() == b"host"]
    sites = [value.strip(b" \t").lower() for name, value in fields if name.lower() == b"sec-fetch-site"]
    if not all(map(HOST.fullmatch, hosts)) or b"cross-site" in sites:
        return Asked(403)
    path = PATH.fullmatch(head[2].split(b"?")[0])
    if not path or path["day"] and not is_day_text(path["day"]):
        return Asked(404)
    method = b"POST" if path["dump"] or path["tried"] else b"GET"
    if head[1] != method:
        return Asked(405, method)
    if method == b"POST":
        return asked_by_body(request[head.end():], names, lengths, path, last_period)
    if path["day"]:
        return Asked(200, report=TARIFF) if path["day"] == TARIFF_DAY else Asked(404)
    if path["record"]:
        is_held = path["record"].lower() == HELD_RECORD
        return Asked(200, report=("record", 0, None)) if is_held else Asked(404)
    if path["office"] is not None:
        return Asked(200, report=("office-page", 0, None))
    if path["undivided"] == b"period":
        return asked_of(path, b"page", last_period)
    if path["report"] == b"bill":
        return asked_of(path, b"bill-page", last_period)
    return asked_of(path, path["whole"] or path["report"] or path["undivided"], last_period)


def asked_of(path, name, last_period, body=None):
    """The report that a path names, or 404 where it names a period or a centre that is not there: the tariff of the books has
    a rule for none. What another tariff would make of a centre may be asked of any."""
    period, centre = int(path["period"] or path["number"] or 0), path["centre"] and path["centre"].decode()
    found = period <= last_period and (body is not None or centre in (None, NO_CENTRE))
    report = (name.decode(), period, centre) if found else None
    return Asked(200 if found else 404, report=report, body=body)


def asked_by_body(rest, names, lengths, path, last_period):
    """What is asked of a body: of a dump, or of a tariff. What is no tariff is refused before a
    period that is not there."""
    if b"origin" in names:
        return Asked(403)
    if not lengths or b"transfer-encoding" in names:
        return Asked(411)
    length = int(lengths[0])
    if length > MOST_BODY:
        return Asked(413)
    body = rest[:length]
    if len(body) != length or path["tried"] and is_no_tariff(body):
        return Asked(400)
    if path["tried"]:
        return asked_of(path, path["tried"], last_period, body)
    return Asked(200, layout="bdw" if path["blocks"] else "rdw", body=body)


def answer(status, body=None, kind="plain", allow=None, charset="us-ascii"):
    """An answer as it is sent: without a body it gives its status alone."""
    phrase = "%d %s" % (status, PHRASES[status])
    body = (phrase + "\n").encode() if body is None else body
    line = ("Allow: %s\r\n" % allow.decode() if allow else PAGE_LINES if kind == "html"
            else NO_SNIFFING if charset == "utf-8" else "")
    return ("HTTP/1.1 %s\r\nContent-Type: text/%s; charset=%s\r\n%sContent-Length: %d\r\n"
            "Connection: close\r\n\r\n" % (phrase, kind, charset, line, len(body))).encode() + body


# What stands in the head of a tariff file, and of a page.
NO_SNIFFING = "X-Content-Type-Options: nosniff\r\n"
PAGE_LINES = ("Content-Security-Policy: default-src 'none'; style-src 'unsafe-inline'; frame-ancestors 'none'\r\n"
              + NO_SNIFFING)

# The head of an answer of any status.
STATUSES = "|".join("%d %s" % named for named in PHRASES.items())
ANSWER = re.compile((
    "HTTP/1\\.1 (?:%s)\r\nContent-Type: text/(?:(?:plain|csv|html); charset=us-ascii|plain; charset=utf-8)\r\n"
    "(?:Allow: (?:GET|POST)\r\n|Retry-After: 1\r\n|%s|%s)?Content-Length: [0-9]+\r\nConnection: close\r\n\r\n"
    % (STATUSES, re.escape(PAGE_LINES), NO_SNIFFING)).encode())

# The forms of texts.
SHOWN = r"(?:[ -\[\]-~]|\\[0-9A-F]{2})*"
DAY, NAME, AMOUNT = r"[12][0-9]{3}-[01][0-9]-[0-3][0-9]", r"[A-Z0-9-]{1,16}", r"[0-9]+\.[0-9]{4}"
SUMS = r" +[0-9]+ +[0-9]+\.[0-9]{2} +[0-9]+ +" + AMOUNT + r"\n"
OF_PERIOD = {0: r"PERIOD [0-9]+ (?:OPEN|CLOSED THROUGH %s)\n" % DAY,
             1: r"PERIOD 1 CLOSED THROUGH %s\n" % CLOSED_THROUGH, 2: r"PERIOD 2 OPEN\n"}
COLUMNS = ("%-10s %-16s %-16s %8s %19s %18s %21s\n"
           % ("DAY", "CENTRE", "SHIFT", "COUNT", "CPU", "BLOCKS", "AMOUNT"))
WIDE = r"(?=.{114}\n)"
ROWS = COLUMNS + r"(?:%s%s %%s +%s%s)*%sTOTAL%s" % (WIDE, DAY, NAME, SUMS, WIDE, SUMS)
TIME = r"[0-2][0-9](?::[0-5][0-9]){2}\.[0-9]{2}"
DETAIL_COLUMNS = ("%-10s %-16s %-16s %-11s %-8s %-8s %-8s %8s %19s %18s %21s NAME\n"
                  % ("DAY", "CENTRE", "SHIFT", "TIME", "JOB", "PROGRAM", "JOBID", "STEP", "CPU", "BLOCKS", "AMOUNT"))
TEXTS = {
    "statement": ROWS,
    "details": DETAIL_COLUMNS
               + r"(?:%s %%s +%s +%s %s +(?:[0-9]+|-) +[0-9]+\.[0-9]{2} +[0-9]+ +%s [0-9a-f]{64}\n)*"
               % (DAY, NAME, TIME, SHOWN, AMOUNT)
               + r"(?=.{153}\n)TOTAL" + SUMS,
    "what-if": r"TARIFF [0-9a-f]{64}\n" + ROWS + WIDE + "CHARGED" + SUMS,
    "adjustments": r"(?:(?:PLUS |MINUS) %s %%s +%s +-?%s [0-9a-f]{64} %s\n)*TOTAL +-?%s\n"
                   % (DAY, NAME, AMOUNT, SHOWN, AMOUNT)}
CSV_COLUMNS = "period,day,centre,shift,count,cpu,blocks,amount"
WHAT_IF_COLUMNS = "period,day,centre,shift,count,cpu,blocks,what_if"
DETAIL_CSV_COLUMNS = "period,day,centre,shift,time,job,program,jobid,step,cpu,blocks,amount,name"
ADJUSTMENT_COLUMNS = "period,action,day,centre,shift,amount,name,job"
DISPUTE_COLUMNS = ("dispute,system,job,reader,initiation,subtype,step,name,day,cpu,blocks,amount,"
                   "completion,jobid,program")
# A text among comma-separated values: in quotes where it has a comma or a quote.
VALUE = r"(?:(?:(?![,\"])[ -\[\]-~]|\\[0-9A-F]{2})*|\"(?:(?!\")[ -\[\]-~]|\"\"|\\[0-9A-F]{2})*\")"
MOMENT = r"[0-9A-F]{8} [0-9A-F]{8}"
CLOCK = r"(?:%s [0-2][0-9]:[0-5][0-9]:[0-5][0-9]\.[0-9]{2}|%s)" % (DAY, MOMENT)
CSV_ROWS = r"\n(?:%%s,%s,%%s,%s,[0-9]+,[0-9]+\.[0-9]{2},[0-9]+,%s\n)*" % (DAY, NAME, AMOUNT)
TABLES = {
    "statement-csv": CSV_COLUMNS + CSV_ROWS, "what-if-csv": WHAT_IF_COLUMNS + CSV_ROWS,
    "details-csv": DETAIL_CSV_COLUMNS
                   + r"\n(?:%%s,%s,%%s,%s,%s,%s,%s,%s,(?:[0-9]+|-),[0-9]+\.[0-9]{2},[0-9]+,%s,[0-9a-f]{64}\n)*"
                   % (DAY, NAME, TIME, VALUE, VALUE, VALUE, AMOUNT),
    "adjustments-csv": ADJUSTMENT_COLUMNS
                       + r"\n(?:%%s,(?:PLUS|MINUS),%s,%%s,%s,-?%s,[0-9a-f]{64},%s\n)*"
                       % (DAY, NAME, AMOUNT, VALUE)}
COMPLETION = r"(?:[0-9A-F]{4}/[0-9A-F]{4}|----)"
READ_IN = r"%s READER %s SUBTYPE " % (SHOWN, MOMENT)
MEMBER = r"  [0-9a-f]{64} %s +%s %s %s\n" % (DAY, AMOUNT, COMPLETION, SHOWN)
DISPUTES = (r"DISPUTES [0-9]+\n(?:%s[45] STEP [0-9]+(?: START %s)?\n(?:%s){2,})*"
            % (READ_IN, MOMENT, MEMBER))
TIME = r"%s [0-2][0-9](?::[0-5][0-9]){2}Z" % DAY
RECORD = (r"RECORD [0-9a-f]{64}\nDATED %s [0-2][0-9](?::[0-5][0-9]){2}\.[0-9]{2} IN PERIOD [0-9]+\n"
          r"CAME (?:-|[0-9]+ %s(?: [ -~]{1,255})?)\n"
          r"%s(?:4 STEP [0-9]+|5 STEP -)\nSTART %s COMPLETION %s %s ACCOUNTS [0-9]+\n(?:  %s\n)*"
          r"CPU [0-9]+\.[0-9]{2} BLOCKS [0-9]+\n"
          r"TARIFF %s SHIFT %s RULE (?:[0-9]+|-) CENTRE %s RULE (?:[0-9]+|-)\n"
          r"PRICE \(10 \* [0-9]+ \* [0-9]+ \+ [0-9]+ \* [0-9]+ \+ 1000 \* [0-9]+\)"
          r" \* [0-9]+ / 100000 = [0-9]+\n"
          r"AMOUNT %s\nRIVALS [0-9]+\n(?:%s)*CHOICES [0-9]+\n(?:  PERIOD [0-9]+ [0-9a-f]{64}\n)*"
          r"LIFE [0-9]+\n(?:  PERIOD [0-9]+ (?:CHARGED|ADDED|REVERSED)\n)*NET [01]\n"
          % (DAY, TIME, READ_IN, MOMENT, COMPLETION, SHOWN, SHOWN, DAY, NAME, NAME, AMOUNT, MEMBER))
DISPUTE_TABLE = (
    DISPUTE_COLUMNS
    + r"\n(?:[0-9]+,%s,%s,%s,%s,[45],[0-9]+,[0-9a-f]{64},%s,[0-9]+\.[0-9]{2},[0-9]+,"
    r"%s,%s,%s,%s\n)*"
    % (VALUE, VALUE, CLOCK, CLOCK, DAY, AMOUNT, COMPLETION, VALUE, VALUE))
PERIODS = r"PERIODS [0-9]+\n(?:[0-9]+ CLOSED THROUGH %s\n)*[0-9]+ OPEN\n" % DAY
RULINGS = (r"RULINGS\n(?:TARIFF %s [0-9a-f]{64} [0-9]+\n)*(?:CLOSE [0-9]+ %s\n)*"
           r"(?:(?:CHOICE|NONE) [0-9]+ PERIOD [0-9]+ [0-9a-f]{64}\n)*(?:ADOPTED PERIOD [0-9]+\n)?"
           r"(?:REPLACED %s PERIOD [0-9]+ [0-9a-f]{64} [0-9]+\n)*"
           r"(?:CREDIT [0-9]+ PERIOD [0-9]+ %s -?%s [ -~]{1,200}\n)*"
           % (DAY, DAY, DAY, NAME, AMOUNT))
RULED = (r"(?:TARIFF %s [0-9a-f]{64} [0-9]+(?: REPLACES [0-9]+)?|CLOSE [0-9]+ %s|(?:CHOICE|NONE) [0-9]+ PERIOD [0-9]+ [0-9a-f]{64}"
         r"|ADOPTED PERIOD [0-9]+|CREDIT [0-9]+ PERIOD [0-9]+ %s -?%s [ -~]{1,200}|-)" % (DAY, DAY, NAME, AMOUNT))
ENDED = r"(?:END|FRAME [1-8]|READ|READLIMIT|LEDGER [0-9]+)"
JOURNAL = (r"JOURNAL [0-9]+\n(?:[0-9]+ %s (?:%s|IMPORT [0-9a-f]{64} [0-9]+%s STOP (?:-|%s))\n"
           r"(?:  BY [ -~]{1,40}\n)?(?:  FILE [ -~]{1,255}\n)?(?:  NOTE [ -~]{1,200}\n)?)*"
           % (TIME, RULED, "".join(" %s [0-9]+" % word for word in COUNTED), ENDED))
JOURNAL_COLUMNS = ("number,time,act,words,digest,length,kept,known,unpriced,other,headers,trailers,lost,continued,damaged,stop,"
                   "person,file,note")
JOURNAL_TABLE = JOURNAL_COLUMNS + (
    r"\n(?:[0-9]+,%s,(?:[A-Z]+,%s,{13}|IMPORT,,[0-9a-f]{64}(?:,[0-9]+){10},(?:-|%s),)%s,%s,%s\n)*"
    % (TIME, VALUE, ENDED, VALUE, VALUE, VALUE))


# Of the whole office alone: cost and usage, and coverage.
FOCUS_COLUMNS = (
    "BillingAccountId,BillingAccountName,InvoiceIssuerName,ProviderName,PublisherName,BillingCurrency,"
    "BillingPeriodStart,BillingPeriodEnd,ServiceCategory,ServiceName,SubAccountId,SubAccountName,"
    "ChargePeriodStart,ChargePeriodEnd,ChargeCategory,ChargeClass,ChargeFrequency,ChargeDescription,"
    "ConsumedQuantity,ConsumedUnit,PricingQuantity,PricingUnit,BilledCost,EffectiveCost,ContractedCost,"
    "ListCost,Tags")
# What a letterhead says, or nothing: in quotes where it has a comma or a quote.
LETTERS = r"(?:(?:(?![,\"])[ -~]){0,40}|\"(?:(?!\")[ -~]|\"\"){1,40}\")"
MIDNIGHT = DAY + "T00:00:00Z"
TAGS = r'"{""Shift"":""%s"",""Line"":""%%s""}"' % NAME
CHARGED = (r",Usage-Based,Records: [0-9]+,([0-9]+\.[0-9]{2}),CPU-Seconds,\3,CPU-Seconds,(%s)(?:,\4){3},%s"
           % (AMOUNT, TAGS % "CHARGE"))
CORRECTED = (r"Correction,Usage-Based,Record: [0-9a-f]{64},,,,,(-?%s)(?:,\5){3},%s"
             % (AMOUNT, TAGS % "(?:PLUS|MINUS)"))
FOCUS_ROW = (r"(%s)(?:,\1){4},%s,%s,%s,Compute,Batch processing,(%s),\2,%s,%s,Usage,(?:%s|%s)\n"
             % (LETTERS, LETTERS, MIDNIGHT, MIDNIGHT, NAME, MIDNIGHT, MIDNIGHT, CHARGED, CORRECTED))
COVERAGE_COLUMNS = "period,day,system,count,first,last"
COVERAGE = r"(?:%s %s(?: +0 - {11}-| +[1-9][0-9]* %s %s)\n)*GAPS [0-9]+\n" % (DAY, SHOWN, TIME, TIME)
COVERAGE_ROW = r"%s,%s,(?:0,-,-|[1-9][0-9]*,%s,%s)\n" % (DAY, VALUE, TIME, TIME)


def undivided_form(name, period):
    """The form of a report that is of the whole office alone; with period 0 of any period."""
    return form({"focus": r"%s\n(?:%s)*" % (FOCUS_COLUMNS, FOCUS_ROW),
                 "coverage": "COVERAGE " + OF_PERIOD[period] + COVERAGE,
                 "coverage-csv": r"%s\n(?:%s,%s)*" % (COVERAGE_COLUMNS, period or "[0-9]+", COVERAGE_ROW)}[name])


UNDIVIDED = "focus", "coverage", "coverage-csv"


def html(title, one, more=""):
    """The form of a page: a style, and below it tags that are known, no attribute of which can hold a script or lead away from
    here, and texts of such bytes, of which none is markup. Some pages have more tags."""
    text = r"(?:%s|&(?:amp|lt|gt|quot|#39|#160|#215|#247);)" % one
    tags = "header|p|h1|div|table|caption|thead|tbody|tfoot|tr|th|td|dl|dt|dd|ul|li|nav|svg|rect|title|a" + more
    tag = (r"<(?:/?(?:" + tags + r")"
           r"(?: (?:class|scope|colspan|viewBox|preserveAspectRatio|role|aria-label|x|width|height)='%s*'"
           r"| href='/(?:[a-z-]+(?:/(?:[0-9]+(?:/[A-Z0-9-]{1,16})?|[0-9a-f]{64}))?)?')*)>") % text
    return (r"<!DOCTYPE html>\n<html lang='en'>\n<head>\n<meta charset='us-ascii'>\n<meta name='viewport' [^<>\n]*>\n"
            r"<meta http-equiv='Content-Security-Policy' content=\"default-src 'none'; style-src 'unsafe-inline'\">\n"
            r"<title>%s</title>\n<style>\n[^<]*</style>\n</head>\n<body>\n<main>\n(?:%s|%s)*</main>\n</body>\n</html>\n"
            % (title, text, tag))


ONE = r"[ !#-%(-;=?-~\n]"
OF_BILL = "(?:Bill|Draft of bill) [0-9]+(?:-%s)?" % NAME
PAGES = {"office-page": html("Office", ONE), "page": html("Period [0-9]+", ONE), "bill-page": html(OF_BILL, ONE, "|b|small")}
WHOLE = {"disputes": DISPUTES, "disputes-csv": DISPUTE_TABLE, "periods": PERIODS,
         "record": RECORD, "rulings": RULINGS, "journal": JOURNAL, "journal-csv": JOURNAL_TABLE, **PAGES}
SOUND = "SOUND\n" + "".join(
    word + " [0-9]+\n" for word in "FORM RECORDS TARIFFS CLOSES CHOICES ROWS LINES".split())
UNSOUND = r"UNSOUND [ -~]+: [ -~]+\n"
RECEIPT = " ".join(word + " [0-9]+" for word in COUNTED)
STOPPED = r" STOP (END|FRAME [1-8]|READ|READLIMIT|LEDGER [0-9]+)\n"
RECEIPT += STOPPED
# The same of the works of a dump.
WITHHELD = "WITHHELD [0-9]+ ALREADY [0-9]+ NOT HELD [0-9]+" + STOPPED
CLASSES = "HEADER|TRAILER|LOST|OTHER|CONTINUED|USAGE(?: [0-9a-f]{64})?|DAMAGED [1-9]"
CHECKED = (r"(?:[0-9]+ TYPE (?:[0-9]+|-) (?:%s)\n)*" % CLASSES
           + r"RECORDS [0-9]+ STOP (?:END|FRAME [1-8])\n")


def form(text):
    return re.compile(text.encode())


@functools.cache
def report_form(name, period=0, centre=None):
    """The form of a report of books with two periods, the first of which is closed; with period 0
    of any books, and of any centre. With a centre it has rows and lines of that one alone."""
    if name in TEXTS:
        title = " CENTRE " + centre if centre else "" if period else "(?: CENTRE %s)?" % NAME
        return form(name.upper() + title + " " + OF_PERIOD[period] + TEXTS[name] % (centre or NAME))
    if name in TABLES:
        return form(TABLES[name] % (period or "[0-9]+", centre or NAME))
    if name == "bill-csv":
        return form(BILLS["centre-bill-csv" if centre else name])
    return undivided_form(name, period) if name in UNDIVIDED else form(WHOLE[name])


# Bills, of the office and of a centre.
BOOKED = r"-?[0-9]+(?:\.[0-9]{1,4})?"
BILL_HEAD = (OF_PERIOD[0] + r"(?:DRAFT|NUMBER) [0-9]+%%s\n(?:FROM %s\n)?" % DAY
             + r"(?:OFFICE [ -~]{1,40}\n)?(?:CURRENCY [ -~]{1,40}\n)?")
SUMS_COLUMNS = "%-16s %13s %13s %13s(?: %13s)? %13s %13s\n" % (
    "CENTRE", "CHARGED", "LATE", "REVERSED", "CREDITS", "OWED", "BOOKED")
BILLED = r"(?=.{86,}\n)%%s(?: +%s){3}(?: +-?%s){1,2} +%s\n" % (AMOUNT, AMOUNT, BOOKED)
HELD_BACK = r"(?:DISPUTES [0-9]+ LEAST %s GREATEST %s\n)?" % (AMOUNT, AMOUNT)
WHOLE_LINE = r"(?=.{100}\n)"
BILL_TERMS = (
    r"(?:PRICES\nTARIFF     OF A                         RECORD             CPU     1000 BLOCKS\n"
    + r"(?:(?=.{78}\n)%s (?:STEP|JOB) (?: +%s){3}\n)+" % (DAY, AMOUNT)
    + r"PERCENTS\nTARIFF     SHIFT            PERCENT\n(?:(?=.{35}\n)%s %s +[0-9]{1,4}\n)+)?" % (DAY, NAME))
BILL_PARTS = "".join(
    r"(?:%s %s\n%s%s +SHIFT            PERCENT      COUNT%sAMOUNT\n(?:%s%s %s +[0-9]+ +[0-9]+ +%s%s\n)+"
    r"%sTOTAL +[0-9]+ +%s%s\n)?" % (
        kind, by, WHOLE_LINE, first, "(?: +CPU +BLOCKS)? +" if kind == "JOBS" else " +CPU +BLOCKS +", WHOLE_LINE, DAY, NAME, work, AMOUNT,
        WHOLE_LINE, work, AMOUNT)
    for by, first in (("BY SHIFT", "TARIFF"), ("BY DAY", "DAY"))
    for kind, work in (("STEPS", r"[0-9]+\.[0-9]{2} +[0-9]+ +"), ("JOBS", r"(?:[0-9]+\.[0-9]{2} +[0-9]+ +)?")))
BILL_RECORDS = "".join(
    r"(?:%s\n%sDAY        SHIFT            JOB      PROGRAM  JOBID     STEP PERIOD +AMOUNT\n" % (word, WHOLE_LINE)
    + r"(?:%s %s +%s [ 0-9-]+ +[0-9]+ +%s\n  [0-9a-f]{64}\n)+%sTOTAL +%s\n)?" % (DAY, NAME, SHOWN, AMOUNT, WHOLE_LINE, AMOUNT)
    for word in ("LATE", "REVERSED"))
BILL_CREDITS = (r"(?:CREDITS\n%sREASON +AMOUNT\n(?:(?=.{100,}\n)[ -~]{1,278} -?%s\n)+%sTOTAL +-?%s\n)?"
                % (WHOLE_LINE, AMOUNT, WHOLE_LINE, AMOUNT))
REASON = r"(?:(?:(?![,\"])[ -~]){1,200}|\"(?:(?!\")[ -~]|\"\"){1,200}\")"
OFFICE_BILL_COLUMNS = "period,centre,steps,jobs,late,reversed,owed,booked,credits"
BILL_COLUMNS = ("period,day,centre,shift,kind,count,cpu,blocks,amount,of_period,name,job,program,jobid,step,"
                "percent")
BILLS = {
    "bill": "BILL " + BILL_HEAD % "" + SUMS_COLUMNS + "(?:%s)*%s" % (BILLED % NAME, BILLED % "TOTAL") + HELD_BACK
            + BILL_TERMS,
    "centre-bill": "BILL CENTRE %s " % NAME + BILL_HEAD % ("-" + NAME) + SUMS_COLUMNS + BILLED % NAME + HELD_BACK
                   + BILL_TERMS + BILL_PARTS + BILL_RECORDS + BILL_CREDITS,
    "bill-csv": OFFICE_BILL_COLUMNS + r"\n(?:[0-9]+,%s(?:,%s){4},-?%s,%s,-?%s\n)*" % (NAME, AMOUNT, AMOUNT, BOOKED, AMOUNT),
    "centre-bill-csv": BILL_COLUMNS + r"\n(?:[0-9]+,(?:,%s,,CREDIT,,,,-?%s,,,%s,,,,|%s,%s,(?:%s)?,(?:%s|%s|%s|%s|%s))\n)*" % (
        NAME, AMOUNT, REASON, DAY, NAME, NAME, r"STEPS,[0-9]+,[0-9]+\.[0-9]{2},[0-9]+,%s,,,,,,,[0-9]+" % AMOUNT,
        r"JOBS,[0-9]+,(?:[0-9]+\.[0-9]{2},[0-9]+|,),%s,,,,,,,[0-9]+" % AMOUNT,
        "(?:PLUS|MINUS),,,,-?%s,[0-9]+,[0-9a-f]{64},%s,%s,%s,(?:[0-9]+|-)," % (AMOUNT, *3 * (VALUE,)),
        "(?:STEP|JOB)-PRICE,%s,%s,%s,,,,,,,," % (AMOUNT, AMOUNT, AMOUNT), "PERCENT,,,,,,,,,,,[0-9]+")}

# What a ruling would change: figures of the open period, before it and after it.
FIGURES = ("%16s %21s %21s\n" % ("", "BEFORE", "AFTER")
           + r"(?=.{60}\n)STATEMENT [0-9]+ +%s +%s\n" % (AMOUNT, AMOUNT)
           + r"(?=.{60}\n)ADJUSTMENTS [0-9]+ +-?%s +-?%s\n" % (AMOUNT, AMOUNT)
           + r"(?=.{60}\n)RECORDS [0-9]+ +[0-9]+ +[0-9]+\n(?=.{60}\n)%s +[0-9]+ +[0-9]+\n")
DRY_RUN = r"DRY RUN (?:%s)" % "|".join(
    words + " (?:DONE|ALREADY)\\n" + FIGURES % last for words, last in (
        ("TARIFF %s(?: REPLACE)?" % DAY, "PRICED"), ("CLOSE [0-9]+ " + DAY, "RECORDS [0-9]+"),
        ("CHOOSE (?:NONE )?[0-9a-f]{64}", "DISPUTES"), ("CREDIT [0-9]+ " + NAME, "CREDITS [0-9]+"), ("ADOPT", "DISPUTES")))

OF_PERIODS = ("statement", "statement-csv", "what-if", "what-if-csv", "details", "details-csv",
              "adjustments", "adjustments-csv", *UNDIVIDED)
OF_COMMANDS = {name: report_form(name) for name in (*OF_PERIODS, *WHOLE)}
OF_COMMANDS |= {name: form(text) for name, text in BILLS.items()}
OF_COMMANDS |= {
    "audit": form(SOUND + "|" + UNSOUND), "import": form(RECEIPT), "withheld": form(WITHHELD),
    "ruling": form("DONE\n|ALREADY\n"), "dry-run": form(DRY_RUN), "listed": form("(?:(?:DONE|ALREADY)\n)*"),
    "tariff-text": form(r"(?s:.*)\[rates\](?s:.*)"), "check": form(CHECKED), "init": form(""),
    "explain": form(r"[ -~]+\n[ -~]+\n"), "upgrade": form("UPGRADED 3\n|ALREADY\n"),
    "version": form(r"chargectl [0-9.]+\n"),
    "help": form(r"[ -~\n]*Usage: chargectl[ -~\n]*"),
    "trial": form(RECEIPT + "STATEMENT PERIOD 1 OPEN\n" + TEXTS["statement"] % NAME + DISPUTES)}

# Of books that are damaged a report begins as it has to. Its rows say what the file says, which may
# be no name and no day.
OF_DAMAGED = OF_COMMANDS | {
    name: form(front + r"(?s:.*)\n") for name, front in (
        ("statement", "STATEMENT " + OF_PERIOD[0] + COLUMNS), ("statement-csv", CSV_COLUMNS),
        ("what-if", "WHAT-IF " + OF_PERIOD[0] + "TARIFF [0-9a-f]{64}\n" + COLUMNS),
        ("what-if-csv", WHAT_IF_COLUMNS), ("details", "DETAILS " + OF_PERIOD[0] + DETAIL_COLUMNS),
        ("details-csv", DETAIL_CSV_COLUMNS), ("bill", "BILL " + OF_PERIOD[0]),
        ("centre-bill", "BILL CENTRE %s " % NAME + OF_PERIOD[0]),
        ("bill-csv", OFFICE_BILL_COLUMNS), ("centre-bill-csv", BILL_COLUMNS),
        ("adjustments", "ADJUSTMENTS " + OF_PERIOD[0]), ("disputes", "DISPUTES [0-9]+"),
        ("focus", FOCUS_COLUMNS), ("coverage", "COVERAGE " + OF_PERIOD[0]), ("coverage-csv", COVERAGE_COLUMNS),
        ("adjustments-csv", ADJUSTMENT_COLUMNS), ("disputes-csv", DISPUTE_COLUMNS),
        ("periods", "PERIODS [0-9]+"), ("record", "RECORD [0-9a-f]{64}"), ("rulings", "RULINGS"),
        ("journal", "JOURNAL [0-9]+"), ("journal-csv", JOURNAL_COLUMNS))}
# Nor does it make markup then.
OF_DAMAGED["page"] = form(html("Period [0-9]+", r"[^<>&'\"]"))
OF_DAMAGED["bill-page"] = form(html(OF_BILL, r"[^<>&'\"]", "|b|small"))

# A line on standard error, by its status: 1, 4, 5, and 3 for any other.
ERROR = re.compile(
    rb"chargectl: (?:(io)|(unsound|busy|ledger 2|ledger 3|ledger 1[678])|(ledger 1)|exists"
    rb"|frame [1-8]|tariff [1-6](?: [a-z_]+)?|(?:word|ledger 4|ledger 1[23])(?: line [0-9]+)?"
    rb"|ledger (?:[5-7]|9 [0-9]+|1[01]|19|20))\n")


# What a command notices, after what it says; and the last line of one that leaves pages in the log of
# books, or keeps a log that holds none.
LAYOUT, FAR, TORN = b"chargectl: layout\n", b"chargectl: far\n", b"chargectl: torn\n"
LOG = b"chargectl: log\n"


def own_lines(lines):
    """What is said on standard error without the lines for people, which are set in."""
    return b"".join(line for line in lines.splitlines(True) if not line.startswith(b"  "))


def said_first(lines):
    """What is said on standard error before what is noticed."""
    return own_lines(lines).removesuffix(LOG).removesuffix(FAR).removesuffix(LAYOUT).removesuffix(TORN)


# What a close leaves of a log, and the header of one and that of a page.
CLOSED_LOG, LOG_HEADER, PAGE_HEADER = 41, 32, 24
LOG_NAMES = "-wal", "-journal", "-shm"


def may_be_books(file):
    """A file begins as those of SQLite do."""
    return file.startswith(b"SQLite format 3\0")


def is_signed(log):
    """The header of a log has its magic number, and the checksum of what stands before that."""
    if log[:4] not in (b"\x37\x7f\x06\x82", b"\x37\x7f\x06\x83"):
        return False
    first = second = 0
    words = struct.unpack_from((">" if log[3] & 1 else "<") + "6I", log)
    for one, other in zip(words[::2], words[1::2]):
        first = first + one + second & 0xffffffff
        second = second + other + first & 0xffffffff
    return struct.unpack_from(">2I", log, 24) == (first, second)


def is_renewed(log):
    """The header of a log is that of one of books which was begun anew, once its pages were moved."""
    begins = bytes.fromhex("377F0682002DE21800001000")
    return log[:12] == begins and is_signed(log) and log[12:16] not in (bytes(4), b"\xff" * 4)


def is_no_log(file):
    """A file is longer than what a close leaves of a log, and is passed over as one: no page has
    room in it, or its header is not signed. One that a command emptied is the program's own."""
    if len(file) <= CLOSED_LOG or is_renewed(file):
        return False
    return len(file) < LOG_HEADER + PAGE_HEADER or not is_signed(file)


def statuses_of(lines):
    """The statuses that go with what is said on standard error, besides 0. A change that went well has
    status 4 where it left a log. A day that had to be near, and a dump that had to be whole, are
    refused with what is noticed of others; but what was read of such a dump is status 4."""
    noticed = {LOG: (4,), FAR: (3,), TORN: (3, 4)}
    if not said_first(lines):
        return noticed.get(own_lines(lines), (4,) if own_lines(lines).endswith(LOG) else ())
    said = ERROR.fullmatch(said_first(lines))
    return said and (1 if said[1] else 4 if said[2] else 5 if said[3] else 3,) or ()


# The line of a list: how long it may be, what may stand before a name and behind it, and a name.
MOST_LINE, MARK, BLANKS, NAMED = 128, b"\xef\xbb\xbf", b" \t\x0c\r", re.compile(rb"[0-9A-Fa-f]{64}")


def said_by(line):
    """What a line of a list says, without what a spreadsheet writes round it."""
    if len(line) > MOST_LINE:
        return line
    said = line.removeprefix(MARK).rstrip(BLANKS)
    return said[1:-1] if len(said) > 1 and said[:1] == said[-1:] == b'"' else said


def listed(data):
    """The names of a list, each with the number of its line; or the number of the first line that
    says anything else."""
    *ended, last = data.split(b"\n")
    said = [said_by(line.removesuffix(b"\r")) for line in ended] + [said_by(last)]
    names = [(number, name) for number, name in enumerate(said, 1) if name]
    wrong = next((number for number, name in names if not NAMED.fullmatch(name)), None)
    return (names, None) if wrong is None else (None, wrong)
