"""Inputs for `hostile`: bytes in no order, dumps and requests that are cut, spliced and turned,
such tariff files, books and words. Each is made by a generator of random numbers of its own, so
that any of them can be made again alone."""
import pathlib
import random
import re
import struct

import dumps
from dumps import make
from formats import HELD_RECORD, MOST_BODY, MOST_HEAD

SAMPLES = pathlib.Path(__file__).resolve().parent.parent / "samples"
TARIFFS = [(SAMPLES / name).read_bytes() for name in ("office.toml", "february.toml")]

# Where records have what is turned: triplets, packed dates, other fields with their lengths.
TRIPLETS = 24, 32, 40, 48, 56, 64
DATES = 10, 132, 140
FIELDS = ((4, 1), (5, 1), (6, 4), (14, 4), (22, 2), (72, 8), (80, 8), (104, 8), (112, 2), (128, 4),
          (136, 4), (148, 4), (152, 4), (160, 4))

# What is put there, in two bytes and in four; and the digits of dates, in their parts.
SHORT = (0, 1, 2, 3, 4, 5, 12, 17, 18, 23, 24, 71, 72, 168, 255, 256, 0x7fff, 0x8000, 0xfffb,
         0xfffc, 0xffff)
LONG = (0, 3, 4, 71, 72, 144, 156, 168, 169, 0xffff, 0x10000, 0x7fffffff, 0x80000000, 0xfffffffc,
        0xffffffff)
DATE_PARTS = (("0", "1", "2", "9", "A"), ("00", "23", "24", "25", "99", "A0"),
              ("000", "001", "031", "366", "365", "367", "999", "0F1"), "FFFCDE0")


def seeded(seed, index):
    return random.Random((seed << 64) + index)


def segments(dump):
    at = 0
    while at < len(dump):
        length, = struct.unpack_from(">H", dump, at)
        yield dump[at:at + length]
        at += length


# Each record as its segments.
POOL = [list(segments(record)) for record in dumps.mixed(1000)]
POOL += [[segment] for name in ("month.smf", "february.smf", "rerun.smf")
         for segment in segments((SAMPLES / name).read_bytes())]


def put(data, at, field):
    return data[:at] + field + data[at + len(field):]


def described(data, kind=make.COMPLETE):
    """Data as a segment; a length that does not fit is cut."""
    return struct.pack(">HBB", len(data) + 4 & 0xffff, kind, 0) + data


def descriptor_turned(rng, record):
    if rng.random() < 0.5:
        return put(record, 0, struct.pack(">H", rng.choice(SHORT)))
    return put(record, 2, bytes([rng.randrange(256)]))


def triplet_turned(rng, record):
    at = rng.choice(TRIPLETS)
    field = rng.choice(((at, ">I", LONG), (at + 4, ">H", SHORT), (at + 6, ">H", SHORT)))
    return put(record, field[0], struct.pack(field[1], rng.choice(field[2])))


def date_turned(rng, record):
    digits = "0" + "".join(map(rng.choice, DATE_PARTS))
    return put(record, rng.choice(DATES), bytes.fromhex(digits))


def field_turned(rng, record):
    at, length = rng.choice(FIELDS)
    return put(record, at, rng.randbytes(length))


def bytes_turned(rng, data):
    turned = bytearray(data)
    for _ in range(rng.randrange(1, 5) if data else 0):
        turned[rng.randrange(len(data))] = rng.randrange(256)
    return bytes(turned)


def made_shorter(rng, record):
    return described(record[4:rng.randrange(4, len(record) + 1)])


def made_longer(rng, record):
    return described(record[4:] + rng.randbytes(rng.randrange(300)))


def with_accounts(rng, record):
    fields = [rng.randbytes(rng.randrange(9)) for _ in range(rng.randrange(4))]
    data = dumps.with_accounts(record[4:], *fields)
    if rng.random() < 0.3:
        data = dumps.patched(data, 70, struct.pack(">H", rng.choice(SHORT)))
    return described(data[:rng.choice((len(data), len(data), len(data) - 1))])


def of_other_work(rng, record):
    return put(record, 72, make.name("H%07d" % rng.randrange(200)))


TURNS = (descriptor_turned, triplet_turned, triplet_turned, date_turned, field_turned, field_turned,
         bytes_turned, made_shorter, made_longer, with_accounts, of_other_work)


def spanned(rng, data):
    """The segments of a record, also with a kind that is wrong."""
    cuts = sorted(rng.randrange(len(data) + 1) for _ in range(rng.randrange(1, 4)))
    parts = [data[start:end] for start, end in zip([0] + cuts, cuts + [len(data)])]
    kinds = [make.FIRST] + [make.BETWEEN] * (len(parts) - 2) + [make.LAST]
    if rng.random() < 0.2:
        kinds[rng.randrange(len(kinds))] = rng.randrange(256)
    return list(map(described, parts, kinds))


def long_record(rng):
    """A record, or several segments, of about as many data as one may have."""
    size = rng.choice((65_530, 65_531, 65_532, 40_000))
    data = make.header(rng.choice((2, 30, 70)), 1) + bytes(size - 14)
    return [described(data[:40_000], make.FIRST), described(data[40_000:], make.LAST)]


def record(rng):
    """The segments of a record, a part of which may be changed."""
    if rng.random() < 0.003:
        return long_record(rng)
    parts = rng.choice(POOL)
    if len(parts) > 1 or rng.random() < 0.4:
        return parts
    turned = rng.choice(TURNS)(rng, parts[0])
    return spanned(rng, turned[4:]) if rng.random() < 0.15 else [turned]


def blocked(rng, parts):
    """Segments in blocks, some of which have a wrong descriptor."""
    blocks, at = [], 0
    while at < len(parts):
        count = rng.randrange(1, 6)
        block = b"".join(parts[at:at + count])
        length = rng.choice(SHORT) if rng.random() < 0.03 else len(block) + 4 & 0x7fff
        blocks.append(struct.pack(">HH", length, rng.choice((0, 0, 0xffff))) + block)
        at += count
    return b"".join(blocks)


def mutated(rng, data, other):
    """Data that are cut, spliced with others, changed in places, or a part of which is new, missing
    or there twice."""
    start, end = sorted((rng.randrange(len(data) + 1), rng.randrange(len(data) + 1)))
    way = rng.randrange(6)
    if way == 0:
        return data[:end]
    if way == 1:
        return data[:start] + other[rng.randrange(len(other) + 1):]
    if way == 2:
        return bytes_turned(rng, data)
    if way == 3:
        return data[:start] + rng.randbytes(rng.randrange(20)) + data[start:]
    return data[:start] + data[end:] if way == 4 else data[:end] + data[start:]


def noise(rng):
    if rng.random() < 0.5:
        return rng.randbytes(rng.choice((1, 4, 20, 200, 2_000, 20_000)) * rng.randrange(1, 3))
    return bytes(rng.choices(b"\r\n :/?%GETPOSHTP/1.0abc\t,;\0\xff", k=rng.randrange(200)))


def dump(rng):
    """A layout, and a dump that is hostile."""
    layout = rng.choice(("rdw", "rdw", "bdw"))
    if rng.random() < 0.05:
        return layout, noise(rng)
    parts = [part for _ in range(rng.choice((0, 1, 1, 1, 2, 2, 3, 5, 12))) for part in record(rng)]
    is_blocked = (layout == "bdw") != (rng.random() < 0.04)
    made = blocked(rng, parts) if is_blocked else b"".join(parts)
    if rng.random() < 0.35:
        made = mutated(rng, made, b"".join(rng.choice(POOL)))
    return layout, made


# What heads of requests are made of.
METHODS = [b"GET"] * 8 + [b"POST"] * 8
METHODS += [b"HEAD", b"PUT", b"DELETE", b"OPTIONS", b"get", b"GE", b"POSTS", b"!#$%&'*+.^_`|~-",
            b"G(T", b"", b"M" * 3_000]
REPORTS = [b"/periods", b"/disputes", b"/disputes-csv", b"/rulings", b"/tariff/2024-01-01",
           b"/record/" + HELD_RECORD, b"/record/" + HELD_RECORD.upper(), b"/", b"/period/1", b"/period/2",
           b"/focus/1", b"/focus/2", b"/coverage/1", b"/coverage/2", b"/coverage-csv/1", b"/coverage-csv/2",
           b"/statement/1", b"/statement/2", b"/statement-csv/1", b"/statement-csv/2",
           b"/adjustments/1", b"/adjustments/2", b"/adjustments-csv/2", b"/statement/1/LEDGER",
           b"/statement-csv/1/LEDGER", b"/adjustments/2/LEDGER", b"/adjustments-csv/2/LEDGER",
           b"/statement/1/UNASSIGNED", b"/statement-csv/2/UNASSIGNED", b"/adjustments/2/UNASSIGNED",
           b"/bill/1", b"/bill/2", b"/bill-csv/1", b"/bill-csv/2", b"/bill/1/UNASSIGNED",
           b"/bill-csv/1/UNASSIGNED", b"/bill/2/LEDGER", b"/bill-csv/2/LEDGER"]
WHAT_IFS = [b"/what-if/1", b"/what-if/2", b"/what-if/3", b"/what-if-csv/1", b"/what-if/1/LEDGER",
            b"/what-if-csv/2/STORES"]
PATHS = REPORTS + WHAT_IFS + [b"/import", b"/import-bdw"] * 2
TARGETS = PATHS * 3
TARGETS += [b"/tariff/2024-01-02", b"/tariff/2024-02-30", b"/tariff/2024-1-1", b"/tariff/",
            b"/tariff", b"/tariff/2024-01-01/", b"/rulings/", b"/rulings/1", b"/disputes-csv/1",
            b"/adjustments-csv", b"/adjustments-csv/3", b"/statement/1/ledger",
            b"/statement/1/ABCDEFGHIJKLMNOPQ", b"/statement/1/LEDGER/", b"/statement/3/LEDGER"]
TARGETS += [b"/statement/3", b"/statement/0", b"/statement/01", b"/statement/9999",
            b"/statement/10000", b"/statement/65537", b"/statement/-1", b"/statement/+1",
            b"/statement/1/", b"/statement/", b"/statement", b"/statement/%31", b"/statement/{n}",
            b"/statement/1/2", b"/statement/1a", b"/statement-csv", b"/adjustments/0",
            b"/statement/\xd9\xa1"]
TARGETS += [b"/period", b"/period/", b"/period/0", b"/period/01", b"/period/3", b"/period/10000", b"/period/1/",
            b"/period/1/LEDGER", b"/?x", b"//", b"/index.html", b"/favicon.ico"]
TARGETS += [b"/focus", b"/focus/0", b"/focus/3", b"/focus/1/", b"/focus/1/LEDGER", b"/focus-csv/1", b"/coverage/",
            b"/bill", b"/bill/", b"/bill/0", b"/bill/3", b"/bill/1/", b"/bill-csv/3/UNASSIGNED", b"/bill-table/1",
            b"/coverage/01", b"/coverage/3", b"/coverage/2/LEDGER", b"/coverage-csv/10000", b"/coverage-table/1"]
TARGETS += [b"/record/" + b"ab" * 32, b"/record/" + b"zz" * 32, b"/record/" + b"0" * 63, b"/record/",
            b"/record", b"/record/" + HELD_RECORD + b"0", b"/record/" + HELD_RECORD + b"/",
            b"/record/0x" + b"0" * 62]
TARGETS += [b"/what-if/0", b"/what-if", b"/what-if/", b"/what-if/1/", b"/what-if/1/ledger",
            b"/what-if-csv/10000", b"/what-if-table/1"]
TARGETS += [b"/periods/", b"//periods", b"/periods?", b"/periods?a=b?c", b"/Periods", b"/%70eriods",
            b"/periods#1", b"/./periods", b"/periods?\xc3\xa9", b"/periods?\xff", b"/peri\0ds",
            b"/per iods", b"/import?x", b"/import-bdwx", b"/import/", b"*", b"?",
            b"http://127.0.0.1/periods", b"/\xc3\xa9", b"", b"/" * 9_000]
VERSIONS = [b" HTTP/1.1"] * 12 + [b" HTTP/1.0"] * 3
VERSIONS += [b" HTTP/2.0", b" HTTP/1.2", b" http/1.1", b" HTTP/1.1 ", b"  HTTP/1.1", b" HTTP/1",
             b"", b" HTTP/0.9", b"\tHTTP/1.1"]
ENDS = [b"\r\n"] * 20 + [b"\n"] * 3 + [b"\r", b"\r\r\n", b"\n\r", b"\0\r\n"]
HOSTS = [b"Host: localhost"] * 6 + [b"Host: 127.0.0.1:8030", b"HOST: LocalHost:80", b"host:[::1]:65536", b"Host: localhost:"]
FOREIGN_HOSTS = [b"Host: books", b"Host:", b"host: books.example.org:80", b"Host: localhost.example.org", b"Host: [::1",
                 b"Host: 127.0.0.1:80x", b"Host: 127.0.0.2", b"Host: local\xffhost", b"HOST: localhost, localhost",
                 b"Sec-Fetch-Site: cross-site", b"SEC-FETCH-SITE:Cross-Site"]
OTHER_FIELDS = HOSTS[5:] + [b"Expect: 100-continue", b"Connection: keep-alive", b"Accept: */*",
                b"X:", b"X: \t ", b"X-A: a\tb", b"X: \xff\xfe", b"Content_Length: 5", b"Origins: a",
                b"Sec-Fetch-Site: same-origin", b"Sec-Fetch-Site: none", b"Sec-Fetch-Site: cross-sites"]
WRONG_FIELDS = [b" folded", b"\tfolded", b"no colon", b": no name", b"Host : books", b"A B: c",
                b"X: a\0b", b"X: a\x7fb", b"X\xc3: a", b"X: a\rb", b"Content-Length : 5"]
POST_FIELDS = [b"Origin: http://example.org", b"ORIGIN:", b"origin: null",
               b"Transfer-Encoding: chunked", b"transfer-encoding:"]
LENGTHS = [b"", b"-1", b"+5", b"5,5", b"5 5", b"0x10", b"1e3", b"5\t", b"16777216", b"16777217",
           b"9999999999999999999", b"18446744073709551616", b"00000000000000000005",
           b"0000000000000000005", b"\xd9\xa5"]

# A length is mostly right, or off by so much.
OFF = (0,) * 7 + (-1, 1, -40, 4_000)


def length_field(rng, size):
    name = rng.choice((b"Content-Length: ", b"content-length:", b"CONTENT-LENGTH: \t"))
    if rng.random() < 0.75:
        return name + b"%d" % max(0, size + rng.choice(OFF))
    return name + rng.choice(LENGTHS)


def fields(rng, size):
    """Fields of a head whose body has that size."""
    made = [rng.choice(OTHER_FIELDS) for _ in range(rng.randrange(3))]
    for chance, field in ((0.7, length_field(rng, size)), (0.05, length_field(rng, size)),
                          (0.1, rng.choice(POST_FIELDS)), (0.08, rng.choice(WRONG_FIELDS)),
                          (0.06, rng.choice(FOREIGN_HOSTS))):
        if rng.random() < chance:
            made.append(field)
    rng.shuffle(made)
    return made


def head(rng, method, target, version, lines):
    """The lines of a head; some end otherwise than with CR LF."""
    start = method + b" " + target + version
    if rng.random() < 0.85:
        return b"\r\n".join([start] + lines) + b"\r\n\r\n"
    blank = b"".join(rng.choice(ENDS) for _ in range(rng.randrange(3)))
    return blank + b"".join(line + rng.choice(ENDS) for line in [start] + lines) + rng.choice(ENDS)


def any_head(rng):
    body = dump(rng)[1] if rng.random() < 0.3 else b""
    parts = rng.choice(METHODS), rng.choice(TARGETS), rng.choice(VERSIONS)
    return head(rng, *parts, fields(rng, len(body))) + body


def report(rng):
    return head(rng, b"GET", rng.choice(REPORTS), b" HTTP/1.1", [rng.choice(HOSTS)])


def upload(rng):
    """A dump at the path of its layout, or some times of the other one."""
    layout, body = dump(rng)
    if rng.random() < 0.05:
        layout = "rdw"
    path = b"/import" if layout == "rdw" else b"/import-bdw"
    lines = [rng.choice(HOSTS), b"Content-Length: %d" % len(body)]
    if rng.random() < 0.3:
        lines = fields(rng, len(body))
    return head(rng, b"POST", path, b" HTTP/1.1", lines) + body


def tried(rng):
    """A tariff file at the path of a what-if."""
    body = tariff(rng)
    lines = [rng.choice(HOSTS), b"Content-Length: %d" % len(body)]
    if rng.random() < 0.2:
        lines = fields(rng, len(body))
    return head(rng, b"POST", rng.choice(WHAT_IFS), b" HTTP/1.1", lines) + body


def long_head(rng):
    """A head near one of its limits: a number of fields, or of bytes."""
    start = b"GET /periods HTTP/1.1\r\n"
    if rng.random() < 0.5:
        return start + b"X: y\r\n" * rng.choice((0, 1, 62, 63, 64, 65, 66, 200, 2_000)) + b"\r\n"
    name, end = b"X: ", b"\r\n\r\n"
    size = rng.choice((MOST_HEAD - 1, MOST_HEAD, MOST_HEAD + 1, 30_000))
    return start + name + b"y" * (size - len(start + name + end)) + end


def long_body(rng):
    """A body of about as many bytes as one may have: of records that no books hold, of one that
    comes again, or of zeros."""
    unit = rng.choice((dumps.OTHER_TYPE[0], dumps.OTHER_TYPE[0], dumps.usage(0), bytes(4_096)))
    size = MOST_BODY + rng.choice((0, 0, -1, 1))
    body = (unit * (size // len(unit) + 1))[:size]
    return b"POST /import HTTP/1.1\r\nContent-Length: %d\r\n\r\n" % size + body


def mutated_request(rng):
    made = rng.choice((any_head, report, upload, upload, tried))(rng)
    return mutated(rng, made, rng.choice((report, upload, tried))(rng))


REQUESTS = ((0.32, upload), (0.46, report), (0.52, tried), (0.70, any_head),
            (0.86, mutated_request), (0.96, noise), (0.9998, long_head), (1, long_body))


def request(rng):
    """What a client sends."""
    at = rng.random()
    return next(made for most, made in REQUESTS if at < most)(rng)


# What tariff files are made of beside the samples.
TOML = [b"[", b"]", b"[[", b"]]", b"{", b"}", b"=", b",", b".", b'"', b"'", b'"""', b"\\u0000",
        b"\\", b"#", b"\n", b"\r\n", b" ", b"\t", b"\xef\xbb\xbf", b"\xff", b"\0", b"effective",
        b"rates", b"step_cpu", b"shift", b"centre", b"name", b"days", b"percent", b'"2024-02-30"',
        b"0", b"-1", b"1e9", b"inf", b"nan", b"0x1f", b"9223372036854775807",
        b"9223372036854775808",
        b"100000001", b"1979-05-27T07:32:00Z", b"true", b'effective = "2024-03-01"\n',
        b"[rates]\n", b"[[shift]]\n", b"[[centre]]\n"]
MOST_TARIFF = 1_048_576


def deep_tariff(rng):
    """A text of about the most bytes, deep or with many keys."""
    count = rng.choice((100, 10_000, MOST_TARIFF // 2))
    made = rng.choice((
        lambda: b"a = " + b"[" * count, lambda: b"a = " + b"[" * count + b"]" * count,
        lambda: b"a = " + b"{a=" * (count // 3), lambda: b"[" + b"a." * count + b"a]",
        lambda: b"a." * count + b"a = 1", lambda: b"#" * count * 2,
        lambda: b"".join(b"k%d=1\n" % key for key in range(count // 10)),
        lambda: b"[[shift]]\n" * (count // 10), lambda: b'a = "' + b"x" * count * 2,
        lambda: b"a = [" + b"1," * count, lambda: b"a = " + b"9" * count))()
    return rng.choice((b"", TARIFFS[0])) + made


def tariff(rng):
    way = rng.random()
    if way < 0.04:
        return deep_tariff(rng)
    if way < 0.2:
        return b"".join(rng.choices(TOML, k=rng.randrange(40)))
    made = rng.choice(TARIFFS)
    if way < 0.4:
        day = b"%04d-%02d-%02d" % (rng.choice((1899, 1900, 2023, 2024, 2025, 2099, 2100)),
                                   rng.randrange(14), rng.randrange(33))
        return re.sub(rb"2024-\d\d-\d\d", day, made)
    if way < 0.6:
        lines = made.splitlines(True)
        line = rng.randrange(len(lines))
        lines[line:line + rng.randrange(3)] = rng.choices(lines, k=rng.randrange(3))
        return b"".join(lines)
    if way < 0.75:
        at = rng.randrange(len(made))
        return made[:at] + rng.choice(TOML) + made[at + rng.randrange(4):]
    return mutated(rng, made, rng.choice(TARIFFS))


PAGE = 4_096


def pages_turned(rng, file):
    """A page of zeros, of another page, or two that change their places."""
    pages = [file[at:at + PAGE] for at in range(0, len(file), PAGE)]
    one, other = rng.randrange(len(pages)), rng.randrange(len(pages))
    way = rng.randrange(3)
    pages[one], pages[other] = ((bytes(PAGE), pages[other]), (pages[other], pages[other]),
                                (pages[other], pages[one]))[way]
    return b"".join(pages)


def front_turned(rng, file):
    """A byte or a number turned where a page begins, or in the head of the file."""
    at = rng.choice((0, rng.randrange(max(1, len(file) // PAGE)) * PAGE)) + rng.randrange(110)
    number = rng.choice((rng.randbytes(1), rng.randbytes(2), b"\xff\xff\xff\xff", bytes(4)))
    return put(file, at, number)[:len(file)]


def book(rng, file):
    """A file of books that is damaged."""
    way = rng.random()
    if way < 0.04:
        return rng.choice((b"", noise(rng), file[:rng.randrange(101)] + noise(rng),
                           file[:16] + rng.randbytes(PAGE), file[:PAGE]))
    if way < 0.2:
        page = rng.randrange(len(file) // PAGE) * PAGE
        return file[:rng.choice((rng.randrange(len(file)), page))]
    if way < 0.55:
        return front_turned(rng, file)
    if way < 0.7:
        return pages_turned(rng, file)
    return bytes_turned(rng, file) if way < 0.9 else mutated(rng, file, file)


def other_log(rng):
    """What a command does not find at the name of a log, unless it is somebody's; of a length near
    what a close leaves, or a longer one."""
    return rng.choice((b"x", b"\0", b"\x37")) * rng.choice((1, 40, 41, 42, 55, 56, 57, 5_000))


COMMANDS = ("init tariff import close choose adopt credit statement adjustments details bill focus coverage page disputes "
            "record periods rulings journal tariff-text upgrade audit trial check explain help serve --help -h --version "
            "-V").split()
WORDS = ("books nothing tariff dump . .. books/ books-wal 0 1 2 3 65535 65536 -1 1e3 0x1 ١ "
         "2024-01-31 2024-02-30 2024-02-29 2024-1-1 --layout --layout=bdw --layout=xyz rdw bdw "
         "--quiet --quiet=1 --whole --names --near --explain --dry-run --csv --html --cpu --cpu=100000000 --cpu=100000001 --excp --record "
         "--record=-1 -- - -q --help -h --port --requests --from --dump --import --by --by=meier --note --none --replace --replaced --tariff "
         "--tariff=tariff --tariff=dump "
         "--centre --centre=LEDGER --wait --wait=0 --wait=3601 frame ledger tariff damaged").split()
WORDS += ["", " ", "\n", "é", "x" * 300, "y" * 100_000, "/dev/null/x", "%s%n", "0" * 64, "ab" * 32,
          "AB" * 32, "zz" * 32]


# What a command's words are, as often as not: books, a file, a period, a date, a name, a number.
PLACES = {
    "init": "B", "tariff": "BF", "import": "BF", "close": "BPD", "choose": "BN", "adopt": "B", "credit": "BPCAR",
    "statement": "BPO", "details": "BP", "bill": "BPO", "focus": "BP", "coverage": "BPO", "page": "BP",
    "adjustments": "BP", "disputes": "B", "record": "BN",
    "periods": "B", "rulings": "B", "journal": "B", "tariff-text": "BD", "upgrade": "B", "audit": "B", "trial": "",
    "check": "F", "explain": "KP", "serve": "B"}
PLACED = {
    "B": ("books", "books", "books", "dump", "tariff", "nothing", "other", "books-wal", "other-shm",
          ".", "/dev/null/x", ""),
    "F": ("dump", "dump", "tariff", "books", "nothing", ".", "/dev/zero", "/dev/null"),
    "P": ("0", "1", "2", "3", "17", "65535", "65536", "-1", "x"),
    "D": ("2024-01-01", "2024-01-31", "2024-02-29", "2023-02-29", "2099-12-31", "1899-12-31", "2024-1-31", ""),
    "N": (HELD_RECORD.decode(), "0" * 64, "ab" * 32, "AB" * 32, "zz" * 32, "0" * 63, ""),
    "O": ("--csv", "--html", "--tariff=tariff", "--tariff=dump", "--tariff=nothing", "--centre=LEDGER"),
    "C": ("LEDGER", "UNASSIGNED", "NOWHERE", "ledger", ""),
    "A": ("12.5000", "0.0001", "9999999999.9999", "10000000000.0000", "0.0000", "1", "-3.0000", ""),
    "R": ("courier", "tape lost, ticket 4711", "r" * 200, "r" * 201, "\t", ""),
    "K": ("frame", "ledger", "tariff", "damaged", "io", "busy", "exists", "word", "unsound", "log",
          "layout", "far", "torn", "other")}


# Names of a list, what else may stand in its lines, and what may stand round either.
LISTED = HELD_RECORD, HELD_RECORD, HELD_RECORD.upper(), b"0" * 64, b"AB" * 32, b""
UNLISTED = b"zz" * 32, b"0" * 63, b"name", b"\x1b[2J", b"\xff\xfe0"
MARK = b"\xef\xbb\xbf"
ROUND = (b"%s",) * 4 + (MARK + b"%s", b'"%s"', b"%s ", b"%s\t\x0c \r", b"%s" + b" " * 64, MARK + b'"%s"  ')
WRONGLY_ROUND = MARK + MARK + b"%s", b'"%s', b'%s"', b" %s", b'"%s "', b"%s" + b" " * 65, b"%s\x0b", b"%s,LEDGER", b"%s\0"


def listed_line(rng):
    if rng.random() < 0.9:
        return rng.choice(ROUND) % rng.choice(LISTED)
    return rng.choice(ROUND + WRONGLY_ROUND) % rng.choice(LISTED + UNLISTED)


def names(rng):
    """A list of names, as a spreadsheet, an editor or a hand may write it."""
    lines = [listed_line(rng) for _ in range(rng.randrange(6))]
    text = rng.choice((b"\n", b"\r\n")).join(lines) + rng.choice((b"", b"\n", b"\r\n", b"\r"))
    return bytes_turned(rng, text) if rng.random() < 0.05 else text


def words(rng):
    """Words of a command line, as bytes. `serve` gets no port, or it would wait."""
    command = rng.choice(COMMANDS)
    made = [rng.choice(WORDS) for _ in range(rng.randrange(5))]
    if rng.random() < 0.6:
        made = [rng.choice(PLACED[place]) for place in PLACES.get(command, "")]
        made += [rng.choice(WORDS)] * (rng.random() < 0.2)
    made.insert(0, command)
    if rng.random() < 0.1:
        rng.shuffle(made)
    if "serve" in made:
        made = [word for word in made if not word.startswith("--port")]
    made = [word.encode() for word in made]
    if rng.random() < 0.05:
        word = rng.choice((b"\xff", b"a\xc3", b"\xed\xa0\x80"))
        made.insert(rng.randrange(len(made) + 1), word)
    return made
