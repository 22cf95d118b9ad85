"""Many hands on one office's books, for `serve`: commands beside a server whose clients ask without a pause, and 10,000
requests at once, of which each answer is held against what the office's rules say (samples/office.py, samples/pages.py)."""
import bisect
import collections
import copy
import datetime
import hashlib
import itertools
import random
import subprocess
import sys
import threading
import time

import dumps
from loopback import CHARGECTL, ROOT, SLACK, Server, asked, chargectl, get, post, serving

sys.path.append(str(ROOT / "samples"))
import bill_pages
import office
import pages

SAMPLES = ROOT / "samples"
OFFICE, FEBRUARY_PRICES, MONTH, FEBRUARY = (
    SAMPLES / name for name in ("office.toml", "february.toml", "month.smf", "february.smf"))
END_OF_JANUARY = datetime.date(2024, 1, 31)

# More connections than are made.
MANY = 1_000_000


def held(is_held):
    return "holds" if is_held else "DOES NOT HOLD"


class Open:
    """A server without an end, whose lines are counted: it is ended by its number."""

    def __init__(self, book):
        self.server, self.lines = Server(serving(book, MANY)), collections.Counter()
        self.reader = threading.Thread(target=self.read, daemon=True)

    def read(self):
        for line in self.server.process.stdout:
            self.lines[line.rstrip("\n")] += 1

    def __enter__(self):
        self.reader.start()
        return self

    def __exit__(self, *_):
        self.server.process.terminate()
        self.server.process.wait(SLACK)
        self.reader.join(SLACK)

    def asked(self, request):
        """The status of an answer, and its body."""
        head, _, body = asked(self.server, request).partition(b"\r\n\r\n")
        lines = head.split(b"\r\n")
        is_whole = b"Content-Length: %d" % len(body) in lines
        return (int(lines[0].split()[1]) if is_whole else None), body, lines


def is_away(status, lines):
    """The books were in use for as long as a request waits."""
    return status == 503 and b"Retry-After: 1" in lines


def ran(*words):
    """What a command says, and how long it took."""
    begun = time.monotonic()
    ended = subprocess.run([CHARGECTL, *map(str, words)], capture_output=True, text=True)
    return ended.returncode, ended.stdout, ended.stderr, time.monotonic() - begun


def bytes_of(lines):
    return "".join(line + "\n" for line in lines).encode()


def begun(book):
    """Books with the sample month, and what they are."""
    model = office.Books()
    chargectl("init", book)
    chargectl("tariff", book, OFFICE)
    chargectl("import", book, MONTH)
    model.tariff(OFFICE.read_bytes())
    model.take(MONTH.read_bytes())
    return model


# ---- Reports, as they have to be

def of_period(report):
    return lambda model, period, *centre: model.of_period(getattr(model, report), int(period), *centre)


def bill_page(model, period, *centre):
    return model.of_period(lambda *place: bill_pages.bill_page(model, *place).splitlines(), int(period), *centre)


REPORTS = {
    "statement": of_period("statement"), "statement-csv": of_period("table"), "adjustments": of_period("adjustments"),
    "adjustments-csv": of_period("adjustment_table"), "details": of_period("details"), "focus": of_period("focus"),
    "coverage": of_period("coverage"), "coverage-csv": of_period("coverage_table"), "bill": bill_page,
    "bill-csv": of_period("bill_table"),
    "disputes": lambda model: list(model.disputes()), "periods": lambda model: list(model.periods()),
    "rulings": lambda model: list(model.rulings()), "": lambda model: pages.office_page(model).splitlines(),
    "period": lambda model, period: model.of_period(
        lambda number: pages.period_page(model, number).splitlines(), int(period))}


def due(model, path):
    """The status and the body of a report of such books."""
    name, *words = path[1:].split("/")
    lines = REPORTS[name](model, *words)
    absent = [office.refused(number) for number in (office.NO_SUCH_PERIOD, office.NO_SUCH_CENTRE)]
    return (404, b"404 Not Found\n") if lines in absent else (200, bytes_of(lines))


# ---- Work beside clients

# How long a command may take that does its work beside the clients, and how often this is tried.
MOST_SECONDS, TRIES = 15, 3

ASKED = "/statement/1", "/period/1", "/disputes", "/adjustments/2"

# A body that does nothing to books, how long its client takes for each byte, and how long it rests between two bodies, in
# seconds: while a body drips the others wait.
DRIPPED, A_BYTE, REST = 2 * dumps.HEADERS[0], 0.1, 1


def ask_on(server, path, is_over, told):
    """A client that asks for a report again and again."""
    while not is_over.is_set():
        status, _, lines = server.asked(get(path.encode()))
        told["in use" if is_away(status, lines) else status] += 1


def drip_on(server, is_over, told):
    """A client whose bodies come a byte at a time."""
    request = post(DRIPPED)
    while not is_over.is_set():
        with server.server.connect() as client:
            client.sendall(request[:-len(DRIPPED)])
            for byte in DRIPPED:
                time.sleep(A_BYTE)
                client.sendall(bytes((byte,)))
            answer = b"".join(iter(lambda: client.recv(65_536), b""))
        told["dripped" if b" HEADERS 2 " in answer else "not dripped"] += 1
        is_over.wait(REST)


def works(model):
    """Commands, each with what it has to say, and what it does to the books."""
    right = hashlib.sha256(dumps.make.RIGHT).hexdigest()
    yield ("import", FEBRUARY), lambda: model.take(FEBRUARY.read_bytes())
    yield ("close", 1, END_OF_JANUARY), lambda: model.close(1, END_OF_JANUARY)
    yield ("tariff", FEBRUARY_PRICES), lambda: model.tariff(FEBRUARY_PRICES.read_bytes())
    yield ("choose", right), lambda: model.choose(right)


def work_beside(book, told):
    """The longest time of a command beside the clients, and whether each did its work and the reports tell so."""
    model, is_over, most, is_done = begun(book), threading.Event(), 0, True
    with Open(book) as server:
        clients = [threading.Thread(target=ask_on, args=(server, path, is_over, told)) for path in ASKED]
        clients.append(threading.Thread(target=drip_on, args=(server, is_over, told)))
        for client in clients:
            client.start()
        for (verb, *words), rule in works(model):
            # Some of them begin while the body drips, and some while the others ask.
            time.sleep(random.random() * 3)
            status, output, errors, took = ran(verb, book, *words)
            is_done &= (status, output.encode(), errors) == (0, bytes_of(rule()), "")
            most = max(most, took)
        is_over.set()
        for client in clients:
            client.join()
        for path in ("/statement/1", "/statement/2", "/adjustments/2", "/disputes", "/period/2", "/"):
            is_done &= server.asked(get(path.encode()))[:2] == due(model, path)
    return most, is_done


def work_is_done(folder):
    """An import, a close, a tariff and a choice by command, beside four clients that ask without a pause and one whose
    bodies drip."""
    told, most, is_done = collections.Counter(), 0, True
    for number in range(TRIES):
        took, did = work_beside(folder / ("worked%d" % number), told)
        most, is_done = max(most, took), is_done and did
    is_held = is_done and most <= MOST_SECONDS and set(told) <= {200, 404, "in use", "dripped"} and told["dripped"] > 0
    print("serve: beside %d answers, %d times 503, and %d bodies that drip, %d commands took %.2f s at most (%d: %s)"
          % (told[200] + told[404], told["in use"], told["dripped"], 4 * TRIES, most, MOST_SECONDS, held(is_held)), flush=True)
    return is_held


# ---- Two writers and four readers

COMMANDS, POSTS, READERS, READS = 500, 1_500, 4, 2_000

# How many wrong answers are shown.
MOST_SHOWN = 20

# Days between two closes. The records that are handed in are dated behind the last close that is not over yet.
SPAN, LAST_DAY = 20, 350

Write = collections.namedtuple("Write", "began ended rule said")
Read = collections.namedtuple("Read", "began ended path status body")


def name_of(record):
    return hashlib.sha256(record[4:]).hexdigest()


class Hands:
    """Two writers, one by commands and one over HTTP, whose works may be told apart by their order in time: where two of them
    overlap, either order leads to the same books. So records are dated behind a close that is under way, and while it is,
    none comes late and none contradicts another."""

    def __init__(self, server, book, folder):
        self.server, self.book, self.folder = server, book, folder
        self.commands, self.posts, self.reads = [], [], []
        self.through, self.is_closing, self.closes, self.tariffs = 31, False, 0, 0
        self.handed, self.disputed, self.busy, self.wrong = [], collections.deque(), 0, []
        self.is_over = threading.Event()

    def rest(self):
        """Waits until what the other writer has in hand is done."""
        count = len(self.posts)
        while len(self.posts) <= count and not self.is_over.is_set():
            time.sleep(0.001)

    # The writer by commands.

    def command(self, rule, verb, *words):
        while True:
            began = time.monotonic()
            status, output, errors, _ = ran(verb, self.book, *words)
            if (status, errors) != (4, "chargectl: busy\n"):
                break
            self.busy += 1
        if status != 0 or errors not in ("", "chargectl: far\n"):
            self.wrong.append((verb, status, errors))
        self.commands.append(Write(began, time.monotonic(), rule, output.splitlines()))

    def close(self):
        self.is_closing, period, through = True, self.closes + 1, self.through
        self.through = through + SPAN
        self.rest()
        day = datetime.date(2024, 1, 1) + datetime.timedelta(through - 1)
        self.command(lambda model: model.close(period, day), "close", period, day)
        self.closes, self.is_closing = period, False

    def tariff(self):
        """Other prices, which begin within the open period: what is held of these days is priced anew."""
        self.tariffs += 1
        first = datetime.date(2024, 1, 1) + datetime.timedelta(self.through - 1 - SPAN // 2)
        text = OFFICE.read_text().replace("2024-01-01", str(first)).replace("20000", str(20_000 + self.tariffs))
        path = self.folder / "prices.toml"
        path.write_text(text)
        self.command(lambda model: model.tariff(text.encode()), "tariff", path)

    def choose(self):
        name = self.disputed.popleft()
        self.command(lambda model: model.choose(name), "choose", name)

    def credit(self, number):
        """A credit of the open period, for a centre that is there under any tariff."""
        period, amount = self.closes + 1, 10_000 + number
        self.command(lambda model: model.credit(period, "UNASSIGNED", amount, "courier"), "credit", period, "UNASSIGNED",
                     "%d.%04d" % divmod(amount, 10_000), "courier")

    def import_one(self, number):
        dump = dumps.dated(100_000 + number, self.through - number % (SPAN // 2))
        path = self.folder / "one.smf"
        path.write_bytes(dump)
        self.command(lambda model: model.take(dump), "import", path)

    def write_by_commands(self):
        for number in range(COMMANDS):
            if number % 40 == 30 and self.through + SPAN < LAST_DAY:
                self.close()
            elif number % 40 == 35 and self.closes > self.tariffs:
                self.tariff()
            elif number % 10 == 5 and self.disputed:
                self.choose()
            elif number % 40 == 18:
                self.credit(number)
            else:
                self.import_one(number)

    # The writer over HTTP.

    def dump(self, number, is_quiet):
        """A dump of one record to three: new ones, and where no close is under way one that comes late, or one that
        contradicts another."""
        records = [dumps.dated(8 * number + more, self.through - (number + more) % (SPAN // 2))
                   for more in range(1 + number % 3)]
        contradicted = None
        if is_quiet and number % 9 == 4 and self.handed:
            contradicted = random.choice(self.handed)
            records[0] = dumps.dated(*contradicted, more_time=1 + number)
            self.handed.remove(contradicted)
        elif is_quiet and number % 7 == 3:
            records[0] = dumps.dated(8 * number, 1 + number % 31)
        elif len(records) == 1:
            self.handed.append((8 * number, self.through - number % (SPAN // 2)))
        return b"".join(records), contradicted

    def write_by_posts(self):
        for number in range(POSTS):
            dump, contradicted = self.dump(number, not self.is_closing)
            while True:
                began = time.monotonic()
                status, body, lines = self.server.asked(post(dump))
                if not is_away(status, lines):
                    break
                self.busy += 1
            if status != 200:
                self.wrong.append(("POST", status, body))
            rule = lambda model, dump=dump: model.take(dump)
            self.posts.append(Write(began, time.monotonic(), rule, body.decode().splitlines()))
            if contradicted:
                self.disputed.append(name_of(dumps.dated(*contradicted)))

    # Readers.

    def read(self, number):
        rng = random.Random(number)
        for _ in range(READS):
            name = rng.choice(list(REPORTS))
            path = "/" + name
            if name not in ("", "disputes", "periods", "rulings"):
                path += "/%d" % rng.choice((1, self.closes + 1, self.closes + 1, max(1, self.closes), self.closes + 2))
            while True:
                began = time.monotonic()
                status, body, lines = self.server.asked(get(path.encode()))
                if not is_away(status, lines):
                    break
                self.busy += 1
            self.reads.append(Read(began, time.monotonic(), path, status, body))

    def work(self):
        """All of them at once, to their end."""
        writers = [threading.Thread(target=self.write_by_commands), threading.Thread(target=self.write_by_posts)]
        readers = [threading.Thread(target=self.read, args=(number,)) for number in range(READERS)]
        for hand in writers + readers:
            hand.start()
        writers[1].join()
        self.is_over.set()
        for hand in writers + readers:
            hand.join()


class History:
    """What the writers made of the books, and which answers it lets readers have."""

    def __init__(self, model, commands, posts):
        self.model, self.taken, self.dues = model, (0, 0), {}
        self.writers = commands, posts

    def done(self, moment):
        """How many works of each writer were over before a moment."""
        return tuple(bisect.bisect_left(works, moment, key=lambda write: write.ended) for works in self.writers)

    def begun(self, moment):
        """How many had begun by then."""
        return tuple(bisect.bisect_right(works, moment, key=lambda write: write.began) for works in self.writers)

    def is_possible(self, state):
        """No work was done after one that began when it was over."""
        return not any(
            state[one] < len(self.writers[one]) and state[other] > 0
            and self.writers[one][state[one]].ended < self.writers[other][state[other] - 1].began
            for one, other in ((0, 1), (1, 0)))

    def steps(self, state):
        """The works between the books as they stand here and those of a state, in the order of their receipts."""
        works = [write for writer, first, last in zip(self.writers, self.taken, state) for write in writer[first:last]]
        return sorted(works, key=lambda write: write.ended)

    def go_on(self, state):
        """The books stand at a state from here on. False where a receipt is another one."""
        is_right = all([write.rule(self.model) == write.said for write in self.steps(state)])
        self.taken = state
        return is_right

    def due(self, state, path):
        """What a report of a state is to be, as a digest."""
        if (state, path) not in self.dues:
            model = self.model
            if state != self.taken:
                model = copied(model)
                for write in self.steps(state):
                    write.rule(model)
            status, body = due(model, path)
            self.dues[state, path] = status, hashlib.sha256(body).digest()
        return self.dues[state, path]

    def states(self, read, low, high):
        """Those of the states between two of which this is an answer. It may be one of many, as most works change few reports."""
        answer = read.status, hashlib.sha256(read.body).digest()
        between = itertools.product(range(low[0], high[0] + 1), range(low[1], high[1] + 1))
        return [state for state in between if self.is_possible(state) and self.due(state, read.path) == answer]


def copied(model):
    """Books that may go on by themselves."""
    other = copy.copy(model)
    for name, value in vars(model).items():
        if isinstance(value, (list, dict)):
            setattr(other, name, copy.copy(value))
    return other


def wrong_answers(model, hands):
    """How many receipts, and how many answers to readers, no order of the works gives that their times allow."""
    history, wrong, pinned = History(model, hands.commands, hands.posts), len(hands.wrong), []
    for one in hands.wrong[:MOST_SHOWN]:
        print("serve: not done: %r" % (one,))
    for read in sorted(hands.reads):
        low = history.done(read.began)
        wrong += not history.go_on(low)
        high = history.begun(read.ended)
        states = history.states(read, low, high)
        wrong += not states
        if not states and wrong <= MOST_SHOWN:
            print("serve: a wrong answer: %s between %s and %s: %s %r" % (read.path, low, high, read.status, read.body[:300]))
        pinned += states if len(states) == 1 else []
    wrong += not history.go_on((len(hands.commands), len(hands.posts)))
    # Answers that one state alone gives put the works in one order.
    pinned.sort(key=sum)
    return wrong + sum(any(a > b for a, b in zip(one, other)) for one, other in zip(pinned, pinned[1:]))


def answers_are_right(folder):
    """10,000 requests by two writers and four readers at once."""
    book = folder / "shared"
    model = begun(book)
    with Open(book) as server:
        hands = Hands(server, book, folder)
        began = time.monotonic()
        hands.work()
        took = time.monotonic() - began
    requests = len(hands.commands) + len(hands.posts) + len(hands.reads)
    print("serve: %d commands, %d dumps over HTTP and %d reports at once took %.0f s; the books were in use %d times; %d closes"
          % (len(hands.commands), len(hands.posts), len(hands.reads), took, hands.busy, hands.closes), flush=True)
    wrong = wrong_answers(model, hands)
    status, output, _, _ = ran("audit", book)
    is_held = wrong == 0 and status == 0 and output.startswith("SOUND\n") and requests == 10_000
    print("serve: of %d requests by six hands %d have a wrong answer (%s)" % (requests, wrong, held(is_held)))
    return is_held
