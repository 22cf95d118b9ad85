"""A command of the program that is built: what its streams give and take, and what it leaves."""
import contextlib
import dataclasses
import datetime
import os
import pathlib
import re
import resource
import socket
import subprocess
import tempfile
import time

from scripts import DATA, ROOT, Unread

BUILT = ROOT / "crates" / "chargectl_main" / "out" / "chargectl_main"
# The variable CHARGECTL names another program that is built.
PROGRAM = pathlib.Path(os.environ.get("CHARGECTL") or BUILT).resolve()

# Who runs it, as its journal says where no word names a person.
USER = "player"

# How long a command may take, in seconds.
MOST_SECONDS = 120

# No file grows beyond this here. So a standard output that has room for some bytes is a file that begins so far before it.
LARGEST = 1 << 30

# What an input may give that fails then: a socket takes it before anybody reads.
MOST_BEFORE_FAILURE = 100_000

# How much of an output is read back at once.
PIECE = 1 << 20


def limit_files():
    """Has files end at LARGEST, in this program and in those that it begins."""
    resource.setrlimit(resource.RLIMIT_FSIZE, (LARGEST, resource.getrlimit(resource.RLIMIT_FSIZE)[1]))


@dataclasses.dataclass
class Streams:
    """What standard input gives: bytes, after which it fails or ends, or a file; how many bytes standard output takes, if not
    all; the folder of the files that stand for them; and who the environment says is there."""
    folder: pathlib.Path
    data: bytes = b""
    fails: bool = False
    file: str = None
    room: int = None
    users: dict = dataclasses.field(default_factory=lambda: {"USER": USER})

    def scratch(self):
        """A file without a name."""
        return tempfile.TemporaryFile(dir=self.folder, buffering=0)

    @contextlib.contextmanager
    def input(self):
        if self.file:
            with open(self.file, "rb") as file:
                yield file
        elif self.fails:
            with broken(self.data) as end:
                yield end
        elif self.data:
            with self.scratch() as file:
                file.write(self.data)
                file.seek(0)
                yield file
        else:
            yield subprocess.DEVNULL

    @contextlib.contextmanager
    def output(self):
        """A file, which begins where no more than its room is left."""
        with self.scratch() as file:
            file.seek(self.begin())
            yield file

    def begin(self):
        return 0 if self.room is None else LARGEST - self.room


@contextlib.contextmanager
def broken(data):
    """A socket that gives bytes, and fails then: the other end of it was closed before that had read all."""
    if len(data) > MOST_BEFORE_FAILURE:
        raise Unread("an input that fails has at most %d bytes" % MOST_BEFORE_FAILURE)
    end, other = socket.socketpair()
    with end:
        with other:
            end.sendall(b"?")
            other.sendall(data)
        yield end


@dataclasses.dataclass
class Left:
    """What a command left: how many bytes and lines its output has, and the front of it that was read back; what it said on
    standard error; its status; and the most memory that it had in use, in KiB, if that was looked at."""
    size: int
    lines: int
    output: bytes
    errors: bytes
    status: int
    memory: int


def begun(words, users={"USER": USER}, **streams):
    """The program, with these words, where the environment says so of its user."""
    others = {name: word for name, word in os.environ.items() if name not in ("USER", "LOGNAME")}
    return subprocess.Popen(["chargectl", *words], executable=PROGRAM, cwd=DATA, env=others | users, **streams)


def ended(process):
    """What a process says on standard error until it ends, for which it has no longer than MOST_SECONDS."""
    try:
        return process.communicate(timeout=MOST_SECONDS)[1]
    except subprocess.TimeoutExpired:
        process.kill()
        return process.communicate()[1] + b"stopped after %d seconds\n" % MOST_SECONDS


def read_back(file, begin, most):
    """How many bytes and lines a file has from a place on, and the first of these bytes."""
    file.seek(begin)
    size, lines, front = 0, 0, b""
    while piece := file.read(PIECE):
        size, lines = size + len(piece), lines + piece.count(b"\n")
        if most is None or len(front) < most:
            front += piece
    return size, lines, front[:most]


def ran(words, streams, most=None, is_measured=False):
    """Gives the program its words, and tells what it left; of its output no more than a number of bytes."""
    with streams.input() as given, streams.output() as taken:
        # A program is told that a file can't grow, and not ended, where the signal for that is ignored as it is here.
        process = begun(words, streams.users, stdin=given, stdout=taken, stderr=subprocess.PIPE, restore_signals=streams.room is None)
        memory = watched(process) if is_measured else 0
        errors = ended(process)
        return Left(*read_back(taken, streams.begin(), most), errors, process.returncode, memory)


# ---- Memory in use

def most_in_use(process):
    """The most memory that a process had in use so far, in KiB; 0 where it has ended."""
    try:
        status = pathlib.Path("/proc/%s/status" % process).read_text()
    except OSError:
        return 0
    found = re.search(r"^VmHWM:\s+(\d+) kB", status, re.M)
    return int(found[1]) if found else 0


def watched(process):
    """Waits for a process, and gives the most memory that it had in use. It is looked at each millisecond; what the system tells
    at the end counts what this program had in use as it began the process, so that says more only where it is more."""
    most, until = 0, time.monotonic() + MOST_SECONDS
    while True:
        most = max(most, most_in_use(process.pid))
        is_ended, status, usage = os.wait4(process.pid, os.WNOHANG)
        if is_ended:
            process.returncode = os.waitstatus_to_exitcode(status)
            return max(most, usage.ru_maxrss if usage.ru_maxrss > most_in_use("self") else 0)
        if time.monotonic() > until:
            process.kill()
        time.sleep(0.001)


# ---- What is shown

def lines_of(text):
    """The lines of a text, without their ends."""
    lines = re.split("\r?\n", text)
    return lines[:-1] if lines[-1] == "" else lines


def shown(stream, mark="", most=None):
    """A stream as a row shows it: a mark before each line, and a backslash where no line's end is last. Of a longer one no more
    than a number of bytes."""
    if most is not None and len(stream) > most:
        stream = stream[:most] + b"..\n"
    try:
        text = stream.decode()
    except UnicodeDecodeError:
        return ["NO TEXT"]
    return [mark + line for line in lines_of(text)] + ["\\"] * (text != "" and not text.endswith("\n"))


def timed(line):
    """A line with NOW for each time of the journal that was an hour ago or less."""
    def shown_time(found):
        then = datetime.datetime.strptime(found[0] + "+0000", "%Y-%m-%d %H:%M:%SZ%z")
        ago = datetime.datetime.now(datetime.timezone.utc) - then
        return "NOW" if abs(ago.total_seconds()) < 3600 else found[0]
    return re.sub(r"\b\d{4}-\d\d-\d\d \d\d:\d\d:\d\dZ", shown_time, line)


def status_by(errors):
    """The status with which a command ends that says such lines on standard error (FORMATS)."""
    if not errors or errors[0] in ("chargectl: far", "chargectl: layout", "chargectl: torn"):
        return 0
    if not errors[0].startswith("chargectl: "):
        return 2
    kind, *numbers = errors[0].split()[1:]
    if kind == "ledger":
        return {"1": 5, "2": 4, "3": 4, "16": 4, "17": 4, "18": 4}.get(numbers[0], 3)
    return {"io": 1, "busy": 4, "unsound": 4, "log": 4}.get(kind, 3)
