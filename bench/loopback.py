"""Requests to a server on 127.0.0.1, and books that are in use, for `run`, `books`, `serve`, `pages` and `terminal`."""
import os
import pathlib
import socket
import subprocess
import sys
import time

ROOT = pathlib.Path(__file__).resolve().parent.parent
# The variable CHARGECTL names a program that is built already.
BUILT = os.environ.get("CHARGECTL")
CHARGECTL = pathlib.Path(BUILT) if BUILT else ROOT / "crates" / "chargectl_main" / "out" / "chargectl_main"
PLAIN_SOURCE = ROOT / "bench" / "plain" / "main.rs"
CPU, EXCP, RECORD = "20000", "500", "100"
TARIFF = """effective = "2024-01-01"
[rates]
step_cpu = %s
step_excp = %s
step_record = %s
job_cpu = %s
job_excp = %s
job_record = %s
""" % (CPU, EXCP, RECORD, CPU, EXCP, RECORD)

# Where books are kept that are measured: a disk would be measured too.
IN_MEMORY = "/dev/shm" if pathlib.Path("/dev/shm").is_dir() else None

# How long a server may take to end once its last connection is answered, in seconds.
SLACK = 5


def free_port():
    with socket.socket() as probe:
        probe.bind(("127.0.0.1", 0))
        return probe.getsockname()[1]


class Server:
    """A server on a port of its own, which ends after a given number of connections. The word None stands for the port."""

    def __init__(self, words):
        self.port = free_port()
        words = [str(self.port) if word is None else str(word) for word in words]
        self.process = subprocess.Popen(words, stdout=subprocess.PIPE, text=True)
        self.expect("READY")

    def expect(self, line):
        said = self.process.stdout.readline().rstrip("\n")
        if said != line:
            self.process.kill()
            sys.exit("bench: the server says %r and not %r" % (said, line))

    def connect(self):
        return socket.create_connection(("127.0.0.1", self.port))

    def end(self):
        if self.process.wait(SLACK) != 0:
            sys.exit("bench: the server ended with status %d" % self.process.returncode)


def chargectl(*words):
    subprocess.run([CHARGECTL, *map(str, words)], stdout=subprocess.DEVNULL, check=True)


def new_books(folder, name, dump):
    book, tariff = folder / name, folder / "tariff"
    tariff.write_text(TARIFF)
    chargectl("init", book)
    chargectl("tariff", book, tariff)
    chargectl("import", book, dump)
    return book


def serving(book, requests):
    return [CHARGECTL, "serve", book, "--port", None, "--requests", requests]


class Holder:
    """A command that has the books of a thousand records or more until it is let go: nobody reads the list that it writes."""

    def __init__(self, book):
        self.process = subprocess.Popen([CHARGECTL, "details", book, "1"], stdout=subprocess.PIPE)
        # The list has more bytes than a pipe holds, and its first line comes once the books are open.
        self.process.stdout.readline()

    def let_go(self):
        """Whether it ended well."""
        self.process.stdout.read()
        return self.process.wait(SLACK) == 0


def asked(server, request):
    """All that is answered to a request."""
    with server.connect() as client:
        client.sendall(request)
        return b"".join(iter(lambda: client.recv(65_536), b""))


def get(path):
    return b"GET %s HTTP/1.1\r\nHost: localhost\r\n\r\n" % path


def post(body):
    return b"POST /import HTTP/1.1\r\nHost: localhost\r\nContent-Length: %d\r\n\r\n" % len(body) + body


def seconds_each(words, request, requests, rounds, status=200):
    """The best time of a request that is answered with that status, over several rounds of a given number."""
    taken = []
    for _ in range(rounds):
        server = Server(words)
        begun = time.monotonic()
        for _ in range(requests):
            asked(server, request)
        taken.append((time.monotonic() - begun) / requests)
        for _ in range(requests):
            server.expect("SERVED %d" % status)
        server.end()
    return min(taken)
