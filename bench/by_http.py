"""Hostile inputs to a server, a connection each; for `hostile`."""
import collections
import hashlib
import os
import pathlib
import select
import socket
import struct
import subprocess
import time

import formats
import inputs
from loopback import CHARGECTL
from outcome import MOST_SECONDS, TARIFF, audited, new_books

# Of a hundred clients one resets before it is accepted, one after it has sent; ten send in pieces.
EARLY, GONE, IN_PIECES = 50, 51, 3

# How much the first of these sends at most: nobody reads it yet.
MOST_EARLY = 65_536

# Ports that no client gets.
FIRST_PORT, PORTS = 10_000, 20_000


class Broken(Exception):
    """The server answers nothing more. It ended with this status, or None where it did not end."""

    def __init__(self, text, status=None):
        super().__init__(text)
        self.status = status


class Server:
    """A server that ends after a given number of connections, beside those that it turns away. Whatever it does not do in
    time is a fault."""

    def __init__(self, book, connections):
        self.said, self.turned_away = b"", 0
        for attempt in range(20):
            self.port = FIRST_PORT + (os.getpid() * 31 + attempt) % PORTS
            words = [CHARGECTL, "serve", book, "--port", self.port, "--requests", connections]
            self.process = subprocess.Popen(list(map(str, words)), stdout=subprocess.PIPE,
                                            stderr=subprocess.DEVNULL, bufsize=0)
            try:
                if self.line() == "READY":
                    return
            except Broken:
                # Another program may have the port.
                if self.process.returncode != 1:
                    raise
        raise Broken("it does not listen")

    def line(self):
        """The next line on its standard output."""
        while b"\n" not in self.said:
            if not select.select([self.process.stdout], [], [], MOST_SECONDS)[0]:
                self.process.kill()
                self.process.wait()
                raise Broken("it says nothing")
            piece = os.read(self.process.stdout.fileno(), 4_096)
            if not piece:
                status = self.process.wait(MOST_SECONDS)
                raise Broken("it ended with status %d" % status, status)
            self.said += piece
        line, _, self.said = self.said.partition(b"\n")
        self.turned_away += line == b"SERVED 403"
        return line.decode()

    def connect(self):
        client = socket.socket()
        client.settimeout(MOST_SECONDS)
        client.connect(("127.0.0.1", self.port))
        return client

    def asked(self, request, pieces=1):
        """All that is answered to a request that is sent in a given number of pieces."""
        with self.connect() as client:
            try:
                if pieces > 1:
                    client.setsockopt(socket.IPPROTO_TCP, socket.TCP_NODELAY, 1)
                length = len(request)
                for at in range(pieces):
                    client.sendall(request[length * at // pieces:length * (at + 1) // pieces])
                client.shutdown(socket.SHUT_WR)
                answer = []
                while piece := client.recv(65_536):
                    answer.append(piece)
                return b"".join(answer)
            except OSError as error:
                return str(error).encode()

    def left(self, request):
        """Sends a request, and resets the connection."""
        client = self.connect()
        try:
            client.sendall(request)
        except OSError:
            pass
        client.setsockopt(socket.SOL_SOCKET, socket.SO_LINGER, struct.pack("ii", 1, 0))
        client.close()

    def megabytes(self):
        status = pathlib.Path("/proc/%d/status" % self.process.pid).read_text()
        return int(status.split("VmHWM:")[1].split()[0]) / 1024


# What a request is to be answered: the line of the server, the answer or the form of its report
# and a line that stands in it, and the data that are kept. What may be no tariff may be refused.
Due = collections.namedtuple("Due", "line answer form kind has new may_be_refused",
                             defaults=(None, None, "plain", b"", frozenset(), False))
REFUSED = "SERVED 400", formats.answer(400)


def due_to(request, model):
    if not request:
        return Due("CLOSED", b"")
    asked = formats.asked(request, 2)
    if asked.layout:
        line, stop, new = model.receipt(asked.body, asked.layout)
        status = 200 if stop == "END" else 422
        return Due("SERVED %d" % status, formats.answer(status, line), new=new)
    if asked.report == formats.TARIFF:
        return Due("SERVED 200", formats.answer(200, TARIFF, charset="utf-8"))
    may_be_refused = asked.body is not None and asked.body not in inputs.TARIFFS
    if asked.report:
        name, *_ = asked.report
        has = b"" if name != "what-if" else (
            b"\nTARIFF %s\n" % hashlib.sha256(asked.body).hexdigest().encode())
        is_table = name == "focus" or name.endswith("-csv")
        return Due("SERVED 200", form=formats.report_form(*asked.report), has=has,
                   kind="html" if name in formats.PAGES else "csv" if is_table else "plain", may_be_refused=may_be_refused)
    return Due("SERVED %d" % asked.status, formats.answer(asked.status, allow=asked.allow),
               may_be_refused=may_be_refused)


def is_answer(due, line, answer):
    if due.may_be_refused and (line, answer) == REFUSED:
        return True
    if line != due.line or due.form is None:
        return (line, answer) == (due.line, due.answer)
    body = answer.partition(b"\r\n\r\n")[2]
    is_whole = answer == formats.answer(200, body, due.kind)
    return is_whole and due.has in body and due.form.fullmatch(body) is not None


def served(server, index, request, model, outcome):
    """Hands in a request, and holds what comes of it against the formats."""
    if index % 100 == EARLY:
        request = request[:MOST_EARLY]
    due = due_to(request, model)
    begun = time.monotonic()
    if index % 100 == EARLY:
        with server.connect():
            server.left(request)
        if server.line() != "CLOSED":
            outcome.fault(index, "a client that says nothing is not CLOSED")
    elif index % 100 == GONE:
        server.left(request)
    else:
        answer = server.asked(request, 3 if index % 10 == IN_PIECES else 1)
    line = server.line()
    seconds = time.monotonic() - begun
    outcome.took("HTTP", seconds)
    outcome.answers["HTTP", line] += 1
    if index % 100 in (EARLY, GONE):
        refusals = REFUSED[:1] * due.may_be_refused
        if line not in ("READ", "WRITE", due.line, *refusals):
            outcome.fault(index, "of a client that is gone %s, not %s" % (line, due.line), request)
    elif not is_answer(due, line, answer):
        told = line, answer[:300], due.line, due.answer
        outcome.fault(index, "%s with %r, not %s with %r" % told, request)
    if seconds > MOST_SECONDS:
        outcome.fault(index, "%.1f s" % seconds, request)
    if line != "READ":
        model.held |= due.new


def serve_all(folder, seed, indexes, outcome):
    """The part of a batch that goes by HTTP."""
    book, index, request = folder / "served", None, b""
    model = new_books(book)
    early = sum(index % 100 == EARLY for index in indexes)
    try:
        server = Server(book, len(indexes) + early + 1)
        for index in indexes:
            request = inputs.request(inputs.seeded(seed, index))
            served(server, index, request, model, outcome)
        outcome.used("HTTP", server.megabytes())
        for _ in range(server.turned_away + 1):
            answer = server.asked(b"GET /periods HTTP/1.1\r\n\r\n")
            if not answer.startswith(b"HTTP/1.1 200 OK\r\n") or server.line() != "SERVED 200":
                outcome.fault(index, "a request after the last one is not answered")
        if server.process.wait(MOST_SECONDS) != 0:
            outcome.fault(index, "the server ended with status %d" % server.process.returncode)
    except (Broken, subprocess.TimeoutExpired, OSError) as trouble:
        outcome.fault(index, "the server: %s" % trouble, request)
    audited(book, model, outcome, index)
