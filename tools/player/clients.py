"""Clients of `chargectl serve` over real sockets, one after the other. A line of a body is a client: what it does, and what it
sends. It may also say what becomes of the books before the next one."""
import contextlib
import socket
import subprocess
import threading

from commands import MOST_SECONDS, begun, shown
from scripts import Unread, number_of

# What a client does when it has sent its request:
#
#     reads     it sends no more, and reads its answer, of which the first line and the last one are shown
#     reads-all the same, and the whole answer is shown
#     refused   it reads its answer as well, which turns it away: it does not count among the requests of the server
#     ends      it sends no more, and gets no answer
#     waits     it keeps the server waiting
#     leaves    it is gone before it is answered
PARTINGS = "reads", "reads-all", "refused", "ends", "waits", "leaves"

# What becomes of the books: another program opens them, and closes them; their file is put elsewhere, and put back.
BETWEEN = "taken", "free", "away", "back"

# How often a port is tried that nobody had a moment ago.
TRIES = 5


def request_of(names, words):
    """What a client sends: nothing; `get PATH`; `post PATH PARTS..`, a dump of parts; or `send TEXT PARTS..`, the lines of a text
    with the ends that HTTP gives them, and parts. After `sends:SIZE` it sends no more than that many bytes of it."""
    if not words:
        return b""
    verb, *words = words
    if verb.startswith("sends:"):
        return request_of(names, words)[:number_of(verb.removeprefix("sends:"))]
    if verb == "get" and len(words) == 1:
        return b"GET %s HTTP/1.1\r\n\r\n" % words[0].encode()
    if verb == "post" and words:
        dump = names.dump(words[1:])
        return b"POST %s HTTP/1.1\r\nContent-Length: %d\r\n\r\n" % (words[0].encode(), len(dump)) + dump
    if verb == "send" and words:
        return names.text(words[:1]).replace("\n", "\r\n").encode() + names.dump(words[1:])
    raise Unread("no client sends %s" % verb)


def free_port():
    with socket.socket() as probe:
        probe.bind(("127.0.0.1", 0))
        return probe.getsockname()[1]


class Server:
    """`serve` of the books of a session, for a number of requests. It is killed where it does not end in time."""

    def __init__(self, session, book, more, connections):
        self.port, self.errors = free_port(), session.streams.scratch()
        words = ["serve", session.path(book), "--port", str(self.port), "--requests", str(connections), *more]
        self.process = begun(words, stdin=subprocess.DEVNULL, stdout=subprocess.PIPE, stderr=self.errors)
        self.timer = threading.Timer(MOST_SECONDS, self.process.kill)
        self.timer.start()
        self.first = self.line()

    def close(self):
        self.timer.cancel()
        self.process.kill()
        self.process.wait()
        self.process.stdout.close()
        self.errors.close()

    def line(self):
        """Its next line; none where it has ended."""
        return shown(self.process.stdout.readline())

    def rest(self):
        """What it still says until it ends."""
        output, status = self.process.stdout.read(), self.process.wait()
        self.errors.seek(0)
        return shown(output) + shown(self.errors.read(), "! ") + ["STATUS %d" % status] * (status != 0)

    def connect(self, request, is_all):
        """A client that has sent its request, and sends no more if that is all."""
        client = socket.create_connection(("127.0.0.1", self.port), MOST_SECONDS)
        client.sendall(request)
        if is_all:
            client.shutdown(socket.SHUT_WR)
        return client

    def met(self, parting, request):
        """Its line of a client that stays, and what that reads."""
        with self.connect(request, parting != "waits") as client:
            told = self.line()
            if parting in ("ends", "waits"):
                return told
            answer = b"".join(iter(lambda: client.recv(65_536), b""))
        if parting == "reads-all":
            return told + shown(answer.replace(b"\r", b"\\r"))
        lines = shown(answer) or ["NO ANSWER"]
        return told + [lines[0], lines[-1]]

    def left(self, session, book, request):
        """Its line of a client that goes away. The answer waits for the books until then: another program has them."""
        session.put("taken", book)
        try:
            self.connect(request, False).close()
        finally:
            session.put("free", book)
        return self.line()


def server_of(session, book, more, connections):
    """A server on a port that nobody else took in the last moment."""
    for tried in range(TRIES):
        server = Server(session, book, more, connections)
        if server.first or server.rest() != ["! chargectl: io", "STATUS 1"] or tried == TRIES - 1:
            return server
        server.close()


def seen(session, names, book, *given):
    """What a server says that is given more words, and what its clients read, by a body."""
    *more, body = given
    steps = [line.split() for line in body.splitlines()]
    for step in steps:
        if not step or step[0] not in PARTINGS + BETWEEN:
            raise Unread("no client: %s" % " ".join(step))
    clients = sum(step[0] in PARTINGS and step[0] != "refused" for step in steps)
    with contextlib.closing(server_of(session, book, more, clients)) as server:
        told = server.first
        for verb, *words in steps if told else []:
            if verb in BETWEEN:
                session.put(verb, book)
            elif verb == "leaves":
                told += server.left(session, book, request_of(names, words))
            else:
                told += server.met(verb, request_of(names, words))
        return told + server.rest()
