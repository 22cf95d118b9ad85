"""Details of more than 16 MiB over HTTP, which are sent with the books open, for `serve`: a client that reads as fast as it is
written to has the whole; one that reads slowly, or not at all, is cut off, and keeps no command from the books for long."""
import shutil
import signal
import socket
import subprocess
import threading
import time

import dumps
from hands import held
from loopback import CHARGECTL, SLACK, TARIFF, Server, asked, get, new_books, serving

# So many records have lists of some 22 MB, and tables of some 15 MB: those are sent while they are read, and these are not.
RECORDS, MOST_GATHERED = 100_000, 16_777_216
LIST, TABLE = "/details/1", "/details-csv/1"

# How long a client may keep open books waiting in all, and how much longer a command may take beside it, in seconds.
HURRIED, MORE = 2, 3

# How many bytes a slow client reads at once, and how long it rests then: it would have all after some minutes.
PIECE, REST = 65_536, 0.25

# How long one rests that reads the whole all the same: less than it may. And for how long a server is stopped as it writes.
SHORT_REST, STOPPED = 1, 0.3


def said(*words):
    """What a command prints that has to do its work."""
    return subprocess.run([CHARGECTL, *map(str, words)], stdout=subprocess.PIPE, check=True).stdout


class Client(threading.Thread):
    """A client with little room for what it has not read. It is asked to read on by and by, or all at once."""

    def __init__(self, server, path):
        super().__init__(daemon=True)
        self.socket = socket.socket()
        self.socket.setsockopt(socket.SOL_SOCKET, socket.SO_RCVBUF, PIECE)
        self.socket.connect(("127.0.0.1", server.port))
        self.socket.sendall(get(path.encode()))
        # The first byte comes once the answer is begun.
        self.socket.recv(1, socket.MSG_PEEK)
        self.begun, self.rests, self.got = time.monotonic(), threading.Event(), []

    def run(self):
        try:
            while piece := self.socket.recv(PIECE):
                self.got.append(piece)
                self.rests.wait(REST)
        except ConnectionError:
            pass

    def read_all(self):
        """All that it gets, from here on at full speed."""
        self.rests.set()
        if self.ident is None:
            self.start()
        self.join(10 * SLACK)
        self.socket.close()
        return b"".join(self.got)


def body_of(answer):
    head, _, body = answer.partition(b"\r\n\r\n")
    return head, body


def is_whole(answer, text):
    head, body = body_of(answer)
    return head.startswith(b"HTTP/1.1 200 OK\r\n") and b"Content-Length: %d" % len(text) in head and body == text


def at_full_speed(server, path, text):
    begun = time.monotonic()
    answer = asked(server, get(path.encode()))
    took = time.monotonic() - begun
    server.expect("SERVED 200")
    is_held = is_whole(answer, text)
    print("serve: %s of %.1f MB, read at full speed: %.2f s, %s (%s)"
          % (path, len(text) / 1e6, took, "whole" if is_held else "NOT WHOLE", held(is_held)), flush=True)
    return is_held


def after_a_rest(server, text):
    """A client that rests for a while, and reads all then."""
    client = Client(server, LIST)
    time.sleep(SHORT_REST)
    is_held = is_whole(client.read_all(), text)
    server.expect("SERVED 200")
    print("serve: %s, read after a rest of %d s: %s (%s)"
          % (LIST, SHORT_REST, "whole" if is_held else "NOT WHOLE", held(is_held)), flush=True)
    return is_held


def stopped_as_it_writes(server, text):
    """The server is stopped as it waits for a client to read on, and goes on: the client gets the whole."""
    client = Client(server, LIST)
    for sent in (signal.SIGSTOP, signal.SIGCONT):
        time.sleep(STOPPED)
        server.process.send_signal(sent)
    is_held = is_whole(client.read_all(), text)
    server.expect("SERVED 200")
    print("serve: %s of a server that was stopped as it wrote, and goes on: %s (%s)"
          % (LIST, "whole" if is_held else "NOT WHOLE", held(is_held)), flush=True)
    return is_held


def alone(book, *words):
    """How long a command takes on a copy that nobody else has."""
    copy = book.with_name("alone")
    shutil.copyfile(book, copy)
    begun = time.monotonic()
    said(words[0], copy, *words[1:])
    return time.monotonic() - begun


def beside(server, book, title, is_reading, *words):
    """A command beside a client that is too slow: it has the books once that is cut off."""
    usual, text, client = alone(book, *words), said("details", book, 1), Client(server, LIST)
    if is_reading:
        client.start()
    begun = time.monotonic()
    command = subprocess.Popen([CHARGECTL, words[0], str(book), *map(str, words[1:])], stdout=subprocess.PIPE,
                               stderr=subprocess.PIPE, text=True)
    server.expect("WRITE")
    let_go = time.monotonic() - client.begun
    output, errors = command.communicate(timeout=10 * SLACK)
    took = time.monotonic() - begun
    head, body = body_of(client.read_all())
    is_cut = len(body) < len(text) == int(head.rpartition(b"Content-Length: ")[2].split()[0]) and text.startswith(body)
    is_held = (command.returncode, output, errors) == (0, "DONE\n", "") and is_cut and took <= usual + HURRIED + MORE
    print("serve: %s: it has %.1f of %.1f MB, and is let go after %.2f s; %s beside it takes %.2f s, and %.2f s alone (at most "
          "%d more: %s)" % (title, len(body) / 1e6, len(text) / 1e6, let_go, words[0], took, usual, HURRIED + MORE, held(is_held)),
          flush=True)
    return is_held


def gathered(server, book, text):
    """Shorter ones are sent once the books are closed: whoever reads them not at all keeps them from nobody."""
    client = Client(server, TABLE)
    begun = time.monotonic()
    ran = subprocess.run([CHARGECTL, "disputes", str(book), "--wait", "0"], stdout=subprocess.PIPE, stderr=subprocess.PIPE)
    took = time.monotonic() - begun
    is_beside = (ran.returncode, ran.stdout, ran.stderr) == (0, b"DISPUTES 0\n", b"") and client.socket.fileno() >= 0
    is_held = is_beside and is_whole(client.read_all(), text)
    server.expect("SERVED 200")
    print("serve: %s of %.1f MB to a client that reads nothing: a command that does not wait takes %.2f s (%s)"
          % (TABLE, len(text) / 1e6, took, held(is_held)), flush=True)
    return is_held


def are_sent(folder):
    dump, later = folder / "many", folder / "later"
    dumps.write(dump, "rdw", dumps.distinct(RECORDS))
    later.write_text(TARIFF.replace("2024-01-01", "2024-03-01"))
    book = new_books(folder, "long", dump)
    dump.unlink()
    text, table = said("details", book, 1), said("details", book, 1, "--csv")
    if not len(table) <= MOST_GATHERED < len(text):
        raise SystemExit("serve: details of %d and %d bytes" % (len(text), len(table)))
    server = Server(serving(book, 8))
    are_held = [at_full_speed(server, LIST, text), at_full_speed(server, TABLE, table), after_a_rest(server, text),
                stopped_as_it_writes(server, text), gathered(server, book, table),
                beside(server, book, "a client that reads slowly", True, "close", 1, "2024-01-31"),
                beside(server, book, "a client that reads nothing", False, "tariff", later)]
    are_held.append(at_full_speed(server, LIST, said("details", book, 1)))
    server.end()
    return all(are_held)
