#!/usr/bin/env python3
"""Runs the built `navd serve`, or `navmany`, with clients that behave well and badly, and prints one table.

usage: bench/clients.py [PROGRAM]     (crates/navd/out/navd, as `make build` leaves it, or a program named navmany, which
has a seat for each door and as many connections as all doors together)

Each row is one run of the server: what its clients do, the status with which it ends, and what has to be answered. A row
that goes otherwise or doesn't end is marked, and the script ends with 1.
"""

import os
import socket
import struct
import subprocess
import sys
import threading
import time

PROGRAM = sys.argv[1] if len(sys.argv) > 1 else "crates/navd/out/navd"
SECONDS = 60
LONG = 9_000_000
HELLO = b'{"do":"hello","user":"operator"}\n'
PIN = b'{"do":"pin"}\n'
QUIT = b'{"do":"quit"}\n'
COMMIT = b'{"do":"commit","edits":[{"put":"a.py","text":"x = 1\\nx"}]}\n'
DEFINE = b'{"do":"define","path":"a.py","line":1,"column":0}\n'
ROWS = b'{"limit":false,"rows":[{"node":3,"path":"a.py","span":[0,0,0,1]}]}\n'
MANY = os.path.basename(PROGRAM) == "navmany"
# What standard error tells, each a line that begins so.
LISTENS = b"navmany: listening at 127.0.0.1:%d" if MANY else b"navd: listening at 127.0.0.1:%d, doors: %d"
CANT_LISTEN = b"navmany: can't listen at 127.0.0.1:%d: " if MANY else b"navd: can't listen at 127.0.0.1:%d: "
SERVED = b"navmany: all connections were served" if MANY else b"navd: each door has had its connections"


def version(number):
    return b'{"version":%d}\n' % number


def free_port():
    with socket.socket() as other:
        other.bind(("127.0.0.1", 0))
        return other.getsockname()[1]


class Server:
    """A `navd serve` with so many doors, each for so many connections, or a `navmany` with as many seats."""

    def __init__(self, doors, connections, port=None):
        self.port = port or free_port()
        self.doors = doors
        if MANY:
            words = [PROGRAM, str(self.port), str(doors * connections), str(doors)]
        else:
            words = [PROGRAM, "serve", str(self.port), str(doors), str(connections)]
        self.process = subprocess.Popen(words, stdin=subprocess.DEVNULL, stdout=subprocess.PIPE, stderr=subprocess.PIPE)

    def client(self):
        """A connection, once the server listens."""
        until = time.monotonic() + SECONDS
        while True:
            try:
                one = socket.create_connection(("127.0.0.1", self.port), timeout=SECONDS)
                return one, one.makefile("rb")
            except ConnectionRefusedError:
                if time.monotonic() > until:
                    raise
                time.sleep(0.02)

    def ended(self):
        """The status, and what it wrote on standard output and error."""
        try:
            wrote, said = self.process.communicate(timeout=SECONDS)
            return self.process.returncode, wrote, said
        except subprocess.TimeoutExpired:
            self.process.kill()
            self.process.communicate()
            return "no end", b"", b""


class Unwanted(Exception):
    """Something other than what is wanted."""


def asks(client, *rows):
    """Sends lines one by one, each of which has to have its reply."""
    one, replies = client
    for line, wanted in rows:
        one.sendall(line)
        reply = replies.readline()
        if reply != wanted:
            raise Unwanted(f"{line!r} was replied {reply!r}")


def closes(client):
    one, replies = client
    replies.close()
    one.close()


def ends(server, status, *told):
    """The server ends with that status. On standard error it told where it listens, then what these pieces begin or end
    lines of, and then that it served all."""
    ended, wrote, said = server.ended()
    listens = LISTENS % (server.port if MANY else (server.port, server.doors))
    wanted = [listens, *told, SERVED] if status == 0 else told
    lines = said.splitlines()
    fits = len(lines) == len(wanted) and all(
        line.startswith(piece) or line.endswith(piece) for line, piece in zip(lines, wanted)
    )
    if (ended, wrote) != (status, b"") or not fits:
        raise Unwanted(f"the server ended with {(ended, wrote, said)!r}")


def one_client():
    server = Server(1, 1)
    client = server.client()
    asks(client, (HELLO, version(0)), (COMMIT, version(1)), (DEFINE, ROWS), (QUIT, b'{"ok":true}\n'))
    if client[1].readline():
        raise Unwanted("more was written behind quit")
    ends(server, 0)


def one_after_the_other():
    server = Server(1, 3)
    for number in range(3):
        client = server.client()
        asks(client, (HELLO, version(number)), (COMMIT, version(number + 1)))
        closes(client)
    ends(server, 0)


def two_at_once():
    server = Server(2, 1)
    first, second = server.client(), server.client()
    asks(first, (HELLO, version(0)))
    asks(second, (HELLO, version(0)))
    asks(first, (COMMIT, version(1)), (DEFINE, ROWS))
    asks(second, (DEFINE, b'{"error":"no_file"}\n'), (PIN, version(1)), (DEFINE, ROWS))
    closes(first)
    closes(second)
    ends(server, 0)


def port_in_use():
    with socket.socket() as other:
        other.bind(("127.0.0.1", 0))
        other.listen()
        port = other.getsockname()[1]
        ends(Server(1, 1, port), 8, CANT_LISTEN % port)


def half_a_line():
    server = Server(1, 2)
    one, replies = server.client()
    one.sendall(HELLO + b'{"do":"p')
    one.shutdown(socket.SHUT_WR)
    if replies.read() != version(0) + b'{"error":"bad_json"}\n':
        raise Unwanted("the last line, whose end is that of the input, wasn't answered as it is")
    asks(server.client(), (HELLO, version(0)), (QUIT, b'{"ok":true}\n'))
    ends(server, 0)


def gone_within_a_line():
    server = Server(1, 2)
    client = server.client()
    client[0].sendall(HELLO + b'{"do":"p')
    # It is closed at once, and what the other end sends or reads fails.
    client[0].setsockopt(socket.SOL_SOCKET, socket.SO_LINGER, struct.pack("ii", 1, 0))
    closes(client)
    asks(server.client(), (HELLO, version(0)), (QUIT, b'{"ok":true}\n'))
    ends(server, 0)


def line_without_end():
    server = Server(2, 1)
    long, other = server.client(), server.client()
    sender = threading.Thread(target=sends_long, args=(long[0],))
    sender.start()
    asks(other, (HELLO, version(0)), (COMMIT, version(1)), (DEFINE, ROWS), (QUIT, b'{"ok":true}\n'))
    sender.join()
    ends(server, 0, b" was ended: a line has more than 8388608 bytes")


def request_of_a_browser():
    server = Server(1, 2)
    one, replies = server.client()
    one.sendall(b"POST / HTTP/1.1\r\nContent-Type: text/plain\r\n\r\n" + HELLO + COMMIT)
    if replies.read() != b"":
        raise Unwanted("a request of a browser was answered")
    asks(server.client(), (HELLO, version(0)), (QUIT, b'{"ok":true}\n'))
    ends(server, 0, b" was ended: it began as an HTTP request, of which nothing was carried out")


def sends_long(one):
    try:
        one.sendall(b"1" * LONG)
    except OSError:
        pass


def never_reads():
    server = Server(2, 1)
    (one, replies), other = server.client(), server.client()
    sender = threading.Thread(target=sends_many, args=(one,))
    sender.start()
    asks(other, (HELLO, version(0)), (COMMIT, version(1)), (DEFINE, ROWS), (QUIT, b'{"ok":true}\n'))
    time.sleep(1)
    one.shutdown(socket.SHUT_RDWR)
    sender.join()
    closes((one, replies))
    ends(server, 0)


def sends_many(one):
    try:
        one.sendall(HELLO + PIN * 900_000)
    except OSError:
        pass


TABLE = [
    ("one client, and quit", one_client),
    ("three clients one after the other at one door, on one log", one_after_the_other),
    ("two clients at two doors: what one commits the other sees at its next pin", two_at_once),
    ("a port in use", port_in_use),
    ("half a line and then the end of the input", half_a_line),
    ("a client that is gone within a line", gone_within_a_line),
    (f"a line of {LONG:,} bytes without an end, beside another client", line_without_end),
    ("a client that never reads, beside another client", never_reads),
    ("a browser's request, whose lines aren't carried out", request_of_a_browser),
]


def main():
    if not os.access(PROGRAM, os.X_OK):
        print(f"there is no program {PROGRAM}; `make build` leaves one at crates/navd/out/navd")
        return 1
    wrong = 0
    for what, row in TABLE:
        try:
            row()
            verdict = "so it is"
        except (Unwanted, OSError) as error:
            verdict, wrong = str(error)[:160], wrong + 1
        print(f"{what:76} {verdict}", flush=True)
    print(f"{len(TABLE)} runs, {wrong} of them other than wanted")
    return 1 if wrong else 0


if __name__ == "__main__":
    sys.exit(main())
