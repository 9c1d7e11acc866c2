#!/usr/bin/env python3
"""Runs the built `navmany` with clients that are reset or gone at each stage of a session, and prints one table.

usage: bench/resets.py [PROGRAM]     (crates/navmany/out/navmany, as `bench/many.sh` leaves it)

Each row is one run of the program with two seats: one client does what the row says, and another one, beside it and after
it, has to be answered. Then the program has to end with status 0, since a session that ends early ends alone. A row that
goes otherwise or doesn't end is marked, and the script ends with 1.
"""

import os
import socket
import struct
import subprocess
import sys
import time

PROGRAM = sys.argv[1] if len(sys.argv) > 1 else "crates/navmany/out/navmany"
SECONDS = 60
LONG = 9_000_000
HELLO = b'{"do":"hello","user":"operator"}\n'
PIN = b'{"do":"pin"}\n'
QUIT = b'{"do":"quit"}\n'
VERSION = b'{"version":0}\n'
OK = b'{"ok":true}\n'


def free_port():
    with socket.socket() as other:
        other.bind(("127.0.0.1", 0))
        return other.getsockname()[1]


def connected(port):
    """A connection to the port, once somebody listens there."""
    until = time.monotonic() + SECONDS
    while True:
        try:
            return socket.create_connection(("127.0.0.1", port), timeout=SECONDS)
        except ConnectionRefusedError:
            if time.monotonic() > until:
                raise
            time.sleep(0.02)


def read_all(one):
    """What the other end sends until it has ended."""
    told = b""
    while piece := one.recv(1 << 16):
        told += piece
    return told


def reset(one):
    """Closes at once; what the other end sends or reads fails."""
    one.setsockopt(socket.SOL_SOCKET, socket.SO_LINGER, struct.pack("ii", 1, 0))
    one.close()


def sends(one, text):
    try:
        one.sendall(text)
    except OSError:
        pass


def before_a_byte(one):
    reset(one)


def within_a_line(one):
    one.sendall(HELLO[:9])
    time.sleep(0.1)
    reset(one)


def within_the_first_bytes(one):
    one.sendall(b"PO")
    time.sleep(0.1)
    reset(one)


def behind_a_line(one):
    one.sendall(HELLO)
    reset(one)


def with_a_reply_unread(one):
    one.sendall(HELLO)
    time.sleep(0.1)
    reset(one)


def with_many_replies_unread(one):
    one.settimeout(1)
    sends(one, HELLO + PIN * 500_000)
    reset(one)


def behind_quit(one):
    one.sendall(HELLO + QUIT)
    reset(one)


def half_a_line_and_gone(one):
    one.sendall(HELLO + PIN[:5])
    one.close()


def line_without_end(one):
    sends(one, b"1" * LONG)
    one.close()


def input_behind_quit(one):
    """All replies arrive, though more stands behind the line that ends the session."""
    one.sendall(HELLO + QUIT + PIN * 1000)
    told = read_all(one)
    one.close()
    if told != VERSION + OK:
        raise ValueError(f"told {told[:80]!r}")


def request_in_two_pieces(one):
    one.sendall(b"POS")
    time.sleep(0.1)
    one.sendall(b"T / HTTP/1.1\r\n\r\n" + HELLO)
    told = read_all(one)
    one.close()
    if told:
        raise ValueError(f"told {told[:80]!r}")


TABLE = [
    before_a_byte, within_the_first_bytes, within_a_line, behind_a_line, with_a_reply_unread, with_many_replies_unread,
    behind_quit, half_a_line_and_gone, line_without_end, input_behind_quit, request_in_two_pieces,
]


def asks(one, line, wanted):
    one.sendall(line)
    told = b""
    while not told.endswith(b"\n"):
        piece = one.recv(1 << 16)
        if not piece:
            break
        told += piece
    if told != wanted:
        raise ValueError(f"another client's {line!r} was told {told!r}")


def run(row):
    port = free_port()
    process = subprocess.Popen([PROGRAM, str(port), "3", "2"], stdin=subprocess.DEVNULL, stderr=subprocess.PIPE)
    try:
        beside = connected(port)
        asks(beside, HELLO, VERSION)
        row(connected(port))
        asks(beside, PIN, VERSION)
        beside.close()
        after = connected(port)
        asks(after, HELLO, VERSION)
        asks(after, QUIT, OK)
        after.close()
        process.communicate(timeout=SECONDS)
        if process.returncode != 0:
            raise ValueError(f"status {process.returncode}")
    finally:
        process.kill()
        process.communicate()


def main():
    if not os.access(PROGRAM, os.X_OK):
        print(f"there is no program {PROGRAM}; `bench/many.sh` leaves one at crates/navmany/out/navmany")
        return 1
    wrong = 0
    for row in TABLE:
        try:
            run(row)
            verdict = "so it is"
        except (ValueError, OSError, subprocess.TimeoutExpired) as error:
            verdict, wrong = str(error)[:160], wrong + 1
        print(f"{row.__name__.replace('_', ' '):32} {verdict}", flush=True)
    print(f"{len(TABLE)} runs, {wrong} of them other than wanted")
    return 1 if wrong else 0


if __name__ == "__main__":
    sys.exit(main())
