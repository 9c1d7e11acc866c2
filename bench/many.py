#!/usr/bin/env python3
"""Times clients of `navmany`, beside `navd serve`, and prints one table; every figure is of this one run.

usage: bench/many.py [NAVMANY [NAVD]]     (crates/navmany/out/navmany and crates/navd/out/navd, as `bench/many.sh` and
`make build` leave them; without the second one the rows beside it are left out)

The rows are: 1,000 connections that are open at once, with 32 seats, each told one short session, and 10,000 of them in
all, with the processor time that they took; the processor time of one second in which 1,000 connections are open and say
nothing; definitions a second of one client whose lines are sent 500 at a time, beside the same at a door of `serve`, and
of four clients together; the memory of a connection that waits for a seat, and of one that has a seat and says nothing.
The script ends with 1 where a session was told other than it should be.
"""

import resource
import selectors
import socket
import subprocess
import sys
import time
from pathlib import Path

from serve import Client, commit_files, defines, free_port, rate

HERE = Path(__file__).parent.parent
NAVMANY = sys.argv[1] if len(sys.argv) > 1 else str(HERE / "crates/navmany/out/navmany")
NAVD = sys.argv[2] if len(sys.argv) > 2 else str(HERE / "crates/navd/out/navd")
AT_ONCE, ALL, SEATS, DEFINES, ROUNDS, SECONDS = 1_000, 10_000, 32, 100_000, 5, 120
SHORT = b'{"do":"hello","user":"operator"}\n{"do":"pin"}\n{"do":"quit"}\n'
WANTED = b'{"version":0}\n{"version":0}\n{"ok":true}\n'


class Many:
    """A running `navmany`, or `navd serve`."""

    def __init__(self, *words):
        self.port = free_port()
        self.process = subprocess.Popen([words[0], *(str(self.port) if word == "PORT" else word for word in words[1:])],
                                        stderr=subprocess.DEVNULL)
        self.waits()

    def waits(self):
        """Until it listens."""
        until = time.monotonic() + SECONDS
        while time.monotonic() < until:
            with open("/proc/net/tcp") as table:
                if any(line.split()[1].endswith(f":{self.port:04X}") and line.split()[3] == "0A" for line in list(table)[1:]):
                    return
            time.sleep(0.02)
        raise SystemExit("it doesn't listen")

    def connected(self):
        return socket.create_connection(("127.0.0.1", self.port))

    def memory(self):
        """What it holds, in kilobytes."""
        with open(f"/proc/{self.process.pid}/status") as status:
            return int(next(line for line in status if line.startswith("VmRSS:")).split()[1])

    def seconds(self):
        """Its processor time."""
        with open(f"/proc/{self.process.pid}/stat") as stat:
            fields = stat.read().rsplit(")", 1)[1].split()
        return (int(fields[11]) + int(fields[12])) / 100

    def end(self):
        self.process.kill()
        self.process.wait()


def opens(server):
    one = server.connected()
    one.sendall(SHORT)
    one.shutdown(socket.SHUT_WR)
    one.setblocking(False)
    return one


def short_sessions():
    """So many short sessions, of which so many connections are open at once; the seconds, and how many were told wrong."""
    server = Many(NAVMANY, "PORT", str(ALL), str(SEATS))
    start, opened, wrong, told, ready = time.perf_counter(), 0, 0, {}, selectors.DefaultSelector()
    while opened < ALL or told:
        while opened < ALL and len(told) < AT_ONCE:
            one = opens(server)
            told[one], opened = b"", opened + 1
            ready.register(one, selectors.EVENT_READ)
        events = ready.select(timeout=SECONDS)
        if not events:
            wrong += len(told)
            break
        for key, _ in events:
            one = key.fileobj
            try:
                piece = one.recv(1 << 16)
            except OSError:
                piece = b""
            told[one] += piece
            if not piece:
                wrong += told.pop(one) != WANTED
                ready.unregister(one)
                one.close()
    took, used = time.perf_counter() - start, server.seconds()
    status = server.process.wait(timeout=SECONDS) if not wrong else server.end()
    print(f"{ALL:,} sessions, {AT_ONCE:,} open at once, {SEATS} seats: seconds   {took:10.2f}   its processor time {used:.2f}, wrong {wrong}, status {status}")
    return wrong or status


def idle():
    """Connections that say nothing: those with a seat, and those that wait for one."""
    server = Many(NAVMANY, "PORT", str(ALL), str(SEATS))
    before = server.memory()
    seated = [server.connected() for _ in range(SEATS)]
    for one in seated:
        one.sendall(SHORT.split(b"\n")[0] + b"\n")
        one.recv(100)
    with_seats = server.memory()
    waiting = [server.connected() for _ in range(AT_ONCE - SEATS)]
    time.sleep(0.5)
    all_open, used = server.memory(), server.seconds()
    time.sleep(1)
    used = server.seconds() - used
    print(f"processor time of a second with {AT_ONCE:,} idle connections   {used:10.2f}")
    print(f"memory of an idle connection with a seat, KB           {(with_seats - before) / SEATS:10.1f}")
    print(f"memory of a connection that waits for a seat, KB       {(all_open - with_seats) / len(waiting):10.1f}")
    for one in seated + waiting:
        one.close()
    server.end()


def definitions(*words):
    """Definitions a second: of one client, and of four."""
    server = Many(*words)
    commit_files(Client(server.port))
    rounds = [(rate(server.port, 1, defines(DEFINES)), rate(server.port, 4, defines(DEFINES))) for _ in range(ROUNDS)]
    server.end()
    return [sorted(rates)[ROUNDS // 2] for rates in zip(*rounds)]


def main():
    resource.setrlimit(resource.RLIMIT_NOFILE, (resource.getrlimit(resource.RLIMIT_NOFILE)[1],) * 2)
    wrong = short_sessions()
    idle()
    one, four = definitions(NAVMANY, "PORT", "1000", "8")
    print(f"definitions a second, one client                       {one:10,.0f}")
    print(f"definitions a second, four clients together            {four:10,.0f}   {four / one:.2f} times")
    if Path(NAVD).exists():
        other, _ = definitions(NAVD, "serve", "PORT", "8", "1000")
        print(f"definitions a second, one client at a door of serve    {other:10,.0f}   {other / one:.2f} times")
    return 1 if wrong else 0


if __name__ == "__main__":
    sys.exit(main())
