#!/usr/bin/env python3
"""Times clients of `navd serve` over TCP, and prints one table; every figure is of this one run.

usage: bench/serve.py [PROGRAM]     (crates/navd/out/navd, as `make build` leaves it)

The files are those of `bench/session.py`. The rows are: definitions that one client is told a second by one door, its
lines sent 500 at a time, and those that four clients are told by four doors, each the middle one of five rounds; the same
for one client, in five rounds more, while another one commits without pause; requests a second of a client that waits for
each reply; pins a second at version 0 and at version 101,000; and the program's memory after so many versions. Clients run
on the processors that the program runs on, so a figure depends on where the system puts them.
"""

import multiprocessing
import socket
import subprocess
import sys
import time

from session import drawn, graph, line_of, path_of

PROGRAM = sys.argv[1] if len(sys.argv) > 1 else "crates/navd/out/navd"
FILES, DOORS, ROUNDS = 64, 8, 5
DEFINES, ASKED, PINS, VERSIONS = 100_000, 2_000, 100_000, 100_000
HELLO = line_of(do="hello", user="operator")
PIN = line_of(do="pin")


def free_port():
    with socket.socket() as other:
        other.bind(("127.0.0.1", 0))
        return other.getsockname()[1]


class Server:
    """A running `navd serve`, which ends when it is told to."""

    def __init__(self):
        self.port = free_port()
        self.process = subprocess.Popen([PROGRAM, "serve", str(self.port), str(DOORS), "1000"])

    def memory(self):
        """The memory that it holds, in megabytes."""
        with open(f"/proc/{self.process.pid}/status") as status:
            held = [line for line in status if line.startswith("VmRSS:")]
        return int(held[0].split()[1]) / 1024

    def end(self):
        self.process.kill()
        self.process.wait()


class Client:
    """A connection on which the operator is named."""

    def __init__(self, port):
        for _ in range(100):
            try:
                self.socket = socket.create_connection(("127.0.0.1", port))
                break
            except ConnectionRefusedError:
                time.sleep(0.05)
        self.replies([HELLO])

    def replies(self, lines):
        """Sends the lines, some at a time, and takes their replies, none of which may be an error; the seconds."""
        start = time.perf_counter()
        for at in range(0, len(lines), 500):
            some = lines[at : at + 500]
            self.socket.sendall(b"".join(some))
            self.take(len(some))
        return time.perf_counter() - start

    def take(self, due):
        """Takes so many replies."""
        while due > 0:
            more = self.socket.recv(1 << 16)
            if not more:
                raise SystemExit("navd ended the connection")
            if b'"error"' in more:
                raise SystemExit(f"navd replied {more!r}")
            due -= more.count(b"\n")

    def close(self):
        self.socket.close()


def commit_files(client):
    numbers = drawn(FILES)
    edits = [{"put": path_of(k), "text": graph(k, next(numbers), next(numbers))} for k in range(FILES)]
    client.replies([line_of(do="commit", edits=edits)])


def defines(count):
    return [line_of(do="define", path=path_of(k % FILES), node=1) for k in range(count)]


def ask(port, lines, ready, go, told):
    client = Client(port)
    ready.release()
    go.wait()
    told.put(client.replies(lines))
    client.close()


def rate(port, clients, lines):
    """How many lines a second so many clients are told, each on its own door."""
    ready, go, told = multiprocessing.Semaphore(0), multiprocessing.Event(), multiprocessing.Queue()
    asking = [multiprocessing.Process(target=ask, args=(port, lines, ready, go, told)) for _ in range(clients)]
    for one in asking:
        one.start()
    for _ in asking:
        ready.acquire()
    start = time.perf_counter()
    go.set()
    for _ in asking:
        told.get()
    took = time.perf_counter() - start
    for one in asking:
        one.join()
    return clients * len(lines) / took


def commit_on(port, until):
    client, numbers = Client(port), drawn(FILES)
    while not until.is_set():
        text = graph(0, next(numbers), next(numbers))
        client.replies([line_of(do="commit", edits=[{"put": path_of(0), "text": text}])])
    client.close()


def grants(count):
    """Commits that change no file: a grant that is given and taken away."""
    given = line_of(do="grant", user="ann", prefix="f")
    taken = line_of(do="revoke", user="ann", prefix="f")
    return [given if k % 2 == 0 else taken for k in range(count)]


def main():
    server = Server()
    client = Client(server.port)
    commit_files(client)
    rounds = [(rate(server.port, 1, defines(DEFINES)), rate(server.port, 4, defines(DEFINES))) for _ in range(ROUNDS)]
    one, four = (sorted(rates)[ROUNDS // 2] for rates in zip(*rounds))
    print(f"definitions a second, one client on one door    {one:10,.0f}")
    print(f"definitions a second, four clients on four      {four:10,.0f}   {four / one:.2f} times")
    until = multiprocessing.Event()
    other = multiprocessing.Process(target=commit_on, args=(server.port, until))
    other.start()
    beside = sorted(rate(server.port, 1, defines(DEFINES)) for _ in range(ROUNDS))[ROUNDS // 2]
    until.set()
    other.join()
    print(f"one client while another one commits            {beside:10,.0f}   {beside / one:.2f} times")
    took = sum(client.replies([line]) for line in defines(ASKED))
    print(f"one client that waits for each reply            {ASKED / took:10,.0f}")
    server.end()

    server = Server()
    client = Client(server.port)
    first = PINS / client.replies([PIN] * PINS)
    print(f"pins a second at version 0                      {first:10,.0f}")
    client.replies(grants(1_000))
    few = server.memory()
    client.replies(grants(VERSIONS))
    late = PINS / client.replies([PIN] * PINS)
    print(f"pins a second at version {VERSIONS + 1_000:,}                {late:10,.0f}   {late / first:.2f} times")
    print(f"memory at version 1,000, MB                     {few:10,.1f}")
    print(f"memory at version {VERSIONS + 1_000:,}, MB                   {server.memory():10,.1f}")
    server.end()


if __name__ == "__main__":
    main()
