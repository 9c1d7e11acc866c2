#!/usr/bin/env python3
"""Runs the built `navd` with words, inputs, outputs and memory that bring about each of its statuses; prints one table.

usage: bench/statuses.py [PROGRAM ..]     (crates/navd/out/navd, as `make build` leaves it)

Each row is one run: its words, what standard input and output are, the status that is wanted, and what has to
be written. A run that ends otherwise, is stopped by a signal or doesn't end is marked, and the script ends with
1. What this machine can't bring about is told as not shown, and fails nothing.
"""

import json
import os
import resource
import signal
import socket
import subprocess
import sys
import tempfile

PROGRAMS = sys.argv[1:] or ["crates/navd/out/navd"]
SECONDS = 20
LINE_MAX = 8_388_608

GRAPH = (
    b'{"nodes":[{"kind":"push","symbol":"x","reference":true},{"kind":"scope"},'
    b'{"kind":"pop","symbol":"x","definition":true,"span":[1,0,1,1]}],"edges":[[0,1,0],[1,2,0]]}\n'
)
NODE = b'{"node":0}\n'
ROWS = b'{"limit":false,"rows":[{"node":2,"path":"once.sg.json","span":[1,0,1,1]}]}\n'
NAMED = (
    b'{"edges":[["n0","n1",0],["n1","n2",0]],"format":2,"nodes":['
    b'{"kind":"push","name":"n0","reference":true,"symbol":"x"},{"kind":"scope","name":"n1"},'
    b'{"definition":true,"kind":"pop","name":"n2","span":[1,0,1,1],"symbol":"x"}]}\n'
)
NO_GRAPH = b'{"error":"bad_request","field":"graph"}\n'
NO_NODE = b'{"error":"bad_request","field":"node"}\n'
NOT_JSON = b'{"error":"bad_file","fault":"json","path":"%s.sg.json"}\n'
LARGE = b'{"bytes":8388608,"error":"bad_file","fault":"large","path":"%s.sg.json"}\n'
SAID = {
    0: b"",
    1: b"navd: the editor left without shutdown\n",
    2: (
        b"usage: navd run | navd lsp | navd once | navd upgrade (each of these reads standard input)"
        b" | navd demo FILES START (1 to 2048, 0 to 4294967295)"
        b" | navd serve PORT DOORS CONNECTIONS (1 to 65535, 1 to 32, 1 to 1000)"
        b"; README.md and docs/FORMATS.md say more\n"
    ),
    3: b"navd: reading standard input failed\n",
    4: b"navd: writing standard output failed\n",
    5: b"navd: memory was refused\n",
    6: b"navd: a line or a message has more than 8388608 bytes\n",
    7: b"navd: 1000000 lines or messages were answered, and more input stands behind them\n",
    # The port and the system's reason follow.
    8: b"navd: can't listen at 127.0.0.1:",
    9: b"navd: the input isn't cut into messages as the protocol has it, or ends within one\n",
}
LONG_LINE = b"navd: line %d has more than 8388608 bytes\n"
HELLO = b'{"do":"hello","user":"operator"}\n'
PIN = b'{"do":"pin"}\n'
QUIT = b'{"do":"quit"}\n'
VERSION = b'{"version":0}\n'
NO_DO = b'{"error":"bad_request","field":"do"}\n'
SUMMARY = b'{"crowded":0,"files":3,"limited":0,"references":3,"rows":3,"sum":8}\n'
LINES_MAX = 1_000_000

SCOPES = 5_000
MANY = b'{"nodes":[' + b",".join([b'{"kind":"scope"}'] * SCOPES) + b'],"edges":[]}\n'
MANY_NAMED = (
    b'{"edges":[],"format":2,"nodes":['
    + b",".join(b'{"kind":"scope","name":"n%d"}' % n for n in range(SCOPES))
    + b"]}\n"
)


class NotShown(Exception):
    """This machine can't bring the row about."""


class Ended:
    """How a run ended: its status, what it wrote on standard output and error, and what it left of its input."""

    def __init__(self, status, wrote=None, said=b"", left=None):
        self.status, self.wrote, self.said, self.left = status, wrote, said, left


def finished(child):
    """The status, or what stopped it, and what it said on standard error."""
    try:
        _, said = child.communicate(timeout=SECONDS)
    except subprocess.TimeoutExpired:
        child.kill()
        child.communicate()
        return "no end", b""
    if child.returncode < 0:
        return signal.Signals(-child.returncode).name, said
    return child.returncode, said


def run(command, stdin, stdout, before=None):
    """Starts the command over these two, with what is done before in its process, and waits for its end."""
    try:
        child = subprocess.Popen(command, stdin=stdin, stdout=stdout, stderr=subprocess.PIPE, preexec_fn=before)
    except subprocess.SubprocessError as error:
        raise NotShown(str(error)) from error
    return finished(child)


def taken(command, stdin, before=None):
    """Runs the command over this input with a file as its output, and reads what that took."""
    with tempfile.TemporaryFile() as output:
        status, said = run(command, stdin, output, before)
        output.seek(0)
        return Ended(status, output.read(), said)


def from_file(command, data, before=None):
    """The input is a file that holds the data; it is also seen how much of it was left."""
    with tempfile.TemporaryFile() as source:
        source.write(data)
        source.seek(0)
        ended = taken(command, source, before)
        ended.left = len(data) - os.lseek(source.fileno(), 0, os.SEEK_CUR)
        return ended


def from_open_pipe(command, data):
    """The input is a pipe that gives the data and stays open."""
    reads, writes = os.pipe()
    try:
        os.write(writes, data)
        return taken(command, reads)
    finally:
        os.close(reads)
        os.close(writes)


def from_failing(command, data):
    """The input gives the data, and its next read fails: the other end was closed with bytes unread."""
    far, near = socket.socketpair(socket.AF_UNIX, socket.SOCK_STREAM)
    with far, near:
        near.sendall(b"unread")
        far.sendall(data)
        far.close()
        return taken(command, near)


def from_folder(command):
    """The input is a folder, of which each read fails."""
    folder = os.open("/", os.O_RDONLY)
    try:
        return taken(command, folder)
    finally:
        os.close(folder)


def without_input(command):
    """Standard input is closed."""
    return taken(command, None, lambda: os.close(0))


def into(command, data, stdout, before=None):
    """The output is what was opened; what it took isn't seen."""
    with tempfile.TemporaryFile() as source:
        source.write(data)
        source.seek(0)
        status, said = run(command, source, stdout, before)
        return Ended(status, None, said)


def into_full(command, data):
    """The output is a device that has no room."""
    try:
        full = os.open("/dev/full", os.O_WRONLY)
    except OSError as error:
        raise NotShown(str(error)) from error
    try:
        return into(command, data, full)
    finally:
        os.close(full)


def into_broken_pipe(command, data):
    """The output is a pipe that nobody reads."""
    reads, writes = os.pipe()
    os.close(reads)
    try:
        return into(command, data, writes)
    finally:
        os.close(writes)


def without_output(command, data):
    """Standard output is closed."""
    return into(command, data, None, lambda: os.close(1))


def limited(kind, most):
    """What limits the process to so much, and lets it see a refusal in place of a signal."""

    def limit():
        signal.signal(signal.SIGXFSZ, signal.SIG_IGN)
        resource.setrlimit(kind, (most, most))

    return limit


def into_room(room):
    """A run whose output is a file that has room for so many bytes."""
    return lambda command, data: from_file(command, data, limited(resource.RLIMIT_FSIZE, room))


def in_memory(most):
    """A run with so many bytes of memory for all that the process has."""
    return lambda command, data: from_file(command, data, limited(resource.RLIMIT_AS, most))


def twice(command, data):
    """A run behind another one, which has to have written the same line."""
    first, second = from_file(command, data), from_file(command, data)
    if first.wrote != second.wrote or second.wrote.count(b"\n") != 1:
        second.status = "another line"
    return second


def into_port_in_use(command, _):
    """A run whose last words but two are a port at which somebody listens."""
    with socket.socket() as other:
        other.bind(("127.0.0.1", 0))
        other.listen()
        return from_file([*command, str(other.getsockname()[1]), "1", "1"], b"")


def commit(**texts):
    """A commit that puts these graph files."""
    edits = [{"put": f"{name}.sg.json", "text": text} for name, text in texts.items()]
    return json.dumps({"do": "commit", "edits": edits}).encode() + b"\n"


def ladder(rungs):
    """A graph file in which two edges lead from each scope to the next: with 16 scopes nearly as heavy as one may be."""
    nodes = [{"kind": "push", "symbol": "m", "reference": True}] + [{"kind": "scope"}] * rungs
    edges = [[0, 1, 0]] + [[n, n + 1, 0] for n in range(1, rungs) for _ in range(2)]
    return json.dumps({"nodes": nodes, "edges": edges})


def frame(body):
    """A message with its header."""
    return b"Content-Length: %d\r\n\r\n%s" % (len(body), body)


def line(length):
    """A line of so many bytes, and its newline."""
    return b"[" * length + b"\n"


INITIALIZE = frame(b'{"id":1,"method":"initialize","params":{}}')
INITIALIZED = frame(
    b'{"id":1,"jsonrpc":"2.0","result":{"capabilities":{"definitionProvider":true,'
    b'"referencesProvider":true,"textDocumentSync":1}}}'
)
SHUTDOWN = frame(b'{"id":2,"method":"shutdown"}')
SHUT = frame(b'{"id":2,"jsonrpc":"2.0","result":null}')
EXIT = frame(b'{"method":"exit"}')
ROOTED = frame(b'{"id":1,"method":"initialize","params":{"rootUri":"file:///w"}}')
CROWD = {"uri": "file:///w/a.py", "text": "x = 1\n" * 8_193 + "x\n"}
OPENED = frame(json.dumps({"method": "textDocument/didOpen", "params": {"textDocument": CROWD}}).encode())
ASKED = {
    "textDocument": {"uri": CROWD["uri"]},
    "position": {"line": 8_193, "character": 0},
    "context": {"includeDeclaration": True},
}
CROWDED = b"".join(
    frame(json.dumps({"id": 2, "method": f"textDocument/{what}", "params": ASKED}).encode())
    for what in ("definition", "references")
)
CROWDED_TOLD = frame(b'{"error":{"code":1,"message":"crowded"},"id":2,"jsonrpc":"2.0"}') * 2
HEAVY = {f"f{n}": ladder(16) for n in range(25)}
HEAVY_LINES = HELLO + commit(**dict(list(HEAVY.items())[:24])) + commit(f24=HEAVY["f24"])
TOO_HEAVY = b'{"version":0}\n{"version":1}\n{"error":"too_heavy","weight":24576025}\n'
FILES = HELLO + commit(**{f"f{n}": '{"nodes":[],"edges":[]}' for n in range(2_049)})
TOO_MANY = b'{"version":0}\n{"error":"too_many_files","files":2049}\n'

# The status, the words, what is special, the call that runs it and its data, and what has to be written (None
# where it isn't seen).
ROWS_OF_TABLE = [
    (0, ["once"], "a graph and a node", from_file, GRAPH + NODE, ROWS),
    (0, ["upgrade"], "a graph", from_file, GRAPH, NAMED),
    (0, ["upgrade"], "a graph of 5,000 nodes", from_file, MANY, MANY_NAMED),
    (0, ["once"], "no input", from_file, b"", NO_GRAPH),
    (0, ["upgrade"], "no input", from_file, b"", NO_GRAPH),
    (0, ["once"], "no second line", from_file, GRAPH, NO_NODE),
    (0, ["once"], "standard input stays open behind the second line", from_open_pipe, GRAPH + NODE, ROWS),
    (0, ["once"], "standard input stays open behind a graph that is refused", from_open_pipe, b"{\n", NOT_JSON % b"once"),
    (0, ["upgrade"], "standard input stays open behind the first line", from_open_pipe, GRAPH, NAMED),
    (0, ["once"], "standard input fails behind the second line", from_failing, GRAPH + NODE, ROWS),
    (0, ["upgrade"], "standard input fails behind the first line", from_failing, GRAPH, NAMED),
    (0, ["once"], "a first line of the longest length", from_file, line(LINE_MAX), LARGE % b"once"),
    (0, ["upgrade"], "a first line of the longest length", from_file, line(LINE_MAX), LARGE % b"upgrade"),
    (0, ["once"], "a second line of the longest length", from_file, GRAPH + line(LINE_MAX), b'{"error":"bad_json"}\n'),
    (0, ["once"], "a second line that is too long behind a graph that is refused", from_file, b"{\n" + line(LINE_MAX + 1), NOT_JSON % b"once"),
    (0, ["run"], "no input", from_file, b"", b""),
    (0, ["run"], "two lines, the last without its end", from_file, HELLO + PIN[:-1], VERSION * 2),
    (0, ["run"], "standard input stays open behind a quit", from_open_pipe, QUIT + PIN, b'{"ok":true}\n'),
    (0, ["run"], "a line of the longest length", from_file, HELLO + line(LINE_MAX), VERSION + b'{"error":"bad_json"}\n'),
    (0, ["run"], "24 of the heaviest files, and one more", from_file, HEAVY_LINES, TOO_HEAVY),
    (0, ["run"], "a file more than a version may have", from_file, FILES, TOO_MANY),
    (0, ["demo", "3", "0"], "a made tree", from_file, b"", SUMMARY),
    (0, ["demo", "2048", "7"], "the largest tree, twice the same line", twice, b"", None),
    (0, ["run"], "as many lines as a session may have", from_file, b"1\n" * LINES_MAX, NO_DO * LINES_MAX),
    (2, [], "no word", from_file, GRAPH + NODE, b""),
    (2, ["serve"], "no command", from_file, GRAPH + NODE, b""),
    (2, ["serve", "4000", "33", "1"], "a door too many", from_file, GRAPH + NODE, b""),
    (8, ["serve"], "a port in use", into_port_in_use, None, b""),
    (0, ["lsp"], "no input", from_file, b"", b""),
    (0, ["lsp"], "an exit behind a shutdown", from_file, INITIALIZE + SHUTDOWN + EXIT, INITIALIZED + SHUT),
    (1, ["lsp"], "a name with too many definitions", from_file, ROOTED + OPENED + CROWDED + EXIT, INITIALIZED + CROWDED_TOLD),
    (1, ["lsp"], "an exit without a shutdown", from_file, INITIALIZE + EXIT, INITIALIZED),
    (3, ["lsp"], "standard input fails within a message", from_failing, INITIALIZE + SHUTDOWN[:-1], INITIALIZED),
    (4, ["lsp"], "standard output has room for 20 bytes", into_room(20), INITIALIZE, INITIALIZED[:20]),
    (6, ["lsp"], "a header that states one byte more", from_file, INITIALIZE + b"Content-Length: 8388609\r\n\r\n", INITIALIZED),
    (5, ["lsp"], "a message of the longest length in just as much memory", in_memory(LINE_MAX), frame(b"[" * LINE_MAX), b""),
    (7, ["lsp"], "a byte behind as many messages as a session may have", from_file, frame(b"{}") * LINES_MAX + b"x", b""),
    (9, ["lsp"], "the input ends within a message", from_file, INITIALIZE + SHUTDOWN[:-1], INITIALIZED),
    (9, ["lsp"], "a header without a length", from_file, b"Content-Type: x\r\n\r\n", b""),
    (2, [""], "an empty word", from_file, GRAPH + NODE, b""),
    (2, ["ONCE"], "a command in capitals", from_file, GRAPH + NODE, b""),
    (2, ["--help"], "a word that begins with a hyphen", from_file, GRAPH + NODE, b""),
    (2, ["once", "once"], "a command twice", from_file, GRAPH + NODE, b""),
    (2, ["upgrade", ""], "a word too many", from_file, GRAPH + NODE, b""),
    (2, [b"once\xff"], "a word that isn't UTF-8", from_file, GRAPH + NODE, b""),
    (2, ["once", b"\xff"], "a second word that isn't UTF-8", from_file, GRAPH + NODE, b""),
    (3, ["once"], "standard input is a folder", lambda command, _: from_folder(command), None, b""),
    (3, ["upgrade"], "standard input is a folder", lambda command, _: from_folder(command), None, b""),
    (3, ["once"], "standard input is closed", lambda command, _: without_input(command), None, b""),
    (3, ["upgrade"], "standard input is closed", lambda command, _: without_input(command), None, b""),
    (3, ["once"], "standard input fails within the first line", from_failing, GRAPH[:-1], b""),
    (3, ["upgrade"], "standard input fails within the first line", from_failing, GRAPH[:-1], b""),
    (3, ["once"], "standard input fails behind the first line", from_failing, GRAPH, b""),
    (3, ["once"], "standard input fails within the second line", from_failing, GRAPH + NODE[:-1], b""),
    (3, ["run"], "standard input is a folder", lambda command, _: from_folder(command), None, b""),
    (3, ["run"], "standard input fails within the second line", from_failing, HELLO + PIN[:-1], VERSION),
    (4, ["demo", "3", "0"], "standard output has room for 20 bytes", into_room(20), b"", SUMMARY[:20]),
    (4, ["run"], "standard output is closed", without_output, HELLO, None),
    (4, ["run"], "standard output has room for 20 bytes", into_room(20), HELLO + PIN, (VERSION * 2)[:20]),
    (5, ["run"], "a line of the longest length in just as much memory", in_memory(LINE_MAX), line(LINE_MAX), b""),
    (6, ["run"], "a second line of one byte more", from_file, HELLO + line(LINE_MAX + 1), VERSION),
    (7, ["run"], "one line more than a session may have", from_file, b"1\n" * LINES_MAX + PIN, NO_DO * LINES_MAX),
    (4, ["once"], "standard output is full", into_full, GRAPH + NODE, None),
    (4, ["upgrade"], "standard output is full", into_full, GRAPH, None),
    (4, ["once"], "standard output is a pipe that nobody reads", into_broken_pipe, GRAPH + NODE, None),
    (4, ["upgrade"], "standard output is a pipe that nobody reads", into_broken_pipe, GRAPH, None),
    (4, ["once"], "standard output is closed", without_output, GRAPH + NODE, None),
    (4, ["upgrade"], "standard output is closed", without_output, GRAPH, None),
    (4, ["once"], "standard output has room for 7 bytes", into_room(7), GRAPH + NODE, ROWS[:7]),
    (4, ["upgrade"], "standard output has room for 70,001 bytes", into_room(70_001), MANY, MANY_NAMED[:70_001]),
    (5, ["once"], "a line of the longest length in just as much memory", in_memory(LINE_MAX), line(LINE_MAX), b""),
    (5, ["upgrade"], "a line of the longest length in just as much memory", in_memory(LINE_MAX), line(LINE_MAX), b""),
    (6, ["once"], "a first line of one byte more", from_file, line(LINE_MAX + 1), b""),
    (6, ["upgrade"], "a first line of one byte more", from_file, line(LINE_MAX + 1), b""),
    (6, ["once"], "a second line of one byte more", from_file, GRAPH + line(LINE_MAX + 1), b""),
    (6, ["once"], "a last line of one byte more, with no newline", from_file, line(LINE_MAX + 1)[:-1], b""),
]


def faults(wanted, words, data, written, ended):
    """What of the run differs from what is wanted."""
    found = []
    if ended.status != wanted:
        found.append(f"ended with {ended.status}")
    if written is not None and ended.wrote != written:
        found.append(f"wrote {len(ended.wrote):,} bytes, not the {len(written):,} that are wanted")
    said = LONG_LINE % (written.count(b"\n") + 1) if (wanted, words) == (6, ["run"]) else SAID[wanted]
    if ended.said != said and not (wanted == 8 and ended.said.startswith(said) and ended.said.count(b"\n") == 1):
        found.append(f"said {ended.said[:80]!r} on standard error")
    if wanted == 2 and ended.left != len(data):
        found.append(f"read {len(data) - ended.left:,} bytes")
    return found


def shown(program):
    """Runs each row on the program and prints it: how many differ."""
    wrong = 0
    for wanted, words, what, call, data, written in ROWS_OF_TABLE:
        told = " ".join(word if isinstance(word, str) else repr(word)[2:-1] for word in words)
        try:
            found = faults(wanted, words, data, written, call([program, *words], data))
            verdict = "; ".join(found) or "so it is"
            wrong += bool(found)
        except NotShown as error:
            verdict = f"not shown: {error}"
        print(f"{wanted}  {told:12} {what:62} {verdict}")
    return wrong


def main():
    lacking = [program for program in PROGRAMS if not os.access(program, os.X_OK)]
    if lacking:
        print(f"there is no program {lacking[0]}; `make build` leaves one at crates/navd/out/navd")
        return 1
    wrong = 0
    for program in PROGRAMS:
        print(f"{program}: status, words, and what is special")
        wrong += shown(program)
    print(f"{len(ROWS_OF_TABLE) * len(PROGRAMS)} runs, {wrong} of them other than wanted")
    return 1 if wrong else 0


if __name__ == "__main__":
    sys.exit(main())
