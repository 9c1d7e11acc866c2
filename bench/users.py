#!/usr/bin/env python3
"""Tries what users and operators meet: the documents and their printed sessions, the examples, the installation.

usage: bench/users.py [PROGRAM]     (crates/navd/out/navd, as `make build` leaves it)

Each row is one thing that is tried, in a temporary folder. A row that goes otherwise is marked, and the script ends with
1. What this machine can't try, for want of a shell or of a program that shows man pages, is told as not shown, and fails
nothing.

It needs `make` and Python's standard library alone.
"""

import json
import os
import pty
import re
import select
import shutil
import signal
import socket
import subprocess
import sys
import tempfile
import time

TOP = os.path.abspath(os.path.join(os.path.dirname(os.path.abspath(__file__)), ".."))
NAMED = sys.argv[1:]
PROGRAM = os.path.abspath(NAMED[0] if NAMED else os.path.join(TOP, "crates", "navd", "out", "navd"))
SECONDS = 60
LONGEST_CELL = 300

HELLO = b'{"do":"hello","user":"operator"}\n'
TOKENS = {"operator": "operator-token-1", "ann": "a-token-of-ann-22", "bob": "a-token-of-bob-333"}


class Unwanted(Exception):
    """Something other than what is wanted."""


class NotShown(Exception):
    """This machine can't try the row."""


def wanted(is_so, what):
    if not is_so:
        raise Unwanted(what)


def read(*parts):
    with open(os.path.join(*parts), encoding="utf-8") as file:
        return file.read()


def write(data, *parts):
    path = os.path.join(*parts)
    os.makedirs(os.path.dirname(path), exist_ok=True)
    with open(path, "wb") as file:
        file.write(data if isinstance(data, bytes) else data.encode())
    return path


def documents():
    """The paths of the documents that people read, from the top."""
    own = [os.path.join("docs", name) for name in sorted(os.listdir(os.path.join(TOP, "docs"))) if name.endswith(".md")]
    return ["README.md", "CHANGELOG.md", *own]


def ran(words, status=0, folder=None, stdin=b"", **environment):
    """What a command writes on standard output and error, as texts, where it ends with that status."""
    done = subprocess.run(words, cwd=folder, input=stdin, stdout=subprocess.PIPE, stderr=subprocess.PIPE, timeout=SECONDS,
                          env={**os.environ, **environment})
    out, said = done.stdout.decode(errors="replace"), done.stderr.decode(errors="replace")
    wanted(done.returncode == status, f"{' '.join(words)} ended with {done.returncode}, not {status}: {said[-300:]}")
    return out, said


def free_port():
    with socket.socket() as other:
        other.bind(("127.0.0.1", 0))
        return other.getsockname()[1]


def is_listened_at(port):
    """Whether somebody listens at the port, as Linux tells without a connection; elsewhere it is believed after a while."""
    try:
        table = read("/proc/net/tcp")
    except OSError:
        time.sleep(0.5)
        return True
    return re.search(rf"^ *\d+: [0-9A-F]{{8}}:{port:04X} \S+ 0A ", table, re.MULTILINE) is not None


class Server:
    """A `navd serve` with so many doors, each for so many connections, that listens; ended with its block."""

    def __init__(self, doors, connections):
        self.port = free_port()
        words = [PROGRAM, "serve", str(self.port), str(doors), str(connections)]
        self.process = subprocess.Popen(words, stdin=subprocess.DEVNULL, stdout=subprocess.PIPE, stderr=subprocess.PIPE)
        until = time.monotonic() + SECONDS
        while not is_listened_at(self.port):
            wanted(time.monotonic() < until and self.process.poll() is None, "navd serve doesn't listen")
            time.sleep(0.02)

    def __enter__(self):
        return self

    def __exit__(self, *_):
        self.process.kill()
        self.process.communicate()

    def client(self):
        return Client(connected(lambda: socket.create_connection(("127.0.0.1", self.port), timeout=SECONDS)))


def connected(connect):
    """A connection, once somebody listens."""
    until = time.monotonic() + SECONDS
    while True:
        try:
            return connect()
        except (ConnectionRefusedError, FileNotFoundError):
            if time.monotonic() > until:
                raise
            time.sleep(0.02)


class Client:
    """A connection: lines and their replies."""

    def __init__(self, one):
        self.socket, self.replies = one, one.makefile("rb")

    def asks(self, line, reply):
        """Sends a line, which has to have that reply, both without their newlines."""
        self.socket.sendall(line.encode() + b"\n" if isinstance(line, str) else line + b"\n")
        told = self.replies.readline().decode().rstrip("\n")
        wanted(told == reply, f"{line[:80]!r} was replied {told[:80]!r}, not {reply[:80]!r}")

    def is_at_the_end(self):
        try:
            rest = self.replies.readline()
        except ConnectionResetError:
            rest = b""
        wanted(rest == b"", f"more was written: {rest[:80]!r}")


# The documents.


def sessions_in(path, first='{"do":'):
    """The sessions that a document prints, whose first line begins so: each a list of pairs of a request and its reply."""
    found = []
    for block in re.findall(r"```json\n(.*?)```", read(TOP, path), re.DOTALL):
        lines = block.splitlines()
        if lines and lines[0].startswith(first):
            wanted(len(lines) % 2 == 0, f"a session in {path} lacks a reply")
            found.append(list(zip(lines[::2], lines[1::2])))
    return found


def groups_of(sessions, path):
    """The sessions of a document in groups: one that doesn't begin at version 0 goes on beside those before it."""
    groups = []
    for session in sessions:
        if session[0][1] == '{"version":0}':
            groups.append([])
        wanted(groups, f"the first session in {path} doesn't begin at version 0")
        groups[-1].append(session)
    return groups


def printed_sessions():
    """Each printed session answers as printed."""
    answered = 0
    for path in documents():
        for group in groups_of(sessions_in(path), path):
            with Server(8, 4) as server:
                clients = []
                for session in group:
                    clients.append(server.client())
                    for request, reply in session:
                        clients[-1].asks(request, reply)
            answered += len(group)
    wanted(answered > 0, "no session was found")
    return f"{answered} sessions"


def stored_session():
    """The README prints the session that is stored for the gate, and the program answers it so."""
    requests, replies = read(TOP, "crates", "navd", "stdin"), read(TOP, "crates", "navd", "stdout")
    stored = list(zip(requests.splitlines(), replies.splitlines()))
    wanted(stored in sessions_in("README.md"), "no session there is that of crates/navd/stdin and stdout")
    out, _ = ran([PROGRAM, "run"], stdin=requests.encode())
    wanted(out == replies, "navd run answers otherwise")


def examples_in(page):
    """The literal blocks of a man page, as a reader sees them."""
    blocks = re.findall(r"^\.Bd -literal.*?\n(.*?)^\.Ed", read(TOP, "share", "man", page), re.DOTALL | re.MULTILINE)
    return [block.replace("\\e", "\\") for block in blocks]


def man_page_examples():
    """What the man pages print as examples: a command with its input and output, and a session."""
    (command,) = examples_in("navd.1")
    script, told = command.split("END\n", 1)[0], command.rsplit("END\n", 1)
    inputs = command.split("<< 'END'\n")[1].split("END\n")[0]
    wanted(script.startswith("$ navd run"), "the example of navd.1 isn't navd run")
    out, _ = ran([PROGRAM, "run"], stdin=inputs.encode())
    wanted(out == told[1], f"navd.1 prints another answer: {out!r}")
    (session,) = examples_in("navd-protocol.5")
    lines = session.splitlines()
    out, _ = ran([PROGRAM, "run"], stdin="".join(line + "\n" for line in lines[::2]).encode())
    wanted(out.splitlines() == lines[1::2], f"navd-protocol.5 prints another answer: {out!r}")


def links():
    """Each link of a document to a file leads to one."""
    seen = 0
    for path in documents():
        for target in re.findall(r"\]\(([^)#:]+)(?:#[^)]*)?\)", read(TOP, path)):
            whole = os.path.normpath(os.path.join(TOP, os.path.dirname(path), target))
            wanted(os.path.exists(whole), f"{path} names {target}, which isn't there")
            seen += 1
    wanted(seen > 0, "no link was found")
    return f"{seen} links"


def cells():
    """No cell of a table has more than 300 characters."""
    seen = 0
    for path in documents():
        for line in read(TOP, path).splitlines():
            if line.startswith("|"):
                for cell in line.strip("|").split(" | "):
                    wanted(len(cell) <= LONGEST_CELL, f"{path} has a cell of {len(cell)} characters: {cell[:60]}")
                    seen += 1
    wanted(seen > 0, "no table was found")
    return f"{seen} cells"


def sections_of_crates():
    """The sections of crates.txt, each with its title up to its first stop and its crates in their order."""
    sections = []
    for paragraph in read(TOP, "crates.txt").split("\n\n")[1:]:
        title = re.split(r"[.:;]", paragraph.lstrip("# "))[0]
        sections.append((title, re.findall(r"^(\w+):", paragraph, re.MULTILINE)))
    return [(title, crates) for title, crates in sections if not crates[0].startswith("aux_")]


def crates_in_order():
    """The README and the page on the layers show the crates in the sections of crates.txt, and in their order."""
    sections, seen = sections_of_crates(), 0
    proved = read(TOP, "README.md").split("\n## What is proved\n")[1].split("\n## ")[0]
    shown = [part.split("\n", 1) for part in proved.split("\n### ")[1:]]
    wanted([title for title, _ in shown][: len(sections)] == [title for title, _ in sections], "the README has other sections")
    for (title, crates), (_, part) in zip(sections, shown):
        rows = [re.findall(r"\[`(\w+)`\]", line.split(" | ")[0]) for line in part.splitlines() if line.startswith("| [")]
        wanted(sorted(sum(rows, [])) == sorted(crates), f"the README has other crates in {title}")
        firsts = [row[0] for row in rows]
        wanted(firsts == [crate for crate in crates if crate in firsts], f"the README has another order in {title}")
        seen += len(crates)
    rows = re.findall(r"^\| ([^|]+) \| (`[^|]+) \|$", read(TOP, "docs", "ARCHITECTURE.md"), re.MULTILINE)
    layers = [(re.split(r"[:;]", title)[0].lower(), re.findall(r"`(\w+)`", crates)) for title, crates in rows]
    wanted(layers == [(title.lower(), crates) for title, crates in sections], "ARCHITECTURE.md shows them otherwise")
    return f"{seen} crates"


def files_named():
    """Each file of the repository that a document names, by its path or its last part, is there."""
    there, seen = set(), 0
    for place, folders, names in os.walk(TOP):
        folders[:] = [name for name in folders if name not in (".git", "out")]
        there.update(os.path.join("/", os.path.relpath(os.path.join(place, name), TOP)) for name in names)
    ends = {path[at:] for path in there for at in range(len(path)) if path[at] == "/"}
    for path in documents():
        for name in re.findall(r"`([\w./-]+\.(?:rt|antt|rows|sh))`", read(TOP, path)):
            wanted(f"/{name}" in ends, f"{path} names {name}, which isn't there")
            seen += 1
    wanted(seen > 0, "no file was named")
    return f"{seen} names"


def readme_in_neovim():
    """The README's lines for Neovim answer as those of the editors' guide do."""
    if not shutil.which("nvim"):
        raise NotShown("there is no nvim")
    import editors

    editors.PROGRAM, version = PROGRAM, editors.version_of_editor()
    if not (0, 7) <= version < (0, 8):
        raise NotShown(f"they are for Neovim 0.7, and this one is {version[0]}.{version[1]}")
    (lines,) = re.findall(r"```lua\n(.*?)```", read(TOP, "README.md"), re.DOTALL)
    editors.configuration = lambda _, program: lines.replace('"navd"', json.dumps(program))
    with tempfile.TemporaryDirectory(prefix="navd-users-") as folder:
        told, status, said = editors.shown_by_editor(folder, version)
    found = [f"{what}: {editors.verdict(shown, aim)}" for (what, _, aim), shown in zip(editors.STEPS, told)]
    wrong = [what for what in found if "OTHERWISE" in what]
    wanted(not wrong and status == "0", f"status {status}, {said!r}, {wrong[:1]}")
    return f"{len(found)} steps"


# ask.py.


def checkout(folder):
    """The parts of the repository that people use without a kit, in a folder, with the program on a path of its own."""
    for part in ("Makefile", "README.md", "CHANGELOG.md", "docs", "examples", "share", "clients"):
        source, target = os.path.join(TOP, part), os.path.join(folder, part)
        ignored = shutil.ignore_patterns("__pycache__")
        shutil.copytree(source, target, ignore=ignored) if os.path.isdir(source) else shutil.copy(source, target)
    os.makedirs(os.path.join(folder, "bin"))
    os.symlink(PROGRAM, os.path.join(folder, "bin", "navd"))
    return {"PATH": os.path.join(folder, "bin") + os.pathsep + os.environ["PATH"], "PYTHONDONTWRITEBYTECODE": "1"}


def printed_questions(folder):
    """The questions of ask.py that the README prints are answered as it says behind them."""
    environment = checkout(folder)
    asked = re.findall(r"^python3 (examples/ask\.py examples/project .*?) +# (.*)$", read(TOP, "README.md"), re.MULTILINE)
    for words, answer in asked:
        out, said = ran([sys.executable, *words.split()], folder=folder, **environment)
        is_place = re.fullmatch(r"[\w./]+:\d+:\d+", answer)
        wanted(out.strip() == answer if is_place else out.strip(), f"{words} answers {out!r}")
        wanted(said == "", f"{words} says {said!r}")
    wanted(len(asked) >= 2, "fewer than two questions were found")
    return f"{len(asked)} questions"


def asks(folder, question, status, out=None, said=()):
    """One run of ask.py over the folder: its status, what it writes, and pieces of what it says; never a traceback."""
    words = [sys.executable, "-B", os.path.join(TOP, "examples", "ask.py"), "--navd", PROGRAM, folder, *question.split()]
    wrote, told = ran(words, status)
    wanted("Traceback" not in told, f"{question} ends with a traceback")
    wanted(status == 0 or told.strip(), f"{question} ends with {status} and says nothing")
    wanted(out is None or wrote == out, f"{question} writes {wrote!r}, not {out!r}")
    for piece in said:
        wanted(piece in told, f"{question} says {told!r}, without {piece!r}")


def wrong_questions(folder):
    """Wrong folders, paths and places end with one line and status 1."""
    write("x = 1\nx\n", folder, "a.py")
    missing = os.path.join(folder, "missing")
    asks(missing, "uses a.py", 1, "", ["there is no folder"])
    asks(os.path.join(folder, "a.py"), "uses a.py", 1, "", ["there is no folder"])
    for place in ("b.py:1:1", "../a.py:1:1", "sub:1:1"):
        asks(folder, f"define {place}", 1, "", ["there is no file"])
    for place in ("a.py", "a.py:1", "a.py:x:1", "a.py:-1:1", "a.py:1:+1", "a.py:1:1:", "a.py:²:1"):
        asks(folder, f"define {place}", 1, "", ["isn't PATH:LINE:COLUMN"])
    for place in ("a.py:0:1", "a.py:1:0", "a.py:4294967297:1", "a.py:1:99999999999999999999"):
        asks(folder, f"references {place}", 1, "", ["count from 1"])
    asks(folder, "define a.py:9:9", 1, "", ["no name is used there"])
    asks(folder, "references a.py:9:9", 1, "", ["no name is defined there"])
    asks(folder, "define a.py:2:1", 0, "a.py:1:1\n")
    asks(folder, "define ./a.py:2:1", 0, "a.py:1:1\n")


def left_out_files(folder):
    """Files that can't be taken are listed with the reason, each once, and one that is asked about says so."""
    write("x = 1\nx\n", folder, "a.py")
    write("y = 1\nf(y)\n\nf(y, size=1)\n", folder, "b.py")
    write(b"z = 1 # \xff\n", folder, "c.py")
    write(b"#" * 1_048_577, folder, "d.py")
    write("{", folder, "e.sg.json")
    write("x = 1\n", folder, "my-tool.py")
    write("x = 1\n", folder, "\x01", "f.py")
    os.symlink("nowhere", os.path.join(folder, "g.py"))
    os.symlink("h.py", os.path.join(folder, "h.py"))
    os.mkfifo(os.path.join(folder, "i.py"))
    write("x = 1\né = 1 # \x1b[2J\n", folder, "k.py")
    write("def f(:\n    pass\n", folder, "l.py")
    os.makedirs(os.path.join(folder, "j.py"))
    reasons = [
        "left out b.py: line 4: unsupported: keyword argument\n    f(y, size=1)\n",
        "left out c.py: line 1: it isn't UTF-8\n",
        "left out d.py: large",
        "left out e.sg.json: json: it isn't JSON\n",
        "left out g.py: it can't be read: No such file or directory\n",
        "left out h.py: it can't be read: Too many levels of symbolic links\n",
        "left out i.py: it isn't a file\n",
        "left out my-tool.py: bad_name: its path is no name of a module\n",
        "left out \\x01/f.py: its path isn't one that navd takes\n",
        "left out k.py: line 2: not_ascii: a byte order mark, or a letter outside of ASCII in a name\n    é = 1 # \\x1b[2J\n",
        "left out l.py: line 3: bad_token: this Python doesn't read it either (line 1): ",
    ]
    asks(folder, "define a.py:2:1", 0, "a.py:1:1\n", reasons)
    for question in ("uses b.py", "define b.py:1:1", "references b.py:1:1"):
        asks(folder, question, 1, "", ["b.py was left out, so nothing is known of it: line 4: unsupported: keyword argument"])
    asks(folder, "uses g.py", 1, "", ["g.py was left out", "No such file"])


def crowded_names(folder):
    """A name with too many definitions is listed as crowded, and a question about it says why it has no answer."""
    write("x = 1\n" * 8_193 + "x\ny\n", folder, "a.py")
    asks(folder, "define a.py:8194:1", 1, "", ["crowded", "8,192 paths"])
    asks(folder, "references a.py:2:1", 1, "", ["crowded", "8,192 paths"])
    write("size = 1\nsize\n", folder, "b.py")
    asks(folder, "references b.py:1:2", 0, "b.py:2:1\n")
    words = [sys.executable, "-B", os.path.join(TOP, "examples", "ask.py"), "--navd", PROGRAM, folder, "uses", "a.py"]
    out, said = ran(words, 1)
    wanted(out == "a.py:8194:1 x: crowded\na.py:8195:1 y: none\n", f"uses lists {out[-200:]!r}")
    wanted("8,192 paths" in said, f"uses says {said!r}")


def lines_as_the_server_cuts_them(folder):
    """Form feeds, U+2028 and the like end no line, and columns are bytes."""
    write("x = 1 # \f \v \x1c \u2028 \u2029 \x85\r\ny = x # \u2028\r\nprint('é', x, y)\r\n", folder, "a.py")
    told = "a.py:2:5 x: a.py:1:1\na.py:3:1 print: none\na.py:3:13 x: a.py:1:1\na.py:3:16 y: a.py:1:1, a.py:2:1\n"
    asks(folder, "uses a.py", 0, told)


def no_file_is_sent_often(folder):
    """A folder with many refused files is sent about once, and what is accepted, half of it, once more."""
    sizes = 0
    for number in range(40):
        text = "# " + "x" * 30_000 + "\n" + ("f(a=1)\n" if number % 2 else "x = 1\n")
        write(text, folder, f"f{number}.py")
        sizes += len(text)
    counter = write(f'#!/bin/sh\ntee "{folder}/sent" | "{PROGRAM}" "$@"\n', folder, "counter")
    os.chmod(counter, 0o755)
    words = [sys.executable, "-B", os.path.join(TOP, "examples", "ask.py"), "--navd", counter, folder, "uses", "f0.py"]
    _, said = ran(words)
    wanted(said.count("left out") == 20, f"{said.count('left out')} files were left out")
    sent = os.path.getsize(os.path.join(folder, "sent"))
    wanted(sent < 1.6 * sizes, f"{sent:,} bytes were sent of {sizes:,}")
    return f"{sent:,} bytes for {sizes:,}"


def wrong_programs(folder):
    """A program that isn't there, isn't one, ends at once or isn't navd is told in a line."""
    write("x = 1\n", folder, "a.py")
    none, text = os.path.join(folder, "none"), write("", folder, "text")
    broken = write("\x00", folder, "broken")
    os.chmod(broken, 0o755)
    for program, piece in ((none, "there is no program"), (text, "there is no program"), (broken, "can't be started"),
                           ("/bin/false", "navd ended"), ("/bin/echo", "navd")):
        words = [sys.executable, "-B", os.path.join(TOP, "examples", "ask.py"), "--navd", program, folder, "uses", "a.py"]
        out, said = ran(words, 1)
        wanted(piece in said and "Traceback" not in said and not out, f"{program}: {said!r}")


def ask_at_a_port(folder):
    """With --port the files are committed to a server, together, and stay there; where all doors are taken that is said."""
    write("x = 1\nx\n", folder, "a.py")
    write("f(a=1)\n", folder, "b.py")
    words = [sys.executable, "-B", os.path.join(TOP, "examples", "ask.py"), "--port"]
    with Server(2, 4) as server:
        server.client()
        out, _ = ran([*words, str(server.port), folder, "define", "a.py:2:1"])
        wanted(out == "a.py:1:1\n", f"it answers {out!r}")
        other = server.client()
        other.asks('{"do":"hello","user":"operator"}', '{"version":1}')
        second = server.client()
        second.asks('{"do":"pin"}', error("no_user"))
        out, said = ran([*words, str(server.port), folder, "define", "a.py:2:1"], 1)
        wanted("each of its doors may have another client" in said and not out, f"where no door is free it says {said!r}")
    out, said = ran([*words, str(free_port()), folder, "define", "a.py:2:1"], 1)
    wanted("nobody answers at port" in said and not out, f"it says {said!r}")


# The client for real projects, as the documents begin with it.


def client_environment(folder):
    """Where the client keeps nothing outside of the folder, and finds the program."""
    if sys.version_info < (3, 9):
        raise NotShown("the client needs Python 3.9")
    return {**checkout(folder), "NAVD": PROGRAM, "PYTHONPATH": "clients/python", "XDG_CACHE_HOME": os.path.join(folder, "cache")}


def client_asks(folder):
    """The README's command for a folder of one's own answers, over the project of the examples."""
    (words,) = re.findall(r"^NAVD=\S+ PYTHONPATH=clients/python (python3 .*)$", read(TOP, "README.md"), re.MULTILINE)
    wanted(words.endswith(" ask ~/src/project define app/main.py:12:9"), f"it is another command: {words}")
    question = words.replace("~/src/project", "examples/project").replace("app/main.py:12:9", "main.py:3:3").split()
    out, _ = ran([sys.executable, *question[1:]], folder=folder, **client_environment(folder))
    wanted(out == "pkg/tools.py:2:9: def size(self):\n", f"it answers {out!r}")


def client_keeps_a_server(folder):
    """The session beside `navd-py serve` that the guide for editors prints is answered so."""
    guide = read(TOP, "docs", "EDITORS.md")
    (session,) = re.findall(r"```text\n(\{.*?)```", guide, re.DOTALL)
    lines, environment = session.splitlines(), client_environment(folder)
    wanted("\nnavd-py serve examples/project --port 4711\n" in guide, "it prints another command")
    with Server(2, 4) as server:
        words = ["-m", "navd_py", "serve", "examples/project", "--port", str(server.port), "--once"]
        _, said = ran([sys.executable, *words], folder=folder, **environment)
        wanted("3 graphs committed, version 1" in said, f"it says {said!r}")
        client = server.client()
        for request, reply in zip(lines[::2], lines[1::2]):
            client.asks(request, reply)


# Each text is refused at its last line but those that are marked, for a construct with this name.
CONSTRUCTS = [
    ("keyword argument", "f(a=1)"),
    ("keyword argument", "x = f(\n    a,\n    b=1"),
    ("keyword argument", "class A(metaclass=M): pass"),
    ("argument with two stars", "f(**a)"),
    ("starred expression", "f(*a)"),
    ("starred expression", "*a, b = c"),
    ("default of a parameter", "def f(x=1): pass"),
    ("default of a parameter", "def f(\n    a,\n    b=2"),
    ("annotation of a parameter", "def f(x: int): pass"),
    ("annotation of what is returned", "def f() -> int: pass"),
    ("parameter with a star", "def f(*a): pass"),
    ("parameter with a star", "def f(**a): pass"),
    ("parameter by name alone", "def f(*, a): pass"),
    ("parameter by place alone", "def f(a, /): pass"),
    ("decorator", "@d"),
    ("string in triple quotes", '"""doc"""'),
    ("string with f before it", 'x = f"{a}"'),
    ("string with rb before it", 'x = rb"a"'),
    ("two strings in a row", 'x = "a" "b"'),
    ("number in another form than whole decimal", "x = 1.5"),
    ("number in another form than whole decimal", "x = 0x1f"),
    ("assignment with an operator", "x += 1"),
    ("annotated assignment", "x: int = 1"),
    ("two assignments in a row", "a = b = 1"),
    ("assignment to several targets", "a, b = 1, 2"),
    ("assignment within an expression", "(y := 1)"),
    ("subscript", "x[0]"),
    ("dictionary", "x = {}"),
    ("set", "x = {1}"),
    ("comprehension", "x = [a for a in b]"),
    ("comprehension", "x = [\n    a\n    for a in b"),
    ("set comprehension", "x = {a for a in b}"),
    ("dictionary comprehension", "x = {a: a for a in b}"),
    ("lambda", "x = lambda: 1"),
    ("conditional expression", "x = 1 if a else 2"),
    ("matrix product", "x = a @ b"),
    ("yield", "def f():\n    yield 1"),
    ("async def", "async def f(): pass"),
    ("try", "try:"),
    ("with", "with a: pass"),
    ("raise", "raise E"),
    ("assert", "assert x"),
    ("del", "del x"),
    ("global", "def f():\n    global x"),
    ("nonlocal", "def f():\n    nonlocal x"),
    *([("match", "match x:")] if sys.version_info >= (3, 10) else []),
    ("import that begins with a dot", "from .a import b"),
    ("two statements on a line", "x = 1; y = 2"),
    ("backslash at the end of a line", "x = 1 + \\"),
    ("tab in front of a line", "if x:\n\ty = 1"),
    ("for over more than one name", "for a, b in c: pass"),
    ("ellipsis", "x = ..."),
]
# What stands behind a text of the table, so that it is Python.
ENDS = {"@d": "\ndef f(): pass", "try:": "\n    pass\nfinally:\n    pass", "match x:": "\n    case 1: pass", "x = 1 + \\": "\n    2"}


def constructs(folder):
    """Each construct that isn't read is named under the line at which its text is refused."""
    for number, (_, text) in enumerate(CONSTRUCTS):
        behind = ENDS.get(text, "")
        if not behind and text.count("(") + text.count("[") > text.count(")") + text.count("]"):
            behind = "\n]" if text.count("[") > text.count("]") else ("\n): pass" if text.startswith("def") else "\n)")
        write(f"{text}{behind}\n", folder, f"f{number}.py")
    write("x = 1\n", folder, "a.py")
    words = [sys.executable, "-B", os.path.join(TOP, "examples", "ask.py"), "--navd", PROGRAM, folder, "uses", "a.py"]
    _, said = ran(words)
    for number, (name, text) in enumerate(CONSTRUCTS):
        told = re.search(rf"^left out f{number}\.py: (.*)$", said, re.MULTILINE)
        at = text.count("\n") + 1
        right = told is not None and re.fullmatch(rf"line {at}: (unsupported|expected): {re.escape(name)}", told.group(1))
        wanted(right, f"{text!r} is refused as {told.group(1) if told else 'nothing'!r}, not {name}")
    return f"{len(CONSTRUCTS)} constructs"


# The front.


class Front:
    """A front over a server, listening at a Unix socket in the folder, ended with its block."""

    def __init__(self, folder, port, *more):
        self.folder, self.path = folder, os.path.join(folder, "front")
        self.write_users(TOKENS)
        words = [sys.executable, "-B", os.path.join(TOP, "examples", "front.py"), "--users", self.users, "--navd", str(port)]
        self.process = subprocess.Popen([*words, "--unix", self.path, *more], stderr=subprocess.PIPE)

    def write_users(self, tokens):
        lines = ["# TOKEN USER", "", *(f"{token} {user}" for user, token in tokens.items())]
        self.users = write("\n".join(lines) + "\n", self.folder, "users")
        os.chmod(self.users, 0o600)

    def __enter__(self):
        return self

    def __exit__(self, *_):
        self.process.terminate()
        self.process.communicate(timeout=SECONDS)

    def client(self):
        return Client(connected(self.connection))

    def connection(self):
        one = socket.socket(socket.AF_UNIX)
        one.settimeout(SECONDS)
        one.connect(self.path)
        return one

    def of(self, user, reply):
        """A client with the user's token, and what its first line is replied."""
        client = self.client()
        client.asks(json.dumps({"token": TOKENS[user]}), reply)
        return client


def error(word):
    return json.dumps({"error": word}, separators=(",", ":"))


KEYS = '{"do":"define","path":"keys/key.py","line":1,"column":0}'
MAIN = '{"do":"define","path":"main.py","line":1,"column":0}'
MAIN_ROWS = '{"limit":false,"rows":[{"node":3,"path":"main.py","span":[0,0,0,1]}]}'
KEYS_ROWS = '{"limit":false,"rows":[{"node":5,"path":"keys/key.py","span":[0,0,0,3]}]}'
BOTH = json.dumps({"do": "commit", "edits": [{"put": "main.py", "text": "x = 1\nx"}, {"put": "keys/key.py", "text": "key = 1\nkey"}]})
# Lines by which a client could try to become another user, or to lead the front astray, and their replies.
HOSTILE = [
    (b'{"do":"hello","user":"operator"}', error("not_passed_on")),
    (b'{"\\u0064o":"hello","user":"operator"}', error("not_passed_on")),
    (b'{"do":"hel\\u006co","user":"operator"}', error("not_passed_on")),
    (b'{"do":"pin","do":"hello","user":"operator"}', error("not_passed_on")),
    (b'{"do":"pin","d\\u006f":"hello","user":"operator"}', error("not_passed_on")),
    (b'{"do":"hello","user":"operator","do":"pin"}', '{"error":"bad_request","field":"user"}'),
    (b'  \t{"do" : "hello" , "user":"operator"}  ', error("not_passed_on")),
    (b'{"do":["hello"]}', error("not_passed_on")),
    (b'{"do":{"hello":1}}', error("not_passed_on")),
    (b'["do","hello"]', error("not_passed_on")),
    (b"null", error("not_passed_on")),
    (b"", error("bad_json")),
    (b"x", error("bad_json")),
    (b"NaN", error("bad_json")),
    (b'{"do":"pin","x":1e999}', error("bad_json")),
    (b'{"do":"pin","x":"\\ud800"}', error("bad_json")),
    (b"\xff\xfe{\x00", error("bad_json")),
    (b'\xef\xbb\xbf{"do":"pin"}', error("bad_json")),
    (b"[" * 100_000, error("bad_json")),
    (b'{"do":"pin","x":' + b"1" * 10_000 + b"}", error("bad_json")),
    (b'{"do":"pin"}\r', '{"version":2}'),
    (b'{"do":"commit","edits":[{"remove":"keys/key.py"}]}', error("forbidden")),
    (b'{"do":"grant","user":"ann","prefix":""}', error("forbidden")),
    (KEYS.encode(), error("no_file")),
    (MAIN.encode(), MAIN_ROWS),
]


def front_as_printed(folder):
    """The README's users answer through the front as it prints, one beside the other."""
    printed = sessions_in("README.md", '{"token":')
    (lines,) = re.findall(r"```text\n(.*?)```", read(TOP, "README.md"), re.DOTALL)
    users = dict(reversed(line.split()) for line in lines.splitlines())
    wanted(len(printed) >= 2 and len(users) >= 2, "fewer than two sessions or users were found")
    with Server(8, 4) as server, Front(folder, server.port) as front:
        front.write_users(users)
        clients = []
        for session in printed:
            clients.append(front.client())
            for request, reply in session:
                clients[-1].asks(request, reply)
    return f"{len(printed)} sessions"


def front_in_a_namespace(folder):
    """The README's command leaves the Unix socket as the one way in."""
    (command,) = re.findall(r"^(unshare .*)$", read(TOP, "README.md"), re.MULTILINE)
    if not shutil.which("unshare") or subprocess.run(["unshare", "-rn", "true"], stderr=subprocess.PIPE).returncode != 0:
        raise NotShown("namespaces can't be made here")
    environment = {**os.environ, **checkout(folder)}
    front = Front.__new__(Front)
    front.folder, front.path = folder, os.path.join(folder, "front.socket")
    front.write_users(TOKENS)
    running = subprocess.Popen(command, shell=True, cwd=folder, env=environment, stderr=subprocess.PIPE, start_new_session=True)
    try:
        time.sleep(2)
        front.of("ann", '{"version":0}').asks('{"do":"pin"}', '{"version":0}')
        port = int(re.search(r"navd serve (\d+)", command).group(1))
        with socket.socket() as other:
            wanted(other.connect_ex(("127.0.0.1", port)) != 0, f"port {port} is reached from outside")
    finally:
        os.killpg(running.pid, signal.SIGKILL)
        running.communicate()


def front_with_two_users(folder):
    """The operator commits and grants, ann sees what is granted alone, both by their tokens and at once."""
    with Server(4, 20) as server, Front(folder, server.port) as front:
        operator = front.of("operator", '{"version":0}')
        operator.asks(BOTH, '{"version":1}')
        operator.asks('{"do":"grant","user":"ann","prefix":"main.py"}', '{"version":2}')
        ann, bob = front.of("ann", '{"version":2}'), front.of("bob", '{"version":2}')
        ann.asks(MAIN, MAIN_ROWS)
        ann.asks(KEYS, error("no_file"))
        bob.asks(MAIN, error("no_file"))
        operator.asks(KEYS, KEYS_ROWS)
        ann.asks('{"do":"quit"}', '{"ok":true}')
        ann.is_at_the_end()
        operator.asks('{"do":"pin"}', '{"version":2}')


def front_with_a_hostile_client(folder):
    """No line of ann's makes her somebody else, and a client without a token gets nothing."""
    with Server(4, 40) as server, Front(folder, server.port, "--longest", "300000") as front:
        operator = front.of("operator", '{"version":0}')
        operator.asks(BOTH, '{"version":1}')
        operator.asks('{"do":"grant","user":"ann","prefix":"main.py"}', '{"version":2}')
        ann = front.of("ann", '{"version":2}')
        for line, reply in HOSTILE:
            ann.asks(line, reply)
        ann.asks(b'"' + b"x" * 300_000 + b'"', error("long_line"))
        ann.is_at_the_end()
        post = b"POST / HTTP/1.1\r\nHost: x\r\n\r\n" + HELLO
        for first in (HELLO[:-1], b'{"token":"' + b"x" * 16 + b'"}', b'{"token":1}', b'{"token":""}', b"[]", b"", post,
                      b'{"token":"' + TOKENS["ann"].encode() + b'","user":"operator"}'):
            stranger = front.client()
            stranger.asks(first, error("unknown_token"))
            stranger.is_at_the_end()
        hasty = front.client()
        hasty.socket.sendall(json.dumps({"token": TOKENS["ann"]}).encode() + b"\n" + HELLO + KEYS.encode() + b"\n" + HELLO[:-1])
        hasty.socket.shutdown(socket.SHUT_WR)
        told = hasty.replies.read().decode().splitlines()
        wanted(told == ['{"version":2}', error("not_passed_on"), error("no_file"), error("not_passed_on")], f"at once: {told}")
        stranger = front.client()
        stranger.asks(b" " * 2_000, error("long_line"))
        stranger.is_at_the_end()
        operator.asks('{"do":"pin"}', '{"version":2}')
        front.write_users({"operator": TOKENS["operator"]})
        front.of("ann", error("unknown_token")).is_at_the_end()
        return f"{len(HOSTILE)} lines"


def front_with_too_many(folder):
    """One user more than there may be is told so, and one that leaves makes room."""
    with Server(4, 20) as server, Front(folder, server.port, "--clients", "2") as front:
        first, second = front.of("ann", '{"version":0}'), front.of("bob", '{"version":0}')
        front.of("ann", error("busy")).is_at_the_end()
        first.asks('{"do":"quit"}', '{"ok":true}')
        first.is_at_the_end()
        time.sleep(0.2)
        front.of("ann", '{"version":0}')
        second.asks('{"do":"pin"}', '{"version":0}')


def front_without_a_server(folder):
    """A client is told where navd is gone, and the front goes on."""
    with Front(folder, free_port()) as front:
        front.of("ann", error("gone")).is_at_the_end()
        front.of("ann", error("gone")).is_at_the_end()


def wrong_files_of_users(folder):
    """A front whose file of users is open to others, lacks a part or isn't there says so and doesn't begin."""
    token = "a" * 16
    files = [(b"", 0o644, "chmod 600"), (b"short ann\n", 0o600, "fewer than 16"), (b"a" * 16, 0o600, "1 to 256 bytes"),
             (f"{token} ann\n{token} bob\n".encode(), 0o600, "a token twice"), (token.encode() + b" \xff", 0o600, "UTF-8")]
    words = [sys.executable, "-B", os.path.join(TOP, "examples", "front.py"), "--navd", "1", "--unix", os.path.join(folder, "s")]
    for data, mode, piece in files:
        users = write(data, folder, "users")
        os.chmod(users, mode)
        _, said = ran([*words, "--users", users], 1)
        wanted(piece in said and said.count("\n") == 1, f"{data!r}: {said!r}")
    _, said = ran([*words, "--users", os.path.join(folder, "none")], 1)
    wanted("No such file" in said and said.count("\n") == 1, f"a missing file: {said!r}")


# The guard against requests of browsers.

METHODS = [b"GET / HTTP/1.1", b"POST / HTTP/1.1", b"PUT /x HTTP/1.1", b"HEAD / HTTP/1.1", b"OPTIONS * HTTP/1.1",
           b"DELETE /x HTTP/1.1", b"PATCH /x HTTP/1.1", b"CONNECT x:1 HTTP/1.1", b"TRACE / HTTP/1.1"]
REMOVE = b'{"do":"commit","edits":[{"remove":"main.py"}]}\n'


def sent(server, *pieces):
    """What a connection that sends these pieces, a moment apart, is told up to its end, however the server ends it."""
    one, told = server.client().socket, b""
    try:
        for piece in pieces:
            one.sendall(piece)
            time.sleep(0.05)
        one.shutdown(socket.SHUT_WR)
    except OSError:
        # It is closed already.
        pass
    try:
        while piece := one.recv(65_536):
            told += piece
    except OSError:
        # It was closed with bytes unread.
        pass
    one.close()
    return told


def http_guard():
    """A connection that begins as an HTTP request is closed before a line of it is answered, and counts as one."""
    with Server(1, len(METHODS) + 4) as server:
        operator = server.client()
        operator.asks('{"do":"hello","user":"operator"}', '{"version":0}')
        operator.asks(BOTH, '{"version":1}')
        operator.asks('{"do":"quit"}', '{"ok":true}')
        body = HELLO + REMOVE
        for method in METHODS:
            head = b"\r\nHost: 127.0.0.1\r\nContent-Type: text/plain\r\nContent-Length: %d\r\n\r\n" % len(body)
            told = sent(server, method + head + body)
            wanted(told == b"", f"{method!r} was replied {told[:80]!r}")
        told = sent(server, b"P", b"O", b"ST / HTTP/1.1\r\n\r\n", body)
        wanted(told == b"", f"a request in pieces was replied {told[:80]!r}")
        told = sent(server, b"GETS\n")
        wanted(told == b'{"error":"bad_json"}\n', f"a line that is no HTTP request was replied {told[:80]!r}")
        last = server.client()
        last.asks('{"do":"hello","user":"operator"}', '{"version":1}')
        last.asks('{"do":"quit"}', '{"ok":true}')
        status = server.process.wait(SECONDS)
        wanted(status == 0, f"the server ended with {status}")
    return f"{len(METHODS) + 1} requests"


# The installation.


def files_below(folder):
    return sorted(os.path.relpath(os.path.join(place, name), folder) for place, _, names in os.walk(folder) for name in names)


def make(folder, environment, *words):
    return ran(["make", "-s", *words], folder=folder, **environment)


INSTALLED = [
    "bin/navd",
    "share/bash-completion/completions/navd",
    "share/fish/vendor_completions.d/navd.fish",
    "share/man/man1/navd.1",
    "share/man/man5/navd-protocol.5",
    "share/systemd/user/navd.service",
    "share/zsh/site-functions/_navd",
]


def installs(folder):
    """`make install` leaves the program and what belongs to it, and `make uninstall` takes just that away."""
    environment, prefix = checkout(folder), os.path.join(folder, "prefix")
    beside = write("", prefix, "share", "man", "man1", "other.1")
    make(folder, environment, "install", f"PREFIX={prefix}", f"PROGRAM={PROGRAM}")
    wanted(files_below(prefix) == sorted([*INSTALLED, "share/man/man1/other.1"]), f"it leaves {files_below(prefix)}")
    stdin = read(TOP, "crates", "navd", "stdin").encode()
    out, _ = ran([os.path.join(prefix, "bin", "navd"), "run"], stdin=stdin)
    wanted(out == read(TOP, "crates", "navd", "stdout"), "the installed program answers otherwise")
    left = [path for path in INSTALLED[1:] if re.search(r"@[A-Z]+@", read(prefix, path))]
    wanted(not left, f"words are left to be put in: {left}")
    make(folder, environment, "uninstall", f"PREFIX={prefix}")
    wanted(files_below(prefix) == [os.path.relpath(beside, prefix)], f"it leaves {files_below(prefix)}")
    for wrong in ("prefix", os.path.join(folder, "a b")):
        ran(["make", "-s", "install", f"PREFIX={wrong}", f"PROGRAM={PROGRAM}"], 2, folder, **environment)


def staged(folder):
    """With DESTDIR all goes below that, and names places without it."""
    environment, stage = checkout(folder), os.path.join(folder, "stage")
    make(folder, environment, "install", "PREFIX=/opt/navd", f"DESTDIR={stage}", f"PROGRAM={PROGRAM}")
    wanted(files_below(os.path.join(stage, "opt", "navd")) == sorted(INSTALLED), f"it leaves {files_below(stage)}")
    wanted("ExecStart=/opt/navd/bin/navd serve" in read(stage, "opt/navd/share/systemd/user/navd.service"), "of the unit")


def archive(folder):
    """`make dist` leaves one archive, from which the program can be installed where no kit is."""
    environment = checkout(folder)
    path = make(folder, environment, "dist", f"PROGRAM={PROGRAM}")[0].strip()
    wanted(os.listdir(os.path.join(folder, "out")) == [os.path.basename(path)], "it leaves more than one archive")
    away = os.path.join(folder, "away")
    os.makedirs(away)
    ran(["tar", "-C", away, "-xzf", os.path.join(folder, path)])
    (inside,) = os.listdir(away)
    wanted(f"{inside}.tar.gz" == os.path.basename(path), f"the archive {path} holds {inside}")
    prefix = os.path.join(folder, "prefix")
    make(os.path.join(away, inside), {}, "install", f"PREFIX={prefix}")
    wanted(files_below(prefix) == sorted(INSTALLED), f"it installs {files_below(prefix)}")
    for words in (["examples/ask.py", "--navd", "./navd"], ["-m", "navd_py", "ask"]):
        out, _ = ran([sys.executable, "-B", *words, "examples/project", "define", "main.py:3:3"], folder=os.path.join(away, inside),
                     NAVD="./navd", PYTHONPATH="clients/python", XDG_CACHE_HOME=os.path.join(folder, "cache"))
        wanted(out.startswith("pkg/tools.py:2:9"), f"{words} answer {out!r}")
    return os.path.basename(path)


def rendered(path):
    """A man page as its reader sees it, by the program for that which is there."""
    if shutil.which("mandoc"):
        ran(["mandoc", "-T", "lint", "-W", "warning", path])
        out, _ = ran(["mandoc", path])
    elif shutil.which("groff"):
        out, said = ran(["groff", "-mandoc", "-Tascii", "-ww", "-P-c", path])
        wanted(said == "", f"{path}: {said[:200]}")
    else:
        raise NotShown("there is neither mandoc nor groff")
    return re.sub(".\b", "", out)


def man_pages(folder):
    """The installed man pages are shown without a warning, with their version and date."""
    environment, prefix = checkout(folder), os.path.join(folder, "prefix")
    make(folder, environment, "install", f"PREFIX={prefix}", f"PROGRAM={PROGRAM}")
    version, date = re.search(r"^## (\S+) \((.*)\)$", read(TOP, "CHANGELOG.md"), re.MULTILINE).groups()
    for page, pieces in (("man1/navd.1", ["NAVD(1)", "serve port doors connections", "EXIT STATUS", "navd-protocol(5)"]),
                         ("man5/navd-protocol.5", ["NAVD-PROTOCOL(5)", "hello", "references", "crowded", "navd(1)"])):
        shown = rendered(os.path.join(prefix, "share", "man", page))
        for piece in [*pieces, f"navd {version}", date]:
            wanted(piece in shown, f"{page} doesn't show {piece!r}")
    page = read(prefix, "share/man/man5/navd-protocol.5")
    said = set(re.findall(r"`([a-z_]+)`", read(TOP, "docs", "FORMATS.md").split("# Replies")[1].split("The faults of a document")[0]))
    faults = read(TOP, "docs", "FORMATS.md").split("The faults of a document")[1].split("# Errors of editors")[0]
    said |= {word for row in faults.splitlines() if row.startswith("| `") for word in re.findall(r"`(\w+)`", row.split(" | ")[0])}
    missing = sorted(word for word in said - {"once", "upgrade"} if word not in page)
    wanted(not missing, f"navd-protocol(5) lacks {missing}")


def unit(folder):
    """The installed unit is one that systemd takes, and starts the installed program."""
    if not shutil.which("systemd-analyze"):
        raise NotShown("there is no systemd-analyze")
    environment, prefix = checkout(folder), os.path.join(folder, "prefix")
    make(folder, environment, "install", f"PREFIX={prefix}", f"PROGRAM={PROGRAM}")
    path = os.path.join(prefix, "share", "systemd", "user", "navd.service")
    runtime = os.path.join(folder, "runtime")
    os.makedirs(runtime, 0o700)
    _, said = ran(["systemd-analyze", "verify", "--user", "--man=no", path], XDG_RUNTIME_DIR=runtime)
    wanted("navd.service" not in said, f"systemd says {said[:200]!r}")
    wanted(f"ExecStart={prefix}/bin/navd serve " in read(path), "it starts another program")


def typed(shell, words, line, answer):
    """Types the line into a shell at a terminal, until what it shows has the answer."""
    child, terminal = pty.fork()
    if child == 0:
        os.environ["TERM"] = "dumb"
        os.execvp(shell, [shell, *words])
    shown, until = b"", time.monotonic() + SECONDS
    try:
        os.write(terminal, line)
        while answer not in shown and time.monotonic() < until and select.select([terminal], [], [], SECONDS)[0]:
            shown += os.read(terminal, 65_536)
    except OSError:
        # The shell has ended.
        pass
    finally:
        os.kill(child, signal.SIGKILL)
        os.close(terminal)
        os.waitpid(child, 0)
    wanted(answer in shown, f"{shell} shows {shown[-200:]!r}, without {answer!r}")


def memory_of(process, what):
    """So many megabytes of a process, as Linux tells them."""
    try:
        return int(re.search(rf"^{what}:\s+(\d+) kB", read("/proc", str(process.pid), "status"), re.MULTILINE).group(1)) / 1_000
    except OSError as why:
        raise NotShown("the system doesn't tell a program's memory") from why


def memory_given_back():
    """The memory of long lines at two doors goes back to the system, behind their replies."""
    with Server(2, 1) as server:
        clients = [server.client() for _ in range(2)]
        first = memory_of(server.process, "VmRSS")
        for client in clients * 2:
            client.asks(b'{"do":[' + b",".join([b'{"a":1}'] * 250_000) + b"]}", '{"error":"bad_request","field":"do"}')
            client.asks('{"do":"pin"}', error("no_user"))
        most, left = memory_of(server.process, "VmHWM"), memory_of(server.process, "VmRSS")
        wanted(left < first + 4, f"{left:.0f} MB stay of {most:.0f}, {first:.0f} before")
    return f"{first:.1f} MB before, {most:.0f} at most, {left:.1f} afterwards"


def completions():
    """Each shell completes the commands."""
    folder, commands = os.path.join(TOP, "share", "completions"), ["demo", "lsp", "once", "run", "serve", "upgrade"]
    line = "; navd() { echo \"so: $*.\"; }\nnavd upg\t; navd ser\t47\t\n"
    setups = {
        "bash": (["--norc", "--noprofile", "-i"], f"source {folder}/navd.bash{line}"),
        "zsh": (["-f", "-i"], f"fpath=({folder} $fpath); autoload -Uz compinit; compinit -u -D{line}"),
    }
    shown = [shell for shell in setups if shutil.which(shell)]
    for shell in shown:
        words, lines = setups[shell]
        typed(shell, words, lines.encode(), b"so: upgrade.\r\nso: serve 47.\r\n")
    if shutil.which("fish"):
        out, _ = ran(["fish", "-N", "-c", f"source {folder}/navd.fish; complete -C 'navd ' | cut -f 1"])
        wanted(sorted(out.split()) == commands, f"fish completes {out.split()}")
        shown.append("fish")
    if not shown:
        raise NotShown("there is neither bash nor zsh nor fish")
    return f"{', '.join(shown)}{'' if len(shown) == 3 else '; the others are not here'}"


TABLE = [
    ("the printed sessions of the documents", printed_sessions),
    ("the session that is stored for the gate", stored_session),
    ("the examples of the man pages", man_page_examples),
    ("the links of the documents", links),
    ("the cells of their tables", cells),
    ("the crates, as crates.txt has them", crates_in_order),
    ("the files that they name", files_named),
    ("the README's lines for Neovim", readme_in_neovim),
    ("the questions of ask.py that the README prints", printed_questions),
    ("ask.py: wrong folders, paths and places", wrong_questions),
    ("ask.py: files that are left out", left_out_files),
    ("ask.py: names that are crowded", crowded_names),
    ("ask.py: lines as the server cuts them", lines_as_the_server_cuts_them),
    ("ask.py: what is sent where many files are refused", no_file_is_sent_often),
    ("ask.py: wrong programs", wrong_programs),
    ("ask.py: at a port", ask_at_a_port),
    ("ask.py: the construct that isn't read", constructs),
    ("the client: the README's question", client_asks),
    ("the client: a server kept at a folder", client_keeps_a_server),
    ("front.py: the sessions that the README prints", front_as_printed),
    ("front.py: in a network namespace", front_in_a_namespace),
    ("front.py: two users", front_with_two_users),
    ("front.py: a hostile client", front_with_a_hostile_client),
    ("front.py: too many users", front_with_too_many),
    ("front.py: no server", front_without_a_server),
    ("front.py: wrong files of users", wrong_files_of_users),
    ("make install and make uninstall", installs),
    ("make install with DESTDIR", staged),
    ("make dist", archive),
    ("the man pages, installed and shown", man_pages),
    ("the systemd unit", unit),
    ("the memory of long lines", memory_given_back),
    ("the completions", completions),
    ("navd serve closes what begins as an HTTP request", http_guard),
]


def carried_out(row):
    """Carries a row out, in a folder of its own where it takes one, and gives what it tells."""
    if row.__code__.co_argcount == 0:
        return row()
    with tempfile.TemporaryDirectory(prefix="navd-users-") as folder:
        return row(folder)


def main():
    if not os.access(PROGRAM, os.X_OK):
        print(f"there is no program {PROGRAM}; `make build` leaves one at crates/navd/out/navd")
        return 1
    wrong = 0
    for what, row in TABLE:
        try:
            verdict = carried_out(row) or "so it is"
        except NotShown as why:
            verdict = f"not shown: {why}"
        except (Unwanted, OSError, ValueError, subprocess.SubprocessError) as error:
            verdict, wrong = f"OTHERWISE: {str(error)[:400]}", wrong + 1
        print(f"{what:54} {verdict}", flush=True)
    print(f"{len(TABLE)} rows, {wrong} of them other than wanted")
    return 1 if wrong else 0


if __name__ == "__main__":
    sys.exit(main())
