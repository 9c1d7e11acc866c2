#!/usr/bin/env python3
"""Asks navd where the names of a folder's files are defined, and who refers to them.

    python3 examples/ask.py FOLDER define PATH:LINE:COLUMN
    python3 examples/ask.py FOLDER references PATH:LINE:COLUMN
    python3 examples/ask.py FOLDER uses PATH

The `.py` and `.sg.json` files below FOLDER are committed to a `navd run` that is started for it, or with --port to a
`navd serve` that listens there, where they stay and others see them by its grants. PATH is relative to FOLDER. LINE and
COLUMN count from 1, as editors show them; a column is one in bytes. `uses` lists, for each name that the file uses,
where it is defined. A file that navd doesn't take is left out and listed with the reason, and with its line where there
is one. `references` asks navd for `callers`, which is refused where what leads to the definition is crowded, or where so
much leads there that every name is asked and one is; where it is refused, or navd doesn't know that request, nothing
else is asked. The program is found by --navd, else at
crates/navd/out/navd beside this script's folder, else on the PATH.

The status is 0 where the question was answered, also by `none`, and 2 where the words are wrong, else 1, with a line on
standard error that says why.

It needs Python's standard library alone, and is no part of the server.
"""

import argparse
import io
import json
import keyword
import os
import shutil
import socket
import subprocess
import sys
import tokenize
from typing import BinaryIO, Dict, Iterator, List, NamedTuple, Optional, Tuple

from constructs import construct_at

ENDINGS = (".py", ".sg.json")
# The bytes of the largest file that navd takes.
LARGEST = 1_048_576
# How many bytes of files are put by one commit: a line may have 8,388,608 with all its escapes.
BATCH = 1_000_000
# A number that no version has: a commit on it is never accepted, and yet tells first what is wrong with its files.
NO_VERSION = 4_294_967_295
# The largest line or column that a question may name, from 0.
LAST = 4_294_967_295
# Faults of a module of Python for which the construct on the line is named.
CONSTRUCT_FAULTS = ("unsupported", "expected", "bad_token")
# How many seconds a navd that listens may take for its first reply: where all its doors have clients, none comes.
FIRST_REPLY_SECONDS = 10
# What faults of files mean, where their words don't say it.
MEANINGS = {
    "bad_indent": "it goes back to a column where no block begins",
    "bad_name": "its path is no name of a module",
    "bad_token": "no token begins there, or a string or a bracket isn't closed",
    "heavy": "there are too many paths through it",
    "json": "it isn't JSON",
    "not_ascii": "a byte order mark, or a letter outside of ASCII in a name",
    "shape": "it isn't formed as a graph file",
    "too_deep": "more than 64 brackets and blocks are open",
    "too_heavy": "there are too many paths through all files together",
    "too_many_files": "a version has at most 2,048 files",
}
# Why a question has no answer, as a user reads it.
REFUSALS = {
    "crowded": "crowded: more than 8,192 paths lead from the name that is used there",
    "no_reference": "no name is used there; of one that is defined there, ask for `references`",
    "no_definition": "no name is defined there; of one that is used there, ask for `define`",
    "no_file": "navd has no such file",
}
# The same where it was asked who refers to a definition.
CROWDED_CALLERS = (
    "crowded: a name that is used for this definition has more than 8,192 paths, or so many ways lead to it that all"
    " names were looked at, and one of them has"
)


class Failed(Exception):
    """Why the question can't be answered, in a line."""


class LeftOut(NamedTuple):
    """A file that isn't committed: why, and where its text shows it."""

    path: str
    reason: str
    line: Optional[str] = None


class Navd:
    """A session of navd: one request, one reply. What goes to it and what comes from it are two streams of bytes."""

    def __init__(self, requests: BinaryIO, replies: BinaryIO):
        self.requests, self.replies = requests, replies

    def begin(self) -> None:
        """Says who asks."""
        self.ask(do="hello", user="operator")

    def ask(self, **request) -> Dict:
        """The reply to a request. It fails where navd has ended, or what answers isn't navd."""
        line = json.dumps(request, ensure_ascii=False).encode() + b"\n"
        try:
            self.requests.write(line)
            self.requests.flush()
            reply = self.replies.readline()
        except socket.timeout:
            raise
        except OSError as error:
            self.let_go()
            raise Failed(f"navd ended: {error.strerror or error}") from error
        if not reply:
            raise Failed("navd ended before it answered")
        try:
            told = json.loads(reply)
        except ValueError:
            told = None
        if not isinstance(told, dict):
            raise Failed(f"what answers there isn't navd: it says {reply[:60]!r}")
        return told

    def let_go(self) -> None:
        """Closes what nobody reads, so that Python doesn't try to write the rest at its end."""
        try:
            self.requests.close()
        except OSError:
            pass


class Started(Navd):
    """A `navd run` that is started for the question. What it says on standard error goes to ours."""

    def __init__(self, program: str):
        try:
            self.process = subprocess.Popen([program, "run"], stdin=subprocess.PIPE, stdout=subprocess.PIPE)
        except OSError as error:
            raise Failed(f"{program} can't be started: {error.strerror}") from error
        super().__init__(self.process.stdin, self.process.stdout)

    def end(self) -> None:
        self.ask(do="quit")
        self.process.stdin.close()
        self.process.wait()


class Connected(Navd):
    """A connection to a running `navd serve`."""

    def __init__(self, port: int):
        try:
            self.socket = socket.create_connection(("127.0.0.1", port))
        except OSError as error:
            raise Failed(f"nobody answers at port {port}: {error.strerror}") from error
        super().__init__(self.socket.makefile("wb"), self.socket.makefile("rb"))
        self.port = port

    def begin(self) -> None:
        self.socket.settimeout(FIRST_REPLY_SECONDS)
        try:
            super().begin()
        except socket.timeout as error:
            raise Failed(f"navd at port {self.port} is silent: each of its doors may have another client") from error
        self.socket.settimeout(None)

    def end(self) -> None:
        self.ask(do="quit")
        self.socket.close()


def files_of(folder: str, left_out: List[LeftOut]) -> Iterator[str]:
    """The paths of the files that navd could take, relative to the folder, with slashes; no hidden folder is read."""

    def unread(error: OSError) -> None:
        left_out.append(LeftOut(os.path.relpath(error.filename, folder), f"the folder can't be read: {error.strerror}"))

    for place, folders, names in os.walk(folder, onerror=unread):
        folders[:] = sorted(name for name in folders if not name.startswith("."))
        for name in sorted(names):
            if name.endswith(ENDINGS):
                yield os.path.relpath(os.path.join(place, name), folder).replace(os.sep, "/")


def text_of(folder: str, path: str) -> str:
    """The text of a file. It fails where there is none that navd could take."""
    whole = os.path.join(folder, path)
    try:
        path.encode()
    except UnicodeEncodeError as error:
        raise Failed("its name isn't UTF-8") from error
    try:
        # A pipe is never opened, since that waits for whoever writes into it.
        if os.path.exists(whole) and not os.path.isfile(whole):
            raise Failed("it isn't a file")
        with open(whole, "rb") as file:
            data = file.read(LARGEST + 1)
    except OSError as error:
        raise Failed(f"it can't be read: {error.strerror}") from error
    if len(data) > LARGEST:
        raise Failed(f"large: it has more than {LARGEST:,} bytes")
    try:
        return data.decode()
    except UnicodeDecodeError as error:
        line = data.count(b"\n", 0, error.start) + 1
        raise Failed(f"line {line}: it isn't UTF-8") from error


def reason_of(reply: Dict, path: str, text: str) -> str:
    """Why a file was refused, as a user reads it: where, the fault, and the construct that isn't read."""
    fault = reply.get("fault", reply["error"])
    if fault == "bad_request":
        return "its path isn't one that navd takes"
    if "line" in reply:
        construct = construct_at(text, reply["line"]) if fault in CONSTRUCT_FAULTS else None
        return f"line {reply['line'] + 1}: {explained(fault, construct)}"
    for member in ("node", "edge", "bytes", "weight", "nodes", "edges", "files"):
        if member in reply:
            return f"{explained(fault)} ({member} {reply[member]})"
    return explained(fault)


def explained(fault: str, construct: Optional[str] = None) -> str:
    """The word of a fault, with the construct or what it means."""
    meaning = construct or MEANINGS.get(fault)
    return f"{fault}: {meaning}" if meaning else fault


def visible(text: str) -> str:
    """The text with escapes for what a terminal would obey and not show."""
    return "".join(one if one.isprintable() or one == "\t" else one.encode("unicode_escape").decode() for one in text)


def line_of(text: str, number: int) -> Optional[str]:
    """The line with this number from 0, cut as navd cuts lines: at newlines alone."""
    lines = text.split("\n")
    return lines[number].rstrip("\r") if number < len(lines) else None


def fault_of(navd: Navd, path: str, text: str) -> Optional[LeftOut]:
    """Why navd refuses this file, if it does: it is asked about the file alone, and nothing is committed."""
    reply = navd.ask(do="commit", base=NO_VERSION, edits=[{"put": path, "text": text}])
    if reply.get("error") == "stale":
        return None
    if "error" not in reply:
        raise Failed(f"what answers there isn't navd: it says {json.dumps(reply)[:60]}")
    if reply["error"] not in ("bad_file", "bad_request"):
        raise Failed(f"navd takes no files: {reply['error']}")
    return LeftOut(path, reason_of(reply, path, text), line_of(text, reply["line"]) if "line" in reply else None)


def accepted_of(navd: Navd, folder: str, left_out: List[LeftOut]) -> Iterator[Tuple[str, str]]:
    """The path and the text of each file that navd takes; each other one is noted with its reason."""
    for path in files_of(folder, left_out):
        try:
            text = text_of(folder, path)
        except Failed as why:
            left_out.append(LeftOut(path, str(why)))
            continue
        fault = fault_of(navd, path, text)
        if fault is None:
            yield path, text
        else:
            left_out.append(fault)


def batches_of(files: Iterator[Tuple[str, str]]) -> Iterator[List[Tuple[str, str]]]:
    """The files in batches of about a megabyte."""
    batch, size = [], 0
    for path, text in files:
        if batch and size + len(text.encode()) > BATCH:
            yield batch
            batch, size = [], 0
        batch.append((path, text))
        size += len(text.encode())
    if batch:
        yield batch


def commit(navd: Navd, batch: List[Tuple[str, str]], left_out: List[LeftOut]) -> None:
    """Commits the files together; where they are too many or too heavy together, as many as there is room for."""
    reply = navd.ask(do="commit", edits=[{"put": path, "text": text} for path, text in batch])
    if "version" in reply:
        return
    if len(batch) == 1:
        path, text = batch[0]
        left_out.append(LeftOut(path, reason_of(reply, path, text)))
        return
    middle = len(batch) // 2
    commit(navd, batch[:middle], left_out)
    commit(navd, batch[middle:], left_out)


def tell_left_out(left_out: List[LeftOut]) -> None:
    """Lists the files that aren't committed, each with its reason and the line at which it is refused."""
    for path, reason, line in left_out:
        print(f"left out {visible(path)}: {reason}", file=sys.stderr)
        if line is not None and line.strip():
            print(f"    {visible(line.strip()[:120])}", file=sys.stderr)


def place_of(text: str) -> Tuple[str, int, int]:
    """The path, and the line and the column from 0, of PATH:LINE:COLUMN."""
    parts = text.rsplit(":", 2)
    if len(parts) != 3 or not all(part.isascii() and part.isdigit() for part in parts[1:]):
        raise Failed(f"{text} isn't PATH:LINE:COLUMN")
    line, column = (int(part) if len(part) <= 10 else LAST + 2 for part in parts[1:])
    if not (1 <= line <= LAST + 1 and 1 <= column <= LAST + 1):
        raise Failed(f"{text}: lines and columns count from 1, up to {LAST + 1}")
    return parts[0], line - 1, column - 1


def shown(row: Dict) -> str:
    """A row of an answer as PATH:LINE:COLUMN, or by its node where it has no place in the text."""
    if row["span"] is None:
        return f"{visible(row['path'])} (node {row['node']})"
    line, column = row["span"][:2]
    return f"{visible(row['path'])}:{line + 1}:{column + 1}"


def refusal_of(reply: Dict, question: str) -> str:
    """Why a question has no answer, as a user reads it."""
    if question == "callers" and reply["error"] == "crowded":
        return CROWDED_CALLERS
    field = f" (field {reply['field']})" if "field" in reply else ""
    return REFUSALS.get(reply["error"], f"navd refuses the question: {reply['error']}{field}")


def tell(place: str, question: str, reply: Dict) -> None:
    """Prints the rows of the reply to a question, a line each. It fails where the reply is an error."""
    if "error" in reply:
        raise Failed(f"{place}: {refusal_of(reply, question)}")
    for row in reply["rows"]:
        print(shown(row))
    if not reply["rows"]:
        print("none")
    if reply.get("limit"):
        print("there may be more: paths beyond the bounds of the question were left out", file=sys.stderr)


def names_in(text: str) -> Iterator[Tuple[str, Dict]]:
    """The names of a Python text: each with its line from 0 and its column in bytes from 0."""
    lines = text.split("\n")
    try:
        for token in tokenize.generate_tokens(io.StringIO(text).readline):
            if token.type == tokenize.NAME and not keyword.iskeyword(token.string):
                line, column = token.start[0] - 1, token.start[1]
                yield token.string, {"line": line, "column": len(lines[line][:column].encode())}
    except (tokenize.TokenError, SyntaxError) as error:
        raise Failed(f"Python's own tokens end there: {error}") from error


def references_in(path: str, text: str) -> Iterator[Tuple[str, Dict]]:
    """The references of a file: for each its name, and the members by which a query names it."""
    if path.endswith(".py"):
        yield from names_in(text)
        return
    for place, node in enumerate(json.loads(text)["nodes"]):
        if node.get("reference"):
            yield node["symbol"], {"node": place}


def uses(navd: Navd, path: str, text: str) -> None:
    """Lists for each reference of the file where it is defined. It fails where some of them have no answer."""
    unanswered = {}
    for name, at in references_in(path, text):
        reply = navd.ask(do="define", path=path, **at)
        if reply.get("error") == "no_reference":
            continue
        place = visible(path)
        here = f"{place}:{at['line'] + 1}:{at['column'] + 1}" if "line" in at else f"{place} (node {at['node']})"
        name = visible(name)
        if "error" in reply:
            print(f"{here} {name}: {reply['error']}")
            unanswered[reply["error"]] = refusal_of(reply, "define")
            continue
        rows = ", ".join(shown(row) for row in reply["rows"]) or "none"
        print(f"{here} {name}: {rows}{', and there may be more' if reply['limit'] else ''}")
    if unanswered:
        raise Failed("; ".join(unanswered.values()))


def find_program(named: Optional[str]) -> str:
    """The program that is named, or the one that was built beside this script, or the one on the PATH."""
    beside = os.path.join(os.path.dirname(os.path.abspath(__file__)), "..", "crates", "navd", "out", "navd")
    found = shutil.which(named or beside) or (None if named else shutil.which("navd"))
    if found is None:
        where = f"at {named}" if named else "at crates/navd/out/navd or on the PATH"
        raise Failed(f"there is no program {where}; `make build` leaves one, or name one by --navd")
    return found


def answer(given: argparse.Namespace) -> None:
    """Commits the folder's files and answers the question about one of them."""
    if not os.path.isdir(given.folder):
        raise Failed(f"there is no folder {given.folder}")
    path, line, column = (given.place, 0, 0) if given.question == "uses" else place_of(given.place)
    path = os.path.normpath(path).replace(os.sep, "/")
    navd, left_out = Started(find_program(given.navd)) if given.port is None else Connected(given.port), []
    navd.begin()
    texts = {}
    for batch in batches_of(accepted_of(navd, given.folder, left_out)):
        commit(navd, batch, left_out)
        texts.update((name, text) for name, text in batch if name == path)
    tell_left_out(left_out)
    why = next((reason for name, reason, _ in left_out if name == path), None)
    if why is not None:
        raise Failed(f"{path} was left out, so nothing is known of it: {why}")
    if path not in texts:
        raise Failed(f"there is no file {path} below {given.folder} that navd takes; PATH is relative to the folder")
    if given.question == "uses":
        uses(navd, path, texts[path])
    else:
        question = "callers" if given.question == "references" else given.question
        tell(given.place, question, navd.ask(do=question, path=path, line=line, column=column))
    navd.end()


def port_of(text: str) -> int:
    """A number of a port."""
    if not (text.isascii() and text.isdigit() and len(text) <= 5 and 1 <= int(text) <= 65_535):
        raise argparse.ArgumentTypeError(f"{text} isn't a port, 1 to 65535")
    return int(text)


def main() -> int:
    parser = argparse.ArgumentParser(description=__doc__, formatter_class=argparse.RawDescriptionHelpFormatter)
    parser.add_argument("--navd", help="the program")
    parser.add_argument("--port", type=port_of, help="of a `navd serve` on this machine, in place of a program")
    parser.add_argument("folder")
    parser.add_argument("question", choices=("define", "references", "uses"))
    parser.add_argument("place", help="PATH:LINE:COLUMN, or PATH for `uses`")
    # A path may have bytes that no text has; they are shown as escapes.
    sys.stdout.reconfigure(errors="backslashreplace")
    sys.stderr.reconfigure(errors="backslashreplace")
    try:
        answer(parser.parse_args())
        sys.stdout.flush()
        return 0
    except Failed as why:
        print(f"ask.py: {visible(str(why))}", file=sys.stderr)
    except BrokenPipeError:
        # Whoever read our output has ended; nothing more is written to it, also at the end.
        os.dup2(os.open(os.devnull, os.O_WRONLY), sys.stdout.fileno())
    except KeyboardInterrupt:
        pass
    return 1


if __name__ == "__main__":
    sys.exit(main())
