#!/usr/bin/env python3
"""Times sessions of `navd lsp` over made projects of Python modules, and prints one table; every figure is of this one run.

usage: bench/lsp.py [PROGRAM [FILES ..]]     (crates/navd/out/navd, as `make build` leaves it; 64, 512 and 2,048 modules)

All modules of a project are open, of which one is `base`. Each other module has a class with a method, and a function;
it uses the method of a second module's class, the function of a third one and, as all do, the function `shared` of
`base`. Two modules use the function `rare` of `base`. The columns are: all modules opened, and an answer behind them;
the change of one module and the definition that is asked behind it in that module, sent together and timed until the
answer is there, and beside it how often that costs what it costs in the smallest project; a definition alone; who
refers to `shared` and to `rare`, asked after a change and a definition; each with its ratio; and the most memory that
the program held once all were open, after the changes, and at the end. Of what is asked several times, each time in
another module, the middle is told.
"""

import json
import subprocess
import sys
import time

PROGRAM = sys.argv[1] if len(sys.argv) > 1 else "crates/navd/out/navd"
FILES = [int(word) for word in sys.argv[2:]] or [64, 512, 2_048]
PACKAGE = 32
# How many changes, definitions and who-refers questions of either kind are timed.
CHANGES, DEFINITIONS, REFERENCES = 40, 40, 3
BASE = "def shared(x):\n    return x\ndef rare(x):\n    return x\n"
ROOT = "file:///project/"


def path_of(k):
    return f"pkg{k // PACKAGE:02}/mod{k:04}.py"


def name_of(k):
    return path_of(k)[:-len(".py")].replace("/", ".")


def aims_of(k, count):
    """The modules whose class and whose function module k uses, of so many."""
    return (k * 13 + 5) % count, (k * 7 + 1) % count


def module(k, count, turn):
    """The text of module k of so many, in which the number of this turn stands twice."""
    other, aim = aims_of(k, count)
    lines = [
        f"from {name_of(other)} import Thing{other}",
        f"from {name_of(aim)} import make{aim}",
        "from base import shared",
        f"class Thing{k}:",
        f"    def size{k}(self):",
        f"        return {turn}",
        f"def make{k}(x):",
        f"    return Thing{k}()",
        f"Thing{other}().size{other}()",
        f"shared(make{aim}({turn}))",
    ]
    if k in (1, count // 2):
        lines += ["from base import rare", f"rare({turn})"]
    return "\n".join(lines) + "\n"


class Session:
    """A running `navd lsp` that has begun."""

    def __init__(self):
        self.process = subprocess.Popen([PROGRAM, "lsp"], stdin=subprocess.PIPE, stdout=subprocess.PIPE)
        self.asked = 0
        self.answer([self.request("initialize", rootUri=ROOT)])

    def request(self, method, **params):
        self.asked += 1
        return {"id": self.asked, "method": method, "params": params}

    def definition(self, path, line, character):
        return self.request("textDocument/definition", textDocument={"uri": ROOT + path}, position={"line": line, "character": character})

    def references(self, path, line, character):
        return self.request("textDocument/references", textDocument={"uri": ROOT + path}, position={"line": line, "character": character},
                            context={"includeDeclaration": False})

    def answer(self, messages):
        """Sends the messages, of which the last alone is a request: its result and the seconds until it is there."""
        data = b"".join(frame(message) for message in messages)
        start = time.perf_counter()
        self.process.stdin.write(data)
        self.process.stdin.flush()
        header = self.process.stdout.readline()
        if not header:
            raise SystemExit(f"navd ended with status {self.process.wait()}")
        self.process.stdout.readline()
        body = self.process.stdout.read(int(header.split(b":")[1]))
        took = time.perf_counter() - start
        reply = json.loads(body)
        if reply.get("id") != messages[-1]["id"] or "error" in reply:
            raise SystemExit(f"navd replied {body!r}")
        return reply["result"], took

    def told(self, wanted, messages):
        """The seconds until an answer of so many places is there."""
        result, took = self.answer(messages)
        if len(result or []) != wanted:
            raise SystemExit(f"navd told {len(result or [])} places, not {wanted}")
        return took

    def memory(self):
        """The most memory that it held, in megabytes."""
        with open(f"/proc/{self.process.pid}/status", encoding="ascii") as status:
            for line in status:
                if line.startswith("VmHWM:"):
                    return int(line.split()[1]) / 1e3
        raise SystemExit("the system doesn't tell the memory of a process")

    def end(self):
        self.answer([self.request("shutdown")])
        self.process.communicate(frame({"method": "exit"}))
        if self.process.returncode != 0:
            raise SystemExit(f"navd ended with status {self.process.returncode}")


def frame(message):
    body = json.dumps(message, separators=(",", ":")).encode()
    return b"Content-Length: %d\r\n\r\n%s" % (len(body), body)


def opened(path, text):
    document = {"uri": ROOT + path, "languageId": "python", "version": 0, "text": text}
    return {"method": "textDocument/didOpen", "params": {"textDocument": document}}


def changed(path, text):
    return {"method": "textDocument/didChange", "params": {"textDocument": {"uri": ROOT + path}, "contentChanges": [{"text": text}]}}


def middle(figures):
    return sorted(figures)[len(figures) // 2]


def use(session, k, count):
    """The question where the method is defined that module k uses."""
    other, _ = aims_of(k, count)
    return session.definition(path_of(k), 8, len(f"Thing{other}()."))


def measured(files):
    """The seconds of all openings, of a change with a definition, of a definition, of the references of `shared` and of
    `rare`, and the memory once all are open, after the changes, and at the end."""
    session = Session()
    count = files - 1
    modules = [opened(path_of(k), module(k, count, 0)) for k in range(count)]
    all_open = session.told(1, [opened("base.py", BASE), *modules, use(session, count - 1, count)])
    memory = [session.memory()]

    some = [n * 31 % count for n in range(CHANGES)]
    changes = [session.told(1, [changed(path_of(k), module(k, count, n + 1)), use(session, k, count)]) for n, k in enumerate(some)]
    memory.append(session.memory())
    definitions = [session.told(1, [use(session, n * 37 % count, count)]) for n in range(DEFINITIONS)]
    # The import of a name and its use are references both.
    shared, rare = [], []
    for n in range(REFERENCES):
        # Each is asked after a change, since what was found of all references is kept until the next one.
        session.told(1, [changed(path_of(n), module(n, count, CHANGES + 2 * n + 1)), use(session, n, count)])
        shared.append(session.told(2 * count, [session.references("base.py", 0, len("def "))]))
        session.told(1, [changed(path_of(n), module(n, count, CHANGES + 2 * n + 2)), use(session, n, count)])
        rare.append(session.told(2 * 2, [session.references("base.py", 2, len("def "))]))
    memory.append(session.memory())
    session.end()
    return all_open, [middle(figures) for figures in (changes, definitions, shared, rare)], memory


def main():
    print("files   open all     change, define   ratio   define        ratio   refs of all    ratio   refs of two    ratio"
          "   memory, open      changed   at the end")
    least = None
    for files in FILES:
        all_open, middles, memory = measured(files)
        least = least or middles
        columns = "".join(f"   {took * 1e3:8.2f} ms   {took / first:7.2f}" for took, first in zip(middles, least))
        print(f"{files:5}   {all_open:7.3f} s{columns}" + "".join(f" {most:9.1f} MB" for most in memory), flush=True)


if __name__ == "__main__":
    main()
