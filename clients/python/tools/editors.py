#!/usr/bin/env python3
"""Asks `navd-py lsp` through Neovim's own client over a real package, and compares what it shows with what is wanted.

usage: clients/python/tools/editors.py [NAVD]     (else the environment variable NAVD, else the one in PATH)

Neovim is started without a screen, with the configuration for its version that docs/EDITORS.md gives for `navd-py`,
over a copy of the package `email` of Python's library in a temporary folder. Each row is one step: what is done, and
what Neovim then shows. Places are named by the text of their lines, so they hold for several versions of Python. A row
that differs is marked, and the script ends with 1. It needs `nvim` and Python's standard library alone.
"""

from __future__ import annotations

import email
import json
import os
import re
import shlex
import shutil
import subprocess
import sys
import tempfile
import time
from typing import Any, Dict, List, Optional, Tuple

TOOLS = os.path.dirname(os.path.abspath(__file__))
CLIENT = os.path.dirname(TOOLS)
GUIDE = os.path.join(CLIENT, "..", "..", "docs", "EDITORS.md")
SECONDS = 180
SECONDS_TO_END = 10

INIT, PARSER, MESSAGE = "email/__init__.py", "email/parser.py", "email/message.py"
RETURNS = "return Parser(*args, **kws).parsestr(s)"
BROKEN = "broken = (\n\n"

# What is wanted: places, each as a file and the text of a line, with the name on it; or the beginnings of entries.
Place = Tuple[str, str, str]
Step = Tuple[str, Dict[str, Any], Optional[List[Any]]]


def at(what: str, place: Place, **more: Any) -> Dict[str, Any]:
    return {"do": what, "place": place, **more}


PARSESTR: Place = (PARSER, "def parsestr(self, text, headersonly=False):", "parsestr")
USE: Place = (INIT, RETURNS, "parsestr")
SUPER_USE: Place = (PARSER, "return Parser.parsestr(self, text, True)", "parsestr")

CLASS: Place = (PARSER, "class Parser:", "Parser")
PARSE: Place = (PARSER, "def parse(self, fp, headersonly=False):", "parse")
OWN_USE: Place = (PARSER, "return self.parse(StringIO(text)", "parse")
FEED: Place = ("email/feedparser.py", "class FeedParser:", "FeedParser")
CLASSES = ["Parser", "HeaderParser", "BytesParser", "BytesHeaderParser"]

STEPS: List[Step] = [
    ("a module is opened", {"do": "open", "path": INIT}, None),
    ("the definition of a class in a file that isn't open", at("definition", (INIT, RETURNS, "Parser")), [CLASS]),
    ("of a method of what a call gives", at("definition", USE), [PARSESTR]),
    ("of a member of self", at("definition", OWN_USE), [PARSE]),
    ("of an imported name", at("definition", (PARSER, "feedparser = FeedParser(", "FeedParser")), [FEED]),
    ("the references of a method", at("references", PARSESTR, holds=True), [USE, SUPER_USE]),
    ("the symbols of a document", {"do": "symbols", "path": PARSER}, CLASSES),
    ("symbols of the workspace", {"do": "workspace", "query": "BytesHeaderPars"}, ["BytesHeaderParser"]),
    ("a text is broken at its top", {"do": "insert", "path": INIT, "text": BROKEN}, None),
    ("it is told that it doesn't parse", {"do": "faults", "path": INIT}, [1]),
    ("a definition asked in the broken text", at("definition", USE, below=2), [PARSESTR]),
    ("references of a place in the broken text", at("references", PARSESTR, below=2, holds=True), [USE, SUPER_USE]),
    ("no answer in a changed line", at("definition", (INIT, "broken = (", "broken")), []),
    ("the text is mended", {"do": "undo", "path": INIT}, None),
    ("nothing is told any more", {"do": "faults", "path": INIT}, [0]),
    ("the definition after that", at("definition", USE), [PARSESTR]),
]

DRIVER = """
local steps, into = vim.fn.json_decode(vim.fn.readfile(vim.env.NAVD_STEPS)), vim.env.NAVD_SHOWN
local clients_of = vim.lsp.get_clients
  and function(buffer) return vim.lsp.get_clients({ bufnr = buffer }) end
  or vim.lsp.buf_get_clients

local function wait_for(what, is_so)
  if not vim.wait(30000, is_so, 5) then error(what) end
end

local function answered()
  for _, client in pairs(clients_of(0)) do
    if next(client.requests) ~= nil then return false end
  end
  return true
end

local function settle(step, is_shown)
  wait_for("no answer", answered)
  vim.wait(step.some and 5000 or 400, is_shown, 5)
end

local function go_to(step)
  vim.cmd("buffer " .. vim.fn.bufadd(step.path))
  wait_for("no server", function() return next(clients_of(0)) ~= nil end)
  if step.line then vim.fn.cursor(step.line, step.column) end
  vim.fn.setqflist({}, "f")
end

local function here()
  return vim.fn.fnamemodify(vim.fn.bufname(), ":.") .. ":" .. vim.fn.line(".") .. ":" .. vim.fn.col(".")
end

local function entries()
  local found = {}
  for _, entry in ipairs(vim.fn.getqflist()) do
    table.insert(found, vim.fn.fnamemodify(vim.fn.bufname(entry.bufnr), ":.") .. ":" .. entry.lnum .. ":" .. entry.col)
  end
  return found
end

local function texts()
  local found = {}
  for _, entry in ipairs(vim.fn.getqflist()) do table.insert(found, entry.text) end
  return found
end

local carried_out = {}

function carried_out.open(step) go_to(step) end

function carried_out.definition(step)
  go_to(step)
  local before = here()
  vim.lsp.buf.definition()
  settle(step, function() return here() ~= before or #entries() > 0 end)
  local listed = entries()
  if #listed == 0 and here() ~= before then listed = { here() } end
  return listed
end

function carried_out.references(step)
  go_to(step)
  vim.lsp.buf.references({ includeDeclaration = false })
  settle(step, function() return #entries() > 0 end)
  vim.cmd("cclose")
  return entries()
end

function carried_out.symbols(step)
  go_to(step)
  vim.lsp.buf.document_symbol()
  settle(step, function() return #entries() > 0 end)
  vim.cmd("cclose")
  return texts()
end

function carried_out.workspace(step)
  wait_for("no server", function() return next(clients_of(0)) ~= nil end)
  vim.fn.setqflist({}, "f")
  vim.lsp.buf.workspace_symbol(step.query)
  settle(step, function() return #entries() > 0 end)
  vim.cmd("cclose")
  return texts()
end

function carried_out.insert(step)
  go_to(step)
  vim.api.nvim_buf_set_lines(0, 0, 0, true, vim.split(step.text:gsub("\\n$", ""), "\\n"))
end

function carried_out.undo(step)
  go_to(step)
  vim.cmd("edit!")
end

function carried_out.faults(step)
  go_to(step)
  vim.wait(10000, function() return #vim.diagnostic.get(0) == step.number end, 5)
  return { #vim.diagnostic.get(0) }
end

vim.o.hidden = true
local shown = {}
for _, step in ipairs(steps) do
  local done, found = pcall(carried_out[step["do"]], step)
  table.insert(shown, done and { shown = found or vim.NIL } or { failed = tostring(found) })
end
vim.fn.writefile({ vim.fn.json_encode(shown) }, into)
vim.cmd("qall!")
"""


def wrapper() -> str:
    """A program that starts the client of this checkout, and notes how it ended and what it said."""
    start = f'PYTHONPATH={shlex.quote(CLIENT)} {shlex.quote(sys.executable)} -m navd_py "$@"'
    return f'#!/bin/sh\n{start} 2>"$NAVD_SAID"\necho $? >"$NAVD_STATUS"\n'


def version_of_editor() -> Tuple[int, int]:
    """The two numbers of Neovim's version."""
    try:
        told = subprocess.run(["nvim", "--version"], stdout=subprocess.PIPE, check=True).stdout.decode()
    except FileNotFoundError:
        sys.exit("there is no nvim")
    found = re.match(r"NVIM v(\d+)\.(\d+)", told)
    return (int(found.group(1)), int(found.group(2))) if found else sys.exit("nvim doesn't tell its version")


def configuration(version: Tuple[int, int], client: str, navd: str) -> str:
    """The configuration that the guide gives for this version of Neovim, with the programs in their places."""
    with open(GUIDE, encoding="utf-8") as guide:
        blocks = re.findall(r"```lua\n(.*?)```", guide.read(), re.DOTALL)
    by = "vim.lsp.start_client" if version < (0, 8) else "vim.lsp.start("
    block = next(block for block in blocks if by in block and '"navd-py"' in block)
    block = block.replace('cmd = { "navd-py"', f"cmd = {{ {json.dumps(client)}")
    return str(block.replace('"/path/to/navd"', json.dumps(navd)))


def place_in(project: str, place: Place, below: int = 0) -> Tuple[str, int, int]:
    """Where a name stands: the file, the line and the column from 1, in bytes; `below` so many lines."""
    path, text, name = place
    with open(os.path.join(project, path), encoding="utf-8") as file:
        for number, line in enumerate(BROKEN.splitlines() + file.read().splitlines() if text in BROKEN else file, 1):
            if text in line:
                start = line.index(text) + re.search(rf"\b{name}\b", text).start()  # type: ignore[union-attr]
                return path, number + (below if path == INIT else 0), len(line[:start].encode()) + 1
    sys.exit(f"{path} has no line with {text!r}: this script has to follow the library")


def shown_place(place: Tuple[str, int, int]) -> str:
    return ":".join(map(str, place))


def prepared(project: str) -> List[Dict[str, Any]]:
    """The steps as Neovim carries them out, with what is wanted."""
    steps = []
    for _, step, wanted in STEPS:
        step = {"holds": False, **step, "some": bool(wanted)}
        below = step.get("below", 0)
        if "place" in step:
            step["path"], step["line"], step["column"] = place_in(project, step["place"], below)
        if step["do"] == "faults" and wanted:
            step["number"] = wanted[0]
        is_placed = step["do"] in ("definition", "references")
        step["wanted"] = [shown_place(place_in(project, one, below)) for one in wanted or []] if is_placed else wanted
        steps.append(step)
    return steps


def verdict(step: Dict[str, Any], told: Dict[str, Any]) -> str:
    """What is shown after a step, or how it differs from what is wanted."""
    if "failed" in told:
        return f"OTHERWISE: {told['failed']}"
    if step["wanted"] is None:
        return "done"
    shown, wanted = list(told["shown"] or []), step["wanted"]
    if step["do"] in ("symbols", "workspace"):
        names = [text.rsplit(" ", 1)[-1] for text in shown]
        is_right = [name for name in names if name in wanted] == wanted
        listed = ", ".join(names[:6]) + (f" and {len(names) - 6} more" if len(names) > 6 else "")
    else:
        is_right = all(one in shown for one in wanted) if step["holds"] else shown == wanted
        listed = ", ".join(map(str, shown)) or "nothing"
    return listed if is_right else f"OTHERWISE: {listed}, not {', '.join(map(str, wanted)) or 'nothing'}"


def read(path: str) -> str:
    try:
        with open(path, encoding="utf-8") as file:
            return file.read().strip()
    except FileNotFoundError:
        return ""


def shown_by_editor(
    folder: str, project: str, steps: List[Dict[str, Any]], navd: str
) -> Tuple[List[Dict[str, Any]], str, str]:
    """What the editor shows after each step, and how the server ended: its status, and what it said."""
    client, start = os.path.join(folder, "client"), os.path.join(folder, "init.lua")
    contents = {"client": wrapper(), "init.lua": configuration(version_of_editor(), client, navd)}
    names = ("NAVD_STEPS", "NAVD_SHOWN", "NAVD_SAID", "NAVD_STATUS")
    own = {name: os.path.join(folder, name.lower()) for name in names}
    for name, text in {**contents, "driver.lua": DRIVER, "navd_steps": json.dumps(steps)}.items():
        with open(os.path.join(folder, name), "w", encoding="utf-8") as file:
            file.write(text)
    os.chmod(client, 0o755)
    homes = {f"XDG_{name}_HOME": os.path.join(folder, "home") for name in ("CONFIG", "DATA", "STATE", "CACHE")}
    command = ["nvim", "--clean", "--headless", "-n", "-u", start, "-S", os.path.join(folder, "driver.lua")]
    try:
        editor = subprocess.run(
            command, cwd=project, env={**os.environ, **homes, **own}, stdin=subprocess.DEVNULL, stdout=subprocess.PIPE,
            stderr=subprocess.STDOUT, timeout=SECONDS,
        )  # fmt: skip
    except subprocess.TimeoutExpired:
        sys.exit(f"the editor doesn't end within {SECONDS} seconds")
    told = read(own["NAVD_SHOWN"])
    if not told:
        sys.exit(f"the editor did nothing: {editor.stdout.decode()} {read(own['NAVD_SAID'])}")
    until = time.monotonic() + SECONDS_TO_END
    while not read(own["NAVD_STATUS"]) and time.monotonic() < until:
        time.sleep(0.05)
    return json.loads(told), read(own["NAVD_STATUS"]), read(own["NAVD_SAID"])


def main() -> int:
    navd = shutil.which((sys.argv[1:] + [os.environ.get("NAVD") or "navd"])[0])
    if navd is None:
        sys.exit("there is no navd: name it, or set the environment variable NAVD")
    print(f"Neovim {'.'.join(map(str, version_of_editor()))}, {os.path.basename(navd)}")
    with tempfile.TemporaryDirectory(prefix="navd-editors-") as folder:
        project = os.path.realpath(os.path.join(folder, "project é 1"))
        without = shutil.ignore_patterns("__pycache__")
        shutil.copytree(os.path.dirname(email.__file__), os.path.join(project, "email"), ignore=without)
        steps = prepared(project)
        told, status, said = shown_by_editor(folder, project, steps, os.path.abspath(navd))
    lines = [(what, verdict(step, shown)) for (what, _, _), step, shown in zip(STEPS, steps, told)]
    end = f"status {status or 'unknown'}" + (f", and it says {said!r}" if said else "")
    verdict_of_end = end if end == "status 0" else f"OTHERWISE: {end}, not status 0"
    lines.append(("the editor is left, and the server ends", verdict_of_end))
    wrong = sum(found.startswith("OTHERWISE") for _, found in lines)
    for what, found in lines:
        print(f"{what:54} {found}")
    print(f"{len(lines)} rows, {wrong} of them other than wanted")
    return 1 if wrong else 0


if __name__ == "__main__":
    sys.exit(main())
