#!/usr/bin/env python3
"""Asks `navd lsp` through Neovim's own client, and compares what the editor shows with what is wanted.

usage: bench/editors.py [PROGRAM]     (crates/navd/out/navd, as `make build` leaves it)

Neovim is started without a screen, with the configuration that docs/EDITORS.md gives for its version, over a small
project in a temporary folder whose name has a blank and a letter of two bytes. Each row is one step: what is done, and
what the editor then shows: where its cursor stands after a jump, or the entries of its quickfix list, each as the file,
the line and the column from 1, in bytes. A row that differs is marked, and the script ends with 1. It needs `nvim` and
Python's standard library alone.
"""

import json
import os
import re
import subprocess
import sys
import tempfile

PROGRAM = sys.argv[1] if len(sys.argv) > 1 else "crates/navd/out/navd"
GUIDE = os.path.join(os.path.dirname(os.path.abspath(__file__)), "..", "docs", "EDITORS.md")
SECONDS = 120

INIT, TOOLS, MAIN = "pkg/__init__.py", "pkg/tools.py", "main.py"
SIZE = "class Box:\n    def size(self):\n        return 1\n"
USE = "from pkg.tools import Box as B\nb = B()\nb.size()\n"
USES = USE + 'print("é😀", b.size())\n'
BESIDE = "../beside.py"
FILES = {INIT: "", TOOLS: SIZE, MAIN: USE, BESIDE: "x = 1\nprint(x)\n"}


def opened(path):
    return {"do": "open", "path": path}


def changed(path, text):
    return {"do": "change", "path": path, "text": text}


def closed(path):
    return {"do": "close", "path": path}


def definition(path, line, column):
    return {"do": "definition", "path": path, "line": line, "column": column}


def references(path, line, column, declaration):
    return {"do": "references", "path": path, "line": line, "column": column, "declaration": declaration}


# What is done, the step, and what the editor shows after it; None where nothing is asked.
STEPS = [
    ("a module is opened", opened(INIT), None),
    ("and one with a class", opened(TOOLS), None),
    ("and one that uses it", opened(MAIN), None),
    ("the definition of a method in another file", definition(MAIN, 3, 3), ["pkg/tools.py:2:9"]),
    ("of a class under another name", definition(MAIN, 2, 5), ["pkg/tools.py:1:7"]),
    ("of a name of the same file", definition(MAIN, 3, 1), ["main.py:2:1"]),
    ("the references of the method, asked where it is used", references(MAIN, 3, 3, False), ["main.py:3:3"]),
    ("with the declaration", references(MAIN, 3, 3, True), ["main.py:3:3", "pkg/tools.py:2:9"]),
    ("asked where it is defined", references(TOOLS, 2, 9, False), ["main.py:3:3"]),
    ("with the declaration", references(TOOLS, 2, 9, True), ["main.py:3:3", "pkg/tools.py:2:9"]),
    ("two lines come before the class", changed(TOOLS, "# A box.\n\n" + SIZE), None),
    ("the definition after the change", definition(MAIN, 3, 3), ["pkg/tools.py:4:9"]),
    ("a use behind letters of two and four bytes", changed(MAIN, USES), None),
    ("the definition, asked there", definition(MAIN, 4, 19), ["pkg/tools.py:4:9"]),
    ("the references", references(TOOLS, 4, 9, False), ["main.py:3:3", "main.py:4:19"]),
    ("with the declaration", references(TOOLS, 4, 9, True), ["main.py:3:3", "main.py:4:19", "pkg/tools.py:4:9"]),
    ("a line that isn't read comes behind the uses", changed(MAIN, USES + "b += 1\n"), None),
    ("the last text that was read answers", references(TOOLS, 4, 9, False), ["main.py:3:3", "main.py:4:19"]),
    ("it goes, and another comes in front of them", changed(MAIN, "n = 1\n" + USES), None),
    ("the references", references(TOOLS, 4, 9, False), ["main.py:4:3", "main.py:5:19"]),
    ("the module of the class is closed", closed(TOOLS), None),
    ("no definition", definition(MAIN, 4, 3), []),
    ("it is opened again, as it stands in its file", opened(TOOLS), None),
    ("the definition", definition(MAIN, 4, 3), ["pkg/tools.py:2:9"]),
    ("a module outside of the root is opened", opened(BESIDE), None),
    ("no definition", definition(BESIDE, 2, 7), []),
]

# Carries out the steps, and writes what is shown after each into the file.
DRIVER = """
local steps, into = vim.fn.json_decode(vim.fn.readfile(vim.env.NAVD_STEPS)), vim.env.NAVD_SHOWN
local clients_of = vim.lsp.get_clients
  and function(buffer) return vim.lsp.get_clients({ bufnr = buffer }) end
  or vim.lsp.buf_get_clients

local function wait_for(what, is_so)
  if not vim.wait(20000, is_so, 5) then
    error(what)
  end
end

local function ready()
  return next(clients_of(0)) ~= nil
end

local function answered()
  for _, client in pairs(clients_of(0)) do
    if next(client.requests) ~= nil then
      return false
    end
  end
  return true
end

-- Waits for the answer, and then for what the editor does with it: longer where something has to be shown.
local function settle(step, is_shown)
  wait_for("no answer", answered)
  vim.wait(step.some and 5000 or 300, is_shown, 5)
end

local function place(buffer, line, column)
  return vim.fn.fnamemodify(vim.fn.bufname(buffer), ":.") .. ":" .. line .. ":" .. column
end

local function here()
  return place(vim.fn.bufnr(), vim.fn.line("."), vim.fn.col("."))
end

local function entries()
  local found = {}
  for _, entry in ipairs(vim.fn.getqflist()) do
    table.insert(found, place(entry.bufnr, entry.lnum, entry.col))
  end
  return found
end

local function buffer_of(step)
  return vim.fn.bufadd(step.path)
end

local function go_to(step)
  vim.cmd("buffer " .. buffer_of(step))
  wait_for("no server", ready)
  if step.line then
    vim.fn.cursor(step.line, step.column)
  end
  vim.fn.setqflist({}, "f")
end

local carried_out = {}

function carried_out.open(step)
  go_to(step)
end

-- The editor tells the server of a change after a while, and at once where something is asked in the same document.
function carried_out.change(step)
  go_to(step)
  vim.api.nvim_buf_set_lines(0, 0, -1, true, vim.split(step.text:gsub("\\n$", ""), "\\n"))
  local here = { textDocument = { uri = vim.uri_from_bufnr(0) }, position = { line = 0, character = 0 } }
  vim.lsp.buf_request_sync(0, "textDocument/definition", here, 20000)
end

function carried_out.close(step)
  vim.cmd("bwipeout! " .. buffer_of(step))
end

function carried_out.definition(step)
  go_to(step)
  local before = here()
  vim.lsp.buf.definition()
  settle(step, function() return here() ~= before or #entries() > 0 end)
  local listed = entries()
  if #listed == 0 and here() ~= before then
    listed = { here() }
  end
  return listed
end

function carried_out.references(step)
  go_to(step)
  vim.lsp.buf.references({ includeDeclaration = step.declaration })
  settle(step, function() return #entries() > 0 end)
  vim.cmd("cclose")
  return entries()
end

vim.o.hidden = true
local shown = {}
for _, step in ipairs(steps) do
  local done, found = pcall(carried_out[step["do"]], step)
  table.insert(shown, done and { shown = found } or { failed = tostring(found) })
end
vim.fn.writefile({ vim.fn.json_encode(shown) }, into)
vim.cmd("qall!")
"""

# Runs the program, and notes its status and what it says on standard error.
WRAPPER = """#!/bin/sh
"$NAVD_PROGRAM" "$@" 2>"$NAVD_SAID"
echo $? >"$NAVD_STATUS"
"""


def version_of_editor():
    """The two numbers of Neovim's version."""
    try:
        told = subprocess.run(["nvim", "--version"], stdout=subprocess.PIPE, check=True).stdout.decode()
    except FileNotFoundError:
        sys.exit("there is no nvim")
    major, minor = re.match(r"NVIM v(\d+)\.(\d+)", told).groups()
    return int(major), int(minor)


def configuration(version, program):
    """The configuration that the guide gives for this version of Neovim, with the program in its place."""
    with open(GUIDE, encoding="utf-8") as guide:
        blocks = re.findall(r"```lua\n(.*?)```", guide.read(), re.DOTALL)
    by = "vim.lsp.start_client" if version < (0, 8) else "vim.lsp.start("
    block = next(block for block in blocks if by in block)
    return block.replace('"/path/to/navd"', json.dumps(program))


def write(path, text):
    os.makedirs(os.path.dirname(path), exist_ok=True)
    with open(path, "w", encoding="utf-8") as file:
        file.write(text)


def read(path):
    try:
        with open(path, encoding="utf-8") as file:
            return file.read().strip()
    except FileNotFoundError:
        return ""


def shown_by_editor(folder, version):
    """What the editor shows after each step, and how the program ended: its status, and what it said."""
    project = os.path.join(folder, "project é 1")
    for path, text in FILES.items():
        write(os.path.normpath(os.path.join(project, path)), text)
    wrapper = os.path.join(folder, "wrapper")
    write(wrapper, WRAPPER)
    os.chmod(wrapper, 0o755)
    own = {name: os.path.join(folder, name.lower()) for name in ("NAVD_STEPS", "NAVD_SHOWN", "NAVD_SAID", "NAVD_STATUS")}
    write(own["NAVD_STEPS"], json.dumps([{**step, "some": bool(wanted)} for _, step, wanted in STEPS]))
    write(os.path.join(folder, "init.lua"), configuration(version, wrapper))
    write(os.path.join(folder, "driver.lua"), DRIVER)
    homes = {f"XDG_{name}_HOME": os.path.join(folder, "home") for name in ("CONFIG", "DATA", "STATE", "CACHE")}
    command = ["nvim", "--clean", "--headless", "-n", "-u", os.path.join(folder, "init.lua"), "-S", os.path.join(folder, "driver.lua")]
    environment = {**os.environ, **homes, **own, "NAVD_PROGRAM": os.path.abspath(PROGRAM)}
    try:
        editor = subprocess.run(command, cwd=project, env=environment, stdin=subprocess.DEVNULL, stdout=subprocess.PIPE,
                                stderr=subprocess.STDOUT, timeout=SECONDS)
    except subprocess.TimeoutExpired:
        sys.exit(f"the editor doesn't end within {SECONDS} seconds")
    told = read(own["NAVD_SHOWN"])
    if not told:
        sys.exit(f"the editor did nothing: {editor.stdout.decode()}")
    return json.loads(told), read(own["NAVD_STATUS"]), read(own["NAVD_SAID"])


def verdict(told, wanted):
    """Whether what is shown after a step is what is wanted, and how it differs."""
    if "failed" in told:
        return f"OTHERWISE: {told['failed']}"
    if wanted is None:
        return "done"
    shown = list(told["shown"])
    listed = ", ".join(shown) or "nothing"
    return listed if shown == wanted else f"OTHERWISE: {listed}, not {', '.join(wanted) or 'nothing'}"


def main():
    if not os.access(PROGRAM, os.X_OK):
        sys.exit(f"there is no program {PROGRAM}; `make build` leaves one at crates/navd/out/navd")
    version = version_of_editor()
    print(f"Neovim {version[0]}.{version[1]}, {PROGRAM}")
    with tempfile.TemporaryDirectory(prefix="navd-editors-") as folder:
        told, status, said = shown_by_editor(folder, version)
    lines = [(what, verdict(shown, wanted)) for (what, _, wanted), shown in zip(STEPS, told)]
    end = f"status {status or 'unknown'}" + (f", and it says {said!r}" if said else "")
    lines.append(("the editor is left, and the program ends", end if end == "status 0" else f"OTHERWISE: {end}, not status 0"))
    wrong = sum(found.startswith("OTHERWISE") for _, found in lines)
    for what, found in lines:
        print(f"{what:54} {found}")
    print(f"{len(lines)} rows, {wrong} of them other than wanted")
    return 1 if wrong else 0


if __name__ == "__main__":
    sys.exit(main())
