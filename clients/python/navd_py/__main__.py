"""The command `navd-py`: `ask` about a folder, `lsp` for an editor, `serve` for a running navd."""

from __future__ import annotations

import importlib
import sys
from typing import List, Optional

from . import __version__

# Each command with the module that carries it out, by its `main`.
COMMANDS = {"ask": "navd_py.ask", "lsp": "navd_py.lsp", "serve": "navd_py.serve"}

USAGE = """usage: navd-py ask FOLDER define|references|uses|check ..
       navd-py lsp ..
       navd-py serve FOLDER --port PORT ..
       navd-py --version
Each command tells more with --help."""


def main(words: Optional[List[str]] = None) -> int:
    """Carries out a command; answers its status: 0, or 2 where the words are no command."""
    given = sys.argv[1:] if words is None else words
    if given and given[0] in ("-h", "--help"):
        print(USAGE)
        return 0
    if given == ["--version"]:
        print(f"navd-py {__version__}")
        return 0
    if not given or given[0] not in COMMANDS:
        print(USAGE, file=sys.stderr)
        return 2
    module = importlib.import_module(COMMANDS[given[0]])
    return int(module.main(given[1:]) or 0)


def run() -> None:
    """Carries out the command and ends with its status."""
    sys.exit(main())


if __name__ == "__main__":
    run()
