"""Which files of a folder are the project's: patterns as of a `.gitignore`, and folders that nobody means."""

from __future__ import annotations

import os
import re
from typing import Dict, Iterable, Iterator, List, Pattern, Sequence, Tuple

# Folders that hold no text of the project's own.
JUNK = frozenset(
    "__pycache__ node_modules build dist site-packages venv env virtualenv htmlcov __pypackages__ buck-out".split()
)


def pattern_of(line: str) -> Tuple[Pattern[str], bool, bool]:
    """A line of a `.gitignore`: its pattern for a path relative to the folder, whether it is for folders alone, and
    whether it takes back what an earlier line left out."""
    back = line.startswith("!")
    if back:
        line = line[1:]
    folders = line.endswith("/")
    line = line.rstrip("/")
    anchored = "/" in line
    line = line.lstrip("/")
    parts: List[str] = []
    position = 0
    while position < len(line):
        char = line[position]
        if line.startswith("**/", position):
            parts.append("(?:.*/)?")
            position += 3
            continue
        if line.startswith("**", position):
            parts.append(".*")
            position += 2
            continue
        end = line.find("]", position + 2) if char == "[" else -1
        if char == "*":
            parts.append("[^/]*")
        elif char == "?":
            parts.append("[^/]")
        elif end > 0:
            inside = line[position + 1 : end].replace("\\", "\\\\")
            parts.append("[" + ("^" + inside[1:] if inside[:1] in "!^" else inside) + "]")
            position = end
        else:
            parts.append(re.escape(char))
        position += 1
    begin = "" if anchored else "(?:.*/)?"
    return re.compile(begin + "".join(parts) + r"\Z", re.DOTALL), folders, back


class Excludes:
    """Patterns of which the last that fits decides."""

    def __init__(self, lines: Iterable[str]) -> None:
        self.patterns: List[Tuple[Pattern[str], bool, bool]] = []
        for line in lines:
            line = line.strip()
            if not line or line.startswith("#"):
                continue
            try:
                self.patterns.append(pattern_of(line))
            except re.error:
                continue

    def leaves_out(self, path: str, folder: bool) -> bool:
        out = False
        for pattern, folders, back in self.patterns:
            if (folder or not folders) and pattern.match(path):
                out = not back
        return out


def ignored_folders(folder: str) -> List[str]:
    """The lines of the folder's `.gitignore`. They are asked of folders alone: a generated module that isn't kept in
    the repository is a module all the same."""
    try:
        with open(os.path.join(folder, ".gitignore"), encoding="utf-8", errors="replace") as file:
            return file.read().splitlines()
    except OSError:
        return []


class Walker:
    """The Python files below a folder. Links to folders aren't followed."""

    def __init__(self, folder: str, excludes: Sequence[str]) -> None:
        self.folder = folder
        self.excludes = Excludes(excludes)
        self.ignored = Excludes(ignored_folders(folder))
        self.unread: Dict[str, str] = {}  # the folders that couldn't be read the last time, with the reasons

    def is_left_out(self, path: str) -> bool:
        """Whether a file at this path is none of the project's, by its name and the names of its folders."""
        parts = path.split("/")
        for count in range(1, len(parts)):
            if self._folder_out("/".join(parts[:count]), parts[count - 1]):
                return True
        return not parts[-1].endswith(".py") or self.excludes.leaves_out(path, False)

    def _folder_out(self, path: str, name: str) -> bool:
        if name.startswith(".") or name in JUNK or name.endswith(".egg-info"):
            return True
        if self.excludes.leaves_out(path, True) or self.ignored.leaves_out(path, True):
            return True
        # The mark of a virtual environment, whatever its name.
        return os.path.exists(os.path.join(self.folder, path, "pyvenv.cfg"))

    def _note(self, error: OSError) -> None:
        place = os.path.relpath(error.filename or self.folder, self.folder).replace(os.sep, "/")
        self.unread[place] = f"the folder can't be read: {error.strerror}"

    def files(self) -> Iterator[str]:
        self.unread = {}
        for place, folders, names in os.walk(self.folder, onerror=self._note):
            inner = os.path.relpath(place, self.folder).replace(os.sep, "/")
            prefix = "" if inner == "." else inner + "/"
            folders[:] = [name for name in folders if not self._folder_out(prefix + name, name)]
            for name in names:
                path = prefix + name
                if name.endswith(".py") and not self.excludes.leaves_out(path, False):
                    if os.path.isfile(os.path.join(place, name)):
                        yield path
