"""Builds the wheel of this package with Python's standard library alone (PEP 517 and PEP 660).

So `pip install ./clients/python` needs no registry.
"""

from __future__ import annotations

import base64
import hashlib
import os
import re
import tarfile
import zipfile
from typing import Any, Dict, Iterator, List, Optional, Tuple

TOP = os.path.dirname(os.path.dirname(os.path.abspath(__file__)))
PACKAGE = "navd_py"
# Every file of the wheel is of this time, so that two builds of one text are the same bytes.
TIME = (2020, 1, 1, 0, 0, 0)


def version() -> str:
    with open(os.path.join(TOP, PACKAGE, "__init__.py"), encoding="utf-8") as file:
        found = re.search(r'^__version__ = "([^"]+)"$', file.read(), re.MULTILINE)
    if found is None:
        raise RuntimeError(f"{PACKAGE}/__init__.py states no __version__")
    return found.group(1)


def modules() -> Iterator[Tuple[str, bytes]]:
    """The package's files, with their paths in the wheel."""
    for place, folders, names in os.walk(os.path.join(TOP, PACKAGE)):
        folders[:] = sorted(name for name in folders if name != "__pycache__")
        for name in sorted(names):
            if name.endswith(".py") or name == "py.typed":
                path = os.path.join(place, name)
                with open(path, "rb") as file:
                    yield os.path.relpath(path, TOP).replace(os.sep, "/"), file.read()


def metadata() -> List[Tuple[str, bytes]]:
    """The files that tell what the wheel is, all but the list of its files."""
    with open(os.path.join(TOP, "README.md"), encoding="utf-8") as file:
        readme = file.read()
    about = (
        f"Metadata-Version: 2.1\nName: navd-py\nVersion: {version()}\nRequires-Python: >=3.9\n"
        "Summary: Definitions and references in projects of Python, by navd\n"
        f"Description-Content-Type: text/markdown\n\n{readme}"
    )
    wheel = "Wheel-Version: 1.0\nGenerator: navd-py\nRoot-Is-Purelib: true\nTag: py3-none-any\n"
    commands = "[console_scripts]\nnavd-py = navd_py.__main__:run\n"
    folder = f"{PACKAGE}-{version()}.dist-info"
    texts = (("METADATA", about), ("WHEEL", wheel), ("entry_points.txt", commands))
    return [(f"{folder}/{name}", text.encode()) for name, text in texts]


def written(folder: str, files: List[Tuple[str, bytes]]) -> str:
    """Writes the wheel of these files, and answers its name."""
    record = f"{PACKAGE}-{version()}.dist-info/RECORD"
    lines = []
    for path, data in files:
        digest = base64.urlsafe_b64encode(hashlib.sha256(data).digest()).rstrip(b"=").decode()
        lines.append(f"{path},sha256={digest},{len(data)}\n")
    lines.append(f"{record},,\n")
    name = f"{PACKAGE}-{version()}-py3-none-any.whl"
    with zipfile.ZipFile(os.path.join(folder, name), "w", zipfile.ZIP_DEFLATED) as wheel:
        for path, data in files + [(record, "".join(lines).encode())]:
            entry = zipfile.ZipInfo(path, TIME)
            entry.external_attr = 0o644 << 16
            wheel.writestr(entry, data, zipfile.ZIP_DEFLATED)
    return name


Settings = Optional[Dict[str, Any]]


def build_wheel(
    wheel_directory: str, config_settings: Settings = None, metadata_directory: Optional[str] = None
) -> str:
    return written(wheel_directory, list(modules()) + metadata())


def build_editable(
    wheel_directory: str, config_settings: Settings = None, metadata_directory: Optional[str] = None
) -> str:
    return written(wheel_directory, [("navd_py.pth", (TOP + "\n").encode())] + metadata())


def build_sdist(sdist_directory: str, config_settings: Settings = None) -> str:
    base = f"{PACKAGE}-{version()}"
    with tarfile.open(os.path.join(sdist_directory, base + ".tar.gz"), "w:gz") as archive:
        for name in ("pyproject.toml", "README.md", "navd_py", "tools", "tests"):
            archive.add(os.path.join(TOP, name), f"{base}/{name}", filter=kept)
    return base + ".tar.gz"


def kept(entry: tarfile.TarInfo) -> Optional[tarfile.TarInfo]:
    return None if "__pycache__" in entry.name else entry
