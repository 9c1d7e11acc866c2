"""URIs of files, as editors write them."""

from __future__ import annotations

import os
import re
from typing import Optional
from urllib.parse import quote, unquote_to_bytes, urlsplit

_DRIVE = re.compile(r"/[A-Za-z]:")
# What stands in the path of a URI as it is.
_PLAIN = "/:@!$&'()*+,;=-._~"


def path_of(uri: str) -> Optional[str]:
    """The file's path, or None where the URI isn't that of a file of this machine."""
    try:
        parts = urlsplit(uri)
    except ValueError:
        return None
    if parts.scheme.lower() != "file" or parts.netloc not in ("", "localhost"):
        return None
    path = os.fsdecode(unquote_to_bytes(parts.path))
    if "\0" in path:
        return None
    if os.name == "nt" and _DRIVE.match(path):
        path = path[1:]
    return os.path.normpath(path) if path else None


def uri_of(path: str) -> str:
    """The URI of an absolute path."""
    quoted = quote(os.fsencode(path.replace(os.sep, "/")), safe=_PLAIN)
    return "file://" + (quoted if quoted.startswith("/") else "/" + quoted)


def uri_below(folder: str, path: str) -> str:
    """The URI of a path relative to the folder of a URI."""
    return folder.rstrip("/") + "/" + quote(os.fsencode(path), safe=_PLAIN)
