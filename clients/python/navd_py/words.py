"""Words that several commands have."""

from __future__ import annotations

import argparse


def add_common_words(parser: argparse.ArgumentParser) -> None:
    """Adds the words that say which navd there is, and what belongs to a project."""
    add = parser.add_argument
    add("--navd", metavar="PROGRAM", help="navd; else the environment variable NAVD, else the one in PATH")
    add("--root", metavar="FOLDER", action="append", default=[], help="a folder from which modules are named")
    add("--exclude", metavar="PATTERN", action="append", default=[], help="files that are left out")
    add("--no-cache", action="store_true", help="keep no graphs in the user's cache folder")
