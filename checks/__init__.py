"""Checks of `gorefd` in Python. README.md beside this file has a line for each script; all are run from the top of the repository."""

import pathlib

TOP = pathlib.Path(__file__).resolve().parent.parent


def crate_of(path):
    """The crate that a file of crates/ belongs to."""
    return path.relative_to(TOP / "crates").parts[0]
