"""Where the program and the pages are: in a clone of the repository, or where `make install` has put them."""
from __future__ import annotations

import os
import platform

LIB = os.path.dirname(os.path.realpath(__file__))
TOP = os.path.dirname(os.path.dirname(LIB))
BUILT = os.path.join(TOP, "crates", "safebound_cli", "out", "safebound_cli")
# `make install` puts this file into PREFIX/lib/safebound/safebound_lib.
SHARED = os.path.join(os.path.dirname(TOP), "share", "safebound")
INSTALLED = os.path.join(os.path.dirname(TOP), "bin", "safebound_cli")
# The last release. It was built for one kind of machine.
RELEASE = os.path.join(TOP, "dist", "RELEASE")
RELEASED = os.path.join(TOP, "dist", "safebound_cli")


def program() -> str | None:
    """The path of the proved program, or None. The variable SAFEBOUND_PROGRAM overrides it.

    The program of the release is the last choice, since it may be older than the other files of the repository.
    """
    found = named()
    candidates = [found] if found else [BUILT, INSTALLED, *([RELEASED] if is_for_releases() else [])]
    return next((os.path.abspath(path) for path in candidates if os.path.isfile(path)), None)


def named() -> str | None:
    """The program that the user names, or None."""
    return os.environ.get("SAFEBOUND_PROGRAM")


def is_for_releases() -> bool:
    """Whether releases are built for this kind of machine."""
    return (platform.system(), platform.machine()) == ("Linux", "x86_64")


def release() -> dict[str, str]:
    """The entries of dist/RELEASE, by their first words: the version, the commit and what built it."""
    with open(RELEASE, encoding="utf-8") as f:
        return dict(line.rstrip("\n").split(" ", 1) for line in f)


def page(name: str) -> str:
    """The path of a page of docs/."""
    return first(os.path.join(TOP, "docs", name), os.path.join(SHARED, name))


def example() -> str:
    """The folder of the example that `safebound new` copies."""
    return first(os.path.join(TOP, "examples", "trips"), os.path.join(SHARED, "examples", "trips"))


def first(*paths: str) -> str:
    return next((path for path in paths if os.path.exists(path)), paths[0])
