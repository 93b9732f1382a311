"""Answers one question over the tables, for `make archive`."""

from __future__ import annotations

import os
import shutil
import subprocess
import sys

from . import fetching, making, places

NAME = "same-name-in-bin-and-sbin"
PICTURE = os.path.join(places.MADE, "plan.svg")


def ask() -> int:
    """Runs the question and draws its plan. If the tables don't exist, makes them first. Returns the exit status."""
    if not making.is_made():
        fetching.fetch()
        print("the tables are made, which takes about a minute", file=sys.stderr, flush=True)
        making.make()
    question = os.path.join(places.QUERIES, "profile", NAME + ".sql")
    shutil.copy(question, places.TABLES)
    with open(question, encoding="utf-8") as f:
        print(f.read(), file=sys.stderr, flush=True)
    words = ["schema.sql", NAME + ".sql", "--reduce"]
    run = [os.path.join(places.ROOT, "tools", "run"), places.TABLES, "run", *words]
    program = os.path.join(places.ROOT, "bin", "safebound")
    picture = [program, "picture", *words, "--data", places.TABLES, "--output", PICTURE]
    return subprocess.run(run).returncode or subprocess.run(picture).returncode
