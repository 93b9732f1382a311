"""The program that tests run."""

from __future__ import annotations

import os
import subprocess

ROOT = os.path.dirname(os.path.dirname(os.path.abspath(__file__)))


def chosen_program() -> str:
    """The program that PROGRAM names, or what was built here, or else the release's."""
    words = [os.path.join(ROOT, "tools", "built"), "program", os.environ.get("PROGRAM", "")]
    program = subprocess.run(words, stdout=subprocess.PIPE, text=True, check=True).stdout.strip()
    if not os.path.isfile(program):
        raise AssertionError(f"no program {program}: make build")
    return program
