"""Runs safebound-sql as a process of its own."""

from __future__ import annotations

import os
import subprocess
from typing import Any

from bases import ROOT

# Tests of mutants set this variable to a changed copy of the program.
PROGRAM = os.environ.get("SAFEBOUND_SQL_PROGRAM", str(ROOT / "engines" / "safebound-sql"))


class Process:
    """For tests that have a `base`: runs a command on its database, with a query on standard input."""

    base: Any

    def tried(
        self, command: str, *words: str, text: str = "", db: str | None = None
    ) -> subprocess.CompletedProcess[str]:
        line = [PROGRAM, command, "--db", self.base.url if db is None else db, *words, "-"]
        return subprocess.run(line, input=text, text=True, capture_output=True, timeout=600)
