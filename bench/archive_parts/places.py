"""Paths: of files in the repository, and of the folder for everything that is fetched and made."""

from __future__ import annotations

import os

ROOT = os.path.dirname(os.path.dirname(os.path.dirname(os.path.abspath(__file__))))
QUERIES = os.path.join(ROOT, "bench", "archive_queries")
MADE = os.path.join(ROOT, ".cache", "archive")
LISTS = os.path.join(MADE, "lists")
TABLES = os.path.join(MADE, "tables")
WHOLE = os.path.join(MADE, "whole")
PROGRAM = os.path.abspath(
    os.environ.get("PROGRAM") or os.path.join(ROOT, "crates", "safebound_cli", "out", "safebound_cli")
)
