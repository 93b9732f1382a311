"""Builds the package safebound_sql as a wheel (the build backend of pyproject.toml), with nothing but Python.

It has the version of the library, which it needs. All packages of a release have one version, from python/safebound.
"""

from __future__ import annotations

import os
import sys
from typing import Any

HERE = os.path.dirname(os.path.abspath(__file__))
sys.path[:0] = [os.path.join(HERE, "..", "python")]
from build_safebound import VERSION, sources, write

NAME = "safebound_sql"
METADATA = f"""\
Metadata-Version: 2.1
Name: safebound-sql
Version: {VERSION}
Summary: Row bounds for a query in PostgreSQL or SQLite, and its joins in the order that is best by them
License: Apache-2.0
License-File: LICENSE
Requires-Python: >=3.9
Requires-Dist: safebound == {VERSION}
Provides-Extra: postgres
Requires-Dist: psycopg >= 3.1; extra == "postgres"
Provides-Extra: dialects
Requires-Dist: sqlglot ~= 10.6; extra == "dialects"
Description-Content-Type: text/markdown

`safebound-sql` asks a database engine how often values repeat, plans a query by proved bounds, and writes it as SQL \
with its joins in that order. `safebound-sql --help` says how.
"""
COMMANDS = f"[console_scripts]\nsafebound-sql = {NAME}.command:main\n"
DESCRIBED = {"METADATA": METADATA.encode(), "entry_points.txt": COMMANDS.encode()}


def build_wheel(
    wheel_directory: str, config_settings: dict[str, Any] | None = None, metadata_directory: str | None = None
) -> str:
    return write(wheel_directory, NAME, sources(os.path.join(HERE, NAME)), DESCRIBED)


def build_editable(
    wheel_directory: str, config_settings: dict[str, Any] | None = None, metadata_directory: str | None = None
) -> str:
    """Installs a link to this folder instead of a copy."""
    return write(wheel_directory, NAME, {f"{NAME}.pth": f"{HERE}\n".encode()}, DESCRIBED)
