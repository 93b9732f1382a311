"""A PostgreSQL with the extension. The machine's own PostgreSQL is unchanged: its programs are copied into a folder,
and the rest is linked there.

PostgreSQL finds its folders relative to its program, so a copy of the program has its own extensions.
"""

from __future__ import annotations

import importlib.util
import os
import shutil
import subprocess
import sys
import tempfile

HERE = os.path.dirname(os.path.abspath(__file__))
sys.path[:0] = [os.path.join(HERE, "..", "engines", "servers")]
from server import TemporaryServer, programs

__all__ = ("SETTINGS", "SKIPPED", "TemporaryServer", "Installed", "copy_server", "missing", "programs")

# The exit status of tests that can't run here.
SKIPPED = 77
PACKAGES = "postgresql-15 postgresql-server-dev-15 python3-psycopg"
NEEDS = f"needs PostgreSQL 15, its headers and psycopg: apt-get install {PACKAGES}"
# Settings of a test server: plans don't depend on the compiler, and each session loads the extension.
SETTINGS = ("session_preload_libraries=safebound", "jit=off")


def pg_config(word: str) -> str:
    return subprocess.run(["pg_config", word], check=True, text=True, stdout=subprocess.PIPE).stdout.strip()


def missing() -> str | None:
    """What tests need and isn't installed, with its packages; None if all is."""
    if not shutil.which("pg_config") or not importlib.util.find_spec("psycopg"):
        return NEEDS
    if not pg_config("--version").startswith("PostgreSQL 15"):
        return f"{NEEDS} ({pg_config('--version')} is here)"
    headers, folder = pg_config("--includedir-server"), pg_config("--bindir")
    if not os.path.exists(os.path.join(headers, "postgres.h")) or not os.path.exists(os.path.join(folder, "initdb")):
        return NEEDS
    return None


def link_all(source: str, into: str) -> None:
    os.makedirs(into, exist_ok=True)
    for name in os.listdir(source):
        os.symlink(os.path.join(source, name), os.path.join(into, name))


def copy_server(root: str) -> str:
    """Copies the server's programs below `root`, and links all else there. Returns the folder of the copied programs.
    """
    folder = root + pg_config("--bindir")
    shutil.copytree(pg_config("--bindir"), folder)
    headers = pg_config("--includedir")
    os.makedirs(root + os.path.dirname(headers))
    os.symlink(headers, root + headers)
    link_all(pg_config("--pkglibdir"), root + pg_config("--pkglibdir"))
    link_all(pg_config("--sharedir"), root + pg_config("--sharedir"))
    extensions = os.path.join(root + pg_config("--sharedir"), "extension")
    os.remove(extensions)
    link_all(os.path.join(pg_config("--sharedir"), "extension"), extensions)
    return folder


def install() -> None:
    """Builds the extension, and installs it into the server whose pg_config comes first on the PATH."""
    for target in ("all", "install"):
        subprocess.run(["make", "-s", "-C", HERE, target], check=True)


class Installed(TemporaryServer):
    """A server with the extension for a `with`. It starts on entering, and is removed on leaving."""

    def __init__(self, settings: tuple[str, ...] = ()) -> None:
        self.root = tempfile.mkdtemp(prefix="safebound-installed-")
        os.chmod(self.root, 0o755)
        os.environ["PATH"] = copy_server(self.root) + os.pathsep + os.environ["PATH"]
        install()
        super().__init__(SETTINGS + settings)

    def __exit__(self, *raised: object) -> None:
        try:
            super().__exit__(*raised)
        finally:
            shutil.rmtree(self.root, ignore_errors=True)
