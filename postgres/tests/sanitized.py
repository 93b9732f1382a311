"""Runs the regression and isolation tests with the extension built for AddressSanitizer and for undefined behaviour.

    postgres/tests/sanitized.py

PostgreSQL itself isn't built that way. So faults are found in the extension's stack and globals, and in memory that the
extension or the library takes by malloc.
"""

from __future__ import annotations

import os
import shutil
import subprocess
import sys
import tempfile
from pathlib import Path

sys.dont_write_bytecode = True
HERE = Path(__file__).resolve().parent
ROOT = HERE.parents[1]
sys.path[:0] = [str(HERE.parent)]
from installed import SETTINGS, TemporaryServer, copy_server

FLAGS = "-fno-sanitize=alignment -fno-sanitize-recover=undefined"
# AddressSanitizer starts at the first malloc and looks for this function. If it is missing, AddressSanitizer asks the C
# library for the text of that error, which the C library translates. If that first malloc came from the translation
# code, its lock is released twice; the next thread to take it waits forever.
DEMANGLES_NOTHING = "char *swift_demangle(void) { return 0; }"


def libraries(root: str) -> str:
    """The libraries that have to be loaded before PostgreSQL."""
    words = ["gcc", "-print-file-name=libasan.so"]
    sanitizer = subprocess.run(words, check=True, text=True, stdout=subprocess.PIPE).stdout.strip()
    own = os.path.join(root, "demangles_nothing.so")
    compiling = ["gcc", "-shared", "-fPIC", "-x", "c", "-", "-o", own]
    subprocess.run(compiling, input=DEMANGLES_NOTHING, check=True, text=True)
    return f"{sanitizer}:{own}"


def starts(preload: dict[str, str]) -> bool:
    """Whether the program postgres runs under AddressSanitizer (`postgres -V`). It may hang in one of the machine's
    libraries, long before the extension is loaded.
    """
    try:
        done = subprocess.run(["postgres", "-V"], stdout=subprocess.DEVNULL, env={**os.environ, **preload}, timeout=60)
        return done.returncode == 0
    except subprocess.TimeoutExpired:
        return False


def main() -> int:
    with tempfile.TemporaryDirectory(prefix="safebound-sanitized-") as root:
        os.chmod(root, 0o755)
        os.environ["PATH"] = copy_server(root) + os.pathsep + os.environ["PATH"]
        for name in ("include", "dist", "library", "python", "tools"):
            os.symlink(ROOT / name, Path(root) / name)
        folder = Path(root) / "postgres"
        shutil.copytree(HERE.parent, folder, ignore=shutil.ignore_patterns("*.o", "*.so", "results"))
        preload = {"LD_PRELOAD": libraries(root), "ASAN_OPTIONS": "detect_leaks=0:abort_on_error=1"}
        whole = starts(preload)
        if not whole:
            print("PostgreSQL doesn't start under AddressSanitizer: only undefined behaviour is looked for", flush=True)
        options = f"COPT=-fsanitize={'address,' if whole else ''}undefined {FLAGS}"
        for target in ("all", "install"):
            subprocess.run(["make", "-s", "-C", str(folder), options, target], check=True)
        os.environ.update(preload if whole else {})
        with TemporaryServer(SETTINGS) as server:
            environment = {**os.environ, "PGHOST": server.folder, "PGUSER": "postgres", "LD_PRELOAD": ""}
            failed = subprocess.run(["make", "-s", "-C", str(folder), "installcheck"], env=environment).returncode
            with open(os.path.join(server.folder, "log"), encoding="utf-8", errors="replace") as log:
                found = [line for line in log if "Sanitizer" in line or "runtime error" in line]
    print("".join(found) or f"no {'fault of memory and no ' if whole else ''}undefined behaviour was seen")
    return 1 if failed or found else 0


if __name__ == "__main__":
    sys.exit(main())
