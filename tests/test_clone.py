"""Tests a clone of this repository where nothing is built and the kit isn't installed: targets of make, what takes the
release, and sentences where something is missing.

    tests/run tests/test_clone.py

The clone has the files of this one as they are now, and a PATH without the kit.
"""

from __future__ import annotations

import atexit
import os
import re
import shutil
import subprocess
import tempfile
import unittest
from typing import Sequence

ROOT = os.path.dirname(os.path.dirname(os.path.abspath(__file__)))
NEEDS_KIT = ("test", "build", "library", "command", "release", "edits", "bench", "memory", "limits")
RELEASED = "of release"
TABLE = "import sqlite3; c = sqlite3.connect('t.db'); c.execute('CREATE TABLE a (x int)'); c.commit()"


def files_of_clone() -> list[str]:
    """The files of this repository that git knows, or would add, and that are still here."""
    words = ["git", "-C", ROOT, "ls-files", "-z", "--cached", "--others", "--exclude-standard"]
    try:
        told = subprocess.run(words, stdout=subprocess.PIPE, stderr=subprocess.PIPE, text=True, check=True).stdout
    except subprocess.CalledProcessError:
        raise unittest.SkipTest("needs a clone made by git") from None
    return [name for name in told.split("\0") if name and os.path.isfile(os.path.join(ROOT, name))]


class Bare:
    """A clone in a temporary folder."""

    def __init__(self) -> None:
        self.room = tempfile.mkdtemp(prefix="clone-")
        self.root = os.path.join(self.room, "clone")
        for name in files_of_clone():
            path = os.path.join(self.root, name)
            os.makedirs(os.path.dirname(path), exist_ok=True)
            shutil.copy2(os.path.join(ROOT, name), path)
        self.programs = os.path.join(self.room, "programs")
        os.mkdir(self.programs)
        for folder in ("/bin", "/usr/bin"):
            for name in os.listdir(folder):
                if name not in ("rt", "pip", "pip3") and not os.path.lexists(os.path.join(self.programs, name)):
                    os.symlink(os.path.join(folder, name), os.path.join(self.programs, name))

    def run(
        self, *words: str, folder: str = "", without: Sequence[str] = (), **variables: str
    ) -> tuple[int, str]:
        """The status and both streams of a command, which has no variables but a PATH and these. Programs in `without`
        aren't on the PATH.
        """
        path = self.programs
        if without:
            path = os.path.join(tempfile.mkdtemp(dir=self.room), "programs")
            shutil.copytree(self.programs, path, symlinks=True, ignore=shutil.ignore_patterns(*without))
        environment = {"PATH": path, "HOME": self.room, "PYTHONDONTWRITEBYTECODE": "1", **variables}
        done = subprocess.run(
            words, cwd=folder or self.root, env=environment, stdin=subprocess.DEVNULL, stdout=subprocess.PIPE,
            stderr=subprocess.STDOUT, text=True, timeout=300,
        )
        return done.returncode, done.stdout


class InClone(unittest.TestCase):
    """Tests in a clone of their own, which the processes of tests/run copy."""

    clone: Bare
    apart = True

    def passes(self, *words: str, folder: str = "", without: Sequence[str] = (), **variables: str) -> str:
        status, said = self.clone.run(*words, folder=folder, without=without, **variables)
        self.assertEqual(status, 0, said)
        return said

    def room(self) -> str:
        return tempfile.mkdtemp(dir=self.clone.room)


def setUpModule() -> None:
    if not hasattr(InClone, "clone"):
        InClone.clone = Bare()
        atexit.register(shutil.rmtree, InClone.clone.room)


class Targets(InClone):
    def test_targets_that_need_the_kit_say_so_in_one_line(self) -> None:
        for target in NEEDS_KIT:
            status, said = self.clone.run("make", target)
            self.assertNotEqual(status, 0, target)
            self.assertEqual(len(said.splitlines()), 1, said)
            for words in ("needs the Rattle kit", "make checks"):
                self.assertIn(words, said)

    def test_tools_that_need_the_kit_say_so_in_one_line(self) -> None:
        for words in (["tools/build"], ["tools/build", "safebound_c"], ["tools/edits", "plans"], [".ci/run"]):
            status, said = self.clone.run(*words)
            self.assertEqual((status, len(said.splitlines())), (1, 1), said)
            self.assertIn(f"{words[0]} needs the Rattle kit", said)

    def test_the_list_marks_targets_that_need_the_kit(self) -> None:
        before, _, behind = self.passes("make").partition("These need the Rattle kit")
        for target in NEEDS_KIT:
            self.assertIn(f"\nmake {target} ", behind)
        for target in ("checks", "run", "install", "deb", "engines", "postgres"):
            self.assertIn(f"make {target} ", before)

    def test_install_takes_the_release_and_says_so(self) -> None:
        into = self.room()
        said = self.passes("make", "install", f"DESTDIR={into}", "PREFIX=/usr")
        self.assertIn(f"the program: dist/safebound_cli {RELEASED}", said)
        self.assertIn(f"the library: dist/libsafebound.a {RELEASED}", said)
        with open(os.path.join(self.clone.root, "dist", "safebound_cli"), "rb") as released:
            with open(os.path.join(into, "usr", "bin", "safebound_cli"), "rb") as laid:
                self.assertEqual(laid.read(), released.read())
        for name in ("libsafebound.a", "libsafebound_command.so"):
            self.assertTrue(os.path.exists(os.path.join(into, "usr", "lib", name)), name)

    def test_what_is_built_goes_before_the_release(self) -> None:
        built = os.path.join(self.room(), "clone")
        shutil.copytree(self.clone.root, built, ignore=shutil.ignore_patterns("crates", "cases", "docs", "bench"))
        os.makedirs(os.path.join(built, "crates", "safebound_cli", "out"))
        os.makedirs(os.path.join(built, "library", "out"))
        for name, into in (
            ("safebound_cli", "crates/safebound_cli/out"), ("libsafebound.a", "library/out"),
            ("libsafebound.so", "library/out"),
        ):
            shutil.copy(os.path.join(built, "dist", name), os.path.join(built, into))
        # The built one is taken even if it is older.
        os.utime(os.path.join(built, "crates", "safebound_cli", "out", "safebound_cli"), (1, 1))
        said = self.passes("tools/built", "--say", folder=built)
        self.assertIn("the program: crates/safebound_cli/out/safebound_cli, built here", said)
        self.assertIn("the library: library/out/libsafebound.a, built here", said)
        self.assertIn(f"the library of the whole program: dist/libsafebound_command.a {RELEASED}", said)
        said = self.passes("python3", "-c", "import safebound; print(safebound.path())", PYTHONPATH=f"{built}/python")
        self.assertEqual(said, f"{built}/library/out/libsafebound.so\n")

    def test_a_relative_library_begins_where_one_stands(self) -> None:
        stands, into = self.room(), self.room()
        shutil.copytree(os.path.join(self.clone.root, "dist"), os.path.join(stands, "own"))
        words = ["make", "-s", "-C", self.clone.root, "install", f"DESTDIR={into}"]
        words += ["LIBRARY=own", "PROGRAM=own/safebound_cli"]
        said = self.passes(*words, folder=stands, PWD=stands)
        self.assertNotIn(RELEASED, said)
        self.assertTrue(os.path.exists(os.path.join(into, "usr", "local", "lib", "libsafebound.so")))


class Libraries(InClone):
    def test_python_finds_the_release(self) -> None:
        script = "import safebound; print(safebound.path()); print(safebound.run([], {}).status)"
        said = self.passes("python3", "-c", script, PYTHONPATH="python")
        self.assertEqual(said, f"{self.clone.root}/dist/libsafebound.so.0\n2\n")

    def test_a_variable_that_names_nothing_gives_one_sentence(self) -> None:
        script = "import safebound\ntry: safebound.version()\nexcept safebound.LibraryNotFound as error: print(error)"
        for named, says in (
            ("/nowhere/libsafebound.so", "which is no file: name libsafebound.so by it, or unset it"),
            (self.clone.root, "which is no file: name libsafebound.so by it, or unset it"),
            (f"{self.clone.root}/README.md", "can't be loaded ("),
        ):
            said = self.passes("python3", "-c", script, PYTHONPATH="python", SAFEBOUND_LIBRARY=named)
            self.assertEqual(len(said.splitlines()), 1, said)
            self.assertIn(named, said)
            self.assertIn(says, said)
            self.assertIn("SAFEBOUND_LIBRARY", said)

    def test_a_library_that_is_nowhere_gives_one_sentence(self) -> None:
        alone = self.room()
        shutil.copytree(os.path.join(self.clone.root, "python", "safebound"), os.path.join(alone, "safebound"))
        script = "import safebound\ntry: safebound.version()\nexcept safebound.LibraryNotFound as error: print(error)"
        said = self.passes("python3", "-c", script, PYTHONPATH=alone)
        self.assertEqual(len(said.splitlines()), 1, said)
        self.assertIn("there is no libsafebound.so: install SafeBound's libraries", said)
        self.assertIn("make library", said)

    def test_the_examples_run_with_the_release(self) -> None:
        self.assertIn(" passed, 0 failed", self.passes("examples/check"))
        if shutil.which("cc", path=self.clone.programs):
            self.assertIn("stands there (c)", self.passes("examples/embed/check", "--c"))

    def test_safebound_sql_plans_with_the_release(self) -> None:
        folder, program = self.room(), os.path.join(self.clone.root, "engines", "safebound-sql")
        self.passes("/usr/bin/python3", "-c", TABLE, folder=folder)
        with open(os.path.join(folder, "query.sql"), "w") as f:
            f.write("SELECT a.x FROM a, a AS b WHERE a.x = b.x")
        words = [program, "plan", "--db", "sqlite:t.db", "query.sql"]
        said = self.passes(*words, folder=folder)
        self.assertIn("budget 0 would do", said)
        status, said = self.clone.run(*words, folder=folder, SAFEBOUND_LIBRARY="/nowhere.so")
        self.assertEqual((status, len(said.splitlines())), (13, 1), said)
        self.assertIn("SAFEBOUND_LIBRARY names /nowhere.so, which is no file", said)

    def test_the_extension_is_built_over_the_release(self) -> None:
        if not shutil.which("pg_config", path=self.clone.programs):
            raise unittest.SkipTest("needs apt-get install postgresql-server-dev-15")
        into, stands = self.room(), self.room()
        said = self.passes("make", "-s", "install", f"DESTDIR={into}", "PG_CONFIG=pg_config")
        self.assertIn("/safebound.control\n", said)
        shutil.copy(os.path.join(self.clone.root, "dist", "libsafebound.a"), os.path.join(stands, "own.a"))
        for at, library in ((self.clone.root, "dist/libsafebound.a"), (stands, "own.a")):
            words = ["make", "-n", "-C", os.path.join(self.clone.root, "postgres"), f"LIBRARY={library}"]
            self.assertIn(f" {at}/{library} ", self.passes(*words, folder=at, PWD=at))
        words = ["make", "-C", os.path.join(self.clone.root, "postgres"), "LIBRARY=/nowhere.a"]
        status, said = self.clone.run(*words)
        self.assertIn("there is no library /nowhere.a: make library builds one, and LIBRARY=FILE names another", said)


class Checks(InClone):
    def test_they_say_what_they_test_and_end_with_their_number(self) -> None:
        lines = self.passes("make", "-s", "checks", "PARTS=examples process numbers").splitlines()
        self.assertIn(f"the program: dist/safebound_cli {RELEASED}", lines[0])
        self.assertEqual(lines[-1], "3 passed, 0 failed")
        for part in ("examples", "process", "numbers"):
            self.assertTrue(any(re.match(rf"-- {part}: passed, [0-9.]+ s", line) for line in lines))

    def test_a_part_that_fails_gives_the_status(self) -> None:
        status, said = self.clone.run("tools/checks", "examples", "numbers", PROGRAM="/bin/true")
        self.assertNotEqual(status, 0)
        self.assertEqual(said.splitlines()[-1], "1 passed, 1 failed")

    def test_a_part_that_can_not_run_is_skipped_with_its_package(self) -> None:
        said = self.passes("tools/checks", "library-rust", "numbers", without=("cc",))
        self.assertIn("\nskipped library-rust: needs a C compiler: apt-get install gcc libc6-dev", said)
        self.assertEqual(said.splitlines()[-1], "1 passed, 0 failed, 1 skipped")

    def test_a_part_that_tests_nothing_is_not_green(self) -> None:
        said = self.passes("tools/checks", "python", "numbers", without=("pyflakes3", "pycodestyle", "mypy"))
        self.assertIn("\nskipped python: not checked by mypy, pycodestyle, pyflakes3: apt-get install", said)
        empty = self.room()
        status, said = self.clone.run("cases/run-cases", "--cases", empty, "dist/safebound_cli")
        self.assertEqual((status, said), (1, "0 passed, 0 failed\n"))

    def test_unknown_parts_are_named(self) -> None:
        status, said = self.clone.run("tools/checks", "none")
        self.assertEqual((status, said.partition(";")[0]), (1, "checks: there is no part none"))


if __name__ == "__main__":
    unittest.main()
