"""tools/reading-list and tools/check-docs read the imports of specs/ in two ways. Each fault of one is noticed by the
other. A copy of the sources is changed, and `check-docs --reading` has to fail on it."""

import os
import shutil
import subprocess
import tempfile
import unittest

ROOT = os.path.dirname(os.path.dirname(os.path.abspath(__file__)))
TOOLS = ("reading-list", "check-docs")
STANDS = "crates/tree_bounds/specs/SetBounds.antt"
DROPPED = "tree_bounds.specs.SetBounds.bound_of_set"


class ReadingTest(unittest.TestCase):
    def setUp(self) -> None:
        self.folder = self.enterContext(tempfile.TemporaryDirectory())
        words = ["git", "ls-files", "-co", "--exclude-standard", "crates"]
        listed = subprocess.run(words, cwd=ROOT, check=True, capture_output=True, text=True).stdout
        kept = (path for path in listed.splitlines() if "/specs/" in path or path.endswith(".rt"))
        tools = (f"tools/{tool}" for tool in TOOLS)
        for path in [*kept, *tools, "crates.txt", "docs/USING.md"]:
            if os.path.isfile(os.path.join(ROOT, path)):
                os.makedirs(os.path.join(self.folder, os.path.dirname(path)), exist_ok=True)
                shutil.copy2(os.path.join(ROOT, path), os.path.join(self.folder, path))

    def change(self, path: str, old: str, new: str) -> None:
        at = os.path.join(self.folder, path)
        with open(at, encoding="utf-8") as f:
            text = f.read()
        self.assertEqual(text.count(old), 1, f"{path}: {old}")
        with open(at, "w", encoding="utf-8") as f:
            f.write(text.replace(old, new))

    def add(self, line: str) -> None:
        at = os.path.join(self.folder, STANDS)
        with open(at, "a", encoding="utf-8") as f:
            f.write(line + "\n")

    def said(self) -> str:
        """What the check prints. It is empty where the check passes."""
        tool = os.path.join(self.folder, "tools", "check-docs")
        done = subprocess.run([tool, "--reading"], capture_output=True, text=True, timeout=120)
        return done.stdout + done.stderr if done.returncode else ""

    def test_the_sources_as_they_are(self) -> None:
        self.assertEqual(self.said(), "")

    def test_the_list_drops_one_import(self) -> None:
        self.change("tools/reading-list", "for path in paths:", f'for path in [p for p in paths if p != "{DROPPED}"]:')
        self.assertIn("one of two readers", self.said())

    def test_the_list_follows_no_module_that_is_handed_on(self) -> None:
        self.change("tools/reading-list", "        if onward:\n", "        if False:\n")
        self.assertIn("counted_planning.specs.Bounds", self.said())

    def test_the_second_reader_drops_one_import(self) -> None:
        taken = "for path in names_of(text[begin:end]).values()"
        self.change("tools/check-docs", f"{taken}]", f'{taken} if path != "{DROPPED}"]')
        self.assertIn("one of two readers", self.said())

    def test_the_second_reader_knows_no_renamed_names(self) -> None:
        parted = 'taken, _, renamed = item.strip().partition(" as ")'
        self.change("tools/check-docs", parted, 'taken, renamed = item.strip(), ""')
        known = 'if front in self.files and not front.endswith(".specs"):'
        self.change("tools/check-docs", known, "if front == path and front in self.files:")
        self.assertIn("by a second reader", self.said())

    def test_the_list_counts_a_line_too_few(self) -> None:
        self.change("tools/reading-list", "return found, sum(1", "return found, -1 + sum(1")
        self.assertIn("by a second reader", self.said())

    def test_an_import_that_leads_nowhere(self) -> None:
        self.add("use Rattle.tree_bounds.specs.Nowhere.{bound}")
        self.assertIn("tree_bounds.specs.Nowhere", self.said())

    def test_an_import_of_a_library_that_nobody_lists(self) -> None:
        self.add("use Rattle.nowhere.specs.Bounds.{bound}")
        self.assertIn("nowhere.specs.Bounds", self.said())

    def test_a_definition_that_names_a_proof(self) -> None:
        self.add("use Rattle.stats_lines.proofs.Results.{result_allowed}")
        self.assertIn("a file of proofs/", self.said())

    def test_another_total_on_the_page(self) -> None:
        words = [os.path.join(ROOT, "tools", "reading-list"), "headline"]
        text = subprocess.run(words, check=True, capture_output=True, text=True).stdout
        total = text.splitlines()[-1]
        self.change("docs/USING.md", total, total.replace("files", "file"))
        self.assertIn(total, self.said())


if __name__ == "__main__":
    unittest.main()
