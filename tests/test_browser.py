"""Looks at the pictures and pages of plans in Debian's chromium, without a screen. Nothing is cut, no number is on the
budget's line, and a click shows what a step joins.

    /usr/bin/python3 tests/run tests/test_browser.py

PROGRAM names the program; the default is the one that `make build` made here, or else the release's. SHOTS names a
folder for the screenshots, as PNG. The tests need Debian's chromium, chromium-driver and python3-selenium, which
Debian's own Python has; if one of these is missing, they are skipped.
"""

from __future__ import annotations

import os
import shutil
import subprocess
import tempfile
import unittest
from typing import Any

from program import chosen_program

ROOT = os.path.dirname(os.path.dirname(os.path.abspath(__file__)))
# The place of each text within its picture, in the picture's own units, and the places of the budget's line.
PLACES = """
const svg = document.querySelector('svg'), view = svg.viewBox.baseVal;
const boxes = [...svg.querySelectorAll('path[stroke-dasharray]')].map(p => p.getBBox());
const lines = boxes.filter(b => b.width > 100).map(b => b.y);
const texts = [...svg.querySelectorAll('text')].map(t => [t, t.getBBox()]);
return [view.width, view.height, lines, texts.map(([t, b]) => [t.textContent, b.x, b.y, b.width, b.height])];
"""
# Pictures: the example's folder, the words, and what the title says.
PICTURES = (
    ("films", "schema.sql query.sql", "no level has more than 1,304 rows"),
    ("films", "schema.sql query.sql --budget 1304", "no level has more than 1,304 rows"),
    ("films", "schema.sql query.sql --budget 1000", "is refused: its best order has a level of up to 1,304 rows"),
    ("films", "schema.sql one.sql", "no level has more than 600 rows"),
    ("films", "schema.sql one.sql --bushy", "no node has more than 600 rows"),
    ("branches", "schema.sql query.sql --bushy", "no node has more than 8,000 rows"),
    (
        "branches",
        "schema.sql query.sql --bushy --budget 7999",
        "is refused: its best join tree has a node of up to 8,000 rows",
    ),
)
ONE = "SELECT T.ID FROM TITLE T"
SHOTS = os.environ.get("SHOTS")


def want(is_so: object, what: object) -> None:
    """Fails with `what` unless `is_so` is true."""
    if not is_so:
        raise AssertionError(what)


def look_at_places(driver: Any) -> list[tuple[str, float, float, float, float]]:
    """Checks that all texts lie within the picture, and that no bar's number lies on the budget's line."""
    width, height, lines, found = driver.execute_script(PLACES)
    texts: list[tuple[str, float, float, float, float]] = found
    for words, x, y, wide, high in texts:
        want(x >= 0 and y >= 0 and x + wide <= width and y + high <= height, f"{words!r} is cut")
        numeral = words.replace(",", "").isdigit() and x > 100
        # A letter's box has space above and below; digits fill only about the middle of it.
        want(
            not any(numeral and y + high * 0.2 < line < y + high * 0.75 for line in lines),
            f"{words!r} stands on the budget's line",
        )
    return texts


def open_browser(room: str) -> Any:
    """The browser, or None if a part of it isn't installed."""
    try:
        from selenium import webdriver
        from selenium.common.exceptions import SessionNotCreatedException
        from selenium.webdriver.chrome.service import Service
    except ImportError:
        return None
    chromium, driver = shutil.which("chromium"), shutil.which("chromedriver")
    if not chromium or not driver:
        return None
    options = webdriver.ChromeOptions()
    options.binary_location = chromium
    for word in (
        "--headless=new",
        "--no-sandbox",
        "--disable-gpu",
        "--hide-scrollbars",
        "--window-size=1360,860",
        f"--user-data-dir={os.path.join(room, 'profile')}",
    ):
        options.add_argument(word)
    options.set_capability("goog:loggingPrefs", {"browser": "ALL"})
    for left in (2, 1, 0):
        # The driver gives a browser one minute to start, which may be too short on a busy machine.
        try:
            return webdriver.Chrome(service=Service(driver), options=options)
        except SessionNotCreatedException:
            if not left:
                raise
    return None


class Pictures(unittest.TestCase):
    """Pictures and pages of examples, in one browser."""

    driver: Any
    room: str
    environment: dict[str, str]

    @classmethod
    def setUpClass(cls) -> None:
        cls.environment = {**os.environ, "SAFEBOUND_PROGRAM": chosen_program()}
        cls.room = tempfile.mkdtemp(prefix="browser-")
        cls.addClassCleanup(shutil.rmtree, cls.room)
        cls.driver = open_browser(cls.room)
        if cls.driver is None:
            raise unittest.SkipTest("needs a browser: apt-get install chromium chromium-driver python3-selenium")
        cls.addClassCleanup(cls.driver.quit)

    def drawn(self, example: str, words: str, output: str) -> str:
        """The path of a picture or page of an example, opened in the browser."""
        folder = os.path.join(self.room, example)
        if not os.path.isdir(folder):
            shutil.copytree(os.path.join(ROOT, "examples", example), folder)
            with open(os.path.join(folder, "one.sql"), "w") as f:
                f.write(ONE)
        command = [os.path.join(ROOT, "bin", "safebound"), "picture", *words.split(), "--output", output]
        subprocess.run(command, cwd=folder, env=self.environment, capture_output=True)
        self.driver.get(f"file://{folder}/{output}")
        return os.path.join(folder, output)

    def keep(self, name: str) -> None:
        if SHOTS:
            self.driver.save_screenshot(os.path.join(SHOTS, name + ".png"))

    def test_pictures(self) -> None:
        for number, (example, words, title) in enumerate(PICTURES):
            self.drawn(example, words, "plan.svg")
            self.keep(f"picture-{number}")
            texts = look_at_places(self.driver)
            want(
                title in texts[0][0] or any(title in text[0] for text in texts),
                f"{example} {words}: no title {title!r}",
            )
            want(any("logarithmic" in text[0] for text in texts), "the scale isn't said")

    def test_a_click_shows_a_level(self) -> None:
        from selenium.webdriver.common.by import By
        path, driver = self.drawn("films", "schema.sql query.sql", "plan.html"), self.driver
        with open(path, encoding="utf-8") as f:
            text = f.read()
        want(
            "<script" not in text
            and "src=" not in text
            and text.count("http") == text.count("http://www.w3.org/2000/svg"),
            "the page asks for another file",
        )
        look_at_places(driver)
        parts = driver.find_elements(By.CSS_SELECTOR, "aside section")
        want(len(parts) == 10 and not any(part.is_displayed() for part in parts), "a part is shown before a click")
        driver.find_elements(By.CSS_SELECTOR, "svg a[href='#step-4']")[-1].click()
        seen = [part.text for part in parts if part.is_displayed()]
        want(
            len(seen) == 1 and "At most 1,304 rows, and there are 34." in seen[0] and "CI.TITLE = T.ID" in seen[0],
            f"a click on the bar of level 4 shows {seen}",
        )
        self.keep("page-level")
        driver.find_element(By.CSS_SELECTOR, ".tree a[href='#entry-3']").click()
        seen = [part.text for part in parts if part.is_displayed()]
        want(
            len(seen) == 1
            and "At most 900 rows" in seen[0]
            and "MC.COMPANY of all rows" in seen[0]
            and "MC.TITLE of all rows" in seen[0],
            f"a click on a scan of the tree shows {seen}",
        )
        self.keep("page-entry")
        want(not [line for line in driver.get_log("browser") if line["level"] == "SEVERE"], driver.get_log("browser"))

    def test_a_page_of_a_refused_tree(self) -> None:
        from selenium.webdriver.common.by import By
        self.drawn("branches", "schema.sql query.sql --bushy --budget 7999", "plan.html")
        self.driver.find_element(By.CSS_SELECTOR, ".tree a.past").click()
        seen = [
            part.text for part in self.driver.find_elements(By.CSS_SELECTOR, "aside section") if part.is_displayed()
        ]
        want(len(seen) == 1 and "past the budget of 7,999 rows" in seen[0] and "8,000" in seen[0], seen)
        self.keep("page-refused")


if __name__ == "__main__":
    unittest.main()
