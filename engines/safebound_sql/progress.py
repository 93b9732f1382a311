"""Shows on a terminal what is being done, and for how long, on one line of standard error."""

from __future__ import annotations

import contextlib
import sys
import threading
import time
from typing import Callable, Iterator, TextIO


class Progress:
    """Shows the line while the work lasts. If the stream isn't a terminal, it writes nothing."""

    def __init__(self, stream: TextIO | None = None) -> None:
        self.stream = sys.stderr if stream is None else stream
        self.shown = self.stream.isatty()

    @contextlib.contextmanager
    def doing(self, what: str) -> Iterator[Callable[[], None]]:
        """Shows `what` and the seconds while the body of the `with` runs, then clears the line. The body gets a
        function that clears it earlier.
        """
        if not self.shown:
            yield lambda: None
            return
        finished = threading.Event()
        drawer = threading.Thread(target=self._draw, args=(what, finished), daemon=True)
        drawer.start()

        def end() -> None:
            finished.set()
            drawer.join()

        try:
            yield end
        finally:
            end()

    def _draw(self, what: str, finished: threading.Event) -> None:
        start = time.monotonic()
        while True:
            self.stream.write(f"\r\x1b[K{what}: {time.monotonic() - start:.0f} s")
            self.stream.flush()
            if finished.wait(0.5):
                break
        self.stream.write("\r\x1b[K")
        self.stream.flush()
