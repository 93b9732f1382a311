"""Runs the proved program, and leaves its words, streams and exit status unchanged."""
from __future__ import annotations

import os
import select
import signal
import subprocess
import sys
from typing import IO

from . import places

TICK = 0.25
NO_PROGRAM = """safebound: the proved program isn't here. In the repository, `make build` proves and builds it;
`make run DATA=FOLDER COMPILE=yes` tries a folder of yours within a minute, with nothing proved.
SAFEBOUND_PROGRAM names a program that lies elsewhere."""
NAMES_NOTHING = """safebound: SAFEBOUND_PROGRAM is {}, and there is no such file.
Name the program there, or take the variable away: unset SAFEBOUND_PROGRAM"""


def find_program() -> str:
    """The path of the program. Without a program the command ends. If it is the release's program, a terminal gets a
    message that says so.
    """
    path = places.program()
    if path is None:
        sys.exit(NAMES_NOTHING.format(places.named()) if places.named() else NO_PROGRAM)
    if path == places.RELEASED and is_terminal(2):
        from .told import is_news
        said = f"{release_name()[:1].upper()}{release_name()[1:]} runs. `make build` proves and builds one here.\n"
        say(said if is_news(said) else "")
    return path


def release_name() -> str:
    """How messages name the release's program."""
    told = places.release()
    return f"the program of release {told['version']} (dist/, built from commit {told['commit'][:12]})"


def replace_process(path: str, words: list[str]) -> None:
    """Replaces this process by the program. Signals that Python ignores get their default actions back."""
    for name in (signal.SIGPIPE, signal.SIGXFSZ):
        signal.signal(name, signal.SIG_DFL)
    try:
        os.execv(path, [path, *words])
    except OSError as fault:
        sys.exit(f"safebound: {path} can't be run: {fault.strerror}")


def answer(
    path: str, words: list[str], folder: str | None = None, seconds: int | None = None
) -> tuple[int, bytes, bytes]:
    """Runs the program without showing the user anything. Returns its exit status, standard output and standard error.
    """
    try:
        done = subprocess.run(
            [path, *words], cwd=folder, stdin=subprocess.DEVNULL, capture_output=True, timeout=seconds
        )
    except OSError as fault:
        sys.exit(f"safebound: {path} can't be run: {fault.strerror}")
    return done.returncode, done.stdout, done.stderr


class Relay:
    """Copies bytes from a stream of the program to one of our own streams, until a write fails."""

    def __init__(self, stream: IO[bytes], to: int) -> None:
        self.stream, self.to, self.is_open = stream, to, True
        self.kept: list[bytes] = []
        os.set_blocking(stream.fileno(), False)

    def hand_on(self) -> None:
        """Copies the bytes that have come so far."""
        while self.is_open:
            try:
                part = os.read(self.stream.fileno(), 65536)
            except BlockingIOError:
                return
            if not part or not self.write(part):
                self.is_open = False
                self.stream.close()

    def write(self, part: bytes) -> bool:
        if self.to == 2:
            self.kept.append(part)
        try:
            while part:
                part = part[os.write(self.to, part):]
        except OSError:
            # Our stream is gone, as when a terminal closes. The program's pipe is then closed too if it is standard
            # output. Standard error is still read, since a fault is reported there.
            return self.to == 2
        return True


def run_and_read(path: str, words: list[str]) -> tuple[int, bytes]:
    """Runs the program on our streams. Returns its exit status, which is negative after a signal, and its standard
    error.

    If standard output is a terminal, rows pass through this process too. Otherwise rows could appear before the plan,
    though the program writes the plan first.
    """
    from .progress import Progress
    rows = subprocess.PIPE if is_terminal(1) else None
    for name in (signal.SIGINT, signal.SIGTERM, signal.SIGHUP):
        signal.signal(name, lambda *_: None)
    try:
        child = subprocess.Popen([path, *words], stdout=rows, stderr=subprocess.PIPE)
    except OSError as fault:
        sys.exit(f"safebound: {path} can't be run: {fault.strerror}")
    for name in (signal.SIGTERM, signal.SIGHUP):
        signal.signal(name, lambda number, _: child.send_signal(number))
    assert child.stderr
    notes = Relay(child.stderr, 2)
    relays = [notes] + ([Relay(child.stdout, 1)] if child.stdout else [])
    progress = Progress(child.pid, words) if is_terminal(2) else None
    while any(relay.is_open for relay in relays):
        ready, _, _ = select.select([r.stream for r in relays if r.is_open], [], [], TICK if progress else None)
        if progress:
            progress.clear() if ready else progress.show(sum(map(len, notes.kept)), rows is not None)
        # Standard error goes first: whatever the program wrote there before these rows has arrived by now. If no stream
        # was ready, nothing is copied before the line of progress is cleared.
        for relay in relays if ready else []:
            if relay is notes or relay.stream in ready:
                relay.hand_on()
    return child.wait(), b"".join(notes.kept)


def end_as(status: int) -> int:
    """Returns the status. If a signal ended the program, this process ends by the same signal."""
    if status < 0:
        if -status not in (signal.SIGKILL, signal.SIGSTOP):
            signal.signal(-status, signal.SIG_DFL)
        os.kill(os.getpid(), -status)
    return status


def is_terminal(number: int) -> bool:
    try:
        return os.isatty(number)
    except OSError:
        return False


def say(text: str) -> None:
    """Writes a text on standard error, whatever characters it has."""
    write(2, text)


def write(number: int, text: str) -> None:
    data = text.encode("utf-8", "surrogateescape")
    try:
        while data:
            data = data[os.write(number, data):]
    except OSError:
        pass
