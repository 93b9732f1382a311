"""Ctrl-C and SIGTERM. Both end a running statement on the engine, and then the command."""

from __future__ import annotations

import signal
from types import FrameType

_first_signal: list[int] = []


def install_handlers() -> None:
    """Makes both signals raise KeyboardInterrupt from now on. `first_signal` then says which signal came."""
    for number in (signal.SIGINT, signal.SIGTERM):
        signal.signal(number, _on_signal)


def _on_signal(number: int, _frame: FrameType | None) -> None:
    _first_signal.append(number)
    raise KeyboardInterrupt


def first_signal() -> int | None:
    """The signal that came first. It is known even if an engine's library took the interruption for an error of its
    own.
    """
    return _first_signal[0] if _first_signal else None
