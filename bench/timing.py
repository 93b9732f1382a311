"""Processor time of a process, and how spread out many measurements are, for scripts that measure."""

from __future__ import annotations

import statistics
from typing import Iterable


def processor_time(pid: int) -> float:
    """Seconds that a process has run on processors."""
    with open(f"/proc/{pid}/schedstat", encoding="ascii") as told:
        return int(told.read().split()[0]) / 1e9


def spread_of(values: Iterable[float]) -> str:
    """Median, 90th percentile and the greatest. Fewer than two values are printed as they are."""
    found = list(values)
    if len(found) < 2:
        return ", ".join(f"{value:.3g}" for value in found) or "none"
    ninth = statistics.quantiles(found, n=10, method="inclusive")[-1]
    return f"{statistics.median(found):.3g}, {ninth:.3g}, {max(found):.3g}"
