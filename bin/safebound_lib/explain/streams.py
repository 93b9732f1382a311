"""`error write ..` and `error memory`: failures of the streams, and memory or room that the system refused."""
from __future__ import annotations

import os
import stat
from typing import TYPE_CHECKING

if TYPE_CHECKING:
    from ..faults import Fault
    from . import Run


def explain(fault: Fault, run: Run) -> list[str]:
    if fault.kind == "memory":
        return [
            (
                "The system gave too little memory, before anything was printed. All memory is taken before the first"
                " row, from the bounds of the plan."
            ),
            (
                "`plan` tells the bounds without taking that memory. Lower bounds take less: ask more closely, give"
                " --count, --reduce, or --accuracy 8. A lower --budget refuses such a query at once."
            ),
        ]
    return [
        f"{why_failed(1 if fault.cause == 'out' else 2)} What was written until then is a beginning of the answer."
        " Nothing is wrong with the data."
    ]


def why_failed(number: int) -> str:
    try:
        mode = os.fstat(number).st_mode
    except OSError:
        return "That stream is closed."
    if stat.S_ISFIFO(mode) or stat.S_ISSOCK(mode):
        return "The reader has gone, as `head` does once it has its lines."
    return "A write failed: look whether the disk is full."
