"""`error memory-limit BYTES`: how many bytes the buffers of the plan take."""
from __future__ import annotations

from typing import TYPE_CHECKING

from ..table import BUSHY, COUNT, KEYS, MEMORY
from ..words import option_of

if TYPE_CHECKING:
    from ..faults import Fault
    from . import Run


def explain(fault: Fault, run: Run) -> list[str]:
    limit = option_of(run.words, MEMORY.word)
    others = [option.word for option in (COUNT, BUSHY) if option.word not in run.words]
    if KEYS.word in run.words or run.stats_file is not None:
        others = [word for word in others if word != COUNT.word]
    first = (
        f"The buffers of the plan take {fault.found:,} bytes, and the limit is {int(limit or 0):,}. The least limit"
        f" is {MEMORY.word} {fault.found}."
    )
    return [
        first, "Conditions on single tables lower the bounds, and so the bytes."
        + (f" So may {' or '.join(others)}." if others else ""),
    ]
