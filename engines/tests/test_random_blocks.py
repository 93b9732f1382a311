"""Random queries of several blocks on both engines: the rows by column are those of the query, no level of a block has
more rows than its bound, and the budget holds the joins and the rows that come out.
"""

from __future__ import annotations

import os
import time
import unittest
from typing import Any

from bases import COUNTED, OnEachEngine, on_postgres
from blocks_check import Answer, answer_of, checked
from random_blocks import RandomBlocks
from random_queries import in_tens

BLOCKS = int(os.environ.get("SAFEBOUND_SQL_BLOCKS", "20"))
# A query with more rows, or one that takes longer, isn't asked.
MOST_ROWS, SECONDS = 3000, 1.0


def taken(base: Any, randomly: RandomBlocks) -> tuple[str, Answer]:
    """The next query that the engine takes, and its answer."""
    while True:
        text = randomly.query()
        try:
            true = limited(base, text)
        except Exception:
            COUNTED[f"queries of several blocks on {base.engine} that the engine itself refuses"] += 1
            continue
        if true.rows.total() <= MOST_ROWS:
            return text, true


def limited(base: Any, text: str) -> Answer:
    """The engine's answer, if it doesn't take too long."""
    if base.engine == "postgres":
        base.connection.execute(f"SET jit = off; SET statement_timeout = {int(SECONDS * 1000)}")
        return answer_of(base, text)
    end = time.monotonic() + SECONDS
    base.connection.set_progress_handler(lambda: time.monotonic() > end, 10_000)
    try:
        return answer_of(base, text)
    finally:
        base.connection.set_progress_handler(None, 0)


@in_tens(BLOCKS)
class RandomQueriesOfBlocks(OnEachEngine):
    def ask(self, numbers: range) -> None:
        head = f"queries of several blocks on {self.base.engine}"
        refused = 0
        for number in numbers:
            randomly = RandomBlocks(number, self.base.engine)
            if number == numbers[0]:
                randomly.lay(self.base)
            text, true = taken(self.base, randomly)
            with self.subTest(number=number, query=text):
                found = checked(self.base, text, true, run=number % 4 == 0)
                self.assertEqual(found.faults, [], text)
                COUNTED[head] += 1
                for what in randomly.has:
                    COUNTED[f"{head} with {what}"] += 1
                COUNTED[f"{head} that are partly not bounded"] += bool(found.unbounded)
                COUNTED[f"{head} that are refused"] += bool(found.refused)
                refused += bool(found.refused)
        self.assertLessEqual(refused, 6)


RandomQueriesOfBlocksOnPostgres = on_postgres(RandomQueriesOfBlocks)
if __name__ == "__main__":
    unittest.main()
