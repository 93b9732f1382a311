"""Tests random queries on both engines: no level exceeds its bound, and the planned SQL returns the rows of the query.
"""

from __future__ import annotations

import unittest

import random_outputs
from bases import COUNTED, OnEachEngine, on_postgres
from random_outputs import QueriesOfNamedOutputs
from random_queries import NAMED, QUERIES, Randomly, RandomQuery, in_tens
from safebound_sql.faults import Refused
from safebound_sql.levels import entries_of


class AnyQueries(OnEachEngine):
    """Methods for the tests of this file."""

    def ask(self, numbers: range) -> None:
        done = joined = 0
        for number in numbers:
            randomly = Randomly(number, self.base.engine)
            if number == numbers[0]:
                self.doCleanups()
                randomly.lay(self.base)
            found = randomly.query()
            with self.subTest(number=number, query=found.text):
                joined += self.check(randomly, found)
                done += 1
        COUNTED[f"random queries answered on {self.base.engine}"] += done
        self.assertEqual(done, len(numbers))
        self.assertGreater(joined, len(numbers) // 4)

    def check(self, randomly: Randomly, found: RandomQuery) -> bool:
        """Checks one query. Returns whether bounds could use an equality."""
        choose = randomly.random.choice
        reduce, tree = choose((True, True, False)), choose((False, False, True))
        planner, plan = self.planned(found.text, reduce, choose((1, 1, 8, 64)), tree)
        true = self.never_under(planner, plan, found.text)
        self.same_rows(planner, plan, found.text)
        names = {name for name, _ in found.entries}
        self.assertEqual(true[-1], self.base.rows(found.count_of(names))[0][0])
        for level, rows in zip(plan.levels, true):
            some = {planner.query.entries[entry].name for entry in entries_of(level.shape)}
            plain = self.base.rows(found.count_of(some))[0][0]
            self.assertLessEqual(rows, plain)
            if not reduce:
                self.assertEqual(rows, plain)
        planner.engine.connection.close()
        return bool(planner.query.equalities)


@in_tens(QUERIES)
class RandomQueries(AnyQueries):
    """Joins and conditions of all kinds."""


@in_tens(NAMED)
class RandomOutputs(OnEachEngine):
    """Outputs named like columns, over USING, with ORDER BY. One query is planned for each number."""

    def ask(self, numbers: range) -> None:
        done = 0
        for number in numbers:
            randomly = QueriesOfNamedOutputs(number, self.base.engine)
            if number == numbers[0]:
                self.doCleanups()
                schema = randomly.schema()
                self.base.script(schema)
                for table in range(random_outputs.TABLES):
                    self.base.fill(f"u{table}", randomly.rows())
            text = self.taken(randomly, schema)
            with self.subTest(number=number, query=text):
                self.check(randomly, text)
                done += 1
        COUNTED[f"random outputs answered on {self.base.engine}"] += done
        self.assertEqual(done, len(numbers))

    def taken(self, randomly: QueriesOfNamedOutputs, schema: str) -> str:
        """The first query that has to be planned. The queries before it have to be refused."""
        while True:
            text = randomly.query()
            if not randomly.converts_both(schema):
                return text
            with self.assertRaisesRegex(Refused, "it merges .* write the equality with ON") as raised:
                self.planner_for(text)
            self.doCleanups()
            _, _, why = str(raised.exception).partition(": ")
            COUNTED[f"random outputs refused on {self.base.engine}: {why}"] += 1

    def check(self, randomly: QueriesOfNamedOutputs, text: str) -> None:
        choose = randomly.random.choice
        planner, plan = self.planned(text, choose((True, True, False)), choose((1, 8)), choose((False, False, True)))
        self.never_under(planner, plan, text)
        planner.engine.connection.keep_order()
        self.assertEqual(
            list(map(repr, planner.engine.connection.rows(planner.sql(plan)))), list(map(repr, self.base.rows(text))),
            planner.sql(plan),
        )
        planner.engine.connection.close()


RandomQueriesOnPostgres, RandomOutputsOnPostgres = on_postgres(RandomQueries), on_postgres(RandomOutputs)
if __name__ == "__main__":
    unittest.main()
