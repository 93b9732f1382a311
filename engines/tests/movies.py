"""A skewed schema of movies like that of the Join Order Benchmark, and queries of its form."""

from __future__ import annotations

import random

from safebound_sql.query import Row

SCHEMA = """
CREATE TABLE kind_type (id INTEGER PRIMARY KEY, kind VARCHAR(15) NOT NULL);
CREATE TABLE info_type (id INTEGER PRIMARY KEY, info VARCHAR(32) NOT NULL);
CREATE TABLE company_type (id INTEGER PRIMARY KEY, kind VARCHAR(32) NOT NULL);
CREATE TABLE company_name (id INTEGER PRIMARY KEY, name TEXT NOT NULL, country_code VARCHAR(6));
CREATE TABLE keyword (id INTEGER PRIMARY KEY, keyword TEXT NOT NULL);
CREATE TABLE name (id INTEGER PRIMARY KEY, name TEXT NOT NULL, gender VARCHAR(1));
CREATE TABLE title (id INTEGER PRIMARY KEY, title TEXT NOT NULL, kind_id INTEGER NOT NULL, production_year INTEGER);
CREATE TABLE movie_companies (movie_id INTEGER NOT NULL, company_id INTEGER NOT NULL, company_type_id INTEGER NOT
    NULL, note TEXT);
CREATE TABLE movie_info_idx (movie_id INTEGER NOT NULL, info_type_id INTEGER NOT NULL, info TEXT NOT NULL);
CREATE TABLE movie_keyword (movie_id INTEGER NOT NULL, keyword_id INTEGER NOT NULL);
CREATE TABLE cast_info (movie_id INTEGER NOT NULL, person_id INTEGER NOT NULL, note TEXT);
"""

NOTES = (
    None,
    "(co-production)", "(presents)", "(as Metro-Goldwyn-Mayer Pictures)", "(2006) (USA) (TV)", "(2013) (worldwide)",
)

QUERIES = {
    "five tables": """
SELECT MIN(mc.note) AS production_note, MIN(t.title) AS movie_title, MIN(t.production_year) AS movie_year
FROM company_type AS ct, info_type AS it, movie_companies AS mc, movie_info_idx AS mi_idx, title AS t
WHERE ct.kind = 'production companies' AND it.info = 'top 250 rank'
  AND mc.note NOT LIKE '%(as Metro-Goldwyn-Mayer Pictures)%'
  AND (mc.note LIKE '%(co-production)%' OR mc.note LIKE '%(presents)%')
  AND ct.id = mc.company_type_id AND t.id = mc.movie_id AND t.id = mi_idx.movie_id
  AND mc.movie_id = mi_idx.movie_id AND it.id = mi_idx.info_type_id""",
    "six tables": """
SELECT MIN(n.name) AS member_in_charnamed_movie, MIN(t.title)
FROM cast_info AS ci, company_name AS cn, keyword AS k, movie_companies AS mc, movie_keyword AS mk, name AS n, title
    AS t
WHERE cn.country_code = '[us]' AND k.keyword = 'character-name-in-title' AND n.name LIKE 'B%'
  AND n.id = ci.person_id AND ci.movie_id = t.id AND t.id = mk.movie_id AND mk.keyword_id = k.id
  AND t.id = mc.movie_id AND mc.company_id = cn.id AND ci.movie_id = mc.movie_id
  AND ci.movie_id = mk.movie_id AND mc.movie_id = mk.movie_id AND mc.note IS NOT NULL""",
    "eight tables": """
SELECT MIN(cn.name), MIN(mi.info), COUNT(*)
FROM company_name cn JOIN movie_companies mc ON mc.company_id = cn.id JOIN title t ON t.id = mc.movie_id
  JOIN kind_type kt ON kt.id = t.kind_id AND kt.kind IN ('movie', 'episode')
  JOIN movie_info_idx mi ON mi.movie_id = t.id JOIN info_type it ON it.id = mi.info_type_id AND it.info = 'rating'
  JOIN movie_keyword mk ON mk.movie_id = t.id JOIN keyword k ON k.id = mk.keyword_id
WHERE cn.country_code IS NOT NULL AND mi.info > '5.0' AND t.production_year BETWEEN 1990 AND 2010
  AND (k.keyword LIKE '%murder%' OR k.keyword LIKE '%name%') AND t.title <> cn.name""",
}


def rows() -> dict[str, list[Row]]:
    """The tables' rows. A few movies have most of the rows."""
    chosen = random.Random(52)

    def few(most: int) -> int:
        return int(most * chosen.random() ** 3) + 1

    tables: dict[str, list[Row]] = {
        "kind_type": [(1, "movie"), (2, "tv series"), (3, "episode")],
        "info_type": [(1, "rating"), (2, "votes"), (3, "top 250 rank")],
        "company_type": [(1, "distributors"), (2, "production companies")],
        "company_name": [
            (n, f"Company {n}", chosen.choice(("[us]", "[us]", "[de]", "[gb]", None))) for n in range(1, 61)
        ],
        "keyword": [(n, chosen.choice(("murder", "character-name-in-title", "love", "sequel"))) for n in range(1, 41)],
        "name": [(n, chosen.choice("ABCDE") + f"name {n}", chosen.choice(("m", "f", None))) for n in range(1, 201)],
        "title": [(n, f"Title {n}", few(3), chosen.choice((None, *range(1980, 2015)))) for n in range(1, 301)],
    }
    tables["movie_companies"] = [(few(300), few(60), chosen.choice((1, 2)), chosen.choice(NOTES)) for _ in range(600)]
    tables["movie_info_idx"] = [(few(300), chosen.choice((1, 2, 3)), f"{chosen.random() * 10:.1f}") for _ in range(500)]
    tables["movie_keyword"] = [(few(300), few(40)) for _ in range(500)]
    tables["cast_info"] = [(few(300), few(200), chosen.choice(NOTES)) for _ in range(800)]
    return tables
