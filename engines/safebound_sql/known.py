"""Words of SQL whose meaning is known without asking an engine."""

from __future__ import annotations

# Words that give the time or the user. Two statements of one script may get different values.
CLOCK_WORDS = (
    "CURRENT_DATE", "CURRENT_TIME", "CURRENT_TIMESTAMP", "CURRENT_DATETIME", "LOCALTIME", "LOCALTIMESTAMP",
    "CURRENT_USER", "CURRENT_ROLE", "CURRENT_CATALOG", "CURRENT_SCHEMA", "CURRENT_TIMEZONE", "SESSION_USER", "SYSDATE",
)

# Words that are never a column's name.
PLAIN = frozenset(
    "SELECT DISTINCT ALL FROM JOIN INNER CROSS ON USING WHERE GROUP BY HAVING ORDER ASC DESC AS AND OR NOT IN IS NULL"
    " TRUE FALSE LIKE ILIKE ESCAPE BETWEEN EXISTS CASE WHEN THEN ELSE END CAST".split()
)

_TYPES = "decimal numeric number varchar char character string text bignumeric timestamp time date"
_FRAME = "over filter within any some partition set sets rollup cube grouping interval rows range"
_NUMBERS = (
    "abs ceil ceiling floor round truncate trunc sign sqrt cbrt power pow exp ln log log10 log2 mod greatest least div"
)
_CHOICES = "coalesce nullif ifnull nvl nvl2 zeroifnull if iff isnull cast try_cast safe_cast"
_TEXTS = (
    "lower upper trim ltrim rtrim btrim length len char_length character_length substring substr replace concat"
    " concat_ws strpos position instr locate left right lpad rpad reverse split_part starts_with startswith ends_with"
    " endswith contains regexp_like regexp_replace regexp_extract regexp_contains regexp_matches rlike like translate"
    " initcap ascii chr repeat md5 sha256"
)
_TIMES = (
    "year month day quarter week hour minute second dayofweek dayofyear day_of_week day_of_year extract date_trunc"
    " date_part datediff date_diff dateadd date_add date_sub add_months months_between last_day to_date to_char"
    " format_date parse_date"
)
_AGGREGATES = (
    "count sum min max avg stddev stddev_pop stddev_samp variance var_pop var_samp corr covar_pop covar_samp count_if"
    " countif bool_and bool_or every median approx_distinct approx_count_distinct row_number rank dense_rank ntile lag"
    " lead first_value last_value percent_rank cume_dist"
)

# Words before a parenthesis whose result is the same at each call, in each dialect that has them.
CALLED = frozenset(
    " ".join((_TYPES, _FRAME, _NUMBERS, _CHOICES, _TEXTS, _TIMES, _AGGREGATES)).split()
    + [word.lower() for word in PLAIN]
)
