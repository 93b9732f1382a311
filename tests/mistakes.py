"""Mistakes of people who type over the library of tests/library, the program's line for each, and the words that the
explanation must have.

Each kind of mistake has at least two variants. In a text, the sign § marks the place that the program's line has to
name; the sign is removed before the run.
"""

from __future__ import annotations

import gzip
from dataclasses import dataclass, field, replace
from typing import Mapping, Optional

BOOKS = "ID,TITLE,AUTHOR,GENRE,PRICE\r\n"
GENRES = "CREATE TABLE GENRE (ID INTEGER PRIMARY KEY, NAME VARCHAR(20) NOT NULL);\n"

Files = Mapping[str, Optional[bytes]]


@dataclass
class Mistake:
    """A mistake: files that replace those of the library (None: the file is missing), the words of the command line,
    the program's line, and words of the explanation.
    """

    line: str | None
    says: tuple[str, ...]
    files: Files = field(default_factory=dict)
    words: tuple[str, ...] = ("run", "schema.sql", "query.sql")


def placed(text: str) -> tuple[bytes, int]:
    """A text without its sign §, and the byte position of the sign."""
    before, _, behind = text.partition("§")
    return (before + behind).encode(), len(before.encode())


def line_and_column(text: str) -> str:
    before = text.partition("§")[0]
    return f"line {before.count(chr(10)) + 1}, column {len(before) - before.rfind(chr(10))}"


def query(text: str, cause: str, *says: str) -> Mistake:
    data, at = placed(text)
    return Mistake(f"error query {cause} {at}", ("query.sql, " + line_and_column(text), *says), {"query.sql": data})


def schema(text: str, cause: str, *says: str) -> Mistake:
    data, at = placed(text)
    return Mistake(f"error schema {cause} {at}", ("schema.sql, " + line_and_column(text), *says), {"schema.sql": data})


def table(name: str, text: str | bytes, line: str, *says: str) -> Mistake:
    return Mistake(f"error table {name} {line}", says, {name: text if isinstance(text, bytes) else text.encode()})


def books(records: str, line: str, *says: str) -> Mistake:
    return table("book.csv", BOOKS + records, line, *says)


def usage(words: str, *says: str) -> Mistake:
    return Mistake("error usage", says, words=tuple(words.split()))


def missing(
    file: str, says: tuple[str, ...], files: Files | None = None, words: str = "run schema.sql query.sql",
) -> Mistake:
    return Mistake(f"error read {file}", says, files or {}, tuple(words.split()))


COLUMNS = [
    query(
        "SELECT §R.NME FROM READER R", "name", "R (table READER) has no column NME", "ID, NAME and TOWN",
        "Did you mean NAME?", "^^^^^",
    ),
    query(
        "SELECT TITLE FROM BOOK\nWHERE §BOOK.PRISE < 5000", "name", "BOOK has no column PRISE",
        "ID, TITLE, AUTHOR, GENRE and PRICE", "Did you mean PRICE?",
    ),
    query(
        "SELECT §TITEL FROM BOOK B", "name", "No entry has a column TITEL", "Did you mean B.TITLE?",
        "B: ID, TITLE, AUTHOR, GENRE and PRICE",
    ),
    query(
        "SELECT TITLE FROM BOOK JOIN LOAN L ON §BOK.ID = L.BOOK", "name", "no entry BOK", "BOOK and L",
        "Did you mean BOOK?",
    ),
    query("SELECT §BOOK.TITLE FROM BOOK B", "name", "BOOK has the alias B", "B.TITLE"),
    query("SELECT §X.* FROM BOOK B", "name", "no entry X", "There are B"),
    query(
        "SELECT A.NAME FROM AUTHOR A, BOOK B JOIN GENRE G ON G.ID = B.GENRE AND §A.ID = B.AUTHOR", "name",
        "A can't be named in this ON", "WHERE",
    ),
]
SEVERAL = [
    query(
        "SELECT §NAME FROM AUTHOR A, READER R", "name", "NAME is a column of A (table AUTHOR) and R (table READER)",
        "A.NAME",
    ),
    query(
        "SELECT A.NAME FROM AUTHOR A, BOOK B WHERE A.ID = AUTHOR AND §ID > 2", "name",
        "ID is a column of A (table AUTHOR) and B (table BOOK)", "A.ID",
    ),
]
TABLES = [
    query(
        "SELECT * FROM §LOANS", "name", "no table LOANS", "AUTHOR, GENRE, BOOK, READER and LOAN", "Did you mean LOAN?",
    ),
    query("SELECT B.TITLE FROM BOOK B, §WRITER W", "name", "no table WRITER", "AUTHOR, GENRE, BOOK, READER and LOAN"),
    query('SELECT * FROM §"book"', "name", "no table book", "keeps its case", "BOOK"),
]
TWICE = [
    query("SELECT * FROM BOOK X, LOAN §X", "name", "X is the name of two entries", "alias"),
    query("SELECT * FROM BOOK, §BOOK", "name", "BOOK is the name of two entries", "BOOK A, BOOK B"),
]
COMMAS = [
    query(
        "SELECT R.NAME B§.TITLE FROM READER R, BOOK B", "syntax", "A point can't stand here behind B",
        "Is a comma missing before B?", "Here may stand",
    ),
    query(
        "SELECT R.NAME FROM READER R §LOAN L", "syntax", "LOAN can't stand here behind R",
        "Is a comma missing before LOAN?", "Here may stand", "WHERE",
    ),
    query("SELECT ID TITLE §PRICE FROM BOOK", "syntax", "Is a comma missing before PRICE?"),
    query("SELECT ID, TITLE, §FROM BOOK", "syntax", "comma too many"),
]
QUERIES = [
    query("SELECT * FROM BOOK;\n§SELECT * FROM LOAN;", "syntax", "one query", "a ; ends it"),
    query("SELECT NAME FROM READER WHERE ID = 1; §SELECT NAME FROM AUTHOR", "syntax", "one query", "a ; ends it"),
]
FUNCTIONS = [
    query("SELECT COUNT§(*) FROM BOOK", "syntax", "a call of COUNT", "Functions and aggregates aren't part", "audit"),
    query("SELECT MIN§(PRICE) FROM BOOK", "syntax", "a call of MIN", "Functions and aggregates aren't part"),
    query(
        "SELECT NAME FROM READER WHERE upper§(TOWN) = 'HAMAR'", "syntax", "a call of upper",
        "Functions and aggregates aren't part",
    ),
]
CLAUSES = [
    query("SELECT TITLE FROM BOOK §ORDER BY TITLE", "syntax", "ORDER BY isn't part", "sort"),
    query("SELECT TITLE FROM BOOK WHERE PRICE > 1 §order by PRICE", "syntax", "ORDER BY isn't part"),
    query("SELECT TITLE FROM BOOK §GROUP BY TITLE", "syntax", "GROUP BY isn't part"),
    query("SELECT TITLE FROM BOOK §HAVING PRICE > 1", "syntax", "HAVING isn't part"),
    query("SELECT §DISTINCT AUTHOR FROM BOOK", "syntax", "DISTINCT isn't part", "sort -u"),
    query("SELECT NAME FROM AUTHOR §UNION SELECT NAME FROM READER", "syntax", "UNION isn't part", "one SELECT"),
    query("SELECT NAME FROM AUTHOR §EXCEPT SELECT NAME FROM READER", "syntax", "EXCEPT isn't part"),
    query(
        "SELECT TITLE FROM BOOK LIMIT §10", "syntax", "LIMIT was read as an alias of BOOK", "LIMIT isn't part",
        "head -n 11",
    ),
    query("SELECT TITLE FROM BOOK B §LIMIT 10", "syntax", "LIMIT isn't part", "head -n 11"),
    query("SELECT TITLE FROM BOOK WHERE ID > 1 §LIMIT 1", "syntax", "LIMIT isn't part", "head -n 2"),
    query("§WITH X AS (SELECT * FROM BOOK) SELECT * FROM X", "syntax", "WITH isn't part"),
]
JOINS = [
    query(
        "SELECT * FROM BOOK B §LEFT JOIN LOAN L ON L.BOOK = B.ID", "syntax", "Outer joins aren't part",
        "JOIN .. ON and commas",
    ),
    query("SELECT * FROM BOOK B §RIGHT OUTER JOIN LOAN L ON L.BOOK = B.ID", "syntax", "Outer joins aren't part"),
    query("SELECT * FROM BOOK B §FULL JOIN LOAN L ON L.BOOK = B.ID", "syntax", "Outer joins aren't part"),
    query("SELECT * FROM BOOK §NATURAL JOIN LOAN", "syntax", "NATURAL JOIN isn't part", "ON B.X = A.X"),
    query("SELECT * FROM BOOK §CROSS JOIN LOAN", "syntax", "CROSS JOIN isn't part", "FROM A, B"),
    query("SELECT * FROM BOOK B JOIN LOAN L §USING (ID)", "syntax", "USING isn't part", "ON B.X = A.X"),
    query("SELECT * FROM BOOK B JOIN LOAN L§", "syntax", "The text ends here", "JOIN B ON B.X = A.X"),
]
WORDS = [
    query("SELECT * §FORM BOOK", "syntax", "Did you mean FROM?"),
    query("SELECT TITLE FORM §BOOK", "syntax", "FORM was read as a name", "Did you mean FROM?"),
    query("SELECT TITLE FROM BOOK WHRE §PRICE > 1", "syntax", "WHRE was read as a name", "Did you mean WHERE?"),
    query("SELECT TOP §10 TITLE FROM BOOK", "syntax", "TOP was read as a name", "head -n 11"),
    query("SELECT §ORDER FROM BOOK", "syntax", "ORDER is a reserved word"),
    query("SELECT TITLE FROM LIBRARY§.BOOK", "syntax", "A table has one name"),
    query(
        "SELECT TITLE FROM BOOK WHERE GENRE = 1 OR 2§", "syntax", "The text ends here", "whole comparison", "IN (1, 2)",
    ),
    query("SELECT TITLE FROM BOOK WHERE PRICE > 5§,000", "syntax", "digits alone: 5000"),
    query("SELECT TITLE FROM BOOK WHERE TITLE = 'Peer'Gynt§'", "syntax", "isn't closed", "written twice"),
    replace(
        query("SELECT TITLE FROM BOOK WHERE TITLE = gr§øde", "syntax"),
        says=("query.sql, line 1, column 38", "^^^^^", "other letters than A to Z", '"grøde"'),
    ),
    replace(
        query("SELECT B.T§ítle FROM BOOK B", "syntax"),
        says=("query.sql, line 1, column 10", "^^^^^", '"Títle"', "Did you mean TITLE?"),
    ),
    # The accent is a character of its own, behind the letter.
    replace(
        query("SELECT prise§\u0301 FROM BOOK", "syntax"),
        says=("query.sql, line 1, column 8", "other letters than A to Z", "Did you mean PRICE?"),
    ),
    query("SELECT TITLE FROM BOOK WHERE NOT §NOT ID = 1", "syntax", "one NOT", "NOT (NOT X = 1)"),
    query("SELECT TITLE FROM BOOK WHERE ID = 1 OR NOT §NOT (ID = 2)", "syntax", "one NOT", "leave both out"),
]
PREDICATES = [
    query("SELECT TITLE FROM BOOK WHERE TITLE §LIKE 'S%'", "syntax", "LIKE isn't part", ">="),
    query(
        "SELECT TITLE FROM BOOK WHERE TITLE NOT §LIKE 'S%'", "syntax", "LIKE isn't part",
        "(TITLE < 'S' OR TITLE >= 'T')",
    ),
    query("SELECT TITLE FROM BOOK WHERE TITLE §IS NULL", "syntax", "no nulls", "TITLE = ''"),
    query("SELECT TITLE FROM BOOK WHERE TITLE = §NULL", "syntax", "no nulls", "TITLE = ''"),
    query("SELECT TITLE FROM BOOK WHERE TITLE <> §NULL", "syntax", "no nulls", "TITLE <> ''"),
    query("SELECT BOOK FROM LOAN WHERE DAY IN (§CURRENT_DATE)", "syntax", "CURRENT_DATE isn't part of the language"),
    query(
        "SELECT TITLE FROM BOOK WHERE §EXISTS (SELECT * FROM LOAN)", "syntax", "EXISTS isn't part",
        "Subqueries aren't part",
    ),
    query("SELECT TITLE FROM BOOK WHERE ID IN (§SELECT BOOK FROM LOAN)", "syntax", "Subqueries aren't part"),
    query("SELECT TITLE FROM BOOK WHERE ID = §(SELECT BOOK FROM LOAN)", "syntax", "Subqueries aren't part"),
    query("SELECT TITLE FROM §(SELECT * FROM BOOK) B", "syntax", "Subqueries aren't part"),
]
SIGNS = [
    query("SELECT TITLE FROM BOOK WHERE ID §!= 3", "syntax", "<>"),
    query("SELECT TITLE FROM BOOK WHERE ID =§= 3", "syntax", "Equal is written with one ="),
    query("SELECT TITLE §/* all */ FROM BOOK", "syntax", "begins with --"),
    query("SELECT TITLE FROM BOOK §# all", "syntax", "begins with --"),
    query("SELECT §`TITLE` FROM BOOK", "syntax", "double quotes", "backticks"),
    query("SELECT §[TITLE] FROM BOOK", "syntax", "double quotes", "brackets"),
    query("SELECT TITLE FROM BOOK WHERE TITLE = §‘Sult’", "syntax", "quotes of a word processor"),
    query("SELECT TITLE FROM BOOK WHERE TITLE = §'Sult", "syntax", "isn't closed"),
    query("SELECT TITLE FROM BOOK WHERE ID = §?", "syntax", "no parameters"),
    query("SELECT TITLE §|| AUTHOR FROM BOOK", "syntax", "put together", "behind the command"),
    query("SELECT TITLE FROM BOOK WHERE TITLE §|| 'x' = 'Sultx'", "syntax", "put together"),
    query("SELECT TITLE FROM BOOK WHERE ID = 1 §|| ID = 2", "syntax", "joined by OR"),
    query("SELECT TITLE FROM BOOK B JOIN LOAN L ON L.BOOK = B.ID §&& B.ID = 2", "syntax", "joined by AND"),
]
ARITHMETIC = [
    query("SELECT TITLE FROM BOOK WHERE PRICE §+ 100 > 5000", "syntax", "no arithmetic", "literal"),
    query("SELECT TITLE FROM BOOK WHERE PRICE > 50 §* 100", "syntax", "no arithmetic"),
    query("SELECT TITLE FROM BOOK WHERE PRICE §- 1 = ID", "syntax", "no arithmetic"),
    query("SELECT TITLE FROM BOOK WHERE PRICE §/ 100 > 50", "syntax", "no arithmetic"),
]
QUOTES = [
    query(
        'SELECT NAME FROM READER WHERE TOWN = §"Hamar"', "name", "double quotes stands a name", "single quotes",
        "'Hamar'",
    ),
    query('SELECT TITLE FROM BOOK WHERE §"Sult" = TITLE', "name", "double quotes stands a name", "'Sult'"),
    query(
        "SELECT NAME FROM READER WHERE TOWN = §Hamar", "name", "No entry has a column HAMAR", "single quotes",
        "'Hamar'",
    ),
]
CLOSING = [
    query("SELECT TITLE FROM BOOK WHERE TITLE = §'it''s", "syntax", "isn't closed", "a ' is missing"),
    query("SELECT TITLE FROM BOOK WHERE TITLE = §'Sult'' AND ID = 1", "syntax", "isn't closed", "a ' is missing"),
    query('SELECT §"TITLE"" FROM BOOK', "syntax", "This name isn't closed"),
    replace(
        query('SELECT "TI§\nTLE" FROM BOOK', "syntax"),
        says=("query.sql, line 1, column 11", "a line end within a name"),
    ),
    query('SELECT "TI§\tTLE" FROM BOOK', "syntax", "a tab within a name"),
]
WRONG_QUOTES = [
    query("SELECT TITLE FROM §'BOOK'", "syntax", "In single quotes stands a text", "BOOK without quotes"),
    query("SELECT §'TITLE' FROM BOOK", "syntax", "In single quotes stands a text", "TITLE without quotes"),
    query("SELECT TITLE AS §'Name' FROM BOOK", "syntax", "In single quotes stands a text", "Name without quotes"),
    query('SELECT NAME FROM READER WHERE TOWN IN (§"Hamar", "Moss")', "syntax", "a name in double quotes", "'Hamar'"),
    query("SELECT NAME FROM READER WHERE TOWN IN ('Moss', §Hamar)", "syntax", "Hamar is a name", "'Hamar'"),
    schema(
        "CREATE TABLE §'BOOK' (ID INTEGER NOT NULL)", "syntax", "In single quotes stands a text", "BOOK without quotes",
    ),
    schema(
        "CREATE TABLE BOOK (§'ID' INTEGER NOT NULL)", "syntax", "In single quotes stands a text", "ID without quotes",
    ),
]
ENDS = [
    replace(
        query("SELECT TITLE FROM BOOK WHERE\n\n§", "syntax"),
        says=("query.sql, line 1, column 29", "The text ends here behind WHERE"),
    ),
    replace(
        query("SELECT TITLE FROM -- which?\n§", "syntax"),
        says=("query.sql, line 1, column 18", "The text ends here behind FROM"),
    ),
    replace(
        schema("CREATE TABLE BOOK (ID INTEGER NOT NULL\r\n§", "syntax"),
        says=("schema.sql, line 1, column 39", "The text ends here behind NULL"),
    ),
]
DECIMALS = [
    query("SELECT TITLE FROM BOOK WHERE PRICE > 60§.5", "syntax", "Numbers are integers", "cents"),
    query("SELECT TITLE FROM BOOK WHERE PRICE BETWEEN 1 AND -9§.99", "syntax", "Numbers are integers", "cents"),
]
DATES = [
    query(
        "SELECT BOOK FROM LOAN WHERE DAY > DATE §'2024-01-01'", "syntax", "texts of the form YYYY-MM-DD",
        "compare those",
    ),
    query("SELECT BOOK FROM LOAN WHERE DAY = TIMESTAMP §'2024-01-01 10:00'", "syntax", "texts of the form YYYY-MM-DD"),
]
SIDES = [
    query(
        "SELECT TITLE FROM BOOK WHERE PRICE = §'4900'", "kind", "BOOK.PRICE is INTEGER", "'4900' is a text",
        "4900, without quotes",
    ),
    query(
        "SELECT NAME FROM READER R WHERE TOWN IN ('Moss', §5)", "kind", "R.TOWN is VARCHAR(20)", "5 is a number", "'5'",
    ),
    query(
        "SELECT B.TITLE FROM BOOK B JOIN AUTHOR A ON B.AUTHOR = §A.NAME", "kind", "B.AUTHOR is INTEGER",
        "A.NAME is VARCHAR(40)",
    ),
]
LARGE = [
    query(
        "SELECT TITLE FROM BOOK WHERE ID = §9223372036854775808", "syntax",
        "from -9,223,372,036,854,775,808 to 9,223,372,036,854,775,807",
    ),
    query("SELECT TITLE FROM BOOK WHERE ID IN (1, §9223372036854775808 2)", "syntax", "(64 bits)"),
    query(
        "SELECT TITLE FROM BOOK WHERE ID > §-99999999999999999999", "syntax",
        "from -9,223,372,036,854,775,808 to 9,223,372,036,854,775,807",
    ),
]
TYPES = [
    schema(
        "CREATE TABLE BOOK (ID INTEGER PRIMARY KEY, TITLE §TEXT NOT NULL)", "syntax", "TEXT is no type", "INTEGER",
        "VARCHAR(n)", "Give texts a length",
    ),
    schema("CREATE TABLE LOAN (DAY §DATE NOT NULL)", "syntax", "DATE is no type", "YYYY-MM-DD", "VARCHAR(10)"),
    schema("CREATE TABLE BOOK (PRICE §DECIMAL(10,2) NOT NULL)", "syntax", "DECIMAL is no type", "cents"),
    schema("CREATE TABLE BOOK (PRICE §double precision NOT NULL)", "syntax", "DOUBLE is no type", "cents"),
    schema("CREATE TABLE READER (LAND CHAR§(2) NOT NULL)", "syntax", "CHAR is no type", "VARCHAR(n)"),
    schema("CREATE TABLE READER (NAME VARCHAR §NOT NULL)", "syntax", "A text has its length", "VARCHAR(n)"),
    schema("CREATE TABLE BOOK (ID INT§(11) NOT NULL)", "syntax", "INT takes no length"),
    schema("CREATE TABLE BOOK (ID INTEGER NOT NULL §DEFAULT 0)", "syntax", "DEFAULT isn't part"),
    schema("CREATE TABLE BOOK (ID INTEGER NOT NULL §CHECK (ID > 0))", "syntax", "CHECK isn't part"),
    schema("CREATE TABLE BOOK (ID §INTEGR NOT NULL)", "syntax", "Did you mean INTEGER?"),
]
STATEMENTS = [
    schema("CREATE TABLE IF §NOT EXISTS BOOK (ID INTEGER NOT NULL)", "syntax", "IF NOT EXISTS isn't part"),
    schema(
        "CREATE TABLE BOOK (ID INTEGER NOT NULL)\n§CREATE TABLE LOAN (BOOK INTEGER NOT NULL)", "syntax",
        "A ; is missing",
    ),
    schema("§INSERT INTO BOOK VALUES (1)", "syntax", "CREATE TABLE alone"),
    schema(
        "CREATE TABLE BOOK (ID INTEGER NOT NULL §TITLE VARCHAR(5) NOT NULL)", "syntax",
        "Is a comma missing before TITLE?",
    ),
    schema("CREATE TABLE BOOK (ID INTEGER PRIMARY KEY §AUTOINCREMENT)", "syntax", "AUTOINCREMENT isn't part"),
    schema("CREATE TABLE BOOK (ID INTEGER PRIMARY KEY, INDEX§(ID))", "syntax", "INDEX isn't part"),
    schema("CREATE TABLE BOOK (ID INTEGER NOT NULL,§)", "syntax", "comma too many"),
    schema("CREATE TABLE §ORDER (ID INTEGER NOT NULL)", "syntax", "ORDER is a reserved word", '"ORDER"'),
    schema("§", "syntax", "The text holds nothing", "CREATE"),
]
NULLABLE = [
    schema(
        "CREATE TABLE BOOK (ID INTEGER PRIMARY KEY, §TITLE VARCHAR(60))", "nullable", "column TITLE of BOOK",
        "NOT NULL",
    ),
    schema(
        GENRES + "CREATE TABLE LOAN (BOOK INTEGER NOT NULL,\n  §READER INTEGER UNIQUE)", "nullable",
        "column READER of LOAN", "NOT NULL",
    ),
]
LISTS = [
    schema(
        "CREATE TABLE LOAN (BOOK INTEGER NOT NULL, DAY VARCHAR(10) NOT NULL, PRIMARY KEY (BOOK, §DAYS))", "name",
        "no column DAYS", "BOOK and DAY", "Did you mean DAY?",
    ),
    schema(
        GENRES
        + "CREATE TABLE BOOK (ID INTEGER NOT NULL, GENRE INTEGER NOT NULL,"
        " FOREIGN KEY (GENRE) REFERENCES GENRE (§IDD))",
        "name", "GENRE has no column IDD", "ID and NAME",
    ),
    schema(
        "CREATE TABLE LOAN (BOOK INTEGER NOT NULL REFERENCES §BOKS, DAY INTEGER NOT NULL);"
        " CREATE TABLE BOOK (ID INTEGER PRIMARY KEY)",
        "name", "no table BOKS", "Did you mean BOOK?",
    ),
    schema("CREATE TABLE BOOK (ID INTEGER PRIMARY KEY, §ID INTEGER NOT NULL)", "name", "a column ID before this one"),
    schema(GENRES + "CREATE TABLE §genre (ID INTEGER NOT NULL)", "name", "a table GENRE before this one"),
    schema(
        "CREATE TABLE LOAN (BOOK INTEGER PRIMARY KEY, DAY INTEGER NOT NULL, §PRIMARY KEY (DAY))", "name",
        "two primary keys", "UNIQUE",
    ),
]
SWAPPED = [
    Mistake(
        "error schema syntax 0", ("query.sql, line 1, column 1", "This looks like a query", "SCHEMA first"),
        words=("run", "query.sql", "schema.sql"),
    ),
    Mistake(
        "error schema syntax 0", ("This looks like a query", "SCHEMA first"),
        words=("plan", "--budget=5", "query.sql", "schema.sql"),
    ),
    Mistake(
        "error query syntax 0", ("schema.sql, line 1, column 1", "This looks like a schema"),
        words=("audit", "schema.sql", "schema.sql"),
    ),
]
CELLS = [
    books(
        "1,Sult,2,1,4900\r\n2,Pan,2,1,\r\n", "field 2 PRICE", "book.csv, line 3, record 2, column PRICE", "nothing",
        "INTEGER", "no nulls",
    ),
    books("1,Sult,2,1,NULL\r\n", "field 1 PRICE", "line 2, record 1, column PRICE", "`NULL`", "no nulls"),
    books("1,Sult,2,\\N,4900\r\n", "field 1 GENRE", "column GENRE", "`\\N`", "no nulls"),
    books("1,Sult,2,1,5.0\r\n", "field 1 PRICE", "`5.0`", "cents"),
    books(
        '1,"Sult,\r\nin two lines",2,1,4900\r\n2,Pan,2,1,2024-01-05\r\n', "field 2 PRICE", "line 4, record 2",
        "`2024-01-05`", "looks like a date",
    ),
    books('1,Sult,2,1,"1,005"\r\n', "field 1 PRICE", "`1,005`", "marks between thousands it is 1005"),
    books("1,Sult,2,1,-12.500.000\r\n", "field 1 PRICE", "`-12.500.000`", "it is -12500000"),
    books("1,Sult,2,1, 4900\r\n", "field 1 PRICE", "` 4900`", "Blanks beside it count"),
    table(
        "reader.csv", "NAME,ID,TOWN\r\nAne,1,The island of Tromsoya\r\n", "field 1 TOWN",
        "line 2, record 1, column TOWN", "22 characters", "VARCHAR(22)",
    ),
]
RANGES = [
    books(
        "1,Sult,2,1,9223372036854775808\r\n", "field 1 PRICE", "`9223372036854775808`", "to 9,223,372,036,854,775,807",
        "larger",
    ),
    books("1,Sult,-9223372036854775809,1,1\r\n", "field 1 AUTHOR", "from -9,223,372,036,854,775,808", "smaller"),
]
KEYS = [
    books(
        "1,Sult,2,1,4900\r\n2,Pan,2,1,3900\r\n1,Mysterier,2,1,5900\r\n", "key 3 1", "line 4, record 3", "`1`", "key ID",
        "line 2 (record 1)",
    ),
    table(
        "loan.csv", "BOOK,READER,DAY\r\n7,1,2024-01-05\r\n\r\n7,2,2024-01-05\r\n", "key 2 1", "line 4, record 2",
        "`7`, `2024-01-05`", "BOOK and DAY", "line 2 (record 1)",
    ),
    books("7,Sult,2,1,4900\r\n007,Pan,2,1,3900\r\n", "key 2 1", "`007`", "key ID"),
]
WIDTHS = [
    books(
        "1,Kransen, Husfrue,3,1,9900\r\n", "width 1 6", "book.csv, line 2, record 1", "6 fields", "header has 5",
        "unquoted comma",
    ),
    books(
        "1,Sult,2,1,4900\r\n2,Pan,2,1\r\n", "width 2 4", "line 3, record 2", "4 fields", "header has 5",
        "field is missing",
    ),
    books(
        '1,Sult,2,1,4900\r\n2,"Pan,2,1,3900\r\n3,Mysterier,2,1,5900\r\n', "width 2 2", "book.csv, line 3, column 3",
        "isn't closed",
    ),
    table(
        "reader.csv", 'ID,NAME,TOWN\n1,Ane,"Hamar\n2,Bo,Moss\n3,Siri,Moss\n', "field 1 TOWN", "line 2, record 1",
        "3 line ends", 'a " is missing that closes it',
    ),
]
HEADERS = [
    table(
        "reader.csv", "ID;NAME;TOWN\r\n1;Ane;Hamar\r\n", "header ID", "found:    ID;NAME;TOWN",
        "expected: ID,NAME,TOWN", "semicolons", "safebound convert reader.csv",
    ),
    table(
        "reader.csv", "ID\tNAME\tTOWN\n1\tAne\tHamar\n", "header ID", "expected: ID,NAME,TOWN", "tabs",
        "safebound convert reader.csv",
    ),
    table(
        "reader.csv", "1,Ane,Hamar\r\n2,Bo,Hamar\r\n", "header ID", "found:    1,Ane,Hamar", "looks like a row",
        "ID,NAME,TOWN",
    ),
    table("reader.csv", "ID,NAME,CITY\r\n1,Ane,Hamar\r\n", "header TOWN", "no column TOWN", "found:    ID,NAME,CITY"),
    table("reader.csv", "ID,NAMES,TOWN\r\n1,Ane,Hamar\r\n", "header NAME", "no column NAME", "`NAMES`"),
    table("reader.csv", "ID,NAME,name,TOWN\r\n1,Ane,Ane,Hamar\r\n", "header NAME", "names NAME 2 times"),
    table("reader.csv", "", "header ID", "holds nothing", "ID,NAME,TOWN"),
]
BYTES = [
    table(
        "reader.csv", "ID,NAME,TOWN\r\n1,Åse,Hamar\r\n".encode("latin-1"), "utf8 16", "reader.csv, line 2, column 3",
        "0xC5", "Latin-1", "safebound convert reader.csv",
    ),
    table(
        "reader.csv", "ID,NAME,TOWN\r\n1,Ane,Bø\r\n".encode("latin-1"), "utf8 21", "line 2, column 8", "0xF8",
        "safebound convert reader.csv",
    ),
    table("reader.csv", "ID,NAME,TOWN\r\n".encode("utf-16"), "utf8 0", "UTF-16", "safebound convert reader.csv"),
]
FILES = [
    missing("loan.csv", ("There is no file loan.csv", "looked for in", "lower case and .csv"), {"loan.csv": None}),
    missing(
        "loan.csv", ("LOAN.CSV is there", "Rename it to loan.csv"),
        {"loan.csv": None, "LOAN.CSV": b"BOOK,READER,DAY\r\n"},
    ),
    missing(
        "loan.csv", ("loan.csv.gz is there", "unpack it"),
        {"loan.csv": None, "loan.csv.gz": gzip.compress(b"BOOK,READER,DAY\r\n")},
    ),
    missing(
        "loan.csv", ("loan.tsv is there", "writes it as loan.csv: safebound convert loan.tsv"),
        {"loan.csv": None, "loan.tsv": b"BOOK\tREADER\tDAY\r\n"},
    ),
    missing(
        "loan.csv", ("Loan.xlsx is there, a workbook", "CSV UTF-8"), {"loan.csv": None, "Loan.xlsx": b"PK\x03\x04"},
    ),
    missing("loan.csv", ("loans.csv is there",), {"loan.csv": None, "loans.csv": b"BOOK,READER,DAY\r\n"}),
    missing("loan.csv", ("loan.csv is a folder",), {"loan.csv": None, "loan.csv/x": b""}),
    missing("shema.sql", ("There is no file shema.sql", "schema.sql is there"), words="run shema.sql query.sql"),
]
ELSEWHERE = [
    missing(
        "reader.csv", ("There is no file reader.csv", "It is in data", "--data data"),
        {
            "reader.csv": None,
            "data/reader.csv": b"ID,NAME,TOWN\r\n",
            "data/schema.sql": b"",
            "data/query.sql": b"",
        },
    ),
    missing(
        "author.csv", ("It is in shop", "--data shop"),
        {
            "author.csv": None,
            "shop/author.csv": b"ID,NAME,BORN\r\n",
            "shop/s.sql": (GENRES + "CREATE TABLE AUTHOR (ID INTEGER PRIMARY KEY)").encode(),
            "shop/q.sql": b"SELECT ID FROM AUTHOR",
        },
        "run shop/s.sql shop/q.sql",
    ),
    missing(
        "author.csv", ("looked for in", "--data DIR"),
        {
            "author.csv": None, "query.sql": b"SELECT ID FROM AUTHOR",
            "schema.sql": b"CREATE TABLE AUTHOR (ID INTEGER PRIMARY KEY)",
        },
    ),
]
NO_COMMAND = [
    usage("runn schema.sql query.sql", "no command runn", "Did you mean run?", "audit SCHEMA QUERY", "safebound help"),
    usage("select", "no command select"),
    usage("--budget 5 run schema.sql query.sql", "The command comes first"),
    usage("schema.sql query.sql", "no command schema.sql"),
]
OPTIONS = [
    usage("run schema.sql query.sql --budjet 5", "no option --budjet", "Did you mean --budget?"),
    usage("run schema.sql query.sql --dta x", "no option --dta", "Did you mean --data?"),
    usage("run schema.sql query.sql --out rows.csv", "run has no option --out", "> rows.csv"),
    usage("stats schema.sql query.sql -o 'my file'", "stats has no option -o", "> "),
    usage("run schema.sql query.sql -b 5", "no option -b", "--budget N, --accuracy K, --memory N"),
    usage("run schema.sql query.sql --budget 1e6", "has the value 1e6", "from 1 to 20,000,000", "Write 1000000"),
    usage("run schema.sql query.sql --budget=1,000,000", "has the value 1,000,000", "digits alone", "Write 1000000"),
    usage("run schema.sql query.sql --budget 0", "has the value 0", "from 1 to 20,000,000"),
    usage("run schema.sql query.sql --budget 20000001", "from 1 to 20,000,000"),
    usage("plan schema.sql query.sql --accuracy 100", "has the value 100", "from 1 to 64"),
    usage("plan schema.sql query.sql --accuracy=0", "has the value 0", "from 1 to 64"),
    usage("run schema.sql query.sql --budget", "--budget lacks its value", "from 1 to 20,000,000"),
    usage("run schema.sql query.sql --budget 5 --budget 6", "--budget stands twice"),
    usage("run schema.sql query.sql --reduce --reduce", "--reduce stands twice"),
    usage("run schema.sql query.sql --reduce=1", "--reduce takes no value"),
    usage("run schema.sql query.sql --count --count", "--count stands twice"),
    usage("run schema.sql query.sql --count=1", "--count takes no value"),
    usage("run schema.sql query.sql --count --reduce", "--reduce can't stand beside --count", "counts over them"),
    usage("run schema.sql query.sql --count --keys", "--keys can't stand beside --count"),
    usage("audit schema.sql query.sql --accuracy 1 --count", "--accuracy can't stand beside --count"),
    usage("plan schema.sql query.sql --count --stats old.stats", "--count can't stand beside --stats"),
    usage("run schema.sql query.sql --keys=yes", "--keys takes no value"),
    usage("run schema.sql query.sql --keys --reduce", "--reduce can't stand beside --keys", "plans over whole tables"),
    usage("plan schema.sql query.sql --keys --stats old.stats", "--keys can't stand beside --stats"),
    usage("plan schema.sql query.sql --accuracy 8 --count", "--accuracy can't stand beside --count"),
    usage("plan schema.sql query.sql --keys --count --bushy", "--keys can't stand beside --count"),
    usage("demo 7 --budget 5", "demo has no option --budget"),
    usage("run schema.sql query.sql --budget --explain", "has the value --explain"),
]
PLACES = [
    usage("run schema.sql query.sql book.csv", "book.csv is a word too many", "SCHEMA and QUERY"),
    usage("run schema.sql", "run lacks QUERY"),
    usage("plan query.sql --accuracy 4", "plan lacks SCHEMA", "safebound plan query.sql --data ."),
    usage("demo -1", "-1 is no number from 0 to 4,294,967,295"),
    usage("demo -- -1", "-1 is no number from 0 to 4,294,967,295"),
    usage("plan", "plan lacks SCHEMA and QUERY"),
    usage("demo", "demo wants a number, from 0 to 4,294,967,295"),
    usage("demo seven", "seven is no number from 0 to 4,294,967,295"),
]


def past_budget(text: str, line: str, *says: str, words: str = "", files: Files | None = None) -> Mistake:
    return Mistake(
        line, says, {"query.sql": text.encode(), **(files or {})}, ("plan", "schema.sql", "query.sql", *words.split()),
    )


# 9 rows with one value on both sides join to 81 rows, and accuracy changes nothing in that. Without a condition, 3 x 5
# x 4 rows join.
EQUAL = {
    "schema.sql": b"CREATE TABLE R (X INTEGER NOT NULL); CREATE TABLE S (X INTEGER NOT NULL)",
    "r.csv": b"X\r\n" + 9 * b"1\r\n", "s.csv": b"X\r\n" + 9 * b"1\r\n" + 5 * b"2\r\n",
}
BUDGETS = [
    past_budget(
        "SELECT R.NAME FROM READER R, LOAN L, BOOK B", "error budget 60", "60 rows", "budget is 50",
        "aren't connected: R; L; B", "forgotten", words="--budget 50",
    ),
    past_budget(
        "SELECT R.NAME FROM READER R, LOAN L, BOOK B WHERE L.BOOK = B.ID", "error budget 15",
        "aren't connected: R; L and B", words="--budget 10",
    ),
    past_budget(
        "SELECT R.X FROM R, S WHERE R.X = S.X", "error budget 81", "The least budget is --budget 81", "level 2",
        "81 rows", "With --reduce the least budget is 81", "With --accuracy 8 the least budget is 81",
        "With --count the least budget is 81", words="--budget 80", files=EQUAL,
    ),
    past_budget(
        "SELECT R.X FROM R, S WHERE R.X = S.X", "error budget 9", "level 2 (S), of 9 rows",
        "With --reduce it fits: no level has a bound of more than 3 rows", words="--budget=5",
        files={
            **EQUAL,
            "r.csv": b"X\r\n1\r\n2\r\n3\r\n",
            "s.csv": b"X\r\n1\r\n1\r\n1\r\n7\r\n7\r\n7\r\n8\r\n8\r\n8\r\n",
        },
    ),
]
# One customer is in the region. Each order refers to a customer: 4 orders refer to another customer, and 1 to this one.
REGION = {
    "schema.sql": b"CREATE TABLE C (ID INTEGER PRIMARY KEY, REG INTEGER NOT NULL);"
    b" CREATE TABLE O (N INTEGER NOT NULL, CID INTEGER NOT NULL REFERENCES C)",
    "c.csv": b"ID,REG\r\n1,3\r\n2,4\r\n3,4\r\n4,4\r\n", "o.csv": b"N,CID\r\n1,1\r\n2,2\r\n3,2\r\n4,2\r\n5,2\r\n",
}
OF_REGION = "SELECT O.N FROM O, C WHERE O.CID = C.ID AND C.REG = 3"
PAIRS = {
    "schema.sql": b"CREATE TABLE R (A INTEGER NOT NULL, B INTEGER NOT NULL);"
    b" CREATE TABLE S (A INTEGER NOT NULL, B INTEGER NOT NULL)",
    "r.csv": b"A,B\r\n1,1\r\n1,2\r\n2,1\r\n2,2\r\n", "s.csv": b"A,B\r\n1,1\r\n1,2\r\n2,1\r\n2,2\r\n",
}
BUDGETS += [
    past_budget(
        "SELECT R.A FROM R, S WHERE R.A = S.A AND R.B = S.B", "error budget 8",
        "R and S are joined by 2 equalities: R.A = S.A and R.B = S.B", "count as one", words="--budget 7", files=PAIRS,
    ),
    past_budget(
        "SELECT R.A FROM R, S WHERE R.A = S.A AND R.B = S.B", "error budget 8",
        "With --count it fits: no level has a bound of more than 4 rows", words="--budget 7", files=PAIRS,
    ),
    past_budget(
        OF_REGION, "error budget 4", "level 2 (O), of 4 rows",
        "With --keys it fits: no level has a bound of more than 1 rows", words="--budget=3", files=REGION,
    ),
]
LIMITS = [
    Mistake(
        "error limit from-entries 13", ("at most 12 entries", "13"),
        {"query.sql": ("SELECT A0.ID FROM " + ", ".join(f"AUTHOR A{i}" for i in range(13))).encode()},
    ),
    Mistake(
        "error limit text-length 1000001", ("at most 1,000,000", "1,000,001"),
        {"schema.sql": b"CREATE TABLE AUTHOR (NAME VARCHAR(1000001) NOT NULL)"},
    ),
    Mistake(
        "error limit file-bytes query.sql 1048577", ("longer than 1 MiB", "query.sql"), {"query.sql": b" " * 1_048_577},
    ),
]
SMALL = {
    "schema.sql": b"CREATE TABLE R (X INTEGER NOT NULL); CREATE TABLE S (X INTEGER NOT NULL)",
    "query.sql": b"SELECT R.X FROM R, S WHERE R.X = S.X",
    "r.csv": b"X\r\n1\r\n1\r\n1\r\n2\r\n2\r\n3\r\n", "s.csv": b"X\r\n1\r\n1\r\n4\r\n5\r\n6\r\n",
}
BUFFERS = (
    Mistake(
        "error memory-limit 531", ("take 531 bytes", "the limit is 530", "--memory 531"), SMALL,
        ("run", "schema.sql", "query.sql", "--memory", "530"),
    ),
    Mistake(
        "error memory-limit 531", ("the limit is 1", "So may --count or --bushy"), SMALL,
        ("audit", "schema.sql", "query.sql", "--memory=1"),
    ),
)


def stats(line: str, text: bytes | None, *says: str) -> Mistake:
    files = {} if text is None else {"old.stats": text}
    return Mistake(line, says, files, ("plan", "schema.sql", "query.sql", "--stats", "old.stats"))


STATISTICS = [
    stats(
        "error stats syntax 1", b"hello\n", "old.stats is no statistics file from line 1 on",
        "Make it anew: safebound stats schema.sql query.sql > old.stats",
    ),
    stats("error stats rule 1", b"safebound-stats 1 0\nend\n", "Line 1 of old.stats can't follow", "Make it anew"),
    stats(
        "error stats missing 0", b"safebound-stats 1 1\nend\n", "needs statistics that old.stats doesn't have",
        "Make it anew",
    ),
    stats("error read old.stats", None, "There is no file old.stats"),
    usage("plan schema.sql query.sql --stats old.stats --accuracy 3", "--accuracy can't stand beside --stats"),
    usage("plan schema.sql query.sql --stats old.stats --reduce --bushy", "--reduce can't stand beside --stats"),
    usage("plan schema.sql query.sql --stats old.stats --bushy --budget 4000001", "from 1 to 4,000,000"),
    usage("plan schema.sql query.sql --stats=-", "has the value -", "the name of a file"),
    usage("run schema.sql query.sql --stats old.stats", "run has no option --stats"),
]


def append(line: str, *says: str, table: str = "AUTHOR", files: Files | None = None, rows: str = "new.csv") -> Mistake:
    laid = {
        "schema.sql": b"CREATE TABLE AUTHOR (ID INTEGER PRIMARY KEY); CREATE TABLE GENRE (ID INTEGER PRIMARY KEY)",
        "old.stats": b"safebound-stats 1 1\ntable x415554484f52 3999999\nend\n",
    }
    return Mistake(line, says, {**laid, **(files or {})}, ("append", "schema.sql", "old.stats", table, rows))


APPENDS = [
    append("error stats missing 0", "no table AUTOR", "Did you mean AUTHOR?", table="AUTOR"),
    append(
        "error stats missing 0", "no statistics of the table genre", "a query that names genre",
        "safebound stats schema.sql QUERY > old.stats", table="genre",
    ),
    append(
        "error stats missing 0", "no statistics of the table GENRE", "no table",
        "Put the new rows into the table's own file", table="GENRE",
    ),
    append("error read new.csv", "There is no file new.csv"),
    append(
        "error table new.csv key 2 1", "new.csv, line 3, record 2", "`7` stands in the key ID already",
        files={"new.csv": b"ID\n7\n7\n"},
    ),
    append(
        "error table my rows.csv header ID", "The header of my rows.csv", "no column ID",
        files={"my rows.csv": b"NAME\n7\n"}, rows="my rows.csv",
    ),
    append(
        "error limit rows new.csv 4000001", "With the rows of new.csv the table author has more than 4,000,000 rows",
        table="author", files={"new.csv": b"ID\n7\n8\n"},
    ),
    append(
        "error stats syntax 1", "old.stats is no statistics file from line 1 on",
        files={"old.stats": b"hello\n", "new.csv": b"ID\n"},
    ),
    append(
        "error stats syntax 1", "old.stats is empty", "the shell empties such a file first",
        "safebound stats schema.sql QUERY > old.stats", files={"old.stats": b"", "new.csv": b"ID\n"},
    ),
    usage("append schema.sql old.stats AUTHOR", "append lacks ROWS"),
    usage("append schema.sql old.stats AUTHOR new.csv --accuracy 2", "append has no option --accuracy"),
    usage(
        "append schema.sql old.stats AUTHOR new.csv more.csv", "more.csv is a word too many",
        "SCHEMA, STATS, TABLE and ROWS",
    ),
]

KINDS = [
    ("a column that isn't there", COLUMNS),
    ("a column that several entries have", SEVERAL),
    ("a table that isn't there", TABLES),
    ("an alias or a table twice", TWICE),
    ("a missing comma", COMMAS),
    ("two queries in one text", QUERIES),
    ("functions", FUNCTIONS),
    ("clauses that aren't part", CLAUSES),
    ("joins that aren't part", JOINS),
    ("words that are spelled or placed wrong", WORDS),
    ("predicates that aren't part", PREDICATES),
    ("signs that aren't part", SIGNS),
    ("arithmetic", ARITHMETIC),
    ("double quotes for a text", QUOTES),
    ("decimals", DECIMALS),
    ("texts and names that aren't closed", CLOSING),
    ("texts and names in the wrong quotes", WRONG_QUOTES),
    ("the end of a text", ENDS),
    ("dates", DATES),
    ("a text beside a number", SIDES),
    ("a number past 64 bits", LARGE),
    ("types that aren't there", TYPES),
    ("statements that aren't part", STATEMENTS),
    ("a column without NOT NULL", NULLABLE),
    ("names of a schema", LISTS),
    ("schema and query swapped", SWAPPED),
    ("a field that is no number", CELLS),
    ("a number out of range", RANGES),
    ("a key that repeats", KEYS),
    ("a field too many or too few", WIDTHS),
    ("headers", HEADERS),
    ("bytes that are no UTF-8", BYTES),
    ("a file that is missing", FILES),
    ("outside of the data's folder", ELSEWHERE),
    ("no command", NO_COMMAND),
    ("options", OPTIONS),
    ("place words", PLACES),
    ("past the budget", BUDGETS),
    ("past the limit of memory", BUFFERS),
    ("limits", LIMITS),
    ("statistics files", STATISTICS),
    ("new rows in a statistics file", APPENDS),
]
