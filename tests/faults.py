"""What the explanation of each of these faults has to say: place, cause and remedy. The author of the list had read the
code of the explanations, but hadn't run these faults.

A string of a list may have several alternatives, separated by `|`; the explanation must have one of them. Cause and
remedy are searched in the sentences only, and not in the excerpt, which shows the user's own text anyway.
"""

from __future__ import annotations

import gzip
from dataclasses import dataclass

from mistakes import PAIRS, Mistake, append, books, missing, past_budget, query, schema, stats, table, usage


@dataclass
class Fault:
    name: str
    mistake: Mistake
    cause: tuple[str, ...]
    remedy: tuple[str, ...]
    # Empty if the place is the one marked in the mistake's text.
    place: tuple[str, ...] = ()


def readers(text: str, line: str, encoding: str = "utf-8") -> Mistake:
    return table("reader.csv", text.encode(encoding), line)


HEAD = "ID,NAME,TOWN\r\n"
OF_NAMES = [
    Fault("a column that isn't there", query("SELECT §R.NME FROM READER R", "name"), ("NME",), ("NAME",)),
    Fault("a column of no entry", query("SELECT §TITEL FROM BOOK B", "name"), ("TITEL",), ("B.TITLE",)),
    Fault(
        "a column of another table", query("SELECT §L.TITLE FROM LOAN L", "name"), ("TITLE",),
        ("BOOK, READER and DAY",),
    ),
    Fault(
        "a column of several entries", query("SELECT §NAME FROM AUTHOR A, READER R", "name"),
        ("A (table AUTHOR) and R (table READER)",), ("A.NAME",),
    ),
    Fault("a table that isn't there", query("SELECT * FROM §LOANS", "name"), ("no table LOANS",), ("LOAN?",)),
    Fault(
        "an alias that isn't there", query("SELECT TITLE FROM BOOK JOIN LOAN L ON §BOK.ID = L.BOOK", "name"), ("BOK",),
        ("BOOK?",),
    ),
    Fault(
        "a table's name where it has an alias", query("SELECT §BOOK.TITLE FROM BOOK B", "name"), ("alias B",),
        ("B.TITLE",),
    ),
    Fault("one alias twice", query("SELECT * FROM BOOK X, LOAN §X", "name"), ("two entries",), ("another alias",)),
    Fault("one table twice", query("SELECT * FROM BOOK, §BOOK", "name"), ("two entries",), ("BOOK A, BOOK B",)),
    Fault(
        "a table in double quotes and lower case", query('SELECT * FROM §"book"', "name"), ("keeps its case",),
        ("BOOK without quotes",),
    ),
    Fault(
        "an entry that an ON doesn't see",
        query("SELECT A.NAME FROM AUTHOR A, BOOK B JOIN GENRE G ON G.ID = B.GENRE AND §A.ID = B.AUTHOR", "name"),
        ("ON",), ("WHERE",),
    ),
    Fault(
        "a text in double quotes", query('SELECT NAME FROM READER WHERE TOWN = §"Hamar"', "name"), ("a name",),
        ("'Hamar'",),
    ),
    Fault(
        "a text without quotes", query("SELECT NAME FROM READER WHERE TOWN = §Hamar", "name"),
        ("no column HAMAR|No entry has a column HAMAR",), ("'Hamar'",),
    ),
    Fault(
        "texts in double quotes in a list", query('SELECT NAME FROM READER WHERE TOWN IN (§"Hamar", "Moss")', "syntax"),
        ("double quotes", "name"), ("'Hamar'",),
    ),
    Fault(
        "a table in single quotes", query("SELECT TITLE FROM §'BOOK'", "syntax"), ("single quotes", "text"),
        ("BOOK without quotes|FROM BOOK",),
    ),
    Fault(
        "a column in single quotes", query("SELECT §'TITLE' FROM BOOK", "syntax"), ("single quotes", "text"),
        ("TITLE without quotes|SELECT TITLE",),
    ),
]
OF_ACCENTS = [
    Fault(
        "a name with an accent", query("SELECT gr§øde FROM BOOK", "syntax"), ("other letters than A to Z",),
        ('"grøde"',), ("query.sql, line 1, column 8", "^^^^^"),
    ),
    Fault(
        "a name with an accent behind a point", query("SELECT B.prés FROM BOOK B".replace("é", "§é"), "syntax"),
        ("other letters than A to Z",), ('"prés"',), ("query.sql, line 1, column 10", "^^^^"),
    ),
    Fault(
        "a name that begins with an accent", query("SELECT TITLE FROM BOOK WHERE §Élan = 1", "syntax"),
        ("other letters than A to Z",), ('"Élan"',), ("query.sql, line 1, column 30", "^^^^"),
    ),
    Fault(
        "a name with an accent too many", query("SELECT T§ítle FROM BOOK", "syntax"), ("other letters than A to Z",),
        ("TITLE?",), ("query.sql, line 1, column 8", "^^^^^"),
    ),
    Fault(
        "a column with an accent in a schema",
        schema("CREATE TABLE BOOK (ID INTEGER PRIMARY KEY, St§ück INTEGER NOT NULL)", "syntax"),
        ("other letters than A to Z",), ('"Stück"',), ("schema.sql, line 1, column 44", "^^^^^"),
    ),
]
OF_QUOTES = [
    Fault(
        "a text that isn't closed", query("SELECT TITLE FROM BOOK WHERE TITLE = §'Sult", "syntax"), ("isn't closed",),
        ("'",),
    ),
    Fault(
        "a text with a doubled quote that isn't closed",
        query("SELECT TITLE FROM BOOK WHERE TITLE = §'it''s", "syntax"), ("isn't closed",), ("a ' is missing",),
    ),
    Fault(
        "a text that a doubled quote leaves open",
        query("SELECT TITLE FROM BOOK WHERE TITLE = §'Sult'' AND ID = 1", "syntax"), ("isn't closed",),
        ("a ' is missing",),
    ),
    Fault(
        "a quote within a text", query("SELECT TITLE FROM BOOK WHERE TITLE = 'Peer'Gynt§'", "syntax"),
        ("isn't closed",), ("written twice",),
    ),
    Fault(
        "a name that isn't closed", query('SELECT §"TITLE FROM BOOK', "syntax"), ("isn't closed",), ('a " is missing',),
    ),
    Fault(
        "a name with a line end", query('SELECT "TI§\nTLE" FROM BOOK', "syntax"), ("line end",),
        ("one line|on the same line|before the line ends|take it away",),
    ),
    Fault(
        "quotes of a word processor", query("SELECT TITLE FROM BOOK WHERE TITLE = §‘Sult’", "syntax"),
        ("word processor",), ("texts take '",),
    ),
    Fault("backticks", query("SELECT §`TITLE` FROM BOOK", "syntax"), ("backticks",), ("double quotes|without quotes",)),
    Fault(
        "brackets around a name", query("SELECT §[TITLE] FROM BOOK", "syntax"), ("brackets",),
        ("double quotes|without quotes",),
    ),
    Fault(
        "a backslash before a quote", query(r"SELECT TITLE FROM BOOK WHERE TITLE = 'it\'s§'", "syntax"),
        ("isn't closed",), ("written twice",),
    ),
]
OF_CLAUSES = [
    Fault("ORDER BY", query("SELECT TITLE FROM BOOK §ORDER BY TITLE", "syntax"), ("ORDER BY",), ("sed -u 1q; sort",)),
    Fault(
        "GROUP BY", query("SELECT TITLE FROM BOOK §GROUP BY TITLE", "syntax"), ("GROUP BY",),
        ("another program", "safebound-sql"),
    ),
    Fault("HAVING", query("SELECT TITLE FROM BOOK §HAVING PRICE > 1", "syntax"), ("HAVING",), ("another program",)),
    Fault("DISTINCT", query("SELECT §DISTINCT AUTHOR FROM BOOK", "syntax"), ("DISTINCT",), ("sed -u 1q; sort -u",)),
    Fault("LIMIT", query("SELECT TITLE FROM BOOK B §LIMIT 10", "syntax"), ("LIMIT",), ("head -n 11",)),
    Fault(
        "LIMIT read as an alias", query("SELECT TITLE FROM BOOK LIMIT §3", "syntax"), ("LIMIT", "alias"),
        ("head -n 4",),
    ),
    Fault(
        "LIMIT behind ORDER BY", query("SELECT TITLE, PRICE FROM BOOK §ORDER BY PRICE DESC LIMIT 2", "syntax"),
        ("ORDER BY",), ("sort -t, -k2,2nr) | head -n 3",),
    ),
    Fault(
        "LIMIT with OFFSET", query("SELECT TITLE FROM BOOK B §LIMIT 10 OFFSET 20", "syntax"), ("LIMIT",),
        ("sed -n '21,30p'",),
    ),
    Fault(
        "UNION", query("SELECT NAME FROM AUTHOR §UNION SELECT NAME FROM READER", "syntax"), ("UNION",),
        ("Run one for each|one SELECT",),
    ),
    Fault("WITH", query("§WITH X AS (SELECT * FROM BOOK) SELECT * FROM X", "syntax"), ("WITH",), ("one SELECT",)),
    Fault("COUNT(*)", query("SELECT COUNT§(*) FROM BOOK", "syntax"), ("COUNT", "aggregates"), ("audit",)),
    Fault("SUM", query("SELECT SUM§(PRICE) FROM BOOK", "syntax"), ("SUM", "aggregates"), ("another program",)),
    Fault(
        "a function", query("SELECT NAME FROM READER WHERE upper§(TOWN) = 'HAMAR'", "syntax"), ("upper", "Functions"),
        ("store|compute",),
    ),
    Fault(
        "LEFT JOIN", query("SELECT * FROM BOOK B §LEFT JOIN LOAN L ON L.BOOK = B.ID", "syntax"), ("Outer joins",),
        ("JOIN .. ON", "safebound-sql"),
    ),
    Fault(
        "NATURAL JOIN", query("SELECT * FROM BOOK §NATURAL JOIN LOAN", "syntax"), ("NATURAL JOIN",), ("ON B.X = A.X",),
    ),
    Fault("CROSS JOIN", query("SELECT * FROM BOOK §CROSS JOIN LOAN", "syntax"), ("CROSS JOIN",), ("FROM A, B",)),
    Fault("USING", query("SELECT * FROM BOOK B JOIN LOAN L §USING (ID)", "syntax"), ("USING",), ("ON B.X = A.X",)),
    Fault("JOIN without ON", query("SELECT * FROM BOOK B JOIN LOAN L§", "syntax"), ("ends here",), ("ON B.X = A.X",)),
    Fault(
        "LIKE", query("SELECT TITLE FROM BOOK WHERE TITLE §LIKE 'Su%'", "syntax"), ("LIKE",),
        ("TITLE >= 'Su' AND TITLE < 'Sv'",),
    ),
    Fault(
        "LIKE with a sign in front", query("SELECT TITLE FROM BOOK WHERE TITLE §LIKE '%lt'", "syntax"), ("LIKE",),
        ("safebound-sql",),
    ),
    Fault("IS NULL", query("SELECT TITLE FROM BOOK WHERE TITLE §IS NULL", "syntax"), ("no nulls",), ("TITLE = ''",)),
    Fault(
        "IS NOT NULL", query("SELECT B.ID FROM BOOK B WHERE B.TITLE §IS NOT NULL", "syntax"), ("no nulls",),
        ("B.TITLE <> ''",),
    ),
    Fault(
        "CURRENT_DATE", query("SELECT BOOK FROM LOAN WHERE DAY < §CURRENT_DATE", "name"),
        ("CURRENT_DATE isn't part of the language",), ("in the form that the column has",),
    ),
    Fault(
        "a table's name with a sign", query("SELECT * FROM loan§-2024", "syntax"), ("loan-2024 is no table's name",),
        ("loan_2024.csv", "FROM loan_2024"),
    ),
    Fault(
        "EXISTS", query("SELECT TITLE FROM BOOK WHERE §EXISTS (SELECT * FROM LOAN)", "syntax"), ("Subqueries",),
        ("safebound-sql", "SQLite or PostgreSQL"),
    ),
    Fault(
        "IN with a subquery", query("SELECT TITLE FROM BOOK WHERE ID IN (§SELECT BOOK FROM LOAN)", "syntax"),
        ("Subqueries",), ("safebound-sql", "SQLite or PostgreSQL"),
    ),
    Fault(
        "NOT NOT", query("SELECT TITLE FROM BOOK WHERE NOT §NOT ID = 1", "syntax"), ("one NOT",),
        ("NOT (NOT|leave both out",),
    ),
    Fault(
        "two queries", query("SELECT * FROM BOOK;\n§SELECT * FROM LOAN;", "syntax"), ("one query",),
        ("a file of its own",),
    ),
    Fault("an UPDATE", query("§UPDATE BOOK SET PRICE = 1", "syntax"), ("only reads",), ("table files",)),
    Fault("CASE", query("SELECT §CASE WHEN ID = 1 THEN 2 END FROM BOOK", "syntax"), ("CASE",), ("store|compute",)),
]
OF_SIGNS = [
    Fault("!=", query("SELECT TITLE FROM BOOK WHERE ID §!= 3", "syntax"), ("Unequal",), ("<>",)),
    Fault("==", query("SELECT TITLE FROM BOOK WHERE ID =§= 3", "syntax"), ("Equal",), ("one =",)),
    Fault(
        "|| between texts", query("SELECT TITLE §|| 'x' FROM BOOK", "syntax"), ("put together",),
        ("behind the command|compute|store",),
    ),
    Fault("|| between conditions", query("SELECT TITLE FROM BOOK WHERE ID = 1 §|| ID = 2", "syntax"), ("||",), ("OR",)),
    Fault(
        "&& between conditions", query("SELECT TITLE FROM BOOK WHERE ID = 1 §&& PRICE > 2", "syntax"), ("&&",),
        ("AND",),
    ),
    Fault("a comment of C", query("SELECT TITLE §/* all */ FROM BOOK", "syntax"), ("/* */",), ("--",)),
    Fault("a parameter", query("SELECT TITLE FROM BOOK WHERE ID = §?", "syntax"), ("parameters",), ("value itself",)),
    Fault(
        "arithmetic", query("SELECT TITLE FROM BOOK WHERE PRICE §+ 100 > 5000", "syntax"), ("arithmetic",),
        ("literal",),
    ),
    Fault("a decimal", query("SELECT TITLE FROM BOOK WHERE PRICE > 60§.5", "syntax"), ("integers",), ("cents",)),
    Fault(
        "a number with a comma", query("SELECT TITLE FROM BOOK WHERE PRICE > 5§,000", "syntax"), ("digits alone",),
        ("5000",),
    ),
    Fault(
        "a number past 64 bits", query("SELECT TITLE FROM BOOK WHERE ID = §9223372036854775808", "syntax"),
        ("64 bits",), ("9,223,372,036,854,775,807",),
    ),
    Fault(
        "a date", query("SELECT BOOK FROM LOAN WHERE DAY > DATE §'2024-01-01'", "syntax"), ("Dates",), ("YYYY-MM-DD",),
    ),
    Fault(
        "a number as a text", query("SELECT TITLE FROM BOOK WHERE PRICE = §'4900'", "kind"),
        ("BOOK.PRICE is INTEGER", "is a text"), ("4900, without quotes",),
    ),
    Fault(
        "a text as a number", query("SELECT NAME FROM READER R WHERE TOWN IN ('Moss', §5)", "kind"), ("5 is a number",),
        ("'5'",),
    ),
    Fault(
        "columns of two kinds", query("SELECT B.TITLE FROM BOOK B JOIN AUTHOR A ON B.AUTHOR = §A.NAME", "kind"),
        ("B.AUTHOR is INTEGER", "A.NAME is VARCHAR(40)"), ("A.ID|Compare columns of one kind|of one kind",),
    ),
    Fault(
        "a comma missing between columns", query("SELECT ID TITLE §PRICE FROM BOOK", "syntax"), ("comma missing",),
        ("before PRICE",),
    ),
    Fault(
        "a comma missing between tables", query("SELECT R.NAME FROM READER R §LOAN L", "syntax"), ("comma missing",),
        ("before LOAN",),
    ),
    Fault("a comma too many", query("SELECT ID, TITLE, §FROM BOOK", "syntax"), ("comma too many",), ("before FROM",)),
    Fault("FORM", query("SELECT * §FORM BOOK", "syntax"), ("FORM",), ("FROM?",)),
    Fault("WHRE", query("SELECT TITLE FROM BOOK WHRE §PRICE > 1", "syntax"), ("WHRE",), ("WHERE?",)),
    Fault(
        "half a comparison", query("SELECT TITLE FROM BOOK WHERE GENRE = 1 OR 2§", "syntax"), ("whole comparison",),
        ("IN (1, 2)",),
    ),
    Fault(
        "a text that ends too early", query("SELECT TITLE FROM BOOK WHERE\n\n§", "syntax"), ("ends here behind WHERE",),
        ("Here may stand",), ("query.sql, line 1, column 29", "SELECT TITLE FROM BOOK WHERE"),
    ),
    Fault(
        "a text that ends in a comment", query("SELECT TITLE FROM -- which?\n§", "syntax"), ("ends here behind FROM",),
        ("a table",), ("query.sql, line 1, column 18", "SELECT TITLE FROM"),
    ),
]
OF_SCHEMAS = [
    Fault(
        "TEXT", schema("CREATE TABLE BOOK (ID INTEGER PRIMARY KEY, TITLE §TEXT NOT NULL)", "syntax"),
        ("TEXT is no type",), ("VARCHAR(n)",),
    ),
    Fault("DATE", schema("CREATE TABLE LOAN (DAY §DATE NOT NULL)", "syntax"), ("DATE is no type",), ("VARCHAR(10)",)),
    Fault(
        "DECIMAL", schema("CREATE TABLE BOOK (PRICE §DECIMAL(10,2) NOT NULL)", "syntax"), ("DECIMAL is no type",),
        ("cents",),
    ),
    Fault(
        "BOOLEAN", schema("CREATE TABLE BOOK (SOLD §BOOLEAN NOT NULL)", "syntax"), ("BOOLEAN is no type",),
        ("1 and 0",),
    ),
    Fault(
        "VARCHAR without a length", schema("CREATE TABLE READER (NAME VARCHAR §NOT NULL)", "syntax"), ("its length",),
        ("VARCHAR(n)",),
    ),
    Fault(
        "a column that may be null",
        schema("CREATE TABLE BOOK (ID INTEGER PRIMARY KEY, §TITLE VARCHAR(60))", "nullable"), ("may be null",),
        ("TITLE VARCHAR(60) NOT NULL",),
    ),
    Fault(
        "DEFAULT", schema("CREATE TABLE BOOK (ID INTEGER NOT NULL §DEFAULT 0)", "syntax"), ("DEFAULT",),
        ("Leave it out",),
    ),
    Fault(
        "a table's name that is reserved", schema("CREATE TABLE §ORDER (ID INTEGER NOT NULL)", "syntax"),
        ("reserved word",), ('"ORDER"',),
    ),
    Fault(
        "a table in single quotes, declared", schema("CREATE TABLE §'BOOK' (ID INTEGER NOT NULL)", "syntax"),
        ("single quotes", "text"), ("BOOK without quotes|TABLE BOOK",),
    ),
    Fault(
        "IF NOT EXISTS", schema("CREATE TABLE IF §NOT EXISTS BOOK (ID INTEGER NOT NULL)", "syntax"), ("IF NOT EXISTS",),
        ("CREATE TABLE and the name",),
    ),
    Fault(
        "a schema that ends too early", schema("CREATE TABLE BOOK (ID INTEGER NOT NULL\n\n§", "syntax"), ("ends here",),
        (")",), ("schema.sql, line 1, column 39",),
    ),
    Fault(
        "a key of a column that isn't there",
        schema(
            "CREATE TABLE LOAN (BOOK INTEGER NOT NULL, DAY VARCHAR(10) NOT NULL, PRIMARY KEY (BOOK, §DAYS))", "name",
        ),
        ("DAYS",), ("DAY?",),
    ),
    Fault(
        "schema and query swapped",
        Mistake("error schema syntax 0", ("query.sql, line 1, column 1",), words=("run", "query.sql", "schema.sql")),
        ("looks like a query",), ("SCHEMA first",),
    ),
    Fault(
        "a query that isn't UTF-8",
        Mistake(
            "error query syntax 38", ("query.sql, line 1, column 39",),
            {"query.sql": "SELECT TITLE FROM BOOK WHERE TITLE = 'Øl'".encode("latin-1")},
        ),
        ("no UTF-8",), ("safebound convert query.sql",),
    ),
]
OF_FILES = [
    Fault(
        "an empty cell", books("1,Sult,2,1,4900\r\n2,Pan,2,1,\r\n", "field 2 PRICE"), ("nothing", "INTEGER"),
        ("0 or -1",), ("line 3, record 2", "column PRICE"),
    ),
    Fault(
        "a decimal in a cell", books("1,Sult,2,1,5.0\r\n", "field 1 PRICE"), ("`5.0`",), ("cents",),
        ("line 2, record 1", "column PRICE"),
    ),
    Fault(
        "thousands with a comma", books('1,Sult,2,1,"1,005"\r\n', "field 1 PRICE"), ("`1,005`", "digits"), ("1005",),
        ("line 2, record 1", "column PRICE"),
    ),
    Fault(
        "a date in a cell of numbers", books("1,Sult,2,1,2024-01-05\r\n", "field 1 PRICE"), ("date",), ("VARCHAR(10)",),
        ("line 2, record 1", "column PRICE"),
    ),
    Fault(
        "a blank before a number", books("1,Sult,2,1, 4900\r\n", "field 1 PRICE"), ("Blanks",), ("take them away",),
        ("line 2, record 1", "column PRICE"),
    ),
    Fault(
        "a text that is too long", table("reader.csv", HEAD + "1,Ane,The island of Tromsoya\r\n", "field 1 TOWN"),
        ("22 characters",), ("VARCHAR(22)",), ("line 2, record 1", "column TOWN"),
    ),
    Fault(
        "a key that repeats", books("1,Sult,2,1,4900\r\n1,Pan,2,1,3900\r\n", "key 2 1"), ("the key ID",),
        ("Remove one",), ("line 3, record 2", "line 2 (record 1)"),
    ),
    Fault(
        "a comma without quotes", books("1,Kransen, Husfrue,3,1,9900\r\n", "width 1 6"), ("6 fields", "5"), ('"',),
        ("line 2, record 1",),
    ),
    Fault(
        "a field that is missing", books("1,Sult,2,1,4900\r\n2,Pan,2,1\r\n", "width 2 4"), ("4 fields", "5"),
        ("keeps its comma",), ("line 3, record 2",),
    ),
    Fault(
        "a quote that nothing closes",
        books('1,Sult,2,1,4900\r\n2,"Pan,2,1,3900\r\n3,Mysterier,2,1,5900\r\n', "width 2 2"),
        ("isn't closed|nothing closes",), ('a " is missing|twice',), ("line 3, record 2",),
    ),
    Fault(
        "a quote that is closed far below",
        books(
            '1,"Sult,2,1,4900\r\n2,Pan,2,1,3900\r\n3,Sult,2,1,4900\r\n4,Pan,2,1,3900\r\n5,"Mysterier",2,1,5900\r\n',
            "field 1 TITLE",
        ),
        ("line ends|lines",), ('a " is missing|closed',), ("line 2, record 1", "column TITLE"),
    ),
    Fault(
        "semicolons", readers("ID;NAME;TOWN\r\n1;Ane;Hamar\r\n", "header ID"), ("semicolons",),
        ("safebound convert reader.csv",), ("header of reader.csv",),
    ),
    Fault(
        "tabs", readers("ID\tNAME\tTOWN\n1\tAne\tHamar\n", "header ID"), ("tabs",), ("safebound convert reader.csv",),
        ("header of reader.csv",),
    ),
    Fault(
        "a line sep=; of Excel", readers("sep=;\r\nID;NAME;TOWN\r\n1;Ane;Hamar\r\n", "header ID"), ("sep=;",),
        ("safebound convert reader.csv",), ("header of reader.csv",),
    ),
    Fault(
        "semicolons in the rows alone", readers(HEAD + "1;Ane;Hamar\r\n", "width 1 1"), ("semicolons",),
        ("safebound convert reader.csv|commas",), ("line 2, record 1",),
    ),
    Fault(
        "no header", readers("1,Ane,Hamar\r\n2,Bo,Hamar\r\n", "header ID"), ("looks like a row",), ("ID,NAME,TOWN",),
        ("reader.csv",),
    ),
    Fault(
        "a header with another name", readers("ID,NAMES,TOWN\r\n1,Ane,Hamar\r\n", "header NAME"), ("no column NAME",),
        ("`NAMES`",), ("reader.csv",),
    ),
    Fault(
        "a name twice in a header", readers("ID,NAME,name,TOWN\r\n1,Ane,Ane,Hamar\r\n", "header NAME"), ("2 times",),
        ("once",), ("reader.csv",),
    ),
    Fault("an empty file", readers("", "header ID"), ("holds nothing",), ("ID,NAME,TOWN",), ("reader.csv",)),
    Fault(
        "Latin-1", readers(HEAD + "1,Åse,Hamar\r\n", "utf8 16", "latin-1"), ("no UTF-8",),
        ("safebound convert reader.csv",), ("reader.csv, line 2, column 3",),
    ),
    Fault(
        "UTF-16", readers(HEAD, "utf8 0", "utf-16"), ("UTF-16",), ("safebound convert reader.csv",),
        ("reader.csv, line 1, column 1",),
    ),
    Fault(
        "a folder of tables in Latin-1",
        Mistake(
            "error table reader.csv utf8 16", (),
            {
                "shop/reader.csv": (HEAD + "1,Åse,Hamar\r\n").encode("latin-1"),
                "shop/schema.sql": b"CREATE TABLE READER"
                b" (ID INTEGER PRIMARY KEY, NAME VARCHAR(40) NOT NULL, TOWN VARCHAR(20) NOT NULL)",
                "shop/query.sql": b"SELECT NAME FROM READER",
            },
            ("run", "schema.sql", "query.sql", "--data", "shop"),
        ),
        ("no UTF-8",), ("safebound convert shop/reader.csv",), ("line 2, column 3",),
    ),
    Fault(
        "a table that is missing", missing("loan.csv", (), {"loan.csv": None}), ("no file loan.csv",),
        ("lower case and .csv",), ("looked for in",),
    ),
    Fault(
        "a table in upper case", missing("loan.csv", (), {"loan.csv": None, "LOAN.CSV": b"BOOK,READER,DAY\r\n"}),
        ("LOAN.CSV is there",), ("Rename it",), ("looked for in",),
    ),
    Fault(
        "a table that is packed",
        missing("loan.csv", (), {"loan.csv": None, "loan.csv.gz": gzip.compress(b"BOOK,READER,DAY\r\n")}),
        ("loan.csv.gz is there",), ("unpack",), ("looked for in",),
    ),
    Fault(
        "a folder in place of a table", missing("loan.csv", (), {"loan.csv": None, "loan.csv/x": b""}),
        ("is a folder",), ("file",), ("loan.csv",),
    ),
    Fault(
        "another name of the schema", missing("shema.sql", (), words="run shema.sql query.sql"), ("no file shema.sql",),
        ("schema.sql is there",), ("looked for in",),
    ),
    Fault(
        "outside of the folder",
        missing(
            "author.csv", (),
            {
                "author.csv": None, "query.sql": b"SELECT ID FROM AUTHOR",
                "schema.sql": b"CREATE TABLE AUTHOR (ID INTEGER PRIMARY KEY)",
            },
        ),
        ("no file author.csv",), ("--data DIR",), ("looked for in",),
    ),
]
OF_LINES = [
    Fault("a command that isn't there", usage("runn schema.sql query.sql"), ("no command runn",), ("run?",), ("runn",)),
    Fault(
        "an option that isn't there", usage("run schema.sql query.sql --budjet 5"), ("no option --budjet",),
        ("--budget?",), ("--budjet",),
    ),
    Fault(
        "--out of run", usage("run schema.sql query.sql --out rows.csv"), ("no option --out",), ("> rows.csv",),
        ("--out",),
    ),
    Fault("-o of run", usage("run schema.sql query.sql -o rows.csv"), ("no option -o",), ("> rows.csv",), ("-o",)),
    Fault(
        "--out of picture", Mistake(None, (), words=("picture", "schema.sql", "query.sql", "--out", "x.svg")),
        ("no option --out",), ("--output?",), ("--out",),
    ),
    Fault(
        "an exponent as a budget", usage("run schema.sql query.sql --budget 1e6"), ("1e6", "digits alone"),
        ("1000000",), ("--budget",),
    ),
    Fault(
        "a budget of nothing", usage("run schema.sql query.sql --budget 0"), ("has the value 0",),
        ("from 1 to 20,000,000",), ("--budget",),
    ),
    Fault(
        "a budget without its value", usage("run schema.sql query.sql --budget"), ("lacks its value",),
        ("from 1 to 20,000,000",), ("--budget",),
    ),
    Fault(
        "an option twice", usage("run schema.sql query.sql --budget 5 --budget 6"), ("stands twice",), ("once",),
        ("--budget",),
    ),
    Fault(
        "a word too many", usage("run schema.sql query.sql book.csv"), ("a word too many",), ("SCHEMA and QUERY",),
        ("book.csv",),
    ),
    Fault("a query alone", usage("run query.sql"), ("lacks",), ("safebound run query.sql --data .",), ("run",)),
    Fault("a demo without a number", usage("demo"), ("wants a number",), ("safebound demo 7",), ("demo",)),
    Fault("a demo below zero", usage("demo -1"), ("-1 is no number",), ("from 0 to 4,294,967,295",), ("-1",)),
    Fault("a demo of a word", usage("demo seven"), ("seven is no number",), ("from 0 to 4,294,967,295",), ("seven",)),
    Fault(
        "flags that can't stand together", usage("plan schema.sql query.sql --keys --stats old.stats"),
        ("can't stand beside",), ("a statistics file|whole tables",), ("--keys",),
    ),
]
OF_BOUNDS = [
    Fault(
        "a condition that was forgotten",
        past_budget("SELECT R.NAME FROM READER R, LOAN L, BOOK B", "error budget 60", words="--budget 50"),
        ("aren't connected",), ("A.X = B.Y",), ("R; L; B",),
    ),
    Fault(
        "several equalities between two tables",
        past_budget(
            "SELECT R.A FROM R, S WHERE R.A = S.A AND R.B = S.B", "error budget 8", words="--budget 7", files=PAIRS,
        ),
        ("R and S", "count as one|counts one"), ("--budget 8",), ("R.A = S.A", "R.B = S.B"),
    ),
    Fault(
        "a limit of FROM",
        Mistake(
            "error limit from-entries 13", (),
            {"query.sql": ("SELECT A0.ID FROM " + ", ".join(f"AUTHOR A{i}" for i in range(13))).encode()},
        ),
        ("at most 12", "13"), ("leave|Leave|ask|Ask|several queries",), ("FROM",),
    ),
    Fault(
        "an empty statistics file", stats("error stats syntax 1", b""), ("is empty", "the shell empties"),
        ("safebound stats schema.sql query.sql > old.stats",), ("old.stats",),
    ),
    Fault(
        "no statistics file", stats("error stats syntax 1", b"hello\n"), ("no statistics file",),
        ("safebound stats schema.sql query.sql > old.stats",), ("line 1",),
    ),
    Fault(
        "an append without a section", append("error stats missing 0", table="genre"),
        ("no statistics of the table genre",),
        ("a query that names genre|a QUERY that names genre", "safebound stats schema.sql QUERY > "), ("old.stats",),
    ),
    Fault(
        "an append to no table", append("error stats missing 0", table="AUTOR"), ("no table AUTOR",), ("AUTHOR?",),
        ("AUTOR",),
    ),
]
FAULTS = OF_NAMES + OF_ACCENTS + OF_QUOTES + OF_CLAUSES + OF_SIGNS + OF_SCHEMAS + OF_FILES + OF_LINES + OF_BOUNDS
