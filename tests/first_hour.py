"""The first hour of a user who has five CSV files of a school and writes no schema: ten questions, and mistakes of that
hour.

The words that each explanation must have were written before any of the mistakes was run. The files are in `folder`, a
folder of the user's working folder.
"""
import io
import zipfile
from collections.abc import Iterable
from typing import Optional

from faults import Fault
from mistakes import Files, Mistake, placed

# The tables that sqlite3 fills from the files, to compute the answers.
TABLES = """
CREATE TABLE pupils (id INTEGER, name TEXT, class TEXT, born TEXT);
CREATE TABLE teachers (id INTEGER, name TEXT, subject TEXT);
CREATE TABLE rooms (nr INTEGER, floor INTEGER, seats INTEGER);
CREATE TABLE lessons (id INTEGER, teacher INTEGER, room INTEGER, class TEXT, weekday TEXT, hour INTEGER);
CREATE TABLE marks (pupil INTEGER, lesson INTEGER, mark INTEGER, day TEXT);
"""
QUESTIONS = (
    "SELECT name, born FROM pupils WHERE class = '5A'",
    "SELECT name FROM pupils WHERE born >= '2013-06-01'",
    "SELECT p.name, m.mark FROM pupils p JOIN marks m ON m.pupil = p.id",
    "SELECT p.name, m.mark, m.day FROM pupils p, marks m WHERE m.pupil = p.id AND m.mark >= 5",
    "SELECT l.weekday, l.hour, r.seats FROM lessons l JOIN rooms r ON l.room = r.nr WHERE r.floor = 1",
    "SELECT t.name, l.weekday FROM teachers t, lessons l WHERE l.teacher = t.id AND l.weekday IN ('Monday', 'Friday')",
    (
        "SELECT p.name, t.name, m.mark FROM pupils p, marks m, lessons l, teachers t WHERE m.pupil = p.id AND m.lesson"
        " = l.id AND l.teacher = t.id AND t.subject = 'Maths'"
    ),
    (
        "SELECT p.name, t.name, r.nr FROM pupils p, marks m, lessons l, teachers t, rooms r WHERE m.pupil = p.id"
        " AND m.lesson = l.id AND l.teacher = t.id AND l.room = r.nr AND m.mark BETWEEN 5 AND 6"
    ),
    "SELECT a.name, b.name FROM pupils a, pupils b WHERE a.class = b.class AND a.born < b.born",
    "SELECT p.name, l.id FROM pupils p, lessons l WHERE p.class = l.class AND NOT l.weekday = 'Monday'",
)


def asked(
    line: Optional[str], files: Optional[Files] = None, words: Iterable[str] = ("run", "query.sql", "--data", "folder")
) -> Mistake:
    """A mistake of that hour: the program's line (None: the program isn't run), files that replace those of the school,
    and the words of the command line.
    """
    return Mistake(line, (), files or {}, tuple(words))


def query(text: str, cause: str) -> Mistake:
    data, at = placed(text)
    return asked(f"error query {cause} {at}", {"query.sql": data})


def workbook() -> bytes:
    """The first bytes of a spreadsheet program's file, which is a zip archive."""
    data = io.BytesIO()
    with zipfile.ZipFile(data, "w") as archive:
        archive.writestr("xl/workbook.xml", "<workbook/>")
    return data.getvalue()


PUPILS = "id,name,class,born\r\n"
ALL_PUPILS = "SELECT * FROM pupils"
HEAD_OF_ROOMS = "nr,floor,seats\r\n"
ROOMS = "101,1,28\r\n102,1,30\r\n201,2,24\r\n"


def rooms(text: str, line: Optional[str] = None, of: str = "SELECT nr, floor FROM rooms WHERE seats > 25") -> Mistake:
    return asked(line, {"rooms.csv": text.encode(), "query.sql": of.encode()})


OF_TABLES = [
    Fault(
        "a table without its file",
        asked(None, {"teachers.csv": None, "query.sql": b"SELECT name FROM teachers"}),
        ("no file teachers.csv",),
        ("TEACHERS", "pupils.csv"),
        ("folder",),
    ),
    Fault(
        "a table whose file ends in .txt",
        asked(
            None,
            {
                "teachers.csv": None,
                "teachers.txt": b"id\tname\r\n1\tIna\r\n",
                "query.sql": b"SELECT name FROM teachers",
            },
        ),
        ("no file teachers.csv", "teachers.txt is there"),
        ("safebound convert folder/teachers.txt",),
        ("folder",),
    ),
    Fault(
        "a table whose file is in upper case",
        asked(
            None,
            {"teachers.csv": None, "Teachers.csv": b"id,name\r\n1,Ina\r\n", "query.sql": b"SELECT name FROM teachers"},
        ),
        ("Teachers.csv is there", "upper and lower case"),
        ("mv folder/Teachers.csv folder/teachers.csv",),
        ("folder",),
    ),
    Fault(
        "a table whose file has two endings",
        asked(
            None,
            {
                "teachers.csv": None,
                "teachers.csv.txt": b"id,name\r\n1,Ina\r\n",
                "query.sql": b"SELECT name FROM teachers",
            },
        ),
        ("teachers.csv.txt is there",),
        ("mv folder/teachers.csv.txt folder/teachers.csv",),
        ("folder",),
    ),
    Fault(
        "a table in the singular",
        query("SELECT name FROM §pupil", "name"),
        ("no file pupil.csv", "pupils.csv is there"),
        ("PUPILS?|FROM PUPILS",),
        ("query.sql, line 1, column 18",),
    ),
    Fault(
        "a table with its ending",
        query("SELECT * FROM pupils§.csv", "syntax"),
        ("a file's name",),
        ("FROM PUPILS",),
        ("query.sql, line 1, column 21",),
    ),
    Fault(
        "a file in quotes",
        query("SELECT * FROM §'pupils.csv'", "syntax"),
        ("a file's name",),
        ("FROM PUPILS",),
        ("query.sql, line 1, column 15",),
    ),
    Fault(
        "semicolons, with the folder",
        asked(None, {"lessons.csv": b"id;room\r\n1;101\r\n", "query.sql": b"SELECT room FROM lessons"}),
        ("semicolons",),
        ("safebound convert folder/lessons.csv",),
        ("lessons.csv",),
    ),
    Fault(
        "Latin-1, with the folder",
        asked(
            None, {"teachers.csv": "id,name\r\n1,Næss\r\n".encode("latin-1"), "query.sql": b"SELECT name FROM teachers"}
        ),
        ("isn't in UTF-8",),
        ("safebound convert folder/teachers.csv",),
        ("teachers.csv",),
    ),
    Fault(
        "a workbook called .csv",
        asked(None, {"teachers.csv": workbook(), "query.sql": b"SELECT name FROM teachers"}),
        ("workbook",),
        ("CSV UTF-8",),
        ("teachers.csv",),
    ),
    Fault(
        "a workbook alone",
        asked(
            None,
            {
                **dict.fromkeys(("pupils.csv", "teachers.csv", "rooms.csv", "lessons.csv", "marks.csv")),
                "school.xlsx": workbook(),
            },
        ),
        ("school.xlsx is there", "workbook"),
        ("CSV UTF-8",),
        ("folder",),
    ),
    Fault(
        "a workbook for a table with a schema",
        asked(
            None,
            {
                "rooms.csv": workbook(),
                "schema.sql": b"CREATE TABLE ROOMS (NR INTEGER PRIMARY KEY)",
                "query.sql": b"SELECT nr FROM rooms",
            },
            ("run", "schema.sql", "query.sql", "--data", "folder"),
        ),
        ("workbook",),
        ("CSV UTF-8",),
        ("rooms.csv",),
    ),
]
OF_CELLS = [
    Fault(
        "one decimal among whole numbers",
        rooms(HEAD_OF_ROOMS + ROOMS + '301,3,"12,50"\r\n'),
        ("`12,50`", "SEATS", "text"),
        ("cents",),
        ("line 5",),
    ),
    Fault(
        "one word among numbers",
        rooms(HEAD_OF_ROOMS + ROOMS + "301,3,many\r\n"),
        ("`many`", "SEATS", "text"),
        ("number",),
        ("line 5",),
    ),
    Fault(
        "a line of totals",
        rooms(HEAD_OF_ROOMS + ROOMS + "Total,,82\r\n", None, "SELECT seats FROM rooms WHERE nr > 101"),
        ("`Total`", "NR", "text"),
        ("leave the record out|leave that line out",),
        ("line 5",),
    ),
    Fault(
        "thousands with a blank",
        rooms(HEAD_OF_ROOMS + ROOMS + "301,3,1 200\r\n"),
        ("`1 200`", "SEATS"),
        ("1200",),
        ("line 5",),
    ),
    Fault(
        "a sign of a currency",
        rooms(HEAD_OF_ROOMS + ROOMS + "301,3,€60\r\n"),
        ("`€60`", "SEATS"),
        ("digits",),
        ("line 5",),
    ),
    Fault(
        "a header that is a field short",
        rooms("nr,floor\r\n" + ROOMS, None, "SELECT nr FROM rooms"),
        ("3 fields", "header has 2|header 2"),
        ("name is missing in the header",),
        ("rooms.csv",),
    ),
    Fault(
        "a header that is a field long",
        rooms("nr,floor,seats,note\r\n" + ROOMS, None, "SELECT nr FROM rooms"),
        ("3 fields", "header has 4|header 4"),
        ("a name too many",),
        ("rooms.csv",),
    ),
    Fault(
        "rows that end in a comma",
        rooms(HEAD_OF_ROOMS + "101,1,28,\r\n102,1,30,\r\n"),
        ("4 fields", "end in a comma"),
        ("take it away",),
        ("rooms.csv",),
    ),
    Fault(
        "a quote that takes in rows",
        asked(
            None,
            {
                "pupils.csv": (
                    PUPILS
                    + '1,"Ada,5A,2013-04-02\r\n2,Bo,5A,2013-11-30\r\n3,Cleo",5B,2012-12-24\r\n4,Dina,5B,2013-06-17\r\n'
                ).encode(),
                "query.sql": b"SELECT name, class FROM pupils WHERE nme = 'X'",
            },
        ),
        ("line ends and commas", "NAME"),
        ('a " is missing|closes',),
        ("line 2",),
    ),
    Fault(
        "an id that repeats",
        asked(
            None,
            {
                "pupils.csv": (
                    PUPILS + "1,Ada,5A,2013-04-02\r\n2,Bo,5A,2013-11-30\r\n2,Cleo,5B,2012-12-24\r\n"
                ).encode(),
                "query.sql": b"SELECT nme FROM pupils",
            },
        ),
        ("ID", "`2`", "no key"),
        ("Give one of the two another|remove one",),
        ("lines 3 and 4",),
    ),
    Fault(
        "a title above the header",
        rooms("Rooms of 2024,,\r\n" + HEAD_OF_ROOMS + ROOMS, None, "SELECT nr FROM rooms"),
        ("first line names 1 of its 3 columns",),
        ("delete|Delete|Remove|remove",),
        ("rooms.csv",),
    ),
    Fault(
        "blanks in a header",
        rooms("nr, floor, seats\r\n" + ROOMS, "error query name 11"),
        ("blank",),
        ("take them away|Take them away",),
        ("header",),
    ),
    Fault(
        "a name of two words",
        asked(
            "error query name 7",
            {
                "pupils.csv": b"id,first name,class\r\n1,Ada,5A\r\n2,Bo,5A\r\n",
                "query.sql": b"SELECT first name FROM pupils",
            },
        ),
        ("no column FIRST|No entry has a column FIRST",),
        ('"first name"',),
        ("query.sql, line 1, column 8",),
    ),
]
OF_QUERIES = [
    Fault(
        "a decimal with a comma",
        query("SELECT nr FROM rooms WHERE seats > 12§,50", "syntax"),
        ("integers",),
        ("1250", "cents"),
        ("query.sql, line 1, column 38",),
    ),
    Fault(
        "arithmetic in SELECT",
        query("SELECT seats §* 2 FROM rooms", "syntax"),
        ("arithmetic in SELECT",),
        ("behind the command|column",),
        ("query.sql, line 1, column 14",),
    ),
    Fault(
        "a quotient in SELECT",
        query("SELECT seats §/ 2 FROM rooms", "syntax"),
        ("arithmetic in SELECT",),
        ("behind the command|column",),
        ("query.sql, line 1, column 14",),
    ),
    Fault(
        "ORDER BY another column",
        query("SELECT floor, nr, seats FROM rooms §ORDER BY seats DESC", "syntax"),
        ("ORDER BY",),
        ("sort -t, -k3,3nr",),
        ("query.sql, line 1, column 36",),
    ),
    Fault(
        "ORDER BY a column of *",
        query("SELECT * FROM pupils §ORDER BY born", "syntax"),
        ("ORDER BY",),
        ("sort -t, -k4,4",),
        ("query.sql, line 1, column 22",),
    ),
    Fault(
        "ORDER BY what isn't selected",
        query("SELECT name FROM pupils §ORDER BY born", "syntax"),
        ("ORDER BY",),
        ("BORN|born", "SELECT"),
        ("query.sql, line 1, column 25",),
    ),
    Fault(
        "a date without quotes",
        query("SELECT name FROM pupils WHERE born > 2013§-06-01", "syntax"),
        ("date",),
        ("'2013-06-01'",),
        ("query.sql, line 1, column 42",),
    ),
    Fault(
        "a code without quotes",
        query("SELECT name FROM pupils WHERE class = 5§A", "syntax"),
        ("text",),
        ("'5A'",),
        ("query.sql, line 1, column 40",),
    ),
    Fault(
        "a text in double quotes",
        query('SELECT name FROM pupils WHERE name = §"Ada Berg"', "name"),
        ("a name",),
        ("'Ada Berg'",),
        ("query.sql, line 1, column 38",),
    ),
    Fault(
        "a column of the other table",
        query("SELECT p.name FROM pupils p, marks m WHERE p.id = §m.pupils", "name"),
        ("no column PUPILS",),
        ("PUPIL?",),
        ("query.sql, line 1, column 51",),
    ),
    Fault(
        "a number in quotes",
        query("SELECT nr FROM rooms WHERE seats > §'25'", "kind"),
        ("is a text",),
        ("25, without quotes",),
        ("query.sql, line 1, column 36",),
    ),
    Fault(
        "an empty query",
        asked("error query syntax 0", {"query.sql": b""}),
        ("holds nothing",),
        ("SELECT",),
        ("query.sql",),
    ),
    Fault(
        "a query in UTF-16",
        asked("error query syntax 0", {"query.sql": ALL_PUPILS.encode("utf-16")}),
        ("UTF-16",),
        ("safebound convert folder/query.sql",),
        ("query.sql",),
    ),
    Fault(
        "COUNT of a group",
        query("SELECT class, COUNT§(*) FROM pupils GROUP BY class", "syntax"),
        ("COUNT", "aggregates"),
        ("another program|audit",),
        ("query.sql, line 1, column 20",),
    ),
]
OF_LINES = [
    Fault(
        "a table given as a query",
        asked("error query syntax 0", words=("run", "pupils.csv", "--data", "folder")),
        ("a table's file",),
        ("SELECT * FROM PUPILS", "query.sql"),
        ("pupils.csv",),
    ),
    Fault(
        "a table given as a schema",
        asked("error schema syntax 0", words=("run", "pupils.csv", "query.sql", "--data", "folder")),
        ("a table's file",),
        ("safebound run query.sql --data folder",),
        ("pupils.csv",),
    ),
    Fault(
        "the text of a query in place of its file",
        asked(None, words=("run", "SELECT name FROM pupils", "--data", "folder")),
        ("text of a query",),
        ("query.sql",),
        ("SELECT name FROM pupils",),
    ),
    Fault(
        "the folder forgotten",
        asked("error usage", words=("run", "query.sql")),
        ("lacks", "query.sql is in folder"),
        ("safebound run query.sql --data folder",),
        ("run",),
    ),
    Fault(
        "the folder twice",
        asked(None, words=("run", "folder/query.sql", "--data", "folder")),
        ("With --data every file is looked up in that folder",),
        ("safebound run query.sql --data folder|write query.sql",),
        ("folder/query.sql",),
    ),
    Fault(
        "the command forgotten",
        asked("error usage", words=("query.sql", "--data", "folder")),
        ("command",),
        ("safebound run query.sql --data folder",),
        ("query.sql",),
    ),
    Fault(
        "the query forgotten",
        asked("error usage", words=("run", "--data", "folder")),
        ("lacks",),
        ("safebound run query.sql --data folder",),
        ("run",),
    ),
    Fault(
        "a file in place of the folder",
        asked(None, words=("run", "query.sql", "--data", "folder/pupils.csv")),
        ("is a file", "folder"),
        ("--data folder",),
        ("folder/pupils.csv",),
    ),
    Fault(
        "a folder that isn't there",
        asked(None, words=("run", "query.sql", "--data", "foldr")),
        ("no folder",),
        ("folder?",),
        ("--data foldr",),
    ),
    Fault(
        "another word for --data",
        asked("error usage", words=("run", "query.sql", "--dir", "folder")),
        ("no option --dir",),
        ("--data folder|--data?",),
        ("--dir",),
    ),
    Fault(
        "a query with two endings",
        asked(None, {"query.sql": None, "query.sql.txt": ALL_PUPILS.encode()}),
        ("query.sql.txt is there",),
        ("mv folder/query.sql.txt folder/query.sql",),
        ("looked for in|folder",),
    ),
    Fault(
        "a schema that isn't there",
        asked("error read schema.sql", words=("run", "schema.sql", "query.sql", "--data", "folder")),
        ("no file schema.sql",),
        ("safebound run query.sql --data folder",),
        ("looked for in",),
    ),
    Fault(
        "a folder given to convert",
        asked(None, words=("convert", "folder")),
        ("is a folder",),
        ("safebound convert folder/",),
        ("folder",),
    ),
    Fault(
        "several files given to convert",
        asked(None, words=("convert", "folder/rooms.csv", "folder/marks.csv")),
        ("one file",),
        ("safebound convert folder/rooms.csv",),
        ("convert",),
    ),
    Fault(
        "a query given to schema",
        asked(None, words=("schema", "folder/query.sql")),
        ("a query",),
        ("folder/pupils.csv|safebound schema folder",),
        ("query.sql",),
    ),
]
JOBS = 'id,hours,Unit Price\r\n1,8.5,"18,75"\r\n2,10,"7,00"\r\n3,12.25,"10,5"\r\n4,9,"100,00"\r\n5,9.5,"7,00"\r\n'


def jobs(of: str, cause: str) -> Mistake:
    data, at = placed(of)
    return asked(f"error query {cause} {at}", {"jobs.csv": JOBS.encode(), "query.sql": data})


OF_DECIMALS = [
    Fault(
        "a column of decimals",
        jobs("SELECT §wages FROM jobs", "name"),
        ("HOURS", "`8.5`", "decimals", "text"),
        ("safebound convert folder/jobs.csv --cents HOURS", "850"),
        ("line 2",),
    ),
    Fault(
        "decimals beside a whole number",
        jobs("SELECT id FROM jobs WHERE hours > §9", "kind"),
        ("HOURS has decimals", "text"),
        ("safebound convert folder/jobs.csv --cents HOURS", "HOURS_CENTS > 900"),
        ("query.sql, line 1, column 35",),
    ),
    Fault(
        "decimals beside a decimal",
        jobs("SELECT id FROM jobs WHERE hours > 9§.5", "syntax"),
        ("HOURS has decimals", "text"),
        ("safebound convert folder/jobs.csv --cents HOURS", "HOURS_CENTS > 950"),
        ("query.sql, line 1, column 36",),
    ),
    Fault(
        "decimals BETWEEN whole numbers",
        jobs("SELECT id FROM jobs WHERE hours BETWEEN §9 AND 10", "kind"),
        ("HOURS has decimals", "text"),
        ("safebound convert folder/jobs.csv --cents HOURS", "HOURS_CENTS, and 900 for 9"),
        ("query.sql, line 1, column 41",),
    ),
    Fault(
        "decimals with a comma",
        jobs('SELECT id FROM jobs WHERE "Unit Price" > §10', "kind"),
        ('"Unit Price" has decimals', "text"),
        ("safebound convert folder/jobs.csv --cents 'Unit Price'", '"Unit Price cents" > 1000'),
        ("query.sql, line 1, column 42",),
    ),
]
CUSTOMERS = b"Customer No,Full Name,Town\r\n1,Ada Berg,Bonn\r\n2,Karin O'Brien,Ulm\r\n3,Cleo Rand,Bonn\r\n"
CARS = b"id,Owner,Make\r\n10,1,Audi\r\n11,2,Opel\r\n12,2,Audi\r\n"


def garage(text: str, cause: str) -> Mistake:
    data, at = placed(text)
    return asked(f"error query {cause} {at}", {"customers.csv": CUSTOMERS, "cars.csv": CARS, "query.sql": data})


OF_NAMES = [
    Fault(
        "a name of two words that begins with a reserved one",
        garage('SELECT §Full Name, Make FROM customers, cars WHERE Owner = "Customer No"', "syntax"),
        ('"Full Name"',),
        ("double quotes",),
        ("query.sql, line 1, column 8",),
    ),
    Fault(
        "a comma missing between tables",
        garage('SELECT "Full Name", §Make FROM customers cars WHERE Owner = "Customer No"', "name"),
        ("cars is read here as another name of customers", "cars.csv is there"),
        ("FROM customers, cars",),
        ("query.sql, line 1, column 21",),
    ),
    Fault(
        "a name in double quotes in lower case",
        garage('SELECT "Full Name", Make FROM customers, cars WHERE Owner = §"customer no"', "name"),
        ("upper and lower case",),
        ('Did you mean "Customer No"?',),
        ("query.sql, line 1, column 61",),
    ),
    Fault(
        "rows of each group",
        garage("SELECT Town, COUNT§(*) FROM customers GROUP BY Town", "syntax"),
        ("COUNT", "aggregates"),
        ("| tail -n +2 | sort | uniq -c", "in the place of COUNT(*)"),
        ("query.sql, line 1, column 19",),
    ),
    Fault(
        "a quote within a text",
        garage("SELECT Town FROM customers WHERE \"Full Name\" = 'Karin O'Brien§'", "syntax"),
        ("O'Brien",),
        ("'Karin O''Brien'",),
        ("query.sql, line 1, column 62",),
    ),
]
SCHOOL = (
    b"CREATE TABLE PUPILS (ID INTEGER PRIMARY KEY, NAME VARCHAR(20) NOT NULL, CLASS VARCHAR(5) NOT NULL,"
    b" BORN VARCHAR(10) NOT NULL);\n"
)
OF_FOLDERS = [
    Fault(
        "no query yet",
        asked("error usage", {"query.sql": None}, ("run", "--data", "folder")),
        ("There is no query in folder",),
        ("SELECT * FROM LESSONS", "safebound run query.sql --data folder"),
        ("run",),
    ),
    Fault(
        "a query in the folder of its tables",
        asked("error usage", words=("run", "folder/query.sql")),
        ("lacks SCHEMA", "a query"),
        ("safebound run query.sql --data folder",),
        ("folder/query.sql",),
    ),
    Fault(
        "tables named behind the query",
        asked("error usage", words=("run", "folder/query.sql", "folder/pupils.csv", "folder/marks.csv")),
        ("no line names tables",),
        ("safebound run query.sql --data folder",),
        ("folder/pupils.csv and folder/marks.csv",),
    ),
    Fault(
        "one table named behind the query",
        asked("error schema syntax 0", words=("run", "folder/query.sql", "folder/pupils.csv")),
        ("no line names tables",),
        ("safebound run query.sql --data folder",),
        ("folder/pupils.csv",),
    ),
    Fault(
        "query and schema in the other order",
        asked("error schema syntax 0", {"schema.sql": SCHOOL}, ("run", "query.sql", "schema.sql", "--data", "folder")),
        ("looks like a query",),
        ("SCHEMA first", "safebound run schema.sql query.sql --data folder"),
        ("query.sql",),
    ),
    Fault(
        "a schema that is there and isn't used",
        asked(None, {"schema.sql": SCHOOL}),
        (),
        (),
        ("folder/schema.sql is there, and isn't used", "safebound run schema.sql query.sql --data folder"),
    ),
    Fault(
        "a title and an empty line above the header",
        rooms("Rooms of 2024\r\n\r\n" + HEAD_OF_ROOMS + ROOMS, None, "SELECT nr FROM rooms"),
        ("Line 1 looks like a title",),
        ("Delete the lines above the header",),
        ("rooms.csv", "line 3"),
    ),
    Fault(
        "a quote that closes lines later",
        asked(
            "error table pupils.csv width 2 5",
            {
                "pupils.csv": (
                    PUPILS + '1,Ada,5A,2013-04-02\r\n2,"Bo,5A,2013-11-30\r\n3,Cleo,5B,2012-12-24\r\n'
                    '4,"Smith, Jr.",5B,2013-06-17\r\n'
                ).encode(),
                "query.sql": ALL_PUPILS.encode(),
            },
        ),
        ("opens on line 3", "closed only on line 5"),
        ('Write the " that is missing on line 3',),
        ("pupils.csv, line 3",),
    ),
]
OF_OTHERS = [
    Fault(
        "the first letter in Latin-1",
        asked(
            None,
            {
                "teachers.csv": "id,name\r\n1,Ina\r\n2,Næss\r\n".encode("latin-1"),
                "query.sql": b"SELECT name FROM teachers",
            },
        ),
        ("isn't in UTF-8", "`Næss`"),
        ("safebound convert folder/teachers.csv",),
        ("teachers.csv", "line 3"),
    ),
    Fault(
        "a first line for Excel",
        rooms("sep=;\r\nnr;floor;seats\r\n101;1;28\r\n", None, "SELECT nr FROM rooms"),
        ("sep=;", "for Excel", "semicolons"),
        ("leaves that line out", "safebound convert folder/rooms.csv"),
        ("rooms.csv",),
    ),
    Fault(
        "a file beside one in other letters",
        asked(None, {"Pupils.csv": b"id,name\r\n1,Ada\r\n", "query.sql": b"SELECT name FROM pupils WHERE id = 1"}),
        ("Pupils.csv is there too", "isn't read"),
        ("upper and lower case count",),
        ("pupils.csv",),
    ),
    Fault(
        "the text of a query, with lines to paste",
        asked(
            "error read SELECT name FROM pupils",
            {"query.sql": None},
            ("run", "SELECT name FROM pupils", "--data", "folder"),
        ),
        ("text of a query",),
        ("echo 'SELECT name FROM pupils' > folder/query.sql", "safebound run query.sql --data folder"),
        ("SELECT name FROM pupils",),
    ),
    Fault(
        "the text of a query without its folder",
        asked("error usage", words=("run", "SELECT name FROM pupils")),
        ("text of a query",),
        ("echo 'SELECT name FROM pupils' > query.sql", "safebound run query.sql --data ."),
        ("run",),
    ),
    Fault(
        "a column that the header names twice",
        asked(
            "error query name 7",
            {"rooms.csv": b"nr,seats,seats\r\n101,1,28\r\n102,1,30\r\n", "query.sql": b"SELECT seats FROM rooms"},
        ),
        ("No entry has a column SEATS", "names it 2 times"),
        ("rename all but one",),
        ("query.sql, line 1, column 8",),
    ),
    Fault(
        "a key that was guessed",
        asked(
            "error table pupils.csv key 3 1",
            {
                "pupils.csv": (
                    PUPILS + "1,Ada,5A,2013-04-02\r\n2,Bo,5A,2013-11-30\r\n1,Cleo,5B,2012-12-24\r\n"
                ).encode(),
                "schema.sql": b"-- Proposed from 1 file.\n" + SCHOOL,
                "query.sql": ALL_PUPILS.encode(),
            },
            ("run", "schema.sql", "query.sql", "--data", "folder"),
        ),
        ("stands in the key ID already", "guessed"),
        ("Remove one of the two, or the key from the schema, schema.sql, line 2",),
        ("pupils.csv, line 4",),
    ),
]
SALES = (
    'id,day,price,city,code,since\r\n1,15/09/2019,"1.234,50",Paris,007,2019-9-5\r\n'
    '2,01/10/2019,"99,00",,012,2019-12-1\r\n3,3/8/20,"100,00",Lyon,7,2020-1-31\r\n'
)


def sales(of: str) -> Mistake:
    return asked(None, {"sales.csv": SALES.encode(), "query.sql": f"SELECT id FROM sales WHERE {of}".encode()})


# Rows come, and notes stand before them.
OF_NOTES = [
    Fault(
        "days compared by order",
        sales("day >= '01/09/2019' AND day < '01/10/2019'"),
        ("character by character", "not as days", "`15/09/2019`"),
        ("YYYY-MM-DD",),
        ("day >= '01/09/2019' and day < '01/10/2019'", "line 2 of sales.csv|DAY of sales.csv"),
    ),
    Fault(
        "days with the year first compared by order",
        sales("since BETWEEN '2019-10-01' AND '2019-12-31'"),
        ("character by character", "not as days", "`2019-9-5`"),
        ("YYYY-MM-DD",),
        ("since BETWEEN", "on line 2"),
    ),
    Fault(
        "numbers with a point and a comma compared by order",
        sales("price > '500'"),
        ("character by character", "not as numbers", "`1.234,50`"),
        ("whole numbers", "without quotes"),
        ("price > '500'", "on line 2"),
    ),
    Fault(
        "numbers with zeros in front compared by order",
        sales("code < '10'"),
        ("character by character", "not as numbers", "`007`"),
        ("without zeros in front",),
        ("code < '10'", "on line 2"),
    ),
    Fault(
        "decimals compared by order as texts",
        asked(None, {"jobs.csv": JOBS.encode(), "query.sql": b"SELECT id FROM jobs WHERE '9' < hours"}),
        ("character by character", "not as numbers", "`8.5`"),
        ("safebound convert folder/jobs.csv --cents HOURS",),
        ("'9' < hours", "on line 2"),
    ),
    Fault(
        "unequal to a text, over an empty field",
        sales("city <> 'Paris'"),
        ("empty city", "among the rows", "SQL-92"),
        ("AND city <> ''",),
        ("line 3 of sales.csv",),
    ),
    Fault(
        "not equal to a text, over an empty field",
        sales("NOT (city = 'Paris' OR city = 'Lyon')"),
        ("empty city", "among the rows", "SQL-92"),
        ("AND city <> ''",),
        ("line 3 of sales.csv",),
    ),
    Fault(
        "numbers but for two words and an empty field",
        rooms(
            HEAD_OF_ROOMS + ROOMS + "301,3,\r\n302,3,many\r\n303,3,25\r\n304,3,n/a\r\n305,4,26\r\n306,4,27\r\n",
            None, "SELECT nr FROM rooms",
        ),
        ("SEATS has `many` on line 6", "`n/a`", "first on line 5"),
        ("number",),
        ("rooms.csv",),
    ),
]
FIRST_HOUR = (
    OF_TABLES + OF_CELLS + OF_QUERIES + OF_LINES + OF_DECIMALS + OF_NAMES + OF_FOLDERS + OF_OTHERS + OF_NOTES
)
# Mistakes whose remedy is a command to paste. After the command the same run succeeds.
PASTED = (
    "a table whose file ends in .txt",
    "a table whose file is in upper case",
    "a table whose file has two endings",
    "semicolons, with the folder",
    "Latin-1, with the folder",
    "a query in UTF-16",
    "a query with two endings",
    "the folder forgotten",
    "the command forgotten",
    "the query forgotten",
    "a schema that isn't there",
    "a query in the folder of its tables",
    "tables named behind the query",
    "one table named behind the query",
    "query and schema in the other order",
)
