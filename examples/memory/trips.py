"""The query of examples/trips over tables that are made in memory: no file is read, and no process started.

    python3 examples/memory/trips.py
"""

import sys

from safebound import run

SCHEMA = """
    CREATE TABLE CITY (NAME VARCHAR(20) PRIMARY KEY, COUNTRY VARCHAR(2) NOT NULL);
    CREATE TABLE GUIDE (ID INTEGER PRIMARY KEY, NAME VARCHAR(20) NOT NULL);
    CREATE TABLE TRIP (CITY VARCHAR(20) NOT NULL, GUIDE INTEGER NOT NULL, PRICE INTEGER NOT NULL)
"""
QUERY = """
    SELECT CITY.NAME, GUIDE.NAME, PRICE FROM CITY, TRIP, GUIDE
    WHERE CITY.COUNTRY = 'FR' AND TRIP.CITY = CITY.NAME AND TRIP.GUIDE = GUIDE.ID AND PRICE < 100
"""

# The program's own data. It becomes a table file.
PARIS = "Paris, capital"
TRIPS = [("Lyon", 1, 80), ("Lyon", 2, 95), ("Turin", 1, 60), (PARIS, 1, 120), (PARIS, 3, 90), ("Turin", 3, 70)]

files = {
    "schema.sql": SCHEMA,
    "query.sql": QUERY,
    "city.csv": 'NAME,COUNTRY\nLyon,FR\n"Paris, capital",FR\nTurin,IT\nNantes,FR\n',
    "guide.csv": "ID,NAME\n1,Ada\n2,Ben\n3,Cleo\n",
    "trip.csv": "CITY,GUIDE,PRICE\n" + "".join(f'"{city}",{guide},{price}\n' for city, guide, price in TRIPS),
}
output = run(["run", "schema.sql", "query.sql"], files)
sys.stdout.buffer.write(output.notes + output.out)
sys.exit(output.status)
