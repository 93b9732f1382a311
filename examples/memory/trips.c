/* The query of examples/trips over tables that are made in memory: no file is read, and no process started.

       cc -Iinclude examples/memory/trips.c library/out/libsafebound_command.a -o trips
       ./trips */
#include "safebound_command.h"

#include <stdio.h>
#include <string.h>

static const char SCHEMA[] =
    "CREATE TABLE CITY (NAME VARCHAR(20) PRIMARY KEY, COUNTRY VARCHAR(2) NOT NULL);"
    "CREATE TABLE GUIDE (ID INTEGER PRIMARY KEY, NAME VARCHAR(20) NOT NULL);"
    "CREATE TABLE TRIP (CITY VARCHAR(20) NOT NULL, GUIDE INTEGER NOT NULL, PRICE INTEGER NOT NULL);";

static const char QUERY[] =
    "SELECT CITY.NAME, GUIDE.NAME, PRICE FROM CITY, TRIP, GUIDE "
    "WHERE CITY.COUNTRY = 'FR' AND TRIP.CITY = CITY.NAME AND TRIP.GUIDE = GUIDE.ID AND PRICE < 100";

/* The program's own data. It becomes a table file. */
static const struct {
    const char *city;
    int guide, price;
} TRIPS[] = {{"Lyon", 1, 80},            {"Lyon", 2, 95},           {"Turin", 1, 60},
             {"Paris, capital", 1, 120}, {"Paris, capital", 3, 90}, {"Turin", 3, 70}};

static safebound_text text(const char *bytes) { return (safebound_text){bytes, strlen(bytes)}; }

int main(void) {
    char trips[1024], out[65536], notes[4096];
    int length = sprintf(trips, "CITY,GUIDE,PRICE\n");
    for (size_t i = 0; i < sizeof TRIPS / sizeof *TRIPS; i++)
        length += sprintf(trips + length, "\"%s\",%d,%d\n", TRIPS[i].city, TRIPS[i].guide, TRIPS[i].price);

    safebound_text words[] = {text("run"), text("schema.sql"), text("query.sql")};
    safebound_file files[] = {
        {text("schema.sql"), text(SCHEMA)},
        {text("query.sql"), text(QUERY)},
        {text("city.csv"), text("NAME,COUNTRY\nLyon,FR\n\"Paris, capital\",FR\nTurin,IT\nNantes,FR\n")},
        {text("guide.csv"), text("ID,NAME\n1,Ada\n2,Ben\n3,Cleo\n")},
        {text("trip.csv"), text(trips)},
    };
    uint64_t out_length, notes_length;
    uint32_t status = safebound_command(words, 3, files, 5, out, sizeof out, notes, sizeof notes, &out_length, &notes_length);
    fwrite(notes, 1, notes_length, stdout);
    fwrite(out, 1, out_length, stdout);
    return (int)status;
}
