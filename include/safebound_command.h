/* SafeBound's whole program over files in memory: plans, rows and audits of queries, without a process and without files on disk.

   A call takes the words of a command line, and files by name. It writes the program's two streams into two rooms, and
   returns the program's exit status. The words, the files and both texts are those of the program: docs/USING.md
   and docs/ERRORS.md of the repository describe them, and so does the man page safebound(1). The program's limits hold: 64 MiB
   and 4,000,000 rows for each table, budgets up to 20,000,000.

   It is a library of its own, libsafebound_command. It can be used beside libsafebound, and doesn't need it.

   - A call leaves nothing behind: there are no handles and no global state. Threads may call at the same time. No
     call may come from a signal handler, or from the child of a fork of a process with threads.
   - A pointer is never NULL, even if its length is 0. During a call nobody may change what it reads. The memory that it writes
     may not overlap any other argument. The call changes no file, and copies only files that it reads.
   - The library takes memory by three functions. The archive defines them over malloc, and a program may replace them:
     safebound_memory.h. A call frees all its memory before it returns. */

#ifndef SAFEBOUND_COMMAND_H
#define SAFEBOUND_COMMAND_H

#include <stddef.h>
#include <stdint.h>

#ifdef __cplusplus
extern "C" {
#endif

/* `length` bytes. There need not be a 0 behind them. */
typedef struct safebound_text {
    const char *bytes;
    size_t length;
} safebound_text;

/* A file: its name and its bytes. Words of the command line ask for a file by its name. A table's file is named like the table,
   in lower case, with .csv at its end. */
typedef struct safebound_file {
    safebound_text name;
    safebound_text bytes;
} safebound_file;

/* The exit status of the program. */
enum {
    SAFEBOUND_EXIT_DONE = 0,
    SAFEBOUND_EXIT_USAGE = 2,      /* the words are no command */
    SAFEBOUND_EXIT_READ = 3,       /* a file doesn't exist */
    SAFEBOUND_EXIT_SCHEMA = 4,     /* the schema text is refused */
    SAFEBOUND_EXIT_QUERY = 5,      /* the query text is refused */
    SAFEBOUND_EXIT_TABLE = 6,      /* a table's file is refused */
    SAFEBOUND_EXIT_LIMIT = 7,      /* a limit is exceeded */
    SAFEBOUND_EXIT_BUDGET = 8,     /* the best plan exceeds the budget */
    SAFEBOUND_EXIT_PAST_BITS = 9,  /* each order has a level whose bound exceeds 128 bits */
    SAFEBOUND_EXIT_WRITE = 10,     /* a room is too small */
    SAFEBOUND_EXIT_NO_MEMORY = 11, /* there was too little memory */
    SAFEBOUND_EXIT_STATS = 14,     /* a text of statistics is refused, or lacks what the query needs */
    SAFEBOUND_EXIT_WORDS = 15,     /* a word isn't UTF-8 */
    SAFEBOUND_EXIT_MEMORY_LIMIT = 16 /* the plan's buffers take more bytes than --memory says */
};

/* Runs the command line `words`, without the program's own name, over `files`. If several files have one name, the first counts.

   `out` gets the program's standard output: the rows of `run`, the audit of `audit` and `demo`, the file of `stats` and
   `append`, and nothing for `plan`. `notes` gets its standard error: the plan (none for `stats` and `append`), or the line
   that says why the call failed. `*out_length` and `*notes_length` get the number of bytes written. No 0 byte follows them,
   and the remaining bytes of the rooms have no meaning.

   SAFEBOUND_EXIT_WRITE is returned if a room is too small. That room is full: it has the beginning of its text, and its
   length is its whole size. The needed size isn't known then; give more, and call again. A plan mostly takes less than
   4,096 bytes. If the line of another status doesn't fit into its room, the line is cut.

   SAFEBOUND_EXIT_WORDS comes with empty texts.

   Example: the plan of a query over two tables.

       safebound_text words[] = {{"plan", 4}, {"schema.sql", 10}, {"query.sql", 9}};
       safebound_file files[] = {{{"schema.sql", 10}, schema}, {{"query.sql", 9}, query}, {{"r.csv", 5}, r}, {{"s.csv", 5}, s}};
       char out[1], notes[4096];
       uint64_t out_length, notes_length;
       uint32_t status = safebound_command(words, 3, files, 4, out, 1, notes, sizeof notes, &out_length, &notes_length);
       // SAFEBOUND_EXIT_DONE, out_length is 0, and notes has the plan */
uint32_t safebound_command(const safebound_text *words, size_t words_length, const safebound_file *files, size_t files_length,
                           char *out, size_t out_room, char *notes, size_t notes_room, uint64_t *out_length,
                           uint64_t *notes_length);

/* The library's version as text, such as "0.4.0". */
extern const char safebound_command_version[];

#ifdef __cplusplus
}
#endif

#endif
