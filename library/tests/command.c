/* A command over the library for files in memory. It reads the files of the current folder, and calls the library with the
   words of its command line. It writes both resulting texts, and ends with the status. So cases/run-cases tests the
   library as it tests the program.

   Each word, name, file and room ends at the end of a page, and touching the next page ends the program. Arguments that are
   only read can't be written. Rooms begin at 16 bytes, and grow if one is too small. The text in the smaller room has to be
   the beginning of the text in the larger one. Notes may differ if the output was cut: the shorter notes may then have the line
   of that fault. No memory is kept. With REFUSE=N in the environment, the request for memory after the first N fails. */
#define _GNU_SOURCE
#include "safebound_command.h"
#include "counted_memory.h"

#include <dirent.h>
#include <fcntl.h>
#include <stdio.h>
#include <stdlib.h>
#include <string.h>
#include <sys/mman.h>
#include <sys/stat.h>
#include <unistd.h>

#define LEAST_ROOM 16
#define GROWS 64
#define UNTOUCHED 0xA5

static void stop(const char *why) {
    fprintf(stderr, "command: %s\n", why);
    exit(99);
}

/* ---- memory */

static long requests_left = -1;

static bool is_refused(void) { return requests_left == 0 || (requests_left > 0 && requests_left-- == 0); }

/* ---- bytes before a page that can't be touched */

typedef struct {
    char *pages, *bytes;
    size_t mapped, size;
} block;

static block block_of(size_t size) {
    size_t page = (size_t)sysconf(_SC_PAGESIZE), mapped = (size / page + 2) * page;
    char *pages = mmap(NULL, mapped, PROT_READ | PROT_WRITE, MAP_PRIVATE | MAP_ANONYMOUS | MAP_NORESERVE, -1, 0);
    if (pages == MAP_FAILED || mprotect(pages + mapped - page, page, PROT_NONE) != 0) stop("no pages");
    return (block){pages, pages + mapped - page - size, mapped, size};
}

static safebound_text only_read(block made) {
    if (mprotect(made.pages, made.mapped - (size_t)sysconf(_SC_PAGESIZE), PROT_READ) != 0) stop("no pages");
    return (safebound_text){made.bytes, made.size};
}

static safebound_text text_of(const char *bytes) {
    block made = block_of(strlen(bytes));
    memcpy(made.bytes, bytes, made.size);
    return only_read(made);
}

static safebound_text contents(const char *name, size_t size) {
    block made = block_of(size);
    int file = open(name, O_RDONLY);
    for (size_t done = 0; done < size;) {
        ssize_t count = read(file, made.bytes + done, size - done);
        if (count <= 0) stop("a file can't be read");
        done += (size_t)count;
    }
    close(file);
    return only_read(made);
}

/* ---- the files of the folder */

static safebound_file *files;
static size_t file_count;

static void read_folder(void) {
    DIR *folder = opendir(".");
    if (folder == NULL) stop("no folder");
    for (struct dirent *entry; (entry = readdir(folder)) != NULL;) {
        struct stat about;
        if (stat(entry->d_name, &about) != 0 || !S_ISREG(about.st_mode)) continue;
        files = realloc(files, (file_count + 1) * sizeof *files);
        files[file_count++] = (safebound_file){text_of(entry->d_name), contents(entry->d_name, (size_t)about.st_size)};
    }
    closedir(folder);
}

/* ---- rooms */

typedef struct {
    block room;
    uint64_t length;
} stream;

static void clear(stream *text) {
    memset(text->room.bytes, UNTOUCHED, text->room.size);
    text->length = UINT64_MAX;
}

/* Whether the room was filled to its end. If so, it is replaced by a larger room. */
static bool grown(stream *text, block *before) {
    if (text->length != text->room.size) return false;
    *before = text->room;
    text->room = block_of(text->room.size * GROWS);
    return true;
}

static void check_room(const stream *text, const block *before) {
    if (text->length > text->room.size) stop("more is written than there is room");
    for (size_t i = text->length; i < text->room.size; i++)
        if ((unsigned char)text->room.bytes[i] != UNTOUCHED) stop("written behind the text");
    if (before->bytes == NULL) return;
    if (text->length < before->size || memcmp(before->bytes, text->room.bytes, before->size) != 0) stop("another beginning");
    munmap(before->pages, before->mapped);
}

static void unmap(block *before) {
    if (before->bytes != NULL) munmap(before->pages, before->mapped);
    *before = (block){0};
}

static void write_all(int to, const stream *text) {
    for (size_t done = 0; done < text->length;) {
        ssize_t count = write(to, text->room.bytes + done, text->length - done);
        if (count <= 0) stop("a stream can't be written");
        done += (size_t)count;
    }
}

int main(int count, char **arguments) {
    size_t words_length = (size_t)count - 1;
    safebound_text *words = malloc((words_length + 1) * sizeof *words);
    for (size_t i = 0; i < words_length; i++) words[i] = text_of(arguments[i + 1]);
    read_folder();
    if (files == NULL) files = malloc(sizeof *files);
    const char *refuse = getenv("REFUSE");
    stream out = {block_of(LEAST_ROOM), 0}, notes = {block_of(LEAST_ROOM), 0};
    block out_before = {0}, notes_before = {0};
    uint32_t status;
    bool again;
    do {
        clear(&out);
        clear(&notes);
        requests_left = refuse == NULL ? -1 : atol(refuse);
        status = safebound_command(words, words_length, files, file_count, out.room.bytes, out.room.size, notes.room.bytes,
                                   notes.room.size, &out.length, &notes.length);
        if (kept != 0) stop("memory is kept");
        check_room(&out, &out_before);
        check_room(&notes, &notes_before);
        out_before = notes_before = (block){0};
        bool is_cut = status == SAFEBOUND_EXIT_WRITE, out_grows = grown(&out, &out_before), notes_grow = grown(&notes, &notes_before);
        if (is_cut && !out_grows && !notes_grow) stop("a room is too small, and both have more");
        if (out_grows) unmap(&notes_before);
        again = out_grows || notes_grow;
    } while (again);
    write_all(1, &out);
    write_all(2, &notes);
    return (int)status;
}
