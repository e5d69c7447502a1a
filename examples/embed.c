/* embed.c: the check called from C. It reads the six files of a feed and prints the verdict and all findings, with a second
 * word "boards" those of the profile for boards too, or all faults of a feed that is refused. */
#define _POSIX_C_SOURCE 200809L
#include <errno.h>
#include <fcntl.h>
#include <stdio.h>
#include <stdlib.h>
#include <string.h>
#include <sys/stat.h>

#include "tusuchiy.h"

enum { FILES = 6 };

/* A file: its name, the width of its table, and whether a feed may lack it. */
static const struct {
    const char *name;
    size_t width;
    int may_be_missing;
} KNOWN[FILES] = {
    {"stops.txt", TUSUCHIY_STOPS_WIDTH, 0},
    {"routes.txt", TUSUCHIY_ROUTES_WIDTH, 0},
    {"calendar.txt", TUSUCHIY_CALENDAR_WIDTH, 1},
    {"trips.txt", TUSUCHIY_TRIPS_WIDTH, 0},
    {"stop_times.txt", TUSUCHIY_STOP_TIMES_WIDTH, 0},
    {"calendar_dates.txt", TUSUCHIY_CALENDAR_DATES_WIDTH, 1},
};

/* Rule 1 refuses longer files, so nothing past one byte more need be lent. Files are read in pieces that double. */
enum { MOST_BYTES = TUSUCHIY_MOST_BYTES + 1, FIRST_BYTES = 65536 };

/* A file and the table lent for it. */
struct lent {
    uint8_t *bytes;
    size_t length;
    int32_t *table;
    size_t numbers;
};

static void stop(const char *what) {
    perror(what);
    exit(3);
}

/* Memory for so many elements, never NULL: the check asks for a valid pointer even where nothing is lent. */
static void *memory(size_t count, size_t size) {
    void *got = calloc(count ? count : 1, size);
    if (!got)
        stop("memory");
    return got;
}

/* Opens a file of the folder; NULL where it isn't there and may be missing. A pipe, which would be waited for, isn't a
 * file, nor is a device or a folder. */
static FILE *opened(int folder, const char *name, int may_be_missing) {
    int file = openat(folder, name, O_RDONLY | O_NONBLOCK | O_CLOEXEC);
    if (file < 0 && errno == ENOENT && may_be_missing)
        return NULL;
    struct stat about;
    if (file < 0 || fstat(file, &about))
        stop(name);
    if (!S_ISREG(about.st_mode)) {
        fprintf(stderr, "%s: not a file\n", name);
        exit(3);
    }
    FILE *from = fdopen(file, "rb");
    if (!from)
        stop(name);
    return from;
}

/* Reads an open file to its end, or as far as need be, into memory that grows with it: a small feed takes little. */
static void read_to_end(FILE *from, struct lent *lent) {
    size_t room = FIRST_BYTES;
    for (;;) {
        lent->length += fread(lent->bytes + lent->length, 1, room - lent->length, from);
        if (lent->length < room || room == MOST_BYTES)
            return;
        room = room < MOST_BYTES / 2 ? 2 * room : MOST_BYTES;
        lent->bytes = realloc(lent->bytes, room);
        if (!lent->bytes)
            stop("memory");
    }
}

/* Reads a file, which has a length of 0 where it isn't there, and lends a table for its lines. */
static struct lent lend(int folder, int file) {
    struct lent lent = {.bytes = memory(FIRST_BYTES, 1)};
    FILE *from = opened(folder, KNOWN[file].name, KNOWN[file].may_be_missing);
    if (from) {
        read_to_end(from, &lent);
        if (ferror(from))
            stop(KNOWN[file].name);
        fclose(from);
    }
    size_t lines = 0;
    /* Rule 2 refuses more lines before rule 3 asks for a longer table. */
    for (size_t place = 0; place < lent.length && lines < TUSUCHIY_MOST_LINES; place++)
        lines += lent.bytes[place] == '\n';
    lent.numbers = lines * KNOWN[file].width;
    lent.table = memory(lent.numbers, sizeof *lent.table);
    return lent;
}

/* One call, after the finding at `after`. The profile is one argument: all pages of a list are asked for with the same. */
static tusuchiy_answer check(const struct lent *f, int32_t *list, size_t length, const int32_t *after, int32_t profile) {
    return tusuchiy_check(f[0].bytes, f[0].length, f[1].bytes, f[1].length, f[2].bytes, f[2].length,
                          f[3].bytes, f[3].length, f[4].bytes, f[4].length, f[5].bytes, f[5].length,
                          f[0].table, f[0].numbers, f[1].table, f[1].numbers, f[2].table, f[2].numbers,
                          f[3].table, f[3].numbers, f[4].table, f[4].numbers, f[5].table, f[5].numbers,
                          list, length, after[0], after[1], after[2], profile);
}

/* The same for faults. */
static tusuchiy_faults_answer faults(const struct lent *f, int32_t *list, size_t length, const int32_t *after) {
    return tusuchiy_faults(f[0].bytes, f[0].length, f[1].bytes, f[1].length, f[2].bytes, f[2].length,
                           f[3].bytes, f[3].length, f[4].bytes, f[4].length, f[5].bytes, f[5].length,
                           list, length, after[0], after[1], after[2]);
}

/* Prints a page of findings, or of faults, which have a column too, and gives the place of the last. */
static void print(const int32_t *list, int32_t written, int width, int32_t *after) {
    for (const int32_t *found = list; found < list + width * written; found += width) {
        printf("%s %d %d", KNOWN[found[0] - 1].name, found[1], found[2]);
        if (width == TUSUCHIY_FAULT_WIDTH)
            printf(" %d", found[3]);
        putchar('\n');
        memcpy(after, found, 3 * sizeof *after);
    }
}

/* Prints all faults, in pages of three, each from the last fault handed out. */
static void list_faults(const struct lent *files) {
    int32_t list[3 * TUSUCHIY_FAULT_WIDTH], after[3] = {0, 0, 0};
    tusuchiy_faults_answer answer = faults(files, list, 3 * TUSUCHIY_FAULT_WIDTH, after);
    printf("faults %d\n", answer.total);
    while (answer.written > 0) {
        print(list, answer.written, TUSUCHIY_FAULT_WIDTH, after);
        answer = faults(files, list, 3 * TUSUCHIY_FAULT_WIDTH, after);
    }
}

/* Prints the verdict and all findings, in pages of four, each from the last finding handed out. */
static int report(const struct lent *files, int32_t profile) {
    int32_t list[12], after[3] = {0, 0, 0};
    tusuchiy_answer answer = check(files, list, 12, after, profile);
    if (answer.verdict == TUSUCHIY_REFUSED) {
        printf("refused %d %s %d %d\n", answer.number, KNOWN[answer.file - 1].name, answer.line, answer.column);
        list_faults(files);
        return answer.verdict;
    }
    printf("%s %d\n", answer.verdict == TUSUCHIY_ACCEPTED ? "accepted" : "findings", answer.total);
    int32_t had = answer.written;
    print(list, answer.written, 3, after);
    while (had < answer.total) {
        answer = check(files, list, 12, after, profile);
        print(list, answer.written, 3, after);
        had += answer.written;
    }
    /* The tables are filled now: where the second line of stops.txt lies, if there is one and it has a place. */
    const int32_t *first = files[0].numbers < 2 * TUSUCHIY_STOPS_WIDTH ? NULL : files[0].table + TUSUCHIY_STOPS_WIDTH;
    if (first && first[6])
        printf("first stop at %d %d\n", first[2], first[3]);
    return answer.verdict;
}

int main(int count, char **words) {
    int boards = count == 3 && strcmp(words[2], "boards") == 0;
    if (count != 2 && !boards) {
        fprintf(stderr, "usage: embed FEED [boards]\n");
        return 3;
    }
    int folder = open(words[1], O_RDONLY | O_DIRECTORY | O_CLOEXEC);
    if (folder < 0)
        stop(words[1]);
    struct lent files[FILES];
    for (int file = 0; file < FILES; file++)
        files[file] = lend(folder, file);
    int status = report(files, boards ? TUSUCHIY_PROFILE_BOARDS : TUSUCHIY_PROFILE_PLAIN);
    /* What was printed must have arrived: a verdict that nobody could read is none. */
    if (ferror(stdout) || fclose(stdout))
        stop("standard output");
    return status;
}
