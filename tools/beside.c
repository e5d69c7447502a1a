/* beside.c: the checks of two archives by turns, on the feed whose folder is given; without one, the head of the table. tools/beside builds and runs it. */
#define _POSIX_C_SOURCE 200809L
#include <stdio.h>
#include <stdlib.h>
#include <string.h>
#include <time.h>

#include "tusuchiy.h"

typedef __typeof__(tusuchiy_check) check;

/* The other archive's check, which has this name here. */
check other_check;

/* Each check has its turn until this many seconds are spent, but so many times at most; the fastest counts. A call on a small feed is short: in each turn so many
 * bytes at least are checked, by several calls. */
enum { TURNS = 20, SPENT = 5, BATCH = 1 << 22 };

/* The list has room for 1,048,576 findings. */
enum { FILES = 6, ROOM = 3 * 1048576 };

/* A file: its name, and the width of its table. */
static const struct {
    const char *name;
    size_t width;
} KNOWN[FILES] = {
    {"stops.txt", TUSUCHIY_STOPS_WIDTH},           {"routes.txt", TUSUCHIY_ROUTES_WIDTH},
    {"calendar.txt", TUSUCHIY_CALENDAR_WIDTH},     {"trips.txt", TUSUCHIY_TRIPS_WIDTH},
    {"stop_times.txt", TUSUCHIY_STOP_TIMES_WIDTH}, {"calendar_dates.txt", TUSUCHIY_CALENDAR_DATES_WIDTH},
};

/* A file's bytes, and how many numbers its table has. */
struct file {
    uint8_t *bytes;
    size_t length, numbers;
};

/* What one check has, and the time of a call in its fastest turn. */
struct side {
    check *check;
    int32_t *tables[FILES], *list;
    tusuchiy_answer answer;
    double least;
};

static void stop(const char *who, const char *what) {
    fprintf(stderr, "beside: %s: %s\n", who, what);
    exit(1);
}

/* So many bytes of memory, all of them written to, never NULL. */
static void *memory(size_t size) {
    void *got = malloc(size + 1);
    if (!got)
        stop("memory", "there isn't enough");
    return memset(got, -1, size + 1);
}

/* Seconds of processor time that this program has used. */
static double seconds(void) {
    struct timespec time;
    clock_gettime(CLOCK_PROCESS_CPUTIME_ID, &time);
    return (double)time.tv_sec + (double)time.tv_nsec / 1e9;
}

/* Reads a file of a feed; one that isn't there has no bytes. */
static struct file read_file(const char *folder, int number) {
    char path[4096];
    snprintf(path, sizeof path, "%s/%s", folder, KNOWN[number].name);
    struct file file = {0};
    FILE *from = fopen(path, "rb");
    if (from) {
        fseek(from, 0, SEEK_END);
        file.length = (size_t)ftell(from);
        rewind(from);
    }
    file.bytes = memory(file.length);
    if (from && fread(file.bytes, 1, file.length, from) != file.length)
        stop(path, "can't be read");
    if (from)
        fclose(from);
    for (size_t place = 0; place < file.length; place++)
        file.numbers += file.bytes[place] == '\n' ? KNOWN[number].width : 0;
    return file;
}

/* Lends a check its tables and its list. */
static struct side lend(check *check, const struct file *files) {
    struct side side = {.check = check, .list = memory(ROOM * sizeof(int32_t)), .least = 1e9};
    for (int file = 0; file < FILES; file++)
        side.tables[file] = memory(files[file].numbers * sizeof(int32_t));
    return side;
}

/* One call. */
static void call(const struct file *f, struct side *side) {
    int32_t **t = side->tables;
    side->answer = side->check(f[0].bytes, f[0].length, f[1].bytes, f[1].length, f[2].bytes, f[2].length,
                               f[3].bytes, f[3].length, f[4].bytes, f[4].length, f[5].bytes, f[5].length,
                               t[0], f[0].numbers, t[1], f[1].numbers, t[2], f[2].numbers,
                               t[3], f[3].numbers, t[4], f[4].numbers, t[5], f[5].numbers,
                               side->list, ROOM, 0, 0, 0, TUSUCHIY_PROFILE_PLAIN);
}

/* One turn of so many calls, and the time of one where it is the fastest. */
static void turn(const struct file *files, struct side *side, int calls) {
    double start = seconds();
    for (int count = 0; count < calls; count++)
        call(files, side);
    double time = (seconds() - start) / calls;
    if (time < side->least)
        side->least = time;
}

/* Gives each check its turns, unless it refuses the feed, which is no measure. */
static void take_turns(const struct file *files, struct side *sides[2]) {
    size_t bytes = 1;
    for (int file = 0; file < FILES; file++)
        bytes += files[file].length;
    double start = seconds();
    for (int count = 0; count < 2 * TURNS && seconds() - start < SPENT; count++) {
        /* One after the other, and neither is always the first. */
        struct side *side = sides[(count + count / 2) % 2];
        if (side->answer.verdict != TUSUCHIY_REFUSED)
            turn(files, side, BATCH / bytes + 1);
    }
}

/* Have both given the same answer, tables and list? */
static int same(const struct file *files, const struct side *one, const struct side *other) {
    int same = !memcmp(&one->answer, &other->answer, sizeof one->answer);
    same &= !memcmp(one->list, other->list, ROOM * sizeof(int32_t));
    for (int file = 0; file < FILES; file++)
        same &= !memcmp(one->tables[file], other->tables[file], files[file].numbers * sizeof(int32_t));
    return same;
}

/* The time of one check, or why it has none. */
static void print_time(const struct side *side) {
    if (side->answer.verdict == TUSUCHIY_REFUSED)
        printf(" refused: %-2d |", side->answer.number);
    else
        printf(" %8.3f ms |", side->least * 1e3);
}

/* One row: both times, and how they stand to each other where there are both. */
static void print(const char *folder, const struct side *other, const struct side *own) {
    printf("| %-19s |", folder);
    print_time(other);
    print_time(own);
    if (other->answer.verdict == TUSUCHIY_REFUSED || own->answer.verdict == TUSUCHIY_REFUSED)
        printf(" %13s |\n", "-");
    else
        printf(" %13.2f |\n", other->least / own->least);
}

/* Measures both checks on a feed. */
static void measure(const char *folder) {
    struct file files[FILES];
    for (int file = 0; file < FILES; file++)
        files[file] = read_file(folder, file);
    struct side other = lend(other_check, files), own = lend(tusuchiy_check, files);
    call(files, &other);
    call(files, &own);
    int refused = other.answer.verdict == TUSUCHIY_REFUSED || own.answer.verdict == TUSUCHIY_REFUSED;
    if (!refused && !same(files, &other, &own))
        stop(folder, "the two checks differ");
    take_turns(files, (struct side *[]){&other, &own});
    print(folder, &other, &own);
}

int main(int count, char **words) {
    if (count == 2) {
        measure(words[1]);
        return 0;
    }
    printf("Processor time of one call: the fastest of %d turns, or of as many as %d s allow. Refused: by that rule, so no measure.\n\n", TURNS, SPENT);
    printf("| feed                | other       | this        | times as fast |\n");
    printf("| ------------------- | ----------- | ----------- | ------------- |\n");
    return 0;
}
