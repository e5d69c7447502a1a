/* index.c: the index called from C. It makes the index of a file, prints the records in the order of their ids, and has the
 * index judged, as it is and with its last byte changed. */
#include <stdio.h>
#include <stdlib.h>

#include "tusuchiy.h"

/* Rule 1 refuses longer files, so nothing past one byte more need be lent. Files are read in pieces that double. */
enum { MOST_BYTES = TUSUCHIY_MOST_BYTES + 1, FIRST_BYTES = 65536 };

/* Bytes of a file or of an index. */
struct lent {
    uint8_t *bytes;
    size_t length;
};

static void stop(const char *what) {
    perror(what);
    exit(3);
}

/* The same memory with so many bytes. */
static uint8_t *memory(uint8_t *bytes, size_t size) {
    uint8_t *got = realloc(bytes, size);
    if (!got)
        stop("memory");
    return got;
}

/* Reads an open file to its end, or as far as need be, into memory that grows with it. */
static struct lent read_to_end(FILE *from) {
    size_t room = FIRST_BYTES;
    struct lent file = {.bytes = memory(NULL, room)};
    for (;;) {
        file.length += fread(file.bytes + file.length, 1, room - file.length, from);
        if (file.length < room || room == MOST_BYTES)
            return file;
        room = room < MOST_BYTES / 2 ? 2 * room : MOST_BYTES;
        file.bytes = memory(file.bytes, room);
    }
}

static struct lent read_file(const char *path) {
    FILE *from = fopen(path, "rb");
    if (!from)
        stop(path);
    struct lent file = read_to_end(from);
    if (ferror(from))
        stop(path);
    fclose(from);
    return file;
}

/* A buffer for the index of a file: a record for each line but the header, in the version for that many. */
static struct lent lend(struct lent file) {
    size_t lines = 0;
    for (size_t place = 0; place < file.length && lines < TUSUCHIY_MOST_LINES; place++)
        lines += file.bytes[place] == '\n';
    size_t records = lines ? lines - 1 : 0;
    size_t length = records <= TUSUCHIY_INDEX_1_MOST_RECORDS
                        ? TUSUCHIY_INDEX_HEAD_BYTES + TUSUCHIY_INDEX_ENTRY_BYTES * records
                        : TUSUCHIY_INDEX_2_HEAD_BYTES + TUSUCHIY_INDEX_2_ENTRY_BYTES * records;
    return (struct lent){.bytes = memory(NULL, length), .length = length};
}

/* A number of an index, low byte first. */
static uint32_t number(const uint8_t *bytes, size_t width) {
    uint32_t number = 0;
    for (size_t place = width; place > 0; place--)
        number = number << 8 | bytes[place - 1];
    return number;
}

/* Prints the record numbers that an index lists. */
static void print(struct lent index) {
    int wide = number(index.bytes + 3, 2) == 2;
    size_t head = wide ? TUSUCHIY_INDEX_2_HEAD_BYTES : TUSUCHIY_INDEX_HEAD_BYTES;
    size_t width = wide ? TUSUCHIY_INDEX_2_ENTRY_BYTES : TUSUCHIY_INDEX_ENTRY_BYTES;
    printf("written %zu:", index.length);
    for (const uint8_t *entry = index.bytes + head; entry < index.bytes + index.length; entry += width)
        printf(" %u", number(entry, width));
    printf("\n");
}

/* Has an index judged, and prints the answer. */
static int32_t judge(int32_t file_number, struct lent file, struct lent index) {
    tusuchiy_index_answer judged = tusuchiy_index_check(file_number, file.bytes, file.length, index.bytes, index.length);
    if (judged.number)
        printf("refused %d\n", judged.number);
    else
        printf("accepted %d\n", judged.length);
    return judged.number;
}

int main(int count, char **words) {
    if (count != 3) {
        fprintf(stderr, "usage: index FILE-NUMBER FILE, as index 1 stops.txt\n");
        return 3;
    }
    int32_t file_number = atoi(words[1]);
    struct lent file = read_file(words[2]), index = lend(file);
    tusuchiy_index_answer made = tusuchiy_index_write(file_number, file.bytes, file.length, index.bytes, index.length);
    int status = 0;
    if (made.number) {
        printf("refused %d %d %d\n", made.number, made.line, made.column);
        status = 2;
    } else {
        index.length = (size_t)made.length;
        print(index);
        int32_t as_it_is = judge(file_number, file, index);
        index.bytes[index.length - 1] ^= 0x80;
        int32_t changed = judge(file_number, file, index);
        status = as_it_is || !changed ? 3 : 0;
    }
    /* What was printed must have arrived. */
    if (ferror(stdout) || fclose(stdout))
        stop("standard output");
    return status;
}
