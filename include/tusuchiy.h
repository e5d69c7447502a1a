/* tusuchiy.h: the proved check of GTFS feeds, its list of faults and its index, for C and C++.
 * Link with libtusuchiy_c.a (x86-64 Linux). */
#ifndef TUSUCHIY_H
#define TUSUCHIY_H

#include <stddef.h>
#include <stdint.h>

#ifdef __cplusplus
extern "C" {
#endif

/* The version of the check, as a text and as a number: 10000 for each major, 100 for each minor step. */
#define TUSUCHIY_VERSION "0.10.0"
#define TUSUCHIY_VERSION_NUMBER 1000

/* The six files have numbers: in `file` of an answer, of a finding and of a fault. */
enum {
    TUSUCHIY_STOPS = 1,         /* stops.txt */
    TUSUCHIY_ROUTES = 2,        /* routes.txt */
    TUSUCHIY_CALENDAR = 3,      /* calendar.txt */
    TUSUCHIY_TRIPS = 4,         /* trips.txt */
    TUSUCHIY_STOP_TIMES = 5,    /* stop_times.txt */
    TUSUCHIY_CALENDAR_DATES = 6 /* calendar_dates.txt */
};

/* A file with more bytes is refused with number 1, one with more LF bytes with number 2. Before 0.10.0 the limits were
 * 16,777,216 and 65,536. */
enum {
    TUSUCHIY_MOST_BYTES = 134217728,
    TUSUCHIY_MOST_LINES = 1048576
};

/* A record has so many numbers in the table of its file. Lend each table at least its width times the number of
 * LF bytes in its file, else the feed is refused with number 3. A longer table does no harm. */
enum {
    TUSUCHIY_STOPS_WIDTH = 7,      /* id start, id end, latitude, longitude, location_type (0 to 4), parent record,
                                      place (1 with coordinates, 0 without) */
    TUSUCHIY_ROUTES_WIDTH = 3,     /* id start, id end, route_type */
    TUSUCHIY_CALENDAR_WIDTH = 5,   /* id start, id end, days (Monday is bit 0), start_date, end_date (YYYYMMDD) */
    TUSUCHIY_TRIPS_WIDTH = 8,      /* id start, id end, route record, service record in calendar.txt, direction_id,
                                      wheelchair_accessible, bikes_allowed, first service record in
                                      calendar_dates.txt */
    TUSUCHIY_STOP_TIMES_WIDTH = 8, /* trip record, stop record, stop_sequence, arrival, departure (seconds, -1 where
                                      empty), pickup_type, drop_off_type, timepoint */
    TUSUCHIY_CALENDAR_DATES_WIDTH = 4 /* id start, id end, date (YYYYMMDD), exception_type (1 added, 2 removed) */
};
/* Line n of a file (the header is line 1) has record n - 1. Record 0 is all zero, so a reference of 0 means none.
 * Record r of a table t of width w is t[r * w] to t[r * w + w - 1]. Ids are places in the file: start, and the end
 * behind the last byte, quotes included, counted from the file's first byte. Latitude and longitude are in
 * ten-millionths of a degree; both are 0 where place is 0, as it can be for location_type 3 and 4 alone (generic nodes
 * and boarding areas), and a stop at 0, 0 has place 1. An empty direction_id or timepoint is -1, any other empty
 * choice 0. */

/* Values of `verdict`. */
enum {
    TUSUCHIY_ACCEPTED = 0, /* the files can be read, and no rule that was asked for is broken */
    TUSUCHIY_FINDINGS = 1, /* the files can be read, and `total` findings exist */
    TUSUCHIY_REFUSED = 2   /* the files can't be read: see number, file, line, column */
};

/* Values of `number`: why a file can't be read. docs/RULES.md says more of each, tusuchiy_meanings.h a few words.
 * On a line the lowest number is named, but 14 comes after 5 and before 6. */
enum {
    TUSUCHIY_REFUSAL_TOO_MANY_BYTES = 1,
    TUSUCHIY_REFUSAL_TOO_MANY_LINES = 2,
    TUSUCHIY_REFUSAL_TABLE_TOO_SHORT = 3,
    TUSUCHIY_REFUSAL_NO_LINE_END = 4,
    TUSUCHIY_REFUSAL_STRAY_BYTE = 5,
    TUSUCHIY_REFUSAL_MISPLACED_QUOTE = 6,
    TUSUCHIY_REFUSAL_TOO_MANY_FIELDS = 7,
    TUSUCHIY_REFUSAL_COLUMN_TWICE = 8,
    TUSUCHIY_REFUSAL_COLUMN_MISSING = 9,
    TUSUCHIY_REFUSAL_FIELD_COUNT = 10,
    TUSUCHIY_REFUSAL_LONG_ID = 11,
    TUSUCHIY_REFUSAL_EMPTY_VALUE = 12,
    TUSUCHIY_REFUSAL_MALFORMED_VALUE = 13,
    TUSUCHIY_REFUSAL_BAD_UTF8 = 14,
    /* Of the functions on an index alone: why it isn't accepted (40 to 44) or written (45, 46; 42 for both). */
    TUSUCHIY_REFUSAL_INDEX_MARK = 40,
    TUSUCHIY_REFUSAL_INDEX_VERSION = 41,
    TUSUCHIY_REFUSAL_INDEX_FILE_COUNT_OR_LENGTH = 42,
    TUSUCHIY_REFUSAL_INDEX_RECORD = 43,
    TUSUCHIY_REFUSAL_INDEX_ORDER = 44,
    TUSUCHIY_REFUSAL_INDEX_REPEATED_ID = 45,
    TUSUCHIY_REFUSAL_INDEX_BUFFER = 46
};

/* The rules of findings: 20 to 31 are tested by every call, 60 to 62 where the profile for boards is asked for. */
enum {
    TUSUCHIY_RULE_REPEATED_ID = 20,
    TUSUCHIY_RULE_REFERENCE = 21,
    TUSUCHIY_RULE_PARENT_STATION = 22,
    TUSUCHIY_RULE_NO_PLATFORM = 23,
    TUSUCHIY_RULE_SERVICE_DATES = 24,
    TUSUCHIY_RULE_ROUTE_NAME = 25,
    TUSUCHIY_RULE_TIMES_GIVEN = 26,
    TUSUCHIY_RULE_DEPARTURE_FIRST = 27,
    TUSUCHIY_RULE_SEQUENCE = 28,
    TUSUCHIY_RULE_ARRIVAL_TOO_EARLY = 29,
    TUSUCHIY_RULE_FEW_LINES = 30,
    TUSUCHIY_RULE_UNTIMED_ENDS = 31,
    TUSUCHIY_RULE_NOT_TIMED = 60,
    TUSUCHIY_RULE_ARRANGED = 61,
    TUSUCHIY_RULE_PAST_TWO_DAYS = 62
};

/* Values of `profile`: which rules a call asks for. */
enum {
    TUSUCHIY_PROFILE_PLAIN = 0, /* rules 20 to 31 */
    TUSUCHIY_PROFILE_BOARDS = 1 /* rules 60 to 62 too: what a departure board can't show */
};

typedef struct {
    int32_t verdict;            /* 0 accepted, 1 findings, 2 refused */
    int32_t number, file, line; /* of a refusal (1 to 14; 1 to 6; 0 for a whole file), else 0 */
    int32_t column;             /* of refusals 8, 11, 12 and 13, else 0: the place in the line, from 1, of the leftmost
                                   field that breaks the rule, for 8 of the leftmost known name that stands a second
                                   time; fields that nobody reads count too */
    int32_t written, total;     /* of the findings, else 0: how many this call wrote, how many the feed has */
} tusuchiy_answer;

/* Checks a feed.
 *
 * Files: six pairs of a pointer and a length in bytes, only read. Any bytes may stand in them.
 *   For calendar.txt and calendar_dates.txt a length of 0 means "not supplied": the file isn't read, and references to
 *   it are 0. One of the two must be supplied; if neither is, calendar.txt is refused with number 4, as any other file
 *   of length 0 is. A file with a header alone is supplied.
 * Tables: six pairs of a pointer and a length in numbers, filled for every feed that isn't refused; numbers past the
 *   last record stay as they were. The table of a file that isn't supplied stays as it was, record 0 too, and may have
 *   any length, 0 among them.
 * findings: room for findings_len / 3 findings of three numbers each: file, line, rule (20 to 31, with the profile for
 *   boards 60 to 62 too; docs/RULES.md).
 *   Those after the place (after_file, after_line, after_rule) are written, in rising order, as many as fit; the rest
 *   of the list stays as it was. Start with 0, 0, 0. For the next page give the last finding written; once a call
 *   writes none, you have had them all. The verdict and the total don't depend on the place or on the room.
 * profile: 0 (TUSUCHIY_PROFILE_PLAIN) asks for no profile; any other number asks for the profile for boards. Then 60 to 62
 *   are findings in the same list and order, the total counts them, and "accepted" means none of these either. Without
 *   them the list is that of 0. Refusals and tables don't depend on it. Pages that are to be joined all ask for the
 *   profile, or all don't.
 *
 * A refusal leaves all tables and the list as they were.
 *
 * What you owe: each pointer is valid for its length, aligned, and not NULL, even where the length is 0, as of a file
 * that isn't supplied and of its table; no table and no list overlaps another or a file; nobody else writes any of them
 * during the call. Nothing else is asked of the contents, and no call fails otherwise.
 *
 * The call keeps nothing: it allocates no memory, opens no file, holds no state between calls, so several threads may
 * call it at a time on memory of their own. A call uses at most 5 MiB of stack. */
tusuchiy_answer tusuchiy_check(
    const uint8_t *stops, size_t stops_len,
    const uint8_t *routes, size_t routes_len,
    const uint8_t *calendar, size_t calendar_len,
    const uint8_t *trips, size_t trips_len,
    const uint8_t *stop_times, size_t stop_times_len,
    const uint8_t *calendar_dates, size_t calendar_dates_len,
    int32_t *stops_table, size_t stops_table_len,
    int32_t *routes_table, size_t routes_table_len,
    int32_t *calendar_table, size_t calendar_table_len,
    int32_t *trips_table, size_t trips_table_len,
    int32_t *stop_times_table, size_t stop_times_table_len,
    int32_t *calendar_dates_table, size_t calendar_dates_table_len,
    int32_t *findings, size_t findings_len,
    int32_t after_file, int32_t after_line, int32_t after_rule,
    int32_t profile);

/* The list of faults: every place of a feed that can't be read, where the verdict names one. Each is four numbers: the
 * file, the line (0 for a whole file), the number (1, 2, 4 to 14) and the column, as tusuchiy_answer has them. */
enum {
    TUSUCHIY_FAULT_WIDTH = 4 /* file, line, number, column */
};

typedef struct {
    int32_t written, total; /* how many faults this call wrote, how many the feed has */
} tusuchiy_faults_answer;

/* Lists the faults of a feed.
 *
 * Files: as for tusuchiy_check, and the same of them may be left out. Tables aren't lent, so number 3, which is about
 *   them, is never in the list.
 * What is in it: of each file 1, 2 and 4 where it breaks them. Of a file that breaks neither 1 nor 2 also each line
 *   that is refused, once, with the first number that it breaks; bytes behind the last LF are a last line here. Where
 *   the header is refused nobody knows the columns, so the lines below it are tested for 5, 14, 6 and 7 alone: once it
 *   is mended, there may be more. An empty file has 4 and nothing else.
 * faults: room for faults_len / 4 faults. Those after the place (after_file, after_line, after_number) are written, in
 *   rising order of file, line and number, as many as fit; the rest of the list stays as it was. Start with 0, 0, 0.
 *   For the next page give the last fault written; once a call writes none, you have had them all. The total doesn't
 *   depend on the place or on the room; it is 6,291,468 at most, 1,048,578 for each file.
 *
 * With long enough tables tusuchiy_check refuses a feed exactly when this list isn't empty, and what it names is in it.
 * No call is refused: a feed that can be read has a total of 0, and nothing is written.
 *
 * Pointers, memory, stack and threads are as for tusuchiy_check; the list doesn't overlap a file. */
tusuchiy_faults_answer tusuchiy_faults(
    const uint8_t *stops, size_t stops_len,
    const uint8_t *routes, size_t routes_len,
    const uint8_t *calendar, size_t calendar_len,
    const uint8_t *trips, size_t trips_len,
    const uint8_t *stop_times, size_t stop_times_len,
    const uint8_t *calendar_dates, size_t calendar_dates_len,
    int32_t *faults, size_t faults_len,
    int32_t after_file, int32_t after_line, int32_t after_number);

/* An index lists the records of one of the files 1 to 4 in the order of their ids, so that an id can be sought by
 * halving. One of up to 65,535 records has version 1, one of more has version 2. Its bytes, all numbers low byte first:
 *   version 1   version 2
 *   0 to 2      0 to 2      the mark, 54 54 58 ("TTX")
 *   3, 4        3, 4        the version, 1 or 2
 *   5           5           the file's number, 1 to 4
 *   6, 7        6 to 9      the count: how many records the file has
 *   8 ..        10 ..       that many record numbers, of 2 bytes or of 4; line n of the file is record n - 1
 * So an index of n records has 8 + 2 n bytes, or 10 + 4 n in version 2.
 * Ids rise strictly as byte strings, bytes from 0 to 255, a proper prefix first. They are compared by value: an id in
 * quotation marks is the id without them. A file in which no id stands twice has exactly one index, any other none.
 * Indexes that were stored before 0.10.0 stay good. Readers of then know version 1 alone: they answer 1 or 2 to a file
 * past the limits of then, and 41 to version 2 beside a file that they can read. */
enum {
    TUSUCHIY_INDEX_HEAD_BYTES = 8,         /* before the record numbers, in version 1 */
    TUSUCHIY_INDEX_ENTRY_BYTES = 2,        /* of each record number, in version 1 */
    TUSUCHIY_INDEX_1_MOST_RECORDS = 65535, /* the most that version 1 lists; version 2 lists more */
    TUSUCHIY_INDEX_2_HEAD_BYTES = 10,      /* before the record numbers, in version 2 */
    TUSUCHIY_INDEX_2_ENTRY_BYTES = 4,      /* of each record number, in version 2 */
    TUSUCHIY_INDEX_MOST_BYTES = 4194310    /* of an index of 1,048,575 records, the most that rule 2 allows */
};

typedef struct {
    int32_t number;             /* 0 written or accepted; 1 to 14 the file's own refusal, but for 3; 40 to 46 */
    int32_t file, line, column; /* of the file's own refusal, as in tusuchiy_answer; else 0 */
    int32_t length;             /* bytes of the index that was written or accepted, else 0 */
} tusuchiy_index_answer;

/* Writes the index of a file to the beginning of a buffer.
 *
 * In this order it is refused with 42 where file_number isn't 1 to 4, whatever is lent; with the file's own refusal (no
 * table is asked for, and a file of length 0 is refused with 4, calendar.txt too); with 45 where an id stands twice;
 * with 46 where the buffer is shorter than the index: TUSUCHIY_INDEX_MOST_BYTES is always enough.
 * A refusal leaves the whole buffer as it was; else the bytes behind the index stay as they were.
 *
 * Pointers, memory, stack and threads are as for tusuchiy_check; the buffer doesn't overlap the file. */
tusuchiy_index_answer tusuchiy_index_write(
    int32_t file_number, const uint8_t *file, size_t file_len, uint8_t *buffer, size_t buffer_len);

/* Accepts exactly the index that tusuchiy_index_write writes for the file, whoever made it. Any bytes may stand in it.
 *
 * First come 42 and the file's own refusal as above; then the lowest number speaks: 40 fewer than 8 bytes, or another
 * mark; 41 a version other than 1 and 2; 42 another file number, count or length, or the version that isn't the one for
 * that many records; 43 a record number of 0 or past the last record; 44 ids that don't rise strictly, as those of a
 * file in which an id stands twice never do. */
tusuchiy_index_answer tusuchiy_index_check(
    int32_t file_number, const uint8_t *file, size_t file_len, const uint8_t *index, size_t index_len);

#ifdef __cplusplus
}
#endif

#endif
