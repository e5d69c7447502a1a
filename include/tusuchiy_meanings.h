/* tusuchiy_meanings.h: what each refusal and each rule means, in a few words. Written by tools/meanings from docs/RULES.md. */
#ifndef TUSUCHIY_MEANINGS_H
#define TUSUCHIY_MEANINGS_H

#include <stdint.h>

/* The meaning of a refusal (1 to 14, 40 to 46) or a rule (20 to 31, 60 to 62); "" for any other number. The words may change, the numbers don't. */
static inline const char *tusuchiy_meaning(int32_t number) {
    switch (number) {
    case 1: return "the file is longer than 134,217,728 bytes";
    case 2: return "the file has more than 1,048,576 lines";
    case 3: return "the table lent for the file is too short";
    case 4: return "the file is empty, or its last line has no line ending";
    case 5: return "the line has a tab, or a CR that isn't part of a line ending";
    case 6: return "quotation marks are misplaced";
    case 7: return "the line has more than 32 fields";
    case 8: return "a column name stands twice in the header";
    case 9: return "a column that must be there is missing from the header";
    case 10: return "the line has more or fewer fields than the header";
    case 11: return "an id is longer than 64 bytes";
    case 12: return "a value that is needed is empty";
    case 13: return "a value doesn't have the form that its column asks for";
    case 14: return "the line isn't well-formed UTF-8";
    case 20: return "the id, or the service and date, stands on an earlier line of the file";
    case 21: return "a reference names no line";
    case 22: return "the parent station doesn't fit the kind of stop";
    case 23: return "the trip calls at something that isn't a stop or platform";
    case 24: return "the service ends before it starts";
    case 25: return "the route has no name";
    case 26: return "only one of the two times is given, or a timepoint lacks a time";
    case 27: return "the departure is before the arrival";
    case 28: return "the stop_sequence stands on an earlier line of the trip";
    case 29: return "the trip arrives before it departs from a stop with a smaller stop_sequence";
    case 30: return "the trip has fewer than two lines in stop_times.txt";
    case 31: return "the trip's first or last line by stop_sequence lacks a time";
    case 60: return "the line isn't timed";
    case 61: return "pickup or drop-off has to be arranged";
    case 62: return "a time is 48:00:00 or later";
    case 40: return "the index isn't there, or isn't an index";
    case 41: return "the index has a version that isn't read";
    case 42: return "the index has a wrong file number, count or length";
    case 43: return "the index lists a record that the file doesn't have";
    case 44: return "the ids don't rise from entry to entry of the index";
    case 45: return "an id stands on two lines, so the file has no index";
    case 46: return "the buffer lent for the index is too short";
    default: return "";
    }
}

#endif
