// Schedules on the baseline: a text is read once into a table of places, and the line at each place is played.
#pragma once
#include "baseline.h"

enum { LONGEST_TEXT = 16384, MOST_CALLS = 100000, LONGEST_LINE = 8192 };

enum found { CALLS, BAD_LINE, TOO_LONG };

// `number` is the number of calls, whose places stand in the table, or the number of the first line at fault.
struct reading {
    enum found found;
    size_t number;
};

struct reading schedule_read(const char *text, size_t length, uint32_t places[MOST_CALLS]);

// The line at a place as call `number` of the text. Returns how many bytes it printed.
size_t schedule_play(const char *text, size_t length, size_t place, size_t number, struct pool *p, char out[LONGEST_LINE]);
