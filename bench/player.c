// Schedules read, unrolled, played and printed, with the baseline's pool behind a pointer (player.h).
#include "player.h"
#include <string.h>

enum { DEEPEST = 4, MOST_REPEATS = 1000, MOST_NUMBERS = LONGEST_TEXT / 2 };

// ---- one line

enum verb { MAKE, TAKE, HIRE, FIRE, POST, GIVE, ASK, STEP, REPEAT, END, WRONG };

// A verb's word, and how many numbers it takes.
static const struct name {
    const char *word;
    size_t length, least, most;
} names[] = {
    [MAKE] = {"make", 4, 3, 3},
    [TAKE] = {"take", 4, 1, 1},
    [HIRE] = {"hire", 4, 1, 1},
    [FIRE] = {"fire", 4, 2, 2},
    [POST] = {"post", 4, 3, 3},
    [GIVE] = {"give", 4, 1, MOST_NUMBERS},
    [ASK] = {"ask", 3, 2, 2},
    [STEP] = {"step", 4, 1, 1},
    [REPEAT] = {"repeat", 6, 1, 1},
    [END] = {"end", 3, 0, 0},
};

// `next` is where the next line starts, `count` how many numbers this one has.
struct line {
    enum verb verb;
    size_t next, count;
};

static enum verb verb_of(const char *word, size_t length) {
    for (enum verb v = MAKE; v < WRONG; v++)
        if (names[v].length == length && memcmp(names[v].word, word, length) == 0) return v;
    return WRONG;
}

// A number of 32 bits without leading zeros.
static bool read_number(const char *from, const char *to, uint32_t *number) {
    if (from == to || (*from == '0' && from + 1 < to)) return false;
    uint64_t value = 0;
    for (; from < to; from++) {
        if (*from < '0' || '9' < *from) return false;
        value = value * 10 + (uint64_t)(*from - '0');
        if (UINT32_MAX < value) return false;
    }
    *number = (uint32_t)value;
    return true;
}

static const char *word_end(const char *from, const char *end) {
    while (from < end && *from != ' ') from++;
    return from;
}

// A verb and its numbers, one space before each, and a newline.
static struct line read_line(const char *text, size_t length, size_t place, uint32_t numbers[MOST_NUMBERS]) {
    const char *from = text + place, *end = memchr(from, '\n', length - place);
    if (!end) return (struct line){WRONG, length, 0};
    struct line line = {WRONG, (size_t)(end - text) + 1, 0};
    const char *word = word_end(from, end);
    enum verb verb = verb_of(from, (size_t)(word - from));
    if (verb == WRONG) return line;
    while (word < end) {
        from = word + 1;
        word = word_end(from, end);
        if (!read_number(from, word, &numbers[line.count++])) return line;
    }
    if (line.count < names[verb].least || names[verb].most < line.count) return line;
    if (verb == REPEAT && (numbers[0] < 1 || MOST_REPEATS < numbers[0])) return line;
    line.verb = verb;
    return line;
}

// ---- a text

// A block that is open: the place of its line, how often it is repeated, and how many calls came before it.
struct block {
    size_t place, times, before;
};

// The calls since the block began stand in the table as often as it is repeated, if they fit.
static size_t repeated(uint32_t places[MOST_CALLS], struct block block, size_t calls) {
    size_t m = calls - block.before, all = block.before + m * block.times;
    if (MOST_CALLS < all) return MOST_CALLS + 1;
    for (size_t k = calls; k < all; k += m) memcpy(&places[k], &places[block.before], m * sizeof *places);
    return all;
}

static size_t line_number(const char *text, size_t place) {
    size_t number = 1;
    for (size_t k = 0; k < place; k++) number += text[k] == '\n';
    return number;
}

struct reading schedule_read(const char *text, size_t length, uint32_t places[MOST_CALLS]) {
    uint32_t numbers[MOST_NUMBERS];
    struct block open[DEEPEST];
    size_t depth = 0, calls = 0, place = 0, fault = length;
    if (LONGEST_TEXT < length) return (struct reading){TOO_LONG, 0};
    if (read_line(text, length, 0, numbers).verb != MAKE) return (struct reading){BAD_LINE, 1};
    while (place < length) {
        struct line line = read_line(text, length, place, numbers);
        bool wrong = line.verb == WRONG || (line.verb == MAKE && 0 < place);
        if (line.verb == REPEAT) {
            wrong = DEEPEST <= depth;
            if (!wrong) open[depth] = (struct block){place, numbers[0], calls};
            depth++;
        } else if (line.verb == END) {
            wrong = depth == 0;
            if (!wrong && --depth < DEEPEST && calls <= MOST_CALLS) calls = repeated(places, open[depth], calls);
        } else if (!wrong) {
            if (calls < MOST_CALLS) places[calls] = (uint32_t)place;
            if (calls <= MOST_CALLS) calls++;
        }
        if (wrong && place < fault) fault = place;
        place = line.next;
    }
    if (0 < depth && open[0].place < fault) fault = open[0].place;
    if (fault < length) return (struct reading){BAD_LINE, line_number(text, fault)};
    if (MOST_CALLS < calls) return (struct reading){TOO_LONG, 0};
    return (struct reading){CALLS, calls};
}

// ---- what is printed

static char *put_word(char *to, const char *word) {
    while (*word) *to++ = *word++;
    return to;
}

static char *put_number(char *to, uint64_t number) {
    char digits[20];
    size_t n = 0;
    do digits[n++] = (char)('0' + number % 10);
    while ((number /= 10) != 0);
    while (n) *to++ = digits[--n];
    return to;
}

static char *put_spaced(char *to, uint64_t number) {
    *to++ = ' ';
    return put_number(to, number);
}

static char *put_answer(char *to, struct answer answer, const uint32_t *list) {
    switch (answer.said) {
    case ACCEPTED: return put_word(to, " ok");
    case AT: return put_spaced(put_word(to, " at"), answer.number);
    case HIRED: return put_spaced(put_word(to, " guard"), answer.number);
    case NONE_FOUND: return put_word(to, " none");
    case FIRED: return put_word(to, " fired");
    case POSTED: return put_word(to, " posted");
    case YES: return put_word(to, " yes");
    case NO: return put_word(to, " no");
    case BACK:
        to = put_word(to, " back");
        for (uint32_t k = 0; k < answer.number; k++) to = put_spaced(to, list[k]);
        return to;
    default: return put_spaced(put_spaced(put_word(to, " refused"), answer.number), answer.place);
    }
}

// ---- playing

size_t schedule_play(const char *text, size_t length, size_t place, size_t number, struct pool *p, char out[LONGEST_LINE]) {
    uint32_t n[MOST_NUMBERS], list[BUFFERS];
    if (LONGEST_TEXT < length || length < place) return 0;
    struct line line = read_line(text, length, place, n);
    struct answer answer;
    switch (line.verb) {
    case MAKE: answer = pool_make(p, n[0], n[1], n[2]); break;
    case TAKE: answer = pool_take(p, n[0]); break;
    case HIRE: answer = pool_hire(p, n[0]); break;
    case FIRE: answer = pool_fire(p, n[0], n[1]); break;
    case POST: answer = pool_post(p, n[0], n[1], n[2]); break;
    case GIVE: answer = pool_give_up(p, n[0], n + 1, line.count - 1); break;
    case ASK: answer = pool_ask(p, n[0], n[1]); break;
    case STEP: answer = pool_advance(p, n[0], list, BUFFERS); break;
    default: return 0;
    }
    char *to = put_answer(put_number(out, number), answer, list);
    *to++ = '\n';
    return (size_t)(to - out);
}
