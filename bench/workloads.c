// The workloads of crates/bench on the baseline: the same calls in the same order, and the same checksums. They stand in a file of their own, so that
// each call is a call, as it is for whoever links a library.
#include "workloads.h"
#include "player.h"
#include <stdio.h>
#include <string.h>

// ---- checksums

static uint64_t with(uint64_t sum, uint64_t number) { return sum * 33 + number; }

static uint64_t with_answer(uint64_t sum, struct answer answer) {
    switch (answer.said) {
    case ACCEPTED: return with(sum, 1);
    case YES: return with(sum, 2);
    case NO: return with(sum, 3);
    case NONE_FOUND: return with(sum, 4);
    case FIRED: return with(sum, 5);
    case POSTED: return with(sum, 6);
    case AT: return with(sum, answer.number ^ 0x100);
    case HIRED: return with(sum, answer.number ^ 0x200);
    case BACK: return with(sum, answer.number ^ 0x400);
    default: return with(sum, answer.number ^ ((uint64_t)answer.place << 16) ^ 0x2000);
    }
}

static uint64_t with_list(uint64_t sum, const uint32_t *xs, size_t count) {
    for (size_t k = 0; k < count; k++) sum = with(sum, xs[k]);
    return sum;
}

static uint64_t with_bytes(uint64_t sum, const char *bytes, size_t count) {
    for (size_t k = 0; k < count; k++) sum = with(sum, (unsigned char)bytes[k]);
    return sum;
}

static uint64_t with_record(uint64_t sum, const struct pool *p) {
    sum = with_list(sum, (uint32_t[]){p->w, p->g, p->b, p->maxg}, 4);
    for (size_t i = 0; i < GUARDS; i++) sum = with(sum, p->taken[i]);
    sum = with_list(sum, p->employer, GUARDS);
    sum = with_list(sum, p->posted, GUARDS);
    sum = with_list(sum, p->slot_id, GUARDS);
    sum = with_list(sum, p->slot_version, GUARDS);
    for (size_t k = 0; k < BUFFERS; k++) sum = with(sum, p->states[k]);
    for (size_t k = 0; k < WORKERS; k++) {
        const struct worker *me = &p->workers[k];
        sum = with_list(sum, (uint32_t[]){me->label, me->i, me->v, me->h.id, me->h.version, me->attempts, me->max}, 7);
        for (size_t j = 0; j < BUFFERS / 64; j++) sum = with(sum, p->sets[k].words[j]);
    }
    return sum;
}

// ---- workloads

// Eight workers; guard i belongs to worker 5 + i / 8.
static void make_staffed(struct pool *p, uint32_t g, uint32_t b) {
    pool_make(p, 8, g, b);
    for (uint32_t i = 0; i < g; i++) {
        p->taken[i] = true;
        p->employer[i] = 5 + i / 8;
        p->maxg = i;
    }
}

uint64_t baseline_hire_fire(uint64_t times) {
    struct pool p;
    pool_make(&p, 8, 32, 256);
    uint64_t sum = 0;
    for (uint64_t k = 0; k < times; k++) {
        sum = with_answer(sum, pool_hire(&p, 1));
        for (int n = 0; n < 3; n++) sum = with_answer(sum, pool_advance(&p, 1, NULL, 0));
        sum = with_answer(sum, pool_fire(&p, 1, 0));
        for (int n = 0; n < 2; n++) sum = with_answer(sum, pool_advance(&p, 1, NULL, 0));
    }
    return with_record(sum, &p);
}

uint64_t baseline_post(uint64_t times) {
    struct pool p;
    make_staffed(&p, 32, 256);
    uint64_t sum = 0;
    for (uint64_t k = 0; k < times; k++)
        for (uint32_t down = 0; down < 2; down++) {
            sum = with_answer(sum, pool_post(&p, 5, 0, 1 - down));
            for (int n = 0; n < 2; n++) sum = with_answer(sum, pool_advance(&p, 5, NULL, 0));
        }
    return with_record(sum, &p);
}

// Each buffer taken, one give-up of them all, and so many advances.
static uint64_t give_up(struct pool *p, uint64_t times, size_t count, uint32_t advances, size_t length) {
    uint32_t ids[BUFFERS], list[BUFFERS] = {0};
    for (uint32_t j = 0; j < BUFFERS; j++) ids[j] = j + 1;
    uint64_t sum = 0;
    for (uint64_t k = 0; k < times; k++) {
        for (size_t j = 0; j < count; j++) sum = with_answer(sum, pool_take(p, ids[j]));
        sum = with_answer(sum, pool_give_up(p, 1, ids, count));
        for (uint32_t n = 0; n < advances; n++) sum = with_answer(sum, pool_advance(p, 1, list, length));
    }
    return with_list(with_record(sum, p), list, length);
}

uint64_t baseline_give_up(uint64_t times, size_t count) {
    struct pool p;
    pool_make(&p, 8, 32, 256);
    return give_up(&p, times, count, 7, BUFFERS);
}

uint64_t baseline_scan(uint64_t times, uint32_t g, uint32_t b) {
    struct pool p;
    make_staffed(&p, g, b);
    return give_up(&p, times, 0, 5 * g + 2, 1);
}

// What a give-up of worker 1 and its end change.
struct kept {
    struct worker me;
    struct id_set set;
    uint8_t states[BUFFERS];
};

static struct kept kept_of(const struct pool *p) {
    struct kept kept = {.me = p->workers[0], .set = p->sets[0]};
    memcpy(kept.states, p->states, sizeof kept.states);
    return kept;
}

static void put_back(struct pool *p, const struct kept *kept) {
    p->workers[0] = kept->me;
    p->sets[0] = kept->set;
    memcpy(p->states, kept->states, sizeof kept->states);
}

uint64_t baseline_hand_back(uint64_t times, size_t count) {
    struct pool p;
    pool_make(&p, 8, 32, 256);
    for (uint32_t j = 0; j < count; j++) {
        p.states[j] = LEAVING;
        p.sets[0].words[j / 64] |= (uint64_t)1 << j % 64;
    }
    p.workers[0].label = 32;
    const struct kept kept = kept_of(&p);
    uint32_t list[BUFFERS] = {0};
    uint64_t sum = 0;
    for (uint64_t k = 0; k < times; k++) {
        sum = with_answer(sum, pool_advance(&p, 1, list, BUFFERS));
        put_back(&p, &kept);
    }
    return with_list(with_record(sum, &p), list, BUFFERS);
}

enum { LONGEST_LIST = 10000 };

// Entry j of a list. The first 256 are all different, and go through the words of a set again and again.
static uint32_t entry(uint32_t j) { return j * 37 % BUFFERS + 1; }

// An entry that is refused: an id of no buffer at the first place, that of an earlier entry after it.
static uint32_t wrong(uint32_t place, uint32_t turn) { return place == 0 ? turn * (BUFFERS + 1) : entry(turn); }

uint64_t baseline_list(uint64_t times, uint32_t count, uint32_t good) {
    uint32_t ids[LONGEST_LIST];
    for (uint32_t j = 0; j < LONGEST_LIST; j++) ids[j] = entry(j);
    struct pool p;
    pool_make(&p, 8, 32, 256);
    memset(p.states, IN_SERVICE, sizeof p.states);
    const struct kept kept = kept_of(&p);
    uint64_t sum = 0;
    for (uint64_t k = 0; k < times; k++) {
        ids[good] = wrong(good, k % 2);
        sum = with_answer(sum, pool_give_up(&p, 1, ids, count));
        if (count == good) put_back(&p, &kept);
    }
    return with_record(sum, &p);
}

uint64_t baseline_refused(uint64_t times, size_t rule) {
    struct pool p;
    make_staffed(&p, 32, 256);
    uint32_t *past_the_guards = rule == COUNTS_OUT_OF_RANGE ? &p.maxg : &p.workers[7].max;
    uint64_t sum = 0;
    for (uint64_t k = 0; k < times; k++) {
        *past_the_guards = 32 + (uint32_t)(k % 2);
        sum = with_answer(sum, pool_hire(&p, 1));
    }
    return with_record(sum, &p);
}

// By reference there is nothing to hand in and out.
static struct answer stored(struct pool *p, uint64_t k) {
    p->states[k % BUFFERS] = 2 - p->states[k % BUFFERS] % 2;
    return (struct answer){.said = ACCEPTED};
}

uint64_t baseline_handed(uint64_t times) {
    struct pool p;
    pool_make(&p, 8, 32, 256);
    uint64_t sum = 0;
    for (uint64_t k = 0; k < times; k++) sum = with_answer(sum, stored(&p, k));
    return with_record(sum, &p);
}

uint64_t baseline_contention(uint64_t times) {
    struct pool p;
    uint32_t list[BUFFERS] = {0};
    make_staffed(&p, 32, 256);
    uint64_t sum = 0;
    for (uint64_t round = 0; round < times; round++) {
        uint32_t before = round % 2 * 32;
        for (uint32_t i = 0; i < 32; i++) {
            p.states[before + i] = IN_SERVICE;
            p.posted[i] = before + i + 1;
        }
        for (uint32_t w = 1; w < 5; w++) {
            uint32_t ids[8];
            for (uint32_t j = 0; j < 8; j++) ids[j] = before + w + 4 * j;
            sum = with_answer(sum, pool_give_up(&p, w, ids, 8));
        }
        for (uint32_t turn = 0; turn < 400; turn++)
            for (uint32_t k = 0; k < 8; k++) {
                if (p.workers[k].label != 0)
                    sum = with_answer(sum, pool_advance(&p, k + 1, list, BUFFERS));
                else if (4 <= k && turn % 40 == 0 && turn < 160)
                    sum = with_answer(sum, pool_post(&p, k + 1, k % 4 * 8 + turn / 40 * 2 + 1, 0));
            }
    }
    return with_list(with_record(sum, &p), list, BUFFERS);
}

// ---- schedules

// The whole text, read and played so many times over.
static uint64_t played(const char *text, size_t length, uint64_t times) {
    static uint32_t places[MOST_CALLS];
    char line[LONGEST_LINE];
    uint64_t sum = with_bytes(0, text, length);
    for (uint64_t k = 0; k < times; k++) {
        struct reading read = schedule_read(text, length, places);
        if (read.found != CALLS) continue;
        struct pool p = {0};
        for (size_t n = 0; n < read.number; n++) sum = with_bytes(sum, line, schedule_play(text, length, places[n], n + 1, &p, line));
        sum = with_record(sum, &p);
    }
    return sum;
}

uint64_t baseline_played_steps(uint64_t times) {
    static const char text[] = "make 8 32 256\nrepeat 3\nrepeat 1000\n"
                               "hire 1\nrepeat 3\nstep 1\nend\ntake 1\n"
                               "post 1 0 1\nrepeat 2\nstep 1\nend\nask 1 1\n"
                               "give 2 1\nrepeat 7\nstep 2\nend\nask 2 1\n"
                               "post 1 0 0\nrepeat 2\nstep 1\nend\n"
                               "give 2\nrepeat 7\nstep 2\nend\n"
                               "fire 1 0\nrepeat 2\nstep 1\nend\nask 1 1\nend\nend\n";
    return played(text, sizeof text - 1, times);
}

uint64_t baseline_played_refusals(uint64_t times) {
    static const char text[] = "make 8 32 256\nrepeat 100\nrepeat 999\nask 9 1\nend\nend\n";
    return played(text, sizeof text - 1, times);
}

uint64_t baseline_played_questions(uint64_t times) {
    char text[LONGEST_TEXT + 1] = "make 8 32 256\n";
    for (unsigned k = 0; k < 1637; k++) snprintf(text + 14 + 10 * k, 11, "ask %u %u\n", 1 + k % 8, 100 + k / 8 % 157);
    return played(text, LONGEST_TEXT, times);
}
