// The pool's calls on a record behind a pointer (baseline.h).
#include "baseline.h"
#include <string.h>

static struct answer says(enum said said, uint32_t number) { return (struct answer){.said = said, .number = number}; }

static struct answer refuses(enum refusal number, size_t place) { return (struct answer){REFUSED, number, place}; }

// What is wrong with a record or a call: a refusal's number, or 0 for nothing, and the place.
struct fault {
    uint32_t number;
    size_t place;
};

static struct fault fault(uint32_t number, size_t place) { return (struct fault){number, place}; }

static struct fault fault_if(bool wrong, uint32_t number) { return fault(wrong ? number : 0, 0); }

// ---- sets

static bool set_has(const struct id_set *s, uint32_t id) { return id != 0 && (s->words[(id - 1) / 64] >> ((id - 1) % 64) & 1); }

static void set_add(struct id_set *s, uint32_t id) {
    if (id != 0) s->words[(id - 1) / 64] |= (uint64_t)1 << (id - 1) % 64;
}

static void set_remove(struct id_set *s, uint32_t id) {
    if (id != 0) s->words[(id - 1) / 64] &= ~((uint64_t)1 << (id - 1) % 64);
}

static uint32_t set_size(const struct id_set *s) {
    uint32_t size = 0;
    for (size_t k = 0; k < BUFFERS / 64; k++) size += (uint32_t)__builtin_popcountll(s->words[k]);
    return size;
}

// ---- soundness: every scan asks each entry and leaves none early, so that it runs as vector code; what is beyond a count is a scan of its own

static bool fit(const uint32_t xs[GUARDS], uint32_t limit) {
    uint32_t above = 0;
    for (size_t k = 0; k < GUARDS; k++) above |= xs[k] > limit;
    return above == 0;
}

static bool zero_from(const uint32_t xs[GUARDS], size_t count) {
    uint32_t beyond = 0;
    for (size_t k = count; k < GUARDS; k++) beyond |= xs[k];
    return beyond == 0;
}

static bool untaken_from(const bool xs[GUARDS], size_t count) {
    uint8_t beyond = 0;
    for (size_t k = count; k < GUARDS; k++) beyond |= xs[k];
    return beyond == 0;
}

static bool states_fit(const uint8_t xs[BUFFERS], size_t count) {
    uint8_t above = 0, beyond = 0;
    for (size_t k = 0; k < BUFFERS; k++) above |= xs[k] > LEAVING;
    for (size_t k = count; k < BUFFERS; k++) beyond |= xs[k];
    return (above | beyond) == 0;
}

// The marks of the ids above the limit.
static struct id_set above(uint32_t limit) {
    struct id_set marks;
    for (uint32_t k = 0; k < BUFFERS / 64; k++) {
        uint32_t base = k * 64;
        marks.words[k] = limit <= base ? UINT64_MAX : limit - base < 64 ? UINT64_MAX << (limit - base) : 0;
    }
    return marks;
}

// The marks that two sets share, of all words in one.
static uint64_t shared(const struct id_set *s, const struct id_set *t) {
    uint64_t marks = 0;
    for (size_t k = 0; k < BUFFERS / 64; k++) marks |= s->words[k] & t->words[k];
    return marks;
}

// Bit l is set exactly for a label l.
static const uint64_t labels = 0x19244b7f5;

static bool is_label(uint32_t l) { return (l < 64) & (labels >> (l % 64) & 1); }

static bool registers_fit(const struct worker *x, uint32_t g) {
    uint32_t l = x->label;
    bool at_end = ((l == 12) | (l == 32)) & (x->i == g);
    bool trying = (l == 15) | (l == 18) | (l == 22) | (l == 25);
    uint32_t most = trying ? 2 : 3;
    return ((x->i < g) | at_end) & (x->max < g) & (x->attempts <= most);
}

static bool worker_fits(const struct worker *x, uint32_t g, uint32_t b) {
    bool known = is_label(x->label), registers = registers_fit(x, g);
    return known & (x->v <= b) & (x->h.id <= b) & registers;
}

static bool idle(const struct worker *x) { return (x->label | x->i | x->v | x->h.id | x->h.version | x->attempts | x->max) == 0; }

// The marks of all sets go into one, which is asked once.
static bool workers_fit(const struct pool *p) {
    const struct id_set beyond = above(p->b);
    struct id_set all = {{0}};
    bool ok = true;
    for (size_t k = 0; k < WORKERS; k++) {
        ok &= worker_fits(&p->workers[k], p->g, p->b);
        for (size_t i = 0; i < BUFFERS / 64; i++) all.words[i] |= p->sets[k].words[i];
    }
    ok &= shared(&all, &beyond) == 0;
    for (size_t k = p->w; k < WORKERS; k++) {
        const struct id_set *s = &p->sets[k];
        ok &= idle(&p->workers[k]);
        ok &= shared(s, s) == 0;
    }
    return ok;
}

static bool counts_fit(const struct pool *p) {
    uint32_t w = p->w, g = p->g, b = p->b;
    return (1 <= w) & (w <= WORKERS) & (1 <= g) & (g <= GUARDS) & (1 <= b) & (b <= BUFFERS) & (p->maxg < g);
}

static bool sound(const struct pool *p) {
    uint32_t w = p->w, g = p->g, b = p->b;
    bool ok = counts_fit(p);
    ok &= fit(p->employer, w);
    ok &= fit(p->posted, b);
    ok &= fit(p->slot_id, b);
    ok &= untaken_from(p->taken, g);
    ok &= zero_from(p->employer, g);
    ok &= zero_from(p->posted, g);
    ok &= zero_from(p->slot_id, g);
    ok &= zero_from(p->slot_version, g);
    ok &= states_fit(p->states, b);
    ok &= workers_fit(p);
    return ok;
}

// ---- the first broken rule: only a record that is not sound is searched, entry by entry up to the first that fails

static bool guard_keeps(const struct pool *p, enum refusal rule, size_t i) {
    switch (rule) {
    case ENTRY_BEYOND_COUNTS: return i < p->g || !(p->taken[i] | p->employer[i] | p->posted[i] | p->slot_id[i] | p->slot_version[i]);
    case KIND_UNKNOWN: return p->employer[i] <= p->w;
    default: return p->posted[i] <= p->b && p->slot_id[i] <= p->b;
    }
}

static bool buffer_keeps(const struct pool *p, enum refusal rule, size_t k) {
    return rule == ENTRY_BEYOND_COUNTS ? k < p->b || p->states[k] == FREE : p->states[k] <= LEAVING;
}

static bool worker_keeps(const struct pool *p, enum refusal rule, size_t k) {
    const struct worker *x = &p->workers[k];
    const struct id_set *s = &p->sets[k];
    const struct id_set beyond = above(p->b);
    switch (rule) {
    case ENTRY_BEYOND_COUNTS: return k < p->w || (idle(x) && shared(s, s) == 0);
    case KIND_UNKNOWN: return is_label(x->label);
    case ID_OUT_OF_RANGE: return x->v <= p->b && x->h.id <= p->b && shared(s, &beyond) == 0;
    default: return registers_fit(x, p->g);
    }
}

static struct fault guard_that_breaks(const struct pool *p, enum refusal rule) {
    for (size_t i = 0; i < GUARDS; i++)
        if (!guard_keeps(p, rule, i)) return fault(rule, i);
    return fault(0, 0);
}

static struct fault buffer_that_breaks(const struct pool *p, enum refusal rule) {
    for (size_t k = 0; k < BUFFERS; k++)
        if (!buffer_keeps(p, rule, k)) return fault(rule, k + 1);
    return fault(0, 0);
}

static struct fault worker_that_breaks(const struct pool *p, enum refusal rule) {
    for (size_t k = 0; k < WORKERS; k++)
        if (!worker_keeps(p, rule, k)) return fault(rule, k + 1);
    return fault(0, 0);
}

static struct fault broken_rule(const struct pool *p) {
    struct fault found = fault_if(!counts_fit(p), COUNTS_OUT_OF_RANGE);
    for (enum refusal rule = ENTRY_BEYOND_COUNTS; !found.number && rule <= REGISTER_OUT_OF_RANGE; rule++) {
        if (rule < REGISTER_OUT_OF_RANGE) found = guard_that_breaks(p, rule);
        if (!found.number && rule < ID_OUT_OF_RANGE) found = buffer_that_breaks(p, rule);
        if (!found.number) found = worker_that_breaks(p, rule);
    }
    return found;
}

static struct fault soundness_fault(const struct pool *p) { return sound(p) ? fault(0, 0) : broken_rule(p); }

// ---- what is wrong with a call

static struct fault worker_fault(const struct pool *p, uint32_t worker) {
    struct fault found = soundness_fault(p);
    if (found.number) return found;
    return fault_if(worker < 1 || p->w < worker, NO_SUCH_WORKER);
}

static struct fault begin_fault(const struct pool *p, uint32_t worker) {
    struct fault found = worker_fault(p, worker);
    if (found.number) return found;
    return fault_if(p->workers[worker - 1].label != 0, WORKER_NOT_IDLE);
}

static struct fault guard_fault(const struct pool *p, uint32_t worker, uint32_t guard) {
    if (p->g <= guard) return fault(NO_SUCH_GUARD, 0);
    return fault_if(p->employer[guard] != worker, GUARD_NOT_EMPLOYED);
}

// ---- begins

struct answer pool_make(struct pool *p, uint32_t w, uint32_t g, uint32_t b) {
    memset(p, 0, sizeof *p);
    if (w < 1 || WORKERS < w || g < 1 || GUARDS < g || b < 1 || BUFFERS < b) return refuses(SIZES_OUT_OF_RANGE, 0);
    p->w = w;
    p->g = g;
    p->b = b;
    return says(ACCEPTED, 0);
}

struct answer pool_hire(struct pool *p, uint32_t worker) {
    struct fault found = begin_fault(p, worker);
    if (found.number) return refuses(found.number, found.place);
    struct worker *me = &p->workers[worker - 1];
    me->i = 0;
    me->label = 2;
    return says(ACCEPTED, 0);
}

struct answer pool_fire(struct pool *p, uint32_t worker, uint32_t guard) {
    struct fault found = begin_fault(p, worker);
    if (!found.number) found = guard_fault(p, worker, guard);
    if (!found.number) found = fault_if(p->posted[guard] != 0, GUARD_POSTED);
    if (found.number) return refuses(found.number, found.place);
    struct worker *me = &p->workers[worker - 1];
    me->i = guard;
    p->employer[guard] = 0;
    me->label = 7;
    return says(ACCEPTED, 0);
}

struct answer pool_post(struct pool *p, uint32_t worker, uint32_t guard, uint32_t buffer) {
    struct fault found = begin_fault(p, worker);
    if (!found.number) found = guard_fault(p, worker, guard);
    if (!found.number) found = fault_if(p->b < buffer, NO_SUCH_BUFFER);
    if (found.number) return refuses(found.number, found.place);
    struct worker *me = &p->workers[worker - 1];
    me->i = guard;
    me->v = buffer;
    me->label = 9;
    return says(ACCEPTED, 0);
}

struct answer pool_take(struct pool *p, uint32_t buffer) {
    struct fault found = soundness_fault(p);
    if (found.number) return refuses(found.number, found.place);
    if (buffer < 1 || p->b < buffer) return refuses(NO_SUCH_BUFFER, 0);
    if (p->states[buffer - 1] != FREE) return refuses(BUFFER_IN_WRONG_STATE, 0);
    p->states[buffer - 1] = IN_SERVICE;
    return says(ACCEPTED, 0);
}

struct answer pool_ask(const struct pool *p, uint32_t worker, uint32_t buffer) {
    struct fault found = begin_fault(p, worker);
    if (!found.number) found = fault_if(buffer < 1 || p->b < buffer, NO_SUCH_BUFFER);
    if (found.number) return refuses(found.number, found.place);
    return says(p->states[buffer - 1] == IN_SERVICE ? YES : NO, 0);
}

struct answer pool_give_up(struct pool *p, uint32_t worker, const uint32_t *ids, size_t count) {
    struct fault found = begin_fault(p, worker);
    if (found.number) return refuses(found.number, found.place);
    struct id_set met = {{0}};
    for (size_t k = 0; k < count; k++) {
        if (ids[k] < 1 || p->b < ids[k]) return refuses(NO_SUCH_BUFFER, k);
        if (set_has(&met, ids[k])) return refuses(BUFFER_REPEATED, k);
        if (p->states[ids[k] - 1] != IN_SERVICE) return refuses(BUFFER_IN_WRONG_STATE, k);
        set_add(&met, ids[k]);
    }
    for (size_t k = 0; k < count; k++) p->states[ids[k] - 1] = LEAVING;
    p->sets[worker - 1] = met;
    struct worker *me = &p->workers[worker - 1];
    me->i = 0;
    me->label = 12;
    return says(ACCEPTED, 0);
}

// ---- the advance

static struct answer moves(struct worker *me, uint32_t label) {
    me->label = label;
    return says(AT, label);
}

static struct answer ends(struct worker *me, struct id_set *set, enum said said, uint32_t number) {
    *me = (struct worker){0};
    *set = (struct id_set){0};
    return says(said, number);
}

static struct answer hand_back(struct pool *p, struct worker *me, struct id_set *set, uint32_t *list, size_t length) {
    bool leaving = true;
    for (size_t k = 0; k < BUFFERS / 64; k++)
        for (uint64_t word = set->words[k]; word; word &= word - 1)
            leaving &= p->states[k * 64 + (size_t)__builtin_ctzll(word)] == LEAVING;
    if (!leaving) return refuses(MEMBER_NOT_LEAVING, 0);
    uint32_t size = set_size(set);
    if (length < size) return refuses(LIST_TOO_SHORT, 0);
    for (size_t k = 0; k < BUFFERS / 64; k++)
        for (uint64_t word = set->words[k]; word; word &= word - 1) {
            uint32_t at = (uint32_t)k * 64 + (uint32_t)__builtin_ctzll(word);
            *list++ = at + 1;
            p->states[at] = FREE;
        }
    return ends(me, set, BACK, size);
}

struct answer pool_advance(struct pool *p, uint32_t worker, uint32_t *list, size_t length) {
    struct fault found = worker_fault(p, worker);
    if (found.number) return refuses(found.number, found.place);
    struct worker *me = &p->workers[worker - 1];
    struct id_set *set = &p->sets[worker - 1];
    uint32_t i = me->i;
    switch (me->label) {
    case 0: return refuses(WORKER_IDLE, 0);
    case 2:
        if (!p->taken[i]) {
            p->taken[i] = true;
            return moves(me, 4);
        }
        if (i + 1 == p->g) return ends(me, set, NONE_FOUND, 0);
        me->i = i + 1;
        return moves(me, 2);
    case 4: me->max = p->maxg; return moves(me, p->maxg < i ? 5 : 6);
    case 5:
        if (p->maxg == me->max) p->maxg = i;
        return moves(me, 4);
    case 6: p->employer[i] = worker; return ends(me, set, HIRED, i);
    case 7: p->taken[i] = false; return moves(me, 8);
    case 8: return ends(me, set, FIRED, 0);
    case 9: p->posted[i] = me->v; return moves(me, 10);
    case 10: return ends(me, set, POSTED, 0);
    case 12: return moves(me, i <= p->maxg ? 13 : 32);
    case 13:
        me->attempts = 0;
        me->h = (struct slot){p->slot_id[i], p->slot_version[i]};
        return moves(me, 15);
    case 15: me->v = p->posted[i]; return moves(me, set_has(set, me->v) ? 18 : 28);
    case 18:
        if (p->slot_id[i] != me->h.id || p->slot_version[i] != me->h.version) return moves(me, 22);
        if (p->slot_version[i] == UINT32_MAX) return refuses(VERSIONS_USED_UP, 0);
        p->slot_id[i] = me->v;
        p->slot_version[i]++;
        set_remove(set, me->v);
        set_add(set, me->h.id);
        return moves(me, 31);
    case 22:
        if (++me->attempts == 3) return moves(me, 31);
        me->h = (struct slot){p->slot_id[i], p->slot_version[i]};
        return moves(me, 25);
    case 25: return moves(me, (me->attempts == 2 && me->h.id != 0) || me->v != p->posted[i] ? 31 : 18);
    case 28:
        if (me->h.id != 0 && me->h.id != me->v && p->slot_id[i] == me->h.id && p->slot_version[i] == me->h.version) {
            if (p->slot_version[i] == UINT32_MAX) return refuses(VERSIONS_USED_UP, 0);
            p->slot_id[i] = 0;
            p->slot_version[i]++;
            set_add(set, me->h.id);
        }
        return moves(me, 31);
    case 31: me->i = i + 1; return moves(me, 12);
    default: return hand_back(p, me, set, list, length);
    }
}
