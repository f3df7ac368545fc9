// The baseline: the pool's calls as a careful engineer writes them without proofs, on a record behind a pointer. Only what the benchmark calls.
#pragma once
#include <stdbool.h>
#include <stddef.h>
#include <stdint.h>

enum { WORKERS = 8, GUARDS = 32, BUFFERS = 256 };

struct slot {
    uint32_t id, version;
};

struct worker {
    uint32_t label, i, v;
    struct slot h;
    uint32_t attempts, max;
};

// Bit (id - 1) % 64 of word (id - 1) / 64 is id's mark.
struct id_set {
    uint64_t words[BUFFERS / 64];
};

enum { FREE, IN_SERVICE, LEAVING };

// Guard i is entry i of its arrays, buffer id is entry id - 1 of the states, worker no is entry no - 1 of the workers and of the sets.
struct pool {
    uint32_t w, g, b, maxg;
    bool taken[GUARDS];
    uint32_t employer[GUARDS], posted[GUARDS], slot_id[GUARDS], slot_version[GUARDS];
    uint8_t states[BUFFERS];
    struct worker workers[WORKERS];
    struct id_set sets[WORKERS];
};

enum said { ACCEPTED, AT, HIRED, NONE_FOUND, FIRED, POSTED, BACK, YES, NO, REFUSED };

// The paper's refusal numbers.
enum refusal {
    SIZES_OUT_OF_RANGE = 1,
    NO_SUCH_WORKER = 3,
    WORKER_NOT_IDLE,
    WORKER_IDLE,
    NO_SUCH_GUARD,
    GUARD_NOT_EMPLOYED,
    GUARD_POSTED,
    NO_SUCH_BUFFER,
    BUFFER_REPEATED,
    BUFFER_IN_WRONG_STATE,
    VERSIONS_USED_UP,
    LIST_TOO_SHORT,
    MEMBER_NOT_LEAVING,
    COUNTS_OUT_OF_RANGE = 21,
    ENTRY_BEYOND_COUNTS,
    KIND_UNKNOWN,
    ID_OUT_OF_RANGE,
    REGISTER_OUT_OF_RANGE
};

// `number` is a label, a guard, a count or a refusal; `place` an index into a give-up list, or the guard, buffer or worker that breaks a rule.
struct answer {
    enum said said;
    uint32_t number;
    size_t place;
};

struct answer pool_make(struct pool *p, uint32_t w, uint32_t g, uint32_t b);
struct answer pool_hire(struct pool *p, uint32_t worker);
struct answer pool_fire(struct pool *p, uint32_t worker, uint32_t guard);
struct answer pool_post(struct pool *p, uint32_t worker, uint32_t guard, uint32_t buffer);
struct answer pool_take(struct pool *p, uint32_t buffer);
struct answer pool_ask(const struct pool *p, uint32_t worker, uint32_t buffer);
struct answer pool_give_up(struct pool *p, uint32_t worker, const uint32_t *ids, size_t count);
struct answer pool_advance(struct pool *p, uint32_t worker, uint32_t *list, size_t length);
