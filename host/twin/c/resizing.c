/* Growth and shrinking in small steps: begin, shrink, back, the two steps and end. */
#include "placing.h"
#include "table.h"
#include "twin.h"

static inline size_t interim_size(const struct table *t)
{
    return (size_t)1 << interim_exponent(t);
}

/* The first taken interim slot that is not before `from`, by bucket, then slot. */
static inline struct spot interim_from(struct table *t, struct spot from)
{
    struct bucket *b = from.bucket, *end = &t->buckets[2 * interim_size(t) - 1];
    unsigned taken = taken_in(b) >> from.slot << from.slot;
    while (taken == 0) {
        if (++b == end)
            return (struct spot){NULL, 0};
        taken = taken_in(b);
    }
    return (struct spot){b, __builtin_ctz(taken)};
}

static inline struct bucket *first_interim_bucket(struct table *t)
{
    return &t->buckets[interim_size(t) - 1];
}

/* The first taken interim slot from a bucket on, counted from 0 in the level. Any number is a start; past the level there is none. */
static inline struct spot first_interim_from(struct table *t, uint64_t from)
{
    if (from >= interim_size(t))
        return (struct spot){NULL, 0};
    return interim_from(t, (struct spot){first_interim_bucket(t) + from, 0});
}

/* The first tests of begin and shrink: then 7. */
static inline enum ragansils_refusal rest_tests(const struct table *t, size_t words)
{
    enum ragansils_refusal refusal = first_tests(t, words);
    if (refusal != RAGANSILS_DONE)
        return refusal;
    return is_resizing(t) ? RAGANSILS_ALREADY_RESIZING : RAGANSILS_DONE;
}

/* The first tests of back, the steps and end: then 8. */
static inline enum ragansils_refusal resizing_tests(const struct table *t, size_t words)
{
    enum ragansils_refusal refusal = first_tests(t, words);
    if (refusal != RAGANSILS_DONE)
        return refusal;
    return is_resizing(t) ? RAGANSILS_DONE : RAGANSILS_NOT_RESIZING;
}

static inline void set_state(struct table *t, unsigned k, enum phase phase)
{
    t->state = k + PHASE_UNIT * phase;
}

uint64_t twin_begin(uint64_t *table, size_t words)
{
    struct table *t = (struct table *)table;
    enum ragansils_refusal refusal = rest_tests(t, words);
    if (refusal != RAGANSILS_DONE)
        return refusal;
    if (top_exponent(t) == t->c)
        return RAGANSILS_AT_CAPACITY;
    set_state(t, top_exponent(t) + 1, GROWING);
    return RAGANSILS_DONE;
}

uint64_t twin_shrink(uint64_t *table, size_t words)
{
    struct table *t = (struct table *)table;
    enum ragansils_refusal refusal = rest_tests(t, words);
    if (refusal != RAGANSILS_DONE)
        return refusal;
    if (top_exponent(t) < 2)
        return RAGANSILS_TOO_SMALL;
    set_state(t, top_exponent(t) - 1, SHRINKING);
    return RAGANSILS_DONE;
}

uint64_t twin_back(uint64_t *table, size_t words)
{
    struct table *t = (struct table *)table;
    enum ragansils_refusal refusal = resizing_tests(t, words);
    if (refusal != RAGANSILS_DONE)
        return refusal;
    if (phase_of(t) == GROWING)
        set_state(t, top_exponent(t) - 1, SHRINKING);
    else
        set_state(t, top_exponent(t) + 1, GROWING);
    return RAGANSILS_DONE;
}

uint64_t twin_step_from(uint64_t *table, size_t words, uint64_t from, uint64_t *bucket)
{
    struct table *t = (struct table *)table;
    *bucket = 0;
    enum ragansils_refusal refusal = resizing_tests(t, words);
    if (refusal != RAGANSILS_DONE)
        return refusal;
    struct spot spot = first_interim_from(t, from);
    if (spot.bucket == NULL)
        return RAGANSILS_INTERIM_EMPTY;
    do {
        struct slot item = spot.bucket->slots[spot.slot];
        /* Read before the item is stored: where that goes is known only once its top buckets have come out of memory. */
        uint64_t left = token_without(t, spot.bucket, spot.slot);
        if (place_item(t, item, hashes_of(t, item.key))) {
            spot.bucket->token = left;
            *bucket = spot.bucket - first_interim_bucket(t);
            return RAGANSILS_DONE;
        }
        spot = interim_from(t, (struct spot){spot.bucket, spot.slot + 1});
    } while (spot.bucket != NULL);
    return RAGANSILS_NO_PLACE;
}

uint64_t twin_step(uint64_t *table, size_t words)
{
    uint64_t bucket;
    return twin_step_from(table, words, 0, &bucket);
}

uint64_t twin_end(uint64_t *table, size_t words)
{
    struct table *t = (struct table *)table;
    enum ragansils_refusal refusal = resizing_tests(t, words);
    if (refusal != RAGANSILS_DONE)
        return refusal;
    if (first_interim_from(t, 0).bucket != NULL)
        return RAGANSILS_INTERIM_TAKEN;
    set_state(t, top_exponent(t), AT_REST);
    return RAGANSILS_DONE;
}
