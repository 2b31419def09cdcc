/* The table's words as a C programmer sees them: header, buckets, levels, and the places of a key. */
#ifndef RAGANSILS_TWIN_TABLE_H
#define RAGANSILS_TWIN_TABLE_H

#include <stdbool.h>
#include <stddef.h>
#include <stdint.h>

#include "ragansils.h"

enum { SLOTS = 4, ALL_TAKEN = 15, PHASE_UNIT = 256 };

/* The form with a tag for each taken slot, at bits 8 + 8s to 15 + 8s of the token word. */
enum { PLAIN = 1, TAGGED = 2, LARGEST_TAG = 255 };

enum phase { AT_REST, GROWING, SHRINKING };

struct slot {
    uint64_t key, function, place;
};

struct bucket {
    uint64_t token;
    struct slot slots[SLOTS];
};

struct table {
    uint64_t form, c, mul1, mul2, state;
    uint64_t flag, target, function, place;
    struct bucket buckets[];
};

enum {
    HEADER_WORDS = sizeof(struct table) / sizeof(uint64_t),
    BUCKET_WORDS = sizeof(struct bucket) / sizeof(uint64_t),
    SLOT_WORDS = sizeof(struct slot) / sizeof(uint64_t)
};

_Static_assert(HEADER_WORDS == 9 && BUCKET_WORDS == 13 && SLOT_WORDS == 3, "the words of document 01");

/* A slot of the table; no bucket where there is none. */
struct spot {
    struct bucket *bucket;
    unsigned slot;
};

/* The tag is 0 for every key where the table has none. */
struct hashes {
    uint64_t first, second, tag;
};

static inline bool both_odd(uint64_t a, uint64_t b)
{
    return (a & b & 1) != 0;
}

/* The top level has 2^k buckets. */
static inline unsigned top_exponent(const struct table *t)
{
    return t->state % PHASE_UNIT;
}

static inline enum phase phase_of(const struct table *t)
{
    return t->state / PHASE_UNIT;
}

/* Growing or shrinking. */
static inline bool is_resizing(const struct table *t)
{
    return phase_of(t) != AT_REST;
}

/* The interim level has 2^e buckets: a quarter of the top while growing, and twice the top while shrinking. */
static inline unsigned interim_exponent(const struct table *t)
{
    return phase_of(t) == GROWING ? top_exponent(t) - 2 : top_exponent(t) + 1;
}

static inline bool form_good(uint64_t form)
{
    return form == PLAIN || form == TAGGED;
}

static inline bool is_tagged(const struct table *t)
{
    return t->form == TAGGED;
}

static inline bool header_good(const struct table *t, size_t words)
{
    if (words < HEADER_WORDS || words != RAGANSILS_WORDS(t->c) || !form_good(t->form) || !both_odd(t->mul1, t->mul2))
        return false;
    uint64_t k = t->state % PHASE_UNIT, phase = t->state / PHASE_UNIT;
    uint64_t least = phase == GROWING ? 2 : 1, greatest = phase == SHRINKING ? t->c - 1 : t->c;
    return phase <= SHRINKING && least <= k && k <= greatest;
}

/* The tests that come before all others: 1, then 3. */
static inline enum ragansils_refusal first_tests(const struct table *t, size_t words)
{
    if (!header_good(t, words))
        return RAGANSILS_BAD_HEADER;
    return t->flag == 0 ? RAGANSILS_DONE : RAGANSILS_FLAG_SET;
}

static inline struct hashes hashes_of(const struct table *t, uint64_t key)
{
    uint64_t factor = is_tagged(t) ? key ^ key >> 32 : key, product = factor * t->mul1;
    uint64_t tag = is_tagged(t) ? product >> 24 & LARGEST_TAG : 0;
    return (struct hashes){product >> 32, factor * t->mul2 >> 32, tag};
}

/* The place of a hash in the level of 2^e buckets, which are buckets 2^e - 1 to 2^(e + 1) - 2. */
static inline size_t place_of(uint64_t hash, unsigned e)
{
    size_t mask = ((size_t)1 << e) - 1;
    return mask + (hash & mask);
}

static inline struct bucket *bucket_for(struct table *t, uint64_t hash, unsigned e)
{
    return &t->buckets[place_of(hash, e)];
}

/* Which slots are taken. */
static inline unsigned taken_in(const struct bucket *b)
{
    return b->token & ALL_TAKEN;
}

static inline bool is_taken(const struct bucket *b, unsigned s)
{
    return b->token >> s & 1;
}

static inline bool is_full(const struct bucket *b)
{
    return taken_in(b) == ALL_TAKEN;
}

/* Of a bucket that is not full. */
static inline unsigned lowest_free(const struct bucket *b)
{
    return __builtin_ctz(~taken_in(b));
}

/* The lowest bit of a slot's tag. */
static inline unsigned tag_shift(unsigned s)
{
    return 8 + 8 * s;
}

static inline uint64_t tag_in(const struct bucket *b, unsigned s)
{
    return b->token >> tag_shift(s) & LARGEST_TAG;
}

/* The token word with a slot free: tags are read where there are any, and the word modulo 16 where there are none. */
static inline uint64_t token_without(const struct table *t, const struct bucket *b, unsigned s)
{
    uint64_t read = is_tagged(t) ? b->token : b->token & ALL_TAKEN;
    return read & ~(1ull << s | (uint64_t)LARGEST_TAG << tag_shift(s));
}

static inline uint64_t token_with(const struct table *t, const struct bucket *b, unsigned s, uint64_t tag)
{
    return token_without(t, b, s) | 1ull << s | tag << tag_shift(s);
}

static inline void fill_slot(const struct table *t, struct bucket *b, unsigned s, struct slot item, uint64_t tag)
{
    b->slots[s] = item;
    b->token = token_with(t, b, s, tag);
}

static inline void clear_slot(const struct table *t, struct bucket *b, unsigned s)
{
    b->token = token_without(t, b, s);
}

#endif
