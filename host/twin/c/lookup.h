/* The search for a key, in the probe order of document 01, the paper that fixes the table. */
#ifndef RAGANSILS_TWIN_LOOKUP_H
#define RAGANSILS_TWIN_LOOKUP_H

#include "table.h"

/* What a search found: the slot with the key and its level, or no bucket; and the number of buckets looked at. Where a compiler does not
 * inline the search, so few bytes come back in two registers. */
struct found {
    const struct bucket *bucket;
    uint16_t slot, level;
    unsigned probes;
};

_Static_assert(sizeof(struct found) == 16, "two registers");

/* The taken slot of a bucket with the key, or SLOTS. */
static inline unsigned slot_with(const struct bucket *b, uint64_t key)
{
    for (unsigned s = 0; s < SLOTS; s++)
        if (b->slots[s].key == key && is_taken(b, s))
            return s;
    return SLOTS;
}

/* Which of a bucket's four tags fit, as bit 7 of each of four bytes. All are tested at once: bit 7 of a sum is clear only where the
 * seven bits below were 0. */
static inline uint32_t fitting_tags(const struct bucket *b, uint64_t tag)
{
    uint32_t differing = (uint32_t)(b->token >> tag_shift(0)) ^ (uint32_t)tag * 0x01010101u;
    return ~(((differing & 0x7f7f7f7fu) + 0x7f7f7f7fu) | differing) & 0x80808080u;
}

/* The same as slot_with, but only the slots whose tag fits are read. A free slot has tag 0, which is a key's tag too. */
static inline unsigned slot_by_tag(const struct bucket *b, uint64_t key, uint64_t tag)
{
    for (uint32_t fitting = fitting_tags(b, tag); fitting != 0; fitting &= fitting - 1) {
        unsigned s = __builtin_ctz(fitting) / 8;
        if (b->slots[s].key == key && is_taken(b, s))
            return s;
    }
    return SLOTS;
}

static inline unsigned slot_of(const struct bucket *b, uint64_t key, struct hashes x, bool tagged)
{
    return tagged ? slot_by_tag(b, key, x.tag) : slot_with(b, key);
}

/* The search in one level, of 2^e buckets, after so many buckets of others. */
static inline struct found find_in(const struct table *t, uint64_t key, struct hashes x, bool tagged, enum ragansils_level level,
                                   unsigned e, unsigned probes)
{
    const struct bucket *first = &t->buckets[place_of(x.first, e)];
    const struct bucket *second = &t->buckets[place_of(x.second, e)];
    unsigned s = slot_of(first, key, x, tagged);
    if (s < SLOTS)
        return (struct found){first, s, level, probes + 1};
    if (second == first)
        return (struct found){NULL, 0, 0, probes + 1};
    s = slot_of(second, key, x, tagged);
    if (s < SLOTS)
        return (struct found){second, s, level, probes + 2};
    return (struct found){NULL, 0, 0, probes + 2};
}

static inline struct found find_in_levels(const struct table *t, uint64_t key, struct hashes x, bool tagged)
{
    unsigned k = top_exponent(t);
    struct found found = find_in(t, key, x, tagged, RAGANSILS_TOP, k, 0);
    if (found.bucket == NULL)
        found = find_in(t, key, x, tagged, RAGANSILS_BOTTOM, k - 1, found.probes);
    if (found.bucket == NULL && is_resizing(t))
        found = find_in(t, key, x, tagged, RAGANSILS_INTERIM, interim_exponent(t), found.probes);
    return found;
}

/* The form is asked once, and not for each bucket. */
static inline struct found find(const struct table *t, uint64_t key, struct hashes x)
{
    return is_tagged(t) ? find_in_levels(t, key, x, true) : find_in_levels(t, key, x, false);
}

/* The first tests of an insert, then 4 where the key stands; and the hashes of one that does not. */
static inline enum ragansils_refusal find_absent(const struct table *t, size_t words, uint64_t key, struct hashes *x)
{
    enum ragansils_refusal refusal = first_tests(t, words);
    if (refusal != RAGANSILS_DONE)
        return refusal;
    *x = hashes_of(t, key);
    return find(t, key, *x).bucket == NULL ? RAGANSILS_DONE : RAGANSILS_KEY_PRESENT;
}

#endif
