/* Recovery: the same tests as the proved recovery makes, linear in the table's words. */
#include "lookup.h"
#include "table.h"
#include "twin.h"

/* What has been met so far among the taken slots. */
struct scan {
    size_t pairs;               /* of slots with one key */
    struct spot earlier, later; /* the last pair met */
};

/* The levels in use have 2^e buckets, for each e from the least exponent to the greatest: the interim level lies next to one of the
 * others, as the smallest of them or as the largest. */
static unsigned least_exponent(const struct table *t)
{
    return phase_of(t) == GROWING ? interim_exponent(t) : top_exponent(t) - 1;
}

static unsigned greatest_exponent(const struct table *t)
{
    return phase_of(t) == SHRINKING ? interim_exponent(t) : top_exponent(t);
}

/* The bits that a token word may have in a level in use: those of its taken slots, with their tags, or any of the four token bits. */
static inline uint64_t allowed_bits(const struct table *t, const struct bucket *b)
{
    if (!is_tagged(t))
        return ALL_TAKEN;
    uint64_t allowed = taken_in(b);
    for (unsigned s = 0; s < SLOTS; s++)
        allowed |= (is_taken(b, s) ? (uint64_t)LARGEST_TAG : 0) << tag_shift(s);
    return allowed;
}

/* "every token word at most 15, and 0 in levels not in use"; with tags, which scan_item tests, the words have no bits besides. */
static bool tokens_good(const struct table *t)
{
    for (unsigned e = 0; e <= t->c; e++) {
        bool in_use = least_exponent(t) <= e && e <= greatest_exponent(t);
        size_t size = (size_t)1 << e;
        for (size_t i = size - 1; i < 2 * size - 1; i++)
            if ((t->buckets[i].token & ~(in_use ? allowed_bits(t, &t->buckets[i]) : 0)) != 0)
                return false;
    }
    return true;
}

/* The level in use that a bucket belongs to. */
static enum ragansils_level level_of(const struct table *t, const struct bucket *b)
{
    unsigned e = 63 - __builtin_clzll((uint64_t)(b - t->buckets) + 1), k = top_exponent(t);
    return e == k ? RAGANSILS_TOP : e == k - 1 ? RAGANSILS_BOTTOM : RAGANSILS_INTERIM;
}

/* "by top, bottom, interim, then bucket and slot ascending" */
static bool comes_before(const struct table *t, struct spot x, struct spot y)
{
    enum ragansils_level of_x = level_of(t, x.bucket), of_y = level_of(t, y.bucket);
    if (of_x != of_y)
        return of_x < of_y;
    return x.bucket != y.bucket ? x.bucket < y.bucket : x.slot < y.slot;
}

/* One taken slot of the level of 2^e buckets. Where the lookup of its key ends at the slot itself, it is in a place of its key, and no slot
 * that comes before it there has the key; so where every slot's does, no key stands twice. False where it is in no place of its key, or
 * has another tag: then the lookup passes over it, and may end at a copy. */
static bool scan_item(struct scan *scan, struct table *t, struct spot x, unsigned e)
{
    uint64_t key = x.bucket->slots[x.slot].key;
    struct hashes h = hashes_of(t, key);
    if (tag_in(x.bucket, x.slot) != h.tag)
        return false;
    struct found found = find(t, key, h);
    if (found.bucket == x.bucket && found.slot == x.slot)
        return true;
    if (found.bucket == NULL || (x.bucket != bucket_for(t, h.first, e) && x.bucket != bucket_for(t, h.second, e)))
        return false;
    struct spot y = {(struct bucket *)found.bucket, found.slot};
    bool x_first = comes_before(t, x, y);
    scan->earlier = x_first ? x : y;
    scan->later = x_first ? y : x;
    scan->pairs++;
    return true;
}

static bool scan_level(struct scan *scan, struct table *t, unsigned e)
{
    size_t size = (size_t)1 << e;
    for (size_t i = size - 1; i < 2 * size - 1; i++)
        for (unsigned s = 0; s < SLOTS; s++)
            if (is_taken(&t->buckets[i], s) && !scan_item(scan, t, (struct spot){&t->buckets[i], s}, e))
                return false;
    return true;
}

static bool same_record(struct spot a, struct spot b)
{
    const struct slot *x = &a.bucket->slots[a.slot], *y = &b.bucket->slots[b.slot];
    return x->function == y->function && x->place == y->place;
}

/* "word 6 the key word of a taken slot in a level in use" */
static struct slot *flagged_slot(struct table *t)
{
    size_t lowest = ((size_t)1 << least_exponent(t)) - 1, end = ((size_t)2 << greatest_exponent(t)) - 1;
    uint64_t offset = (t->target - HEADER_WORDS) % BUCKET_WORDS, number = (t->target - HEADER_WORDS) / BUCKET_WORDS;
    if (t->target < HEADER_WORDS || number < lowest || number >= end || offset % SLOT_WORDS != 1)
        return NULL;
    struct bucket *b = &t->buckets[number];
    unsigned s = offset / SLOT_WORDS;
    return is_taken(b, s) ? &b->slots[s] : NULL;
}

static uint64_t redo_update(struct table *t)
{
    struct slot *slot = flagged_slot(t);
    if (slot == NULL)
        return RAGANSILS_NO_KIND;
    slot->function = t->function;
    slot->place = t->place;
    t->flag = 0;
    return RAGANSILS_DONE;
}

uint64_t twin_recover(uint64_t *table, size_t words)
{
    struct table *t = (struct table *)table;
    if (!header_good(t, words))
        return RAGANSILS_BAD_HEADER;
    struct scan scan = {0};
    bool good = t->flag <= 1 && tokens_good(t);
    for (unsigned e = least_exponent(t); good && e <= greatest_exponent(t); e++)
        good = scan_level(&scan, t, e);
    if (!good || scan.pairs > 1 - t->flag)
        return RAGANSILS_NO_KIND;
    if (t->flag == 1)
        return redo_update(t);
    if (scan.pairs == 0)
        return RAGANSILS_DONE;
    if (!same_record(scan.earlier, scan.later))
        return RAGANSILS_NO_KIND;
    clear_slot(t, scan.later.bucket, scan.later.slot);
    return RAGANSILS_DONE;
}
