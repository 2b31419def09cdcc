#include "placing.h"

/* A bucket with room for an item that stands in bucket `from`, among its places in the level of 2^e buckets; or NULL. */
typedef struct bucket *goal(struct table *t, uint64_t key, const struct bucket *from, unsigned e);

static unsigned taken_count(const struct bucket *b)
{
    static const unsigned char bits[] = {0, 1, 1, 2, 1, 2, 2, 3, 1, 2, 2, 3, 2, 3, 3, 4};
    return bits[taken_in(b)];
}

/* The emptier of a key's two places in the level of 2^e buckets. */
static struct bucket *emptier(struct table *t, struct hashes x, unsigned e)
{
    struct bucket *first = bucket_for(t, x.first, e);
    struct bucket *second = bucket_for(t, x.second, e);
    return taken_count(second) < taken_count(first) ? second : first;
}

/* "Other" is the first of the item's places that is not the bucket it stands in, whether there is room or not. Where both
 * are that bucket it has none, and the bucket, where moves are tried, is full. */
static inline struct bucket *other_place(struct table *t, uint64_t key, const struct bucket *from, unsigned e)
{
    struct hashes x = hashes_of(t, key);
    struct bucket *other = bucket_for(t, x.first, e);
    if (other == from)
        other = bucket_for(t, x.second, e);
    return is_full(other) ? NULL : other;
}

/* "to the item's first top place, else its second" */
static inline struct bucket *higher_place(struct table *t, uint64_t key, const struct bucket *from, unsigned e)
{
    (void)from;
    struct hashes x = hashes_of(t, key);
    struct bucket *higher = bucket_for(t, x.first, e);
    if (is_full(higher))
        higher = bucket_for(t, x.second, e);
    return is_full(higher) ? NULL : higher;
}

/* Moves the first item of a full bucket that has a goal in the level of 2^e buckets; answers its slot, or SLOTS. */
static inline unsigned move_from(struct table *t, const struct bucket *from, goal *goal_of, unsigned e)
{
    for (unsigned s = 0; s < SLOTS; s++) {
        struct bucket *to = goal_of(t, from->slots[s].key, from, e);
        if (to != NULL) {
            /* Its tag comes from its key, whatever tag it stood under. */
            fill_slot(t, to, lowest_free(to), from->slots[s], hashes_of(t, from->slots[s].key).tag);
            return s;
        }
    }
    return SLOTS;
}

/* Tries the items of both places x in the level of 2^e buckets, with goals in that of 2^to; answers the slot left free. */
static inline struct spot move_in_level(struct table *t, struct hashes x, unsigned e, goal *goal_of, unsigned to)
{
    struct bucket *first = bucket_for(t, x.first, e);
    struct bucket *second = bucket_for(t, x.second, e);
    unsigned s = move_from(t, first, goal_of, to);
    if (s < SLOTS)
        return (struct spot){first, s};
    if (second == first)
        return (struct spot){NULL, 0};
    s = move_from(t, second, goal_of, to);
    return (struct spot){s < SLOTS ? second : NULL, s};
}

/* "If all are full, one move." */
static struct spot move_one(struct table *t, struct hashes x, unsigned k)
{
    struct spot freed = move_in_level(t, x, k, other_place, k);
    if (freed.bucket == NULL)
        freed = move_in_level(t, x, k - 1, other_place, k - 1);
    if (freed.bucket == NULL)
        freed = move_in_level(t, x, k - 1, higher_place, k);
    return freed;
}

struct spot free_slot(struct table *t, struct hashes x)
{
    unsigned k = top_exponent(t);
    struct bucket *b = emptier(t, x, k);
    if (is_full(b))
        b = emptier(t, x, k - 1);
    return is_full(b) ? (struct spot){NULL, 0} : (struct spot){b, lowest_free(b)};
}

bool place_item(struct table *t, struct slot item, struct hashes x)
{
    struct spot to = free_slot(t, x);
    if (to.bucket == NULL)
        to = move_one(t, x, top_exponent(t));
    if (to.bucket == NULL)
        return false;
    fill_slot(t, to.bucket, to.slot, item, x.tag);
    return true;
}
