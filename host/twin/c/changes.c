/* Create, query, insert, update and delete. */
#include <string.h>

#include "lookup.h"
#include "placing.h"
#include "table.h"
#include "twin.h"

uint64_t twin_create(uint64_t *table, size_t words, uint64_t form, uint64_t c, uint64_t k, uint64_t mul1, uint64_t mul2)
{
    if (!form_good(form) || words == 0 || words != RAGANSILS_WORDS(c) || k < 1 || k > c || !both_odd(mul1, mul2))
        return RAGANSILS_BAD_CREATION;
    memset(table, 0, words * sizeof *table);
    struct table *t = (struct table *)table;
    t->form = form;
    t->c = c;
    t->mul1 = mul1;
    t->mul2 = mul2;
    t->state = k;
    return RAGANSILS_DONE;
}

/* A query's answer where there is no record. */
static uint64_t unknown(uint64_t answer[RAGANSILS_ANSWER_WORDS], uint64_t probes, enum ragansils_refusal refusal)
{
    answer[0] = answer[1] = 0;
    answer[2] = probes;
    answer[3] = answer[4] = 0;
    return refusal;
}

uint64_t twin_query(const uint64_t *table, size_t words, uint64_t key, uint64_t answer[RAGANSILS_ANSWER_WORDS])
{
    const struct table *t = (const struct table *)table;
    enum ragansils_refusal refusal = first_tests(t, words);
    if (refusal != RAGANSILS_DONE)
        return unknown(answer, 0, refusal);
    struct found found = find(t, key, hashes_of(t, key));
    if (found.bucket == NULL)
        return unknown(answer, found.probes, RAGANSILS_KEY_ABSENT);
    const struct slot *slot = &found.bucket->slots[found.slot];
    answer[0] = slot->function;
    answer[1] = slot->place;
    answer[2] = found.probes;
    answer[3] = &slot->key - table;
    answer[4] = found.level;
    return RAGANSILS_DONE;
}

uint64_t twin_insert(uint64_t *table, size_t words, uint64_t key, uint64_t function, uint64_t place)
{
    struct table *t = (struct table *)table;
    struct hashes x;
    enum ragansils_refusal refusal = find_absent(t, words, key, &x);
    if (refusal != RAGANSILS_DONE)
        return refusal;
    return place_item(t, (struct slot){key, function, place}, x) ? RAGANSILS_DONE : RAGANSILS_NO_PLACE;
}

/* The first tests, then 5 where the key stands nowhere; else where it stands, and its hashes. */
static inline enum ragansils_refusal find_present(const struct table *t, size_t words, uint64_t key, struct found *found,
                                                  struct hashes *x)
{
    enum ragansils_refusal refusal = first_tests(t, words);
    if (refusal != RAGANSILS_DONE)
        return refusal;
    *x = hashes_of(t, key);
    *found = find(t, key, *x);
    return found->bucket == NULL ? RAGANSILS_KEY_ABSENT : RAGANSILS_DONE;
}

/* A full bucket has no second slot: the new record is kept in the header while the slot's is written. */
static void update_logged(struct table *t, struct slot *old, uint64_t function, uint64_t place)
{
    t->target = &old->key - &t->form;
    t->function = function;
    t->place = place;
    t->flag = 1;
    old->function = function;
    old->place = place;
    t->flag = 0;
}

uint64_t twin_update(uint64_t *table, size_t words, uint64_t key, uint64_t function, uint64_t place)
{
    struct table *t = (struct table *)table;
    struct found found;
    struct hashes x;
    enum ragansils_refusal refusal = find_present(t, words, key, &found, &x);
    if (refusal != RAGANSILS_DONE)
        return refusal;
    struct bucket *b = (struct bucket *)found.bucket;
    if (is_full(b)) {
        update_logged(t, &b->slots[found.slot], function, place);
    } else {
        fill_slot(t, b, lowest_free(b), (struct slot){key, function, place}, x.tag);
        clear_slot(t, b, found.slot);
    }
    return RAGANSILS_DONE;
}

uint64_t twin_delete(uint64_t *table, size_t words, uint64_t key)
{
    struct table *t = (struct table *)table;
    struct found found;
    struct hashes x;
    enum ragansils_refusal refusal = find_present(t, words, key, &found, &x);
    if (refusal != RAGANSILS_DONE)
        return refusal;
    clear_slot(t, (struct bucket *)found.bucket, found.slot);
    return RAGANSILS_DONE;
}
