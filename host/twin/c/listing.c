/* An insert that lists its stores, to measure what a list costs by itself. */
#include <string.h>

#include "lookup.h"
#include "placing.h"
#include "table.h"
#include "twin.h"

/* "key, function, place, token", as pairs of word index and new word; answers how many. */
static uint64_t list_item(const struct table *t, struct spot to, struct slot item, uint64_t tag, uint64_t *list)
{
    uint64_t token = &to.bucket->token - &t->form, key = &to.bucket->slots[to.slot].key - &t->form;
    uint64_t shown = token_with(t, to.bucket, to.slot, tag);
    const uint64_t pairs[] = {key, item.key, key + 1, item.function, key + 2, item.place, token, shown};
    memcpy(list, pairs, sizeof pairs);
    return sizeof pairs / sizeof pairs[0] / 2;
}

uint64_t twin_list_insert(uint64_t *table, size_t words, uint64_t key, uint64_t function, uint64_t place,
                          uint64_t list[RAGANSILS_LIST_WORDS], uint64_t *stores)
{
    struct table *t = (struct table *)table;
    *stores = 0;
    struct hashes x;
    enum ragansils_refusal refusal = find_absent(t, words, key, &x);
    if (refusal != RAGANSILS_DONE)
        return refusal;
    struct slot item = {key, function, place};
    struct spot to = free_slot(t, x);
    if (to.bucket == NULL)
        return place_item(t, item, x) ? RAGANSILS_DONE : RAGANSILS_NO_PLACE;
    *stores = list_item(t, to, item, x.tag, list);
    return RAGANSILS_DONE;
}
