/*
 * The twin: a plain level table in the words of document 01, the paper that fixes the table, in both forms, with the layout, the answers
 * and the refusals of the proved library `collector`, but no proof and no list: a changing call writes the table itself, and leaves the
 * words that making the library's list would leave. It is there to be measured beside, and is no table to be used: a compiler may turn
 * its stores round.
 *
 * Every call answers document 01's refusal number (enum ragansils_refusal), 0 for success. Without a list there is no refusal 2 or 14.
 * A pointer must be valid for the words handed over with it.
 */
#ifndef RAGANSILS_TWIN_H
#define RAGANSILS_TWIN_H

#include <stddef.h>
#include <stdint.h>

#include "ragansils.h"

/* Form 1 or 2; every other call is the same for both, and is told the form by the table's first word. */
uint64_t twin_create(uint64_t *table, size_t words, uint64_t form, uint64_t c, uint64_t k, uint64_t mul1, uint64_t mul2);

uint64_t twin_query(const uint64_t *table, size_t words, uint64_t key, uint64_t answer[RAGANSILS_ANSWER_WORDS]);

uint64_t twin_insert(uint64_t *table, size_t words, uint64_t key, uint64_t function, uint64_t place);
uint64_t twin_update(uint64_t *table, size_t words, uint64_t key, uint64_t function, uint64_t place);
uint64_t twin_delete(uint64_t *table, size_t words, uint64_t key);

uint64_t twin_begin(uint64_t *table, size_t words);
uint64_t twin_shrink(uint64_t *table, size_t words);
uint64_t twin_back(uint64_t *table, size_t words);
uint64_t twin_step(uint64_t *table, size_t words);
uint64_t twin_end(uint64_t *table, size_t words);

/* The step over the interim buckets from one of them on, counted from 0 in the level. *bucket is the one in which the item stood, counted
 * the same, and 0 with a refusal. */
uint64_t twin_step_from(uint64_t *table, size_t words, uint64_t from, uint64_t *bucket);

uint64_t twin_recover(uint64_t *table, size_t words);

/*
 * As twin_insert, but with a list, for ragansils_make: so it can be measured what a list costs by itself. Where another item has to move,
 * it lists nothing and writes the table at once.
 */
uint64_t twin_list_insert(uint64_t *table, size_t words, uint64_t key, uint64_t function, uint64_t place,
                          uint64_t list[RAGANSILS_LIST_WORDS], uint64_t *stores);

#endif
