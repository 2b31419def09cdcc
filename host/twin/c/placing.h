/* Where a new item goes, by "Placing" of document 01, the paper that fixes the table; used by insert and by the steps. */
#ifndef RAGANSILS_TWIN_PLACING_H
#define RAGANSILS_TWIN_PLACING_H

#include "table.h"

/* The free slot that an item gets without a move of another; no bucket where there is none. */
struct spot free_slot(struct table *t, struct hashes x);

/* Puts an item that stands nowhere in top or bottom into one of its places there, perhaps after one move of another.
 * Answers false, and changes nothing, where there is no place. */
bool place_item(struct table *t, struct slot item, struct hashes x);

#endif
