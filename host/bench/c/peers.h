/*
 * Tables that a user might pick instead, behind the same few functions: from a 64-bit key to a record of two words. Each has
 *   open     an empty table with room for so many items; `folder` is where a file may be kept
 *   get      whether the key is there, and its record
 *   insert   whether the key came in, which it does where it was not there
 *   update   whether the key was there; its record is the new one then
 *   remove   whether the key was there
 * A table that cannot do what it should ends the program with a message.
 */
#ifndef RAGANSILS_BENCH_PEERS_H
#define RAGANSILS_BENCH_PEERS_H

#include <stdbool.h>
#include <stddef.h>
#include <stdint.h>

#ifdef __cplusplus
extern "C" {
#endif

#define PEER(name)                                                                                                                     \
    void *name##_open(size_t items, const char *folder);                                                                              \
    void name##_close(void *table);                                                                                                   \
    bool name##_get(void *table, uint64_t key, uint64_t record[2]);                                                                   \
    bool name##_insert(void *table, uint64_t key, const uint64_t record[2]);                                                          \
    bool name##_update(void *table, uint64_t key, const uint64_t record[2]);                                                          \
    bool name##_remove(void *table, uint64_t key);

PEER(cuckoo)
PEER(lmdb)
PEER(uthash)

/* Doubles the table's room, with all items in it; and halves it again. */
void cuckoo_grow(void *table);
void cuckoo_shrink(void *table);

#ifdef __cplusplus
}
#endif

#endif
