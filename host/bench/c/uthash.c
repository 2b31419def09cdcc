/* uthash, which a program in C includes as one header: items are allocated one by one, and chained. */
#include <stdlib.h>

#include "peers.h"
#include <uthash.h>

struct item {
    uint64_t key, record[2];
    UT_hash_handle hh;
};

struct uthash {
    struct item *items;
};

static struct item *find(struct uthash *table, uint64_t key)
{
    struct item *item;
    HASH_FIND(hh, table->items, &key, sizeof key, item);
    return item;
}

static void set_record(struct item *item, const uint64_t record[2])
{
    item->record[0] = record[0];
    item->record[1] = record[1];
}

void *uthash_open(size_t items, const char *folder)
{
    (void)items;
    (void)folder;
    struct uthash *table = calloc(1, sizeof *table);
    if (table == NULL)
        abort();
    return table;
}

void uthash_close(void *handle)
{
    struct uthash *table = handle;
    struct item *item, *next;
    HASH_ITER(hh, table->items, item, next)
    {
        HASH_DEL(table->items, item);
        free(item);
    }
    free(table);
}

bool uthash_get(void *table, uint64_t key, uint64_t record[2])
{
    struct item *item = find(table, key);
    if (item == NULL)
        return false;
    record[0] = item->record[0];
    record[1] = item->record[1];
    return true;
}

bool uthash_insert(void *handle, uint64_t key, const uint64_t record[2])
{
    struct uthash *table = handle;
    if (find(table, key) != NULL)
        return false;
    struct item *item = malloc(sizeof *item);
    if (item == NULL)
        abort();
    item->key = key;
    set_record(item, record);
    HASH_ADD(hh, table->items, key, sizeof item->key, item);
    return true;
}

bool uthash_update(void *table, uint64_t key, const uint64_t record[2])
{
    struct item *item = find(table, key);
    if (item == NULL)
        return false;
    set_record(item, record);
    return true;
}

bool uthash_remove(void *handle, uint64_t key)
{
    struct uthash *table = handle;
    struct item *item = find(table, key);
    if (item == NULL)
        return false;
    HASH_DEL(table->items, item);
    free(item);
    return true;
}
