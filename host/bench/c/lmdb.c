/*
 * LMDB, with a transaction for each change, as every change of a level table is whole by itself, and one for a run of queries. Nothing is
 * synced (MDB_NOSYNC, MDB_NOMETASYNC), and pages are written through the map (MDB_WRITEMAP).
 */
#include <errno.h>
#include <lmdb.h>
#include <stdio.h>
#include <stdlib.h>
#include <string.h>

#include "peers.h"

enum { RECORD_BYTES = 2 * sizeof(uint64_t), MODE = 0600, LONGEST_PATH = 4096 };

struct lmdb {
    MDB_env *env;
    MDB_dbi records;
    MDB_txn *reader;
    bool is_reading;
};

static void must(int status, const char *what)
{
    if (status != MDB_SUCCESS) {
        fprintf(stderr, "LMDB: %s: %s\n", what, mdb_strerror(status));
        abort();
    }
}

static MDB_val word_of(uint64_t *key)
{
    return (MDB_val){sizeof *key, key};
}

/* Ends the run of queries, whose pages could not be used again otherwise, and begins a change. */
static MDB_txn *begin_change(struct lmdb *table)
{
    if (table->is_reading)
        mdb_txn_reset(table->reader);
    table->is_reading = false;
    MDB_txn *change;
    must(mdb_txn_begin(table->env, NULL, 0, &change), "begin");
    return change;
}

/* Commits a change that was made; one that the key does not allow, which `refused` says, goes. */
static bool end_change(MDB_txn *change, int status, int refused)
{
    if (status == refused) {
        mdb_txn_abort(change);
        return false;
    }
    must(status, "change");
    must(mdb_txn_commit(change), "commit");
    return true;
}

/* A file keeps the size that it once had, however little is in it. */
static void remove_file(const char *folder, const char *name)
{
    char path[LONGEST_PATH];
    int length = snprintf(path, sizeof path, "%s/%s", folder, name);
    if (length < 0 || (size_t)length >= sizeof path || (remove(path) != 0 && errno != ENOENT)) {
        fprintf(stderr, "LMDB: %s/%s cannot be removed\n", folder, name);
        abort();
    }
}

void *lmdb_open(size_t items, const char *folder)
{
    struct lmdb *table = calloc(1, sizeof *table);
    if (table == NULL)
        abort();
    remove_file(folder, "data.mdb");
    remove_file(folder, "lock.mdb");
    must(mdb_env_create(&table->env), "create");
    must(mdb_env_set_mapsize(table->env, ((size_t)64 << 20) + items * 256), "map size");
    must(mdb_env_open(table->env, folder, MDB_NOSYNC | MDB_NOMETASYNC | MDB_WRITEMAP | MDB_NOTLS, MODE), folder);
    MDB_txn *first = begin_change(table);
    must(mdb_dbi_open(first, NULL, MDB_INTEGERKEY, &table->records), "open");
    must(mdb_txn_commit(first), "commit");
    must(mdb_txn_begin(table->env, NULL, MDB_RDONLY, &table->reader), "begin to read");
    mdb_txn_reset(table->reader);
    return table;
}

void lmdb_close(void *handle)
{
    struct lmdb *table = handle;
    mdb_txn_abort(table->reader);
    mdb_env_close(table->env);
    free(table);
}

bool lmdb_get(void *handle, uint64_t key, uint64_t record[2])
{
    struct lmdb *table = handle;
    if (!table->is_reading)
        must(mdb_txn_renew(table->reader), "read on");
    table->is_reading = true;
    MDB_val word = word_of(&key), found;
    int status = mdb_get(table->reader, table->records, &word, &found);
    if (status == MDB_NOTFOUND)
        return false;
    must(status, "get");
    memcpy(record, found.mv_data, RECORD_BYTES);
    return true;
}

bool lmdb_insert(void *handle, uint64_t key, const uint64_t record[2])
{
    struct lmdb *table = handle;
    MDB_txn *change = begin_change(table);
    MDB_val word = word_of(&key), data = {RECORD_BYTES, (void *)record};
    return end_change(change, mdb_put(change, table->records, &word, &data, MDB_NOOVERWRITE), MDB_KEYEXIST);
}

bool lmdb_update(void *handle, uint64_t key, const uint64_t record[2])
{
    struct lmdb *table = handle;
    MDB_txn *change = begin_change(table);
    MDB_cursor *cursor;
    must(mdb_cursor_open(change, table->records, &cursor), "cursor");
    MDB_val word = word_of(&key), data = {RECORD_BYTES, (void *)record};
    int status = mdb_cursor_get(cursor, &word, NULL, MDB_SET);
    if (status == MDB_SUCCESS)
        status = mdb_cursor_put(cursor, &word, &data, MDB_CURRENT);
    mdb_cursor_close(cursor);
    return end_change(change, status, MDB_NOTFOUND);
}

bool lmdb_remove(void *handle, uint64_t key)
{
    struct lmdb *table = handle;
    MDB_txn *change = begin_change(table);
    MDB_val word = word_of(&key);
    return end_change(change, mdb_del(change, table->records, &word, NULL), MDB_NOTFOUND);
}
