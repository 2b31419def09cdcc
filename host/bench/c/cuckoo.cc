// libcuckoo's map, held locked as a whole, so that no call pays for a lock.
#include <array>
#include <cstdio>
#include <cstdlib>
#include <libcuckoo/cuckoohash_map.hh>

#include "peers.h"

namespace {

using Record = std::array<uint64_t, 2>;

// std::hash leaves a number as it is, and addresses are no random numbers.
struct Hash {
    size_t operator()(uint64_t key) const
    {
        key *= 0x9e3779b97f4a7c15;
        return key ^ key >> 32;
    }
};

using Map = libcuckoo::cuckoohash_map<uint64_t, Record, Hash>;

struct Table {
    Map map;
    Map::locked_table locked;
    explicit Table(size_t items) : map(items), locked(map.lock_table()) {}
};

Map::locked_table &locked(void *table)
{
    return static_cast<Table *>(table)->locked;
}

void resize(Map::locked_table &table, size_t hashpower)
{
    table.rehash(hashpower);
    if (table.hashpower() != hashpower) {
        std::fputs("libcuckoo did not resize\n", stderr);
        std::abort();
    }
}

} // namespace

void *cuckoo_open(size_t items, const char *)
{
    return new Table(items);
}

void cuckoo_close(void *table)
{
    delete static_cast<Table *>(table);
}

bool cuckoo_get(void *table, uint64_t key, uint64_t record[2])
{
    auto found = locked(table).find(key);
    if (found == locked(table).end())
        return false;
    record[0] = found->second[0];
    record[1] = found->second[1];
    return true;
}

bool cuckoo_insert(void *table, uint64_t key, const uint64_t record[2])
{
    return locked(table).insert(key, Record{record[0], record[1]}).second;
}

bool cuckoo_update(void *table, uint64_t key, const uint64_t record[2])
{
    auto found = locked(table).find(key);
    if (found == locked(table).end())
        return false;
    found->second = Record{record[0], record[1]};
    return true;
}

bool cuckoo_remove(void *table, uint64_t key)
{
    return locked(table).erase(key) != 0;
}

void cuckoo_grow(void *table)
{
    resize(locked(table), locked(table).hashpower() + 1);
}

void cuckoo_shrink(void *table)
{
    resize(locked(table), locked(table).hashpower() - 1);
}
