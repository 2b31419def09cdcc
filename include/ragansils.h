/*
 * Ragansils: a position table in lent 64-bit words. Code address and inlining depth lead to a function and a place.
 *
 * The seventeen functions of the static library `collector` (`rt lib` in crates/collector writes out/libcollector.a there), for C99
 * and C++ on x86-64. Each is proved to end, to stay within its buffers and to answer as below on every input, however damaged the words
 * that it is lent; what each leaves in every buffer is part of that proof. On a sound table query, chain, insert, update and delete
 * answer as a plain map does, growing and shrinking keep the map, and a converted table has the same one. Two sound tables that are asked as
 * one answer as the newer one's map laid over the older one's.
 *
 * A change goes in two parts. A changing call only reads the table: it lists its stores, in order, as pairs of a word's index and the
 * new word. The stores are then made, by ragansils_make or by a loop of yours; all of them make a sound table out of a sound one, and
 * power may fail after any: on the next start ragansils_recover lists at most three stores that bring back the map before the change or
 * the map after it.
 *
 * What is asked of the caller, and C cannot check:
 * - A pointer is aligned, and valid for as many words as the length beside it says; no pointer is NULL, not even with a length of 0.
 * - No two buffers of one call overlap, but for the two tables of asked and part: these may even be the same.
 * - Stores are made whole and in the order of the list, each once, before the next change is listed; no other store goes to the table.
 * - From the listing of a change to its last store no other thread lists, stores or looks up; what only reads a table, queries, chains,
 *   asked, part and conversions of it, may go side by side. The functions keep nothing between calls.
 *
 * What is left to the caller: cache flush instructions and fences, which a platform needs so that stores reach its memory in order;
 * locks; and creating or converting again where that was cut, which no recovery mends.
 */
#ifndef RAGANSILS_H
#define RAGANSILS_H

#include <stdbool.h>
#include <stddef.h>
#include <stdint.h>

#ifdef __cplusplus
extern "C" {
#endif

/*
 * What a function answers: 0, or why it refused. A refusal changes no table, list or records, but for the second table of convert with 6;
 * it writes 0 to *stores, two zeros to the answer of step_from, and to a query's answer, a chain's *buckets, the answer of asked and the
 * *key of convert what stands there. part alone answers nothing: asked tells why a part is empty.
 */
enum ragansils_refusal {
    RAGANSILS_DONE = 0,
    RAGANSILS_BAD_HEADER = 1,       /* length, form (neither 1 nor 2), c, multipliers or state bad: all but create and make */
    RAGANSILS_SHORT_LIST = 2,       /* list shorter than 20 words: the changing calls and recover */
    RAGANSILS_FLAG_SET = 3,         /* update flag not 0, so recover first: all but create, make, recover and convert */
    RAGANSILS_KEY_PRESENT = 4,      /* insert */
    RAGANSILS_KEY_ABSENT = 5,       /* query, update, delete; at some depth: chain; in both tables: asked */
    RAGANSILS_NO_PLACE = 6,         /* insert: grow, or go without; step, step_from: no item there has a place, so delete or turn back;
                                       convert: an item has no place in the other form, so grow or delete first */
    RAGANSILS_ALREADY_RESIZING = 7, /* the table is growing or shrinking: begin, shrink, convert */
    RAGANSILS_NOT_RESIZING = 8,     /* the table is at rest: back, step, step_from, end */
    RAGANSILS_AT_CAPACITY = 9,      /* k = c, the table cannot grow: begin */
    RAGANSILS_INTERIM_TAKEN = 10,   /* interim not empty, so step first: end */
    RAGANSILS_INTERIM_EMPTY = 11,   /* nothing left to move, so end: step; nothing from there on: step_from */
    RAGANSILS_NO_KIND = 12,         /* none of the three kinds of table that recovery accepts: recover; not sound: convert */
    RAGANSILS_BAD_CREATION = 13,    /* form (neither 1 nor 2), c, first k (1 to c), length or a multiplier bad: create; the second table has
                                       another length than the first: convert */
    RAGANSILS_BAD_MAKING = 14,      /* n pairs are not in the list, or an index among them is outside the table: make */
    RAGANSILS_SHORT_RECORDS = 15,   /* fewer than 2 (depth + 1) words lent for the records: chain */
    RAGANSILS_BAD_POSITION = 16,    /* address of 2^56 or more, or depth above 255: chain */
    RAGANSILS_TOO_SMALL = 17        /* k = 1, the table cannot shrink: shrink */
};
/*
 * Where several would hold: 1, 2, 3, then the rest; insert 4 before 6, begin 7 before 9, shrink 7 before 17, back, the steps and end 8 first,
 * chain 16, 15, 5, convert 12, 7, 13, 6. Of two tables that are asked as one: 1 and 3 of the newer, 1 and 3 of the older, then 5.
 */

/*
 * The two forms of a table. ragansils_create is told the form and writes it to word 0, where it can be read; every other call is the same for
 * both, and goes by that word. Any other word 0 is refused with 1. Choose form 2 where addresses may lie far apart, and form 1 where speed
 * counts more or an older collector must read the table too. A table keeps its form; ragansils_convert makes a second table, with the same
 * items, in the other form.
 *
 * Form 1 hashes a key as it is. A token word, the first of each bucket's 13, has four bits: bit s is 1 where slot s is taken.
 *
 * Form 2 combines a key by exclusive or with itself / 2^32 before hashing. So the high bits of a key count in a small table too: in form 1
 * keys that differ only in bits from 32 + k on share both of their buckets in a top of 2^k. A token word has the same four bits, and for each
 * taken slot s a tag of eight bits of its key's hash, at bits 8 + 8 s to 15 + 8 s. A query reads only the keys whose tag fits. A free slot
 * has tag 0, and all other bits are 0: recover tests this, and refuses a table with a wrong tag or a stray bit with 12.
 */
enum ragansils_form {
    RAGANSILS_FORM_1 = 1,
    RAGANSILS_FORM_2 = 2
};

/* The capacity exponent c is 1 to this. */
#define RAGANSILS_LARGEST_CAPACITY 20

/* The words of a table of capacity exponent c, 9 + 13 (2^(c+1) - 1); 0 where c is not 1 to 20. */
#define RAGANSILS_WORDS(c)                                                                                                             \
    ((c) >= 1 && (c) <= RAGANSILS_LARGEST_CAPACITY ? (size_t)9 + 13 * (((size_t)2 << (c)) - 1) : (size_t)0)

/*
 * Two multipliers that spread keys well. A table of c = k = 2, 8 and 14 has 24, 1,536 and 98,304 slots, and took 24, 1,519 and 95,188
 * keys of addresses that are 4 apart before the first refusal 6 in form 1, and 24, 1,517 and 94,529 in form 2; of addresses that are 2^32
 * apart it took 16, 16 and 768 in form 1, and 24, 1,519 and 93,600 in form 2; of the keys 0, 1, 2, .. 24, 1,430 and 92,280 in both. Small
 * multipliers are no good: with 3 and 5 the first refusal comes at 8 of 24 slots, since a key's hash is what its product has above 2^32.
 */
#define RAGANSILS_MULTIPLIER_1 UINT64_C(0x9e3779b97f4a7c15)
#define RAGANSILS_MULTIPLIER_2 UINT64_C(0xc2b2ae3d27d4eb4f)

/* The words of the shortest list that is taken: ten stores. */
#define RAGANSILS_LIST_WORDS 20

/* The words of a query's answer: function, place, number of buckets looked at, word and level. */
#define RAGANSILS_ANSWER_WORDS 5

/*
 * The levels of a table, in the order in which they are looked at. The bottom has half as many buckets as the top. There is an interim level
 * only while the table grows or shrinks: it has a quarter as many as the top while it grows, and twice as many while it shrinks.
 */
enum ragansils_level {
    RAGANSILS_TOP = 0,
    RAGANSILS_BOTTOM = 1,
    RAGANSILS_INTERIM = 2
};

/* The words of the answer of step_from: the number of stores, and the bucket to go on from. */
#define RAGANSILS_STEP_FROM_WORDS 2

/* The words of the answer of asked: the name of a table, and the number of buckets looked at. */
#define RAGANSILS_ASKED_WORDS 2

/* The names of two tables that are asked as one, in the order in which they are looked up. */
enum ragansils_table_name {
    RAGANSILS_NEWER = 0,
    RAGANSILS_OLDER = 1
};

/* Words of a table where they stand, and no copy. Written with `struct` in C++ too, since a function has the same name. */
struct ragansils_part {
    const uint64_t *words;
    size_t length;
};

/* An inlining depth is 0 to this. At depth 0 stands the function that the address lies in; what stands at 1 was inlined into it, and so on. */
#define RAGANSILS_LARGEST_DEPTH 255

/*
 * The words of a chain's records, 2 (depth + 1); 0 where the depth is not 0 to 255. Of a depth of eight bits a compiler would warn that
 * it is always below 256: hence the division.
 */
#define RAGANSILS_CHAIN_WORDS(depth) ((uint64_t)(depth) / (RAGANSILS_LARGEST_DEPTH + 1) == 0 ? 2 * ((size_t)(depth) + 1) : (size_t)0)

/*
 * Makes the key address * 256 + depth, and answers whether there is one: an address of 2^56 or more, or a depth above 255, has none,
 * and *key stays. The table itself takes any 64-bit key.
 */
static inline bool ragansils_key(uint64_t address, uint64_t depth, uint64_t *key)
{
    if (address >> 56 != 0 || depth > RAGANSILS_LARGEST_DEPTH)
        return false;
    *key = address << 8 | depth;
    return true;
}

/*
 * Makes an empty table of this form (enum ragansils_form) with a top level of 2^k buckets, which can grow to 2^c: zeroes all words and
 * writes the header. Both multipliers are odd and may be equal; RAGANSILS_MULTIPLIER_1 and RAGANSILS_MULTIPLIER_2 spread keys well, and so
 * do most pairs of random ones. Refusal 13 changes no word. A cut in creation is not covered.
 */
uint64_t ragansils_create(uint64_t *table, size_t words, uint64_t form, uint64_t c, uint64_t k, uint64_t mul1, uint64_t mul2);

/*
 * Looks a key up. answer[0] is its function, answer[1] its place, answer[2] the number of buckets looked at, at most four, or six while
 * the table grows or shrinks. Where that record stands: answer[3] is the index of the word of the table that holds the key, and the two
 * words after it hold function and place; answer[4] is the level (enum ragansils_level). Where the key stands twice, as a cut may leave it,
 * this is the slot that is looked at first. The next change may move the key.
 *
 * With refusal 5 answer[2] is the number of all buckets where the key may stand, and the other four are 0; with 1 or 3 all five are 0. So
 * a refusal tells no slot: word 0 is never a slot's, since the header begins there.
 */
uint64_t ragansils_query(const uint64_t *table, size_t words, uint64_t key, uint64_t answer[RAGANSILS_ANSWER_WORDS]);

/*
 * Looks up the frames at an address, the innermost first: the record of this depth, then of each smaller one down to 0, as queries of
 * their keys would find them. Each is two words, function and place. They go to the first 2 (depth + 1) words of records, and the rest
 * stays. *buckets is the sum of what the queries look at: at most 4 (depth + 1), or 6 (depth + 1) while the table grows or
 * shrinks.
 *
 * With refusal 5, at the first depth that has no record, *buckets is the sum down to that depth, its own query included; with 1, 3, 16
 * or 15 it is 0. No refusal changes records. The table is only read.
 */
uint64_t ragansils_chain(const uint64_t *table, size_t words, uint64_t address, uint64_t depth, uint64_t *records, size_t record_words,
                         uint64_t *buckets);

/*
 * Asks two tables as one, such as the table of a shipped build and a second one for code that was reloaded since: a key in the newer hides the
 * same key in the older. Of two sound tables the record is the newer one's where that has the key, and else the older one's. So a delete
 * in the newer shows the older one's record again, and an insert, update or delete of a hidden key in the older, made whole, changes no
 * record that is answered. Both are only read. They may differ in c, k, form, multipliers and phase, and may be the same table.
 *
 * answer[0] is the name of a table (enum ragansils_table_name), and answer[1] the number of buckets looked at. With 0 it is the table that
 * holds the key, with the newer one's count, and the older one's added where the newer has not the key. A table at rest counts at most 4, one
 * that grows or shrinks at most 6: together at most 8 where both are at rest, and never more than 12.
 *
 * Refusals 1 and 3 are tested on both tables before any lookup, in this order: 1 of the newer, 3 of the newer, 1 of the older, 3 of the older.
 * They name that table, with a count of 0; so a bad older table refuses a key that the newer has. Refusal 5, where neither has the key, names
 * the older, with both counts.
 *
 * There is no chain over both tables. It would put depths of the older beside depths of the newer, callers that belong to different code:
 * the very miscredit that this library is there to prevent. Take all frames of an address from one table: ask for its depth 0, and hand the
 * table that is named to ragansils_chain.
 */
uint64_t ragansils_asked(const uint64_t *newer, size_t newer_words, const uint64_t *older, size_t older_words, uint64_t key,
                         uint64_t answer[RAGANSILS_ASKED_WORDS]);

/*
 * The slot that asked speaks of: *part becomes the three words key, function and place, in that table's own memory. part->words less the
 * table's pointer is the index that answer[3] of a query of that table tells. The part is good as long as that memory is, until the next store
 * to the slot: a change of that table may rewrite it, or move the key.
 *
 * With a refusal the part is empty: length 0, and words points to word 0 of the table that asked names. Each of the two functions looks up
 * anew; where the record is all that is wanted, this one alone will do.
 *
 * Before the call *part must be a good part already: set it to an empty one, a pointer that is not NULL and length 0, such as { newer, 0 }.
 */
#if defined(__cplusplus) && defined(__GNUC__)
/* With -Wshadow g++ would say that the function hides a constructor of the struct, which has none of its own. */
#pragma GCC diagnostic push
#pragma GCC diagnostic ignored "-Wshadow"
#endif
void ragansils_part(const uint64_t *newer, size_t newer_words, const uint64_t *older, size_t older_words, uint64_t key,
                    struct ragansils_part *part);
#if defined(__cplusplus) && defined(__GNUC__)
#pragma GCC diagnostic pop
#endif

/*
 * The ten functions below list stores. On success *stores is their number, at most ten, the first 2 * *stores words of the list hold
 * them, each as its word's index in the table and the new word, and the rest of the list stays. On refusal *stores is 0 and the list
 * stays. The table is only read. (Of step_from, answer[0] is what *stores is of the others.)
 */

/*
 * A key that is not in the table comes in with this record: 4 stores, or 9 where another item has to move first. Refusal 6 comes just
 * where every slot of top and bottom that the key may have is taken, and no permitted move of one item frees one. Refusals 1 to 4, 6.
 */
uint64_t ragansils_insert(const uint64_t *table, size_t words, uint64_t key, uint64_t function, uint64_t place, uint64_t *list,
                          size_t list_words, uint64_t *stores);

/*
 * The key's record becomes this one: 4 stores where its bucket has a free slot, and 7, through words 5 to 8, where it is full. No cut
 * leaves the old function beside the new place. Refusals 1 to 3, 5.
 */
uint64_t ragansils_update(const uint64_t *table, size_t words, uint64_t key, uint64_t function, uint64_t place, uint64_t *list,
                          size_t list_words, uint64_t *stores);

/* The key and its record go: 1 store. Refusals 1 to 3, 5. */
uint64_t ragansils_delete(const uint64_t *table, size_t words, uint64_t key, uint64_t *list, size_t list_words, uint64_t *stores);

/*
 * Growth begins: a new top of twice the size; the old top becomes the bottom, the old bottom the interim level: 1 store. The map stays.
 * From N top buckets, begin, the steps of both kinds and end take at most 20 N + 2 stores together, whatever but create and back is called
 * between, if all stores that are listed are made. Refusals 1 to 3, 7, 9.
 */
uint64_t ragansils_begin(const uint64_t *table, size_t words, uint64_t *list, size_t list_words, uint64_t *stores);

/*
 * Shrinking begins: the old bottom becomes the top, the old top the interim level, and the new bottom is a level of a quarter of the old
 * top: 1 store. The map stays. Steps and end are those of a growth. From N top buckets, shrink, the steps of both kinds and end take at most
 * 40 N + 2 stores together, under the same premises. Refusals 1 to 3, 7, 17.
 *
 * The table has half as many slots afterwards. With more items than that a shrink is stuck for certain, and with nearly as many it may be: a
 * step is refused with 6. Nothing is lost, and every other call goes on working. There are three ways on: turn back, by ragansils_back, which
 * makes room for inserts too; delete, and step again; or leave the table as it is until deletes come by themselves.
 */
uint64_t ragansils_shrink(const uint64_t *table, size_t words, uint64_t *list, size_t list_words, uint64_t *stores);

/*
 * Turns back: a table that shrinks grows, and one that grows shrinks, over the same three levels: 1 store. The map stays. Of a shrink the
 * interim level becomes the top again, with the slots that its steps have freed there, and the bottom the interim level; of a growth it is
 * the other way round. Steps and end then go on as ever. Turning back twice gives the state before. Refusals 1 to 3, 8.
 *
 * Which way a table goes, after a restart too, stands in its word 4: k + 256 * phase, with phase 0 at rest, 1 growing and 2 shrinking.
 */
uint64_t ragansils_back(const uint64_t *table, size_t words, uint64_t *list, size_t list_words, uint64_t *stores);

/*
 * The first item of the interim level that has a place in top or bottom moves there: 5 stores, or 10 where another item has to move
 * first. The map stays. Every other call may come between two steps. Refusal 6 comes exactly where items are left in the interim level and
 * none has a place; 11, where none is left. Refusals 1 to 3, 6, 8, 11.
 *
 * It looks for that item from the first interim bucket on, past all that earlier steps have emptied and all items without a place. So a
 * whole growth or shrink that takes this step alone is quadratic: a growth from N top buckets, begun at load 0.8, took on an Intel Xeon 0.21 ms for
 * N = 1,024, 42 ms for 16,384 and 206 s for 524,288. ragansils_step_from goes on where the last step was, and is linear.
 *
 * A step that is refused with 6 has tried every interim item, so it is costly: with top and bottom full it took about 0.05 ms for 450
 * interim items and 1 ms for 6,500, on an AMD EPYC. Inserts make no room for them: try again after a delete, not after every insert.
 */
uint64_t ragansils_step(const uint64_t *table, size_t words, uint64_t *list, size_t list_words, uint64_t *stores);

/*
 * The step that goes on: as ragansils_step, but over the interim buckets from one of them on. from is that bucket, counted from 0 in the
 * level; with 0 it is the step itself. answer[0] is the number of stores, 5 or 10. answer[1] is the bucket in which the item stood, counted
 * the same: the next step may go on from there. With a refusal both are 0. Refusals 1 to 3, 6, 8, 11.
 *
 * 11 and 6 speak of the items from there on only: 11 where there are none, 6 where there are some and none has a place. So after 11 from
 * a later bucket, items without a place may be left before it: then end answers 10. Any word may be handed in as from; past the level there
 * are no items, so that is 11.
 *
 * On a sound table no step gives a place to an interim item that had none. So where no other call comes between, one pass, from 0 and on
 * from each bucket told, places all items that have a place. Begin again at 0 only where another call has changed the table since: a delete may have made
 * room for an item that the pass left behind. That is early enough when the pass has ended, with 11 or 6; done after each delete, the whole
 * is quadratic again. A wrong start costs time or leaves items for later, and never makes a wrong table. So the bucket may be forgotten at any time,
 * and 0 is right after a restart, recover, begin, shrink, back and end.
 *
 * A whole growth or shrink that goes on from the bucket told is linear in the table: a pass of s steps over M interim buckets looks at no
 * more than M + s of them. One that always steps from 0 is quadratic.
 */
uint64_t ragansils_step_from(const uint64_t *table, size_t words, uint64_t from, uint64_t *list, size_t list_words,
                             uint64_t answer[RAGANSILS_STEP_FROM_WORDS]);

/* Growth or shrinking ends, once the interim level is empty: 1 store. The map stays. Refusals 1 to 3, 8, 10. */
uint64_t ragansils_end(const uint64_t *table, size_t words, uint64_t *list, size_t list_words, uint64_t *stores);

/*
 * What a start does first. 0 stores: the table is sound. 1 store: one key stands twice with equal records, and the later goes.
 * 3 stores: an update was cut, and is made again from words 6 to 8. Making these stores gives a sound table; where power fails between
 * them, recover again, as often as it happens. Refusals 1, 2, 12.
 */
uint64_t ragansils_recover(const uint64_t *table, size_t words, uint64_t *list, size_t list_words, uint64_t *stores);

/*
 * Makes the first n stores of a list, in order; refusal 14 makes none. The list is only read; the table's header is not looked at.
 * In which order the stores leave the processor's cache is not said: where that matters, make them by a loop that flushes and fences
 * after each, as examples/collector.c does.
 */
uint64_t ragansils_make(uint64_t *table, size_t words, const uint64_t *list, size_t list_words, uint64_t n);

/*
 * Makes the other form of a table in a second one: form 2 of a table of form 1, and form 1 of a table of form 2, with the same c, k and
 * multipliers and the same map. The table must be sound and at rest, and is only read. What the second table held is gone. *key is 0.
 *
 * Refusals 1, 12, 7 and 13, in this order, change nothing, and *key is 0. 12: the table is not sound; a set flag is 12 here, and not 3.
 * Recover first. 7: it grows or shrinks. End that first. 13: the second table has not as many words as the table.
 *
 * Items are inserted one by one, those of the top and then those of the bottom. Where one finds no place, that is refusal 6: *key is its
 * key, and the second table is left as creation makes it, without items. This is the only refusal that changes a table. Grow the table
 * first, or delete some keys, and convert again. No list is lent, and a cut is not covered, as in creation: make the second table lasting
 * before anything relies on it.
 */
uint64_t ragansils_convert(const uint64_t *table, size_t words, uint64_t *second, size_t second_words, uint64_t *key);

#ifdef __cplusplus
}
#endif

#endif
