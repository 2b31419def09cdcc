/*
 * Calls each of the seventeen functions through include/ragansils.h, and meets each refusal number: the ten of document 01, the paper that
 * fixes the table, on its marked examples, the chain, the step that goes on, shrink, back, convert, and asked and part, of two tables. All of
 * that is done in both forms; but for conversions the tags of form 2 are 0 there, so that rows with other tags come after it. The answers
 * differ for any two arguments taken for each other. Says how many checks there were; exit status 0 only where all held.
 */
#include <inttypes.h>
#include <stdio.h>
#include <string.h>

#include "ragansils.h"

/* The table of the marked examples: c = 2, k = 1; for keys below 2^32 hash 1 is the key and hash 2 three times the key. */
#define WORDS RAGANSILS_WORDS(2)
#define MUL1 UINT64_C(4294967297)
#define MUL2 UINT64_C(12884901889)

/* More than a list needs, to see that what lies behind it stays. */
#define LENT_LIST (RAGANSILS_LIST_WORDS + 4)
#define UNTOUCHED UINT64_C(0x5a5a0bad0bada5a5)

/* The words of the longest chain, and some around them, to see that those stay. */
#define LONGEST_CHAIN RAGANSILS_CHAIN_WORDS(RAGANSILS_LARGEST_DEPTH)
#define AROUND 4

/* The first address that has no key. */
#define NO_ADDRESS (UINT64_C(1) << 56)

/* A run with fewer has left something out. */
#define LEAST_CHECKS 3100

static uint64_t table[WORDS], list[LENT_LIST], stores, bucket, lent[AROUND + LONGEST_CHAIN + AROUND];
static uint64_t *const records = lent + AROUND;
static unsigned checks, failures;

/* The form in which tables are made. */
static uint64_t form;

static void check(bool held, const char *what)
{
    checks++;
    if (held)
        return;
    failures++;
    printf("not so: %s\n", what);
}

static void all_untouched(uint64_t *words, size_t from, size_t length, const char *what)
{
    bool untouched = true;
    for (size_t i = from; i < length; i++)
        untouched = untouched && words[i] == UNTOUCHED;
    check(untouched, what);
}

static void untouch(uint64_t *words, size_t length)
{
    for (size_t i = 0; i < length; i++)
        words[i] = UNTOUCHED;
}

/* ---- the ten calls that list stores, under one type ---- */

struct change {
    const char *name;
    uint64_t (*call)(size_t words, size_t list_words, uint64_t key, uint64_t function, uint64_t place);
};

static uint64_t call_insert(size_t words, size_t list_words, uint64_t key, uint64_t function, uint64_t place)
{
    return ragansils_insert(table, words, key, function, place, list, list_words, &stores);
}

static uint64_t call_update(size_t words, size_t list_words, uint64_t key, uint64_t function, uint64_t place)
{
    return ragansils_update(table, words, key, function, place, list, list_words, &stores);
}

static uint64_t call_delete(size_t words, size_t list_words, uint64_t key, uint64_t function, uint64_t place)
{
    (void)function, (void)place;
    return ragansils_delete(table, words, key, list, list_words, &stores);
}

#define WHOLE_TABLE_CALL(name)                                                                                                         \
    static uint64_t call_##name(size_t words, size_t list_words, uint64_t key, uint64_t function, uint64_t place)                     \
    {                                                                                                                                  \
        (void)key, (void)function, (void)place;                                                                                       \
        return ragansils_##name(table, words, list, list_words, &stores);                                                             \
    }
WHOLE_TABLE_CALL(begin)
WHOLE_TABLE_CALL(shrink)
WHOLE_TABLE_CALL(back)
WHOLE_TABLE_CALL(step)
WHOLE_TABLE_CALL(end)
WHOLE_TABLE_CALL(recover)

/* The bucket to start from comes as the key. */
static uint64_t call_step_from(size_t words, size_t list_words, uint64_t key, uint64_t function, uint64_t place)
{
    uint64_t answer[RAGANSILS_STEP_FROM_WORDS + 1] = { UNTOUCHED, UNTOUCHED, UNTOUCHED };
    (void)function, (void)place;
    uint64_t number = ragansils_step_from(table, words, key, list, list_words, answer);
    check(number == RAGANSILS_DONE || (answer[0] == 0 && answer[1] == 0), "a refused step_from answers two zeros");
    all_untouched(answer, RAGANSILS_STEP_FROM_WORDS, RAGANSILS_STEP_FROM_WORDS + 1, "the word behind the answer stays");
    stores = answer[0];
    bucket = answer[1];
    return number;
}

static const struct change INSERT = { "insert", call_insert }, UPDATE = { "update", call_update }, DELETE = { "delete", call_delete },
                           BEGIN = { "begin", call_begin }, STEP = { "step", call_step }, END = { "end", call_end },
                           RECOVER = { "recover", call_recover }, STEP_FROM = { "step_from", call_step_from },
                           SHRINK = { "shrink", call_shrink }, BACK = { "back", call_back };

/* Makes the call with a fresh list, and checks that it answers so, lists these words and leaves the rest. */
static void listed(struct change change, uint64_t key, uint64_t function, uint64_t place, uint64_t number, uint64_t count,
                   const uint64_t *expected)
{
    uint64_t before[WORDS];
    memcpy(before, table, sizeof table);
    untouch(list, LENT_LIST);
    stores = UNTOUCHED;
    check(change.call(WORDS, RAGANSILS_LIST_WORDS, key, function, place) == number, change.name);
    check(stores == count, "the number of stores");
    check(count == 0 || memcmp(list, expected, 2 * count * sizeof *list) == 0, "the listed stores");
    all_untouched(list, 2 * count, LENT_LIST, "the rest of the list stays");
    check(memcmp(before, table, sizeof table) == 0, "a listing call only reads the table");
}

static void refused(struct change change, uint64_t key, uint64_t number)
{
    listed(change, key, 0, 0, number, 0, NULL);
}

/* Makes the call and all its stores. */
static void made(struct change change, uint64_t key, uint64_t function, uint64_t place)
{
    check(change.call(WORDS, RAGANSILS_LIST_WORDS, key, function, place) == RAGANSILS_DONE, change.name);
    check(ragansils_make(table, WORDS, list, RAGANSILS_LIST_WORDS, stores) == RAGANSILS_DONE, "make");
}

static void fresh_table(void)
{
    untouch(table, WORDS);
    check(ragansils_create(table, WORDS, form, 2, 1, MUL1, MUL2) == RAGANSILS_DONE, "create");
}

static void insert_keys(uint64_t first, uint64_t last, uint64_t apart)
{
    for (uint64_t key = first; key <= last; key += apart)
        made(INSERT, key, 100 + key, 200 + key);
}

/* Each of these keys has the record that insert_keys gave it. */
static void all_there(uint64_t first, uint64_t last, uint64_t apart)
{
    uint64_t answer[RAGANSILS_ANSWER_WORDS];
    for (uint64_t key = first; key <= last; key += apart)
        check(ragansils_query(table, WORDS, key, answer) == RAGANSILS_DONE && answer[0] == 100 + key && answer[1] == 200 + key,
              "a key that was there before");
}

/* Asks for a key, and checks that the answer is just this. */
static void asked(uint64_t key, uint64_t number, const uint64_t expected[RAGANSILS_ANSWER_WORDS])
{
    uint64_t before[WORDS], answer[RAGANSILS_ANSWER_WORDS + 1];
    memcpy(before, table, sizeof table);
    untouch(answer, RAGANSILS_ANSWER_WORDS + 1);
    check(ragansils_query(table, WORDS, key, answer) == number, "query");
    check(memcmp(answer, expected, RAGANSILS_ANSWER_WORDS * sizeof *answer) == 0, "the query's answer");
    all_untouched(answer, RAGANSILS_ANSWER_WORDS, RAGANSILS_ANSWER_WORDS + 1, "the word behind the answer stays");
    check(memcmp(before, table, sizeof table) == 0, "a query only reads the table");
}

static void found(uint64_t key, uint64_t function, uint64_t place, uint64_t buckets, uint64_t word, enum ragansils_level level)
{
    const uint64_t expected[] = { function, place, buckets, word, (uint64_t)level };
    asked(key, RAGANSILS_DONE, expected);
    check(table[word] == key && table[word + 1] == function && table[word + 2] == place, "the key and its record stand where it is told");
}

static void not_found(uint64_t key, uint64_t number, uint64_t buckets)
{
    const uint64_t expected[] = { 0, 0, buckets, 0, 0 };
    asked(key, number, expected);
}

/* Asks for a chain, and checks that it answers so, writes these records and leaves all words around them. */
static void chained(uint64_t address, uint64_t depth, size_t record_words, uint64_t number, uint64_t buckets, const uint64_t *expected)
{
    uint64_t before[WORDS], answer[] = { UNTOUCHED, UNTOUCHED, UNTOUCHED };
    size_t written = number == RAGANSILS_DONE ? RAGANSILS_CHAIN_WORDS(depth) : 0;
    memcpy(before, table, sizeof table);
    untouch(lent, AROUND + LONGEST_CHAIN + AROUND);
    check(ragansils_chain(table, WORDS, address, depth, records, record_words, &answer[1]) == number, "chain");
    check(answer[0] == UNTOUCHED && answer[1] == buckets && answer[2] == UNTOUCHED, "the chain's buckets");
    check(written == 0 || memcmp(records, expected, written * sizeof *records) == 0, "the chain's records");
    all_untouched(lent, 0, AROUND, "the words before the records stay");
    all_untouched(records, written, LONGEST_CHAIN + AROUND, "the words behind the records stay");
    check(memcmp(before, table, sizeof table) == 0, "a chain only reads the table");
}

/* ---- the checks ---- */

static void sizes_and_keys(void)
{
    check(RAGANSILS_WORDS(1) == 48 && RAGANSILS_WORDS(2) == 100 && RAGANSILS_WORDS(8) == 6652, "the words of a table");
    check(RAGANSILS_WORDS(0) == 0 && RAGANSILS_WORDS(21) == 0, "no words for a bad c");
    check(RAGANSILS_CHAIN_WORDS(0) == 2 && RAGANSILS_CHAIN_WORDS(4) == 10 && LONGEST_CHAIN == 512, "the words of a chain");
    check(RAGANSILS_CHAIN_WORDS(256) == 0 && RAGANSILS_CHAIN_WORDS(UINT64_MAX) == 0, "no words for a bad depth");
    uint64_t key = UNTOUCHED;
    check(!ragansils_key(NO_ADDRESS, 0, &key) && !ragansils_key(0, 256, &key), "a key that there is not");
    check(key == UNTOUCHED, "no key, nothing written");
    check(ragansils_key(16, 3, &key) && key == 16 * 256 + 3, "a key");
    check(ragansils_key(NO_ADDRESS - 1, 255, &key) && key == UINT64_MAX, "the last key");
}

static void creation(void)
{
    const uint64_t header[] = { form, 2, MUL1, MUL2, 1, 0, 0, 0, 0 };
    fresh_table();
    check(memcmp(table, header, sizeof header) == 0, "the header");
    bool zero = true;
    for (size_t i = 9; i < WORDS; i++)
        zero = zero && table[i] == 0;
    check(zero, "all else is zeroed");

    untouch(table, WORDS);
    check(ragansils_create(table, WORDS - 1, form, 2, 1, MUL1, MUL2) == RAGANSILS_BAD_CREATION, "create: length");
    check(ragansils_create(table, WORDS, form, 3, 1, MUL1, MUL2) == RAGANSILS_BAD_CREATION, "create: c");
    check(ragansils_create(table, WORDS, form, 2, 3, MUL1, MUL2) == RAGANSILS_BAD_CREATION, "create: k");
    check(ragansils_create(table, WORDS, form, 2, 1, 2, MUL2) == RAGANSILS_BAD_CREATION, "create: multiplier 1");
    check(ragansils_create(table, WORDS, form, 2, 1, MUL1, 2) == RAGANSILS_BAD_CREATION, "create: multiplier 2");
    const uint64_t no_forms[] = { 0, 3, UINT64_C(1) << 32, UINT64_C(1) << 63, UINT64_MAX };
    for (size_t i = 0; i < sizeof no_forms / sizeof *no_forms; i++)
        check(ragansils_create(table, WORDS, no_forms[i], 2, 1, MUL1, MUL2) == RAGANSILS_BAD_CREATION, "create: form");
    all_untouched(table, 0, WORDS, "a refused creation writes nothing");
}

/* E1 to E5, with make on a part of a list. */
static void one_position(void)
{
    const uint64_t e1[] = { 36, 1, 37, 10, 38, 20, 35, 1 }, e4[] = { 35, 0 }, e5[] = { 39, 1, 40, 30, 41, 40, 35, 2 };
    fresh_table();
    listed(INSERT, 1, 10, 20, RAGANSILS_DONE, 4, e1);
    check(ragansils_make(table, WORDS, list, LENT_LIST, 3) == RAGANSILS_DONE, "make of three stores");
    not_found(1, RAGANSILS_KEY_ABSENT, 2);
    check(ragansils_make(table, WORDS, list, LENT_LIST, 4) == RAGANSILS_DONE, "make of four stores");
    found(1, 10, 20, 1, 36, RAGANSILS_TOP);
    not_found(3, RAGANSILS_KEY_ABSENT, 2);
    refused(INSERT, 1, RAGANSILS_KEY_PRESENT);
    listed(DELETE, 1, 0, 0, RAGANSILS_DONE, 1, e4);
    listed(UPDATE, 1, 30, 40, RAGANSILS_DONE, 4, e5);
    refused(UPDATE, 3, RAGANSILS_KEY_ABSENT);
    refused(DELETE, 3, RAGANSILS_KEY_ABSENT);
}

/* E6 and E7: an update of a full bucket, cut after five stores. */
static void cut_update(void)
{
    const uint64_t e6[] = { 6, 36, 7, 30, 8, 40, 5, 1, 37, 30, 38, 40, 5, 0 }, e7[] = { 37, 30, 38, 40, 5, 0 };
    fresh_table();
    insert_keys(1, 7, 2);
    listed(UPDATE, 1, 30, 40, RAGANSILS_DONE, 7, e6);
    ragansils_make(table, WORDS, list, LENT_LIST, 5);
    not_found(1, RAGANSILS_FLAG_SET, 0);
    const struct change flag_refuses[] = { INSERT, UPDATE, DELETE, BEGIN, SHRINK, BACK, STEP, STEP_FROM, END };
    for (size_t i = 0; i < sizeof flag_refuses / sizeof *flag_refuses; i++)
        refused(flag_refuses[i], 1, RAGANSILS_FLAG_SET);
    listed(RECOVER, 0, 0, 0, RAGANSILS_DONE, 3, e7);
    made(RECOVER, 0, 0, 0);
    found(1, 30, 40, 1, 36, RAGANSILS_TOP);
    refused(RECOVER, 0, RAGANSILS_DONE);
    table[5] = 2;
    refused(RECOVER, 0, RAGANSILS_NO_KIND);
}

/* E8 and E10: no place, then a growth from begin to end. */
static void growth(void)
{
    const uint64_t begun[] = { 4, 258 }, moved[] = { 62, 9, 63, 109, 64, 209, 61, 1, 9, 14 }, ended[] = { 4, 2 };
    fresh_table();
    insert_keys(1, 15, 2);
    refused(INSERT, 17, RAGANSILS_NO_PLACE);
    const struct change rest_refuses[] = { BACK, STEP, STEP_FROM, END };
    for (size_t i = 0; i < sizeof rest_refuses / sizeof *rest_refuses; i++)
        refused(rest_refuses[i], 0, RAGANSILS_NOT_RESIZING);
    refused(SHRINK, 0, RAGANSILS_TOO_SMALL);
    listed(BEGIN, 0, 0, 0, RAGANSILS_DONE, 1, begun);
    made(BEGIN, 0, 0, 0);
    refused(BEGIN, 0, RAGANSILS_ALREADY_RESIZING);
    refused(SHRINK, 0, RAGANSILS_ALREADY_RESIZING);
    refused(END, 0, RAGANSILS_INTERIM_TAKEN);
    listed(STEP, 0, 0, 0, RAGANSILS_DONE, 5, moved);
    listed(STEP_FROM, 0, 0, 0, RAGANSILS_DONE, 5, moved);
    refused(STEP_FROM, 1, RAGANSILS_INTERIM_EMPTY);
    refused(STEP_FROM, UINT64_MAX, RAGANSILS_INTERIM_EMPTY);
    for (int items = 4; items > 0; items--)
        made(STEP, 0, 0, 0);
    refused(STEP, 0, RAGANSILS_INTERIM_EMPTY);
    listed(END, 0, 0, 0, RAGANSILS_DONE, 1, ended);
    made(END, 0, 0, 0);
    refused(BEGIN, 0, RAGANSILS_AT_CAPACITY);
    all_there(1, 15, 2);
}

/* The table of that growth, shrunk again. What was the top is the interim level, of four buckets, and is looked at last. */
static void shrinking(void)
{
    const uint64_t begun[] = { 4, 513 }, moved[] = { 10, 9, 11, 109, 12, 209, 9, 1, 61, 2 }, ended[] = { 4, 1 };
    growth();
    listed(SHRINK, 0, 0, 0, RAGANSILS_DONE, 1, begun);
    made(SHRINK, 0, 0, 0);
    /* k is 1 now: being under way comes before being too small. */
    refused(SHRINK, 0, RAGANSILS_ALREADY_RESIZING);
    refused(BEGIN, 0, RAGANSILS_ALREADY_RESIZING);
    found(3, 103, 203, 1, 39, RAGANSILS_TOP);
    found(9, 109, 209, 3, 62, RAGANSILS_INTERIM);
    not_found(17, RAGANSILS_KEY_ABSENT, 4);
    listed(STEP, 0, 0, 0, RAGANSILS_DONE, 5, moved);
    listed(STEP_FROM, 1, 0, 0, RAGANSILS_DONE, 5, moved);
    check(bucket == 1, "the bucket told");
    refused(STEP_FROM, 4, RAGANSILS_INTERIM_EMPTY);
    for (int items = 4; items > 0; items--)
        made(STEP, 0, 0, 0);
    found(9, 109, 209, 2, 10, RAGANSILS_BOTTOM);
    refused(STEP, 0, RAGANSILS_INTERIM_EMPTY);
    listed(END, 0, 0, 0, RAGANSILS_DONE, 1, ended);
    made(END, 0, 0, 0);
    refused(SHRINK, 0, RAGANSILS_TOO_SMALL);
    all_there(1, 15, 2);
}

/* A shrink of 16 items, for which the smaller table has 12 slots: it is stuck, and turned back. */
static void stuck_shrink(void)
{
    const uint64_t to_growth[] = { 4, 258 }, to_shrink[] = { 4, 513 };
    untouch(table, WORDS);
    check(ragansils_create(table, WORDS, form, 2, 2, MUL1, MUL2) == RAGANSILS_DONE, "create");
    insert_keys(0, 15, 1);
    made(SHRINK, 0, 0, 0);
    while (call_step(WORDS, LENT_LIST, 0, 0, 0) == RAGANSILS_DONE)
        ragansils_make(table, WORDS, list, LENT_LIST, stores);
    refused(STEP, 0, RAGANSILS_NO_PLACE);
    refused(END, 0, RAGANSILS_INTERIM_TAKEN);
    listed(BACK, 0, 0, 0, RAGANSILS_DONE, 1, to_growth);
    made(BACK, 0, 0, 0);
    listed(BACK, 0, 0, 0, RAGANSILS_DONE, 1, to_shrink);
    while (call_step(WORDS, LENT_LIST, 0, 0, 0) == RAGANSILS_DONE)
        ragansils_make(table, WORDS, list, LENT_LIST, stores);
    refused(STEP, 0, RAGANSILS_INTERIM_EMPTY);
    made(END, 0, 0, 0);
    check(table[4] == 2, "the state before the shrink");
    all_there(0, 15, 1);
}

/* Of the keys 1, 3, .. 15 the first four fill a bucket of the top, and the others the bottom, which a growth makes the interim level. */
static void where_keys_stand(void)
{
    fresh_table();
    insert_keys(1, 15, 2);
    found(3, 103, 203, 1, 39, RAGANSILS_TOP);
    found(9, 109, 209, 2, 10, RAGANSILS_BOTTOM);
    found(15, 115, 215, 2, 19, RAGANSILS_BOTTOM);
    made(BEGIN, 0, 0, 0);
    found(3, 103, 203, 3, 39, RAGANSILS_BOTTOM);
    found(9, 109, 209, 4, 10, RAGANSILS_INTERIM);
    /* Power fails before the last of five stores: key 9 stands in the top too, which is looked at first. */
    check(call_step(WORDS, LENT_LIST, 0, 0, 0) == RAGANSILS_DONE && stores == 5, "a step");
    ragansils_make(table, WORDS, list, LENT_LIST, 4);
    found(9, 109, 209, 1, 62, RAGANSILS_TOP);
    check(table[10] == 9 && table[9] == 15, "the earlier slot is taken still");
    table[0] = 3;
    not_found(9, RAGANSILS_BAD_HEADER, 0);
}

static uint64_t made_from(uint64_t *large, size_t words, uint64_t from, uint64_t answer[RAGANSILS_STEP_FROM_WORDS])
{
    uint64_t number = ragansils_step_from(large, words, from, list, RAGANSILS_LIST_WORDS, answer);
    return number != RAGANSILS_DONE ? number : ragansils_make(large, words, list, RAGANSILS_LIST_WORDS, answer[0]);
}

/* With both multipliers alike a key has one place in each level: here its remainder by 16, 8 and, in the interim level, 4. */
static void steps_that_go_on(void)
{
    static uint64_t large[RAGANSILS_WORDS(4)];
    const size_t words = RAGANSILS_WORDS(4);
    uint64_t answer[RAGANSILS_STEP_FROM_WORDS] = { 0, 0 }, steps = 0, told = 0;
    bool filled = ragansils_create(large, words, form, 4, 3, MUL1, MUL1) == RAGANSILS_DONE, ascending = true;
    for (uint64_t key = 0; key < 48; key++)
        filled = filled && ragansils_insert(large, words, key, key, key, list, RAGANSILS_LIST_WORDS, &stores) == RAGANSILS_DONE &&
                 ragansils_make(large, words, list, RAGANSILS_LIST_WORDS, stores) == RAGANSILS_DONE;
    check(filled && ragansils_begin(large, words, list, RAGANSILS_LIST_WORDS, &stores) == RAGANSILS_DONE, "a larger table");
    ragansils_make(large, words, list, RAGANSILS_LIST_WORDS, stores);

    check(made_from(large, words, 2, answer) == RAGANSILS_DONE && answer[0] == 5 && answer[1] == 2, "a step from bucket 2");
    check(made_from(large, words, 1, answer) == RAGANSILS_DONE && answer[0] == 5 && answer[1] == 1, "a step from bucket 1");
    check(made_from(large, words, 4, answer) == RAGANSILS_INTERIM_EMPTY && answer[0] == 0 && answer[1] == 0, "no bucket 4");
    for (; made_from(large, words, told, answer) == RAGANSILS_DONE; steps++, told = answer[1])
        ascending = ascending && answer[1] >= told && answer[1] < 4;
    check(steps == 14 && ascending, "one pass over what is left of the 16 interim items");
    check(ragansils_end(large, words, list, RAGANSILS_LIST_WORDS, &stores) == RAGANSILS_DONE, "the end of that growth");
}

/* Depths 0 to 3 of address 0 and 0 to 1 of address 16: at rest each is found in the first bucket that is looked at. */
static void table_with_chains(void)
{
    fresh_table();
    insert_keys(0, 3, 1);
    insert_keys(16 * 256, 16 * 256 + 1, 1);
}

static void chains(void)
{
    const uint64_t four[] = { 103, 203, 102, 202, 101, 201, 100, 200 }, two[] = { 4197, 4297, 4196, 4296 };
    table_with_chains();
    chained(0, 3, 8, RAGANSILS_DONE, 4, four);
    chained(0, 3, LONGEST_CHAIN, RAGANSILS_DONE, 4, four);
    chained(0, 2, 7, RAGANSILS_DONE, 3, four + 2);
    chained(0, 0, 2, RAGANSILS_DONE, 1, four + 6);
    chained(16, 1, 4, RAGANSILS_DONE, 2, two);

    /* An absent key of this table has two buckets. */
    chained(0, 4, 10, RAGANSILS_KEY_ABSENT, 2, NULL);
    chained(1, 0, 2, RAGANSILS_KEY_ABSENT, 2, NULL);
    made(DELETE, 1, 0, 0);
    chained(0, 3, 8, RAGANSILS_KEY_ABSENT, 4, NULL);
    made(DELETE, 16 * 256, 0, 0);
    chained(16, 1, 4, RAGANSILS_KEY_ABSENT, 3, NULL);
    made(DELETE, 3, 0, 0);
    chained(0, 3, 8, RAGANSILS_KEY_ABSENT, 2, NULL);
}

/* Most of these would be refused for a later reason too. The key of the first one, cut to 64 bits, would be there. */
static void refused_chains(void)
{
    table_with_chains();
    chained(NO_ADDRESS, 3, 8, RAGANSILS_BAD_POSITION, 0, NULL);
    chained(0, 4, 9, RAGANSILS_SHORT_RECORDS, 0, NULL);
    chained(0, 4, 0, RAGANSILS_SHORT_RECORDS, 0, NULL);
    chained(1, 0, 1, RAGANSILS_SHORT_RECORDS, 0, NULL);
    chained(0, 255, LONGEST_CHAIN - 1, RAGANSILS_SHORT_RECORDS, 0, NULL);
    chained(NO_ADDRESS, 0, 1, RAGANSILS_BAD_POSITION, 0, NULL);
    chained(UINT64_MAX, 3, 0, RAGANSILS_BAD_POSITION, 0, NULL);
    chained(0, 256, LONGEST_CHAIN, RAGANSILS_BAD_POSITION, 0, NULL);
    chained(0, UINT64_MAX, 0, RAGANSILS_BAD_POSITION, 0, NULL);
    table[5] = 1;
    chained(0, 3, 8, RAGANSILS_FLAG_SET, 0, NULL);
    chained(NO_ADDRESS, 256, 0, RAGANSILS_FLAG_SET, 0, NULL);
    table[0] = 3;
    chained(NO_ADDRESS, 256, 0, RAGANSILS_BAD_HEADER, 0, NULL);
}

static void chain_while_resizing(void)
{
    const uint64_t four[] = { 103, 203, 102, 202, 101, 201, 100, 200 };
    table_with_chains();
    made(BEGIN, 0, 0, 0);
    /* An odd key has two buckets of the new top, an even one has one; the old top is the bottom now. */
    chained(0, 3, 8, RAGANSILS_DONE, 3 + 2 + 3 + 2, four);
    chained(0, 5, 12, RAGANSILS_KEY_ABSENT, 4, NULL);
    made(BACK, 0, 0, 0);
    /* The old top is the top again, and the new one is looked at last, for what is in no other level. */
    chained(0, 3, 8, RAGANSILS_DONE, 1 + 1 + 1 + 1, four);
    chained(0, 5, 12, RAGANSILS_KEY_ABSENT, 4, NULL);
}

/* All depths of the last address that has keys. */
static void longest_chain(void)
{
    static uint64_t large[RAGANSILS_WORDS(7)];
    const size_t words = RAGANSILS_WORDS(7);
    uint64_t key, buckets, looked = 0, answer[RAGANSILS_ANSWER_WORDS];
    bool filled = ragansils_create(large, words, form, 7, 6, RAGANSILS_MULTIPLIER_1, RAGANSILS_MULTIPLIER_2) == RAGANSILS_DONE;
    for (uint64_t depth = 0; depth <= RAGANSILS_LARGEST_DEPTH; depth++) {
        filled = filled && ragansils_key(NO_ADDRESS - 1, depth, &key) &&
                 ragansils_insert(large, words, key, 1000 + depth, 7 * depth, list, RAGANSILS_LIST_WORDS, &stores) == RAGANSILS_DONE &&
                 ragansils_make(large, words, list, RAGANSILS_LIST_WORDS, stores) == RAGANSILS_DONE;
    }
    check(filled, "the table of the longest chain");
    check(ragansils_chain(large, words, NO_ADDRESS - 1, 255, records, LONGEST_CHAIN, &buckets) == RAGANSILS_DONE, "the longest chain");
    bool same = true;
    for (uint64_t depth = 0; depth <= RAGANSILS_LARGEST_DEPTH; depth++) {
        const uint64_t *record = &records[2 * (RAGANSILS_LARGEST_DEPTH - depth)];
        same = same && record[0] == 1000 + depth && record[1] == 7 * depth;
        same = same && ragansils_query(large, words, (NO_ADDRESS - 1) * 256 + depth, answer) == RAGANSILS_DONE;
        looked += answer[2];
    }
    check(same, "the records of the longest chain");
    check(buckets == looked && looked > 256 && looked <= 4 * 256, "the buckets of the longest chain");
}

/* That each length is taken for the length of its own buffer. */
static void lengths(void)
{
    const struct change all[] = { INSERT, UPDATE, DELETE, BEGIN, SHRINK, BACK, STEP, STEP_FROM, END, RECOVER };
    uint64_t answer[RAGANSILS_ANSWER_WORDS], pair[] = { WORDS - 1, 7 };
    fresh_table();
    untouch(list, LENT_LIST);
    for (size_t i = 0; i < sizeof all / sizeof *all; i++) {
        check(all[i].call(WORDS - 1, LENT_LIST, 1, 2, 3) == RAGANSILS_BAD_HEADER && stores == 0, "a table that is too short");
        check(all[i].call(WORDS, RAGANSILS_LIST_WORDS - 1, 1, 2, 3) == RAGANSILS_SHORT_LIST && stores == 0, "a list that is too short");
    }
    all_untouched(list, 0, LENT_LIST, "a refusal writes no list");
    check(ragansils_query(table, WORDS - 1, 1, answer) == RAGANSILS_BAD_HEADER, "a query of a table that is too short");
    check(ragansils_chain(table, WORDS - 1, 0, 0, records, LONGEST_CHAIN, &stores) == RAGANSILS_BAD_HEADER && stores == 0,
          "a chain of a table that is too short");
    check(ragansils_make(table, WORDS, pair, 2, 2) == RAGANSILS_BAD_MAKING, "make of more pairs than there are");
    check(ragansils_make(table, WORDS - 1, pair, 2, 1) == RAGANSILS_BAD_MAKING, "make outside the table");
    check(table[WORDS - 1] == 0, "a refused make stores nothing");
    check(ragansils_make(table, WORDS, pair, 2, 1) == RAGANSILS_DONE && table[WORDS - 1] == 7, "make in the last word");
}

/* ---- form 2: the rows with tags ---- */

/* With these multipliers a key below 2^32 has its bits 24 to 31 as its tag, and they change no place in a small table. */
static uint64_t tagged(uint64_t tag, uint64_t key)
{
    return tag << 24 | key;
}

/* A token word of these taken slots, and the tags of slots 0 to 3. */
static uint64_t token(uint64_t taken, uint64_t tag0, uint64_t tag1, uint64_t tag2, uint64_t tag3)
{
    return taken | tag0 << 8 | tag1 << 16 | tag2 << 24 | tag3 << 32;
}

/* The last store of a list that the call answers with. */
static void last_store(struct change change, uint64_t key, uint64_t word, uint64_t value)
{
    check(change.call(WORDS, RAGANSILS_LIST_WORDS, key, 30, 40) == RAGANSILS_DONE, change.name);
    check(stores > 0 && list[2 * stores - 2] == word && list[2 * stores - 1] == value, "the token store of form 2");
}

static void one_tagged_position(void)
{
    const uint64_t key = tagged(5, 1), inserted[] = { 36, key, 37, 10, 38, 20, 35, 1281 };
    const uint64_t updated[] = { 39, key, 40, 30, 41, 40, 35, 327682 }, deleted[] = { 35, 0 };
    fresh_table();
    listed(INSERT, key, 10, 20, RAGANSILS_DONE, 4, inserted);
    made(INSERT, key, 10, 20);
    found(key, 10, 20, 1, 36, RAGANSILS_TOP);
    /* Keys with another tag, or the same tag, in the same buckets. */
    not_found(tagged(6, 1), RAGANSILS_KEY_ABSENT, 2);
    not_found(tagged(5, 3), RAGANSILS_KEY_ABSENT, 2);
    listed(DELETE, key, 0, 0, RAGANSILS_DONE, 1, deleted);
    listed(UPDATE, key, 30, 40, RAGANSILS_DONE, 4, updated);
    refused(RECOVER, 0, RAGANSILS_DONE);
}

/* A bucket of four tags; what changes one slot leaves the tags of the others. */
static void four_tagged_positions(void)
{
    fresh_table();
    made(INSERT, tagged(5, 1), 10, 20);
    made(INSERT, tagged(7, 3), 10, 20);
    last_store(INSERT, tagged(9, 5), 35, token(7, 5, 7, 9, 0));
    made(INSERT, tagged(9, 5), 10, 20);
    last_store(UPDATE, tagged(5, 1), 35, token(14, 0, 7, 9, 5));
    made(INSERT, tagged(11, 7), 10, 20);
    check(table[35] == UINT64_C(47396095247), "the token word of four tagged keys");
    last_store(DELETE, tagged(7, 3), 35, UINT64_C(47395636493));
    refused(RECOVER, 0, RAGANSILS_DONE);
    found(tagged(11, 7), 10, 20, 1, 45, RAGANSILS_TOP);
    /* Tag 0 is a tag like any other: of a free slot, whose tag is 0, the key is not read. */
    made(DELETE, tagged(11, 7), 0, 0);
    table[45] = 7;
    not_found(7, RAGANSILS_KEY_ABSENT, 2);
    made(INSERT, 7, 10, 20);
    check(table[35] == token(15, 5, 7, 9, 0), "a key whose tag is 0");
    found(7, 10, 20, 1, 45, RAGANSILS_TOP);
}

/* A key that form 2 mixes: its upper half is 3. */
static void mixed_key(void)
{
    const uint64_t key = UINT64_C(12968787970);
    const uint64_t in_form_1[] = { 36, key, 37, 10, 38, 20, 35, 1 }, in_form_2[] = { 23, key, 24, 10, 25, 20, 22, 1281 };
    form = RAGANSILS_FORM_1;
    fresh_table();
    listed(INSERT, key, 10, 20, RAGANSILS_DONE, 4, in_form_1);
    form = RAGANSILS_FORM_2;
    fresh_table();
    listed(INSERT, key, 10, 20, RAGANSILS_DONE, 4, in_form_2);
    made(INSERT, key, 10, 20);
    found(key, 10, 20, 1, 23, RAGANSILS_TOP);
}

/* Multipliers that are large: the tag is bits 24 to 31 of the first product. */
static void large_multipliers(void)
{
    check(ragansils_create(table, WORDS, form, 2, 1, UINT64_C(11400714819323198485), UINT64_C(14029467366897019727)) == RAGANSILS_DONE,
          "create");
    last_store(INSERT, 1, 35, 32513);
    last_store(INSERT, 2, 22, 65025);
    made(INSERT, 2, 10, 20);
    found(2, 10, 20, 1, 23, RAGANSILS_TOP);
}

/* E9 with a tag for each key, 16 more than the key below it: the item that moves takes its tag with it. */
static void tagged_move(void)
{
    const uint64_t keys[] = { 0, 2, 4, 6, 8, 1, 3, 5, 7, 9, 11, 13 };
    fresh_table();
    for (size_t i = 0; i < sizeof keys / sizeof *keys; i++) {
        made(INSERT, tagged(keys[i] + 16, keys[i]), 10, 20);
        if (keys[i] == 8)
            made(DELETE, tagged(16, 0), 0, 0);
    }
    const uint64_t moved = tagged(24, 8), key = tagged(31, 15);
    const uint64_t expected[] = { 23, moved, 24, 10, 25, 20, 22, token(15, 24, 18, 20, 22), 9, token(14, 0, 25, 27, 29),
                                  10, key, 11, 30, 12, 40, 9, token(15, 31, 25, 27, 29) };
    listed(INSERT, key, 30, 40, RAGANSILS_DONE, 9, expected);
    made(INSERT, key, 30, 40);
    found(moved, 10, 20, 1, 23, RAGANSILS_TOP);
    refused(RECOVER, 0, RAGANSILS_DONE);
}

static void tagged_table_that_grows(void)
{
    fresh_table();
    made(INSERT, tagged(5, 1), 10, 20);
    made(INSERT, tagged(7, 3), 10, 20);
    made(INSERT, tagged(9, 5), 10, 20);
    made(INSERT, tagged(11, 7), 10, 20);
    made(INSERT, tagged(13, 9), 10, 20);
    made(INSERT, tagged(15, 11), 10, 20);
    check(table[9] == token(3, 13, 15, 0, 0), "the token word of the bottom");
    made(BEGIN, 0, 0, 0);
}

/* Steps of a growth and of a shrink, and both kinds of recovery, with tags. */
static void tagged_steps(void)
{
    const uint64_t key = tagged(13, 9), up[] = { 62, key, 63, 10, 64, 20, 61, token(1, 13, 0, 0, 0), 9, token(2, 0, 15, 0, 0) };
    const uint64_t clears[] = { 9, token(2, 0, 15, 0, 0) }, down[] = { 10, key, 11, 10, 12, 20, 9, token(3, 13, 15, 0, 0), 61, 0 };
    const uint64_t rewrites[] = { 37, 30, 38, 40, 5, 0 };
    tagged_table_that_grows();
    listed(STEP, 0, 0, 0, RAGANSILS_DONE, 5, up);
    ragansils_make(table, WORDS, list, LENT_LIST, 4);
    listed(RECOVER, 0, 0, 0, RAGANSILS_DONE, 1, clears);
    made(RECOVER, 0, 0, 0);
    made(BACK, 0, 0, 0);
    found(key, 10, 20, 3, 62, RAGANSILS_INTERIM);
    listed(STEP, 0, 0, 0, RAGANSILS_DONE, 5, down);
    made(STEP, 0, 0, 0);
    made(END, 0, 0, 0);
    check(call_update(WORDS, LENT_LIST, tagged(5, 1), 30, 40) == RAGANSILS_DONE && stores == 7, "an update of a full bucket");
    ragansils_make(table, WORDS, list, LENT_LIST, 5);
    listed(RECOVER, 0, 0, 0, RAGANSILS_DONE, 3, rewrites);
    made(RECOVER, 0, 0, 0);
    found(tagged(5, 1), 30, 40, 1, 36, RAGANSILS_TOP);
    check(table[35] == UINT64_C(47396095247), "no tag has changed");
}

/* A wrong tag hides its key: the calls go on as if it were absent, and recovery refuses the table. */
static void damaged_tag(void)
{
    const uint64_t key = tagged(5, 1), again[] = { 39, key, 40, 10, 41, 20, 35, token(3, 4, 5, 0, 0) };
    fresh_table();
    made(INSERT, key, 10, 20);
    table[35] = token(1, 4, 0, 0, 0);
    not_found(key, RAGANSILS_KEY_ABSENT, 2);
    refused(UPDATE, key, RAGANSILS_KEY_ABSENT);
    refused(DELETE, key, RAGANSILS_KEY_ABSENT);
    chained(key / 256, key % 256, 4, RAGANSILS_KEY_ABSENT, 2, NULL);
    listed(INSERT, key, 10, 20, RAGANSILS_DONE, 4, again);
    refused(RECOVER, 0, RAGANSILS_NO_KIND);
    /* Both copies, and then their tags differ. */
    made(INSERT, key, 10, 20);
    found(key, 10, 20, 1, 39, RAGANSILS_TOP);
    refused(RECOVER, 0, RAGANSILS_NO_KIND);
}

/* Bits that mean nothing, and tags of free slots: recovery refuses them, and the other calls keep them. */
static void stray_bits(void)
{
    const uint64_t key = tagged(5, 1), stray[] = { 16, 128, UINT64_C(1) << 40, UINT64_C(1) << 63, token(0, 0, 0, 6, 0) };
    for (size_t i = 0; i < sizeof stray / sizeof *stray; i++) {
        fresh_table();
        made(INSERT, key, 10, 20);
        table[35] |= stray[i];
        refused(RECOVER, 0, RAGANSILS_NO_KIND);
        found(key, 10, 20, 1, 36, RAGANSILS_TOP);
        last_store(INSERT, tagged(7, 3), 35, token(3, 5, 7, 0, 0) | stray[i]);
        last_store(DELETE, key, 35, stray[i]);
        /* In form 1 the same word is read modulo 16. */
        table[0] = RAGANSILS_FORM_1;
        last_store(DELETE, key, 35, 0);
    }
    /* What stood on the tag of a free slot is overwritten where the slot is taken. */
    fresh_table();
    table[35] = token(0, 255, 0, 0, 0);
    last_store(INSERT, key, 35, 1281);
}

/* A form that there is not. */
static void no_form(void)
{
    const struct change all[] = { INSERT, UPDATE, DELETE, BEGIN, SHRINK, BACK, STEP, STEP_FROM, END, RECOVER };
    const uint64_t no_forms[] = { 0, 3, UINT64_C(1) << 32, UINT64_C(1) << 63, UINT64_MAX };
    for (size_t i = 0; i < sizeof no_forms / sizeof *no_forms; i++) {
        fresh_table();
        made(INSERT, 1, 10, 20);
        table[0] = no_forms[i];
        for (size_t j = 0; j < sizeof all / sizeof *all; j++)
            refused(all[j], 1, RAGANSILS_BAD_HEADER);
        not_found(1, RAGANSILS_BAD_HEADER, 0);
        chained(0, 1, 4, RAGANSILS_BAD_HEADER, 0, NULL);
    }
}

/* ---- conversion, from the form that tables are made in to the other ---- */

#define OTHER_FORM (RAGANSILS_FORM_1 + RAGANSILS_FORM_2 - form)

/* The second table, and some words around it, to see that those stay. */
static uint64_t lent_second[AROUND + WORDS + AROUND];
static uint64_t *const second = lent_second + AROUND;

/* Converts to words that hold anything, and checks that it answers so, with this key. */
static void converted(size_t second_words, uint64_t number, uint64_t key)
{
    uint64_t before[WORDS], told[] = { UNTOUCHED, UNTOUCHED, UNTOUCHED };
    memcpy(before, table, sizeof table);
    untouch(lent_second, AROUND + WORDS + AROUND);
    check(ragansils_convert(table, WORDS, second, second_words, &told[1]) == number, "convert");
    check(told[0] == UNTOUCHED && told[1] == key && told[2] == UNTOUCHED, "the key that convert tells");
    check(memcmp(before, table, sizeof table) == 0, "convert only reads the table");
    all_untouched(lent_second, 0, AROUND, "the words before the second table stay");
    all_untouched(second, WORDS, WORDS + AROUND, "the words behind the second table stay");
}

static void not_converted(size_t second_words, uint64_t number)
{
    converted(second_words, number, 0);
    all_untouched(second, 0, WORDS, "a refused conversion leaves the second table");
}

static void second_is(const uint64_t *expected, const char *what)
{
    check(memcmp(second, expected, WORDS * sizeof *second) == 0, what);
}

/* The second table as creation makes it. */
static void created_in_other_form(uint64_t *words)
{
    check(ragansils_create(words, WORDS, OTHER_FORM, 2, 1, MUL1, MUL2) == RAGANSILS_DONE, "create in the other form");
}

/* Four keys fill a bucket of the top, and the fifth goes to the bottom. Once the first is gone the others have the bucket to themselves. */
static void conversion(void)
{
    const uint64_t keys[] = { tagged(5, 1), tagged(7, 3), tagged(9, 5), tagged(11, 7), tagged(13, 9) };
    uint64_t expected[WORDS];
    fresh_table();
    created_in_other_form(expected);
    converted(WORDS, RAGANSILS_DONE, 0);
    second_is(expected, "an empty table in the other form");

    for (size_t i = 0; i < 5; i++)
        made(INSERT, keys[i], 100 + i, 200 + i);
    check((table[9] & 15) == 1, "the fifth key stands in the bottom");
    made(DELETE, keys[0], 0, 0);
    expected[35] = form == RAGANSILS_FORM_1 ? token(15, 7, 9, 11, 13) : 15;
    for (size_t i = 1; i < 5; i++) {
        expected[33 + 3 * i] = keys[i];
        expected[34 + 3 * i] = 100 + i;
        expected[35 + 3 * i] = 200 + i;
    }
    converted(WORDS, RAGANSILS_DONE, 0);
    second_is(expected, "those of the top come first, and then the one of the bottom");

    /* And back. */
    memcpy(table, second, sizeof table);
    expected[0] = form;
    expected[35] = form == RAGANSILS_FORM_2 ? token(15, 7, 9, 11, 13) : 15;
    converted(WORDS, RAGANSILS_DONE, 0);
    second_is(expected, "the table that was converted twice");
}

/* Most of these would be refused for a later reason too. */
static void refused_conversions(void)
{
    uint64_t key = UNTOUCHED;
    fresh_table();
    insert_keys(1, 15, 2);
    const size_t other_lengths[] = { 0, WORDS - 1, WORDS + 1 };
    for (size_t i = 0; i < sizeof other_lengths / sizeof *other_lengths; i++)
        not_converted(other_lengths[i], RAGANSILS_BAD_CREATION);
    check(ragansils_convert(table, WORDS - 1, second, WORDS - 1, &key) == RAGANSILS_BAD_HEADER && key == 0, "a table that is too short");
    made(BEGIN, 0, 0, 0);
    not_converted(WORDS - 1, RAGANSILS_ALREADY_RESIZING);
    made(BACK, 0, 0, 0);
    not_converted(WORDS, RAGANSILS_ALREADY_RESIZING);
    made(BACK, 0, 0, 0);
    /* Key 9 stands twice: recovery would mend that, and comes first. */
    check(call_step(WORDS, LENT_LIST, 0, 0, 0) == RAGANSILS_DONE && stores == 5, "a step");
    ragansils_make(table, WORDS, list, LENT_LIST, 4);
    not_converted(WORDS - 1, RAGANSILS_NO_KIND);
    /* This it would not mend. */
    table[5] = 2;
    not_converted(WORDS - 1, RAGANSILS_NO_KIND);
    table[0] = 3;
    not_converted(WORDS - 1, RAGANSILS_BAD_HEADER);
}

/* What is not sound; of the flag the other calls would say 3. */
static void unsound_conversions(void)
{
    fresh_table();
    insert_keys(1, 7, 2);
    const uint64_t flags[] = { 1, 2, UINT64_MAX };
    table[6] = 36;
    for (size_t i = 0; i < sizeof flags / sizeof *flags; i++) {
        table[5] = flags[i];
        not_converted(WORDS, RAGANSILS_NO_KIND);
        not_converted(WORDS - 1, RAGANSILS_NO_KIND);
    }
    table[5] = 0;
    table[35] |= 16;
    not_converted(WORDS, RAGANSILS_NO_KIND);
    table[35] &= 15;
    table[36] = 2;
    not_converted(WORDS, RAGANSILS_NO_KIND);
    table[36] = 1;
    converted(WORDS, RAGANSILS_DONE, 0);
}

/*
 * In the form that they are made in, the even ones of these nine keys have one bucket of the top and the odd ones the other; in the other form
 * all have the same one. The places of a key are its low half here, by parity, in form 2, and the sum of both halves in form 1.
 */
static uint64_t crowding_key(uint64_t number)
{
    uint64_t high = number % 2, low = 2 * number + 1 - (form == RAGANSILS_FORM_2 ? high : 0);
    return high << 32 | low;
}

/* Four of them fill that bucket, four the bottom, and the last one finds no place. */
static void no_place_in_other_form(void)
{
    uint64_t expected[WORDS];
    fresh_table();
    for (uint64_t number = 0; number < 9; number++)
        made(INSERT, crowding_key(number), number, number);
    check((table[9] & 15) == 1 && table[10] == crowding_key(8), "the last key stands in the bottom");
    created_in_other_form(expected);
    converted(WORDS, RAGANSILS_NO_PLACE, crowding_key(8));
    second_is(expected, "without a place for an item the second table is left as it was created");
    not_converted(WORDS + 1, RAGANSILS_BAD_CREATION);
    made(DELETE, crowding_key(0), 0, 0);
    converted(WORDS, RAGANSILS_DONE, 0);
    check((second[9] & 15) == 15 && second[19] == crowding_key(8), "after a delete there is a place");
}

/* ---- two tables asked as one: the newer in the form that tables are made in, the older larger and in the other form ---- */

#define OLDER_WORDS RAGANSILS_WORDS(3)

static uint64_t older[OLDER_WORDS];

/* Asks both for a key by both functions, and checks that the answer is just this: the part is so many words from this one on, and no copy. */
static void told_of_both(size_t newer_words, size_t older_words, uint64_t key, uint64_t number, const uint64_t expected[RAGANSILS_ASKED_WORDS],
                         const uint64_t *words, size_t length)
{
    uint64_t before[WORDS], older_before[OLDER_WORDS], answer[RAGANSILS_ASKED_WORDS + 1];
    struct ragansils_part parts[3] = { { list, 1 }, { table, 0 }, { list, 2 } };
    memcpy(before, table, sizeof table);
    memcpy(older_before, older, sizeof older);
    untouch(answer, RAGANSILS_ASKED_WORDS + 1);
    check(ragansils_asked(table, newer_words, older, older_words, key, answer) == number, "asked");
    check(memcmp(answer, expected, RAGANSILS_ASKED_WORDS * sizeof *answer) == 0, "the table's name and the buckets");
    all_untouched(answer, RAGANSILS_ASKED_WORDS, RAGANSILS_ASKED_WORDS + 1, "the word behind the answer stays");
    ragansils_part(table, newer_words, older, older_words, key, &parts[1]);
    check(parts[1].words == words && parts[1].length == length, "the part is in that table's own memory");
    check(parts[0].words == list && parts[0].length == 1 && parts[2].words == list && parts[2].length == 2, "what lies around the part stays");
    check(memcmp(before, table, sizeof table) == 0 && memcmp(older_before, older, sizeof older) == 0, "both tables are only read");
}

/* The table of this name has the key, with this record, in the slot that a query of that table tells. */
static void found_in(enum ragansils_table_name name, uint64_t key, uint64_t function, uint64_t place, uint64_t buckets, uint64_t word)
{
    const uint64_t expected[] = { (uint64_t)name, buckets }, *holder = name == RAGANSILS_NEWER ? table : older;
    uint64_t answer[RAGANSILS_ANSWER_WORDS];
    told_of_both(WORDS, OLDER_WORDS, key, RAGANSILS_DONE, expected, &holder[word], 3);
    check(holder[word] == key && holder[word + 1] == function && holder[word + 2] == place, "the part is key, function and place");
    check(ragansils_query(holder, name == RAGANSILS_NEWER ? WORDS : OLDER_WORDS, key, answer) == RAGANSILS_DONE && answer[3] == word,
          "the part is where a query of that table finds the key");
}

/* A refusal, which this table is named for; the empty part is at its start. */
static void refused_by(enum ragansils_table_name name, size_t newer_words, size_t older_words, uint64_t key, uint64_t number, uint64_t buckets)
{
    const uint64_t expected[] = { (uint64_t)name, buckets };
    told_of_both(newer_words, older_words, key, number, expected, name == RAGANSILS_NEWER ? table : older, 0);
}

static void change_older(uint64_t number)
{
    check(number == RAGANSILS_DONE && ragansils_make(older, OLDER_WORDS, list, LENT_LIST, stores) == RAGANSILS_DONE, "a change of the older");
}

/* Key 1 is in both, 3 in the older alone and 5 in the newer alone. */
static void two_tables(void)
{
    fresh_table();
    made(INSERT, 1, 10, 20);
    made(INSERT, 5, 50, 60);
    check(ragansils_create(older, OLDER_WORDS, OTHER_FORM, 3, 2, MUL1, MUL2) == RAGANSILS_DONE, "create the older");
    change_older(ragansils_insert(older, OLDER_WORDS, 1, 11, 21, list, LENT_LIST, &stores));
    change_older(ragansils_insert(older, OLDER_WORDS, 3, 31, 41, list, LENT_LIST, &stores));
}

/* An odd key has two buckets in the newer table, and three in the older, whose top has four. */
static void asking_both(void)
{
    two_tables();
    found_in(RAGANSILS_NEWER, 1, 10, 20, 1, 36);
    found_in(RAGANSILS_NEWER, 5, 50, 60, 1, 39);
    found_in(RAGANSILS_OLDER, 3, 31, 41, 2 + 1, 88);
    refused_by(RAGANSILS_OLDER, WORDS, OLDER_WORDS, 7, RAGANSILS_KEY_ABSENT, 2 + 3);

    /* What becomes of a hidden key is not seen; once the newer has it no more, it is. */
    change_older(ragansils_update(older, OLDER_WORDS, 1, 12, 22, list, LENT_LIST, &stores));
    found_in(RAGANSILS_NEWER, 1, 10, 20, 1, 36);
    made(DELETE, 1, 0, 0);
    found_in(RAGANSILS_OLDER, 1, 12, 22, 2 + 1, 65);
    made(INSERT, 3, 33, 43);
    found_in(RAGANSILS_NEWER, 3, 33, 43, 1, 36);
    change_older(ragansils_delete(older, OLDER_WORDS, 3, list, LENT_LIST, &stores));
    found_in(RAGANSILS_NEWER, 3, 33, 43, 1, 36);

    /* Either may grow meanwhile, and has more buckets for a key then: the newer four, the older five. */
    made(BEGIN, 0, 0, 0);
    found_in(RAGANSILS_NEWER, 3, 33, 43, 3, 36);
    refused_by(RAGANSILS_OLDER, WORDS, OLDER_WORDS, 7, RAGANSILS_KEY_ABSENT, 4 + 3);
    change_older(ragansils_begin(older, OLDER_WORDS, list, LENT_LIST, &stores));
    found_in(RAGANSILS_OLDER, 1, 12, 22, 4 + 3, 65);
    refused_by(RAGANSILS_OLDER, WORDS, OLDER_WORDS, 7, RAGANSILS_KEY_ABSENT, 4 + 5);
}

/* Each of these would be refused for all later reasons too; both tables are tested before the key is looked up, which the newer has. */
static void refusals_of_both(void)
{
    two_tables();
    older[5] = 1;
    refused_by(RAGANSILS_OLDER, WORDS, OLDER_WORDS, 1, RAGANSILS_FLAG_SET, 0);
    refused_by(RAGANSILS_OLDER, WORDS, OLDER_WORDS - 1, 1, RAGANSILS_BAD_HEADER, 0);
    older[0] = 3;
    refused_by(RAGANSILS_OLDER, WORDS, OLDER_WORDS, 1, RAGANSILS_BAD_HEADER, 0);
    table[5] = UINT64_MAX;
    refused_by(RAGANSILS_NEWER, WORDS, OLDER_WORDS, 1, RAGANSILS_FLAG_SET, 0);
    refused_by(RAGANSILS_NEWER, WORDS, 0, 1, RAGANSILS_FLAG_SET, 0);
    refused_by(RAGANSILS_NEWER, WORDS - 1, OLDER_WORDS, 1, RAGANSILS_BAD_HEADER, 0);
    refused_by(RAGANSILS_NEWER, 0, 0, 1, RAGANSILS_BAD_HEADER, 0);
    table[0] = 0;
    refused_by(RAGANSILS_NEWER, WORDS, OLDER_WORDS, 1, RAGANSILS_BAD_HEADER, 0);
}

/* The same table may be both. */
static void one_table_twice(void)
{
    uint64_t answer[RAGANSILS_ASKED_WORDS];
    struct ragansils_part part = { table, 0 };
    two_tables();
    check(ragansils_asked(table, WORDS, table, WORDS, 5, answer) == RAGANSILS_DONE && answer[0] == RAGANSILS_NEWER && answer[1] == 1,
          "a key of a table that is both");
    ragansils_part(table, WORDS, table, WORDS, 5, &part);
    check(part.words == &table[39] && part.length == 3, "its part");
    check(ragansils_asked(table, WORDS, table, WORDS, 3, answer) == RAGANSILS_KEY_ABSENT && answer[0] == RAGANSILS_OLDER && answer[1] == 4,
          "no key of a table that is both");
    ragansils_part(table, WORDS, table, WORDS, 3, &part);
    check(part.words == table && part.length == 0, "no part of it");
}

static void rows_of_form_2(void)
{
    mixed_key();
    one_tagged_position();
    four_tagged_positions();
    large_multipliers();
    tagged_move();
    tagged_steps();
    damaged_tag();
    stray_bits();
    no_form();
}

static void rows_of_both_forms(void)
{
    creation();
    one_position();
    cut_update();
    growth();
    shrinking();
    stuck_shrink();
    where_keys_stand();
    steps_that_go_on();
    chains();
    refused_chains();
    chain_while_resizing();
    longest_chain();
    lengths();
    conversion();
    refused_conversions();
    unsound_conversions();
    no_place_in_other_form();
    asking_both();
    refusals_of_both();
    one_table_twice();
}

int main(void)
{
    sizes_and_keys();
    for (form = RAGANSILS_FORM_1; form <= RAGANSILS_FORM_2; form++)
        rows_of_both_forms();
    rows_of_form_2();
    if (printf("%u checks of the seventeen functions from C, %u failed\n", checks, failures) < 0 || fflush(stdout) != 0) {
        fprintf(stderr, "calls: standard output could not be written\n");
        return 1;
    }
    return failures != 0 || checks < LEAST_CHECKS;
}
