/*
 * A small collector in C: it loads the positions of a module into the table, answers samples by one frame and by all that were inlined
 * there, loads the module again with its lines moved, and unloads a part of it.
 *
 *     collector                a table in ordinary memory, whose stores ragansils_make makes
 *     collector FILE           a table in a mapped file, which stays; each store is made by a loop that can flush it
 *     collector FILE STORES    the same, but the process ends after so many stores, as if power failed: the next run recovers
 *
 * Exit status: 0 all was done; 1 a call refused what it should not, or a read or a write failed; 2 the arguments are wrong; 3 ended
 * after STORES stores.
 */
#define _POSIX_C_SOURCE 200809L

#include <fcntl.h>
#include <inttypes.h>
#include <signal.h>
#include <stdio.h>
#include <stdlib.h>
#include <string.h>
#include <sys/file.h>
#include <sys/mman.h>
#include <sys/stat.h>
#include <unistd.h>

#include "ragansils.h"

enum { CAPACITY = 4, FIRST_TOP = 1, FUNCTIONS = 12, DEPTHS = 3, INNERMOST = DEPTHS - 1 };

struct collector {
    uint64_t *table;
    size_t words;
    bool persistent;
    uint64_t stores_made;
    uint64_t end_after; /* so many stores; 0 never */
    uint64_t from;      /* the interim bucket from which a growth or a shrink goes on; a hint, which only saves time */
    bool stuck;         /* no item that is left to move has a place, and nothing was deleted or turned back since */
};

/* ---- making stores ---- */

/* Where your platform makes a store lasting before the next one: on x86-64 with persistent memory _mm_clwb(word), then _mm_sfence(). */
static void flush(const volatile uint64_t *word)
{
    (void)word;
}

/* What was printed may wait in a buffer: a full disk, or a reader that went away, shows only now. */
static void flush_output(void)
{
    if (fflush(stdout) == 0 && !ferror(stdout))
        return;
    fprintf(stderr, "collector: standard output could not be written\n");
    _exit(1);
}

/* As if power failed: nothing is tidied up. */
static void end_here(void)
{
    printf("the process ends here\n");
    flush_output();
    _exit(3);
}

/* Each word whole, in order; a volatile store is neither joined with the next nor put behind it by the compiler. */
static void make_one_by_one(struct collector *collector, const uint64_t *list, uint64_t stores)
{
    for (uint64_t i = 0; i < stores; i++) {
        volatile uint64_t *word = &collector->table[list[2 * i]];
        *word = list[2 * i + 1];
        flush(word);
        collector->stores_made++;
        if (collector->stores_made == collector->end_after)
            end_here();
    }
}

/* Makes what a call listed, and hands the call's number on. */
static uint64_t make(struct collector *collector, uint64_t number, const uint64_t *list, uint64_t stores)
{
    if (number != RAGANSILS_DONE)
        return number;
    if (collector->persistent) {
        make_one_by_one(collector, list, stores);
        return RAGANSILS_DONE;
    }
    collector->stores_made += stores;
    return ragansils_make(collector->table, collector->words, list, RAGANSILS_LIST_WORDS, stores);
}

/* ---- the calls, each listed and made ---- */

static uint64_t insert(struct collector *collector, uint64_t key, uint64_t function, uint64_t place)
{
    uint64_t list[RAGANSILS_LIST_WORDS], stores;
    uint64_t number = ragansils_insert(collector->table, collector->words, key, function, place, list, RAGANSILS_LIST_WORDS, &stores);
    return make(collector, number, list, stores);
}

static uint64_t update(struct collector *collector, uint64_t key, uint64_t function, uint64_t place)
{
    uint64_t list[RAGANSILS_LIST_WORDS], stores;
    uint64_t number = ragansils_update(collector->table, collector->words, key, function, place, list, RAGANSILS_LIST_WORDS, &stores);
    return make(collector, number, list, stores);
}

static uint64_t delete(struct collector *collector, uint64_t key)
{
    uint64_t list[RAGANSILS_LIST_WORDS], stores;
    uint64_t number = ragansils_delete(collector->table, collector->words, key, list, RAGANSILS_LIST_WORDS, &stores);
    collector->stuck = false;
    return make(collector, number, list, stores);
}

/* begin, back, end and recover are lent the same. After each of them steps look from the first bucket on. */
typedef uint64_t whole_table_call(const uint64_t *, size_t, uint64_t *, size_t, uint64_t *);

static uint64_t change_whole(struct collector *collector, whole_table_call *call)
{
    uint64_t list[RAGANSILS_LIST_WORDS], stores;
    uint64_t number = call(collector->table, collector->words, list, RAGANSILS_LIST_WORDS, &stores);
    collector->from = 0;
    return make(collector, number, list, stores);
}

/* The bucket told is the one to go on from, and 0 with a refusal. */
static uint64_t step_from(struct collector *collector, uint64_t from)
{
    uint64_t list[RAGANSILS_LIST_WORDS], answer[RAGANSILS_STEP_FROM_WORDS];
    uint64_t number = ragansils_step_from(collector->table, collector->words, from, list, RAGANSILS_LIST_WORDS, answer);
    collector->from = answer[1];
    return make(collector, number, list, answer[0]);
}

/*
 * One small part of a growth or a shrink that is under way. The state is in the table, so that it goes on after a restart. The bucket is not: it
 * keeps the next step from looking through all buckets that are empty already. Where nothing from there on can move, the first bucket comes
 * again, since a delete may have made room for an item that was passed.
 *
 * Refusal 6 says that no item left to move has a place now: the table stays as it is, and every other call goes on working. Such a step has
 * tried all these items, and only a delete can make room for one; so until then it is not tried again.
 */
static uint64_t resize_on(struct collector *collector)
{
    if (collector->stuck)
        return RAGANSILS_NO_PLACE;
    uint64_t from = collector->from, number = step_from(collector, from);
    if (from != 0 && (number == RAGANSILS_NO_PLACE || number == RAGANSILS_INTERIM_EMPTY))
        number = step_from(collector, 0);
    collector->stuck = number == RAGANSILS_NO_PLACE;
    return number == RAGANSILS_INTERIM_EMPTY ? change_whole(collector, ragansils_end) : number;
}

/* ---- what a collector does ---- */

struct counts {
    unsigned inserted, updated, deleted, growths;
};

static void must(const char *what, uint64_t number)
{
    if (number == RAGANSILS_DONE)
        return;
    fprintf(stderr, "collector: %s was refused with %" PRIu64 "\n", what, number);
    exit(1);
}

/* This collector begins no shrink, but another program may have left one in the file: word 4 is k + 256 * phase, and phase 2 is shrinking. */
static bool is_shrinking(const struct collector *collector)
{
    return collector->table[4] / 256 == 2;
}

/* Room for one more: a shrink turns back, since going on with it only fills the smaller levels; a growth goes on, or one begins. */
static void make_room(struct collector *collector, struct counts *counts)
{
    if (is_shrinking(collector)) {
        collector->stuck = false;
        must("turning back", change_whole(collector, ragansils_back));
        return;
    }
    uint64_t number = resize_on(collector);
    if (number == RAGANSILS_NOT_RESIZING) {
        number = change_whole(collector, ragansils_begin);
        counts->growths++;
    }
    must("growth", number);
}

/* A position comes in, or takes the place of the one that is there. */
static void learn(struct collector *collector, struct counts *counts, uint64_t key, uint64_t function, uint64_t place)
{
    uint64_t number = insert(collector, key, function, place);
    while (number == RAGANSILS_NO_PLACE) {
        make_room(collector, counts);
        number = insert(collector, key, function, place);
    }
    if (number == RAGANSILS_KEY_PRESENT) {
        must("update", update(collector, key, function, place));
        counts->updated++;
        return;
    }
    must("insert", number);
    counts->inserted++;
    /* An insert pays for one part of what is under way: left to wait, the interim items would find the new top full. */
    number = resize_on(collector);
    if (number != RAGANSILS_NOT_RESIZING && number != RAGANSILS_NO_PLACE)
        must("growth", number);
}

/* Where one instruction of one function of our module is. */
static uint64_t address_of(uint64_t function)
{
    return UINT64_C(0x555500001000) + 64 * function;
}

/* Its key at one inlining depth. */
static uint64_t key_of(uint64_t function, uint64_t depth)
{
    uint64_t address = address_of(function), key;
    if (!ragansils_key(address, depth, &key)) {
        fprintf(stderr, "collector: address %" PRIu64 " at depth %" PRIu64 " has no key\n", address, depth);
        exit(1);
    }
    return key;
}

/* The function at that depth: the module's own at 0, and above it what the compiler inlined there. */
static uint64_t function_at(uint64_t function, uint64_t depth)
{
    return function + 100 * depth;
}

/* The source line of that instruction, in a module whose lines have moved by so many. */
static uint64_t line_of(uint64_t function, uint64_t depth, uint64_t moved)
{
    return 100 * function + 7 * depth + moved;
}

static void load_module(struct collector *collector, struct counts *counts, uint64_t moved)
{
    for (uint64_t function = 1; function <= FUNCTIONS; function++)
        for (uint64_t depth = 0; depth < DEPTHS; depth++)
            learn(collector, counts, key_of(function, depth), function_at(function, depth), line_of(function, depth, moved));
}

static void unload_function(struct collector *collector, struct counts *counts, uint64_t function)
{
    for (uint64_t depth = 0; depth < DEPTHS; depth++) {
        must("delete", delete(collector, key_of(function, depth)));
        counts->deleted++;
    }
}

/* Where an answer stood. A word is eight bytes: whoever is sent the table finds key, function and line from byte 8 * word on. */
static void tell_slot(uint64_t word, uint64_t level)
{
    static const char *const names[] = { [RAGANSILS_TOP] = "top", [RAGANSILS_BOTTOM] = "bottom", [RAGANSILS_INTERIM] = "interim" };
    printf("    it stands in word %" PRIu64 ", in the %s level\n", word, names[level]);
}

static void answer_sample(const struct collector *collector, uint64_t function, uint64_t depth)
{
    uint64_t answer[RAGANSILS_ANSWER_WORDS];
    uint64_t number = ragansils_query(collector->table, collector->words, key_of(function, depth), answer);
    printf("  sample of function %" PRIu64 " at depth %" PRIu64 ": ", function, depth);
    if (number == RAGANSILS_KEY_ABSENT) {
        printf("not known\n");
        return;
    }
    must("query", number);
    printf("function %" PRIu64 ", line %" PRIu64 "\n", answer[0], answer[1]);
    tell_slot(answer[3], answer[4]);
}

/* All frames of a sample, the innermost first. Where one of them is missing there are none: a gap would name a wrong caller. */
static void answer_with_frames(const struct collector *collector, uint64_t function)
{
    uint64_t records[RAGANSILS_CHAIN_WORDS(INNERMOST)], buckets;
    uint64_t number = ragansils_chain(collector->table, collector->words, address_of(function), INNERMOST, records,
                                      RAGANSILS_CHAIN_WORDS(INNERMOST), &buckets);
    if (number == RAGANSILS_KEY_ABSENT) {
        printf("  frames of a sample of function %" PRIu64 ": not known\n", function);
        return;
    }
    must("chain", number);
    printf("  frames of a sample of function %" PRIu64 ", the innermost first:\n", function);
    for (size_t frame = 0; frame < DEPTHS; frame++) {
        const uint64_t *record = &records[2 * frame];
        printf("    function %" PRIu64 ", line %" PRIu64 "%s\n", record[0], record[1], frame + 1 < DEPTHS ? ", inlined into" : "");
    }
}

static void answer_samples(const struct collector *collector, const char *when)
{
    printf("%s:\n", when);
    answer_sample(collector, 1, 0);
    answer_sample(collector, FUNCTIONS, INNERMOST);
    answer_sample(collector, FUNCTIONS + 1, 0);
    answer_with_frames(collector, 1);
}

/* ---- where the table stands ---- */

static void complain(const char *what, const char *path)
{
    fprintf(stderr, "collector: %s '%s'\n", what, path);
    exit(1);
}

static uint64_t *map_words(int file, size_t words, const char *path)
{
    void *mapped = mmap(NULL, words * sizeof(uint64_t), PROT_READ | PROT_WRITE, MAP_SHARED, file, 0);
    if (mapped == MAP_FAILED)
        complain("cannot map", path);
    return mapped;
}

/* New tables are of form 2. A file of form 1, which an older collector made, is taken up as it is: every other call goes by its word 0. */
static void create(uint64_t *table, size_t words)
{
    must("create", ragansils_create(table, words, RAGANSILS_FORM_2, CAPACITY, FIRST_TOP, RAGANSILS_MULTIPLIER_1, RAGANSILS_MULTIPLIER_2));
}

/* A cut in creation is not covered: so the table is made under another name, and gets its own once it is whole. */
static void create_file(const char *path)
{
    size_t words = RAGANSILS_WORDS(CAPACITY), length = strlen(path) + sizeof ".new";
    char *new_path = malloc(length);
    if (new_path == NULL)
        complain("no memory for the name of", path);
    snprintf(new_path, length, "%s.new", path);
    int file = open(new_path, O_RDWR | O_CREAT | O_TRUNC, 0666);
    if (file < 0 || ftruncate(file, (off_t)(words * sizeof(uint64_t))) != 0)
        complain("cannot make", new_path);
    uint64_t *table = map_words(file, words, new_path);
    create(table, words);
    if (msync(table, words * sizeof(uint64_t), MS_SYNC) != 0 || fsync(file) != 0 || rename(new_path, path) != 0)
        complain("cannot write", path);
    munmap(table, words * sizeof(uint64_t));
    close(file);
    free(new_path);
    printf("made a table of %zu words\n", words);
}

static struct collector open_file(const char *path)
{
    if (access(path, F_OK) != 0)
        create_file(path);
    int file = open(path, O_RDWR);
    struct stat status;
    if (file < 0 || fstat(file, &status) != 0 || status.st_size <= 0 || status.st_size % (off_t)sizeof(uint64_t) != 0)
        complain("there is no table of whole words in", path);
    if (flock(file, LOCK_EX | LOCK_NB) != 0)
        complain("another process has the table in", path);
    size_t words = (size_t)status.st_size / sizeof(uint64_t);
    struct collector collector = { map_words(file, words, path), words, true, 0, 0, 0, false };
    return collector;
}

static struct collector in_memory(void)
{
    static uint64_t table[RAGANSILS_WORDS(CAPACITY)];
    struct collector collector = { table, RAGANSILS_WORDS(CAPACITY), false, 0, 0, 0, false };
    create(table, collector.words);
    printf("made a table of %zu words\n", collector.words);
    return collector;
}

/* Stores to end after: a number from 1 on; 0 where the text is none. */
static uint64_t number_of_stores(const char *text)
{
    char *end;
    unsigned long long number = strtoull(text, &end, 10);
    return *text >= '0' && *text <= '9' && *end == '\0' ? number : 0;
}

int main(int count, char **arguments)
{
    if (count > 3 || (count == 3 && number_of_stores(arguments[2]) == 0)) {
        fprintf(stderr, "usage: collector [FILE [STORES]], with STORES a whole number from 1 on\n");
        return 2;
    }
    /* A reader that went away is a write that fails, and no signal. */
    signal(SIGPIPE, SIG_IGN);
    struct collector collector = count > 1 ? open_file(arguments[1]) : in_memory();
    if (count == 3)
        collector.end_after = number_of_stores(arguments[2]);

    must("recover", change_whole(&collector, ragansils_recover));
    printf("recovered with %" PRIu64 " stores\n", collector.stores_made);

    struct counts counts = { 0, 0, 0, 0 };
    load_module(&collector, &counts, 0);
    answer_samples(&collector, "the module is loaded");
    load_module(&collector, &counts, 3);
    answer_samples(&collector, "it is loaded again, its lines moved by 3");
    unload_function(&collector, &counts, 1);
    answer_samples(&collector, "function 1 is unloaded");
    printf("%u inserted, %u updated, %u deleted, %u growths begun, %" PRIu64 " stores\n", counts.inserted, counts.updated,
           counts.deleted, counts.growths, collector.stores_made);
    flush_output();
    return 0;
}
