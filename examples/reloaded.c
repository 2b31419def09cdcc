/*
 * A small collector over two tables: the one that was shipped with a build, which is only read, and a newer one for code that was reloaded
 * since. It answers samples from both, reloads a function, answers again, and drops the reloaded code.
 *
 *     reloaded BUILD NEWER
 *
 * BUILD is a file that examples/collector.c has made, of functions 2 to 12, and need only be readable. NEWER is a file too, which is made
 * where there is none. How stores are made one by one and flushed, and how a table grows, examples/collector.c shows.
 *
 * Exit status: 0 all was done; 1 a call refused what it should not, or a read or a write failed; 2 the arguments are wrong.
 */
#define _POSIX_C_SOURCE 200809L

#include <fcntl.h>
#include <inttypes.h>
#include <signal.h>
#include <stdio.h>
#include <stdlib.h>
#include <string.h>
#include <sys/file.h>
#include <sys/mman.h>
#include <sys/stat.h>
#include <unistd.h>

#include "ragansils.h"

enum { NEWER_CAPACITY = 2, RELOADED_FUNCTION = 2, UNCHANGED_FUNCTION = 3, NEW_FUNCTION = 13, DEPTHS_IN_BUILD = 3, DEPTHS_RELOADED = 2 };

struct collector {
    const uint64_t *build; /* only read */
    size_t build_words;
    uint64_t *newer; /* all stores go here */
    size_t newer_words;
};

static void must(const char *what, uint64_t number)
{
    if (number == RAGANSILS_DONE)
        return;
    fprintf(stderr, "reloaded: %s was refused with %" PRIu64 "\n", what, number);
    exit(1);
}

static void complain(const char *what, const char *path)
{
    fprintf(stderr, "reloaded: %s '%s'\n", what, path);
    exit(1);
}

/* ---- what is asked of both tables ---- */

static uint64_t address_of(uint64_t function)
{
    return UINT64_C(0x555500001000) + 64 * function;
}

static uint64_t key_of(uint64_t function, uint64_t depth)
{
    uint64_t key;
    if (!ragansils_key(address_of(function), depth, &key)) {
        fprintf(stderr, "reloaded: function %" PRIu64 " at depth %" PRIu64 " has no key\n", function, depth);
        exit(1);
    }
    return key;
}

static const char *words_for(uint64_t name)
{
    return name == RAGANSILS_NEWER ? "newer table" : "build's table";
}

/* A table that refuses is named; that neither has the key is an answer. */
static bool is_known(const char *what, uint64_t number, uint64_t name)
{
    if (number == RAGANSILS_DONE || number == RAGANSILS_KEY_ABSENT)
        return number == RAGANSILS_DONE;
    fprintf(stderr, "reloaded: %s was refused with %" PRIu64 " by the %s\n", what, number, words_for(name));
    exit(1);
}

static void answer_sample(const struct collector *collector, uint64_t function, uint64_t depth)
{
    const uint64_t key = key_of(function, depth);
    uint64_t answer[RAGANSILS_ASKED_WORDS];
    uint64_t number = ragansils_asked(collector->newer, collector->newer_words, collector->build, collector->build_words, key, answer);
    printf("  sample of function %" PRIu64 " at depth %" PRIu64 ": ", function, depth);
    if (!is_known("a sample", number, answer[0])) {
        printf("not known, after %" PRIu64 " buckets of both tables\n", answer[1]);
        return;
    }
    /* Key, function and line as they stand in the table; an empty part before, as the library is promised a good one. */
    struct ragansils_part part = { collector->newer, 0 };
    ragansils_part(collector->newer, collector->newer_words, collector->build, collector->build_words, key, &part);
    const uint64_t *table = answer[0] == RAGANSILS_NEWER ? collector->newer : collector->build;
    printf("function %" PRIu64 ", line %" PRIu64 "\n", part.words[1], part.words[2]);
    printf("    it stands in word %td of the %s\n", part.words - table, words_for(answer[0]));
}

/*
 * All frames of a sample, the innermost first, and all from one table: the one in which depth 0 of the address stands. What the build had at
 * a depth that the reloaded code has no more still stands in the build's table. Beside reloaded frames it would name a caller that there is
 * not.
 */
static void answer_with_frames(const struct collector *collector, uint64_t function, uint64_t depth)
{
    uint64_t answer[RAGANSILS_ASKED_WORDS], records[RAGANSILS_CHAIN_WORDS(RAGANSILS_LARGEST_DEPTH)], buckets;
    uint64_t number = ragansils_asked(collector->newer, collector->newer_words, collector->build, collector->build_words,
                                      key_of(function, 0), answer);
    const bool in_newer = answer[0] == RAGANSILS_NEWER;
    if (is_known("a sample", number, answer[0]))
        number = ragansils_chain(in_newer ? collector->newer : collector->build, in_newer ? collector->newer_words : collector->build_words,
                                 address_of(function), depth, records, sizeof records / sizeof *records, &buckets);
    printf("  frames of function %" PRIu64 " from depth %" PRIu64 " down to 0", function, depth);
    if (!is_known("a chain", number, answer[0])) {
        printf(": not known\n");
        return;
    }
    printf(", from the %s:\n", words_for(answer[0]));
    for (uint64_t frame = 0; frame <= depth; frame++) {
        const uint64_t *record = &records[2 * frame];
        printf("    function %" PRIu64 ", line %" PRIu64 "%s\n", record[0], record[1], frame < depth ? ", inlined into" : "");
    }
}

static void answer_samples(const struct collector *collector, const char *when)
{
    printf("%s:\n", when);
    answer_sample(collector, RELOADED_FUNCTION, 0);
    answer_sample(collector, UNCHANGED_FUNCTION, 0);
    answer_sample(collector, NEW_FUNCTION, 0);
    answer_with_frames(collector, RELOADED_FUNCTION, DEPTHS_RELOADED - 1);
    answer_with_frames(collector, RELOADED_FUNCTION, DEPTHS_IN_BUILD - 1);
}

/* ---- what is written, to the newer table alone ---- */

static void make(struct collector *collector, const char *what, uint64_t number, const uint64_t *list, uint64_t stores)
{
    must(what, number);
    must("make", ragansils_make(collector->newer, collector->newer_words, list, RAGANSILS_LIST_WORDS, stores));
}

/* A position comes in, or takes the place of the one that is there. That the build has the key too does not matter. */
static void learn(struct collector *collector, uint64_t key, uint64_t function, uint64_t place)
{
    uint64_t list[RAGANSILS_LIST_WORDS], stores;
    uint64_t number = ragansils_insert(collector->newer, collector->newer_words, key, function, place, list, RAGANSILS_LIST_WORDS, &stores);
    if (number == RAGANSILS_KEY_PRESENT)
        number = ragansils_update(collector->newer, collector->newer_words, key, function, place, list, RAGANSILS_LIST_WORDS, &stores);
    make(collector, "a reload", number, list, stores);
}

static void load_function(struct collector *collector, uint64_t function)
{
    for (uint64_t depth = 0; depth < DEPTHS_RELOADED; depth++)
        learn(collector, key_of(function, depth), function + 100 * depth, 100 * function + 7 * depth + 50);
}

/* Then the build's record is seen again, where it has one. */
static void drop_function(struct collector *collector, uint64_t function)
{
    uint64_t list[RAGANSILS_LIST_WORDS], stores;
    for (uint64_t depth = 0; depth < DEPTHS_RELOADED; depth++) {
        uint64_t number = ragansils_delete(collector->newer, collector->newer_words, key_of(function, depth), list, RAGANSILS_LIST_WORDS, &stores);
        make(collector, "a drop", number, list, stores);
    }
}

/* ---- where the tables stand ---- */

static uint64_t *map_words(int file, size_t words, int protection, const char *path)
{
    void *mapped = mmap(NULL, words * sizeof(uint64_t), protection, MAP_SHARED, file, 0);
    if (mapped == MAP_FAILED)
        complain("cannot map", path);
    return mapped;
}

/* Opens and locks a file, and answers its length in words. Several may read a table; whoever writes has it alone. */
static int open_table(const char *path, int access, int lock, size_t *words)
{
    int file = open(path, access);
    struct stat status;
    if (file < 0 || fstat(file, &status) != 0 || !S_ISREG(status.st_mode) || status.st_size <= 0 || status.st_size % (off_t)sizeof(uint64_t) != 0)
        complain("there is no table of whole words in", path);
    if (flock(file, lock | LOCK_NB) != 0)
        complain("another process has the table in", path);
    *words = (size_t)status.st_size / sizeof(uint64_t);
    return file;
}

/* Nobody can mend this table here. So it must be sound, which recover tells by listing no store; it only reads. */
static void open_build(struct collector *collector, const char *path)
{
    uint64_t list[RAGANSILS_LIST_WORDS], stores;
    int file = open_table(path, O_RDONLY, LOCK_SH, &collector->build_words);
    collector->build = map_words(file, collector->build_words, PROT_READ, path);
    must("the build's table", ragansils_recover(collector->build, collector->build_words, list, RAGANSILS_LIST_WORDS, &stores));
    if (stores != 0)
        complain("a cut change was shipped in", path);
    printf("the build's table has %zu words and is only read\n", collector->build_words);
}

/* A cut in creation is not covered: so the table is made under another name, and gets its own once it is whole. */
static void create_file(const char *path)
{
    size_t words = RAGANSILS_WORDS(NEWER_CAPACITY), length = strlen(path) + sizeof ".new";
    char *new_path = malloc(length);
    if (new_path == NULL)
        complain("no memory for the name of", path);
    snprintf(new_path, length, "%s.new", path);
    int file = open(new_path, O_RDWR | O_CREAT | O_TRUNC, 0666);
    if (file < 0 || ftruncate(file, (off_t)(words * sizeof(uint64_t))) != 0)
        complain("cannot make", new_path);
    uint64_t *table = map_words(file, words, PROT_READ | PROT_WRITE, new_path);
    must("create", ragansils_create(table, words, RAGANSILS_FORM_2, NEWER_CAPACITY, NEWER_CAPACITY, RAGANSILS_MULTIPLIER_1, RAGANSILS_MULTIPLIER_2));
    if (msync(table, words * sizeof(uint64_t), MS_SYNC) != 0 || fsync(file) != 0 || rename(new_path, path) != 0)
        complain("cannot write", path);
    munmap(table, words * sizeof(uint64_t));
    close(file);
    free(new_path);
    printf("made a newer table of %zu words\n", words);
}

static void open_newer(struct collector *collector, const char *path)
{
    uint64_t list[RAGANSILS_LIST_WORDS], stores;
    if (access(path, F_OK) != 0)
        create_file(path);
    int file = open_table(path, O_RDWR, LOCK_EX, &collector->newer_words);
    collector->newer = map_words(file, collector->newer_words, PROT_READ | PROT_WRITE, path);
    uint64_t number = ragansils_recover(collector->newer, collector->newer_words, list, RAGANSILS_LIST_WORDS, &stores);
    make(collector, "the newer table", number, list, stores);
}

int main(int count, char **arguments)
{
    struct collector collector;
    if (count != 3) {
        fprintf(stderr, "usage: reloaded BUILD NEWER\n");
        return 2;
    }
    /* A reader that went away is a write that fails, and no signal. */
    signal(SIGPIPE, SIG_IGN);
    open_build(&collector, arguments[1]);
    open_newer(&collector, arguments[2]);

    answer_samples(&collector, "the build as it was shipped");
    load_function(&collector, RELOADED_FUNCTION);
    load_function(&collector, NEW_FUNCTION);
    answer_samples(&collector, "function 2 is reloaded with one inlined function less, and function 13 is new");
    drop_function(&collector, RELOADED_FUNCTION);
    drop_function(&collector, NEW_FUNCTION);
    answer_samples(&collector, "the reloaded code is dropped");
    if (fflush(stdout) == 0 && !ferror(stdout))
        return 0;
    fprintf(stderr, "reloaded: standard output could not be written\n");
    return 1;
}
