/* What memory an opening and its reopenings ask for, and what stands after each request that is refused. Linked with
 * --wrap=malloc,--wrap=realloc, over the library. For ci/try-c. */
#include "flowdir.h"
#include <stdio.h>
#include <stdlib.h>

void *__real_malloc(size_t), *__real_realloc(void *, size_t);
void *__wrap_malloc(size_t), *__wrap_realloc(void *, size_t);

static size_t asked;
static long requests, refused;
static int failures;

static int is_refused(size_t size) {
    asked += size;
    return ++requests == refused;
}

void *__wrap_malloc(size_t size) { return is_refused(size) ? NULL : __real_malloc(size); }
void *__wrap_realloc(void *old, size_t size) { return is_refused(size) ? NULL : __real_realloc(old, size); }

static void expect(const char *what, uint64_t told, uint64_t wanted) {
    if (told == wanted) return;
    printf("%s: %llu, wanted %llu\n", what, (unsigned long long)told, (unsigned long long)wanted);
    failures++;
}

/* Lists the pairs of a closed table, with no request refused. */
static void list(struct flowdir_table *closed) {
    size_t count = 0;
    refused = 0;
    expect("count", flowdir_list(closed, &count), FLOWDIR_OK);
    expect("three pairs", count, 3);
}

/* Closes a table, one of whose seats was taken and given back, and lists its pairs. */
static void end(struct flowdir_table *table) {
    struct flowdir_seat seat = {0};
    refused = 0;
    expect("sit", flowdir_sit(table, &seat), FLOWDIR_OK);
    expect("rise", flowdir_rise(table, &seat), FLOWDIR_OK);
    expect("close", flowdir_close(table), FLOWDIR_OK);
    list(table);
}

/* A closed table, after so many reopenings. */
static struct flowdir_table closed_after(const struct flowdir_options *options, int reopenings) {
    struct flowdir_pair pairs[3] = {{{1, 0, 0, 0, 0}, 1, 0}, {{2, 0, 0, 0, 0}, 2, 0}, {{3, 0, 0, 0, 0}, 3, 0}};
    struct flowdir_table table = {0};
    refused = 0;
    expect("open", flowdir_open(options, pairs, 3, &table), FLOWDIR_OK);
    end(&table);
    for (int i = 0; i < reopenings; i++) {
        struct flowdir_table next = {0};
        expect("reopen", flowdir_reopen(options, &table, &next), FLOWDIR_OK);
        flowdir_free(&table);
        table = next;
        end(&table);
    }
    return table;
}

/* How many bytes a reopening of a closed table asks for. The closed one and the next are given up, if there is one. */
static size_t bytes_of(const struct flowdir_options *options, struct flowdir_table *closed) {
    struct flowdir_table next = {0};
    asked = 0;
    expect("reopen", flowdir_reopen(options, closed, &next), FLOWDIR_OK);
    size_t bytes = asked;
    flowdir_free(&next);
    flowdir_free(closed);
    return bytes;
}

/* What an opening lays its first pairs out in. For each class of keys there are two places of 104 bytes, for a bucket
 * before and after it is filled; the bucket's room, with 56 bytes for each item and 8 and 24 for each seat's last update
 * and its reply; a count of 4 bytes; and two numbers of 8 bytes in directories. */
static size_t layout_of(const struct flowdir_options *options) {
    return ((size_t)56 * options->items + 32 * options->seats + 2 * 104 + 4 + 2 * 8) << options->depth;
}

/* A reopening asks for these bytes, and beside them for the room of each seat, the table itself and three pairs. */
static void expect_bytes(const char *what, size_t bytes, size_t wanted, const struct flowdir_options *options) {
    if (bytes >= wanted && bytes < wanted + (size_t)240000 * options->seats) return;
    printf("%s: %zu bytes, wanted %zu and little beside them\n", what, bytes, wanted);
    failures++;
}

/* The words are made twice by the first reopening, and once by each further one, also after one that failed. The layout
 * is made by the first one alone, and where the settings change. */
static void words_are_kept(const struct flowdir_options *options) {
    struct flowdir_options narrow = *options;
    narrow.items = 1, narrow.depth = 0, narrow.start = 0;
    struct flowdir_table first = closed_after(options, 0), second = closed_after(options, 1);
    struct flowdir_table third = closed_after(options, 2), failed = closed_after(options, 2), none = {0};
    size_t words = flowdir_memory(options), layout = layout_of(options);
    expect_bytes("the first", bytes_of(options, &first), words + layout, options);
    expect_bytes("the second", bytes_of(options, &second), words / 2, options);
    expect_bytes("the third", bytes_of(options, &third), words / 2, options);
    expect("three keys for one", flowdir_reopen(&narrow, &failed, &none), FLOWDIR_NO_ROOM);
    expect("no table", none.at != NULL, 0);
    expect_bytes("after a failure", bytes_of(options, &failed), words / 2 + layout, options);
}

/* Each request of a reopening that is refused is told, and the next try finds all as it was. */
static void refusals_are_told(const struct flowdir_options *options, int reopenings) {
    uint32_t told = FLOWDIR_MEMORY;
    for (long which = 1; told == FLOWDIR_MEMORY; which++) {
        struct flowdir_table table = closed_after(options, reopenings), next = {0};
        requests = 0, refused = which;
        told = flowdir_reopen(options, &table, &next);
        expect("a refusal is told", told == FLOWDIR_MEMORY, requests >= which);
        expect("no table", next.at != NULL, told == FLOWDIR_OK);
        list(&table);
        if (told != FLOWDIR_OK) expect("reopen then", flowdir_reopen(options, &table, &next), FLOWDIR_OK);
        flowdir_free(&next);
        flowdir_free(&table);
    }
    expect("reopened at last", told, FLOWDIR_OK);
}

/* These settings, with the rows of 200 updates of 64 keys. */
static struct flowdir_options options_of(uint32_t seats, uint32_t items, uint32_t depth, uint32_t start) {
    struct flowdir_options options = {.seats = seats, .items = items, .depth = depth, .start = start, .seed = 1};
    expect("rows", flowdir_rows_by(&options, 200, 64, &options.rows), FLOWDIR_OK);
    return options;
}

int main(void) {
    struct flowdir_options usual = options_of(2, 8, 10, 0), deep = options_of(1, 3, 12, 12);
    struct flowdir_options most = options_of(8, 16, 12, 3), small = options_of(2, 8, 3, 0);
    words_are_kept(&usual);
    words_are_kept(&deep);
    words_are_kept(&most);
    refusals_are_told(&small, 0);
    refusals_are_told(&small, 2);
    printf("%s\n", failures ? "WRONG" : "words are kept, and each refusal is told");
    return failures != 0;
}
