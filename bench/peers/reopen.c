// What an opening and a reopening of a table with 256 pairs take, by its room. In run.sh the part reopen.
//
//   reopen [turns [seats updates]]     the least of so many turns; with seats and updates, of this size alone
//
// "First" is the reopening of a table that was opened, "next" that of one that was reopened. Blocks of memory are kept
// by the C library from one to the next, but where MALLOC_AS_IT_IS is set.
#include <malloc.h>
#include <stdio.h>
#include <stdlib.h>
#include <time.h>
#include "flowdir.h"

enum { FLOWS = 256 };

static uint64_t now(void) {
    struct timespec t;
    clock_gettime(CLOCK_MONOTONIC, &t);
    return (uint64_t)t.tv_sec * 1000000000u + t.tv_nsec;
}

static void need(uint32_t status) {
    if (status != FLOWDIR_OK) abort();
}

static void end(struct flowdir_table *table, uint32_t seats) {
    size_t count = 0;
    for (uint32_t i = 0; i < seats; i++) {
        struct flowdir_seat seat = {0};
        need(flowdir_sit(table, &seat));
        need(flowdir_rise(table, &seat));
    }
    need(flowdir_close(table));
    need(flowdir_list(table, &count));
    if (count != FLOWS) abort();
}

// The time of one reopening, whose table takes the place of the closed one.
static uint64_t reopen(const struct flowdir_options *options, struct flowdir_table *table) {
    struct flowdir_table next = {0};
    end(table, options->seats);
    uint64_t from = now();
    need(flowdir_reopen(options, table, &next));
    uint64_t took = now() - from;
    flowdir_free(table);
    *table = next;
    return took;
}

static void least(uint64_t *so_far, uint64_t took) {
    if (took < *so_far) *so_far = took;
}

static uint64_t words_of(const struct flowdir_options *o) {
    uint64_t row = 5 + 7 * o->items + 2 * o->seats, places = 1u << o->depth;
    return 3 + o->seats * (8 * o->rows.op_rows + row * o->rows.bucket_rows + o->rows.bucket_words
                           + (2 + places) * o->rows.directory_rows);
}

static void measure(const struct flowdir_options *options, const char *rows, uint32_t updates, int turns) {
    static struct flowdir_pair pairs[FLOWS];
    uint64_t open = ~0ull, first = ~0ull, next = ~0ull, all = (uint64_t)options->seats * updates;
    for (uint64_t f = 0; f < FLOWS; f++)
        pairs[f] = (struct flowdir_pair){.key = {(0x0a010000 + f) << 32 | 0x0a020001, (40000 + f) << 24 | 443 << 8 | 6},
                                         .value = 1};
    for (int turn = 0; turn < turns; turn++) {
        struct flowdir_table table = {0};
        uint64_t from = now();
        need(flowdir_open(options, pairs, FLOWS, &table));
        least(&open, now() - from);
        least(&first, reopen(options, &table));
        for (int i = 0; i < 3; i++) least(&next, reopen(options, &table));
        flowdir_free(&table);
    }
    printf("reopen\t%u seats\t%u updates each\t%s\t%.1f MB\topen %.3f ms\tfirst %.3f ms\tnext %.3f ms\t"
           "%.0f, %.0f, %.0f ns an update\n",
           options->seats, updates, rows, words_of(options) * 8 / 1e6, open / 1e6, first / 1e6, next / 1e6,
           (double)open / all, (double)first / all, (double)next / all);
    fflush(stdout);
}

int main(int argc, char **argv) {
    int turns = argc > 1 ? atoi(argv[1]) : 5;
    uint32_t only_seats = argc > 2 ? atoi(argv[2]) : 0, only_updates = argc > 3 ? atoi(argv[3]) : 0;
    static const uint32_t some_seats[] = {1, 4}, some_updates[] = {2048, 50000};
    if (!getenv("MALLOC_AS_IT_IS")) mallopt(M_MMAP_MAX, 0), mallopt(M_TRIM_THRESHOLD, 1 << 30);
    for (int i = 0; i < 2; i++)
        for (int j = 0; j < 2; j++) {
            uint32_t seats = some_seats[i], updates = some_updates[j];
            if ((only_seats && only_seats != seats) || (only_updates && only_updates != updates)) continue;
            struct flowdir_options options = {.seats = seats, .items = 8, .depth = 10, .seed = 1};
            need(flowdir_rows_for(&options, updates, &options.rows));
            measure(&options, "rows for any keys", updates, turns);
            need(flowdir_rows_by(&options, updates, FLOWS, &options.rows));
            measure(&options, "rows for 256 keys", updates, turns);
        }
    return 0;
}
