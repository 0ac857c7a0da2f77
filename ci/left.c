/* Threads that end for good in the middle of a call on a lasting table. Seven of eight callers are stopped one after
 * the other, wherever they are, and never go on. The eighth makes its calls meanwhile and behind, and each reply is
 * told beforehand. For ci/try-c. */
#define _GNU_SOURCE
#include "flowdir.h"
#include <pthread.h>
#include <signal.h>
#include <stdatomic.h>
#include <stdio.h>
#include <stdlib.h>
#include <time.h>
#include <unistd.h>

enum { SEATS = 8, TABLES = 12, KEYS = 8, CALLS = 4000 };

static struct flowdir_lasting table;
static struct flowdir_lasting_seat seats[SEATS];
static atomic_int left;

static void stop(int signal) {
    (void)signal;
    atomic_fetch_add(&left, 1);
    for (;;) pause();
}

/* Counts keys that all count, and gives and takes keys of its own, without an end. */
static void *work(void *of) {
    struct flowdir_lasting_seat *seat = of;
    uint64_t own = 1000 + (uint64_t)(seat - seats);
    struct flowdir_reply reply;
    for (uint64_t i = 0;; i++) {
        struct flowdir_key shared = {i % 3, 0, 0, 0, 0}, mine = {own, 0, 0, 0, 0};
        if (flowdir_lasting_count(seat, &shared, 1, 1, &reply) != FLOWDIR_OK) abort();
        if (flowdir_lasting_put(seat, &mine, i, &reply) != FLOWDIR_OK) abort();
        if (flowdir_lasting_remove(seat, &mine, &reply) != FLOWDIR_OK) abort();
    }
    return NULL;
}

static int is(uint32_t status, const struct flowdir_reply *reply, uint64_t kind, uint64_t value) {
    return status == FLOWDIR_OK && reply->kind == kind && reply->value == value;
}

/* The calls of the one that goes on: its keys hold what it gave them. */
static int goes_on(uint64_t sums[KEYS]) {
    struct flowdir_reply reply = {0};
    for (uint64_t i = 0; i < CALLS; i++) {
        struct flowdir_key key = {100 + i % KEYS, 0, 0, 0, 0};
        uint32_t status = flowdir_lasting_count(&seats[0], &key, 7, i, &reply);
        uint64_t *sum = &sums[i % KEYS];
        int is_new = *sum == UINT64_MAX;
        if (is_new) *sum = 0;
        *sum += i;
        if (!is(status, &reply, is_new ? FLOWDIR_NEW : FLOWDIR_SUM, is_new ? 0 : *sum)) return 0;
        if (!is(flowdir_lasting_lookup(&seats[0], &key, &reply), &reply, FLOWDIR_FOUND, 7)) return 0;
    }
    return 1;
}

/* One table, of whose callers seven end. The threads stay where they are, and so does the table's memory. */
static int all_but_one_end(uint32_t depth) {
    struct flowdir_lasting_options options = {.seats = SEATS, .items = 16, .depth = depth, .seed = depth};
    if (flowdir_lasting_open(&options, NULL, 0, &table) != FLOWDIR_OK) return 0;
    for (int i = 0; i < SEATS; i++)
        if (flowdir_lasting_sit(&table, &seats[i]) != FLOWDIR_OK) return 0;
    uint64_t sums[KEYS];
    for (int i = 0; i < KEYS; i++) sums[i] = UINT64_MAX;
    pthread_t threads[SEATS];
    for (int i = 1; i < SEATS; i++) pthread_create(&threads[i], NULL, work, &seats[i]);
    for (int i = 1; i < SEATS; i++) {
        struct timespec some = {0, rand() % 300000};
        nanosleep(&some, NULL);
        atomic_store(&left, 0);
        pthread_kill(threads[i], SIGUSR1);
        if (!goes_on(sums)) return 0;
        while (atomic_load(&left) == 0) nanosleep(&some, NULL);
        if (!goes_on(sums)) return 0;
    }
    return 1;
}

int main(void) {
    signal(SIGUSR1, stop);
    for (uint32_t i = 0; i < TABLES; i++) {
        /* (handles are forgotten: what they lead to belongs to threads that never end) */
        table.at = NULL;
        for (int seat = 0; seat < SEATS; seat++) seats[seat].at = NULL;
        if (!all_but_one_end(1 + i % 4)) {
            printf("table %u: WRONG\n", i);
            fflush(stdout);
            _exit(1);
        }
    }
    printf("%d times seven of eight callers ended in a call, and the eighth went on\n", TABLES);
    fflush(stdout);
    _exit(0);
}
