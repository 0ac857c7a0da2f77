/* An exporter that closes its books every interval: threads count the bytes of their flows, the table is closed, its
 * pairs are exported, and the next table is opened with them, in memory that is kept from the second opening on. Each
 * reply and each export is compared with plain counts. Arguments: threads, 1 to 8; intervals; calls of each thread in
 * an interval. */
#include "flowdir.h"
#include <pthread.h>
#include <stdio.h>
#include <stdlib.h>

enum { FLOWS = 256 };

/* What is counted of a flow. One thread alone makes calls on it. */
struct flow {
    int is_held;
    uint64_t bytes;
};

struct worker {
    pthread_t thread;
    struct flowdir_seat seat;
    struct flow *flows;
    uint64_t number, threads, calls, drawn;
    int failed;
};

static uint64_t draw(uint64_t *drawn) {
    uint64_t z = *drawn += 0x9e3779b97f4a7c15u;
    z = (z ^ (z >> 30)) * 0xbf58476d1ce4e5b9u;
    z = (z ^ (z >> 27)) * 0x94d049bb133111ebu;
    return z ^ (z >> 31);
}

static struct flowdir_key key_of(uint64_t flow) {
    struct flowdir_key key = {0x20010db800000000u, flow, 0x20010db800000001u, 1, (40000 + flow) << 24 | 443 << 8 | 6};
    return key;
}

/* A packet of a flow: one in sixteen of a flow that is held ends it, and each other one is counted, by one call that
 * begins the flow or adds to its bytes. Whether the reply is as it should be. */
static int count_packet(struct worker *me, uint64_t number, uint64_t drawn) {
    struct flow *flow = &me->flows[number];
    struct flowdir_key key = key_of(number);
    struct flowdir_reply reply;
    if (flow->is_held && drawn % 16 == 0) {
        flow->is_held = 0;
        return flowdir_remove(&me->seat, &key, &reply) == FLOWDIR_OK && reply.kind == FLOWDIR_GONE
            && reply.value == number * 7;
    }
    int was_held = flow->is_held;
    *flow = (struct flow){1, (was_held ? flow->bytes : 0) + drawn % 1500};
    return flowdir_count(&me->seat, &key, number * 7, drawn % 1500, &reply) == FLOWDIR_OK
        && (was_held ? reply.kind == FLOWDIR_SUM && reply.value == flow->bytes : reply.kind == FLOWDIR_NEW);
}

static void *count_packets(void *of) {
    struct worker *me = of;
    for (uint64_t i = 0; i < me->calls && !me->failed; i++) {
        uint64_t drawn = draw(&me->drawn), mine = (FLOWS - me->number + me->threads - 1) / me->threads;
        me->failed = !count_packet(me, (drawn >> 32) % mine * me->threads + me->number, drawn);
    }
    return NULL;
}

/* One interval: each thread takes a seat, counts, and gives it back. Whether all went well. */
static int count_interval(struct flowdir_table *table, struct worker *workers, uint32_t threads) {
    int right = 1;
    for (uint32_t i = 0; i < threads; i++)
        if (flowdir_sit(table, &workers[i].seat) != FLOWDIR_OK) return 0;
    for (uint32_t i = 0; i < threads; i++)
        if (pthread_create(&workers[i].thread, NULL, count_packets, &workers[i])) return 0;
    for (uint32_t i = 0; i < threads; i++) {
        pthread_join(workers[i].thread, NULL);
        right &= !workers[i].failed && flowdir_rise(table, &workers[i].seat) == FLOWDIR_OK;
    }
    return right;
}

/* Tells the pairs of a closed table, in the order of their keys. Whether they are those that were counted. */
static int export_pairs(struct flowdir_table *closed, const struct flow *flows, uint64_t *bytes) {
    size_t count = 0, at = 0;
    if (flowdir_list(closed, &count) != FLOWDIR_OK) return 0;
    *bytes = 0;
    for (uint64_t flow = 0; flow < FLOWS; flow++) {
        struct flowdir_pair pair;
        if (!flows[flow].is_held) continue;
        if (flowdir_pair_at(closed, at++, &pair) != FLOWDIR_OK || pair.key.k1 != flow || pair.value != flow * 7
            || pair.bytes != flows[flow].bytes) return 0;
        *bytes += pair.bytes;
    }
    return at == count;
}

/* All intervals, one after the other. Whether each is as it should be. */
static int count_all(const struct flowdir_options *options, struct worker *workers, uint64_t intervals,
                     struct flowdir_table *table) {
    for (uint64_t interval = 0; interval < intervals; interval++) {
        struct flowdir_table next = {0};
        uint64_t bytes = 0;
        if (!count_interval(table, workers, options->seats) || flowdir_close(table) != FLOWDIR_OK
            || !export_pairs(table, workers->flows, &bytes)) return 0;
        printf("interval %llu: %llu bytes of the flows that are held\n", (unsigned long long)interval,
               (unsigned long long)bytes);
        if (flowdir_reopen(options, table, &next) != FLOWDIR_OK) return 0;
        flowdir_free(table);
        *table = next;
    }
    return 1;
}

int main(int argc, char **argv) {
    uint32_t threads = argc > 1 ? (uint32_t)atoi(argv[1]) : 4;
    uint64_t intervals = argc > 2 ? (uint64_t)atoll(argv[2]) : 10, calls = argc > 3 ? (uint64_t)atoll(argv[3]) : 10000;
    static struct flow flows[FLOWS];
    struct flowdir_options options = {.seats = threads, .items = 8, .depth = 10, .start = 0, .seed = 1};
    struct flowdir_table table = {0};
    if (flowdir_rows_by(&options, (uint32_t)calls, FLOWS, &options.rows) != FLOWDIR_OK) return 2;
    if (flowdir_open(&options, NULL, 0, &table) != FLOWDIR_OK) return 1;
    struct worker *workers = calloc(threads, sizeof *workers);
    if (!workers) return 1;
    for (uint32_t i = 0; i < threads; i++)
        workers[i] = (struct worker){.flows = flows, .number = i, .threads = threads, .calls = calls, .drawn = i};
    int right = count_all(&options, workers, intervals, &table);
    flowdir_free(&table);
    free(workers);
    puts(right ? "each interval is as it should be" : "WRONG");
    return !right;
}
