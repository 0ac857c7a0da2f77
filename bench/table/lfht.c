// Lookups of 256 flows by 1, 2 and 4 threads in liburcu's lock-free hash table.
#include <pthread.h>
#include <sched.h>
#include <stdatomic.h>
#include <stdint.h>
#include <stdio.h>
#include <stdlib.h>
#include <string.h>
#include <time.h>
#include <urcu.h>
#include <urcu/rculfhash.h>

struct entry {
    struct cds_lfht_node node;
    uint64_t key[5], value;
};

struct caller {
    pthread_t thread;
    uint64_t number, callers, count, from, to;
};

static struct cds_lfht *table;
static atomic_ulong arrivals;

static uint64_t spread(uint64_t z) {
    z = (z ^ (z >> 30)) * 0xbf58476d1ce4e5b9u;
    z = (z ^ (z >> 27)) * 0x94d049bb133111ebu;
    return z ^ (z >> 31);
}

static struct entry key(uint64_t flow) {
    uint64_t port = flow < 64 ? 53 : 443, protocol = flow < 64 ? 17 : 6;
    struct entry made = {
        .key = {0, 0x0a010000 + flow, 0, 0x0a020001, (40000 + flow) << 24 | port << 8 | protocol},
    };
    return made;
}

static uint64_t hash(const struct entry *entry) {
    uint64_t mixed = 0;
    for (int i = 0; i < 5; i++) mixed = spread(mixed ^ entry->key[i]);
    return mixed;
}

static int same(struct cds_lfht_node *node, const void *wanted) {
    const struct entry *a = caa_container_of(node, struct entry, node), *b = wanted;
    return memcmp(a->key, b->key, sizeof a->key) == 0;
}

static uint64_t now(void) {
    struct timespec time;
    clock_gettime(CLOCK_MONOTONIC, &time);
    return (uint64_t)time.tv_sec * 1000000000u + (uint64_t)time.tv_nsec;
}

static void *look(void *of) {
    struct caller *caller = of;
    struct entry *keys = malloc(2048 * sizeof *keys);
    for (uint64_t i = 0; i < 2048; i++) keys[i] = key(spread(i + 2048 * caller->number) % 256);
    rcu_register_thread();
    atomic_fetch_add(&arrivals, 1);
    while (atomic_load(&arrivals) < caller->callers) sched_yield();
    uint64_t found = 0;
    caller->from = now();
    for (uint64_t i = 0; i < caller->count; i++) {
        struct cds_lfht_iter place;
        const struct entry *wanted = &keys[i % 2048];
        rcu_read_lock();
        cds_lfht_lookup(table, hash(wanted), same, wanted, &place);
        found += cds_lfht_iter_get_node(&place) != NULL;
        rcu_read_unlock();
    }
    caller->to = now();
    rcu_unregister_thread();
    free(keys);
    if (found != caller->count) abort();
    return NULL;
}

int main(void) {
    rcu_register_thread();
    table = cds_lfht_new(256, 256, 0, CDS_LFHT_AUTO_RESIZE | CDS_LFHT_ACCOUNTING, NULL);
    for (uint64_t flow = 0; flow < 256; flow++) {
        struct entry *entry = malloc(sizeof *entry);
        *entry = key(flow);
        rcu_read_lock();
        cds_lfht_add(table, hash(entry), &entry->node);
        rcu_read_unlock();
    }
    for (uint64_t callers = 1; callers <= 4; callers *= 2) {
        struct caller all[4];
        uint64_t from = UINT64_MAX, to = 0;
        atomic_store(&arrivals, 0);
        for (uint64_t i = 0; i < callers; i++) {
            all[i] = (struct caller){.number = i, .callers = callers, .count = 100000};
            pthread_create(&all[i].thread, NULL, look, &all[i]);
        }
        for (uint64_t i = 0; i < callers; i++) {
            pthread_join(all[i].thread, NULL);
            if (all[i].from < from) from = all[i].from;
            if (all[i].to > to) to = all[i].to;
        }
        printf("lfht %lu %lu %lu\n", callers, callers * 100000, to - from);
    }
    return 0;
}
