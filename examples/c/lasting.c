/* Threads that never meet, on a table that lasts. Each writer keeps keys of its own and knows what they hold, so each of
 * its replies is told beforehand; all of them count one key together. Readers peek and a walker copies buckets meanwhile.
 * A writer gives its seat back now and then, and takes one again. Arguments: writers, 1 to 8; readers; updates of each
 * writer; depth, 0 to 12; 1 if the rows of each seat shall be used a thousand times at least, however many updates that
 * takes. */
#include "flowdir.h"
#include <pthread.h>
#include <stdatomic.h>
#include <stdio.h>
#include <stdlib.h>

enum { OWN = 16, MOST_ITEMS = 16, SHARED = 1000, TURNS = 64 };

struct worker {
    pthread_t thread;
    uint64_t number, updates, held[OWN], bytes[OWN], added, again;
    int there[OWN], failed;
    struct flowdir_lasting_seat seat;
    struct flowdir_lasting_reader reader;
} __attribute__((aligned(128)));

static struct flowdir_lasting table;
static pthread_mutex_t sitting = PTHREAD_MUTEX_INITIALIZER; /* sit and rise: one thread at a time for a table */
static struct flowdir_lasting_options options;
static atomic_int writing;

static uint64_t spread(uint64_t z) {
    z = (z ^ (z >> 30)) * 0xbf58476d1ce4e5b9u;
    z = (z ^ (z >> 27)) * 0x94d049bb133111ebu;
    return z ^ (z >> 31);
}

/* The key of a writer's flow; its number is told by two words, so that a copy of a bucket shows whose it is. */
static struct flowdir_key key_of(uint64_t owner, uint64_t flow) {
    struct flowdir_key key = {0x20010db800000000u, owner, 0x20010db800000001u, flow, (40000 + flow) << 24 | 443 << 8 | 6};
    return key;
}

static int fail(struct worker *me, const char *what) {
    if (!me->failed) printf("thread %llu: %s\n", (unsigned long long)me->number, what);
    return me->failed = 1;
}

/* One update of a key of its own: which reply it has to have is known. NOROOM leaves all as it was. */
static void update_own(struct worker *me, uint64_t draw) {
    uint64_t flow = draw % OWN, value = (draw >> 8) % 1000000, bytes = (draw >> 40) % 1461;
    struct flowdir_key key = key_of(me->number, flow);
    struct flowdir_reply reply = {99, 99, 99};
    int what = (draw >> 32) % 6, there = me->there[flow];
    uint32_t status = what == 0   ? flowdir_lasting_insert(&me->seat, &key, value, &reply)
                      : what == 1 ? flowdir_lasting_remove(&me->seat, &key, &reply)
                      : what == 2 ? flowdir_lasting_tally(&me->seat, &key, bytes, &reply)
                      : what == 3 ? flowdir_lasting_count(&me->seat, &key, value, bytes, &reply)
                      : what == 4 ? flowdir_lasting_put(&me->seat, &key, value, &reply)
                                  : flowdir_lasting_lookup(&me->seat, &key, &reply);
    if (status != FLOWDIR_OK) {
        fail(me, "a status that is not OK");
        return;
    }
    uint64_t kind = FLOWDIR_ABSENT, number = 0;
    if (what == 5) {
        if (there) kind = FLOWDIR_FOUND, number = me->held[flow];
    } else if (what == 1) {
        if (there) kind = FLOWDIR_GONE, number = me->held[flow];
        me->there[flow] = 0;
    } else if (what == 2 || (what == 3 && there)) {
        if (there) kind = FLOWDIR_SUM, number = me->bytes[flow] += bytes;
    } else if (there) {
        kind = FLOWDIR_OLD, number = me->held[flow];
        if (what == 4) me->held[flow] = value;
    } else if (reply.kind == FLOWDIR_NOROOM) {
        kind = FLOWDIR_NOROOM;
    } else {
        kind = FLOWDIR_NEW;
        me->there[flow] = 1;
        me->held[flow] = value;
        me->bytes[flow] = what == 3 ? bytes : 0;
    }
    if (reply.kind != kind || reply.value != number) fail(me, "a reply that is not that of its own keys");
}

static void *write_calls(void *of) {
    struct worker *me = of;
    struct flowdir_key shared = key_of(SHARED, 0);
    for (uint64_t i = 0; i < me->updates && !me->failed; i++) {
        uint64_t draw = spread((me->number << 40) + i);
        if (draw % TURNS == 0) { /* the seat goes back, and perhaps another one is taken */
            pthread_mutex_lock(&sitting);
            if (flowdir_lasting_rise(&table, &me->seat) != FLOWDIR_OK || me->seat.at) fail(me, "rise");
            if (flowdir_lasting_sit(&table, &me->seat) != FLOWDIR_OK || !me->seat.at) fail(me, "sit");
            pthread_mutex_unlock(&sitting);
        }
        if (draw % 8 == 1) {
            struct flowdir_reply reply;
            if (flowdir_lasting_tally(&me->seat, &shared, draw >> 54, &reply) != FLOWDIR_OK
                || reply.kind != FLOWDIR_SUM) fail(me, "the key of all");
            me->added += draw >> 54;
        } else update_own(me, draw);
    }
    atomic_fetch_sub(&writing, 1);
    return NULL;
}

static void *peek_calls(void *of) {
    struct worker *me = of;
    struct flowdir_key shared = key_of(SHARED, 0);
    uint64_t calls = 0;
    while (atomic_load(&writing) > 0 && !me->failed) {
        struct flowdir_reply reply;
        uint32_t status = flowdir_lasting_peek(&me->reader, &shared, 4, &reply);
        if (status == FLOWDIR_AGAIN) me->again++;
        else if (status != FLOWDIR_OK || reply.kind != FLOWDIR_FOUND || reply.value != 7) fail(me, "a peek");
        calls++;
    }
    me->updates = calls;
    return NULL;
}

/* All pairs, bucket by bucket, while no seat is out: exactly what the writers hold. */
static int compare(struct worker *workers, uint32_t writers) {
    static struct flowdir_pair pairs[MOST_ITEMS];
    size_t count, found = 0, expected = 1;
    int wrong = 0;
    uint64_t added = 0;
    for (uint32_t w = 0; w < writers; w++) {
        for (int flow = 0; flow < OWN; flow++) expected += workers[w].there[flow] != 0;
        added += workers[w].added;
    }
    for (uint64_t bucket = 0; bucket < 1ull << options.depth; bucket++) {
        if (flowdir_lasting_at_rest(&table, bucket, pairs, MOST_ITEMS, &count) != FLOWDIR_OK) return 1;
        for (size_t i = 0; i < count; i++, found++) {
            uint64_t owner = pairs[i].key.k1, flow = pairs[i].key.k3;
            if (owner == SHARED) wrong |= pairs[i].value != 7 || pairs[i].bytes != added;
            else wrong |= owner >= writers || flow >= OWN || !workers[owner].there[flow]
                          || pairs[i].value != workers[owner].held[flow] || pairs[i].bytes != workers[owner].bytes[flow];
        }
    }
    return wrong || found != expected;
}

int main(int argc, char **argv) {
    uint32_t writers = argc > 1 ? (uint32_t)atoi(argv[1]) : 4, readers = argc > 2 ? (uint32_t)atoi(argv[2]) : 2;
    uint64_t updates = argc > 3 ? (uint64_t)atoll(argv[3]) : 100000;
    uint32_t depth = argc > 4 ? (uint32_t)atoi(argv[4]) : 6;
    if (writers > 8) return 2;
    options = (struct flowdir_lasting_options){.seats = writers, .items = 16, .depth = depth, .seed = 1};
    uint64_t rows = 2 * ((1ull << depth) + writers) + 1;
    if (argc > 5 && updates < 1200 * rows) updates = 1200 * rows;
    struct flowdir_pair first = {key_of(SHARED, 0), 7, 0};
    uint32_t status = flowdir_lasting_open(&options, &first, 1, &table);
    if (status != FLOWDIR_OK) {
        fprintf(stderr, "open: status %u\n", status);
        return 1;
    }
    struct worker *all = aligned_alloc(128, sizeof *all * (writers + readers));
    if (!all) return 1;
    for (uint32_t i = 0; i < writers + readers; i++) {
        all[i] = (struct worker){.number = i, .updates = updates};
        status = i < writers ? flowdir_lasting_sit(&table, &all[i].seat) : flowdir_lasting_read(&table, &all[i].reader);
        if (status != FLOWDIR_OK) return 1;
    }
    atomic_store(&writing, (int)writers);
    for (uint32_t i = 0; i < writers + readers; i++)
        if (pthread_create(&all[i].thread, NULL, i < writers ? write_calls : peek_calls, &all[i])) return 1;
    int wrong = 0;
    uint64_t peeks = 0, again = 0;
    for (uint32_t i = 0; i < writers + readers; i++) pthread_join(all[i].thread, NULL);
    for (uint32_t i = 0; i < writers + readers; i++) {
        wrong |= all[i].failed;
        if (i < writers) wrong |= flowdir_lasting_rise(&table, &all[i].seat) != FLOWDIR_OK;
        else flowdir_lasting_leave(&all[i].reader), peeks += all[i].updates, again += all[i].again;
    }
    wrong |= compare(all, writers);
    flowdir_lasting_free(&table);
    free(all);
    printf("%u writers, %u readers, %llu updates each on %llu rows: %llu peeks, %llu again; %s\n", writers, readers,
           (unsigned long long)updates, (unsigned long long)rows, (unsigned long long)peeks, (unsigned long long)again,
           wrong ? "WRONG" : "as told");
    return wrong;
}
