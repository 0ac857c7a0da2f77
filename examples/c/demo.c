/* Opens a table with one pair, lets threads make calls on it while others peek, closes it, and compares what is left
 * with what they were told. Arguments: threads that write, 1 to 8; threads that peek; calls of each. */
#include "flowdir.h"
#include <pthread.h>
#include <stdio.h>
#include <stdlib.h>

enum { FLOWS = 256 };

struct worker {
    pthread_t thread;
    uint64_t number, calls;
    struct flowdir_seat seat;
    struct flowdir_reader reader;
    uint64_t kinds[7], full, most;
    int64_t held[FLOWS];  /* inserts less removes of each flow */
    int failed;
};

static uint64_t spread(uint64_t z) {
    z = (z ^ (z >> 30)) * 0xbf58476d1ce4e5b9u;
    z = (z ^ (z >> 27)) * 0x94d049bb133111ebu;
    return z ^ (z >> 31);
}

static struct flowdir_key key_of(uint64_t flow) {
    struct flowdir_key key = {0x20010db800000000u, flow, 0x20010db800000001u, 1, (40000 + flow) << 24 | 443 << 8 | 6};
    return key;
}

/* Each value is one of two: inserts and counts bring the first, and puts the second. */
static int is_value(uint64_t flow, uint64_t value) { return value == flow * 7 || value == flow * 7 + 1; }

static void *write_calls(void *of) {
    struct worker *me = of;
    for (uint64_t i = 0; i < me->calls && !me->failed; i++) {
        uint64_t draw = spread((me->number << 32) + i), flow = draw % FLOWS;
        struct flowdir_key key = key_of(flow);
        struct flowdir_reply reply;
        uint64_t what = (draw >> 32) % 8, bytes = draw >> 40;
        uint32_t status = what == 0   ? flowdir_insert(&me->seat, &key, flow * 7, &reply)
                          : what == 1 ? flowdir_remove(&me->seat, &key, &reply)
                          : what == 2 ? flowdir_tally(&me->seat, &key, bytes, &reply)
                          : what == 3 ? flowdir_count(&me->seat, &key, flow * 7, bytes, &reply)
                          : what == 4 ? flowdir_put(&me->seat, &key, flow * 7 + 1, &reply)
                                      : flowdir_lookup(&me->seat, &key, &reply);
        if (status == FLOWDIR_FULL) {
            me->full++;
            continue;
        }
        if (status != FLOWDIR_OK || reply.kind > FLOWDIR_SUM) {
            me->failed = 1;
            break;
        }
        if (reply.kind == FLOWDIR_SUM) {
            if ((what != 2 && what != 3) || reply.value < bytes) me->failed = 1;
        } else if (reply.kind == FLOWDIR_OLD || reply.kind == FLOWDIR_GONE || reply.kind == FLOWDIR_FOUND) {
            if (!is_value(flow, reply.value)) me->failed = 1;
        } else if (reply.value != 0) me->failed = 1;
        me->kinds[reply.kind]++;
        me->held[flow] += (reply.kind == FLOWDIR_NEW) - (reply.kind == FLOWDIR_GONE);
        if (reply.steps > me->most) me->most = reply.steps;
    }
    return NULL;
}

static void *peek_calls(void *of) {
    struct worker *me = of;
    for (uint64_t i = 0; i < me->calls && !me->failed; i++) {
        uint64_t flow = spread((me->number << 32) + i) % FLOWS;
        struct flowdir_key key = key_of(flow);
        struct flowdir_reply reply;
        if (flowdir_peek(&me->reader, &key, &reply) != FLOWDIR_OK
            || (reply.kind != FLOWDIR_FOUND && reply.kind != FLOWDIR_ABSENT)
            || (reply.kind == FLOWDIR_FOUND && !is_value(flow, reply.value))) me->failed = 1;
        else me->kinds[reply.kind]++;
    }
    return NULL;
}

int main(int argc, char **argv) {
    uint32_t writers = argc > 1 ? (uint32_t)atoi(argv[1]) : 4, peekers = argc > 2 ? (uint32_t)atoi(argv[2]) : 4;
    uint64_t calls = argc > 3 ? (uint64_t)atoll(argv[3]) : 100000;
    struct flowdir_options options = {.seats = writers, .items = 8, .depth = 10, .start = 0, .seed = 1};
    if (flowdir_rows_for(&options, (uint32_t)calls, &options.rows) != FLOWDIR_OK) return 2;
    struct flowdir_table table = {0};
    struct flowdir_pair first = {key_of(3), 21, 0};
    uint32_t status = flowdir_open(&options, &first, 1, &table);
    if (status != FLOWDIR_OK) {
        fprintf(stderr, "open: status %u\n", status);
        return 1;
    }
    struct worker *all = calloc(writers + peekers, sizeof *all);
    if (!all) return 1;
    for (uint32_t i = 0; i < writers + peekers; i++) {
        all[i].number = i;
        all[i].calls = calls;
        status = i < writers ? flowdir_sit(&table, &all[i].seat) : flowdir_read(&table, &all[i].reader);
        if (status != FLOWDIR_OK) return 1;
    }
    for (uint32_t i = 0; i < writers + peekers; i++)
        if (pthread_create(&all[i].thread, NULL, i < writers ? write_calls : peek_calls, &all[i])) return 1;
    int wrong = 0;
    int64_t held[FLOWS] = {0};
    held[3] = 1;
    uint64_t bound = flowdir_bound(&options);
    for (uint32_t i = 0; i < writers + peekers; i++) {
        pthread_join(all[i].thread, NULL);
        struct worker *w = &all[i];
        wrong |= w->failed || w->most > bound || w->full > 0;
        for (int flow = 0; flow < FLOWS; flow++) held[flow] += w->held[flow];
        if (i < writers) flowdir_rise(&table, &w->seat);
        else flowdir_leave(&w->reader);
    }
    status = flowdir_close(&table);
    size_t count = 0, expected = 0;
    if (status != FLOWDIR_OK || flowdir_list(&table, &count) != FLOWDIR_OK) return 1;
    for (int flow = 0; flow < FLOWS; flow++) {
        wrong |= held[flow] < 0 || held[flow] > 1;
        expected += held[flow] > 0;
    }
    wrong |= count != expected;
    for (size_t at = 0; at < count; at++) {
        struct flowdir_pair pair;
        if (flowdir_pair_at(&table, at, &pair) != FLOWDIR_OK || pair.key.k1 >= FLOWS || !held[pair.key.k1]
            || !is_value(pair.key.k1, pair.value)) wrong = 1;
    }
    flowdir_free(&table);
    free(all);
    printf("%u writers, %u readers, %llu calls each: %zu pairs left, %s\n", writers, peekers,
           (unsigned long long)calls, count, wrong ? "WRONG" : "as told");
    return wrong;
}
