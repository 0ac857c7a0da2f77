/* A load balancer's flow table: 4 threads, 20,000 flows, one update a packet, and no thread ever meets another. A flow
 * that is new gets a backend, each packet adds its bytes, and one in 64 ends its flow. The same packets are counted on a
 * table that lasts and on one of 64 mutexes. Then one thread is stopped for 300 ms, wherever it is, as often as asked.
 * Arguments: `lasting` or `mutexes`; seconds; stops; items and depth of the lasting table (16 and 12). */
#define _GNU_SOURCE
#include "flowdir.h"
#include <pthread.h>
#include <signal.h>
#include <stdatomic.h>
#include <stdio.h>
#include <stdlib.h>
#include <string.h>
#include <sys/resource.h>
#include <time.h>

enum { THREADS = 4, FLOWS = 20000, BACKENDS = 16, SHARDS = 64, CHAINS = 1024 };

static uint64_t now(void) {
    struct timespec t;
    clock_gettime(CLOCK_MONOTONIC, &t);
    return (uint64_t)t.tv_sec * 1000000000u + (uint64_t)t.tv_nsec;
}

static void rest(uint64_t nanoseconds) {
    struct timespec t = {(time_t)(nanoseconds / 1000000000u), (long)(nanoseconds % 1000000000u)};
    nanosleep(&t, NULL);
}

static uint64_t spread(uint64_t z) {
    z = (z ^ (z >> 30)) * 0xbf58476d1ce4e5b9u;
    z = (z ^ (z >> 27)) * 0x94d049bb133111ebu;
    return z ^ (z >> 31);
}

static struct flowdir_key key_of(uint64_t flow) { /* 10.x.y.z:port to 192.0.2.1:443 by TCP */
    struct flowdir_key key = {0, 0x0a000000u + flow, 0, 0xc0000201u, (1024 + flow % 60000) << 24 | 443 << 8 | 6};
    return key;
}

/* ---- the table that lasts */

static struct flowdir_lasting table;
static struct flowdir_lasting_seat seats[THREADS];

static uint64_t lasting_packet(int me, const struct flowdir_key *key, uint64_t backend, uint64_t bytes, int ends) {
    struct flowdir_reply reply = {FLOWDIR_NOROOM, 0, 0};
    uint32_t status = ends ? flowdir_lasting_remove(&seats[me], key, &reply)
                           : flowdir_lasting_count(&seats[me], key, backend, bytes, &reply);
    if (status != FLOWDIR_OK) abort();
    return reply.kind;
}

/* ---- 64 mutexes, and a chain for each hash */

struct node { struct node *next; struct flowdir_key key; uint64_t value, bytes; };
static struct shard { pthread_mutex_t mutex; struct node *chains[CHAINS]; } __attribute__((aligned(128))) shards[SHARDS];

static uint64_t mutex_packet(int me, const struct flowdir_key *key, uint64_t backend, uint64_t bytes, int ends) {
    (void)me;
    uint64_t hash = spread(spread(spread(key->k1 ^ 7) ^ key->k3) ^ key->k4), kind = FLOWDIR_NEW;
    struct shard *shard = &shards[hash % SHARDS];
    pthread_mutex_lock(&shard->mutex);
    struct node **at = &shard->chains[hash >> 54];
    while (*at && memcmp(&(*at)->key, key, sizeof *key)) at = &(*at)->next;
    struct node *node = *at;
    if (node && ends) {
        *at = node->next;
        free(node);
        kind = FLOWDIR_GONE;
    } else if (node) {
        node->bytes += bytes;
        kind = FLOWDIR_SUM;
    } else if (ends) {
        kind = FLOWDIR_ABSENT;
    } else {
        node = malloc(sizeof *node);
        if (!node) abort();
        *node = (struct node){NULL, *key, backend, bytes};
        *at = node;
    }
    pthread_mutex_unlock(&shard->mutex);
    return kind;
}

/* ---- the packets */

static uint64_t (*packet)(int, const struct flowdir_key *, uint64_t, uint64_t, int) = lasting_packet;
static atomic_int is_over, is_stopped;

static struct worker {
    pthread_t thread;
    int number;
    _Atomic uint64_t packets;
    uint64_t longest, kinds[FLOWDIR_SUM + 1], below[65];
} __attribute__((aligned(128))) workers[THREADS];

static void *work(void *of) {
    struct worker *me = of;
    uint64_t draw = spread((uint64_t)me->number + 1), packets = 0;
    while (!atomic_load_explicit(&is_over, memory_order_relaxed)) {
        uint64_t z = spread(draw += 0x9e3779b97f4a7c15u);
        struct flowdir_key key = key_of(z % FLOWS);
        uint64_t from = now();
        uint64_t kind = packet(me->number, &key, z % BACKENDS, (z >> 32) % 1461, (z >> 40) % 64 == 0);
        uint64_t took = now() - from;
        me->kinds[kind]++;
        me->below[took ? 64 - __builtin_clzll(took) : 0]++;
        if (took > me->longest) me->longest = took;
        atomic_store_explicit(&me->packets, ++packets, memory_order_relaxed);
    }
    return NULL;
}

static void stop_here(int signal) {
    (void)signal;
    atomic_store(&is_stopped, 1);
    struct timespec t = {0, 300000000};
    nanosleep(&t, NULL);
    atomic_store(&is_stopped, 0);
}

static uint64_t packets_of_others(void) {
    uint64_t sum = 0;
    for (int i = 1; i < THREADS; i++) sum += atomic_load(&workers[i].packets);
    return sum;
}

/* Stops thread 0 so often, and tells how many packets a second the others made meanwhile. */
static double stop_often(uint64_t stops, uint64_t pause) {
    uint64_t made = 0, lasted = 0;
    for (uint64_t i = 0; i < stops; i++) {
        rest(pause);
        pthread_kill(workers[0].thread, SIGUSR1);
        while (!atomic_load(&is_stopped)) rest(10000);
        uint64_t before = packets_of_others(), from = now();
        while (atomic_load(&is_stopped)) rest(1000000);
        made += packets_of_others() - before, lasted += now() - from;
    }
    return lasted ? (double)made * 1e9 / (double)lasted : 0;
}

/* The least power of two of nanoseconds below which so much of all packets came. */
static double time_below(double share) {
    uint64_t sum = 0, all = 0;
    for (int i = 0; i < THREADS; i++) all += atomic_load(&workers[i].packets);
    for (int k = 0; k <= 64; k++) {
        for (int i = 0; i < THREADS; i++) sum += workers[i].below[k];
        if ((double)sum >= share * (double)all) return (double)(k ? 1ull << k : 1) / 1e3;
    }
    return 0;
}

static int open_table(int argc, char **argv) {
    struct flowdir_lasting_options options = {.seats = THREADS, .items = 16, .depth = 12, .seed = 7};
    if (argc > 4) options.items = (uint32_t)atoi(argv[4]);
    if (argc > 5) options.depth = (uint32_t)atoi(argv[5]);
    uint32_t status = flowdir_lasting_open(&options, NULL, 0, &table);
    for (int i = 0; i < THREADS && status == FLOWDIR_OK; i++) status = flowdir_lasting_sit(&table, &seats[i]);
    if (status == FLOWDIR_OK) printf("words %.1f MB, an update %llu steps at most\n",
                                     (double)flowdir_lasting_memory(&options) / 1e6,
                                     (unsigned long long)flowdir_lasting_bound(&options));
    return status != FLOWDIR_OK;
}

static void give_up(int is_lasting) {
    for (int i = 0; i < THREADS && is_lasting; i++) flowdir_lasting_rise(&table, &seats[i]);
    if (is_lasting) flowdir_lasting_free(&table);
    for (int i = 0; i < SHARDS; i++)
        for (int k = 0; k < CHAINS; k++)
            for (struct node *node = shards[i].chains[k], *next; node; node = next) next = node->next, free(node);
}

int main(int argc, char **argv) {
    int is_lasting = argc < 2 || !strcmp(argv[1], "lasting");
    double seconds = argc > 2 ? atof(argv[2]) : 10;
    uint64_t stops = argc > 3 ? strtoull(argv[3], NULL, 10) : 0, length = (uint64_t)(seconds * 1e9);
    struct sigaction action = {.sa_handler = stop_here, .sa_flags = SA_RESTART};
    sigaction(SIGUSR1, &action, NULL);
    for (int i = 0; i < SHARDS; i++) pthread_mutex_init(&shards[i].mutex, NULL);
    if (!is_lasting) packet = mutex_packet;
    else if (open_table(argc, argv)) return 1;
    uint64_t began = now(), packets = 0, longest = 0, noroom = 0;
    for (int i = 0; i < THREADS; i++) {
        workers[i].number = i;
        if (pthread_create(&workers[i].thread, NULL, work, &workers[i])) return 1;
    }
    uint64_t busy = stops * 300000000u;
    double others = stop_often(stops, length > busy && stops ? (length - busy) / stops : 1000000);
    while (now() - began < length) rest(1000000);
    atomic_store(&is_over, 1);
    for (int i = 0; i < THREADS; i++) {
        pthread_join(workers[i].thread, NULL);
        packets += atomic_load(&workers[i].packets), noroom += workers[i].kinds[FLOWDIR_NOROOM];
        if ((i > 0 || !stops) && workers[i].longest > longest) longest = workers[i].longest;
    }
    double took = (double)(now() - began) / 1e9;
    struct rusage usage;
    getrusage(RUSAGE_SELF, &usage);
    printf("%s: %.0f packets a second, the longest %.2f ms%s; half below %.2f us, 999 of 1,000 below %.1f us; %llu found "
           "no room; memory %.0f MB\n", is_lasting ? "lasting" : "64 mutexes", (double)packets / took,
           (double)longest / 1e6, stops ? " (of the three others)" : "", time_below(0.5), time_below(0.999),
           (unsigned long long)noroom, (double)usage.ru_maxrss / 1024);
    if (stops) printf("while one thread was stopped the three others made %.0f packets a second\n", others);
    give_up(is_lasting);
    return 0;
}
