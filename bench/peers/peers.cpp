// Calls of one table by 1 to 4 threads, in one process: flowdir by lookups and by peeks, its table that lasts, liburcu's cds_lfht,
// std::unordered_map under one mutex and under 64 (by the hash), tbb::concurrent_hash_map, libcuckoo
// and DPDK's rte_hash.
//
//   bench speed   [turns]  ns a call of each mix and number of threads, least of the turns
//   bench worst   [turns]  the longest calls of 1 to 4 threads
//   bench grow    [turns]  keys that are all new, from an empty table: ns a call, and the longest call
//   bench stop    [stops]  one thread is stopped at a moment of a call by a signal whose handler sleeps; do the others go on?
#include <fcntl.h>
#include <malloc.h>
#include <pthread.h>
#include <sched.h>
#include <signal.h>
#include <sys/syscall.h>
#include <time.h>
#include <unistd.h>
#include <algorithm>
#include <atomic>
#include <cstdio>
#include <cstdlib>
#include <cstring>
#include <mutex>
#include <string>
#include <thread>
#include <unordered_map>
#include <vector>
#include <rte_eal.h>
#include <rte_hash.h>
#include <libcuckoo/cuckoohash_map.hh>
#include <tbb/concurrent_hash_map.h>
#define _LGPL_SOURCE
#include <urcu.h>
#include <urcu/rculfhash.h>
#include "flowdir.h"

static uint64_t spread(uint64_t z) {
    z = (z ^ (z >> 30)) * 0xbf58476d1ce4e5b9u;
    z = (z ^ (z >> 27)) * 0x94d049bb133111ebu;
    return z ^ (z >> 31);
}
// Five words, of which the flows of IPv4 use two.
struct Key {
    uint64_t a, b, c = 0, d = 0, e = 0;
    bool operator==(const Key &o) const { return a == o.a && b == o.b && c == o.c && d == o.d && e == o.e; }
};
static inline uint64_t hash_of(const Key &k) {
    return spread(spread(spread(spread(spread(k.a) ^ k.b) ^ k.c) ^ k.d) ^ k.e);
}
struct KeyHash {
    size_t operator()(const Key &k) const { return hash_of(k); }
};
static uint64_t now() {
    timespec t;
    clock_gettime(CLOCK_MONOTONIC, &t);
    return (uint64_t)t.tv_sec * 1000000000u + t.tv_nsec;
}
static uint64_t cpu() {
    timespec t;
    clock_gettime(CLOCK_THREAD_CPUTIME_ID, &t);
    return (uint64_t)t.tv_sec * 1000000000u + t.tv_nsec;
}
enum Kind : uint32_t { INSERT, REMOVE, LOOKUP };
struct Op {
    Key k;
    uint32_t v;
    Kind kind;
};

// How many updates each thread makes at most, for the tables that are opened for a number of updates.
struct Plan {
    int threads;
    uint32_t updates;
    uint32_t items, depth;
};

struct Flowdir {
    static constexpr const char *name = "flowdir";
    flowdir_table t;
    flowdir_seat seats[8];
    int count;
    Flowdir(const Plan &p) : count(p.threads) {
        flowdir_options o = {};
        o.seats = p.threads, o.items = p.items, o.depth = p.depth, o.start = 0, o.seed = 1;
        if (flowdir_rows_for(&o, p.updates, &o.rows)) abort();
        // a directory is changed only at a split, of which there are as many as buckets at most; few are ever needed
        uint64_t most = p.depth == 12 ? 4097 / p.threads + 600 : 600;
        if (o.rows.directory_rows > most) o.rows.directory_rows = most;
        t.at = nullptr;
        for (auto &s : seats) s.at = nullptr;
        int s = flowdir_open(&o, nullptr, 0, &t);
        if (s) fprintf(stderr, "open %d\n", s), abort();
        for (int i = 0; i < count; i++)
            if (flowdir_sit(&t, &seats[i])) abort();
    }
    ~Flowdir() {
        for (int i = 0; i < count; i++)
            flowdir_rise(&t, &seats[i]);
        if (flowdir_close(&t)) abort();
        flowdir_free(&t);
    }
    void enter(int) {}
    void leave() {}
    bool insert(int i, Key k, uint64_t v) {
        flowdir_reply r;
        if (flowdir_insert(&seats[i], (const flowdir_key *)&k, v, &r)) fprintf(stderr, "full\n"), abort();
        return r.kind == FLOWDIR_NEW;
    }
    bool remove(int i, Key k) {
        flowdir_reply r;
        if (flowdir_remove(&seats[i], (const flowdir_key *)&k, &r)) fprintf(stderr, "full\n"), abort();
        return r.kind == FLOWDIR_GONE;
    }
    bool lookup(int i, Key k) {
        flowdir_reply r;
        flowdir_lookup(&seats[i], (const flowdir_key *)&k, &r);
        return r.kind == FLOWDIR_FOUND;
    }
};

// The same, whose lookups are peeks.
struct Peeks : Flowdir {
    static constexpr const char *name = "flowdir, peeks";
    flowdir_reader readers[8] = {};
    Peeks(const Plan &p) : Flowdir(p) {
        for (int i = 0; i < count; i++)
            if (flowdir_read(&t, &readers[i])) abort();
    }
    ~Peeks() {
        for (int i = 0; i < count; i++) flowdir_leave(&readers[i]);
    }
    bool lookup(int i, Key k) {
        flowdir_reply r;
        flowdir_peek(&readers[i], (const flowdir_key *)&k, &r);
        return r.kind == FLOWDIR_FOUND;
    }
};

/* The table that lasts: a thread makes all calls by its seat. */
struct Lasting {
    static constexpr const char *name = "flowdir, lasting";
    flowdir_lasting t;
    flowdir_lasting_seat seats[8];
    int count;
    Lasting(const Plan &p) : count(p.threads) {
        flowdir_lasting_options o = {};
        o.seats = p.threads, o.items = p.items, o.depth = p.depth, o.seed = 1;
        t.at = nullptr;
        for (auto &s : seats) s.at = nullptr;
        if (flowdir_lasting_open(&o, nullptr, 0, &t)) abort();
        for (int i = 0; i < count; i++)
            if (flowdir_lasting_sit(&t, &seats[i])) abort();
    }
    ~Lasting() {
        for (int i = 0; i < count; i++) flowdir_lasting_drop(&seats[i]);
        flowdir_lasting_free(&t);
    }
    void enter(int) {}
    void leave() {}
    bool insert(int i, Key k, uint64_t v) {
        flowdir_reply r;
        if (flowdir_lasting_insert(&seats[i], (const flowdir_key *)&k, v, &r)) abort();
        return r.kind == FLOWDIR_NEW;
    }
    bool remove(int i, Key k) {
        flowdir_reply r;
        if (flowdir_lasting_remove(&seats[i], (const flowdir_key *)&k, &r)) abort();
        return r.kind == FLOWDIR_GONE;
    }
    bool lookup(int i, Key k) {
        flowdir_reply r;
        if (flowdir_lasting_lookup(&seats[i], (const flowdir_key *)&k, &r)) abort();
        return r.kind == FLOWDIR_FOUND;
    }
};

struct Node {
    cds_lfht_node n;
    Key k;
    uint64_t v;
    rcu_head rh;
};
static int same(cds_lfht_node *n, const void *k) { return caa_container_of(n, Node, n)->k == *(const Key *)k; }
static std::atomic<long> unfreed{0};
static void give_back(rcu_head *h) {
    unfreed--;
    free(caa_container_of(h, Node, rh));
}
struct Lfht {
    static constexpr const char *name = "cds_lfht";
    cds_lfht *h;
    Lfht(const Plan &) { h = cds_lfht_new(1, 1, 0, CDS_LFHT_AUTO_RESIZE | CDS_LFHT_ACCOUNTING, nullptr); }
    ~Lfht() {}  // left as it stands
    void enter(int) { rcu_register_thread(); }
    void leave() { rcu_unregister_thread(); }
    bool insert(int, Key k, uint64_t v) {
        cds_lfht_iter it;
        uint64_t hash = hash_of(k);
        bool made = false;
        rcu_read_lock();
        cds_lfht_lookup(h, hash, same, &k, &it);
        if (!cds_lfht_iter_get_node(&it)) {
            Node *u = (Node *)malloc(sizeof *u);
            cds_lfht_node_init(&u->n);
            u->k = k, u->v = v;
            made = cds_lfht_add_unique(h, hash, same, &k, &u->n) == &u->n;
            if (!made) free(u);
        }
        rcu_read_unlock();
        return made;
    }
    bool remove(int, Key k) {
        cds_lfht_iter it;
        bool gone = false;
        rcu_read_lock();
        cds_lfht_lookup(h, hash_of(k), same, &k, &it);
        cds_lfht_node *n = cds_lfht_iter_get_node(&it);
        if (n && cds_lfht_del(h, n) == 0) {
            gone = true;
            unfreed++;
            call_rcu(&caa_container_of(n, Node, n)->rh, give_back);
        }
        rcu_read_unlock();
        return gone;
    }
    bool lookup(int, Key k) {
        cds_lfht_iter it;
        rcu_read_lock();
        cds_lfht_lookup(h, hash_of(k), same, &k, &it);
        bool found = cds_lfht_iter_get_node(&it) != nullptr;
        rcu_read_unlock();
        return found;
    }
};

using Map = std::unordered_map<Key, uint64_t, KeyHash>;
template <int SHARDS> struct Locked {
    static constexpr const char *name = SHARDS == 1 ? "mutex" : "64 mutexes";
    struct alignas(128) Shard {
        std::mutex m;
        Map map;
    };
    Shard *s = new Shard[SHARDS];
    Locked(const Plan &) {}
    ~Locked() { delete[] s; }
    void enter(int) {}
    void leave() {}
    Shard &at(Key k) { return s[SHARDS == 1 ? 0 : (hash_of(k) >> 48) % SHARDS]; }
    bool insert(int, Key k, uint64_t v) {
        Shard &x = at(k);
        std::lock_guard<std::mutex> l(x.m);
        return x.map.emplace(k, v).second;
    }
    bool remove(int, Key k) {
        Shard &x = at(k);
        std::lock_guard<std::mutex> l(x.m);
        return x.map.erase(k) == 1;
    }
    bool lookup(int, Key k) {
        Shard &x = at(k);
        std::lock_guard<std::mutex> l(x.m);
        return x.map.find(k) != x.map.end();
    }
};
struct HC {
    size_t hash(const Key &k) const { return hash_of(k); }
    bool equal(const Key &a, const Key &b) const { return a == b; }
};
struct Tbb {
    static constexpr const char *name = "tbb";
    using M = tbb::concurrent_hash_map<Key, uint64_t, HC>;
    M m;
    Tbb(const Plan &) {}
    void enter(int) {}
    void leave() {}
    bool insert(int, Key k, uint64_t v) { return m.insert(M::value_type(k, v)); }
    bool remove(int, Key k) { return m.erase(k); }
    bool lookup(int, Key k) {
        M::const_accessor a;
        return m.find(a, k);
    }
};

// The flows of the made captures: 256 keys; those of the growth have all different addresses.
static Key flow(uint64_t f) { return {(0x0a010000 + f) << 32 | 0x0a020001, (40000 + (f & 255)) << 24 | 443 << 8 | 6}; }
// `percent` of the calls are updates, half inserts and half removes.
static std::vector<Op> calls(uint64_t seed, size_t n, int percent, uint64_t flows) {
    std::vector<Op> v(n);
    for (size_t i = 0; i < n; i++) {
        uint64_t r = spread(seed * 0x9e3779b97f4a7c15u + i), k = (r >> 32) % 200;
        v[i] = {flow(r % flows), (uint32_t)i + 1, k < (uint64_t)percent ? INSERT : k < 2u * percent ? REMOVE : LOOKUP};
    }
    return v;
}
template <class T> static inline bool ask(T &t, int me, const Op &o) {
    return o.kind == INSERT ? t.insert(me, o.k, o.v) : o.kind == REMOVE ? t.remove(me, o.k) : t.lookup(me, o.k);
}
struct Cuckoo {
    static constexpr const char *name = "libcuckoo";
    libcuckoo::cuckoohash_map<Key, uint64_t, KeyHash> m;
    Cuckoo(const Plan &) {}
    void enter(int) {}
    void leave() {}
    bool insert(int, Key k, uint64_t v) { return m.insert(k, v); }
    bool remove(int, Key k) { return m.erase(k); }
    bool lookup(int, Key k) { return m.contains(k); }
};
// Writers lock, lookups do not. A place is free at once where a key goes: a router would wait for its lookups first.
struct Rte {
    static constexpr const char *name = "rte_hash";
    rte_hash *h;
    Rte(const Plan &p) {
        static const int ready = [] {
            const char *words[] = {"peers", "--no-huge", "--no-pci", "-m", "256", "--log-level", "1", "--no-telemetry"};
            cpu_set_t all;
            sched_getaffinity(0, sizeof all, &all);
            int read = rte_eal_init(8, (char **)words);
            sched_setaffinity(0, sizeof all, &all); // it keeps its caller, and the threads made then, on one processor
            return read;
        }();
        if (ready < 0) abort();
        rte_hash_parameters q = {};
        static std::atomic<int> tables{0};
        std::string own = "t" + std::to_string(tables++);
        q.name = own.c_str(), q.entries = p.items << p.depth, q.key_len = sizeof(Key);
        q.hash_func = [](const void *k, uint32_t, uint32_t) { return (uint32_t)hash_of(*(const Key *)k); };
        q.extra_flag = RTE_HASH_EXTRA_FLAGS_RW_CONCURRENCY_LF | RTE_HASH_EXTRA_FLAGS_MULTI_WRITER_ADD;
        if (!(h = rte_hash_create(&q))) abort();
    }
    ~Rte() { rte_hash_free(h); }
    // (its adds keep free places by the number of a thread that is known)
    void enter(int) { if (rte_thread_register()) abort(); }
    void leave() { rte_thread_unregister(); }
    bool insert(int, Key k, uint64_t v) { return rte_hash_lookup(h, &k) < 0 && !rte_hash_add_key_data(h, &k, (void *)v); }
    bool remove(int, Key k) {
        int place = rte_hash_del_key(h, &k);
        return place >= 0 && !rte_hash_free_key_with_position(h, place);
    }
    bool lookup(int, Key k) {
        void *v;
        return rte_hash_lookup_data(h, &k, &v) >= 0;
    }
};
struct Told {
    double wall, cpu;
    std::vector<uint32_t> slowest;
};
// All threads make the calls of their own list once; half the flows are held before.
template <class T> static Told run(const std::vector<std::vector<Op>> &all, uint32_t updates, uint32_t items, uint32_t depth,
                                   bool each, uint64_t held) {
    int n = all.size();
    T t(Plan{n, updates + (uint32_t)held + 64, items, depth});
    std::atomic<int> ready{0};
    std::atomic<bool> go{false};
    std::vector<uint64_t> from(n), to(n), used(n);
    std::vector<std::vector<uint32_t>> times(n);
    std::vector<std::thread> th;
    for (int me = 0; me < n; me++)
        th.emplace_back([&, me] {
            t.enter(me);
            if (me == 0)
                for (uint64_t f = 0; f < held; f++) t.insert(0, flow(2 * f), f + 1);
            auto &ops = all[me];
            if (each) times[me].assign(ops.size(), 1);
            uint64_t touch = 0;
            for (auto &o : ops) touch += o.v;
            asm volatile("" ::"r"(touch));
            ready++;
            while (!go) sched_yield();
            uint64_t c = cpu(), answers = 0;
            from[me] = now();
            if (each)
                for (size_t i = 0; i < ops.size(); i++) {
                    uint64_t a = now();
                    answers += ask(t, me, ops[i]);
                    times[me][i] = now() - a;
                }
            else
                for (auto &o : ops) answers += ask(t, me, o);
            to[me] = now();
            used[me] = cpu() - c;
            asm volatile("" ::"r"(answers));
            t.leave();
        });
    while (ready < n) sched_yield();
    go = true;
    for (auto &x : th) x.join();
    double total = 0, spent = 0;
    for (auto &x : all) total += x.size();
    for (auto x : used) spent += x;
    Told told;
    told.wall = (*std::max_element(to.begin(), to.end()) - *std::min_element(from.begin(), from.end())) / total;
    told.cpu = spent / total;
    for (auto &x : times) told.slowest.insert(told.slowest.end(), x.begin(), x.end());
    return told;
}

static int turns = 5;
template <class T> static void speed() {
    for (int percent : {0, 10, 100})
        for (int n : {1, 2, 4}) {
            std::vector<std::vector<Op>> all;
            for (int i = 0; i < n; i++) all.push_back(calls(i + 1, percent == 100 ? 20000 : percent ? 50000 : 100000, percent, 256));
            double wall = 1e18, used = 1e18;
            for (int k = 0; k < turns; k++) {
                Told x = run<T>(all, percent ? 21000 : 300, 8, 10, false, 128);
                wall = std::min(wall, x.wall), used = std::min(used, x.cpu);
            }
            printf("speed\t%s\t%d%% updates\t%d threads\t%.1f ns a call by the clock of all\t%.1f ns of a thread's processor time\n", T::name, percent, n, wall, used);
            fflush(stdout);
        }
}
template <class T> static void worst() {
    for (int percent : {0, 10, 100})
        for (int n : {1, 2, 4}) {
            std::vector<std::vector<Op>> all;
            for (int i = 0; i < n; i++) all.push_back(calls(i + 1, 20000, percent, 256));
            double best[4] = {1e18, 1e18, 1e18, 1e18};
            for (int k = 0; k < turns; k++) {
                Told x = run<T>(all, percent ? 21000 : 300, 8, 10, true, 128);
                auto &v = x.slowest;
                std::sort(v.begin(), v.end());
                double q[4] = {(double)v[v.size() / 2], (double)v[v.size() * 999 / 1000], (double)v[v.size() * 9999 / 10000], (double)v.back()};
                for (int j = 0; j < 4; j++) best[j] = std::min(best[j], q[j]);
            }
            printf("worst\t%s\t%d%% updates\t%d threads\tmedian %.0f\tone in 1,000 %.0f\tone in 10,000 %.0f\tlongest %.0f ns (each the least of the turns)\n", T::name, percent, n, best[0], best[1], best[2], best[3]);
            fflush(stdout);
        }
}
template <class T> static void grow(size_t keys) {
    for (int n : {1, 2, 4}) {
        std::vector<Op> s(keys);
        for (size_t i = 0; i < keys; i++) s[i] = {flow(i), (uint32_t)i + 1, INSERT};
        for (size_t i = keys - 1; i; i--) std::swap(s[i], s[spread(i) % (i + 1)]);
        std::vector<std::vector<Op>> all(n);
        for (size_t i = 0; i < keys; i++) all[i % n].push_back(s[i]);
        double wall = 1e18, longest = 1e18, one = 1e18;
        for (int k = 0; k < turns; k++) {
            wall = std::min(wall, run<T>(all, keys / n + 1, 16, 12, false, 0).wall);
            Told x = run<T>(all, keys / n + 1, 16, 12, true, 0);
            auto &v = x.slowest;
            std::sort(v.begin(), v.end());
            longest = std::min(longest, (double)v.back());
            one = std::min(one, (double)v[v.size() * 999 / 1000]);
        }
        printf("grow\t%s\t%zu new keys\t%d threads\t%.1f ns a call by the clock of all\tone in 1,000 %.0f ns\tlongest %.0f ns\n", T::name, keys, n, wall, one, longest);
        fflush(stdout);
    }
}

// A thread is stopped: its handler sleeps, wherever it was.
static std::atomic<bool> stopped{false}, wake{false};
static void sleeper(int) {
    stopped = true;
    while (!wake) {
        timespec t = {0, 1000000};
        nanosleep(&t, nullptr);
    }
    stopped = false;
}
// Of the calls of the others in the time before and in the 300 ms of the stop. Each of them makes a call every 4
// microseconds, so that the tables with a room of updates do not run out of it.
static inline uint64_t tsc() { return __builtin_ia32_rdtsc(); }
template <class T> static void stop(int stops, int percent, uint64_t flows) {
    const int n = 4;
    std::vector<std::vector<Op>> all;
    for (int i = 0; i < n; i++) all.push_back(calls(i + 1, 4096, i == 0 ? 100 : percent, flows));
    int held_up = 0, counted = 0, out = 0;
    double least = 1e9, longest_gap = 0, most_unfreed = 0, longest_call = 0;
    for (int s = 0; s < stops; s++) {
        stopped = false, wake = false;
        T *t = new T(Plan{n, 100000, 8, 10});
        std::atomic<bool> end{false};
        struct alignas(128) Count { std::atomic<uint64_t> n{0}, longest{0}; std::atomic<bool> ran_out{false}; };
        Count done[n];
        std::atomic<int> tid{0};
        std::atomic<int> ready{0};
        std::vector<std::thread> th;
        for (int me = 0; me < n; me++)
            th.emplace_back([&, me] {
                t->enter(me);
                if (me == 0) tid = syscall(SYS_gettid);
                ready++;
                auto &ops = all[me];
                uint64_t updates = 0;
                for (size_t i = 0; !end; i = (i + 1) % ops.size()) {
                    if ((T::name == Flowdir::name || T::name == Peeks::name) && ops[i].kind != LOOKUP && ++updates > 99000) { done[me].ran_out = true; break; }
                    if (me) for (uint64_t from = tsc(); tsc() - from < 10000;) ;
                    uint64_t a = now();
                    ask(*t, me, ops[i]);
                    if (stopped && now() - a > done[me].longest) done[me].longest = now() - a;
                    done[me].n.store(done[me].n.load(std::memory_order_relaxed) + 1, std::memory_order_relaxed);
                }
                t->leave();
            });
        while (ready < n) sched_yield();
        auto sum = [&] { uint64_t x = 0; for (int i = 1; i < n; i++) x += done[i].n; return x; };
        usleep(2000 + spread(s) % 2000);
        uint64_t a = sum(), ta = now();
        usleep(10000);
        uint64_t b = sum(), tb = now();
        long before_unfreed = unfreed;
        syscall(SYS_tgkill, getpid(), (int)tid, SIGUSR1);
        for (int i = 0; i < 5000 && !stopped; i++) usleep(100);
        uint64_t c = sum(), tc = now(), gap_from = tc, last = c;
        double gap = 0;
        while (now() - tc < 300000000) {
            usleep(500);
            uint64_t x = sum(), tx = now();
            if (x != last) { gap = std::max(gap, (double)(tx - gap_from)); last = x; gap_from = tx; }
        }
        uint64_t d = sum(), td = now();
        gap = std::max(gap, (double)(td - gap_from));
        bool ran_out = false;
        for (int i = 0; i < n; i++) ran_out |= done[i].ran_out;
        most_unfreed = std::max(most_unfreed, (double)(unfreed - before_unfreed));
        if (ran_out || !stopped) out++;
        else {
            counted++;
            double share = ((double)(d - c) / (td - tc)) / ((double)(b - a) / (tb - ta));
            least = std::min(least, share);
            if (td - gap_from > 200000000) held_up++;
            longest_gap = std::max(longest_gap, gap);
        }
        wake = true;
        while (stopped) usleep(100);
        end = true;
        for (auto &x : th) x.join();
        for (int i = 1; i < n; i++) longest_call = std::max(longest_call, (double)done[i].longest);
        delete t;
    }
    printf("stop\t%s\tothers %d%% updates\t%lu flows\tstops %d\tall three others held up to the end %d\tleast share of their calls %.3f\tlongest time in which none of them ended a call %.1f ms%s%s\n", T::name, percent, flows, counted, held_up, least, longest_gap / 1e6,
           out ? (std::string("\tleft out ") + std::to_string(out)).c_str() : "",
           T::name == Lfht::name ? (std::string("\tremoved and not given back at the end of a stop, at most ") + std::to_string((long)most_unfreed)).c_str() : "");
    fflush(stdout);
}
// So many calls by one thread, and no more: for callgrind.
template <class T> static void count(int percent, size_t n) {
    std::vector<std::vector<Op>> all{calls(1, n, percent, 256)};
    run<T>(all, 21000, 8, 10, false, 128);
}
template <class T> static void part(const std::string &what, const char *arg) {
    if (what == "speed") speed<T>();
    if (what == "worst") worst<T>();
    if (what == "grow") grow<T>(16384);
    if (what == "count0") count<T>(0, atoi(arg));
    if (what == "count10") count<T>(10, atoi(arg));
    if (what == "count100") count<T>(100, atoi(arg));
    if (what == "stop") {
        int stops = arg ? atoi(arg) : 20;
        stop<T>(stops, 100, 256);
        stop<T>(stops, 0, 256);
    }
}
int main(int argc, char **argv) {
    std::string what = argc > 1 ? argv[1] : "speed";
    if (argc > 2) turns = atoi(argv[2]);
    rcu_register_thread();
    struct sigaction s = {};
    s.sa_handler = sleeper;
    s.sa_flags = SA_RESTART;
    sigaction(SIGUSR1, &s, nullptr);
    mallopt(M_MMAP_THRESHOLD, 1 << 30), mallopt(M_TRIM_THRESHOLD, 1 << 30);
    const char *arg = argc > 2 ? argv[2] : nullptr;
    std::string only = argc > 3 ? argv[3] : "";
    rcu_thread_offline();
#define PART(T) if (only.empty() || only == T::name) part<T>(what, arg)
    PART(Flowdir);
    PART(Peeks);
    PART(Lasting);
    PART(Lfht);
    PART(Locked<1>);
    PART(Locked<64>);
    PART(Tbb);
    PART(Cuckoo);
    PART(Rte);
    fflush(stdout);
    _exit(0);
}
