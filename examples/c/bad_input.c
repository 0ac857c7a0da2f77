/* What is told of input that no table can take: a status each, and nothing happens. */
#include "flowdir.h"
#include <stdio.h>
#include <string.h>

static int failures;

static void expect(const char *what, uint64_t told, uint64_t wanted) {
    if (told == wanted) return;
    printf("%s: %llu, wanted %llu\n", what, (unsigned long long)told, (unsigned long long)wanted);
    failures++;
}

static struct flowdir_key key_of(uint64_t n) {
    struct flowdir_key key = {n, 0, 0, 0, 0};
    return key;
}

static struct flowdir_options options_of(uint32_t seats, uint32_t items, uint32_t depth, uint32_t start) {
    struct flowdir_options options = {.seats = seats, .items = items, .depth = depth, .start = start, .seed = 9};
    options.rows = (struct flowdir_rows){64, 256, 64, 8};
    return options;
}

/* Numbers out of their ranges. */
static void ranges(void) {
    static const struct { const char *what; uint32_t seats, items, depth, start; } table[] = {
        {"no seat", 0, 8, 4, 0},          {"nine seats", 9, 8, 4, 0},          {"no items", 1, 0, 4, 0},
        {"17 items", 1, 17, 4, 0},        {"depth 13", 1, 8, 13, 0},           {"start above depth", 1, 8, 4, 5},
    };
    for (size_t i = 0; i < sizeof table / sizeof *table; i++) {
        struct flowdir_options options = options_of(table[i].seats, table[i].items, table[i].depth, table[i].start);
        struct flowdir_table none = {0};
        struct flowdir_rows rows = {1, 2, 3, 4}, same = rows;
        expect(table[i].what, flowdir_open(&options, NULL, 0, &none), FLOWDIR_BAD);
        expect(table[i].what, flowdir_rows_for(&options, 7, &rows), FLOWDIR_BAD);
        expect(table[i].what, flowdir_rows_by(&options, 7, 9, &rows), FLOWDIR_BAD);
        expect(table[i].what, flowdir_bound(&options), 0);
        expect(table[i].what, flowdir_memory(&options), 0);
        expect("rows are as they were", memcmp(&rows, &same, sizeof rows), 0);
        expect("no table", none.at != NULL, 0);
    }
    for (int i = 0; i < 4; i++) {
        struct flowdir_options options = options_of(1, 8, 4, 0);
        uint64_t *rows[] = {&options.rows.op_rows, &options.rows.bucket_rows, &options.rows.bucket_words,
                            &options.rows.directory_rows};
        *rows[i] = 1ull << 32;
        struct flowdir_table none = {0};
        expect("rows of 2^32", flowdir_open(&options, NULL, 0, &none), FLOWDIR_BAD);
        expect("no table", none.at != NULL, 0);
    }
}

/* Rows by a number of keys: no more than without it, and fewer where the keys are few; these suffice. */
static void rows_by(void) {
    struct flowdir_options options = options_of(4, 8, 12, 0);
    struct flowdir_rows all = {0}, few = {0}, many = {0}, same = {1, 2, 3, 4}, rows = same;
    expect("rows", flowdir_rows_for(&options, 5000, &all), FLOWDIR_OK);
    expect("rows by few keys", flowdir_rows_by(&options, 5000, 8, &few), FLOWDIR_OK);
    expect("rows by many keys", flowdir_rows_by(&options, 5000, 1ull << 40, &many), FLOWDIR_OK);
    expect("eight keys split no class", few.directory_rows, 1);
    expect("no more by many keys", many.directory_rows <= all.directory_rows && many.bucket_rows <= all.bucket_rows, 1);
    expect("as many op rows", few.op_rows, all.op_rows);
    expect("fewer bucket rows", few.bucket_rows < all.bucket_rows, 1);
    expect("2^30 updates", flowdir_rows_by(&options, 1u << 30, 8, &rows), FLOWDIR_BAD);
    expect("rows are as they were", memcmp(&rows, &same, sizeof rows), 0);
    options.rows = few;
    struct flowdir_table table = {0};
    struct flowdir_seat seat = {0};
    struct flowdir_reply reply;
    expect("open by few keys", flowdir_open(&options, NULL, 0, &table), FLOWDIR_OK);
    expect("sit", flowdir_sit(&table, &seat), FLOWDIR_OK);
    uint64_t updates = 0;
    for (uint64_t i = 0; i < 5000; i++) {
        struct flowdir_key key = key_of(i % 8);
        updates += (i & 8 ? flowdir_remove(&seat, &key, &reply) : flowdir_insert(&seat, &key, i, &reply)) == FLOWDIR_OK;
    }
    expect("no update is refused", updates, 5000);
    flowdir_drop(&seat);
    flowdir_free(&table);
}

/* The words of a table, by hand: 1 root; an announcement and a done word for each of 2 seats; 4 + 2 x 3 bucket words;
 * 2 x 5 op rows of 8 words; 4 + 2 x 7 bucket rows of 5 + 7 x 3 + 2 x 2; 1 + 2 x 2 directory rows of 2 + 4. */
static void memory(void) {
    struct flowdir_options options = options_of(2, 3, 2, 0);
    options.rows = (struct flowdir_rows){5, 7, 3, 2};
    expect("memory", flowdir_memory(&options), 16 * (1 + 4 + 10 + 80 + 18 * 30 + 5 * 6));
}

/* First pairs that no table can begin with. */
static void first_pairs(void) {
    struct flowdir_options options = options_of(1, 2, 0, 0);
    struct flowdir_pair twice[] = {{key_of(1), 1, 0}, {key_of(2), 2, 0}, {key_of(1), 3, 0}};
    struct flowdir_pair large[] = {{key_of(1), 1ull << 61, 0}};
    struct flowdir_pair heavy[] = {{key_of(1), 1, 1ull << 61}};
    struct flowdir_pair three[] = {{key_of(1), 1, 0}, {key_of(2), 2, 0}, {key_of(3), 3, 0}};
    struct flowdir_table none = {0};
    expect("a key twice", flowdir_open(&options, twice, 3, &none), FLOWDIR_BAD);
    expect("a value of 2^61", flowdir_open(&options, large, 1, &none), FLOWDIR_BAD);
    expect("bytes of 2^61", flowdir_open(&options, heavy, 1, &none), FLOWDIR_BAD);
    expect("three keys for two", flowdir_open(&options, three, 3, &none), FLOWDIR_NO_ROOM);
    expect("no table", none.at != NULL, 0);
}

/* Calls that are refused, seats and readers that are out, and a closed table. */
static void calls(void) {
    struct flowdir_options options = options_of(1, 2, 1, 0);
    options.rows = (struct flowdir_rows){3, 30, 20, 4};
    struct flowdir_pair first = {key_of(5), 50, 0};
    struct flowdir_table table = {0}, next = {0};
    struct flowdir_seat seat = {0}, other = {0};
    struct flowdir_reader reader = {0};
    struct flowdir_reply reply = {99, 98, 97}, same = reply;
    struct flowdir_key key = key_of(5), absent = key_of(6);
    size_t count = 77;
    struct flowdir_pair pair = {key_of(8), 8, 0};
    expect("open", flowdir_open(&options, &first, 1, &table), FLOWDIR_OK);
    expect("sit", flowdir_sit(&table, &seat), FLOWDIR_OK);
    expect("a second seat", flowdir_sit(&table, &other), FLOWDIR_BUSY);
    expect("no seat", other.at != NULL, 0);
    expect("a value of 2^61", flowdir_insert(&seat, &key, 1ull << 61, &reply), FLOWDIR_BAD);
    expect("a count with a value of 2^61", flowdir_count(&seat, &key, 1ull << 61, 0, &reply), FLOWDIR_BAD);
    expect("a count by 2^61", flowdir_count(&seat, &key, 0, 1ull << 61, &reply), FLOWDIR_BAD);
    expect("a put of 2^61", flowdir_put(&seat, &key, 1ull << 61, &reply), FLOWDIR_BAD);
    expect("no reply", memcmp(&reply, &same, sizeof reply), 0);
    expect("a list of a table that runs", flowdir_list(&table, &count), FLOWDIR_BAD);
    expect("a pair of a table that runs", flowdir_pair_at(&table, 0, &pair), FLOWDIR_BAD);
    expect("reopen a table that runs", flowdir_reopen(&options, &table, &next), FLOWDIR_BAD);
    expect("no count", count, 77);
    expect("read", flowdir_read(&table, &reader), FLOWDIR_OK);
    expect("peek", flowdir_peek(&reader, &key, &reply), FLOWDIR_OK);
    expect("found", reply.kind * 1000 + reply.value, FLOWDIR_FOUND * 1000 + 50);
    int updates = 0;
    while (updates < 10 && flowdir_remove(&seat, updates ? &absent : &key, &reply) == FLOWDIR_OK) updates++;
    expect("updates by three op rows", updates, 3);
    reply = same;
    expect("no row for a count", flowdir_count(&seat, &key, 1, 1, &reply), FLOWDIR_FULL);
    expect("no row for a put", flowdir_put(&seat, &key, 1, &reply), FLOWDIR_FULL);
    expect("no reply", memcmp(&reply, &same, sizeof reply), 0);
    expect("lookups go on", flowdir_lookup(&seat, &key, &reply), FLOWDIR_OK);
    expect("absent", reply.kind, FLOWDIR_ABSENT);
    expect("peeks go on", flowdir_peek(&reader, &absent, &reply), FLOWDIR_OK);
    expect("a seat is out", flowdir_close(&table), FLOWDIR_BUSY);
    expect("rise", flowdir_rise(&table, &seat), FLOWDIR_OK);
    expect("the handle leads to nothing", seat.at != NULL, 0);
    expect("a reader is out", flowdir_close(&table), FLOWDIR_BUSY);
    flowdir_leave(&reader);
    expect("close", flowdir_close(&table), FLOWDIR_OK);
    expect("close again", flowdir_close(&table), FLOWDIR_BUSY);
    expect("sit at a closed table", flowdir_sit(&table, &seat), FLOWDIR_BUSY);
    expect("read a closed table", flowdir_read(&table, &reader), FLOWDIR_BAD);
    expect("no reader", reader.at != NULL, 0);
    expect("reopen what is not listed", flowdir_reopen(&options, &table, &next), FLOWDIR_BAD);
    expect("no next table", next.at != NULL, 0);
    expect("count", flowdir_list(&table, &count), FLOWDIR_OK);
    expect("no pair is left", count, 0);
    expect("no pair there", flowdir_pair_at(&table, 0, &pair), FLOWDIR_BAD);
    expect("the pair is as it was", pair.value, 8);
    expect("reopen", flowdir_reopen(&options, &table, &next), FLOWDIR_OK);
    flowdir_free(&table);
    flowdir_free(&next);
}

/* Counts and puts by two seats at one class of keys, which has room for two of them. */
static void counts(void) {
    static const struct { const char *what; uint64_t key, value, bytes, kind, told; } table[] = {
        {"a count of an absent key", 1, 10, 100, FLOWDIR_NEW, 0},
        {"a count of one that is there", 1, 11, 50, FLOWDIR_SUM, 150},
        {"a put of one that is there", 1, 12, 0, FLOWDIR_OLD, 10},
        {"a put of an absent key", 2, 20, 0, FLOWDIR_NEW, 0},
        {"a count at a full class", 3, 30, 1, FLOWDIR_NOROOM, 0},
        {"a put at a full class", 3, 30, 0, FLOWDIR_NOROOM, 0},
        {"a count up to the limit", 1, 13, (1ull << 61) - 1, FLOWDIR_SUM, (1ull << 61) - 1},
        {"a count beyond it", 1, 13, 7, FLOWDIR_SUM, (1ull << 61) - 1},
        {"a count by a byte", 2, 21, 1, FLOWDIR_SUM, 1},
    };
    struct flowdir_options options = options_of(2, 2, 0, 0);
    struct flowdir_table opened = {0};
    struct flowdir_seat seats[2] = {{0}};
    struct flowdir_pair pair;
    size_t count = 0;
    expect("open", flowdir_open(&options, NULL, 0, &opened), FLOWDIR_OK);
    for (int i = 0; i < 2; i++) expect("sit", flowdir_sit(&opened, &seats[i]), FLOWDIR_OK);
    for (size_t i = 0; i < sizeof table / sizeof *table; i++) {
        struct flowdir_key key = key_of(table[i].key);
        struct flowdir_reply reply = {99, 98, 97};
        uint32_t status = table[i].bytes ? flowdir_count(&seats[i % 2], &key, table[i].value, table[i].bytes, &reply)
                                         : flowdir_put(&seats[i % 2], &key, table[i].value, &reply);
        expect(table[i].what, status, FLOWDIR_OK);
        expect(table[i].what, reply.kind, table[i].kind);
        expect(table[i].what, reply.value, table[i].told);
        expect("no more steps than the bound", reply.steps <= flowdir_bound(&options), 1);
    }
    for (int i = 0; i < 2; i++) expect("rise", flowdir_rise(&opened, &seats[i]), FLOWDIR_OK);
    expect("close", flowdir_close(&opened), FLOWDIR_OK);
    expect("list", flowdir_list(&opened, &count), FLOWDIR_OK);
    expect("two pairs", count, 2);
    expect("the first", flowdir_pair_at(&opened, 0, &pair), FLOWDIR_OK);
    expect("has the value of the put", pair.value, 12);
    expect("and the greatest bytes", pair.bytes, (1ull << 61) - 1);
    expect("the second", flowdir_pair_at(&opened, 1, &pair), FLOWDIR_OK);
    expect("has its value and a byte", pair.value * 10 + pair.bytes, 201);
    flowdir_free(&opened);
}

/* A table is closed whatever seats were never taken, and a call that is refused uses up none of a seat's calls. */
static void untaken(void) {
    struct flowdir_options options = options_of(8, 8, 4, 0);
    struct flowdir_pair first[] = {{key_of(2), 20, 7}, {key_of(1), 10, 0}}, pair;
    for (int taken = 0; taken <= 8; taken++) {
        struct flowdir_table table = {0};
        struct flowdir_seat seats[8] = {{0}};
        struct flowdir_reply reply;
        struct flowdir_key key = key_of(3);
        size_t count = 0;
        expect("open", flowdir_open(&options, first, 2, &table), FLOWDIR_OK);
        for (int i = 0; i < taken; i++) expect("sit", flowdir_sit(&table, &seats[i]), FLOWDIR_OK);
        for (int i = 0; i < taken; i++) {
            expect("too large", flowdir_insert(&seats[i], &key, 1ull << 61, &reply), FLOWDIR_BAD);
            expect("insert", flowdir_insert(&seats[i], &key, 30, &reply), FLOWDIR_OK);
            expect("a seat is out", flowdir_close(&table), FLOWDIR_BUSY);
        }
        for (int i = 0; i < taken; i++) expect("rise", flowdir_rise(&table, &seats[i]), FLOWDIR_OK);
        expect("close", flowdir_close(&table), FLOWDIR_OK);
        expect("list", flowdir_list(&table, &count), FLOWDIR_OK);
        expect("pairs", count, taken ? 3 : 2);
        expect("the second pair", flowdir_pair_at(&table, 1, &pair), FLOWDIR_OK);
        expect("is the first one", pair.key.k0 * 1000 + pair.value * 10 + pair.bytes, 2207);
        flowdir_free(&table);
    }
}

/* The pairs of a closed table come in the order of their keys, and the next table has them. */
static void interval(void) {
    struct flowdir_options options = options_of(2, 8, 4, 0);
    struct flowdir_table table = {0}, next = {0};
    struct flowdir_seat one = {0}, two = {0};
    struct flowdir_reply reply;
    static const uint64_t keys[] = {40, 10, 30, 20};
    expect("open", flowdir_open(&options, NULL, 0, &table), FLOWDIR_OK);
    expect("sit", flowdir_sit(&table, &one), FLOWDIR_OK);
    expect("sit", flowdir_sit(&table, &two), FLOWDIR_OK);
    for (int i = 0; i < 4; i++) {
        struct flowdir_key key = key_of(keys[i]);
        expect("insert", flowdir_insert(i % 2 ? &one : &two, &key, keys[i] + 1, &reply), FLOWDIR_OK);
        expect("new", reply.kind, FLOWDIR_NEW);
    }
    struct flowdir_key third = key_of(30), none = key_of(31);
    expect("tally", flowdir_tally(&one, &third, 1500, &reply), FLOWDIR_OK);
    expect("the sum", reply.kind * 10000 + reply.value, FLOWDIR_SUM * 10000 + 1500);
    expect("tally by the other seat", flowdir_tally(&two, &third, 40, &reply), FLOWDIR_OK);
    expect("the sum of both", reply.kind * 10000 + reply.value, FLOWDIR_SUM * 10000 + 1540);
    expect("a tally of 2^61", flowdir_tally(&two, &third, 1ull << 61, &reply), FLOWDIR_BAD);
    expect("the reply is as it was", reply.value, 1540);
    expect("a large tally", flowdir_tally(&two, &third, (1ull << 61) - 1, &reply), FLOWDIR_OK);
    expect("stops at the limit", reply.value, (1ull << 61) - 1);
    expect("a tally of no key", flowdir_tally(&two, &none, 1, &reply), FLOWDIR_OK);
    expect("is told so", reply.kind * 10 + reply.value, FLOWDIR_ABSENT * 10);
    flowdir_rise(&table, &two);
    flowdir_rise(&table, &one);
    expect("close", flowdir_close(&table), FLOWDIR_OK);
    size_t count = 0;
    expect("count", flowdir_list(&table, &count), FLOWDIR_OK);
    expect("four pairs", count, 4);
    struct flowdir_pair counted;
    expect("the third pair", flowdir_pair_at(&table, 2, &counted), FLOWDIR_OK);
    expect("its bytes", counted.bytes, (1ull << 61) - 1);
    for (size_t at = 0; at < count; at++) {
        struct flowdir_pair pair;
        expect("pair", flowdir_pair_at(&table, at, &pair), FLOWDIR_OK);
        expect("in order", pair.key.k0 * 1000 + pair.value, (at + 1) * 10 * 1000 + (at + 1) * 10 + 1);
    }
    expect("reopen", flowdir_reopen(&options, &table, &next), FLOWDIR_OK);
    flowdir_free(&table);
    struct flowdir_reader reader = {0};
    struct flowdir_key key = key_of(30);
    expect("read", flowdir_read(&next, &reader), FLOWDIR_OK);
    flowdir_free(&next);
    expect("a reader outlives its table", flowdir_peek(&reader, &key, &reply), FLOWDIR_OK);
    expect("found", reply.kind * 1000 + reply.value, FLOWDIR_FOUND * 1000 + 31);
    flowdir_leave(&reader);
}

int main(void) {
    ranges();
    rows_by();
    memory();
    first_pairs();
    calls();
    counts();
    untaken();
    interval();
    printf("%s\n", failures ? "WRONG" : "each status is as the header says");
    return failures != 0;
}
