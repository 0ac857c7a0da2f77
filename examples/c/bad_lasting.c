/* What is told of input that no lasting table can take: a status each, and nothing happens. */
#include "flowdir.h"
#include <stdio.h>
#include <string.h>

static int failures;

static void expect(const char *what, uint64_t told, uint64_t wanted) {
    if (told == wanted) return;
    printf("%s: %llu, wanted %llu\n", what, (unsigned long long)told, (unsigned long long)wanted);
    failures++;
}

static struct flowdir_key key_of(uint64_t n) {
    struct flowdir_key key = {n, 0, 0, 0, 0};
    return key;
}

static struct flowdir_lasting_options options_of(uint32_t seats, uint32_t items, uint32_t depth) {
    struct flowdir_lasting_options options = {.seats = seats, .items = items, .depth = depth, .seed = 9};
    return options;
}

/* Numbers out of their ranges. */
static void ranges(void) {
    static const struct { const char *what; uint32_t seats, items, depth; } table[] = {
        {"no seat", 0, 8, 4},   {"nine seats", 9, 8, 4}, {"no items", 1, 0, 4},
        {"17 items", 1, 17, 4}, {"depth 13", 1, 8, 13},
    };
    for (size_t i = 0; i < sizeof table / sizeof *table; i++) {
        struct flowdir_lasting_options options = options_of(table[i].seats, table[i].items, table[i].depth);
        struct flowdir_lasting none = {0};
        expect(table[i].what, flowdir_lasting_open(&options, NULL, 0, &none), FLOWDIR_BAD);
        expect(table[i].what, flowdir_lasting_bound(&options), 0);
        expect(table[i].what, flowdir_lasting_memory(&options), 0);
        expect("no table", none.at != NULL, 0);
    }
}

/* By hand, for 2 seats, 3 items and 4 buckets. Words: of each seat an announcement, a want and a hold word, and 7 of its
 * op; 4 of the buckets; 2 x (2 x (4 + 2) + 1) rows of 2 + 2 x 2 + 7 x 3. Steps: a piece of a sweep, 3 + 4; the op and its
 * announcement, 8; two tries of 1 + 27 + 8 + 27 + 1; a look at a held row, 6. */
static void numbers(void) {
    struct flowdir_lasting_options options = options_of(2, 3, 2);
    expect("memory", flowdir_lasting_memory(&options), 8 * (2 * 10 + 4 + 26 * 27));
    expect("bound", flowdir_lasting_bound(&options), 7 + 8 + 2 * 64 + 6);
}

/* First pairs that no table can begin with. */
static void first_pairs(void) {
    struct flowdir_lasting_options options = options_of(1, 2, 0);
    struct flowdir_pair twice[] = {{key_of(1), 1, 0}, {key_of(2), 2, 0}, {key_of(1), 3, 0}};
    struct flowdir_pair large[] = {{key_of(1), 1ull << 61, 0}};
    struct flowdir_pair heavy[] = {{key_of(1), 1, 1ull << 61}};
    struct flowdir_pair three[] = {{key_of(1), 1, 0}, {key_of(2), 2, 0}, {key_of(3), 3, 0}};
    struct flowdir_lasting none = {0};
    expect("a key twice", flowdir_lasting_open(&options, twice, 3, &none), FLOWDIR_BAD);
    expect("a value of 2^61", flowdir_lasting_open(&options, large, 1, &none), FLOWDIR_BAD);
    expect("bytes of 2^61", flowdir_lasting_open(&options, heavy, 1, &none), FLOWDIR_BAD);
    expect("three keys of one class", flowdir_lasting_open(&options, three, 3, &none), FLOWDIR_NO_ROOM);
    expect("no table", none.at != NULL, 0);
}

/* One table, call by call: replies by hand. */
static void calls(void) {
    struct flowdir_lasting_options options = options_of(2, 2, 0);
    struct flowdir_pair first[] = {{key_of(7), 70, 5}}, pairs[2], same[2];
    struct flowdir_lasting table = {0};
    struct flowdir_lasting_seat one = {0}, two = {0}, three = {0};
    struct flowdir_lasting_reader reader = {0};
    struct flowdir_key seven = key_of(7), eight = key_of(8), nine = key_of(9);
    struct flowdir_reply reply = {99, 98, 97}, was = reply;
    size_t count = 77;
    memset(pairs, 5, sizeof pairs);
    memcpy(same, pairs, sizeof pairs);
    expect("open", flowdir_lasting_open(&options, first, 1, &table), FLOWDIR_OK);
    expect("at rest", flowdir_lasting_at_rest(&table, 0, pairs, 2, &count), FLOWDIR_OK);
    expect("one pair", count * 10000 + pairs[0].key.k0 * 1000 + pairs[0].value * 10 + pairs[0].bytes, 17705);
    expect("sit", flowdir_lasting_sit(&table, &one), FLOWDIR_OK);
    expect("sit again", flowdir_lasting_sit(&table, &two), FLOWDIR_OK);
    expect("two seats", one.at == two.at, 0);
    expect("no third seat", flowdir_lasting_sit(&table, &three), FLOWDIR_BUSY);
    expect("none was taken", three.at != NULL, 0);
    count = 77, memcpy(pairs, same, sizeof pairs);
    expect("a seat is out", flowdir_lasting_at_rest(&table, 0, pairs, 2, &count), FLOWDIR_BUSY);
    expect("no such bucket", flowdir_lasting_look_at(&one, 1, pairs, 2, &count), FLOWDIR_BAD);
    expect("room for one", flowdir_lasting_look_at(&one, 0, pairs, 1, &count), FLOWDIR_BAD);
    expect("nothing was copied", count == 77 && !memcmp(pairs, same, sizeof pairs), 1);
    expect("a value of 2^61", flowdir_lasting_insert(&one, &eight, 1ull << 61, &reply), FLOWDIR_BAD);
    expect("a put of 2^61", flowdir_lasting_put(&one, &seven, 1ull << 61, &reply), FLOWDIR_BAD);
    expect("a tally of 2^61", flowdir_lasting_tally(&one, &seven, 1ull << 61, &reply), FLOWDIR_BAD);
    expect("a count of 2^61", flowdir_lasting_count(&one, &seven, 1ull << 61, 1, &reply), FLOWDIR_BAD);
    expect("of 2^61 bytes", flowdir_lasting_count(&one, &seven, 1, 1ull << 61, &reply), FLOWDIR_BAD);
    expect("no reply", memcmp(&reply, &was, sizeof reply), 0);
    expect("insert", flowdir_lasting_insert(&one, &eight, 80, &reply), FLOWDIR_OK);
    expect("new", reply.kind * 1000 + reply.value, FLOWDIR_NEW * 1000);
    expect("insert again", flowdir_lasting_insert(&two, &eight, 81, &reply), FLOWDIR_OK);
    expect("old", reply.kind * 1000 + reply.value, FLOWDIR_OLD * 1000 + 80);
    expect("a third key", flowdir_lasting_count(&two, &nine, 90, 1, &reply), FLOWDIR_OK);
    expect("no room", reply.kind * 1000 + reply.value, FLOWDIR_NOROOM * 1000);
    expect("tally", flowdir_lasting_tally(&two, &seven, 40, &reply), FLOWDIR_OK);
    expect("sum", reply.kind * 1000 + reply.value, FLOWDIR_SUM * 1000 + 45);
    expect("put", flowdir_lasting_put(&one, &seven, 71, &reply), FLOWDIR_OK);
    expect("the one before", reply.kind * 1000 + reply.value, FLOWDIR_OLD * 1000 + 70);
    expect("remove", flowdir_lasting_remove(&two, &eight, &reply), FLOWDIR_OK);
    expect("gone", reply.kind * 1000 + reply.value, FLOWDIR_GONE * 1000 + 80);
    expect("look up", flowdir_lasting_lookup(&one, &eight, &reply), FLOWDIR_OK);
    expect("absent", reply.kind * 1000 + reply.value, FLOWDIR_ABSENT * 1000);
    expect("read", flowdir_lasting_read(&table, &reader), FLOWDIR_OK);
    was = reply;
    expect("no tries", flowdir_lasting_peek(&reader, &seven, 0, &reply), FLOWDIR_BAD);
    expect("no reply", memcmp(&reply, &was, sizeof reply), 0);
    expect("peek", flowdir_lasting_peek(&reader, &seven, 1, &reply), FLOWDIR_OK);
    expect("found", reply.kind * 1000 + reply.value, FLOWDIR_FOUND * 1000 + 71);
    expect("look at", flowdir_lasting_look_at(&two, 0, pairs, 2, &count), FLOWDIR_OK);
    expect("one pair", count * 10000 + pairs[0].key.k0 * 1000 + pairs[0].value * 10 + pairs[0].bytes, 17755);
    expect("rise", flowdir_lasting_rise(&table, &one), FLOWDIR_OK);
    expect("nothing", one.at != NULL, 0);
    expect("sit once more", flowdir_lasting_sit(&table, &three), FLOWDIR_OK);
    expect("look up", flowdir_lasting_lookup(&three, &seven, &reply), FLOWDIR_OK);
    expect("found", reply.kind * 1000 + reply.value, FLOWDIR_FOUND * 1000 + 71);
    flowdir_lasting_free(&table);
    expect("a reader outlives its table", flowdir_lasting_peek(&reader, &seven, 1, &reply), FLOWDIR_OK);
    expect("and so do seats", flowdir_lasting_remove(&two, &seven, &reply), FLOWDIR_OK);
    expect("gone", reply.kind * 1000 + reply.value, FLOWDIR_GONE * 1000 + 71);
    flowdir_lasting_leave(&reader);
    flowdir_lasting_drop(&two);
    flowdir_lasting_drop(&three);
}

int main(void) {
    ranges();
    numbers();
    first_pairs();
    calls();
    printf("%s\n", failures ? "WRONG" : "each status is as the header says");
    return failures != 0;
}
