/* The smallest use of the table that grows: one thread. cc -Iinclude growing.c out/library/libflowdir.a -lpthread */
#include "flowdir.h"
#include <stdio.h>

int main(void) {
    struct flowdir_options options = {.seats = 1, .items = 16, .depth = 12, .start = 12};
    struct flowdir_table table = {0};
    struct flowdir_seat seat = {0};
    struct flowdir_key key = {1, 2, 3, 4, 5};
    struct flowdir_reply reply;
    /* room for 100,000 updates on so many keys */
    if (flowdir_rows_by(&options, 100000, 14600, &options.rows) != FLOWDIR_OK) return 1;
    if (flowdir_open(&options, NULL, 0, &table) != FLOWDIR_OK || flowdir_sit(&table, &seat) != FLOWDIR_OK) return 1;
    if (flowdir_insert(&seat, &key, 7, &reply) == FLOWDIR_OK && reply.kind == FLOWDIR_NEW) puts("new");
    if (flowdir_lookup(&seat, &key, &reply) == FLOWDIR_OK && reply.kind == FLOWDIR_FOUND)
        printf("found %llu\n", (unsigned long long)reply.value);
    flowdir_rise(&table, &seat);                       /* a seat that is taken is given back, */
    if (flowdir_close(&table) != FLOWDIR_OK) return 1; /* or this answers FLOWDIR_BUSY */
    flowdir_free(&table);
    return 0;
}
