/* The smallest use: one thread, one flow. cc -Iinclude smallest.c out/library/libflowdir.a -lpthread */
#include "flowdir.h"
#include <stdio.h>

int main(void) {
    struct flowdir_lasting_options options = {.seats = 1, .items = 16, .depth = 12};
    struct flowdir_lasting table = {0};
    struct flowdir_lasting_seat seat = {0}; /* one for each thread */
    struct flowdir_key key = {1, 2, 3, 4, 5};
    struct flowdir_reply reply;
    if (flowdir_lasting_open(&options, NULL, 0, &table) != FLOWDIR_OK) return 1;
    if (flowdir_lasting_sit(&table, &seat) != FLOWDIR_OK) return 1;
    if (flowdir_lasting_count(&seat, &key, 7, 100, &reply) == FLOWDIR_OK && reply.kind == FLOWDIR_NEW) puts("new");
    if (flowdir_lasting_count(&seat, &key, 7, 40, &reply) == FLOWDIR_OK && reply.kind == FLOWDIR_SUM)
        printf("%llu bytes\n", (unsigned long long)reply.value); /* 140 */
    flowdir_lasting_rise(&table, &seat); /* the next thread can take it */
    flowdir_lasting_free(&table);
    return 0;
}
