/* flowdir.h: wait-free hash tables that threads share. A key is five 64-bit words. Each key has a value and a count of
 * bytes, both below 2^61.
 *
 * There are two tables:
 *  - The table that lasts, by the calls flowdir_lasting_*. It is for programs without an end: a load balancer, a
 *    firewall, a cache. It is opened once, keeps the memory that it was opened with, and never runs out of rows. Take
 *    this one, unless you need what only the other has.
 *  - The table that grows, by the other calls. It is for jobs with an end: a batch, an interval, a capture. It splits
 *    its classes of keys while it is used, and lists its pairs in key order when it is closed. Each seat has room for a
 *    number of updates that is fixed when the table is opened.
 *
 * A table is opened with a number of seats. A thread takes a seat and makes its calls by it, one at a time. No call by
 * a seat or a reader waits for another thread, takes memory or enters the kernel. An update takes at most so many
 * atomic steps as flowdir_lasting_bound(options) or flowdir_bound(options) tells, wherever the other threads stand or
 * stop. Any number of threads may peek, each by a reader of its own; a peek stores nothing.
 *
 * Keys that share the first bits of their hash, as many as `depth` says, are one class. A class has room for `items`
 * keys. One more is answered FLOWDIR_NOROOM. So a table holds at most items << depth keys, and fewer by chance. With 8
 * items and depth 10 some 1,000 keys find room, with none refused in 999 of 1,000 tables; with 16 and 12 some 14,600.
 *
 * What a caller owes, since nothing checks it:
 *  - a pointer is what its type says, and is not null, but for a pointer to no pairs;
 *  - a handle is {0} before it is written, is written by no call while it leads to something, and is never copied;
 *  - a handle is passed to no two calls at once, and goes from one thread to another only over a lock, a thread's start
 *    or join, or a sequentially consistent atomic; so each thread has a seat, a reader or both of its own;
 *  - a handle that a call names leads to what its type says: it was opened, taken or read, and not given up since;
 *  - a seat is given back (flowdir_lasting_rise, flowdir_rise) to the table that it came from;
 *  - malloc, realloc and free are those of one allocator, which aligns to 16 bytes as glibc's does;
 *  - no call is made in a signal handler, or in the forked child of a process with threads.
 *
 * All calls answer a flowdir_status, but for those that cannot fail. After any answer but FLOWDIR_OK nothing happened:
 * every handle leads to what it led to, and nothing was written. Want of memory is told by FLOWDIR_MEMORY, and the call
 * can be made again.
 */
#ifndef FLOWDIR_H
#define FLOWDIR_H

#include <stddef.h>
#include <stdint.h>

/* The version of this header and of its library. */
#define FLOWDIR_VERSION "0.2.0"
#define FLOWDIR_VERSION_MAJOR 0
#define FLOWDIR_VERSION_MINOR 2
#define FLOWDIR_VERSION_PATCH 0

#ifdef __cplusplus
extern "C" {
#endif

/* A key: five words, whatever they mean. Two keys are one where all words are equal. */
struct flowdir_key { uint64_t k0, k1, k2, k3, k4; };

/* A key with its value and the bytes that were counted of it, both below 2^61. */
struct flowdir_pair { struct flowdir_key key; uint64_t value, bytes; };

enum flowdir_status {
    FLOWDIR_OK = 0,            /* it was done */
    FLOWDIR_MEMORY = 1,        /* memory is wanting */
    FLOWDIR_BAD = 2,           /* a number is out of its range, a key stands twice, or the table is closed, is not, or
                                * its pairs are not listed */
    FLOWDIR_NO_ROOM = 3,       /* more first pairs of one class than it has room for */
    FLOWDIR_FULL = 4,          /* a growing table: the rows of the seat are used up, for every further update */
    FLOWDIR_BUSY = 5,          /* sit: no seat is left; at_rest: a seat is out; close: a seat or a reader is out; sit and
                                * close: the table is closed */
    FLOWDIR_AGAIN = 6          /* a peek at a lasting table was disturbed in each of its tries */
};

enum flowdir_kind {
    FLOWDIR_NEW = 0,           /* the key was inserted */
    FLOWDIR_OLD = 1,           /* the key was there already, with this value: an insert keeps it, a put replaces it */
    FLOWDIR_NOROOM = 2,        /* the key's class has no room for another key */
    FLOWDIR_GONE = 3,          /* the key was taken out, and had this value */
    FLOWDIR_FOUND = 4,         /* the key has this value */
    FLOWDIR_ABSENT = 5,        /* the key is not there */
    FLOWDIR_SUM = 6            /* the key has so many bytes now */
};

struct flowdir_reply {
    uint64_t kind;             /* enum flowdir_kind */
    uint64_t value;            /* with OLD, GONE and FOUND the key's value, with SUM its bytes, else 0 */
    uint64_t steps;            /* atomic steps of the call; 0 for a peek, which takes none that others see */
};

/* ---- The table that lasts
 *
 * Its rows are used again, so no update is refused, and no call answers FLOWDIR_FULL. It begins at its full depth, and
 * never closes: no two threads ever have to meet. No call takes memory but open, sit and read, and none gives any back
 * but rise, leave, drop and free, and an open that fails.
 *
 * A thread takes a seat. When it gives it back, by flowdir_lasting_rise, the next sit of any thread can have it. A
 * thread that ends in the middle of a call takes its seat with it: the others go on, and its rows stay with it. Steps
 * are not counted here: in each reply their number is 0. A seat makes at most 2^48 updates, and asks at most 2^62 times
 * for a row to be held for it, each call once at most; then it answers FLOWDIR_BAD.
 */

/* Handles: the address of what they lead to. */
struct flowdir_lasting { void *at; };
struct flowdir_lasting_seat { void *at; };
struct flowdir_lasting_reader { void *at; };

struct flowdir_lasting_options {
    uint32_t seats;            /* 1 to 8 */
    uint32_t items;            /* room of a class of keys, 1 to 16 */
    uint32_t depth;            /* hash bits that tell classes apart, 0 to 12: there are 2^depth buckets, one a class */
    uint64_t seed;             /* of the hash */
};

/* The most atomic steps of an update, or 0 where the options are out of their ranges. Any number of threads at once. */
uint64_t flowdir_lasting_bound(const struct flowdir_lasting_options *options);

/* The bytes of the words of such a table, which it keeps until it is given up; 0 where the options are out of their
 * ranges. An opening takes as many again while it lasts. Each seat has some memory beside them. Any number of threads
 * at once. */
uint64_t flowdir_lasting_memory(const struct flowdir_lasting_options *options);

/* Opens a table that holds these pairs. BAD: options, values or bytes out of their ranges, which is told before memory
 * is asked for, or a key that stands twice; NO_ROOM: more pairs of one class than it has room for; MEMORY. Any number
 * of threads at once, each with a handle of its own. */
uint32_t flowdir_lasting_open(const struct flowdir_lasting_options *options, const struct flowdir_pair *first,
                              size_t count, struct flowdir_lasting *table);

/* Takes a seat that nobody has now. BUSY: none is left; MEMORY. One thread at a time for a table. */
uint32_t flowdir_lasting_sit(struct flowdir_lasting *table, struct flowdir_lasting_seat *seat);

/* Gives a seat back to the table that it came from; its handle leads to nothing then. BAD: the table has no place for
 * it, which never comes with a seat that came from it. One thread at a time for a table. */
uint32_t flowdir_lasting_rise(struct flowdir_lasting *table, struct flowdir_lasting_seat *seat);

/* Gives the key this value, where it has none: NEW, OLD or NOROOM. BAD: a value of 2^61 or more, or updates used up.
 * Each seat by one thread at a time, all seats and readers at once. */
uint32_t flowdir_lasting_insert(struct flowdir_lasting_seat *seat, const struct flowdir_key *key, uint64_t value,
                                struct flowdir_reply *reply);

/* Takes the key out: GONE or ABSENT. BAD: updates used up. As flowdir_lasting_insert. */
uint32_t flowdir_lasting_remove(struct flowdir_lasting_seat *seat, const struct flowdir_key *key,
                                struct flowdir_reply *reply);

/* Adds so many bytes to the key's: SUM, with their total, which stops at 2^61 - 1, or ABSENT. An insert and a put bring
 * a key with 0 bytes. BAD: 2^61 bytes or more, or updates used up. As flowdir_lasting_insert. */
uint32_t flowdir_lasting_tally(struct flowdir_lasting_seat *seat, const struct flowdir_key *key, uint64_t bytes,
                               struct flowdir_reply *reply);

/* Counts so many bytes of the key: where it is there, they are added to its own, SUM, with their total, which stops at
 * 2^61 - 1; else it gets the value and these bytes, NEW or NOROOM. BAD: a value or bytes of 2^61 or more, or updates
 * used up. As flowdir_lasting_insert. */
uint32_t flowdir_lasting_count(struct flowdir_lasting_seat *seat, const struct flowdir_key *key, uint64_t value,
                               uint64_t bytes, struct flowdir_reply *reply);

/* Gives the key this value, and lets it keep its bytes: OLD, with the value that it had, NEW or NOROOM. BAD: a value of
 * 2^61 or more, or updates used up. As flowdir_lasting_insert. */
uint32_t flowdir_lasting_put(struct flowdir_lasting_seat *seat, const struct flowdir_key *key, uint64_t value,
                             struct flowdir_reply *reply);

/* Asks for the key's value: FOUND or ABSENT. BAD: lookups used up. As flowdir_lasting_insert. A seat is never told to
 * try again. If you only look up, peek: it costs less. */
uint32_t flowdir_lasting_lookup(struct flowdir_lasting_seat *seat, const struct flowdir_key *key,
                                struct flowdir_reply *reply);

/* Copies the pairs of one bucket, in no order, and tells how many there are. There is room for `room` pairs, which is
 * to be no less than items. The pairs are those that the bucket had at one moment of the call; so where no update is
 * under way the copies of all buckets are the pairs of the table. BAD: no such bucket (they are numbered from 0 to
 * 2^depth - 1), too little room, or copies used up. As flowdir_lasting_insert. */
uint32_t flowdir_lasting_look_at(struct flowdir_lasting_seat *seat, uint64_t bucket, struct flowdir_pair *pairs,
                                 size_t room, size_t *count);

/* The same of a table at rest, none of whose seats is out, without taking one. BUSY: one is out. One thread at a time
 * for a table. */
uint32_t flowdir_lasting_at_rest(struct flowdir_lasting *table, uint64_t bucket, struct flowdir_pair *pairs, size_t room,
                                 size_t *count);

/* Takes a reader, of which there may be any number. MEMORY. One thread at a time for a table. */
uint32_t flowdir_lasting_read(struct flowdir_lasting *table, struct flowdir_lasting_reader *reader);

/* Asks for the key's value by loads alone: FOUND or ABSENT, as at one moment of the call. AGAIN: each of so many tries
 * was disturbed by updates; the call can be made again, or a seat asked, which always has an answer. BAD: no tries.
 * Each reader by one thread at a time, all seats and readers at once. */
uint32_t flowdir_lasting_peek(struct flowdir_lasting_reader *reader, const struct flowdir_key *key, uint64_t tries,
                              struct flowdir_reply *reply);

/* Gives a reader up; its handle leads to nothing then. Any number of threads at once, each with a handle of its own. */
void flowdir_lasting_leave(struct flowdir_lasting_reader *reader);

/* Gives a seat up without its table: nobody can have it again, and flowdir_lasting_at_rest answers BUSY from then on.
 * As flowdir_lasting_leave. */
void flowdir_lasting_drop(struct flowdir_lasting_seat *seat);

/* Gives a table up; its handle leads to nothing then. Seats and readers that are out stay usable, and have to be given
 * up too: a seat by flowdir_lasting_drop. Its memory goes with the last of them. One thread at a time for a table. */
void flowdir_lasting_free(struct flowdir_lasting *table);

/* ---- The table that grows
 *
 * It serves as many updates of a seat as it was opened for, and then answers FLOWDIR_FULL to every further update of
 * that seat; lookups and peeks go on. A seat makes at most 4,294,967,294 calls, lookups among them; then it answers
 * FLOWDIR_BAD. Peeks are not counted. A lookup tells in its reply how many atomic steps it took. A peek loads 5 words,
 * and 7 for each key of the bucket that it reads.
 *
 * An exporter that closes its books every interval closes one table and opens the next with the pairs that it left:
 * flowdir_close, flowdir_list, flowdir_reopen, and flowdir_free for the closed one. From the second time on the next
 * table is opened in memory that was kept; examples/c/intervals.c does so.
 */

/* Handles: the address of what they lead to. */
struct flowdir_table { void *at; };
struct flowdir_seat { void *at; };
struct flowdir_reader { void *at; };

/* The rows of one seat: what all its updates can use over the whole life of its table, each number below 2^32. */
struct flowdir_rows { uint64_t op_rows, bucket_rows, bucket_words, directory_rows; };

struct flowdir_options {
    uint32_t seats;            /* 1 to 8 */
    uint32_t items;            /* room of a class of keys, 1 to 16 */
    uint32_t depth;            /* hash bits that tell classes apart, 0 to 12 */
    uint32_t start;            /* the depth that it begins with, 0 to depth; depth if the number of keys is known */
    uint64_t seed;             /* of the hash */
    struct flowdir_rows rows;  /* of each seat: flowdir_rows_for tells what suffices */
};

/* The most atomic steps of an update, or 0 where the options are out of their ranges. Any number of threads at once. */
uint64_t flowdir_bound(const struct flowdir_options *options);

/* The rows with which no update of a seat is refused that makes at most so many. BAD: options out of their ranges. Any
 * number of threads at once. */
uint32_t flowdir_rows_for(const struct flowdir_options *options, uint32_t updates, struct flowdir_rows *rows);

/* The same, for a table to which no more than so many keys come, its first pairs among them: fewer rows where the keys
 * are few, since few classes can then be split. BAD: options out of their ranges, or 2^30 updates or more. Any number
 * of threads at once. */
uint32_t flowdir_rows_by(const struct flowdir_options *options, uint32_t updates, uint64_t keys,
                         struct flowdir_rows *rows);

/* The bytes of the words that an opening takes with these options: those of the table, and as many from which they are
 * copied. Beside them an opening takes (56 * items + 32 * seats + 228) << depth bytes to lay its first pairs out in.
 * flowdir_open gives back both the words to copy from and the layout; a table of flowdir_reopen keeps them. It also
 * takes less than 240,000 bytes for each seat, and copies its first pairs. 0 where the options are out of their ranges.
 * Any number of threads at once. */
uint64_t flowdir_memory(const struct flowdir_options *options);

/* Opens a table that holds these pairs. BAD: options, rows, values or bytes out of their ranges, which is told before
 * memory is asked for, or a key that stands twice; NO_ROOM; MEMORY. Any number of threads at once, each with a handle
 * of its own. */
uint32_t flowdir_open(const struct flowdir_options *options, const struct flowdir_pair *first, size_t count,
                      struct flowdir_table *table);

/* Takes a seat that nobody has had. BUSY: none is left, or the table is closed; MEMORY. One thread at a time for a
 * table. */
uint32_t flowdir_sit(struct flowdir_table *table, struct flowdir_seat *seat);

/* Gives the key this value, where it has none: NEW, OLD or NOROOM. BAD: a value of 2^61 or more, or calls used up;
 * FULL. Each seat by one thread at a time, all seats and readers at once. */
uint32_t flowdir_insert(struct flowdir_seat *seat, const struct flowdir_key *key, uint64_t value,
                        struct flowdir_reply *reply);

/* Takes the key out: GONE or ABSENT. BAD: calls used up; FULL. As flowdir_insert. */
uint32_t flowdir_remove(struct flowdir_seat *seat, const struct flowdir_key *key, struct flowdir_reply *reply);

/* Adds so many bytes to the key's: SUM, with their total, which stops at 2^61 - 1, or ABSENT. An insert and a put
 * bring a key with 0 bytes. BAD: 2^61 bytes or more, or calls used up; FULL. As flowdir_insert. */
uint32_t flowdir_tally(struct flowdir_seat *seat, const struct flowdir_key *key, uint64_t bytes,
                       struct flowdir_reply *reply);

/* Counts so many bytes of the key: where it is there, they are added to its own, SUM, with their total, which stops at
 * 2^61 - 1; else it gets the value and these bytes, NEW or NOROOM. BAD: a value or bytes of 2^61 or more, or calls used
 * up; FULL. As flowdir_insert. */
uint32_t flowdir_count(struct flowdir_seat *seat, const struct flowdir_key *key, uint64_t value, uint64_t bytes,
                       struct flowdir_reply *reply);

/* Gives the key this value, and lets it keep its bytes: OLD, with the value that it had, NEW or NOROOM. BAD: a value of
 * 2^61 or more, or calls used up; FULL. As flowdir_insert. */
uint32_t flowdir_put(struct flowdir_seat *seat, const struct flowdir_key *key, uint64_t value,
                     struct flowdir_reply *reply);

/* Asks for the key's value: FOUND or ABSENT. BAD: calls used up. As flowdir_insert. If you only look up, peek: it costs
 * less. A lookup by a seat loads the done word of every seat too, and stores its own. */
uint32_t flowdir_lookup(struct flowdir_seat *seat, const struct flowdir_key *key, struct flowdir_reply *reply);

/* Gives a seat back to the table that it came from; its handle leads to nothing then. It is not given out again. BAD:
 * the table has no place for it, which never comes with a seat that came from it. One thread at a time for a table. */
uint32_t flowdir_rise(struct flowdir_table *table, struct flowdir_seat *seat);

/* Takes a reader, of which there may be any number. BAD: the table is closed; MEMORY. One thread at a time for a
 * table. */
uint32_t flowdir_read(struct flowdir_table *table, struct flowdir_reader *reader);

/* Asks for the key's value by loads alone: FOUND or ABSENT. At some moment from the first load of this call to its last
 * one the table's one history gives this reply: so the replies of one reader never go back in time. Each reader by one
 * thread at a time, all seats and readers at once. */
uint32_t flowdir_peek(struct flowdir_reader *reader, const struct flowdir_key *key, struct flowdir_reply *reply);

/* Gives a reader up; its handle leads to nothing then. Any number of threads at once, each with a handle of its own. */
void flowdir_leave(struct flowdir_reader *reader);

/* Closes a table each of whose seats was given back or never taken, and whose readers have all left. BUSY. One thread
 * at a time for a table. */
uint32_t flowdir_close(struct flowdir_table *table);

/* Lists the pairs of a closed table in the order of their keys, and tells how many there are. BAD: it is not closed;
 * MEMORY. One thread at a time for a table. */
uint32_t flowdir_list(struct flowdir_table *table, size_t *count);

/* The pair at this place of those that were listed, from 0. BAD: there is none. One thread at a time for a table. */
uint32_t flowdir_pair_at(struct flowdir_table *table, size_t at, struct flowdir_pair *pair);

/* Opens the next table with the pairs that were listed of a closed one, which stays as it is. As flowdir_open, and BAD
 * if that one is not closed or its pairs are not listed; with the same items, depth and seed NO_ROOM never comes. One
 * thread at a time for each of the two.
 *
 * The words of a table are copied from others, which are all 0 before and after. The table that a reopening opens keeps
 * these, and its own reopening finds them: it makes and clears none, or under other options as many as are wanted more.
 * It keeps the layout of its first pairs too, which is made again only under other options. So such a table takes what
 * flowdir_memory tells and the layout, and the closed one half of that, until flowdir_free gives back what each has.
 * After any answer but FLOWDIR_OK the closed one still keeps the words. flowdir_open keeps none. */
uint32_t flowdir_reopen(const struct flowdir_options *options, struct flowdir_table *closed,
                        struct flowdir_table *table);

/* Gives a table up, closed or not, with the words that it keeps; its handle leads to nothing then. Seats and readers
 * that are out stay usable, and have to be given up too: a seat by flowdir_drop. One thread at a time for a table. */
void flowdir_free(struct flowdir_table *table);

/* Gives a seat up without its table: the table can never be closed then. As flowdir_leave. */
void flowdir_drop(struct flowdir_seat *seat);

#ifdef __cplusplus
}
#endif
#endif
