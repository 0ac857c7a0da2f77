/* flowdir.hpp: the table for C++17. Its types meet what flowdir.h asks of a caller, but for the allocator: handles
 * cannot be copied, and a seat keeps the address of its table and goes back to it. A table has to outlive its seats, and
 * sit, read and the end of a seat are for one thread at a time. */
#ifndef FLOWDIR_HPP
#define FLOWDIR_HPP

#include "flowdir.h"

#include <cstddef>
#include <initializer_list>
#include <new>
#include <optional>
#include <stdexcept>
#include <utility>
#include <vector>

namespace flowdir {

using Key = flowdir_key;
using Pair = flowdir_pair;
using Options = flowdir_options;

/* A status that is no answer to a call: BAD, NO_ROOM or BUSY. */
class Refused : public std::runtime_error {
public:
    explicit Refused(uint32_t status) : std::runtime_error("flowdir: refused"), status_(status) {}
    uint32_t status() const { return status_; }

private:
    uint32_t status_;
};

inline void check(uint32_t status) {
    if (status == FLOWDIR_MEMORY) throw std::bad_alloc();
    if (status != FLOWDIR_OK) throw Refused(status);
}

/* The rows that suffice a seat for so many updates. */
inline Options with_rows(Options options, uint32_t updates) {
    check(flowdir_rows_for(&options, updates, &options.rows));
    return options;
}

/* The same, where no more than so many keys come. */
inline Options with_rows(Options options, uint32_t updates, uint64_t keys) {
    check(flowdir_rows_by(&options, updates, keys, &options.rows));
    return options;
}

/* The bytes of the words that an opening takes: those of the table, and as many from which they are copied. */
inline uint64_t memory(const Options &options) { return flowdir_memory(&options); }

/* One thread's place at a table. It goes back to its table when it ends, so the table has to outlive it. */
class Seat {
public:
    Seat(Seat &&other) noexcept : table_(other.table_), seat_(std::exchange(other.seat_, {})) {}
    Seat(const Seat &) = delete;
    Seat &operator=(const Seat &) = delete;
    Seat &operator=(Seat &&) = delete;
    ~Seat() {
        if (seat_.at) flowdir_rise(table_, &seat_);
    }

    /* Nothing: the rows of the seat are used up. */
    std::optional<flowdir_reply> insert(const Key &key, uint64_t value) {
        flowdir_reply reply;
        return told(flowdir_insert(&seat_, &key, value, &reply), reply);
    }

    std::optional<flowdir_reply> remove(const Key &key) {
        flowdir_reply reply;
        return told(flowdir_remove(&seat_, &key, &reply), reply);
    }

    /* Adds bytes to the key's, if it is there. */
    std::optional<flowdir_reply> tally(const Key &key, uint64_t bytes) {
        flowdir_reply reply;
        return told(flowdir_tally(&seat_, &key, bytes, &reply), reply);
    }

    /* Adds bytes to the key's, or inserts the key with this value and these bytes. */
    std::optional<flowdir_reply> count(const Key &key, uint64_t value, uint64_t bytes) {
        flowdir_reply reply;
        return told(flowdir_count(&seat_, &key, value, bytes, &reply), reply);
    }

    /* Gives the key this value, whether it is there or not. */
    std::optional<flowdir_reply> put(const Key &key, uint64_t value) {
        flowdir_reply reply;
        return told(flowdir_put(&seat_, &key, value, &reply), reply);
    }

    /* The key's value, if it is there. */
    std::optional<uint64_t> find(const Key &key) {
        flowdir_reply reply;
        check(flowdir_lookup(&seat_, &key, &reply));
        return reply.kind == FLOWDIR_FOUND ? std::optional<uint64_t>(reply.value) : std::nullopt;
    }

private:
    friend class Table;
    explicit Seat(flowdir_table *table) : table_(table) { check(flowdir_sit(table, &seat_)); }

    static std::optional<flowdir_reply> told(uint32_t status, const flowdir_reply &reply) {
        if (status == FLOWDIR_FULL) return std::nullopt;
        check(status);
        return reply;
    }

    flowdir_table *table_;
    flowdir_seat seat_{};
};

/* One thread's view of a table, by loads alone. */
class Reader {
public:
    Reader(Reader &&other) noexcept : reader_(std::exchange(other.reader_, {})) {}
    Reader(const Reader &) = delete;
    Reader &operator=(const Reader &) = delete;
    Reader &operator=(Reader &&) = delete;
    ~Reader() {
        if (reader_.at) flowdir_leave(&reader_);
    }

    std::optional<uint64_t> find(const Key &key) {
        flowdir_reply reply;
        check(flowdir_peek(&reader_, &key, &reply));
        return reply.kind == FLOWDIR_FOUND ? std::optional<uint64_t>(reply.value) : std::nullopt;
    }

private:
    friend class Table;
    explicit Reader(flowdir_table *table) { check(flowdir_read(table, &reader_)); }

    flowdir_reader reader_{};
};

/* A table. sit, read, close and reopen are for one thread at a time. */
class Table {
public:
    explicit Table(const Options &options, const std::vector<Pair> &first = {}) {
        check(flowdir_open(&options, first.data(), first.size(), &table_));
    }
    Table(const Table &) = delete;
    Table &operator=(const Table &) = delete;
    ~Table() {
        if (table_.at) flowdir_free(&table_);
    }

    Seat sit() { return Seat(&table_); }
    Reader read() { return Reader(&table_); }

    /* Ends the table, and gives its pairs in the order of their keys. All seats are gone again. If memory is short for
     * the pairs, the table stays closed, and close can be called again. */
    std::vector<Pair> close() {
        if (!is_closed_) check(flowdir_close(&table_));
        is_closed_ = true;
        std::size_t count = 0;
        check(flowdir_list(&table_, &count));
        std::vector<Pair> pairs(count);
        for (std::size_t at = 0; at < count; at++) check(flowdir_pair_at(&table_, at, &pairs[at]));
        return pairs;
    }

    /* Opens the table anew after close, with the pairs that it left, in the words that it keeps. If that fails, it stays
     * closed. */
    void reopen(const Options &options) {
        flowdir_table next{};
        check(flowdir_reopen(&options, &table_, &next));
        flowdir_free(&table_);
        table_ = next;
        is_closed_ = false;
    }

private:
    flowdir_table table_{};
    bool is_closed_ = false;
};

/* ---- The table that lasts */

using LastingOptions = flowdir_lasting_options;

/* The bytes of the words of such a table, or 0 where the options are out of their ranges. */
inline uint64_t memory(const LastingOptions &options) { return flowdir_lasting_memory(&options); }

/* The most atomic steps of an update, or 0 where the options are out of their ranges. */
inline uint64_t bound(const LastingOptions &options) { return flowdir_lasting_bound(&options); }

/* One thread's place at a lasting table. It goes back to its table when it ends, and can be taken again. */
class LastingSeat {
public:
    LastingSeat(LastingSeat &&other) noexcept : table_(other.table_), seat_(std::exchange(other.seat_, {})) {}
    LastingSeat(const LastingSeat &) = delete;
    LastingSeat &operator=(const LastingSeat &) = delete;
    LastingSeat &operator=(LastingSeat &&) = delete;
    ~LastingSeat() {
        if (seat_.at) flowdir_lasting_rise(table_, &seat_);
    }

    flowdir_reply insert(const Key &key, uint64_t value) {
        flowdir_reply reply;
        check(flowdir_lasting_insert(&seat_, &key, value, &reply));
        return reply;
    }

    flowdir_reply remove(const Key &key) {
        flowdir_reply reply;
        check(flowdir_lasting_remove(&seat_, &key, &reply));
        return reply;
    }

    /* Adds bytes to the key's, if it is there. */
    flowdir_reply tally(const Key &key, uint64_t bytes) {
        flowdir_reply reply;
        check(flowdir_lasting_tally(&seat_, &key, bytes, &reply));
        return reply;
    }

    /* Adds bytes to the key's, or inserts the key with this value and these bytes. */
    flowdir_reply count(const Key &key, uint64_t value, uint64_t bytes) {
        flowdir_reply reply;
        check(flowdir_lasting_count(&seat_, &key, value, bytes, &reply));
        return reply;
    }

    /* Gives the key this value, whether it is there or not. */
    flowdir_reply put(const Key &key, uint64_t value) {
        flowdir_reply reply;
        check(flowdir_lasting_put(&seat_, &key, value, &reply));
        return reply;
    }

    /* The key's value, if it is there. */
    std::optional<uint64_t> find(const Key &key) {
        flowdir_reply reply;
        check(flowdir_lasting_lookup(&seat_, &key, &reply));
        return reply.kind == FLOWDIR_FOUND ? std::optional<uint64_t>(reply.value) : std::nullopt;
    }

    /* The pairs of one bucket, at one moment of the call, in no order. The vector takes memory. */
    std::vector<Pair> look_at(uint64_t bucket) {
        std::vector<Pair> pairs(16);
        std::size_t count = 0;
        check(flowdir_lasting_look_at(&seat_, bucket, pairs.data(), pairs.size(), &count));
        pairs.resize(count);
        return pairs;
    }

private:
    friend class LastingTable;
    explicit LastingSeat(flowdir_lasting *table) : table_(table) { check(flowdir_lasting_sit(table, &seat_)); }

    flowdir_lasting *table_;
    flowdir_lasting_seat seat_{};
};

/* One thread's view of a lasting table, by loads alone. */
class LastingReader {
public:
    LastingReader(LastingReader &&other) noexcept : reader_(std::exchange(other.reader_, {})) {}
    LastingReader(const LastingReader &) = delete;
    LastingReader &operator=(const LastingReader &) = delete;
    LastingReader &operator=(LastingReader &&) = delete;
    ~LastingReader() {
        if (reader_.at) flowdir_lasting_leave(&reader_);
    }

    /* The reply of a peek, FOUND or ABSENT, or nothing if each of so many tries was disturbed. */
    std::optional<flowdir_reply> peek(const Key &key, uint64_t tries) {
        flowdir_reply reply;
        uint32_t status = flowdir_lasting_peek(&reader_, &key, tries, &reply);
        if (status == FLOWDIR_AGAIN) return std::nullopt;
        check(status);
        return reply;
    }

private:
    friend class LastingTable;
    explicit LastingReader(flowdir_lasting *table) { check(flowdir_lasting_read(table, &reader_)); }

    flowdir_lasting_reader reader_{};
};

/* A lasting table. sit, read, the end of a seat and at_rest are for one thread at a time. */
class LastingTable {
public:
    explicit LastingTable(const LastingOptions &options, const std::vector<Pair> &first = {}) {
        check(flowdir_lasting_open(&options, first.data(), first.size(), &table_));
    }
    LastingTable(const LastingTable &) = delete;
    LastingTable &operator=(const LastingTable &) = delete;
    ~LastingTable() {
        if (table_.at) flowdir_lasting_free(&table_);
    }

    LastingSeat sit() { return LastingSeat(&table_); }
    LastingReader read() { return LastingReader(&table_); }

    /* The pairs of one bucket, while no seat is out. */
    std::vector<Pair> at_rest(uint64_t bucket) {
        std::vector<Pair> pairs(16);
        std::size_t count = 0;
        check(flowdir_lasting_at_rest(&table_, bucket, pairs.data(), pairs.size(), &count));
        pairs.resize(count);
        return pairs;
    }

private:
    flowdir_lasting table_{};
};

}  // namespace flowdir

#endif
