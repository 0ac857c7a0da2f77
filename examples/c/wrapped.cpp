// The table from C++: four threads insert, one peeks, and what is left is what was inserted; with that it is opened anew.
#include "flowdir.hpp"

#include <cstdio>
#include <thread>

/* The same on a table that lasts, whose seats are taken again and again. */
static bool lasts() {
    flowdir::LastingOptions options{4, 16, 4, 7};
    flowdir::LastingTable table(options, {{{1, 2, 3, 4, 5}, 6, 0}});
    bool wrong = flowdir::memory(options) == 0 || flowdir::bound(options) == 0;
    for (int turn = 0; turn < 3; turn++) {
        std::vector<flowdir::LastingSeat> seats;
        for (int i = 0; i < 4; i++) seats.push_back(table.sit());
        flowdir::LastingReader reader = table.read();
        std::vector<std::thread> threads;
        for (uint64_t i = 0; i < 4; i++)
            threads.emplace_back([seat = &seats[i], i] {
                for (uint64_t n = 0; n < 1000; n++) seat->count({9, i, 0, 0, 0}, i, n);
            });
        for (int i = 0; i < 1000; i++) {
            auto reply = reader.peek({1, 2, 3, 4, 5}, 4);
            wrong |= reply && reply->value != 6u;
        }
        for (auto &thread : threads) thread.join();
        wrong |= seats[3].find({9, 2, 0, 0, 0}) != 2u || seats[0].put({1, 2, 3, 4, 5}, 6).kind != FLOWDIR_OLD;
    }
    uint64_t pairs = 0, bytes = 0;
    for (uint64_t bucket = 0; bucket < 16; bucket++)
        for (auto &pair : table.at_rest(bucket)) pairs++, bytes += pair.bytes;
    return wrong || pairs != 5 || bytes != 3 * 4 * 499500;
}

int main() {
    flowdir::Options options{4, 8, 10, 0, 7, {}};
    options = flowdir::with_rows(options, 1000);
    flowdir::Table table(options, {{{1, 2, 3, 4, 5}, 6, 0}});
    bool wrong = lasts();
    {
        std::vector<flowdir::Seat> seats;
        for (int i = 0; i < 4; i++) seats.push_back(table.sit());
        flowdir::Reader reader = table.read();
        std::vector<std::thread> threads;
        for (uint64_t i = 0; i < 4; i++)
            threads.emplace_back([seat = &seats[i], i] {
                for (uint64_t n = 0; n < 100; n++) seat->insert({9, i, n, 0, 0}, n);
            });
        for (int i = 0; i < 1000; i++) wrong |= reader.find({1, 2, 3, 4, 5}) != 6u;
        for (auto &thread : threads) thread.join();
        for (auto &seat : seats) seat.tally({1, 2, 3, 4, 5}, 1500);
        wrong |= seats[0].count({1, 2, 3, 4, 5}, 9, 40)->value != 6040u || seats[1].put({1, 2, 3, 4, 5}, 8)->value != 6u;
        wrong |= seats[2].count({9, 5, 0, 0, 0}, 9, 40)->kind != FLOWDIR_NEW || reader.find({1, 2, 3, 4, 5}) != 8u;
        wrong |= seats[0].find({9, 3, 99, 0, 0}) != 99u || reader.find({9, 4, 0, 0, 0}).has_value();
    }
    const auto left = table.close();
    wrong |= left.size() != 402 || left[0].bytes != 6040 || left[401].value != 9 || left[401].bytes != 40;
    table.reopen(options);
    wrong |= table.read().find({9, 0, 7, 0, 0}) != 7u || table.sit().find({9, 3, 99, 0, 0}) != 99u;
    try {
        flowdir::Table none({9, 8, 10, 0, 7, {}});
        wrong = true;
    } catch (const flowdir::Refused &refused) {
        wrong |= refused.status() != FLOWDIR_BAD;
    }
    std::puts(wrong ? "WRONG" : "as it should be");
    return wrong;
}
