// Makes one report of the reports of the parts of a capture: `merge < PLAN > REPORT`.
//
// The plan says, a line each, `frame PATH`, a report without calls, whose head and bound the merged one has; `shift N`,
// by how many bytes the ending of the whole stands behind that of part 0; then for each part `part CALLER PATH`, its
// report, and behind it `index BEFORE PATH` for each file that has the numbers of its packets, in order; BEFORE is added
// to each. The calls of a part, which one caller made, become those of CALLER, and several parts may have one. Packets
// get their numbers in the whole, and so do sessions, whose values are such numbers. The order is that of the packets. A
// caller's own count after `after` is that of its calls so far, and the others' are 0: no part saw another one.
//
// What is behind the reply, the share and whatever more the head line tells is passed on as it stands. Leaves and counts
// are summed up, of depths and steps the most is told; nobody judges these. No trust is needed: what comes out is judged
// by `flowdir check`. Calls are read and written one by one; the sessions alone are kept. Status 1, and a line that says
// why, if a report is not one of `flowdir serve --seats 1`.
#include <algorithm>
#include <arpa/inet.h>
#include <array>
#include <cstdint>
#include <cstdio>
#include <cstdlib>
#include <cstring>
#include <fcntl.h>
#include <iostream>
#include <queue>
#include <sstream>
#include <string>
#include <string_view>
#include <sys/mman.h>
#include <sys/stat.h>
#include <unistd.h>
#include <vector>

namespace {

using std::string;
using std::string_view;

constexpr size_t ORDER_LINE = 16;

[[noreturn]] void give_up(const string &why) {
    fprintf(stderr, "merge: %s\n", why.c_str());
    exit(1);
}

// ---- a file, and its lines one by one

class Text {
public:
    explicit Text(const string &path) : name(path) {
        int file = open(path.c_str(), O_RDONLY);
        struct stat is {};
        if (file < 0 || fstat(file, &is) != 0) give_up(path + ": " + strerror(errno));
        length = is.st_size;
        if (length > 0) {
            void *bytes = mmap(nullptr, length, PROT_READ, MAP_PRIVATE, file, 0);
            if (bytes == MAP_FAILED) give_up(path + ": " + strerror(errno));
            madvise(bytes, length, MADV_SEQUENTIAL);
            text = static_cast<const char *>(bytes);
        }
        close(file);
    }
    // The next line without its line feed; false at the end.
    bool next(string_view &line) {
        if (at >= length) return false;
        const void *feed = memchr(text + at, '\n', length - at);
        if (feed == nullptr) give_up(name + ": no line feed behind line " + std::to_string(lines + 1));
        line = string_view(text + at, static_cast<const char *>(feed) - (text + at));
        at += line.size() + 1;
        lines++;
        return true;
    }
    [[noreturn]] void bad(const char *why) const { give_up(name + ": line " + std::to_string(lines) + ": " + why); }
    const uint32_t *words() const { return reinterpret_cast<const uint32_t *>(text); }
    size_t size() const { return length; }

private:
    string name;
    const char *text = nullptr;
    size_t length = 0, at = 0, lines = 0;
};

// ---- words

std::vector<string_view> words_of(string_view line) {
    std::vector<string_view> words;
    for (size_t at = 0; at <= line.size();) {
        size_t end = std::min(line.find(' ', at), line.size());
        words.push_back(line.substr(at, end - at));
        at = end + 1;
    }
    return words;
}

// Takes a word off the front.
string_view taken(string_view &line) {
    size_t end = std::min(line.find(' '), line.size());
    string_view word = line.substr(0, end);
    line.remove_prefix(std::min(end + 1, line.size()));
    return word;
}

bool number_of(string_view word, uint64_t &number) {
    if (word.empty() || word.size() > 20) return false;
    number = 0;
    for (char digit : word) {
        if (digit < '0' || digit > '9') return false;
        number = number * 10 + (digit - '0');
    }
    return true;
}

// ---- keys, in the order of docs/FORMATS.md

using Key = std::array<uint64_t, 5>;

bool endpoint_of(string_view text, uint64_t *address, uint64_t &port, bool &six) {
    size_t colon = text.rfind(':');
    if (colon == string_view::npos || !number_of(text.substr(colon + 1), port)) return false;
    six = text[0] == '[';
    uint8_t bytes[16] = {};
    string plain(six ? text.substr(1, colon < 2 ? 0 : colon - 2) : text.substr(0, colon));
    if (inet_pton(six ? AF_INET6 : AF_INET, plain.c_str(), six ? bytes : bytes + 12) != 1) return false;
    for (unsigned half = 0; half < 2; half++) {
        address[half] = 0;
        for (unsigned i = 0; i < 8; i++) address[half] = address[half] << 8 | bytes[8 * half + i];
    }
    return true;
}

bool key_of(string_view text, Key &key) {
    size_t slash = text.rfind('/'), dash = text.find('-');
    if (slash == string_view::npos || dash == string_view::npos || dash > slash) return false;
    uint64_t low, high;
    bool six = false, other = false;
    if (!endpoint_of(text.substr(0, dash), &key[0], low, six)) return false;
    if (!endpoint_of(text.substr(dash + 1, slash - dash - 1), &key[2], high, other) || six != other) return false;
    string_view protocol = text.substr(slash + 1);
    key[4] = (six ? 1ull << 40 : 0) | low << 24 | high << 8 | (protocol == "tcp" ? 6 : 17);
    return true;
}

// ---- what is written

class Output {
public:
    void put(string_view text) {
        if (length + text.size() > sizeof bytes) flush();
        if (text.size() > sizeof bytes) return write_all(text.data(), text.size());
        memcpy(bytes + length, text.data(), text.size());
        length += text.size();
    }
    void put(uint64_t number) {
        char digits[20];
        size_t at = sizeof digits;
        do digits[--at] = '0' + number % 10;
        while ((number /= 10) != 0);
        put(string_view(digits + at, sizeof digits - at));
    }
    void flush() {
        write_all(bytes, length);
        length = 0;
    }

private:
    static void write_all(const char *from, size_t count) {
        while (count > 0) {
            ssize_t written = write(1, from, count);
            if (written < 0 && errno == EINTR) continue;
            if (written <= 0) give_up(string("not written: ") + strerror(errno));
            from += written;
            count -= written;
        }
    }
    char bytes[1 << 18];
    size_t length = 0;
};

Output out;

// ---- a part

struct Session {
    Key key;
    uint64_t value;
    string_view name, bytes;
};

struct Call {
    uint64_t packet;
    string_view front; // VERB KEY [by X] REPLY
    bool is_packet;    // whether a value stands behind the reply that is a packet's number
    uint64_t value;
    string_view behind; // what else stands before `after`
};

struct Part {
    unsigned caller;
    Text report;
    std::vector<uint32_t> index = {};
    Call call = {};

    // The number in the whole of a packet of this part.
    uint64_t whole(string_view word) const {
        uint64_t number;
        if (!number_of(word, number)) report.bad("no number");
        if (number < 1 || number > index.size()) report.bad("no packet of this part");
        return index[number - 1];
    }
    // Reads on to the next call; false behind the last one, where `line` is what stands there.
    bool next(string_view &line) {
        while (report.next(line)) {
            if (line.substr(0, 6) == "order ") continue;
            if (line.substr(0, 5) != "call ") return false;
            read_call(line);
            return true;
        }
        report.bad("no last lines");
    }

private:
    void read_call(string_view line) {
        string_view rest = line.substr(5);
        call.packet = whole(taken(rest));
        if (taken(rest) != "seat" || taken(rest) != "0") report.bad("not of one caller");
        const char *begin = rest.data();
        taken(rest), taken(rest); // the verb and the key
        string_view word = taken(rest);
        if (word == "by") taken(rest), word = taken(rest);
        if (word == "full") report.bad("a call that was refused");
        call.front = string_view(begin, word.data() + word.size() - begin);
        call.is_packet = word == "new" || word == "old" || word == "gone" || word == "found";
        if (call.is_packet) call.value = whole(taken(rest));
        size_t after = rest.rfind(" after ");
        if (after == string_view::npos) report.bad("no call that was answered");
        call.behind = rest.substr(0, after);
    }
};

// ---- the whole

class Merge {
public:
    void read_plan() {
        for (string line; std::getline(std::cin, line);) {
            size_t blank = line.find(' '), next = line.find(' ', blank + 1);
            string word = line.substr(0, blank);
            if (word == "frame") frame = line.substr(blank + 1);
            else if (word == "shift") shift = std::stoull(line.substr(blank + 1));
            else if (word == "part") parts.push_back({unsigned(std::stoul(line.substr(blank + 1))),
                Text(line.substr(next + 1))});
            else if (word == "index") add_index(std::stoull(line.substr(blank + 1)), line.substr(next + 1));
        }
        if (parts.empty() || frame.empty()) give_up("no parts, or no frame");
    }
    void run() {
        read_frame();
        put_head();
        put_calls();
        put_sessions();
        put_tail();
        out.flush();
    }

private:
    void add_index(uint64_t before, const string &path) {
        Text file(path);
        for (size_t i = 0; i < file.size() / 4; i++) parts.back().index.push_back(before + file.words()[i]);
    }
    // The head line of the whole, and the bound of its settings.
    void read_frame() {
        Text text(frame);
        string_view line;
        while (text.next(line)) {
            std::vector<string_view> words = words_of(line);
            if (words[0] == "flowdir") head = line;
            for (size_t i = 0; i + 1 < words.size(); i++) {
                if (words[i] == "bound") bound = words[i + 1];
                if (words[i] == "batch") batch = std::max(1ul, std::stoul(string(words[i + 1])));
                if (words[i] == "seats" && words[0] == "flowdir") seats = std::stoul(string(words[i + 1]));
            }
        }
        if (head.empty() || bound.empty() || seats < 1) give_up(frame + " is no report");
        counts.assign(seats, 0);
        for (const Part &part : parts)
            if (part.caller >= seats) give_up("a caller beyond the frame's");
    }
    // Each part's head has to be that of the whole, but for the number of callers and what they share by.
    static string bare(string_view line) {
        string text;
        std::vector<string_view> words = words_of(line);
        for (size_t i = 0; i < words.size(); i++) {
            bool named = i > 0 && (words[i - 1] == "seats" || words[i - 1] == "share");
            text += named ? "-" : string(words[i]);
            text += ' ';
        }
        return text;
    }
    void put_head() {
        for (Part &part : parts) {
            string_view line;
            if (!part.report.next(line) || line.substr(0, 8) != "flowdir ") part.report.bad("no head line");
            if (bare(line) != bare(head)) part.report.bad("another head line than that of the whole");
        }
        out.put(head);
        out.put("\n");
    }
    void put_calls() {
        using Next = std::pair<uint64_t, size_t>;
        std::priority_queue<Next, std::vector<Next>, std::greater<>> first;
        last.resize(parts.size());
        for (size_t p = 0; p < parts.size(); p++)
            if (parts[p].next(last[p])) first.push({parts[p].call.packet, p});
        uint64_t number = 0;
        while (!first.empty()) {
            auto [packet, p] = first.top();
            first.pop();
            if ((packet - 1) / batch != number) put_order();
            number = (packet - 1) / batch;
            put_call(parts[p]);
            order.push_back(packet);
            if (parts[p].next(last[p])) {
                if (parts[p].call.packet <= packet) parts[p].report.bad("its packets do not ascend");
                first.push({parts[p].call.packet, p});
            }
        }
        put_order();
    }
    void put_call(const Part &part) {
        const Call &call = part.call;
        out.put("call ");
        out.put(call.packet);
        out.put(" seat ");
        out.put(part.caller);
        out.put(" ");
        out.put(call.front);
        if (call.is_packet) {
            out.put(" ");
            out.put(call.value);
        }
        out.put(" ");
        out.put(call.behind);
        for (unsigned s = 0; s < seats; s++) {
            out.put(s == 0 ? " after " : ",");
            if (s == part.caller) out.put(counts[s]);
            else out.put("0");
        }
        out.put("\n");
        counts[part.caller]++;
    }
    void put_order() {
        for (size_t i = 0; i < order.size(); i++) {
            out.put(i % ORDER_LINE == 0 ? "order " : " ");
            out.put(order[i]);
            if (i % ORDER_LINE == ORDER_LINE - 1 || i + 1 == order.size()) out.put("\n");
        }
        order.clear();
    }
    // Those of each part are in key order; so are all.
    void put_sessions() {
        std::vector<Session> sessions;
        for (size_t p = 0; p < parts.size(); p++) {
            while (last[p].substr(0, 8) == "session ") {
                std::vector<string_view> words = words_of(last[p]);
                Session session = {};
                if (words.size() != 5 || !key_of(words[1], session.key)) parts[p].report.bad("no session");
                session.value = parts[p].whole(words[2]);
                session.name = words[1];
                session.bytes = words[4];
                sessions.push_back(session);
                if (!parts[p].report.next(last[p])) parts[p].report.bad("no last lines");
            }
        }
        std::sort(sessions.begin(), sessions.end(), [](const Session &a, const Session &b) { return a.key < b.key; });
        for (const Session &session : sessions) {
            out.put("session ");
            out.put(session.name);
            out.put(" ");
            out.put(session.value);
            out.put(" bytes ");
            out.put(session.bytes);
            out.put("\n");
        }
    }
    // The last lines, each of all parts at once.
    void put_tail() {
        for (bool more = true; more;) {
            put_last(words_of(last[0]));
            size_t ended = 0;
            for (size_t p = 0; p < parts.size(); p++) ended += !parts[p].report.next(last[p]);
            more = ended == 0;
            if (!more && ended != parts.size()) give_up("parts that end otherwise");
        }
    }
    void put_last(std::vector<string_view> first) {
        std::vector<string_view> of_limit;
        std::vector<uint64_t> numbers(first.size());
        for (size_t p = 0; p < parts.size(); p++) {
            std::vector<string_view> words = words_of(last[p]);
            if (words[0] != first[0]) parts[p].report.bad("another line than that of part 0");
            if (words[0] == "input" && words.size() > 1 && words[1] == "limit") of_limit = words;
            for (size_t i = 0; i < first.size() && i < words.size(); i++) {
                uint64_t number;
                if (!number_of(words[i], number)) continue;
                bool most = first[0] == "steps" || first[0] == "leaves";
                numbers[i] = most ? std::max(numbers[i], number) : numbers[i] + number;
            }
        }
        if (first[0] == "input") return put_input(of_limit.empty() ? first : of_limit);
        for (size_t i = 0; i < first.size(); i++) {
            uint64_t number;
            if (i > 0) out.put(" ");
            if (i > 0 && first[i - 1] == "bound") out.put(bound);
            else if (number_of(first[i], number)) out.put(numbers[i]);
            else out.put(first[i]);
        }
        out.put("\n");
    }
    // That of part 0, where it stands in the whole; a part of which not all was served has the say.
    void put_input(const std::vector<string_view> &words) {
        for (size_t i = 0; i < words.size(); i++) {
            uint64_t offset;
            if (i > 0) out.put(" ");
            if (i > 0 && words[i - 1] == "at" && number_of(words[i], offset)) out.put(offset + shift);
            else out.put(words[i]);
        }
        out.put("\n");
    }

    string frame;
    string_view head, bound;
    std::vector<Part> parts;
    std::vector<string_view> last;
    std::vector<uint64_t> counts, order;
    unsigned seats = 0;
    uint64_t shift = 0, batch = 2048; // packets that are served at a time, as the head line tells it
};

} // namespace

int main() {
    Merge merge;
    merge.read_plan();
    merge.run();
}
