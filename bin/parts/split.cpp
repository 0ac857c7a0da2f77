// Splits captures by flow: `split LINK FOLDER TASK PARTS TABLE HOW CAPTURE..`, or counts them: `split LINK --count
// CAPTURE..`. LINK is the number of the link type that is read, one of those of `flowdir serve --link`.
//
// A packet's class is a symmetric hash of its two addresses, so both ways of a flow have one class, and so have all
// fragments of a datagram. TABLE has a byte for each class, its part; `-` stands for class modulo PARTS. A packet without
// addresses goes to part 0. Part P of this task is FOLDER/TASK.P.packets, and FOLDER/TASK.P.index has the number of each
// of its packets among all packets of the captures given, from 1, as 32 bits. HOW is one of
//
// own    one capture is given. Each part is a capture of its own, in the format of that one, and part 0 has its ending:
//        what is wrong or cut in the one is so in part 0, `shift` bytes earlier.
// joined the captures are one input, one behind the other. Each part is records of a savefile, little-endian and without
//        its head. A packet of an interface of another link type becomes one without bytes, which is passed as well.
//
// Written on standard output: `capture PACKETS ENDING` for each capture, in order, where ENDING is that of a report of
// `flowdir serve` (docs/FORMATS.md), or `unread` and why; `part PACKETS BYTES` for each part; `shift N`. With --count:
// `capture` lines, then `class PACKETS` for each class. No trust is needed in any of it: the reports are judged.
// Sources: pcap-savefile(5), draft-ietf-opsawg-pcapng, the registry of link types, IEEE 802.1Q, RFC 791, RFC 8200,
// RFC 1661; SplitMix64's output function.
#include <cstdint>
#include <cstdio>
#include <cstdlib>
#include <cstring>
#include <fcntl.h>
#include <string>
#include <sys/wait.h>
#include <unistd.h>
#include <vector>

namespace {

constexpr unsigned CLASSES = 4096, MOST_PARTS = 256;
constexpr uint32_t MOST_CAPTURED = 262144, MOST_BLOCK = 16777216, MOST_INTERFACES = 256;
constexpr uint32_t SECTION = 0x0a0d0d0a, INTERFACE = 1, SIMPLE = 3, ENHANCED = 6;

uint32_t swapped(uint32_t word) { return __builtin_bswap32(word); }

uint32_t word_at(const uint8_t *bytes, bool turned) {
    uint32_t word;
    memcpy(&word, bytes, 4);
    return turned ? swapped(word) : word;
}

unsigned half_at(const uint8_t *bytes, bool turned) {
    return turned ? bytes[0] << 8 | bytes[1] : bytes[1] << 8 | bytes[0];
}

std::string hexadecimal(const uint8_t *bytes, unsigned count) {
    std::string text;
    char two[3];
    for (unsigned i = 0; i < count; i++) {
        snprintf(two, sizeof two, "%02x", bytes[i]);
        text += two;
    }
    return text;
}

// ---- where a packet goes

uint64_t spread(uint64_t z) {
    z = (z ^ (z >> 30)) * 0xbf58476d1ce4e5b9u;
    z = (z ^ (z >> 27)) * 0x94d049bb133111ebu;
    return z ^ (z >> 31);
}

uint64_t hash_of(const uint8_t *address, unsigned length) {
    uint64_t hash = length;
    for (unsigned i = 0; i < length; i += 4) hash = spread(hash + 0x9e3779b97f4a7c15u + word_at(address + i, false));
    return hash;
}

// The link type that is read.
uint32_t link_read = 1;

// What an EtherType at that place tells before a packet at another: 4, 6, or 0 for neither. Up to four tags are looked
// through, whatever --tags says: a packet that is passed has no flow.
unsigned typed(const uint8_t *frame, uint32_t length, unsigned place, unsigned &at) {
    for (unsigned tags = 0; tags <= 4 && length >= at && length >= place + 2; tags++) {
        unsigned type = frame[place] << 8 | frame[place + 1];
        if (type == 0x0800) return 4;
        if (type == 0x86dd) return 6;
        if (type != 0x8100 && type != 0x88a8 && type != 0x9100) return 0;
        place = at + 2;
        at += 4;
    }
    return 0;
}

// The version of the packet in a frame, and where it begins; 0 for none. Where the head of the link tells no version,
// or tells it once more, it is that of the packet's first byte.
unsigned version_of(const uint8_t *frame, uint32_t length, unsigned &at) {
    switch (link_read) {
    case 1: return typed(frame, length, 12, at = 14);
    case 113: return typed(frame, length, 14, at = 16);
    case 276: return typed(frame, length, 0, at = 20);
    case 0:
    case 108: at = 4; break;
    case 9:
        at = length >= 2 && frame[0] == 0xff && frame[1] == 3 ? 2 : 0;
        at += length > at && frame[at] % 2 == 1 ? 1 : 2;
        break;
    default: at = 0;
    }
    return length > at ? frame[at] >> 4 : 0;
}

// The class of a frame: of its two addresses; CLASSES if it has none.
unsigned class_of(const uint8_t *frame, uint32_t length) {
    unsigned at = 0, version = version_of(frame, length, at);
    if (version == 4 && length >= at + 20)
        return (hash_of(frame + at + 12, 4) + hash_of(frame + at + 16, 4)) % CLASSES;
    if (version == 6 && length >= at + 40)
        return (hash_of(frame + at + 8, 16) + hash_of(frame + at + 24, 16)) % CLASSES;
    return CLASSES;
}

// ---- an input, of which bytes are asked for at its front; gzip unpacks one that is compressed

class Input {
public:
    explicit Input(const char *name) {
        file = open(name, O_RDONLY);
        if (file < 0) {
            failure = strerror(errno);
            return;
        }
        uint8_t magic[2];
        if (pread(file, magic, 2, 0) == 2 && magic[0] == 0x1f && magic[1] == 0x8b) unpack();
    }
    ~Input() { finish(); }
    Input(const Input &) = delete;
    Input &operator=(const Input &) = delete;

    // As many bytes at the front as there are, up to this many.
    size_t have(size_t wanted) {
        while (end - at < wanted && !over) {
            if (at > 0 && buffer.size() - at < wanted) {
                memmove(buffer.data(), buffer.data() + at, end - at);
                end -= at;
                at = 0;
            }
            if (buffer.size() - at < wanted) buffer.resize(at + wanted);
            ssize_t count = read(file, buffer.data() + end, buffer.size() - end);
            if (count < 0 && errno == EINTR) continue;
            if (count < 0) failure = strerror(errno);
            if (count <= 0) over = true;
            else end += count;
        }
        return end - at < wanted ? end - at : wanted;
    }
    const uint8_t *front() const { return buffer.data() + at; }
    void pass(size_t count) { at += count, offset += count; }

    // Closes it; a packer that failed has failed the input.
    void finish() {
        if (file >= 0) close(file);
        file = -1;
        if (packer > 0) {
            int status = 0;
            waitpid(packer, &status, 0);
            if (over && status != 0 && failure.empty()) failure = "gzip does not unpack it whole";
            packer = 0;
        }
    }
    uint64_t offset = 0;
    std::string failure;

private:
    void unpack() {
        int ends[2];
        if (pipe(ends) != 0) return;
        packer = fork();
        if (packer == 0) {
            dup2(file, 0);
            dup2(ends[1], 1);
            close(ends[0]);
            close(ends[1]);
            execlp("gzip", "gzip", "-dc", static_cast<char *>(nullptr));
            _exit(127);
        }
        close(ends[1]);
        close(file);
        file = ends[0];
    }
    int file = -1;
    pid_t packer = 0;
    bool over = false;
    size_t at = 0, end = 0;
    std::vector<uint8_t> buffer = std::vector<uint8_t>(1 << 20);
};

// ---- what a capture is gone through for

struct Visitor {
    virtual ~Visitor() = default;
    // A savefile's head, and what stands before the packets of a pcapng section: its blocks of sections and interfaces.
    virtual void frame(const uint8_t *bytes, size_t length) = 0;
    // A packet: its frame, if it is of the link type that is read, and the bytes that hold it in the capture.
    virtual void packet(const uint8_t *frame, uint32_t length, const uint8_t *whole, size_t size) = 0;
    // The bytes from the first on that are no packet; and that the head itself is none.
    virtual void ending(Input &input, bool of_head) = 0;
};

// How a capture ended, as a report says it.
std::string done(size_t rest) { return "done rest " + std::to_string(rest); }

std::string fault(const char *what, uint64_t offset, const std::string &found) {
    return std::string("fault ") + what + " at " + std::to_string(offset) + " found " + found;
}

std::string through_savefile(Input &input, Visitor &visitor, uint64_t &packets) {
    const uint8_t *head = input.front();
    uint32_t magic = word_at(head, false);
    bool turned = magic == 0xd4c3b2a1 || magic == 0x4d3cb2a1;
    std::string wrong;
    if (!turned && magic != 0xa1b2c3d4 && magic != 0xa1b23c4d) {
        wrong = fault("magic", 0, hexadecimal(head, 4));
    } else if (half_at(head + 4, turned) != 2 || half_at(head + 6, turned) != 4) {
        wrong = fault("version", 4,
            std::to_string(half_at(head + 4, turned)) + "." + std::to_string(half_at(head + 6, turned)));
    } else if ((word_at(head + 20, turned) & 0xffff) != link_read) {
        wrong = fault("link", 20, std::to_string(word_at(head + 20, turned) & 0xffff));
    }
    if (!wrong.empty()) {
        visitor.ending(input, true);
        return wrong;
    }
    visitor.frame(head, 24);
    input.pass(24);
    for (;;) {
        size_t there = input.have(16);
        if (there < 16) {
            visitor.ending(input, false);
            return done(there);
        }
        uint32_t captured = word_at(input.front() + 8, turned);
        if (captured > MOST_CAPTURED) {
            visitor.ending(input, false);
            return fault("length", input.offset, std::to_string(captured));
        }
        there = input.have(16 + captured);
        if (there < 16 + captured) {
            visitor.ending(input, false);
            return done(there);
        }
        packets++;
        visitor.packet(input.front() + 16, captured, input.front(), 16 + captured);
        input.pass(16 + captured);
    }
}

struct Interface {
    uint32_t link, snapshot;
};

// A pcapng block by block.
class Blocks {
public:
    Blocks(Input &from, Visitor &by) : input(from), visitor(by) {}

    std::string through(uint64_t &packets) {
        std::string wrong;
        while (wrong.empty()) {
            size_t there = input.have(12);
            if (there < 12) return ended(done(there));
            if (word_at(input.front(), false) == SECTION) {
                wrong = order(input.front() + 8);
                if (!wrong.empty()) break;
            }
            uint32_t type = word_at(input.front(), turned), length = word_at(input.front() + 4, turned);
            if (length % 4 != 0 || length > MOST_BLOCK || length < least(type)) {
                wrong = fault("block-length", input.offset, std::to_string(length));
                break;
            }
            there = input.have(length);
            if (there < length) return ended(done(there));
            uint32_t second = word_at(input.front() + length - 4, turned);
            if (second != length) wrong = fault("trailer", input.offset, std::to_string(second));
            else wrong = block(type, length, packets);
            if (wrong.empty()) input.pass(length);
        }
        return ended(wrong);
    }

private:
    std::string ended(const std::string &said) {
        visitor.ending(input, false);
        return said;
    }
    std::string order(const uint8_t *magic) {
        uint32_t word = word_at(magic, false);
        if (word != 0x1a2b3c4d && word != 0x4d3c2b1a) return fault("byte-order", input.offset, hexadecimal(magic, 4));
        turned = word == 0x4d3c2b1a;
        return "";
    }
    static uint32_t least(uint32_t type) {
        return type == SECTION ? 28 : type == INTERFACE ? 20 : type == ENHANCED ? 32 : type == SIMPLE ? 16 : 12;
    }
    std::string block(uint32_t type, uint32_t length, uint64_t &packets) {
        const uint8_t *bytes = input.front();
        if (type == SECTION) {
            unsigned major = half_at(bytes + 12, turned), minor = half_at(bytes + 14, turned);
            if (major != 1)
                return fault("section-version", input.offset, std::to_string(major) + "." + std::to_string(minor));
            interfaces.clear();
            visitor.frame(bytes, length);
        } else if (type == INTERFACE) {
            if (interfaces.size() == MOST_INTERFACES)
                return fault("interfaces", input.offset, std::to_string(MOST_INTERFACES + 1));
            interfaces.push_back({half_at(bytes + 8, turned), word_at(bytes + 12, turned)});
            visitor.frame(bytes, length);
        } else if (type == ENHANCED) {
            return packet(word_at(bytes + 8, turned), word_at(bytes + 20, turned), 28, length, packets);
        } else if (type == SIMPLE) {
            uint32_t captured = word_at(bytes + 8, turned);
            if (!interfaces.empty() && interfaces[0].snapshot != 0 && interfaces[0].snapshot < captured)
                captured = interfaces[0].snapshot;
            return packet(0, captured, 12, length, packets);
        }
        return "";
    }
    std::string packet(uint32_t number, uint32_t captured, uint32_t at, uint32_t length, uint64_t &packets) {
        if (number >= interfaces.size()) return fault("interface", input.offset, std::to_string(number));
        if (captured > MOST_CAPTURED || at + ((captured + 3) & ~3u) + 4 > length)
            return fault("captured-length", input.offset, std::to_string(captured));
        packets++;
        bool is_read = interfaces[number].link == link_read;
        visitor.packet(input.front() + at, is_read ? captured : 0, input.front(), length);
        return "";
    }
    Input &input;
    Visitor &visitor;
    bool turned = false;
    std::vector<Interface> interfaces;
};

// Goes through a capture, and says how it ended.
std::string through(const char *name, Visitor &visitor, uint64_t &packets) {
    Input input(name);
    if (!input.failure.empty()) return "unread " + input.failure;
    size_t there = input.have(24);
    std::string said;
    if (there < 24) {
        visitor.ending(input, true);
        said = fault("short-header", 0, std::to_string(there));
    } else if (word_at(input.front(), false) == SECTION) {
        said = Blocks(input, visitor).through(packets);
    } else {
        said = through_savefile(input, visitor, packets);
    }
    input.finish();
    return input.failure.empty() ? said : "unread " + input.failure;
}

// ---- counting

struct Counting : Visitor {
    std::vector<uint64_t> classes = std::vector<uint64_t>(CLASSES + 1);
    void frame(const uint8_t *, size_t) override {}
    void packet(const uint8_t *frame, uint32_t length, const uint8_t *, size_t) override {
        classes[class_of(frame, length)]++;
    }
    void ending(Input &, bool) override {}
};

// ---- splitting

struct Part {
    FILE *packets, *index;
    uint64_t count = 0, bytes = 0;
};

[[noreturn]] void give_up(const char *what) {
    perror(what);
    exit(4);
}

FILE *made(const std::string &name) {
    FILE *file = fopen(name.c_str(), "wb");
    if (file == nullptr) give_up(name.c_str());
    setvbuf(file, nullptr, _IOFBF, 1 << 17);
    return file;
}

class Splitting : public Visitor {
public:
    Splitting(const std::string &stem, unsigned count, std::vector<uint8_t> of_classes, bool own_format)
        : table(std::move(of_classes)), own(own_format) {
        for (unsigned p = 0; p < count; p++) {
            std::string name = stem + "." + std::to_string(p);
            parts.push_back({made(name + ".packets"), made(name + ".index")});
        }
    }
    void frame(const uint8_t *bytes, size_t length) override {
        if (!own) return;
        for (Part &part : parts) put(part, bytes, length);
    }
    void packet(const uint8_t *frame, uint32_t length, const uint8_t *whole, size_t size) override {
        unsigned its = class_of(frame, length);
        Part &part = parts[its == CLASSES ? 0 : table[its]];
        number++;
        part.count++;
        if (fwrite(&number, 4, 1, part.index) != 1) give_up("index");
        if (own) {
            put(part, whole, size);
        } else {
            uint32_t head[4] = {0, 0, length, length};
            put(part, head, sizeof head);
            put(part, frame, length);
        }
    }
    // What is wrong stands within the longest block from there on.
    void ending(Input &input, bool of_head) override {
        if (!own) return;
        shift = of_head ? 0 : input.offset - parts[0].bytes;
        size_t there = input.have(MOST_BLOCK + 64);
        put(parts[0], input.front(), there);
        if (!of_head) return;
        // What is no capture at all is so in part 0 alone; the others are captures without packets.
        const uint32_t head[6] = {0xa1b2c3d4, 0x00040002, 0, 0, MOST_CAPTURED, link_read};
        for (unsigned p = 1; p < parts.size(); p++) put(parts[p], head, sizeof head);
    }
    void tell() {
        for (Part &part : parts) {
            if (fclose(part.packets) != 0 || fclose(part.index) != 0) give_up("part");
            printf("part %llu %llu\n", (unsigned long long)part.count, (unsigned long long)part.bytes);
        }
        printf("shift %llu\n", (unsigned long long)shift);
    }

private:
    static void put(Part &part, const void *bytes, size_t length) {
        if (length != 0 && fwrite(bytes, 1, length, part.packets) != length) give_up("part");
        part.bytes += length;
    }
    std::vector<Part> parts;
    std::vector<uint8_t> table;
    bool own;
    uint32_t number = 0;
    uint64_t shift = 0;
};

void go_through(char **captures, Visitor &visitor) {
    for (char **name = captures; *name != nullptr; name++) {
        uint64_t packets = 0;
        std::string said = through(*name, visitor, packets);
        printf("capture %llu %s\n", (unsigned long long)packets, said.c_str());
    }
}

std::vector<uint8_t> table_of(const char *name, unsigned parts) {
    std::vector<uint8_t> table(CLASSES);
    for (unsigned c = 0; c < CLASSES; c++) table[c] = c % parts;
    if (strcmp(name, "-") == 0) return table;
    FILE *file = fopen(name, "rb");
    if (file == nullptr || fread(table.data(), 1, CLASSES, file) != CLASSES) give_up(name);
    fclose(file);
    for (uint8_t part : table)
        if (part >= parts) exit(2);
    return table;
}

} // namespace

int main(int count, char **words) {
    if (count < 3) return 2;
    link_read = atoi(words[1]);
    words++, count--;
    if (strcmp(words[1], "--count") == 0) {
        Counting counting;
        go_through(words + 2, counting);
        for (uint64_t packets : counting.classes) printf("class %llu\n", (unsigned long long)packets);
        return fflush(stdout) == 0 ? 0 : 4;
    }
    if (count < 7) return 2;
    unsigned parts = atoi(words[3]);
    bool own = strcmp(words[5], "own") == 0;
    if (parts < 1 || parts > MOST_PARTS || (own && count != 7)) return 2;
    Splitting splitting(std::string(words[1]) + "/" + words[2], parts, table_of(words[4], parts), own);
    go_through(words + 6, splitting);
    splitting.tell();
    return fflush(stdout) == 0 ? 0 : 4;
}
