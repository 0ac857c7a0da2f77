/* A capture of so many packets of so many flows that go on for long: flows PACKETS FLOWS SEED > pcap.
 *
 * A packet's flow is drawn evenly, and its way. A tenth of the flows are TCP over IPv6, a tenth UDP. A TCP flow begins
 * with a SYN, ends with a FIN in one packet of 64 and then begins again; half of the others have up to 1,023 bytes of
 * payload, of which the heads alone are captured. One IPv4 packet of 128 is a later fragment. */
#include <stdint.h>
#include <stdio.h>
#include <stdlib.h>
#include <string.h>

static uint64_t state;

/* SplitMix64. */
static uint64_t drawn(void) {
    uint64_t z = state += 0x9e3779b97f4a7c15u;
    z = (z ^ (z >> 30)) * 0xbf58476d1ce4e5b9u;
    z = (z ^ (z >> 27)) * 0x94d049bb133111ebu;
    return z ^ (z >> 31);
}

static void put16(uint8_t *to, unsigned value) { to[0] = value >> 8, to[1] = value; }
static void put32(uint8_t *to, uint32_t value) { put16(to, value >> 16), put16(to + 2, value & 65535); }

/* The frame of a packet; answers how many bytes of it are captured. */
static unsigned frame(uint8_t *b, uint32_t flow, uint64_t r, unsigned flags, unsigned payload) {
    int six = flow % 10 == 0, udp = flow % 10 == 1, back = r >> 40 & 1, later = !six && (r >> 41 & 127) == 5;
    unsigned at = 14, head = udp ? 8 : 20;
    if (six) {
        put16(b + 12, 0x86dd);
        b[at] = 0x60, b[at + 6] = 6, b[at + 7] = 64;
        put16(b + at + 4, head + payload);
        uint8_t *client = b + at + (back ? 24 : 8), *server = b + at + (back ? 8 : 24);
        client[0] = server[0] = 0x20, client[1] = server[1] = 1;
        put32(client + 12, flow), put32(server + 12, 0xc0000201);
        at += 40;
    } else {
        put16(b + 12, 0x0800);
        b[at] = 0x45, b[at + 8] = 64, b[at + 9] = udp ? 17 : 6;
        put16(b + at + 2, 20 + head + payload);
        if (later) put16(b + at + 6, 0x2000 | 185);
        put32(b + at + (back ? 16 : 12), 0x0a000000 + flow), put32(b + at + (back ? 12 : 16), 0xc0000201);
        at += 20;
    }
    put16(b + at + (back ? 2 : 0), 1024 + flow % 60000), put16(b + at + (back ? 0 : 2), udp ? 53 : 443);
    if (!udp) b[at + 12] = 0x50, b[at + 13] = flags;
    return at + head;
}

int main(int count, char **words) {
    if (count != 4) return 2;
    uint64_t packets = strtoull(words[1], 0, 10), flows = strtoull(words[2], 0, 10);
    state = strtoull(words[3], 0, 10);
    const uint32_t head[6] = {0xa1b2c3d4, 0x00040002, 0, 0, 65535, 1};
    fwrite(head, 1, 24, stdout);
    uint8_t *begun = calloc(flows, 1);
    if (begun == NULL) return 1;
    for (uint64_t i = 0; i < packets; i++) {
        uint64_t r = drawn(), flow = r % flows;
        unsigned flags = !begun[flow] ? 2 : (r >> 41 & 63) == 0 ? 17 : 16;
        unsigned payload = flags == 16 && (r >> 50 & 1) ? r >> 52 & 1023 : 0;
        uint8_t bytes[90] = {2, 0, 0, 0, 0, 2, 2, 0, 0, 0, 0, 1};
        begun[flow] = flags != 17;
        unsigned captured = frame(bytes, flow, r, flags, payload);
        uint32_t record[4] = {i / 1000, i % 1000 * 1000, captured, captured + payload};
        fwrite(record, 1, 16, stdout), fwrite(bytes, 1, captured, stdout);
    }
    return fflush(stdout) == 0 ? 0 : 4;
}
