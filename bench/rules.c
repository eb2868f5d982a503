/* The rules and packets of crates/npf_ruleset_bench, as a C programmer would walk them: each rule a structure, tested field by field, and the
 * last one that matches decides. The argument is how often the 64 packets are walked. */
#include <inttypes.h>
#include <stdint.h>
#include <stdio.h>
#include <stdlib.h>
#include <time.h>

enum { PACKETS = 64, MOST = 4096 };
enum match { FIRST, LAST, NOWHERE };

struct rule { uint8_t pass, out, stateful, proto, has_source, has_destination; uint32_t source, source_mask, destination, destination_mask; uint16_t low, high; };
struct facts { uint8_t v6, proto, has_ports, tcp_flags; uint16_t source_port, destination_port; uint32_t source, destination; };

static struct rule rules[MOST];
static uint32_t count;
static struct facts packets[PACKETS];
static const uint16_t ports[8] = {22, 53, 80, 123, 161, 443, 5060, 8080};

static uint32_t next(uint32_t draw) { return draw * 1664525u + 1013904223u; }

static void make_rules(void) {
    uint32_t draw = 1;
    for (uint32_t r = 0; r < count; r++) {
        draw = next(draw);
        if (r == 0 || r == count - 1) {
            uint16_t port = r == 0 ? 40000 : 40001;
            rules[r] = (struct rule){1, 0, 0, 17, 1, 0, 0x0a800000, 0xff800000, 0, 0, port, port};
            continue;
        }
        uint16_t first = ports[draw >> 8 & 7];
        uint32_t source = 10u << 24 | (draw >> 24 & 127) << 16 | (draw >> 16 & 255) << 8;
        rules[r] = (struct rule){1, 0, 0, draw & 0x80000000 ? 17 : 6, 1, 0, source, 0xffffff00, 0, 0, first, first + (draw & 0x40000000 ? 50 : 0)};
    }
}

static void make_packets(enum match match) {
    uint32_t draw = 7;
    for (int n = 0; n < PACKETS; n++) {
        draw = next(draw);
        uint16_t port = match == FIRST ? 40000 : match == LAST ? 40001 : ports[draw >> 8 & 7];
        packets[n] = (struct facts){0, 17, 1, 0, 5000, port, 10u << 24 | 128u << 16 | (draw >> 8 & 0x7fffff), 0xc0000201};
    }
}

static int walk(const struct facts *f, int out) {
    int last = -1;
    for (uint32_t i = 0; i < count; i++) {
        const struct rule *r = rules + i;
        if (r->proto && r->proto != f->proto) continue;
        if (r->high != 65535 && !(f->has_ports && f->destination_port >= r->low && f->destination_port <= r->high)) continue;
        if (r->has_source && (f->v6 || (f->source & r->source_mask) != r->source)) continue;
        if (r->has_destination && (f->v6 || (f->destination & r->destination_mask) != r->destination)) continue;
        if (r->out && !out) continue;
        if (r->pass && r->stateful && f->proto == 6 && (f->tcp_flags & 0x17) != 2) continue;
        last = (int)i;
    }
    return last;
}

int main(int argc, char **argv) {
    static const uint32_t counts[] = {1, 10, 100, 1000, MOST};
    static const char *const names[] = {"first", "last", "none"};
    uint64_t rounds = argc > 1 ? strtoull(argv[1], NULL, 10) : 1;
    for (int c = 0; c < 5; c++) {
        count = counts[c];
        make_rules();
        for (int match = FIRST; match <= NOWHERE; match++) {
            struct timespec start, end;
            uint64_t sum = 0;
            make_packets((enum match)match);
            clock_gettime(CLOCK_MONOTONIC, &start);
            for (int n = 0; n < PACKETS; n++)
                for (uint64_t round = 0; round < rounds; round++) sum += (uint64_t)(walk(packets + n, 0) + 1);
            clock_gettime(CLOCK_MONOTONIC, &end);
            uint64_t took = (uint64_t)(end.tv_sec - start.tv_sec) * 1000000000u + (uint64_t)end.tv_nsec - (uint64_t)start.tv_nsec;
            if (rounds == 1) printf("%" PRIu32 " rules, %s: %" PRIu64 "\n", count, names[match], sum);
            else printf("structures: %" PRIu32 " rules, %s: %" PRIu64 " ns a packet\n", count, names[match], took / rounds / PACKETS);
        }
    }
    return 0;
}
