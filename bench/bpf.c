/* The packets and rules of crates/npf_ruleset_bench through libpcap's own machine, each rule by the program that libpcap makes of it.
 * The argument is how often the 128 packets are run. */
#include <inttypes.h>
#include <pcap.h>
#include <stdint.h>
#include <stdio.h>
#include <stdlib.h>
#include <string.h>
#include <time.h>

enum { PACKETS = 128, MOST = 100, SIZE = 28 };

static uint8_t packets[PACKETS][SIZE];
static struct bpf_program programs[MOST];

static void make_packets(void) {
    static const uint8_t head[SIZE] = {0x45, 0, 0, SIZE, 0, 1, 0, 0, 64, 17, 0, 0, 192, 0, 2, 1, 10, 0, 0, 9, 0x13, 0x88, 0, 0, 0, 8};
    for (int n = 0; n < PACKETS; n++) {
        int rule = n * 7 % PACKETS, port = n % 2 ? 53 : 1000 + rule;
        memcpy(packets[n], head, SIZE);
        packets[n][18] = (uint8_t)rule;
        packets[n][22] = (uint8_t)(port >> 8);
        packets[n][23] = (uint8_t)port;
    }
}

static void make_programs(void) {
    pcap_t *raw = pcap_open_dead(DLT_RAW, 262144);
    for (int r = 0; r < MOST; r++) {
        char filter[64];
        snprintf(filter, sizeof filter, "ip and udp and dst net 10.0.%d.0/24 and dst port %d", r, 1000 + r);
        if (!raw || pcap_compile(raw, &programs[r], filter, 1, PCAP_NETMASK_UNKNOWN)) {
            fprintf(stderr, "bpf: %s\n", raw ? pcap_geterr(raw) : "no handle");
            exit(1);
        }
    }
}

int main(int argc, char **argv) {
    static const int counts[] = {1, 10, MOST};
    uint64_t rounds = argc > 1 ? strtoull(argv[1], NULL, 10) : 1;
    make_packets();
    make_programs();
    for (int c = 0; c < 3; c++) {
        struct timespec start, end;
        uint64_t accepted = 0;
        clock_gettime(CLOCK_MONOTONIC, &start);
        for (uint64_t round = 0; round < rounds; round++)
            for (int n = 0; n < PACKETS; n++)
                for (int r = 0; r < counts[c]; r++)
                    accepted += bpf_filter(programs[r].bf_insns, packets[n], SIZE, SIZE) != 0;
        clock_gettime(CLOCK_MONOTONIC, &end);
        printf("libpcap: %d rules, %" PRIu64 " accepted, %" PRId64 " us\n", counts[c], accepted,
               (int64_t)(end.tv_sec - start.tv_sec) * 1000000 + (end.tv_nsec - start.tv_nsec) / 1000);
    }
    return 0;
}
