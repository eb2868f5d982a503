/*
 * The work of crates/npf_engine_bench in C: a source translation of a segment of TCP over IPv4 and of
 * a datagram of UDP over IPv6, each forth and back in turn. A sum follows each 16-bit word that
 * changes (RFC 1624). The argument is the number of packets.
 */
#include <arpa/inet.h>
#include <stdbool.h>
#include <stdint.h>
#include <stdio.h>
#include <stdlib.h>
#include <string.h>
#include <time.h>

enum protocol { TCP = 6, UDP = 17 };

struct facts {
	bool v6;
	uint8_t proto;
	uint32_t ip_at, l4_at, end;
};

struct end {
	bool named, v6, has_port;
	uint8_t addr[16];
	uint16_t port;
};

struct change {
	struct end src, dst;
	bool neutral;
};

static uint16_t get16(const uint8_t *b)
{
	uint16_t v;
	memcpy(&v, b, 2);
	return ntohs(v);
}

static void put16(uint8_t *b, uint16_t v)
{
	v = htons(v);
	memcpy(b, &v, 2);
}

static uint16_t adjust(uint16_t sum, uint16_t old, uint16_t new, uint16_t zero)
{
	uint32_t t;
	if (old == new)
		return sum;
	t = (uint16_t)~sum + (uint16_t)~old + (uint32_t)new;
	t = (t & 0xffff) + (t >> 16);
	t = (t & 0xffff) + (t >> 16);
	t = (uint16_t)~t;
	return t ? (uint16_t)t : zero;
}

static uint16_t adjust_addr(uint16_t sum, const uint8_t *old, const uint8_t *new, int len, uint16_t zero)
{
	for (int i = 0; i < len; i += 2)
		sum = adjust(sum, get16(old + i), get16(new + i), zero);
	return sum;
}

static void translate_end(uint8_t *b, const struct facts *f, const struct end *e, uint32_t addr_at,
    uint32_t port_at, uint16_t *ip_sum, uint16_t *l4_sum, uint16_t zero)
{
	int len = f->v6 ? 16 : 4;
	if (!e->named || e->v6 != f->v6)
		return;
	if (!f->v6)
		*ip_sum = adjust_addr(*ip_sum, b + addr_at, e->addr, len, 0);
	*l4_sum = adjust_addr(*l4_sum, b + addr_at, e->addr, len, zero);
	memcpy(b + addr_at, e->addr, len);
	if (e->has_port) {
		*l4_sum = adjust(*l4_sum, get16(b + port_at), e->port, zero);
		put16(b + port_at, e->port);
	}
}

__attribute__((noinline)) void translate(uint8_t *b, const struct facts *f, const struct change *c)
{
	uint32_t sum_at = f->l4_at + (f->proto == TCP ? 16 : 6);
	uint16_t zero = f->proto == UDP ? 0xffff : 0;
	uint16_t ip_sum = f->v6 ? 0 : get16(b + f->ip_at + 10), l4_sum = get16(b + sum_at);
	bool absent = f->proto == UDP && !f->v6 && l4_sum == 0;

	translate_end(b, f, &c->src, f->ip_at + (f->v6 ? 8 : 12), f->l4_at, &ip_sum, &l4_sum, zero);
	translate_end(b, f, &c->dst, f->ip_at + (f->v6 ? 24 : 16), f->l4_at + 2, &ip_sum, &l4_sum, zero);
	if (c->neutral)
		return;
	if (!f->v6)
		put16(b + f->ip_at + 10, ip_sum);
	if (!absent)
		put16(b + sum_at, l4_sum);
}

static uint64_t now_us(void)
{
	struct timespec t;
	clock_gettime(CLOCK_MONOTONIC, &t);
	return (uint64_t)t.tv_sec * 1000000 + t.tv_nsec / 1000;
}

static void measure(const char *name, uint8_t *b, size_t len, const struct facts *f,
    const struct change c[2], uint64_t packets)
{
	uint64_t start = now_us(), sum = 0;
	for (uint64_t i = 0; i < packets; i++)
		translate(b, f, &c[i % 2]);
	uint64_t took = now_us() - start;
	for (size_t i = 0; i < len; i++)
		sum += b[i];
	printf("%s in C: %llu packets, bytes of %llu, %llu us\n", name, (unsigned long long)packets,
	    (unsigned long long)sum, (unsigned long long)took);
}

int main(int argc, char **argv)
{
	uint64_t packets = argc > 1 ? strtoull(argv[1], NULL, 10) : 10000000;
	uint8_t segment[40] = {
		0x45, 0, 0, 40, 0, 0, 0, 0, 64, 6, 0, 0, 10, 0, 0, 2, 198, 51, 100, 7, 4, 1, 0, 80, 0, 0,
		0, 1, 0, 0, 0, 0, 0x50, 0x10, 3, 0xe8, 0, 0, 0, 0,
	};
	uint8_t datagram[48] = {
		0x60, 0, 0, 0, 0, 8, 17, 64, 0x20, 0x01, 0x0d, 0xb8, 0, 0, 0, 0, 0, 0, 0, 0, 0, 0, 0, 2,
		0x20, 0x01, 0x0d, 0xb8, 0, 1, 0, 0, 0, 0, 0, 0, 0, 0, 0, 7, 0x13, 0x88, 0, 53, 0, 8, 0x12,
		0x34,
	};
	struct facts four = { false, TCP, 0, 20, 40 }, six = { true, UDP, 0, 40, 48 };
	struct change changes4[2] = {
		{ { true, false, true, { 203, 0, 113, 1 }, 40001 }, { false }, false },
		{ { true, false, true, { 10, 0, 0, 2 }, 1025 }, { false }, false },
	};
	struct change changes6[2] = {
		{ { true, true, true, { 0x20, 1, 0xd, 0xb8, 0xff, 0xff, 0, 0, 0, 0, 0, 0, 0, 0, 0, 1 }, 1024 },
		    { false }, false },
		{ { true, true, true, { 0x20, 1, 0xd, 0xb8, 0, 0, 0, 0, 0, 0, 0, 0, 0, 0, 0, 2 }, 5000 },
		    { false }, false },
	};

	measure("TCP over IPv4", segment, sizeof segment, &four, changes4, packets);
	measure("UDP over IPv6", datagram, sizeof datagram, &six, changes6, packets);
	return 0;
}
