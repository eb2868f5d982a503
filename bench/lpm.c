/*
 * The look-ups of crates/npf_ruleset_bench in C, in tables of the same structure: blocks in the order of
 * their first addresses, which stand left in 128 bits, beside each the length of the outermost
 * block that has its first address, and counts of 65,536 buckets over the span of the first
 * addresses. The argument is the number of look-ups in each table.
 */
#include <stdbool.h>
#include <stdint.h>
#include <stdio.h>
#include <stdlib.h>
#include <string.h>
#include <time.h>

typedef unsigned __int128 u128;

enum { PREFIXES = 131072, ADDRESSES = 65536, BUCKETS = 65536 };

enum sort { RANDOM_V4, ROUTES_V4, RANDOM_V6, CLUSTERED_V6 };

static const char *const names[] = {
	"random IPv4", "/24-heavy IPv4", "random IPv6", "clustered IPv6"
};

struct addr {
	bool v6;
	u128 bits;
};

struct block {
	u128 first;
	uint8_t len;
};

struct table {
	size_t count;
	u128 *firsts;
	uint8_t *lengths, *outermost;
	u128 base;
	int shift;
	uint32_t *counts;
};

static uint64_t state;

static uint64_t draw(void)
{
	state = state * 6364136223846793005u + 1442695040888963407u;
	return state ^ (state >> 29);
}

static bool is_v4(enum sort sort)
{
	return sort == RANDOM_V4 || sort == ROUTES_V4;
}

static u128 draw_addr(enum sort sort)
{
	uint64_t high = draw(), low = draw();
	switch (sort) {
	case RANDOM_V4:
	case ROUTES_V4:
		return (u128)(high >> 32) << 96;
	case RANDOM_V6:
		return (u128)high << 64 | low;
	default:
		return (u128)(0x20010000 + (high >> 32) % 1024) << 96 |
		    (u128)(high & 0xffffffff) << 64 | low;
	}
}

static uint8_t draw_len(enum sort sort)
{
	uint64_t d = draw() >> 8;
	switch (sort) {
	case RANDOM_V4:
		return 20 + d % 13;
	case ROUTES_V4:
		return d % 10 < 6 ? 24 : 16 + d % 8;
	case RANDOM_V6:
		return 40 + d % 89;
	default:
		return 48 + d % 17;
	}
}

static u128 hosts(int len)
{
	return len == 128 ? 0 : ~(u128)0 >> len;
}

static u128 draw_inside(enum sort sort, const struct block *b)
{
	uint64_t high = draw(), low = draw();
	u128 bits = is_v4(sort) ? (u128)(high >> 32) << 96 : (u128)high << 64 | low;
	return b->first | (bits & hosts(b->len));
}

static bool agrees_in(uint8_t len, u128 a, u128 b)
{
	return len == 0 || (a ^ b) >> (128 - len) == 0;
}

static size_t bucket_of(const struct table *t, u128 a)
{
	u128 b = a < t->base ? 0 : (a - t->base) >> t->shift;
	return b < BUCKETS - 1 ? (size_t)b : BUCKETS - 1;
}

static size_t count_to(const struct table *t, u128 a)
{
	size_t bucket = bucket_of(t, a);
	const u128 *at = t->firsts + t->counts[bucket];
	size_t size = t->counts[bucket + 1] - t->counts[bucket];
	while (size > 0) {
		size_t half = size / 2;
		if (at[half] <= a) {
			at += half + 1;
			size -= half + 1;
		} else {
			size = half;
		}
	}
	return at - t->firsts;
}

static bool contains(const struct table *t, u128 a)
{
	size_t count = count_to(t, a);
	return count != 0 && agrees_in(t->outermost[count - 1], t->firsts[count - 1], a);
}

static int compare(const void *x, const void *y)
{
	const struct block *a = x, *b = y;
	if (a->first != b->first)
		return a->first < b->first ? -1 : 1;
	return (int)a->len - (int)b->len;
}

static void *some(size_t size)
{
	void *p = calloc(1, size);
	if (p == NULL)
		exit(1);
	return p;
}

static void build(struct table *t, struct block *blocks)
{
	size_t n = 0, below = 0;
	qsort(blocks, PREFIXES, sizeof *blocks, compare);
	t->firsts = some(PREFIXES * sizeof *t->firsts);
	t->lengths = some(PREFIXES);
	t->outermost = some(PREFIXES);
	t->counts = some((BUCKETS + 1) * sizeof *t->counts);
	for (size_t i = 0; i < PREFIXES; i++) {
		if (i > 0 && compare(&blocks[i - 1], &blocks[i]) == 0)
			continue;
		t->firsts[n] = blocks[i].first;
		t->lengths[n] = blocks[i].len;
		t->outermost[n] = n > 0 && agrees_in(t->outermost[n - 1], t->firsts[n - 1], t->firsts[n])
		    ? t->outermost[n - 1] : t->lengths[n];
		n++;
	}
	t->count = n;
	t->base = t->firsts[0];
	for (t->shift = 0; (t->firsts[n - 1] - t->base) >> t->shift >= BUCKETS; t->shift++)
		;
	for (size_t b = 0; b <= BUCKETS; b++) {
		while (below < n && bucket_of(t, t->firsts[below]) < b)
			below++;
		t->counts[b] = below;
	}
}

int main(int argc, char **argv)
{
	uint64_t rounds = (argc > 1 ? strtoull(argv[1], NULL, 10) : 1000000) / ADDRESSES + 1;
	struct block *blocks = some(PREFIXES * sizeof *blocks), *drawn = some(PREFIXES * sizeof *drawn);
	struct addr *addrs = some(ADDRESSES * sizeof *addrs);
	for (int sort = RANDOM_V4; sort <= CLUSTERED_V6; sort++) {
		struct table v4 = { 0 }, v6 = { 0 };
		struct table *t = is_v4(sort) ? &v4 : &v6;
		struct timespec start, end;
		uint64_t found = 0;
		state = 20240229;
		for (size_t i = 0; i < PREFIXES; i++) {
			u128 a = draw_addr(sort);
			uint8_t len = draw_len(sort);
			blocks[i] = (struct block){ a & ~hosts(len), len };
		}
		memcpy(drawn, blocks, PREFIXES * sizeof *drawn);
		build(t, blocks);
		for (size_t i = 0; i < ADDRESSES; i++) {
			uint64_t place = draw() >> 8;
			addrs[i].v6 = !is_v4(sort);
			addrs[i].bits = i % 2 == 0 ? draw_inside(sort, &drawn[place % PREFIXES]) : draw_addr(sort);
		}
		clock_gettime(CLOCK_MONOTONIC, &start);
		for (uint64_t r = 0; r < rounds; r++)
			for (size_t i = 0; i < ADDRESSES; i++)
				found += contains(addrs[i].v6 ? &v6 : &v4, addrs[i].bits);
		clock_gettime(CLOCK_MONOTONIC, &end);
		printf("%s in C: %zu prefixes, %llu found, %.0f ns a look-up\n", names[sort], t->count,
		    (unsigned long long)found, ((end.tv_sec - start.tv_sec) * 1e9 + (end.tv_nsec - start.tv_nsec)) /
		    (double)(rounds * ADDRESSES));
		free(t->firsts);
		free(t->lengths);
		free(t->outermost);
		free(t->counts);
	}
	free(blocks);
	free(drawn);
	free(addrs);
	return 0;
}
