/* The checksum of JFFS2 by eight and by sixteen tables, on pieces as long as a page and as a node's front.
 *
 *     gcc -O2 -o crc_tables bench/crc_tables.c && ./crc_tables [ROUNDS]
 *
 * Of each form the least time over the rounds counts. The forms take turns within a round, so that other work on the
 * machine meets all of them. A piece's checksum goes on into the next piece, so that none can be left out.
 */
#include <stdint.h>
#include <stdio.h>
#include <stdlib.h>
#include <string.h>
#include <time.h>

enum { LEN = 1 << 20 };

static uint32_t table[16][256];

static void make_tables(void)
{
	for (uint32_t byte = 0; byte < 256; byte++) {
		uint32_t sum = byte;
		for (int bit = 0; bit < 8; bit++)
			sum = sum & 1 ? sum >> 1 ^ 0xEDB88320u : sum >> 1;
		table[0][byte] = sum;
	}
	for (int zeros = 1; zeros < 16; zeros++)
		for (int byte = 0; byte < 256; byte++) {
			uint32_t before = table[zeros - 1][byte];
			table[zeros][byte] = before >> 8 ^ table[0][before & 0xFF];
		}
}

static uint64_t word(const uint8_t *bytes)
{
	uint64_t word;
	memcpy(&word, bytes, 8);
	return word;
}

static uint32_t by_byte(uint32_t sum, const uint8_t *bytes, size_t n)
{
	for (; n; n--)
		sum = sum >> 8 ^ table[0][(sum ^ *bytes++) & 0xFF];
	return sum;
}

/* What eight bytes leave that `zeros` bytes 0 follow. */
static inline uint32_t eight(uint64_t word, int zeros)
{
	return table[zeros + 7][word & 0xFF] ^ table[zeros + 6][word >> 8 & 0xFF] ^ table[zeros + 5][word >> 16 & 0xFF] ^
	       table[zeros + 4][word >> 24 & 0xFF] ^ table[zeros + 3][word >> 32 & 0xFF] ^
	       table[zeros + 2][word >> 40 & 0xFF] ^ table[zeros + 1][word >> 48 & 0xFF] ^ table[zeros][word >> 56];
}

static uint32_t by_eight(uint32_t sum, const uint8_t *bytes, size_t n)
{
	for (; n >= 8; n -= 8, bytes += 8)
		sum = eight(word(bytes) ^ sum, 0);
	return by_byte(sum, bytes, n);
}

/* Sixteen at once, and what is left byte by byte. */
static uint32_t by_sixteen(uint32_t sum, const uint8_t *bytes, size_t n)
{
	for (; n >= 16; n -= 16, bytes += 16)
		sum = eight(word(bytes) ^ sum, 8) ^ eight(word(bytes + 8), 0);
	return by_byte(sum, bytes, n);
}

/* Sixteen at once, then eight, then byte by byte. */
static uint32_t by_sixteen_and_eight(uint32_t sum, const uint8_t *bytes, size_t n)
{
	for (; n >= 16; n -= 16, bytes += 16)
		sum = eight(word(bytes) ^ sum, 8) ^ eight(word(bytes + 8), 0);
	return by_eight(sum, bytes, n);
}

static double now(void)
{
	struct timespec time;
	clock_gettime(CLOCK_MONOTONIC, &time);
	return time.tv_sec + time.tv_nsec * 1e-9;
}

typedef uint32_t checksum(uint32_t, const uint8_t *, size_t);

static double seconds(checksum *form, const uint8_t *bytes, size_t piece, uint32_t *sum)
{
	double start = now();
	uint32_t last = 0;
	for (size_t at = 0; at + piece <= LEN; at += piece)
		last = form(last, bytes + at, piece);
	*sum = last;
	return now() - start;
}

int main(int argc, char **argv)
{
	checksum *const forms[] = { by_eight, by_sixteen, by_sixteen_and_eight };
	const char *const names[] = { "eight", "sixteen", "sixteen, eight" };
	const size_t pieces[] = { 4096, 60 };
	int rounds = argc > 1 ? atoi(argv[1]) : 400;
	static uint8_t bytes[LEN];
	uint32_t seed = 1;

	make_tables();
	for (size_t i = 0; i < LEN; i++) {
		seed = seed * 1664525u + 1013904223u;
		bytes[i] = seed >> 24;
	}
	for (int p = 0; p < 2; p++) {
		double least[3] = { 1, 1, 1 };
		uint32_t sums[3];
		for (int round = 0; round < rounds; round++)
			for (int f = 0; f < 3; f++) {
				double time = seconds(forms[f], bytes, pieces[p], &sums[f]);
				if (time < least[f])
					least[f] = time;
			}
		for (int f = 0; f < 3; f++)
			printf("pieces of %4zu bytes, %-14s %6.2f GB/s, %.2f times eight, %08x\n", pieces[p], names[f],
			       LEN / least[f] * 1e-9, least[0] / least[f], sums[f]);
	}
	return 0;
}
