/* The baseline of `ls --decompress` and `cat --decompress`: a reader that inflates no more than it
 * needs, of an image of little order.
 *
 *     gcc -O2 -o look bench/look.c -lz && ./look IMAGE [INO]
 *
 * It reads IMAGE in pieces of 64 KiB, of one block each, and checks each header, node, name and piece
 * of data by its checksum. Without INO it prints how many entries there are. With INO it writes the
 * data of the nodes of that number, in the order of their addresses: as they are, or by
 * `uncompress`. It holds nothing and makes no tree, so of what `ls` and `cat` do it does the least.
 */
#include <fcntl.h>
#include <stdint.h>
#include <stdio.h>
#include <stdlib.h>
#include <string.h>
#include <unistd.h>
#include <zlib.h>

#include "nodes.h"

enum { BLOCK = 65536, ZLIB = 6 };

static uint8_t block[BLOCK], content[BLOCK];

static void put(const uint8_t *node, uint32_t count, uint32_t size)
{
	uLongf length = sizeof content;
	const uint8_t *bytes = node + 68;
	if (node[56] == ZLIB) {
		if (uncompress(content, &length, bytes, count) != Z_OK || length != size)
			exit(1);
		bytes = content;
	} else if (node[56] != 0) {
		exit(1);
	}
	if (write(1, bytes, size) != (ssize_t)size)
		exit(1);
}

/* Whether there is a node at a place of the block: its length, or 0. */
static uint32_t length_at(size_t at)
{
	uint8_t header[8];
	uint32_t length = number(block + at + 4);
	if ((number(block + at) & 0xFFFF) != MAGIC || length < 12 || length > BLOCK - at)
		return 0;
	memcpy(header, block + at, 8);
	header[3] |= ACCURATE >> 8;
	return checksum(header, 8) == number(block + at + 8) ? length : 0;
}

int main(int count, char **words)
{
	int image = open(words[1], O_RDONLY);
	uint32_t ino = count > 2 ? atoi(words[2]) : 0, length;
	size_t entries = 0;
	for (ssize_t got; (got = read(image, block, BLOCK)) > 0;) {
		memset(block + got, 0xFF, BLOCK - got);
		for (size_t at = 0; at + 12 <= BLOCK; at += length ? (length + 3) / 4 * 4 : 4) {
			const uint8_t *node = block + at;
			if (!(length = length_at(at)))
				continue;
			if (number(node) >> 16 == DIRENT)
				entries += checksum(node, 32) == number(node + 32)
				           && checksum(node + 40, node[28]) == number(node + 36);
			if (number(node) >> 16 == INODE && checksum(node, 60) == number(node + 64)) {
				uint32_t bytes = number(node + 48), size = number(node + 52);
				if (checksum(node + 68, bytes) == number(node + 60) && number(node + 12) == ino)
					put(node, bytes, size);
			}
		}
	}
	if (!ino)
		printf("%zu\n", entries);
	return 0;
}
