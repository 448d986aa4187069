/* The same streams as `bench_inflate FILE ROUNDS`, by liblzma.
 *
 *     gcc -O2 -o lzma bench/lzma.c -llzma && ./lzma FILE ROUNDS
 *
 * It prints the sum of the lengths, as the program does. One lzma_stream is kept, so liblzma takes memory once. The length is
 * known to it, and no mark of the end is allowed.
 */
#include <lzma.h>
#include <stdint.h>
#include <stdio.h>
#include <stdlib.h>
#include <string.h>

static uint8_t out[1 << 20];

static uint32_t number(const uint8_t *bytes)
{
	return bytes[0] | bytes[1] << 8 | bytes[2] << 16 | (uint32_t)bytes[3] << 24;
}

/* Whether data give `size` bytes. */
static int decompress(lzma_stream *stream, const uint8_t *data, size_t count, size_t size)
{
	lzma_options_lzma options;
	lzma_filter filters[2] = {{LZMA_FILTER_LZMA1EXT, &options}, {LZMA_VLI_UNKNOWN, NULL}};

	memset(&options, 0, sizeof options);
	options.dict_size = 8192;
	options.ext_size_low = size;
	if (lzma_raw_decoder(stream, filters) != LZMA_OK)
		exit(1);
	stream->next_in = data;
	stream->avail_in = count;
	stream->next_out = out;
	stream->avail_out = size;
	return lzma_code(stream, LZMA_FINISH) == LZMA_STREAM_END && stream->avail_out == 0;
}

int main(int argc, char **argv)
{
	FILE *file = argc == 3 ? fopen(argv[1], "rb") : NULL;
	lzma_stream stream = LZMA_STREAM_INIT;
	uint64_t sum = 0;

	if (!file || fseek(file, 0, SEEK_END))
		return 1;
	size_t length = ftell(file);
	uint8_t *bytes = malloc(length);
	rewind(file);
	if (!bytes || fread(bytes, 1, length, file) != length)
		return 1;
	for (long round = atol(argv[2]); round; round--)
		for (size_t at = 0; at < length;) {
			size_t size = number(bytes + at + 2), count = number(bytes + at + 6);
			int accepted = bytes[at + 1];

			if (decompress(&stream, bytes + at + 10, count, size))
				sum += size;
			at += 10 + count + (accepted ? size : 0);
		}
	printf("%llu\n", (unsigned long long)sum);
	return 0;
}
