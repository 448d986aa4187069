/* The same pieces as `bench_deflate FILE PIECE ROUNDS OUT`, by zlib's `deflate` at a level.
 *
 *     gcc -O2 -o deflate bench/deflate.c -lz && ./deflate FILE PIECE ROUNDS LEVEL
 *
 * It prints how many bytes the streams have. One state serves for all pieces.
 */
#include <stdio.h>
#include <stdlib.h>
#include <string.h>
#include <zlib.h>

int main(int argc, char **argv)
{
	FILE *file = argc == 5 ? fopen(argv[1], "rb") : NULL;
	if (!file)
		return 1;
	fseek(file, 0, SEEK_END);
	size_t length = ftell(file);
	rewind(file);
	size_t piece = atol(argv[2]);
	unsigned char *bytes = malloc(length), *out = malloc(2 * piece + 100);
	if (!bytes || !out || !piece || fread(bytes, 1, length, file) != length)
		return 1;
	z_stream stream;
	memset(&stream, 0, sizeof stream);
	if (deflateInit(&stream, atoi(argv[4])) != Z_OK)
		return 1;
	unsigned long total = 0;
	for (int rounds = atoi(argv[3]); rounds; rounds--) {
		total = 0;
		for (size_t at = 0; at < length; at += piece) {
			deflateReset(&stream);
			stream.next_in = bytes + at;
			stream.avail_in = length - at < piece ? length - at : piece;
			stream.next_out = out;
			stream.avail_out = 2 * piece + 100;
			if (deflate(&stream, Z_FINISH) != Z_STREAM_END)
				return 1;
			total += stream.total_out;
		}
	}
	printf("%lu\n", total);
	return 0;
}
