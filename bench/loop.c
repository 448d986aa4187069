/* The baseline of the benchmarks: one pass over the bytes of a file, and nothing else.
 *
 * loop pieces FILE    the checksum, read 64 KiB at a time into one buffer
 * loop whole FILE     the checksum, of the file in one allocation
 * loop lines FILE     how many lines and words it has, of the file in one allocation
 * loop split FILE TO  the checksum, read 64 KiB at a time, and the same bytes written to new files of 1 MiB in a new folder
 *
 * Eight tables, eight bytes a step: the same work a byte as `flashbase::crc`.
 */
#include <fcntl.h>
#include <stdint.h>
#include <stdio.h>
#include <stdlib.h>
#include <string.h>
#include <sys/stat.h>
#include <unistd.h>

enum { PIECE = 65536 };

static uint32_t tables[8][256];

static void fill_tables(void) {
    for (int byte = 0; byte < 256; byte++) {
        uint32_t rest = byte;
        for (int bit = 0; bit < 8; bit++)
            rest = rest >> 1 ^ (rest & 1 ? 0xEDB88320u : 0);
        tables[0][byte] = rest;
    }
    for (int table = 1; table < 8; table++)
        for (int byte = 0; byte < 256; byte++)
            tables[table][byte] = tables[table - 1][byte] >> 8 ^ tables[0][tables[table - 1][byte] & 0xFF];
}

static uint32_t checksum_from(uint32_t rest, const unsigned char *bytes, size_t length) {
    for (; length >= 8; bytes += 8, length -= 8) {
        uint32_t low, high;
        memcpy(&low, bytes, 4);
        memcpy(&high, bytes + 4, 4);
        low ^= rest;
        rest = tables[7][low & 0xFF] ^ tables[6][low >> 8 & 0xFF] ^ tables[5][low >> 16 & 0xFF] ^ tables[4][low >> 24]
             ^ tables[3][high & 0xFF] ^ tables[2][high >> 8 & 0xFF] ^ tables[1][high >> 16 & 0xFF] ^ tables[0][high >> 24];
    }
    for (; length; bytes++, length--)
        rest = rest >> 8 ^ tables[0][(rest ^ *bytes) & 0xFF];
    return rest;
}

static uint32_t in_pieces(int file) {
    static unsigned char piece[PIECE];
    uint32_t rest = 0;
    for (ssize_t length; (length = read(file, piece, PIECE)) > 0;)
        rest = checksum_from(rest, piece, length);
    return rest;
}

/* The same, and the bytes go into files of 16 pieces each. */
static uint32_t into_files(int file, const char *folder) {
    static unsigned char piece[PIECE];
    uint32_t rest = 0, count = 0;
    int part = -1, failed = mkdir(folder, 0777);
    for (ssize_t length; !failed && (length = read(file, piece, PIECE)) > 0; count++) {
        if (count % 16 == 0) {
            char name[4096];
            snprintf(name, sizeof name, "%s/%u", folder, count / 16);
            close(part);
            part = open(name, O_WRONLY | O_CREAT | O_EXCL, 0666);
        }
        rest = checksum_from(rest, piece, length);
        failed = write(part, piece, length) != length;
    }
    close(part);
    return failed ? 0 : rest;
}

/* All bytes of the file, or NULL. */
static unsigned char *loaded(int file, ssize_t *length) {
    struct stat about;
    *length = 0;
    if (fstat(file, &about))
        return NULL;
    unsigned char *bytes = malloc(about.st_size + 1);
    for (ssize_t more; bytes && (more = read(file, bytes + *length, about.st_size - *length)) > 0;)
        *length += more;
    return bytes;
}

static uint32_t as_a_whole(int file) {
    ssize_t length;
    unsigned char *bytes = loaded(file, &length);
    uint32_t rest = bytes ? checksum_from(0, bytes, length) : 0;
    free(bytes);
    return rest;
}

/* Line feeds, and bytes that begin a word: what `wc -lw` counts of a text with single spaces. */
static uint32_t lines_and_words(int file) {
    ssize_t length;
    unsigned char *bytes = loaded(file, &length);
    uint32_t lines = 0, words = 0;
    int between = 1;
    for (ssize_t k = 0; bytes && k < length; k++) {
        int ends = bytes[k] == '\n' || bytes[k] == ' ';
        lines += bytes[k] == '\n';
        words += between && !ends;
        between = ends;
    }
    free(bytes);
    return lines ^ words;
}

int main(int count, char **words) {
    int splits = count == 4 && !strcmp(words[1], "split");
    int file = count == 3 || splits ? open(words[2], O_RDONLY) : -1;
    if (file < 0) {
        fprintf(stderr, "usage: loop pieces|whole|lines FILE, or loop split FILE TO\n");
        return 2;
    }
    fill_tables();
    printf("%08x\n", splits ? into_files(file, words[3]) : !strcmp(words[1], "lines") ? lines_and_words(file) : !strcmp(words[1], "whole") ? as_a_whole(file) : in_pieces(file));
    return 0;
}
