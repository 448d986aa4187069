/* look IMAGE BLOCK: what an image contains, its names, and the length and checksum of each file; then the same image
 * decompressed, compressed again, and cut in the middle, as a power failure would. */
#include "jffs2.h"
#include <inttypes.h>
#include <stdio.h>
#include <stdlib.h>
#include <string.h>

typedef uint32_t make(const uint8_t *, size_t, const jffs2_how *, uint8_t *, size_t, size_t *, jffs2_fault *);

static void stop(const char *what, uint32_t status, const jffs2_fault *fault) {
    printf("%s: status %" PRIu32 " at %08" PRIx32 "\n", what, status, fault->address);
    exit(3);
}

static void *memory(size_t bytes) {
    void *at = malloc(bytes + 1);
    if (!at) exit(1);
    return at;
}

/* The image that a call makes, with its length. It asks how much it takes, and then for it. */
static uint8_t *made(make *call, const uint8_t *image, size_t len, const jffs2_how *how, size_t *needed) {
    jffs2_fault fault = {0, 0};
    uint8_t none = 0;
    uint32_t status = call(image, len, how, &none, 0, needed, &fault);
    if (status != JFFS2_OK && status != JFFS2_SMALL) stop("made", status, &fault);
    uint8_t *out = memory(*needed);
    if (status == JFFS2_SMALL) status = call(image, len, how, out, *needed, needed, &fault);
    if (status != JFFS2_OK) stop("made", status, &fault);
    return out;
}

/* All names, as rows and as bytes; or why there are none. */
static uint32_t tree(const uint8_t *image, size_t len, const jffs2_how *how, jffs2_entry **rows, uint8_t **names,
                     jffs2_needed *needed, jffs2_fault *fault) {
    jffs2_entry none;
    uint8_t no_byte;
    *rows = NULL, *names = NULL;
    uint32_t status = jffs2_tree(image, len, how, &none, 0, &no_byte, 0, needed, fault);
    if (status != JFFS2_SMALL) return status;
    *rows = memory(needed->rows * sizeof **rows);
    *names = memory(needed->bytes);
    return jffs2_tree(image, len, how, *rows, needed->rows, *names, needed->bytes, needed, fault);
}

static void put_entry(const uint8_t *image, size_t len, const jffs2_how *how, const jffs2_entry *row,
                      const uint8_t *names) {
    jffs2_fault fault = {0, 0};
    printf("%" PRIu32 " %.*s %" PRIu32, row->directory, (int)row->name_len, (const char *)names + row->name_at,
           row->object.number);
    if (row->is_there && row->object.mode >> 12 == 8) {
        uint8_t *out = memory(row->object.size);
        size_t got = 0;
        uint32_t status = jffs2_read(image, len, how, row->object.number, 0, out, row->object.size, &got, &fault);
        if (status != JFFS2_OK) stop("read", status, &fault);
        printf(" %" PRIo32 " %zu crc %08" PRIx32, row->object.mode, got, jffs2_crc(out, got));
        free(out);
    }
    printf("\n");
}

int main(int argc, char **argv) {
    if (argc != 3) return 2;
    FILE *file = fopen(argv[1], "rb");
    if (!file || fseek(file, 0, SEEK_END)) return perror(argv[1]), 1;
    size_t len = (size_t)ftell(file);
    rewind(file);
    uint8_t *image = memory(len);
    if (fread(image, 1, len, file) != len) return perror(argv[1]), 1;
    fclose(file);
    jffs2_how how = {(uint32_t)strtoul(argv[2], NULL, 10), 0, 1};
    jffs2_fault fault = {0, 0};
    jffs2_counted counts;
    uint32_t status = jffs2_check(image, len, &how, &counts, &fault);
    if (status != JFFS2_OK) stop("check", status, &fault);
    printf("blocks %" PRIu64 " entries %" PRIu64 " inodes %" PRIu64 " findings %" PRIu64 "\n", counts.blocks,
           counts.entries, counts.inodes, counts.findings);
    jffs2_entry *rows;
    uint8_t *names;
    jffs2_needed needed;
    status = tree(image, len, &how, &rows, &names, &needed, &fault);
    if (status != JFFS2_OK) stop("tree", status, &fault);
    for (uint64_t i = 0; i < needed.rows; i++) put_entry(image, len, &how, &rows[i], names);
    free(rows), free(names);
    size_t plain_len, small_len, again_len;
    uint8_t *plain = made(jffs2_decompress, image, len, &how, &plain_len);
    uint8_t *small = made(jffs2_compress, plain, plain_len, &how, &small_len);
    uint8_t *again = made(jffs2_decompress, small, small_len, &how, &again_len);
    printf("decompressed %zu again %s\n", plain_len,
           again_len == plain_len && !memcmp(plain, again, plain_len) ? "True" : "False");
    status = tree(image, len / 2, &how, &rows, &names, &needed, &fault);
    if (status != JFFS2_OK) printf("cut %" PRIu32 "\n", status);
    else printf("cut %" PRIu64 "\n", needed.rows);
    free(rows), free(names), free(plain), free(small), free(again), free(image);
    return 0;
}
