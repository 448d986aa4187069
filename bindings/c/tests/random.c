/* random IMAGE BLOCK COUNT SEED: cuts and flips of an image, in memory of exactly its length. Every call returns; at a
 * fault the memory for the answer is as it was; behind the answer nothing is written. */
#include "jffs2.h"
#include <stdio.h>
#include <stdlib.h>
#include <string.h>

static uint64_t state;

static uint32_t below(uint32_t n) {
    state = state * 6364136223846793005u + 1442695040888963407u;
    return (uint32_t)(state >> 33) % n;
}
static void fail(const char *what, uint32_t status) {
    printf("%s at status %u\n", what, status);
    exit(1);
}
/* from `from` on all is 7 */
static void untouched(const char *what, uint32_t status, const void *at, size_t from, size_t len) {
    for (size_t i = from; i < len; i++)
        if (((const uint8_t *)at)[i] != 7) fail(what, status);
}
static int known(uint32_t status) {
    return status <= 12 ? status != 8 : (status >= 20 && status <= 25) || (status >= 30 && status <= 33);
}

static long seen[64];

static void look(const uint8_t *image, size_t len, const jffs2_how *how) {
    jffs2_counted counts;
    jffs2_stat_row row;
    jffs2_info_row info;
    jffs2_fault fault = {0, 0};
    jffs2_needed needed;
    size_t got = 0, room = below(40), places = below(20);
    jffs2_entry *rows = malloc(places * sizeof *rows + 1);
    uint8_t *names = malloc(room * 8 + 1), *out = malloc(room + 1);
    memset(rows, 7, places * sizeof *rows), memset(names, 7, room * 8), memset(out, 7, room);
    memset(&row, 7, sizeof row), memset(&counts, 7, sizeof counts);
    uint32_t status = jffs2_info(image, len, &info);
    if (status) fail("info", status);
    seen[status = jffs2_check(image, len, how, &counts, &fault)]++;
    if (!known(status)) fail("check", status);
    if (status) untouched("check wrote", status, &counts, 0, sizeof counts);
    seen[status = jffs2_stat(image, len, how, (const uint8_t *)"/etc/passwd", 11, &row, &fault)]++;
    if (!known(status)) fail("stat", status);
    if (status) untouched("stat wrote", status, &row, 0, sizeof row);
    seen[status = jffs2_read(image, len, how, below(14), below(40), out, room, &got, &fault)]++;
    if (!known(status) || got > room) fail("read", status);
    untouched("read wrote", status, out, status ? 0 : got, room);
    seen[status = jffs2_tree(image, len, how, rows, places, names, room * 8, &needed, &fault)]++;
    if (!known(status)) fail("tree", status);
    if (status == JFFS2_SMALL && needed.rows <= places && needed.bytes <= room * 8) fail("tree is small", status);
    untouched("tree wrote", status, rows, status ? 0 : needed.rows * sizeof *rows, places * sizeof *rows);
    untouched("tree wrote", status, names, status ? 0 : needed.bytes, room * 8);
    free(rows), free(names), free(out);
}

static void print(const uint8_t *image, size_t len, const jffs2_how *how) {
    jffs2_fault fault = {0, 0};
    size_t needed = 0, room = below(4000);
    uint8_t *out = malloc(room + 1);
    memset(out, 7, room);
    uint32_t status = below(2) ? jffs2_tree_text(image, len, how, (const uint8_t *)"/etc", below(5), out, room, &needed, &fault)
                               : jffs2_check_text(image, len, how, below(2), out, room, &needed, &fault);
    seen[status]++;
    if (!known(status)) fail("print", status);
    if (status == JFFS2_SMALL && needed <= room) fail("print is small", status);
    untouched("print wrote", status, out, status ? 0 : needed, room);
    free(out);
}

static void convert(const uint8_t *image, size_t len, const jffs2_how *how) {
    jffs2_fault fault = {0, 0};
    size_t needed = 0, room = below(60000);
    uint8_t *out = malloc(room + 1);
    memset(out, 7, room);
    uint32_t status = below(4) ? jffs2_decompress(image, len, how, out, room, &needed, &fault)
                               : jffs2_compress(image, len, how, out, room, &needed, &fault);
    seen[status]++;
    if (!known(status)) fail("convert", status);
    if (status == JFFS2_SMALL && needed <= room) fail("convert is small", status);
    untouched("convert wrote", status, out, status ? 0 : needed, room);
    free(out);
}

/* a listing cut at any byte and changed in one, over files whose rows are changed too */
static void write_on(const uint8_t *image, size_t len, const jffs2_how *how) {
    static const char lines[] = "time 1\nmkdir 0755 /new\nfile 0644 /new/x f\nremove /etc/passwd\nrename /new /old\n";
    static const uint8_t content[2000] = "f";
    jffs2_fault fault = {0, 0};
    jffs2_written written = {0, 0, 0, 0, 0, 0, 0};
    jffs2_target target = {below(8) ? 2 + below(8) : below(3), 4096u << below(4)};
    jffs2_file row = {below(2), 1, below(2), below(2100)};
    size_t needed = 0, room = below(60000), text_len = below(4) ? sizeof lines - 1 : below(sizeof lines);
    uint8_t *out = malloc(room + 1), *text = malloc(text_len + 1);
    memset(out, 7, room), memcpy(text, lines, text_len);
    if (below(4) == 0 && text_len) text[below((uint32_t)text_len)] = (uint8_t)below(256);
    if (below(16) == 0) row.at = UINT64_MAX - below(2000);
    uint32_t which = below(4), pack = below(2);
    uint32_t status =
        which == 0   ? jffs2_compact(image, len, how, target.blocks, out, room, &needed, &fault)
        : which == 1 ? jffs2_cuts(image, len, how, &target, text, text_len, content, sizeof content, &row, 1, out, room,
                                  &needed, &fault)
        : which == 2
            ? jffs2_append(image, len, how, &target, text, text_len, content, sizeof content, &row, 1, out, room, &written,
                           &fault)
            : jffs2_update(image, len, how, &target, pack, text, text_len, content, sizeof content, &row, 1, out, room,
                           &written, &fault);
    if (which >= 2) needed = written.bytes;
    seen[status]++;
    if (!known(status)) fail("write", status);
    if (status == JFFS2_SMALL && needed <= room) fail("write is small", status);
    if (status && status != JFFS2_SMALL && needed) fail("write told", status);
    untouched("write wrote", status, out, status ? 0 : needed, room);
    free(out), free(text);
}

int main(int argc, char **argv) {
    FILE *file = argc == 5 ? fopen(argv[1], "rb") : NULL;
    if (!file) return 2;
    static uint8_t bytes[1 << 17];
    size_t len = fread(bytes, 1, sizeof bytes, file);
    uint32_t block = (uint32_t)strtoul(argv[2], NULL, 10);
    state = strtoull(argv[4], NULL, 10);
    for (long i = strtol(argv[3], NULL, 10); i; i--) {
        size_t part = below(2) ? len : below((uint32_t)len + 1);
        uint8_t *image = malloc(part + 1);
        memcpy(image, bytes, part);
        for (uint32_t flips = below(4); flips && part; flips--) image[below((uint32_t)part)] ^= (uint8_t)(1u << below(8));
        jffs2_how how = {below(8) ? block : below(70000), below(8) == 0, below(2)};
        look(image, part, &how);
        print(image, part, &how);
        if (i % 8 == 0) convert(image, part, &how);
        if (i % 4 == 0) write_on(image, part, &how);
        free(image);
    }
    for (int i = 0; i < 64; i++)
        if (seen[i]) printf("status %d: %ld\n", i, seen[i]);
    return 0;
}
