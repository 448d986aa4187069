/* failing IMAGE BLOCK: each allocation failing in turn. The answer is status 7, nothing leaks, and the memory for the
 * answer is as it was. Instead of jffs2_heap.c. */
#include "jffs2.h"
#include <stdio.h>
#include <stdlib.h>
#include <string.h>

struct tried {
    _Bool ok;
    void *p;
};

static unsigned char nothing;
static long left, live;

static int refuses(void) {
    if (left == 0) return 1;
    left--;
    return 0;
}
struct tried rattle_alloc(size_t size, size_t align) {
    if (refuses()) return (struct tried){0, &nothing};
    live++;
    return (struct tried){1, malloc(size ? size : align)};
}
struct tried rattle_realloc(void *old, size_t kept, size_t size, size_t align) {
    (void)kept;
    if (refuses()) return (struct tried){0, &nothing};
    return (struct tried){1, realloc(old, size ? size : align)};
}
void rattle_dealloc(void *p) {
    live--;
    free(p);
}

static uint8_t image[1 << 17], out[1 << 17], small[1 << 17];
static jffs2_entry rows[100];
static const char *names_of_calls[] = {"stat",       "read",    "tree", "decompress", "compress", "tree_text",
                                       "check_text", "compact", "cuts", "append",     "update", "open"};

enum { CALLS = sizeof names_of_calls / sizeof *names_of_calls };
static const char listing[] = "time 1\nmkdir 0755 /new\nfile 0644 /new/file x\n";
static const jffs2_file files[] = {{0, 1, 0, 5000}};
static uint8_t content[5000] = "x";

static int untouched(const void *at, size_t len) {
    for (size_t i = 0; i < len; i++)
        if (((const uint8_t *)at)[i] != 7) return 0;
    return 1;
}

/* a mount is kept, read and closed; what does not open leaves the handle closed */
static uint32_t open_and_close(size_t len, const jffs2_how *how) {
    jffs2_handle handle = {NULL, 0};
    jffs2_fault fault;
    uint32_t number = 0;
    size_t got;
    uint32_t status = jffs2_open(small, len, how, &handle, &fault);
    if (!status) status = jffs2_find(&handle, (const uint8_t *)"/etc/passwd", 11, &number, &fault);
    if (!status) status = jffs2_read_kept(&handle, number, 0, out, sizeof out, &got);
    jffs2_close(&handle);
    return status;
}

static uint32_t call(int which, size_t len, const jffs2_how *how, size_t plain_len) {
    jffs2_fault fault;
    jffs2_needed needed;
    size_t got;
    if (which == 0)
        return jffs2_stat(image, len, how, (const uint8_t *)"/etc/passwd", 11, (jffs2_stat_row *)out, &fault);
    if (which == 1) return jffs2_read(image, len, how, 5, 0, out, sizeof out, &got, &fault);
    if (which == 2) return jffs2_tree(image, len, how, rows, 100, out, sizeof out, &needed, &fault);
    if (which == 3) return jffs2_decompress(image, len, how, out, sizeof out, &got, &fault);
    if (which == 5)
        return jffs2_tree_text(image, len, how, (const uint8_t *)"/", 1, out, sizeof out, &got, &fault);
    if (which == 6) return jffs2_check_text(image, len, how, 1, out, sizeof out, &got, &fault);
    if (which == 7) return jffs2_compact(image, len, how, 16, out, sizeof out, &got, &fault);
    jffs2_target target = {16, 4096};
    const uint8_t *text = (const uint8_t *)listing;
    size_t text_len = sizeof listing - 1;
    if (which == 8)
        return jffs2_cuts(small, plain_len, how, &target, text, text_len, content, sizeof content, files, 1, out,
                          sizeof out, &got, &fault);
    if (which == 9)
        return jffs2_append(small, plain_len, how, &target, text, text_len, content, sizeof content, files, 1, out,
                            sizeof out, (jffs2_written *)rows, &fault);
    if (which == 10)
        return jffs2_update(image, len, how, &target, 1, text, text_len, content, sizeof content, files, 1, out,
                            sizeof out, (jffs2_written *)rows, &fault);
    if (which == 11) return open_and_close(plain_len, how);
    return jffs2_compress(small, plain_len, how, out, sizeof out, &got, &fault);
}

int main(int argc, char **argv) {
    FILE *file = argc == 3 ? fopen(argv[1], "rb") : NULL;
    if (!file) return 2;
    size_t len = fread(image, 1, sizeof image, file), plain_len;
    jffs2_how how = {(uint32_t)strtoul(argv[2], NULL, 10), 0, 1};
    jffs2_fault fault;
    left = -1;
    if (jffs2_decompress(image, len, &how, small, sizeof small, &plain_len, &fault)) return 2;
    for (int which = 0; which < CALLS; which++) {
        long i;
        for (i = 0;; i++) {
            memset(out, 7, sizeof out), memset(rows, 7, sizeof rows);
            left = i;
            uint32_t status = call(which, len, &how, plain_len);
            if (live) return printf("%s leaks %ld\n", names_of_calls[which], live), 1;
            if (status == JFFS2_OK) break;
            if (status != JFFS2_OUT_OF_MEMORY) return printf("%s: status %u\n", names_of_calls[which], status), 1;
            if (!untouched(out, sizeof out) || !untouched(rows, sizeof rows))
                return printf("%s wrote\n", names_of_calls[which]), 1;
        }
        if (i == 0) return printf("%s takes no memory\n", names_of_calls[which]), 1;
    }
    printf("each failure is status 7, nothing leaks, nothing is written\n");
    return 0;
}
