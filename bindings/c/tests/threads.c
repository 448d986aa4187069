/* threads IMAGE BLOCK: eight threads look at one image at once, and all find what one finds alone. */
#include "jffs2.h"
#include <pthread.h>
#include <stdio.h>
#include <stdlib.h>
#include <string.h>

static uint8_t image[1 << 17];
static size_t len;
static jffs2_how how = {0, 0, 1};

static void *sum_of(void *at) {
    uint32_t sum = 0;
    uint8_t *names = malloc(1 << 16), *out = malloc(1 << 17);
    jffs2_entry *rows = malloc(1000 * sizeof *rows);
    jffs2_needed needed;
    jffs2_fault fault;
    size_t got;
    for (int turn = 0; turn < 20; turn++) {
        sum = jffs2_tree(image, len, &how, rows, 1000, names, 1 << 16, &needed, &fault);
        for (uint64_t i = 0; !sum && i < needed.rows; i++) {
            if (jffs2_read(image, len, &how, rows[i].object.number, 0, out, 1 << 17, &got, &fault)) break;
            sum ^= jffs2_crc(out, got) + (uint32_t)i;
        }
        if (!jffs2_decompress(image, len, &how, out, 1 << 17, &got, &fault)) sum ^= jffs2_crc(out, got);
    }
    free(names), free(out), free(rows);
    *(uint32_t *)at = sum;
    return NULL;
}

int main(int argc, char **argv) {
    FILE *file = argc == 3 ? fopen(argv[1], "rb") : NULL;
    if (!file) return 2;
    len = fread(image, 1, sizeof image, file);
    how.block = (uint32_t)strtoul(argv[2], NULL, 10);
    uint32_t alone, found[8];
    pthread_t threads[8];
    sum_of(&alone);
    for (int i = 0; i < 8; i++)
        if (pthread_create(&threads[i], NULL, sum_of, &found[i])) return 1;
    for (int i = 0; i < 8; i++) pthread_join(threads[i], NULL);
    for (int i = 0; i < 8; i++)
        if (found[i] != alone) return printf("thread %d found %08x, and one alone %08x\n", i, found[i], alone), 1;
    printf("all threads found the same\n");
    return 0;
}
