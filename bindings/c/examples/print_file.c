/* print_file IMAGE BLOCK PATH: prints a file of an image, of a compressed one too. */
#include "jffs2.h"
#include <stdio.h>
#include <stdlib.h>
#include <string.h>

static uint8_t *load(const char *name, size_t *len) {
    FILE *file = fopen(name, "rb");
    if (!file || fseek(file, 0, SEEK_END)) return NULL;
    *len = (size_t)ftell(file);
    rewind(file);
    uint8_t *bytes = malloc(*len + 1);
    if (bytes && fread(bytes, 1, *len, file) != *len) return NULL;
    fclose(file);
    return bytes;
}

int main(int argc, char **argv) {
    if (argc != 4) return 2;
    size_t len, got = 0;
    uint8_t *image = load(argv[1], &len);
    if (!image) return perror(argv[1]), 1;
    jffs2_how how = {(uint32_t)strtoul(argv[2], NULL, 10), 0, 1};
    jffs2_fault fault = {0, 0};
    jffs2_stat_row row;
    uint32_t status = jffs2_stat(image, len, &how, (const uint8_t *)argv[3], strlen(argv[3]), &row, &fault);
    if (status == JFFS2_OK) {
        uint8_t *out = malloc((size_t)row.size + 1);
        if (!out) return perror("out"), 1;
        status = jffs2_read(image, len, &how, row.number, 0, out, row.size, &got, &fault);
        fwrite(out, 1, got, stdout);
        free(out);
    }
    if (status != JFFS2_OK) fprintf(stderr, "status %u at %08x (%u)\n", status, fault.address, fault.detail);
    free(image);
    return status ? 1 : 0;
}
