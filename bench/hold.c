/* The least that a program does which makes an image of a folder: it looks at, opens, reads and closes each file, and writes all
 * bytes to one file in blocks of 64 KiB. It makes no nodes and no checksums.
 *
 * hold FOLDER OUT         the bytes of all files are held before OUT is opened, as `pack` does
 * hold FOLDER OUT stream  each file goes out when it was read
 */
#define _GNU_SOURCE
#include <dirent.h>
#include <err.h>
#include <fcntl.h>
#include <stdio.h>
#include <stdlib.h>
#include <string.h>
#include <sys/stat.h>
#include <unistd.h>

enum { BLOCK = 65536 };

static unsigned char piece[BLOCK], block[BLOCK], *held;
static size_t in_block, length, room;
static char **paths;
static size_t pending, most;
static int out = -1;

static void write_block(void) {
    if (write(out, block, in_block) != (ssize_t)in_block) err(1, "write");
    in_block = 0;
}

static void put(const unsigned char *bytes, size_t count) {
    while (count) {
        size_t part = BLOCK - in_block < count ? BLOCK - in_block : count;
        memcpy(block + in_block, bytes, part);
        in_block += part, bytes += part, count -= part;
        if (in_block == BLOCK) write_block();
    }
}

static void hold(const unsigned char *bytes, size_t count) {
    if (length + count > room) {
        room = 2 * (length + count);
        if (!(held = realloc(held, room))) err(1, "realloc");
    }
    memcpy(held + length, bytes, count);
    length += count;
}

static void add(char *path) {
    if (pending == most && !(paths = realloc(paths, sizeof *paths * (most = 2 * most + 64)))) err(1, "realloc");
    paths[pending++] = path;
}

static int falling(const void *a, const void *b) { return strcmp(*(char *const *)b, *(char *const *)a); }

static void visit_folder(const char *path) {
    DIR *folder = opendir(path);
    if (!folder) err(1, "%s", path);
    size_t first = pending;
    for (struct dirent *entry; (entry = readdir(folder));) {
        char *below;
        if (!strcmp(entry->d_name, ".") || !strcmp(entry->d_name, "..")) continue;
        if (asprintf(&below, "%s/%s", path, entry->d_name) < 0) err(1, "asprintf");
        add(below);
    }
    closedir(folder);
    qsort(paths + first, pending - first, sizeof *paths, falling);
}

static void visit_file(const char *path, size_t left) {
    int file = open(path, O_RDONLY | O_CLOEXEC);
    if (file < 0) err(1, "%s", path);
    while (left) {
        ssize_t count = read(file, piece, left < BLOCK ? left : BLOCK);
        if (count <= 0) err(1, "%s", path);
        (out < 0 ? hold : put)(piece, count);
        left -= count;
    }
    close(file);
}

static void open_out(const char *path) {
    if ((out = open(path, O_WRONLY | O_CREAT | O_TRUNC, 0644)) < 0) err(1, "%s", path);
}

int main(int count, char **words) {
    if (count < 3) errx(2, "usage: hold FOLDER OUT [stream]");
    if (count > 3) open_out(words[2]);
    add(strdup(words[1]));
    while (pending) {
        char *path = paths[--pending];
        struct stat told;
        if (lstat(path, &told)) err(1, "%s", path);
        if (S_ISDIR(told.st_mode)) visit_folder(path);
        else visit_file(path, told.st_size);
        free(path);
    }
    if (out < 0) {
        open_out(words[2]);
        put(held, length);
    }
    write_block();
    return close(out) != 0;
}
