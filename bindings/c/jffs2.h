/* Images of JFFS2 for C. docs/BINDINGS.md says what is proved about these calls; this is the short
 * form.
 *
 * Every call reads bytes of the caller, and writes its answer into memory of the caller. Only
 * jffs2_open keeps anything. Calls may run in any threads at once, on the same image too.
 *
 * The caller's duties:
 * - No pointer is NULL, also if its length is 0. Lengths are below 2^63.
 * - Memory that a call writes overlaps nothing else that the call is given.
 * - `image` does not change during the call. Only jffs2_open keeps it, until jffs2_close.
 * - No call is made from a signal handler.
 *
 * The library's promises:
 * - Every call returns, for any bytes and any numbers, and writes only the memory for its answer.
 * - It answers JFFS2_OK, or one of the numbers below. At such a number the memory for the answer
 *   is as it was before the call. Then `fault` has the address. Only at JFFS2_SMALL `needed` says
 *   instead how much memory the answer takes. Ask with length 0 first, or guess.
 * - jffs2_crc, jffs2_info, jffs2_check, jffs2_findings and jffs2_nodes allocate nothing. The others
 *   allocate by rattle_alloc, rattle_realloc and rattle_dealloc (jffs2_heap.c, over malloc), and
 *   free all of it before they return; jffs2_open keeps its mount. */
#ifndef JFFS2_H
#define JFFS2_H
#include <stddef.h>
#include <stdint.h>
#ifdef __cplusplus
extern "C" {
#endif

/* What a call answers. 1 to 7 are the faults M1 to M7 of the manual page, 20 and 21 are Z1 and Z2. */
enum {
    JFFS2_OK = 0,
    JFFS2_BLOCK_SIZE = 1,    /* the block size is not read */
    JFFS2_TOO_LARGE = 2,     /* the image is longer than 256 MiB */
    JFFS2_INCOMPATIBLE = 3,  /* a node that may not be skipped: fault.address; .detail is its type */
    JFFS2_COMPRESSED = 4,    /* compressed data that are not read: .address; .detail is the method */
    JFFS2_CLASH = 5,         /* the node at .address contradicts one before it */
    JFFS2_ROOT_KIND = 6,     /* the root is not a directory */
    JFFS2_OUT_OF_MEMORY = 7,
    JFFS2_SMALL = 9,         /* the caller's memory is too small: `needed` says how much it takes */
    JFFS2_BAD_PATH = 10,     /* the text is not a path: it has to begin with a slash */
    JFFS2_NOT_FOUND = 11,
    JFFS2_NOT_DIRECTORY = 12,
    JFFS2_DATA = 20,         /* data that do not decompress, at .address */
    JFFS2_TOO_LONG = 21,     /* decompressed, the node at .address is too long */
    JFFS2_READ_ONLY = 22,    /* a node says that the image may not be written */
    JFFS2_GEOMETRY = 23,     /* blocks of this size are not written: they have at least 8192 bytes */
    JFFS2_FULL = 24,         /* the flash has no room for the nodes, or, if .address is not 0, for the
                                operation at line .address */
    JFFS2_PAGE = 25,         /* files are cut by pages of 4096, 8192 or 16384 bytes */
    JFFS2_LISTING = 30,      /* line .address of the listing means nothing. By .detail: 1: a space at
                                its start; 2: two spaces; 3: a space at its end; 4: a carriage
                                return; 5: an unknown name; 6: too few words; 7: too many; 8: a
                                wrong word. */
    JFFS2_REFUSED = 31,      /* the operation at line .address is refused: .detail is 1 to 12 for O1
                                to O12 of the manual page */
    JFFS2_FILES = 32,        /* row .address of the files, from 0 on, is not within their bytes */
    JFFS2_NO_FILE = 33,      /* line .address names a file that is not given */
    JFFS2_CLOSED = 34        /* the handle has no mount */
};

/* The block size and byte order, which an image does not record, and how its data are read. */
typedef struct jffs2_how {
    uint32_t block;   /* the bytes of an erase block: 4096 to 4194304, a multiple of 4 */
    uint32_t big;     /* 0: little-endian order; any other number: big-endian order */
    uint32_t through; /* 0: compressed data are refused; any other number: they are read.
                         Only jffs2_stat, jffs2_read, jffs2_read_many, jffs2_tree and
                         jffs2_tree_text use it. */
} jffs2_how;

/* The address of the node that a fault is about, and its type or the number of its compression; 0 if
 * the fault has none. It is written only if a call answers a fault other than JFFS2_SMALL. */
typedef struct jffs2_fault {
    uint32_t address;
    uint32_t detail;
} jffs2_fault;

typedef struct jffs2_counted {
    uint64_t blocks;
    uint64_t entries;
    uint64_t inodes;
    uint64_t findings;
} jffs2_counted;

/* An object with its number: its whole mode, its owners, its size in bytes, its times in seconds. */
typedef struct jffs2_stat_row {
    uint32_t number;
    uint32_t mode;
    uint32_t uid;
    uint32_t gid;
    uint32_t size;
    uint32_t atime;
    uint32_t mtime;
    uint32_t ctime;
} jffs2_stat_row;

/* A name of a directory. */
typedef struct jffs2_entry {
    uint32_t directory;    /* the number of the directory */
    uint32_t is_there;     /* 1 if the object is there, else 0, and then it has only its number */
    jffs2_stat_row object; /* the object of the name */
    uint64_t name_at;      /* the place at which the name begins among the bytes of all names */
    uint64_t name_len;
} jffs2_entry;

typedef struct jffs2_needed {
    uint64_t rows;
    uint64_t bytes;
} jffs2_needed;

/* A request for bytes of an object, and its answer. */
typedef struct jffs2_request {
    uint32_t number; /* asked: the object */
    uint32_t spare;  /* not read, and left as it is */
    uint64_t offset; /* asked: the first byte */
    uint64_t length; /* asked: how many bytes at most */
    uint64_t at;     /* answered: the place at which they begin in `out` */
    uint64_t got;    /* answered: how many there are */
} jffs2_request;

/* A problem at an address. */
typedef struct jffs2_finding_row {
    uint32_t address;
    uint32_t length; /* in bytes */
    uint32_t kind;   /* 1: a damaged node; 2: one of extended attributes; 3: one after which nothing
                        may be written; 4: words of the other order; 5: other words; 6: a node that
                        may not be skipped; 7: a sound inode node whose data are compressed */
    uint32_t detail; /* at 1 the check that failed (1 the node's checksum, 2 the name's, 3 the
                        data's, 4 a length, 5 a range), at 3 and 6 the type, at 7 the number of the
                        compression; else 0 */
} jffs2_finding_row;

/* A node: its kind, and each of its fields; 0 if it has no such field. */
typedef struct jffs2_node_row {
    uint32_t address;
    uint32_t length;     /* with the bytes up to the next word */
    uint32_t kind;       /* 1: an entry; 2: an inode; 3: a clean marker; 4: padding; 5: obsolete; 6: of
                            extended attributes; 7: of a type that may be skipped; 8: of a type that
                            forbids writing; 9: of one that may not be skipped; 10: an inode whose
                            data are compressed; 11: damaged */
    uint32_t detail;     /* at 7 to 9 the type, at 11 the check that failed, as of a finding */
    uint32_t number;     /* the object */
    uint32_t version;
    uint32_t directory;  /* of an entry: the directory, the time, the kind of the object */
    uint32_t entry_time;
    uint32_t entry_type;
    uint32_t mode;       /* of an inode */
    uint32_t uid;
    uint32_t gid;
    uint32_t size;       /* of the whole object */
    uint32_t atime;
    uint32_t mtime;
    uint32_t ctime;
    uint32_t offset;     /* the range of the object's bytes that it gives, and its length */
    uint32_t range;
    uint32_t method;     /* how these are stored: 0 as they are, 1 zeros, else the compression */
    uint32_t spare;      /* 0 */
    uint64_t stored;     /* the bytes that the data take in the node, from address + 68 on; for an
                            entry the bytes of its name, from address + 40 on */
} jffs2_node_row;

/* The parameters that the nodes of an image show. A range or a number that is not known is 0. */
typedef struct jffs2_info_row {
    uint64_t bytes;
    uint32_t order;          /* 0: no node is good; 1: little-endian; 2: big-endian */
    uint32_t least_block;    /* the least and the greatest size that blocks may have */
    uint32_t greatest_block;
    uint32_t highest_inode;
    uint32_t highest_version;
    uint32_t spare;          /* 0 */
    uint64_t markers;
    uint64_t nodes;          /* in that order; each is one of the five kinds below */
    uint64_t other_order;    /* good headers in the other order */
    uint64_t entries;
    uint64_t inodes;
    uint64_t obsolete;
    uint64_t damaged;
    uint64_t other;
    uint64_t data_none;      /* inode nodes by how their data are stored */
    uint64_t data_zero;
    uint64_t data_rtime;
    uint64_t data_zlib;
    uint64_t data_lzo;
    uint64_t data_lzma;
    uint64_t data_other;
} jffs2_info_row;

/* The flash that is written: how many blocks it has, and the page by which files are cut. */
typedef struct jffs2_target {
    uint32_t blocks;
    uint32_t page; /* 4096, 8192 or 16384 */
} jffs2_target;

/* A file that a listing may name: where its name and its bytes are among the bytes of all files. */
typedef struct jffs2_file {
    uint64_t name_at;
    uint64_t name_len;
    uint64_t at;
    uint64_t length;
} jffs2_file;

/* What jffs2_append or jffs2_update wrote. */
typedef struct jffs2_written {
    uint64_t bytes;    /* of the new image */
    uint64_t accepted; /* operations, from the first on */
    uint64_t nodes;
    uint32_t stop;     /* 0 if all were accepted, else JFFS2_FULL or JFFS2_REFUSED: the next one was
                          not */
    uint32_t line;     /* the line of that one, else 0 */
    uint32_t detail;   /* at JFFS2_REFUSED 1 to 12, else 0 */
    uint32_t spare;    /* 0 */
} jffs2_written;

/* The checksum of bytes, as in nodes: CRC-32 without the two complements. */
uint32_t jffs2_crc(const uint8_t *bytes, size_t len);

/* The parameters of an image of unknown block size and byte order. JFFS2_TOO_LARGE or JFFS2_OK. */
uint32_t jffs2_info(const uint8_t *image, size_t len, jffs2_info_row *info);

/* Counts blocks, sound entry and inode nodes, and findings (damage, dirt, the other order) of any
 * image. JFFS2_BLOCK_SIZE, JFFS2_TOO_LARGE or JFFS2_OK. */
uint32_t jffs2_check(const uint8_t *image, size_t len, const jffs2_how *how,
                     jffs2_counted *counted, jffs2_fault *fault);

/* The findings of any image, in the order of their addresses: those that jffs2_check counts.
 * JFFS2_BLOCK_SIZE, JFFS2_TOO_LARGE, JFFS2_SMALL or JFFS2_OK; `needed` counts rows. */
uint32_t jffs2_findings(const uint8_t *image, size_t len, const jffs2_how *how,
                        jffs2_finding_row *rows, size_t row_count,
                        size_t *needed, jffs2_fault *fault);

/* The nodes of any image, in the order of their addresses. As jffs2_findings. */
uint32_t jffs2_nodes(const uint8_t *image, size_t len, const jffs2_how *how,
                     jffs2_node_row *rows, size_t row_count,
                     size_t *needed, jffs2_fault *fault);

/* The object that a path leads to. Symlinks are not followed. 1 to 7, 10 to 12, 20, 21. */
uint32_t jffs2_stat(const uint8_t *image, size_t len, const jffs2_how *how,
                    const uint8_t *path, size_t path_len,
                    jffs2_stat_row *stat, jffs2_fault *fault);

/* The bytes of a regular file or a symlink from an offset on: as many as `out` has room for, and
 * `got` says how many these are. Any other object has none. 1 to 7, 20, 21. */
uint32_t jffs2_read(const uint8_t *image, size_t len, const jffs2_how *how,
                    uint32_t number, uint64_t offset,
                    uint8_t *out, size_t out_len, size_t *got, jffs2_fault *fault);

/* A mount that is kept from call to call. It begins as all zeros, and nothing but the calls below
 * writes it. It is for one thread, and for one call at a time; of two copies only one is used. */
typedef struct jffs2_handle {
    void *at;
    _Bool is_open;
} jffs2_handle;

/* Mounts an image and keeps the mount; what the handle had before is closed. The image stays where and
 * as it is until jffs2_close. `through` is not asked: compressed data are refused, so decompress the
 * image first. 1 to 7; the handle is then as it was. */
uint32_t jffs2_open(const uint8_t *image, size_t len, const jffs2_how *how,
                    jffs2_handle *handle, jffs2_fault *fault);

/* Frees the mount of a handle, if it has one. It answers JFFS2_OK. */
uint32_t jffs2_close(jffs2_handle *handle);

/* The number that a path leads to. Symlinks are not followed. 10 to 12; JFFS2_CLOSED. */
uint32_t jffs2_find(jffs2_handle *handle, const uint8_t *path, size_t path_len,
                    uint32_t *number, jffs2_fault *fault);

/* The object of a number. JFFS2_NOT_FOUND; JFFS2_CLOSED. */
uint32_t jffs2_object(jffs2_handle *handle, uint32_t number, jffs2_stat_row *stat);

/* Its bytes, as jffs2_read gives them. JFFS2_CLOSED. */
uint32_t jffs2_read_kept(jffs2_handle *handle, uint32_t number, uint64_t offset,
                         uint8_t *out, size_t out_len, size_t *got);

/* The bytes of many objects, by one mount. Each request has the answer of jffs2_read with an `out` of
 * `length` bytes. In `out` the bytes of all requests follow one another. An object that is not there
 * has none, and the others are read all the same. 1 to 7, 20, 21; JFFS2_SMALL if there is no room for
 * all bytes; the requests are then as they were. */
uint32_t jffs2_read_many(const uint8_t *image, size_t len, const jffs2_how *how,
                         jffs2_request *requests, size_t request_count,
                         uint8_t *out, size_t out_len, size_t *needed, jffs2_fault *fault);

/* All names, by the number of their directory and then in byte order; the root (number 1) has none.
 * 1 to 7, 20, 21; JFFS2_SMALL if there is no room for all rows or for all bytes of names. */
uint32_t jffs2_tree(const uint8_t *image, size_t len, const jffs2_how *how,
                    jffs2_entry *rows, size_t row_count, uint8_t *names, size_t names_len,
                    jffs2_needed *needed, jffs2_fault *fault);

/* The lines that `jffs2_image ls` prints of the object that a path names, and of what lies below it:
 * of "/" those of the whole image. `needed` counts bytes; no zero byte ends them. 1 to 7, 10 to 12,
 * 20, 21; JFFS2_SMALL. */
uint32_t jffs2_tree_text(const uint8_t *image, size_t len, const jffs2_how *how,
                         const uint8_t *path, size_t path_len,
                         uint8_t *out, size_t out_len, size_t *needed, jffs2_fault *fault);

/* What `jffs2_image check` prints of any image; with the shape of its tree if `shape` is not 0.
 * JFFS2_BLOCK_SIZE, JFFS2_TOO_LARGE, JFFS2_OUT_OF_MEMORY; JFFS2_SMALL. */
uint32_t jffs2_check_text(const uint8_t *image, size_t len, const jffs2_how *how, uint32_t shape,
                          uint8_t *out, size_t out_len, size_t *needed, jffs2_fault *fault);

/* The image of the same nodes with data not compressed. 1 to 4, 7, 20 to 24; JFFS2_SMALL. */
uint32_t jffs2_decompress(const uint8_t *image, size_t len, const jffs2_how *how,
                          uint8_t *out, size_t out_len, size_t *needed, jffs2_fault *fault);

/* An image of the same nodes, with data of files compressed by ZLIB if that makes a node shorter. 1
 * to 4, 7, 21 to 24; 4 if a node is compressed already; JFFS2_SMALL. */
uint32_t jffs2_compress(const uint8_t *image, size_t len, const jffs2_how *how,
                        uint8_t *out, size_t out_len, size_t *needed, jffs2_fault *fault);

/* The image of those nodes alone that matter, on an erased flash of so many blocks, each with the bytes
 * that it has: it shows the same tree, and has no damage or dirt. Compressed data stay as they are,
 * whatever `how` asks. 1 to 7, 20 to 24; at 24 so many blocks have no room for the nodes; JFFS2_SMALL. */
uint32_t jffs2_compact(const uint8_t *image, size_t len, const jffs2_how *how, uint32_t blocks,
                       uint8_t *out, size_t out_len, size_t *needed, jffs2_fault *fault);

/* What `jffs2_image cuts` prints of the operations of a listing on an image: from which byte on each
 * node that they write is whole. With no bytes as `image` they make a new one. Lines may name files:
 * the first one of a name counts. 1 to 7, 22 to 25, 30 to 33; JFFS2_SMALL. */
uint32_t jffs2_cuts(const uint8_t *image, size_t len, const jffs2_how *how,
                    const jffs2_target *target, const uint8_t *listing, size_t listing_len,
                    const uint8_t *files, size_t files_len,
                    const jffs2_file *rows, size_t row_count,
                    uint8_t *out, size_t out_len, size_t *needed, jffs2_fault *fault);

/* An image with what `jffs2_image append` writes behind its nodes; with no bytes as `image` what
 * `build` writes. If an operation is refused or has no room, those before it are written, and
 * `written` says which one it is. 1 to 7, 22, 23, 25, 30, 32, 33; JFFS2_SMALL, at which `written` is
 * as at JFFS2_OK. */
uint32_t jffs2_append(const uint8_t *image, size_t len, const jffs2_how *how,
                      const jffs2_target *target, const uint8_t *listing, size_t listing_len,
                      const uint8_t *files, size_t files_len,
                      const jffs2_file *rows, size_t row_count,
                      uint8_t *out, size_t out_len, jffs2_written *written, jffs2_fault *fault);

/* A device's image with what the operations of a listing write to its blank blocks and to the erased
 * ends of the others; each other byte is as it is in `image`. What the image shows is read through its
 * compression, whatever `how` asks. If `pack` is not 0, new data of files are compressed by ZLIB if
 * that makes a node shorter. `written` is as of jffs2_append. 1 to 7, 20 to 23, 25, 30, 32, 33;
 * JFFS2_SMALL. */
uint32_t jffs2_update(const uint8_t *image, size_t len, const jffs2_how *how,
                      const jffs2_target *target, uint32_t pack,
                      const uint8_t *listing, size_t listing_len,
                      const uint8_t *files, size_t files_len,
                      const jffs2_file *rows, size_t row_count,
                      uint8_t *out, size_t out_len, jffs2_written *written, jffs2_fault *fault);

#ifdef __cplusplus
}
#endif
#endif
