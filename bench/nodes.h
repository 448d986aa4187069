/* What the readers in C share: how nodes of little order are marked and checked. */
#include <stdint.h>
#include <string.h>
#include <zlib.h>

enum { MAGIC = 0x1985, ACCURATE = 0x2000, DIRENT = 0xE001, INODE = 0xE002 };

/* The checksum of JFFS2 by zlib's. */
static uint32_t checksum(const uint8_t *bytes, size_t count)
{
	return crc32(0xFFFFFFFF, bytes, count) ^ 0xFFFFFFFF;
}

static uint32_t number(const uint8_t *bytes)
{
	uint32_t value;
	memcpy(&value, bytes, 4);
	return value;
}
