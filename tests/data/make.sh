#!/usr/bin/env bash
# Makes the images of this folder, as mkfs.jffs2 of mtd-utils 2.1.5 writes them, compressed:
#   default.img  little order, blocks of 8 KiB: its default, zlib and (for short data) rtime
#   lzo.img      big order, blocks of 64 KiB: lzo alone
#   rtime.img    little order, blocks of 8 KiB, padded: rtime alone, and summaries by sumtool
# All hold one folder: text, zeros, noise, a hard link, a symlink, a FIFO, a device, an empty file.
# tests/decompress.sh has what they say.
#   small_zlib.hex, small_rtime.hex, small_lzo.hex
#                little, big and little order, blocks of 8 KiB, of one method each: a smaller folder,
#                as lines of hexadecimal digits, for tests/damage.py
# Usage: tests/data/make.sh (as root, needs mtd-utils)
set -eu
here=$(cd "$(dirname "$0")" && pwd)
PATH=$PATH:/usr/sbin
place=$(mktemp -d)
trap 'rm -rf "$place"' EXIT
cd "$place"
mkdir -p folder/etc/init.d
seq 1 3000 > folder/etc/log
printf 'root:x:0:0:root:/root:/bin/sh\n' > folder/etc/passwd
printf '%s\n' '#!/bin/sh' 'exec true' > folder/etc/init.d/start
printf 'aaaaaaaaaaaa' > folder/short
head -c 5000 /dev/zero > folder/zeros
for k in $(seq 32); do printf '%s' "$k" | sha256sum | cut -c 1-64; done | xxd -r -p > folder/noise
: > folder/empty
ln folder/etc/log folder/log
ln -s etc/passwd folder/way
mkfifo folder/fifo
mknod folder/null c 1 3
chmod 755 folder folder/etc folder/etc/init.d folder/etc/init.d/start
chmod 644 folder/etc/log folder/etc/passwd folder/short folder/zeros folder/noise folder/empty
chmod 600 folder/fifo folder/null
find folder -exec touch -h -d @1000000000 {} +
make() {
    mkfs.jffs2 -r folder -U "${@:2}" -o "$here/$1.img"
}
make default -l -e 8KiB
make lzo -b -e 64KiB -x zlib -x rtime -X lzo
make rtime -l -e 8KiB -x zlib
mv "$here/rtime.img" whole.img
sumtool -l -e 8KiB -p -i whole.img -o "$here/rtime.img"

mkdir -p small/etc
seq -s ' ' 1 300 > small/numbers
yes 'a line of a file of many nodes' | head -c 9000 > small/lines
printf 'root:x:0:0:root:/root:/bin/sh\n' > small/etc/passwd
ln small/numbers small/etc/n
ln -s etc/passwd small/way
: > small/empty
chmod 755 small small/etc
chmod 644 small/numbers small/lines small/etc/passwd small/empty
find small -exec touch -h -d @1000000000 {} +
make_small() {
    mkfs.jffs2 -r small -U -e 8KiB "${@:2}" -o small.img
    xxd -p -c 40 small.img "$here/small_$1.hex"
}
make_small zlib -l -x rtime
make_small rtime -b -x zlib
make_small lzo -l -X lzo -x zlib -x rtime
