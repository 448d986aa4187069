# What the scripts need that boot Linux, for them to source: sets `program` and `kernel` by the first
# two arguments, and has `compare`. Ends with status 77 where a package is missing.
program=$(realpath "${1:-$here/../../crates/jffs2_image/out/jffs2_image}")
kernel=$(realpath "${2:-/}")
PATH=$PATH:/usr/sbin:/sbin
missing() {
    echo "$1 is missing: apt-get install $2"
    exit 77
}
command -v qemu-system-x86_64 > /dev/null || missing qemu-system-x86_64 qemu-system-x86
command -v cpio > /dev/null || missing cpio cpio
command -v mkfs.jffs2 > /dev/null || missing mkfs.jffs2 mtd-utils
busybox=$(command -v busybox) && [[ $("$busybox") == *insmod* ]] || missing busybox busybox-static
compgen -G "$kernel/lib/modules/*/kernel/fs/jffs2/jffs2.ko" > /dev/null || missing "a kernel in $kernel" linux-image-amd64
if [[ $(id -u) != 0 ]]; then
    echo "root is missing: files are given away to their owners"
    exit 77
fi
if [[ ! -x $program ]]; then
    echo "$program is no program: build it by rt run in crates/jffs2_image, or name another"
    exit 1
fi

# compare SCRIPT: runs it on the program and the kernel, with a folder of its own
compare() {
    place=$(mktemp -d)
    trap 'rm -rf "$place"' EXIT
    nice -n 10 python3 -B "$here/$1" "$program" "$kernel" "$place"
}
