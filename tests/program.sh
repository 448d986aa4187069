#!/usr/bin/env bash
# Runs the finished program on lines and files that no proof covers: what the system gives it and takes from it.
# Usage: tests/program.sh [PROGRAM]. The last line is 'N passed, M failed'.
set -u
. "$(dirname "$0")/running.sh"
samples=$top/crates/jffs2_image/data
manual=$top/docs/jffs2_image.1
formats=$top/docs/jffs2_image.5
pages=("$top"/docs/jffs2_image*.[157])
sources=$top/crates
: > empty
erased 4096 > block
erased 4097 > longer
mkdir folder
# The examples of docs/FORMAT.md: a clean marker, an entry of the root that names inode 2 `a`, and the node of inode 2, an
# empty file.
entry() {
    bytes 85 19 01 e0 29 00 00 00 6d a6 2f d7 01 00 00 00 01 00 00 00 02 00 00 00
    bytes 00 00 00 00 01 08 00 00 95 02 9b 91 ce 51 b5 3a 61 ff ff ff
}
empty_file() {
    bytes 85 19 02 e0 44 00 00 00 1d fb f7 98 02 00 00 00 01 00 00 00 a4 81 00 00
    bytes 00 00 00 00 00 00 00 00 00 00 00 00 00 00 00 00 00 00 00 00 00 00 00 00
    bytes 00 00 00 00 00 00 00 00 00 00 00 00 00 00 00 00 14 d0 c4 71
}
{ entry; empty_file; } > file
# The same entry, and inode 2 in two nodes: `hello`, of which the first byte is given, and ` flash` behind it.
hello_flash() {
    bytes 85 19 02 e0 49 00 00 00 c0 23 9d 6a 02 00 00 00 01 00 00 00 a4 81 00 00
    bytes 00 00 00 00 05 00 00 00 00 00 00 00 00 00 00 00 00 00 00 00 00 00 00 00
    bytes 05 00 00 00 05 00 00 00 00 00 00 00 9b 51 32 f0 e0 b6 d7 21 "$1" 65 6c 6c 6f ff ff ff
    bytes 85 19 02 e0 4a 00 00 00 2e 8c 28 78 02 00 00 00 02 00 00 00 a4 81 00 00
    bytes 00 00 00 00 0b 00 00 00 00 00 00 00 00 00 00 00 00 00 00 00 05 00 00 00
    bytes 06 00 00 00 06 00 00 00 00 00 00 00 28 ad 40 6e 28 d5 bc 76 20 66 6c 61 73 68 ff ff
}
{ entry; hello_flash 68; } > sound
{ entry; hello_flash 69; } > flipped
# The first of the two nodes lies over the end of the first 4096 bytes.
{ erased 4012; entry; hello_flash 68; } > crossing

# told WORD PATTERN: a manual page has a line of this pattern.
told() {
    grep -qE -- "$2" "${pages[@]}"
    local missing=$?
    count $missing
    [[ $missing == 0 ]] || echo "FAILED: no manual page describes $1"
}

help="*Usage: *Exit status:*0  done*1  a fault*2  the command line*3  check found*"
wrong="error: *Usage: *--help*"

# Words
run; want 2 "" "error: *Usage: jffs2_image <COMMAND>*"
run paint; want 2 "" "error: unrecognized subcommand 'paint'*Usage: *"
run ls; want 2 "" "error: *<IMAGE>*Usage: *"
run ls block / /a; want 2 "" "error: unexpected argument '/a' found*Usage: *"
run ls --scan block; want 2 "" "error: unexpected argument '--scan' found*Usage: *"
run ls block --block; want 2 "" "error: *--block <N>*"
run ls --block=4k block; want 2 "" "error: invalid value '4k' for '--block <N>': *--help*"
run ls --endian=middle block; want 2 "" "error: invalid value 'middle' for '--endian <ORDER>': *--help*"
run check; want 2 "" "error: *<IMAGE>*Usage: *"
run check --scan; want 2 "" "error: *<IMAGE>*Usage: *"
run check --scan block block; want 2 "" "$wrong"
run check --scan --colour block; want 2 "" "error: unexpected argument '--colour' found*Usage: *"
run check --scan --block; want 2 "" "error: *--block <N>*"
for value in x "" -1 0x 0X1000 0x1g 4k 4KB K 4096MiB 4294967296 99999999999 "4096 "; do
    run check --scan "--block=$value" block; want 2 "" "error: invalid value '$value' for '--block <N>': *--help*"
done
for value in middle Little ""; do
    run check --scan "--endian=$value" block; want 2 "" "error: invalid value '$value' for '--endian <ORDER>': *--help*"
done
run check --scan $'\xff'; want 2 "" "error: the command line is not UTF-8"
# The size of a block in its other forms, and the byte order by a letter
for words in "--block 4096" "--block=0x1000" "-e 4K" "-e4KiB" "--eraseblock 4096" "-l -e 4K" "-be 4K" "--big-endian -e 0x1000"; do
    run check --scan $words block; want 0 $'block 0\n00000000 erased 4096\ntotal blocks 1 entries 0 inodes 0 findings 0' ""
done
run check --scan -e 1M block; want 0 $'block 0\n00000000 erased 1048576\n*' ""
run check --scan -l -b block; want 2 "" "error: the argument '--little-endian' cannot be used with '--big-endian'*--help*"
run check --scan -b --endian big block; want 2 "" "error: the argument '--endian <ORDER>' cannot be used with '--big-endian'*--help*"
run check --scan -e 4096 --block 4096 block; want 2 "" "error: the argument '--block <N>' cannot be used multiple times*"

# Help
for words in --help -h help; do
    run $words; want 0 "$help" ""
    run $words; want 0 "*-V, --version*jffs2_image-errors(7)*" ""
done
for words in --version -V; do
    run $words; want 0 $'jffs2_image 0.1.0\nproved by the Rattle kit\'s logic ????????????????; PROVED.txt of a package names the commit' ""
done
run check --version block; want 2 "" "error: unexpected argument '--version' found*Usage: *"
for words in "check --help" "check -h" "help check"; do
    run $words; want 0 "*Usage: jffs2_image check *<IMAGE>*--block <N>*65536*--endian <ORDER>*little*--scan*Exit status:*" ""
done
for words in --help "check --help"; do
    run $words
    [[ $(tail -c 2 out | od -An -tx1) == *"0a" && $(tail -c 2 out | od -An -tx1) != *"0a 0a" ]]
    bad=$?
    count $bad
    [[ $bad == 0 ]] || echo "FAILED: one line feed ends $line"
done

line="the lines of help, 80 columns wide at most"
for words in --help "check --help" "ls --help" "cat --help" "build --help" "append --help" "update --help" "decompress --help" "compress --help" "compact --help" "extract --help" "listing --help" "info --help" "cuts --help" "diff --help" "damage --help" "map --help" "history --help" "pack --help" "verify --help"; do
    "$program" $words > out
    awk 'length > 80 { print; wide = 1 } END { exit wide }' out
    count $?
done

# The size of a block comes before the image is read, and after it is opened.
for value in 0 4092 4095 4097 4098 4194305 4194308 4294967295; do
    run check --block $value block; want 1 "" "jffs2_image: C1 BlockSize$block_note"
    run check --scan --block $value block; want 1 "" "jffs2_image: C1 BlockSize$block_note"
    run check --scan --block $value folder; want 1 "" "jffs2_image: C1 BlockSize$block_note"
    run check --scan --block $value none; want 1 "" "$(unopened none)"
done

# Images
run check --scan none; want 1 "" "$(unopened none)"
run check --scan ""; want 1 "" "$(unopened '')"
run check --scan "two words"; want 1 "" "$(unopened 'two words')"
run check --scan $'two\nlines\x7f\t'; want 1 "" $'jffs2_image: P1 File two\\\\x0alines\\\\x7f\\\\x09\njffs2_image: note: two\\\\x0alines\\\\x7f\\\\x09: no such file'
run cat $'\e[2J' /a; want 1 "" $'jffs2_image: P1 File \\\\x1b[[]2J\njffs2_image: note: \\\\x1b[[]2J: no such file'
run check --scan folder; want 1 "" "$(unread folder)"
run check --scan --block 4096 longer
want 0 $'block 0\n00000000 erased 4096\nblock 1\n00001000 erased 4096\ntotal blocks 2 entries 0 inodes 0 findings 0' ""
run check --scan --block 4194304 longer; want 0 $'block 0\n00000000 erased 4194304\ntotal blocks 1 entries 0 inodes 0 findings 0' ""
run check --scan --block 4096 block; want 0 $'block 0\n00000000 erased 4096\ntotal blocks 1 entries 0 inodes 0 findings 0' ""
nothing="total blocks 0 entries 0 inodes 0 findings 0"
run check --scan empty; want 0 "$nothing" ""
run check --scan --endian big empty; want 0 "$nothing" ""

# The greatest image, and one byte more: the lines of the blocks before have gone out.
last=$'block 63\n0fc00000 dirt 4194304'
truncate -s 268435456 greatest
run check --scan --block 4194304 greatest
want 3 $'block 0\n00000000 dirt 4194304\n*'"$last"$'\ntotal blocks 64 entries 0 inodes 0 findings 64' ""
truncate -s 268435457 larger
for image in larger /dev/zero; do
    run check --scan --block 4194304 $image; want 1 $'block 0\n00000000 dirt 4194304\n*'"$last" "jffs2_image: L2 TooLarge"
done
line="an image of 256 MiB in 64 MiB of memory"
(ulimit -v 65536; "$program" check --scan greatest > out 2> err); got=$?; want 3 "*total blocks 4096 entries 0 inodes 0 findings 4096" ""
line="a block of 4 MiB in 5 MB of memory"
(ulimit -v 5000; "$program" check --scan --block 4194304 block > out 2> err); got=$?; want 1 "" "jffs2_image: L3 OutOfMemory"

# A sample image, in its own byte order and in the other one
sample=$samples/one_entry.img
run check --scan --block 4096 "$sample"
want 0 $'block 0\n00000000 marker 12\n0000000c entry 44 pino 1 version 1 ino 2 type 8 name a\n00000038 erased 4040\ntotal blocks 1 entries 1 inodes 0 findings 0' ""
run check --scan --block 4096 --endian big "$sample"
want 3 $'block 0\n00000000 other-order 4\n00000004 dirt 8\n0000000c other-order 4\n00000010 dirt 40\n00000038 erased 4040\ntotal blocks 1 entries 0 inodes 0 findings 4' ""

# Images that are mounted: the report, and then the verdict
run check block; want 0 "*findings 0*mount ok" ""
run check empty; want 0 "total blocks 0 *mount ok" ""
run check --shape empty; want 0 "total blocks 0 *mount ok"$'\nshape ok' ""
run check --shape --scan empty; want 0 "$nothing" ""
run check --shape --block 4096 "$sample"; want 3 "*mount ok*dangling pino 1 ino 2 name a"$'\nshape ok' ""
run check --block 4096 "$sample"; want 3 "*findings 0*mount ok*dangling pino 1 ino 2 name a" ""
run check --endian big --block 4096 "$sample"; want 3 "*findings 4*mount ok" ""
run check --block 4095 block; want 1 "" "jffs2_image: C1 BlockSize$block_note"
run check none; want 1 "" "$(unopened none)"
run check folder; want 1 "" "$(unread folder)"

# Files
run cat block; want 2 "" "error: *<PATH>*"
run cat block /; want 1 "" "jffs2_image: P4 NotRegular"
run cat block a; want 1 "" "jffs2_image: P3 Path BadPath"
run cat block /a; want 1 "" "jffs2_image: P3 Path NotFound"
run cat block /a/b; want 1 "" "jffs2_image: P3 Path NotFound"
run cat --block 4096 "$sample" /a; want 1 "" "jffs2_image: P3 Path NotFound"
run cat none /; want 1 "" "$(unopened none)"
run cat folder /; want 1 "" "$(unread folder)"
run cat --block 4095 block /; want 1 "" "jffs2_image: M1 BlockSize$block_note"
# The word of the path is judged before the image is opened.
for path in '/\' '/\x1' '/\X11' '/\xg1' '/\\'; do
    run cat none "$path"; want 1 "" "jffs2_image: P3 Path BadPath"
done
run cat block '/\x61'; want 1 "" "jffs2_image: P3 Path NotFound"
run cat file '\x2f\x61'; want 0 "" ""
for path in '' '\x61' '/\x00\xfF'; do
    run cat block "$path"; want 1 "" "jffs2_image: P3 Path BadPath"
done
for words in "cat --help" "cat -h" "help cat"; do
    run $words; want 0 "*Usage: jffs2_image cat *<IMAGE> ?PATH?*--block <N>*65536*Exit status:*" ""
done

# The sample image with a tree, which mkfs.jffs2 made
tree=$samples/tree.img
run ls --block 8192 "$tree"; want 0 "$(sed 's/\\/\\\\/g' "$samples/../stdout")" ""
# A part of it: for each path the lines of the whole whose path is that, or begins with it and a slash.
run ls --block 8192 "$tree"; cp out all_lines
while read -r _ _ _ _ _ _ _ path _; do
    PATH_ASKED=$path awk 'BEGIN { asked = ENVIRON["PATH_ASKED"]; below = asked == "/" ? "/" : asked "/" }
        $8 == asked || index($8, below) == 1' all_lines > wanted_lines
    run ls --block 8192 "$tree" "$path"; want 0 "*" ""; whole wanted_lines
done < all_lines
run ls --block 8192 "$tree" /none; want 1 "" "jffs2_image: P3 Path NotFound"
run ls --block 8192 "$tree" /etc/passwd/a; want 1 "" "jffs2_image: P3 Path NotDirectory"
run ls --block 8192 "$tree" etc; want 1 "" "jffs2_image: P3 Path BadPath"
run ls none '/\x1'; want 1 "" "jffs2_image: P3 Path BadPath"
run ls none /etc; want 1 "" "$(unopened none)"
run check --block 8192 "$tree"; want 0 "*entries 12 inodes 11 findings 0*mount ok" ""
run build --block 8192 --blocks 1 "$samples/tree.txt" built; want 0 "accepted 17 nodes 28 bytes 1772" ""
run ls --block 8192 built; want 0 "$(sed 's/\\/\\\\/g' "$samples/../stdout")" ""
rm built
run cat --block 8192 "$tree" /etc/passwd; want 0 "root:x:0:0:root:/root:/bin/sh" ""
run cat --block 8192 "$tree" '/var/log/boot\x20log'; want 0 "two words" ""
run cat --block 8192 "$tree" '/var/log/boot log'; want 0 "two words" ""
run cat --block 8192 "$tree" /var/name; want 1 "" "jffs2_image: P4 NotRegular"
run cat --block 8192 "$tree" /etc/passwd/a; want 1 "" "jffs2_image: P3 Path NotDirectory"

# Trees
root="d 0755 0 0 0 0 1 /"
run ls block; want 0 "$root" ""
run ls empty; want 0 "$root" ""
run ls --endian big empty; want 0 "$root" ""
run ls --block 4096 longer; want 0 "$root" ""
run ls --block 4096 "$sample"; want 0 "$root" ""
run ls --block 4096 --endian big "$sample"; want 0 "$root" "$(unseen 4 2)"$'\n'"$(hinted little 4194304)"
run ls file; want 0 "$root"$'\n- 0644 0 0 0 0 2 /a' ""
run ls --endian big file; want 0 "$root" "$(unseen "[1-9]*" 2)"$'\n'"$(hinted little 4194304)"
run ls --block 8192 --endian big "$tree"; want 0 "$root" "$(unseen "[1-9]*" "[1-9]*")"$'\n'"$(hinted little 4194304)"
printf 'hello flash' > content
printf '\0\0\0\0\0 flash' > zeros
run ls sound; want 0 "$root"$'\n- 0644 0 0 11 0 2 /a' ""
run cat sound /a; want 0 "hello flash" ""; whole content
run ls flipped; want 0 "$root"$'\n- 0644 0 0 11 0 2 /a' "$(noted 1)"
run cat flipped /a; whole zeros
line="the notes of $line"
[[ $got == 0 && $(cat err) == "$(missing 5)"$'\n'"$(noted 1)" ]]; count $?
run ls crossing; want 0 "$root"$'\n- 0644 0 0 11 0 2 /a' ""
run cat crossing /a; want 0 "hello flash" ""; whole content
run ls --block 4096 crossing; want 0 "$root"$'\n- 0644 0 0 11 0 2 /a' "$(noted 2)"
run cat --block 4096 crossing /a; whole zeros
[[ $got == 0 && $(cat err) == "$(missing 5)"$'\n'"$(noted 2)" ]]; count $?
run cat --block 4096 crossing /b; want 1 "" "jffs2_image: P3 Path NotFound"
run check --scan --block 4096 crossing; want 3 "*findings 2" ""
run cat block /; want 1 "" "jffs2_image: P4 NotRegular"
yes 'no JFFS2' | head -c 4096 > other
run ls other; want 0 "$root" "$(unseen 1)"
# The path of `/` alone is listed so, and of any other there is a fault without a note; what is blank has none.
run ls other /; want 0 "$root" "$(unseen 1)"
run ls other /a; want 1 "" "jffs2_image: P3 Path NotFound"
run cat other /a; want 1 "" "jffs2_image: P3 Path NotFound"
run ls --decompress other; want 0 "$root" "$(unseen 1)"
head -c 4096 /dev/zero | tr '\0' '\377' > blank
run ls blank; want 0 "$root" ""
head -c 44 "$sample" | tail -c 16 > torn_entry
run ls --block 4096 torn_entry; want 0 "$root" "$(unseen 1)"
line="ls of no image, and standard error closed"
"$program" ls other > out 2>&-; got=$?; : > err; want 0 "$root" ""
line="ls of no image, and standard error full"
"$program" ls other > out 2> /dev/full; got=$?; : > err; want 0 "$root" ""
run ls --block 4096 "$tree"; want 0 "$(sed 's/\\/\\\\/g' "$samples/../stdout")" ""
run cat --block 4096 "$tree" '/var/log/boot\x20log'; want 0 "*" ""
line="the 10 bytes of $line"
[[ $(wc -c < out) == 10 ]]
bad=$?
count $bad
[[ $bad == 0 ]] || echo "FAILED: $line"
run check --block 4096 "$tree"; want 0 "*total blocks 2 entries 12 inodes 11 findings 0*mount ok" ""
run cat file /a; want 0 "" ""
run check file; want 0 "*total blocks 1 entries 1 inodes 1 findings 0*mount ok" ""
for value in 0 4092 4095 4097 4194308 4294967295; do
    run ls --block $value block; want 1 "" "jffs2_image: M1 BlockSize$block_note"
    run cat --block $value block /a; want 1 "" "jffs2_image: M1 BlockSize$block_note"
done
run ls none; want 1 "" "$(unopened none)"
run ls folder; want 1 "" "$(unread folder)"
run ls larger; want 1 "" "jffs2_image: L2 TooLarge"
line="the tree of an image of 256 MiB in 64 MiB of memory"
(ulimit -v 65536; "$program" ls greatest > out 2> err); got=$?; want 1 "" "jffs2_image: L3 OutOfMemory"
for words in "ls --help" "ls -h" "help ls"; do
    run $words; want 0 "*Usage: jffs2_image ls *<IMAGE>*--block <N>*65536*KIND MODE UID GID SIZE MTIME INO PATH*Exit status:*" ""
done

# ---- What a dump is

run info; want 2 "" "error: *<IMAGE>*Usage: *"
run info block block; want 2 "" "$wrong"
run info --block 8192 block; want 2 "" "error: unexpected argument '--block' found*Usage: *"
run info --endian big block; want 2 "" "error: unexpected argument '--endian' found*Usage: *"
run info none; want 1 "" "$(unopened none)"
run info folder; want 1 "" "$(unread folder)"
for image in larger /dev/zero; do
    run info $image; want 1 "" "jffs2_image: L2 TooLarge"
done
line="what an image of 256 MiB is in 64 MiB of memory"
(ulimit -v 65536; "$program" info greatest > out 2> err); got=$?; want 1 "" "jffs2_image: L3 OutOfMemory"
for words in "info --help" "info -h" "help info"; do
    run $words; want 0 "*Usage: jffs2_image info ?OPTIONS? <IMAGE>*--oob <P+S>*order little nodes N other N*Exit status:*" ""
done
# Two blocks of 8 KiB; a node over the end of the first 4096 bytes, and the marker of the third such block.
{ marker; entry; hello_flash 68; erased 7984; marker; } > two_blocks
run info two_blocks
want 0 $'bytes 8204\norder little nodes 5 other 0\nblock from 4096 to 8192 markers 2\nnodes entries 1 inodes 2 obsolete 0 damaged 0 other 2\ndata none 2 zero 0 rtime 0 zlib 0 lzo 0 lzma 0 other 0\nhighest inode 2 version 2' ""
# Blocks of 12 KiB
{ marker; entry; hello_flash 68; erased 12080; marker; } > twelve
run info twelve; want 0 $'bytes 12300\norder little nodes 5 other 0\nblock from 4096 to 12288 markers 2\n*' ""
{ cat crossing; erased 3984; marker; } > one_block
run info one_block
want 0 $'bytes 8204\norder little nodes 4 other 0\nblock from 8192 to 8192 markers 1\n*' ""
run info flipped
want 0 $'bytes 196\norder little nodes 3 other 0\nblock unknown\nnodes entries 1 inodes 1 obsolete 0 damaged 1 other 0\ndata none 1 *\nhighest inode 2 version 2' ""

# informs STATUS FILE: `info` says what tests/info_model.py says, and a note on standard error where it does
informs() {
    run info "$2"
    "$top/tests/info_model.py" "$2" > model
    [[ $got == "$1" ]] && sed '/^note: /d' model | cmp -s - out &&
        sed -n 's/^note: /jffs2_image: note: /p' model | cmp -s - err
    local differs=$?
    count $differs
    [[ $differs == 0 ]] || echo "FAILED: $line, status $got"
}
gzip -c "$tree" > packed
{ bytes fd 37 7a 58 5a 00; cat block; } > xz
{ bytes 27 05 19 56; cat "$tree"; } > uimage
printf 'UBI#' > ubi
printf 'hsqs and more' > squashfs
printf 'HDR0 and more' > trx
printf 'two words' > text
for image in packed xz ubi squashfs trx; do informs 3 $image; done
informs 0 uimage
for image in empty block other text "$manual"; do informs 3 $image; done
for image in "$tree" "$sample" sound flipped crossing two_blocks twelve one_block "$top"/tests/data/*.img; do informs 0 "$image"; done
run info packed; want 3 $'bytes *\norder none\nblock unknown\n*' "jffs2_image: note: the file begins as gzip does"
run info uimage; want 0 $'bytes 8196\norder little nodes 24 *' "jffs2_image: note: the file begins as a uImage header does"

# ---- Where two images differ

run diff; want 2 "" "error: *<A>*<B>*Usage: *"
run diff "$tree"; want 2 "" "error: *<B>*Usage: *"
run diff "$tree" "$tree" block; want 2 "" "$wrong"
run diff --scan "$tree" "$tree"; want 2 "" "error: unexpected argument '--scan' found*Usage: *"
run diff --decompress "$tree" "$tree"; want 0 "" ""
run diff --block x "$tree" "$tree"; want 2 "" "error: invalid value 'x' for '--block <N>': *"
run diff none none2; want 1 "" "$(unopened none)"
run diff "$tree" none2; want 1 "" "$(unopened none2)"
run diff folder none2; want 1 "" "$(unread folder)"
run diff "$tree" larger; want 1 "" "jffs2_image: L2 TooLarge"
run diff --block 4097 "$tree" "$tree"; want 1 "" "jffs2_image: M1 BlockSize$block_note"
run diff --block 8192 "$tree" "$top/tests/data/default.img"; want 1 "" "jffs2_image: M4 Compressed at *"
run damage; want 2 "" "error: *<IMAGE>*Usage: *"
run damage --scan "$tree"; want 2 "" "error: unexpected argument '--scan' found*Usage: *"
run damage --decompress "$tree"; want 0 "total damaged 0 paths 0 missing 0 gaps 0" ""
run damage none; want 1 "" "$(unopened none)"
run damage --block 4097 "$tree"; want 1 "" "jffs2_image: M1 BlockSize$block_note"
run damage "$tree"; want 0 "total damaged 0 paths 0 missing 0 gaps 0" ""
for words in "damage --help" "damage -h" "help damage"; do
    run $words; want 0 "*Usage: jffs2_image damage *<IMAGE>*hides PATH*Exit status:*" ""
done
run map; want 2 "" "error: *<IMAGE>*Usage: *"
run map --decompress "$tree"; want 2 "" "error: unexpected argument '--decompress' found*Usage: *"
run map none; want 1 "" "$(unopened none)"
run map folder; want 1 "" "$(unread folder)"
run map --block 4097 "$tree"; want 1 "" "jffs2_image: M1 BlockSize$block_note"
for words in "map --help" "map -h" "help map"; do
    run $words; want 0 "*Usage: jffs2_image map *<IMAGE>*nodes that the tree needs*Exit status:*" ""
done
run history; want 2 "" "error: *<IMAGE>*Usage: *"
run history --decompress "$tree"; want 2 "" "error: unexpected argument '--decompress' found*Usage: *"
run history none; want 1 "" "$(unopened none)"
run history folder; want 1 "" "$(unread folder)"
run history --block 4097 "$tree"; want 1 "" "jffs2_image: M1 BlockSize$block_note"
run history "$tree" /nothing/at/all; want 1 "" "jffs2_image: P3 Path NotFound"
for words in "history --help" "history -h" "help history"; do
    run $words; want 0 "*Usage: jffs2_image history *<IMAGE> ?PATH?*the tree needs it*Exit status:*" ""
done
run check --decompress --block 8192 "$top/tests/data/default.img"; want 0 $'block 0\n*\nmount ok' ""
run check --decompress --shape --block 8192 "$top/tests/data/default.img"; want 0 $'*\nmount ok\nshape ok' ""
run check --decompress --scan --block 8192 "$top/tests/data/default.img"; want 3 $'*\ntotal blocks *' ""
run check --block 8192 "$top/tests/data/default.img"; want 3 $'*\nmount refused M4 Compressed at *' ""
for words in "diff --help" "diff -h" "help diff"; do
    run $words; want 0 "*Usage: jffs2_image diff *<A> <B>*PATH at OFFSET*Exit status:*" ""
done
lines one "mkdir 755 /d" "create 644 /d/in" "create 600 /f" "write /f 0 616263" "symlink /l x"
lines two "mkdir 700 /d" "create 644 /d.x" "create 600 /f" "write /f 0 616264" "symlink /l yy" "mkdir 755 /z"
lines later "time 9" "mkdir 755 /d" "create 644 /d/in" "create 600 /f" "write /f 0 616263" "symlink /l x"
for name in one two later; do run build --blocks 1 $name $name.img; want 0 "accepted *" ""; done
run diff one.img one.img; want 0 "" ""
run diff --times one.img one.img; want 0 "" ""
run diff one.img later.img; want 0 "" ""
run diff one.img two.img
want 3 $'- d 0755 0 0 0 /d\n+ d 0700 0 0 0 /d\n- - 0644 0 0 0 /d/in\n+ - 0644 0 0 0 /d.x\n\* /f at 2\n- l 0777 0 0 1 /l -> x\n+ l 0777 0 0 2 /l -> yy\n+ d 0755 0 0 0 /z' ""
run diff --times one.img later.img
want 3 $'- d 0755 0 0 0 0 /d\n+ d 0755 0 0 0 9 /d\n- - 0644 0 0 0 0 /d/in\n+ - 0644 0 0 0 9 /d/in\n*- l 0777 0 0 1 0 /l -> x\n+ l 0777 0 0 1 9 /l -> x' ""
# Of an empty flash and a tree each path has a line.
run diff empty one.img
want 3 $'+ d 0755 0 0 0 /d\n+ - 0644 0 0 0 /d/in\n+ - 0600 0 0 3 /f\n+ l 0777 0 0 1 /l -> x' ""
# Findings are noted with the name of their image, and found: of the other byte order nothing else is seen.
# named NAME N: the note on N findings of an image
named() {
    noted "$2" | sed "s/note: /note: $1: /"
}
run diff flipped flipped; want 3 "" "$(named flipped 1)"$'\n'"$(named flipped 1)"
run diff one.img flipped; want 3 "*- d 0755 0 0 0 /d*" "$(named flipped 1)"
run diff flipped one.img; want 3 "*+ d 0755 0 0 0 /d*" "$(named flipped 1)"
cp flipped $'a\nb'; run diff one.img $'a\nb'; want 3 "*" "$(named 'a\\\\x0ab' 1)"
run damage one.img; want 0 "total damaged 0 paths 0 missing 0 gaps 0" ""
run damage flipped; want 3 "*total damaged 1 *" "$(noted 1)"
run map one.img; want 0 $'# live *\nblock *\n    0 00000000 *\ntotal *' ""
run map flipped; want 0 $'# live *\n    0 00000000 *\ntotal *' "$(noted 1)"
run map other; want 0 $'# live *\n    0 00000000 *\ntotal *' "$(unseen 1)"
run map --svg one.img; want 0 "<svg *</svg>" ""
# Where no node is found that is a fault, of diff with the name of the image.
no_node="note: no node is found in either byte order, see info"
run damage other; want 1 "" $'jffs2_image: I1 NoNodes\njffs2_image: '"$no_node"
for words in "other flipped" "one.img other" "empty other" "other other"; do
    run diff $words; want 1 "" $'jffs2_image: I1 NoNodes other\njffs2_image: '"$no_node"
done
cp other $'a\nb'; run diff one.img $'a\nb'; want 1 "" $'jffs2_image: I1 NoNodes a\\\\x0ab\njffs2_image: '"$no_node"
line="diff of images with findings, and standard error closed"
"$program" diff flipped flipped > out 2>&-; got=$?; : > err; want 3 "" ""
line="diff of images with findings, and standard output full"
"$program" diff one.img flipped > /dev/full 2> err; got=$?; : > out; want 1 "" "jffs2_image: P5 Output"

# ---- Building and extending images

# What `create 0644 /a` makes of an empty flash: a marker, the node of inode 2 and its entry, in either byte order. The
# checksums of the big one are those of another program.
{ marker; empty_file; entry; } > made_little
{
    bytes 19 85 20 03 00 00 00 0c f0 60 dc 98
    bytes 19 85 e0 02 00 00 00 44 a4 ef 22 3e 00 00 00 02 00 00 00 01 00 00 81 a4
    bytes 00 00 00 00 00 00 00 00 00 00 00 00 00 00 00 00 00 00 00 00 00 00 00 00
    bytes 00 00 00 00 00 00 00 00 00 00 00 00 00 00 00 00 68 d2 d2 ed
    bytes 19 85 e0 01 00 00 00 29 d0 4c 45 0b 00 00 00 01 00 00 00 01 00 00 00 02
    bytes 00 00 00 00 01 08 00 00 ba 8f 4b f0 3a b5 51 ce 61 ff ff ff
} > made_big
lines create_a 'create 0644 /a'
lines create_b 'create 0644 /b'
file_a="- 0644 0 0 0 0 2 /a"
file_b="- 0644 0 0 0 0 3 /b"
none_accepted="accepted 0 nodes 0 bytes 0"
# the least blocks that are written
small=(--block 8192)

# Words
run build; want 2 "" "error: *--blocks <N>*<LISTING>*Usage: *"
run build create_a built; want 2 "" "error: *--blocks <N>*Usage: *"; unmade built
run build --blocks 1 create_a; want 2 "" "error: *<OUT>*--help*"
run build --blocks 1 create_a built more; want 2 "" "error: unexpected argument 'more' found*Usage: *"; unmade built
run build --blocks 1 --blocks 1 create_a built; want 2 "" "error: *--blocks <N>*Usage: *"; unmade built
for value in x "" -1 0x10 4294967296 "1 "; do
    run build "--blocks=$value" create_a built; want 2 "" "error: invalid value '$value' for '--blocks <N>': *--help*"
    run append "--blocks=$value" block create_a built; want 2 "" "error: invalid value '$value' for '--blocks <N>': *--help*"
done
unmade built
run append; want 2 "" "error: *--blocks <N>*<IMAGE>*<LISTING>*Usage: *"
run append --blocks 1 block create_a; want 2 "" "error: *<OUT>*--help*"
run ls --blocks 1 block; want 2 "" "error: unexpected argument '--blocks' found*Usage: *"
for words in "build --help" "build -h" "help build"; do
    run $words; want 0 "*Usage: jffs2_image build *--blocks <N> <LISTING> ?OUT?*--block <N>*65536*write PATH OFFSET HEX*Exit status:*" ""
done
for words in "append --help" "append -h" "help append"; do
    run $words; want 0 "*Usage: jffs2_image append *--blocks <N> <IMAGE> <LISTING> ?OUT?*--block <N>*65536*Exit status:*" ""
done

# OUT by `-o`, and standard input as IMAGE or LISTING: once
run build --blocks 1 -o built create_a; want 0 "accepted 1 nodes 2 bytes 124" ""; cp built named
run build --blocks 1 create_a built; want 0 "accepted 1 nodes 2 bytes 124" ""; same built named
run build --blocks 1 --output=placed -p create_a; want 0 "accepted 1 nodes 2 bytes 124" ""; [[ $(stat -c %s placed) == 65536 ]]; count $?
run build --blocks 1 -o built create_a other; want 2 "" "error: the argument '--output <FILE>' cannot be used with '?OUT?'*--help*"
from() {
    local file=$1
    shift
    line="jffs2_image $* < $file"
    "$program" "$@" < "$file" > out 2> err
    got=$?
}
from create_a build --blocks 1 - read; want 0 "accepted 1 nodes 2 bytes 124" ""; same read named
from named ls -; want 0 "$root"$'\n'"$file_a" ""
from named check --scan -; want 0 "*total *findings 0" ""
from named append --blocks 2 - create_b built; want 0 "accepted 1 nodes 2 bytes 124" ""
from named append --blocks 2 - - built; want 1 "" $'jffs2_image: P1 File -\njffs2_image: note: -: in use'
from named diff - -; want 1 "" $'jffs2_image: P1 File -\njffs2_image: note: -: in use'
from named ls --auto -; want 2 "" "error: the argument '--auto' cannot be used with '-'*--help*"
cp named ./-; run ls ./-; want 0 "$root"$'\n'"$file_a" ""; rm ./-
line="standard input is a pipe"
"$program" ls - < <(cat named) > out 2> err; got=$?; want 0 "$root"$'\n'"$file_a" ""

# The least image, byte for byte, and what the other commands say of it
for order in little big; do
    flash=("${small[@]}" --endian "$order")
    run build "${flash[@]}" --blocks 1 create_a built; want 0 "accepted 1 nodes 2 bytes 124" ""; same built made_$order
    run check "${flash[@]}" built
    want 0 $'block 0\n00000000 marker 12\n0000000c inode 68 ino 2 version 1 mode 100644 size 0 offset 0 data 0 none\n00000050 entry 44 pino 1 version 1 ino 2 type 8 name a\n0000007c erased 8068\ntotal blocks 1 entries 1 inodes 1 findings 0\nmount ok' ""
    run ls "${flash[@]}" built; want 0 "$root"$'\n'"$file_a" ""
    run cat "${flash[@]}" built /a; want 0 "" ""
    for length in 0 5 12 79 80 120; do
        head -c $length made_$order > torn
        run ls "${flash[@]}" torn; want 0 "$root" "*"
    done
    for length in 121 122 123 124; do
        head -c $length made_$order > torn
        run ls "${flash[@]}" torn; want 0 "$root"$'\n'"$file_a" ""
    done
done
cp longer built
run build "${small[@]}" --blocks 1 create_a built; want 0 "accepted 1 nodes 2 bytes 124" ""; same built made_little
run build --endian=little create_a --blocks=1 built --block=65536; want 0 "accepted 1 nodes 2 bytes 124" ""; same built made_little
printf 'create 0644 /a' > no_end
run build "${small[@]}" --blocks 1 no_end built; want 0 "accepted 1 nodes 2 bytes 124" ""; same built made_little
lines comments '# a file' '' 'create 0644 /a' '#' ''
run build "${small[@]}" --blocks 1 comments built; want 0 "accepted 1 nodes 2 bytes 124" ""; same built made_little
run build "${small[@]}" --blocks 1 create_a /dev/null; want 0 "accepted 1 nodes 2 bytes 124" ""

# A file that is written, cut and written behind its end
lines listing 'create 0644 /a' 'write /a 0 0102030405060708090a' 'truncate /a 4' 'write /a 8 ff'
cp listing file_listing
printf '\1\2\3\4\0\0\0\0\377' > nine
for order in little big; do
    flash=("${small[@]}" --endian "$order")
    run build "${flash[@]}" --blocks 1 listing built; want 0 "accepted 4 nodes 6 bytes 412" ""
    run check "${flash[@]}" built
    want 0 $'block 0\n00000000 marker 12\n0000000c inode 68 ino 2 version 1 mode 100644 size 0 offset 0 data 0 none\n00000050 entry 44 pino 1 version 1 ino 2 type 8 name a\n0000007c inode 80 ino 2 version 2 mode 100644 size 10 offset 0 data 10 none\n000000cc inode 68 ino 2 version 3 mode 100644 size 4 offset 0 data 0 none\n00000110 inode 68 ino 2 version 4 mode 100644 size 8 offset 4 data 4 zero\n00000154 inode 72 ino 2 version 5 mode 100644 size 9 offset 8 data 1 none\n0000019c erased 7780\ntotal blocks 1 entries 1 inodes 5 findings 0\nmount ok' ""
    run cat "${flash[@]}" built /a; whole nine
done
lines listing 'create 0644 /a' 'write /a 0 ffffff'
run build "${small[@]}" --blocks 1 listing built; want 0 "accepted 2 nodes 3 bytes 196" ""
erased 3 > three
for length in 192 193 194 195 196; do
    head -c $length built > torn
    run cat "${small[@]}" torn /a; whole three
done

# A directory that moves, also where its last node is missing
lines listing 'mkdir 0755 /d' 'rename /d /e'
cp listing move_listing
for order in little big; do
    flash=("${small[@]}" --endian "$order")
    run build "${flash[@]}" --blocks 1 listing built; want 0 "accepted 2 nodes 4 bytes 212" ""
    run ls "${flash[@]}" built; want 0 "$root"$'\nd 0755 0 0 0 0 2 /e' ""
    head -c 168 built > torn
    run ls "${flash[@]}" torn; want 0 "$root"$'\nd 0755 0 0 0 0 2 /d\nd 0755 0 0 0 0 2 /e (again)' ""
done

# Nothing to write: no byte goes out
lines only_settings '# nothing' '' 'time 5' 'owner 1 1'
for listing in empty only_settings; do
    run build "${small[@]}" --blocks 1 $listing built; want 0 "$none_accepted" ""; same built empty
    run build "${small[@]}" --blocks 1 $listing /dev/full; want 0 "$none_accepted" ""
done
run ls built; want 0 "$root" ""
lines listing 'create 0644 /a' 'write /a 100 -' 'truncate /a 0'
run build "${small[@]}" --blocks 1 listing built; want 0 "accepted 3 nodes 2 bytes 124" ""; same built made_little

# The bytes of files of the host
head -c 8192 /dev/zero | tr '\0' '\1' > ones
lines listing 'create 0644 /a' 'part /a 0 ones'
run build "${small[@]}" --blocks 2 listing built; want 0 "accepted 2 nodes 4 bytes 12368" ""
run cat "${small[@]}" built /a; whole ones
erased 3904 > gap
tail -c +4289 built | head -c 3904 > piece; same piece gap
lines listing 'create 0644 /a' 'part /a 0 content' 'create 0644 /b' 'part /b 0 content' 'part /b 11 content'
run build --blocks 1 listing built; want 0 "accepted 5 nodes 7 bytes *" ""
run cat built /a; whole content
run cat built /b; want 0 "hello flashhello flash" ""
lines listing 'create 0644 /a' 'part /a 0 empty'
run build "${small[@]}" --blocks 1 listing built; want 0 "accepted 2 nodes 2 bytes 124" ""; same built made_little
rm built
lines listing 'create 0644 /a' 'create 0644 /b' 'part /a 0 none'
run build --blocks 1 listing built; want 1 "" "$(unopened none)"; unmade built
lines listing 'part /a 0 folder'
run build --blocks 1 listing built; want 1 "" "$(unread folder)"; unmade built
lines listing 'part /a 0 larger'
run build --blocks 1 listing built; want 1 "" "jffs2_image: L2 TooLarge"; unmade built

# A new file with the bytes of a file of the host, whose name may hold any character
lines listing 'file 0644 /a ones'
run build "${small[@]}" --blocks 2 listing built; want 0 "accepted 1 nodes 3 bytes 12412" ""
run cat "${small[@]}" built /a; whole ones
cp content 'two words'
lines listing 'time 7' 'owner 1 2' 'file 0600 /a two\x20words' 'file 0644 /b \x63ontent'
run build --blocks 1 listing built; want 0 "accepted 2 nodes 4 bytes 260" ""
run ls built; want 0 "$root"$'\n- 0600 1 2 11 7 2 /a\n- 0644 1 2 11 7 3 /b' ""
run cat built /a; whole content
lines listing 'file 0644 /a empty'
run build "${small[@]}" --blocks 1 listing built; want 0 "accepted 1 nodes 2 bytes 124" ""; same built made_little
rm built
lines listing 'create 0644 /a' 'file 0644 /b no\x20such'
run build --blocks 1 listing built; want 1 "" "$(unopened 'no such')"; unmade built
lines listing 'file 0644 /a folder'
run build --blocks 1 listing built; want 1 "" "$(unread folder)"; unmade built
lines listing 'file 0644 /a larger'
run build --blocks 1 listing built; want 1 "" "jffs2_image: L2 TooLarge"; unmade built

# Files that are together longer than a flash can be: they are refused by their lengths, before one of them is read. One that
# several lines name counts once.
truncate -s 134217728 half other_half
truncate -s 134217729 longer_half
lines listing 'file 0644 /a half' 'file 0644 /b longer_half'
(ulimit -v 65536; "$program" build --blocks 1 listing built > out 2> err); got=$?; line="build of two halves"
want 1 "" "jffs2_image: L2 TooLarge"; unmade built
run append --blocks 2 made_little listing built; want 1 "" "jffs2_image: L2 TooLarge"; unmade built
run cuts --blocks 1 listing; want 1 "" "jffs2_image: L2 TooLarge"
lines listing 'file 0644 /a half' 'part /a 0 half' 'file 0644 /b half' 'file 0644 /c other_half' 'file 0644 /d none'
run build --blocks 1 listing built; want 1 "" "$(unopened none)"; unmade built
mkdir halves
for i in 1 2 3 4 5 6 7 8; do truncate -s 100000000 "halves/$i"; done
(ulimit -v 524288; "$program" pack halves built > out 2> err); got=$?; line="pack of 800,000,000 bytes"
want 1 "" "jffs2_image: L2 TooLarge"; unmade built
rm -r halves half other_half longer_half

# A tree: names with escapes, owners, times, links
lines listing 'time 1000000000' 'mkdir 0755 /etc' 'create 0644 /etc/hostname' 'write /etc/hostname 0 626F780a' \
    'symlink /name etc/hostname' 'owner 1000 100' 'mkdir 0750 /home' 'create 0755 /home/start\x20here' \
    'part /home/start\x20here 0 content'
cp listing tree_listing
for order in little big; do
    flash=("${small[@]}" --endian "$order")
    run build "${flash[@]}" --blocks 1 listing built; want 0 "accepted 7 nodes 12 bytes 748" ""
    run ls "${flash[@]}" built
    want 0 "$root"$'\nd 0755 0 0 0 1000000000 2 /etc\n- 0644 0 0 4 1000000000 3 /etc/hostname\nd 0750 1000 100 0 1000000000 5 /home\n- 0755 1000 100 11 1000000000 6 /home/start\\\\x20here\nl 0777 0 0 12 1000000000 4 /name -> etc\\\\x2fhostname' ""
    run cat "${flash[@]}" built '/home/start\x20here'; whole content
    run cat "${flash[@]}" built /etc/hostname; want 0 "box" ""
    run check "${flash[@]}" built; want 0 "*total blocks 1 entries 5 inodes 7 findings 0*mount ok" ""
done
lines listing 'create 0600 /a' 'write /a 0 6869' 'link /a /b' 'remove /a' 'mkdir 0700 /d' 'rename /b /d/c' 'mkdir 0700 /e' 'remove /e'
cp listing link_listing
run build "${small[@]}" --blocks 1 listing built; want 0 "accepted 8 nodes 12 bytes *" ""
run ls "${small[@]}" built; want 0 "$root"$'\nd 0700 0 0 0 0 3 /d\n- 0600 0 0 2 0 2 /d/c' ""
run cat "${small[@]}" built /d/c; want 0 "hi" ""
run check "${small[@]}" built; want 0 "*findings 0*mount ok" ""
rm built

# Other attributes: of the root, between two of its names, and of a file that keeps its bytes
for order in little big; do
    flash=("${small[@]}" --endian "$order")
    lines listing 'time 7' 'attr 0700 5 6 1 2 /'
    run build "${flash[@]}" --blocks 1 listing built; want 0 "accepted 1 nodes 1 bytes 80" ""
    run ls "${flash[@]}" built; want 0 "d 0700 5 6 0 2 1 /" ""
    run check "${flash[@]}" built
    want 0 $'block 0\n00000000 marker 12\n0000000c inode 68 ino 1 version 1 mode 40700 size 0 offset 0 data 0 none\n00000050 erased 8112\ntotal blocks 1 entries 0 inodes 1 findings 0\nmount ok' ""
    line="the times of the root"
    [[ $order == big ]] || { bytes 01 00 00 00 02 00 00 00 07 00 00 00 > piece; head -c 56 built | tail -c 12 > times; same times piece; }
    lines listing 'mkdir 0755 /d' 'attr 0711 0 0 0 0 /' 'mkdir 0755 /e'
    run build "${flash[@]}" --blocks 1 listing built; want 0 "accepted 3 nodes 5 bytes 304" ""
    run ls "${flash[@]}" built; want 0 $'d 0711 0 0 0 0 1 /\nd 0755 0 0 0 0 2 /d\nd 0755 0 0 0 0 3 /e' ""
    run check "${flash[@]}" built
    want 0 "*entry 44 pino 1 version 1 ino 2 type 4 name d*inode 68 ino 1 version 2 mode 40711 *entry 44 pino 1 version 3 ino 3 type 4 name e*" ""
    { cat file_listing; printf 'attr 0600 1 1 0 0 /a\n'; } > listing
    run build "${flash[@]}" --blocks 1 listing built; want 0 "accepted 5 nodes 7 bytes 480" ""
    run ls "${flash[@]}" built; want 0 "$root"$'\n- 0600 1 1 9 0 2 /a' ""
    run cat "${flash[@]}" built /a; whole nine
done

# Operations that are refused: what was accepted before stands
lines listing 'mkdir 0755 /d' 'mkdir 0755 /d'
run build "${small[@]}" --blocks 1 listing built; want 1 "" "jffs2_image: S1 Refused O5 Exists line 2"
head -c 124 built > piece; same built piece
run ls "${small[@]}" built; want 0 "$root"$'\nd 0755 0 0 0 0 2 /d' ""
refuse() {
    lines listing 'mkdir 0755 /d' '' 'create 0644 /f' "$2"
    for order in little big; do
        run build --endian $order "${small[@]}" --blocks 1 listing built; want 1 "" "jffs2_image: S1 Refused $1 line 4"
        run ls --endian $order "${small[@]}" built; want 0 "$root"$'\nd 0755 0 0 0 0 2 /d\n- 0644 0 0 0 0 3 /f' ""
    done
}
name=$(head -c 254 /dev/zero | tr '\0' n)
for path in / a a/b /a/ //a /. /.. /d/../e '/\x00' '/d\x2f'; do
    refuse "O1 BadPath" "create 0644 $path"
done
refuse "O1 BadPath" 'remove /'
refuse "O1 BadPath" 'file 0644 / empty'
refuse "O2 NameTooLong" "create 0644 /${name}n"
refuse "O3 NotFound" 'create 0644 /none/a'
refuse "O3 NotFound" 'file 0644 /none/a content'
refuse "O3 NotFound" 'write /none 0 00'
refuse "O3 NotFound" 'remove /none'
refuse "O4 NotDirectory" 'create 0644 /f/a'
refuse "O5 Exists" 'file 0644 /f content'
refuse "O5 Exists" 'rename /f /d'
refuse "O5 Exists" 'symlink /\x66 a'
refuse "O6 WrongKind" 'write /d 0 00'
refuse "O6 WrongKind" 'link /d /e'
refuse "O8 IntoItself" 'rename /d /d/e'
refuse "O9 TooLarge" 'write /f 2147483647 00'
refuse "O9 TooLarge" 'truncate /f 2147483648'
refuse "O10 BadMode" 'create 10000 /x'
refuse "O10 BadMode" 'file 10000 /x content'
refuse "O11 BadTarget" 'symlink /x a\x00'
refuse "O1 BadPath" 'attr 0600 0 0 0 0 f'
refuse "O3 NotFound" 'attr 0600 0 0 0 0 /none'
refuse "O4 NotDirectory" 'attr 0600 0 0 0 0 /f/a'
refuse "O10 BadMode" 'attr 10000 0 0 0 0 /f'
lines listing 'symlink /l a' 'attr 0600 0 0 0 0 /l'
run build "${small[@]}" --blocks 1 listing built; want 1 "" "jffs2_image: S1 Refused O6 WrongKind line 2"
lines listing 'mkdir 0755 /d' 'create 0644 /d/a' 'remove /d'
run build "${small[@]}" --blocks 1 listing built; want 1 "" "jffs2_image: S1 Refused O7 NotEmpty line 3"
lines listing "create 0644 /$name"
run build "${small[@]}" --blocks 1 listing built; want 0 "accepted 1 nodes 2 bytes 376" ""
run ls "${small[@]}" built; want 0 "$root"$'\n'"- 0644 0 0 0 0 2 /$name" ""
rm built

# Lines that mean nothing: nothing is made, and what was there stays. A note tells the first rule that the line breaks; here a
# star stands for the rest of one with a backslash.
# wrong_line TEXT NOTE
wrong_line() {
    printf 'create 0644 /a\n\n%b\ncreate 0644 /b\n' "$1" > listing
    run build "${small[@]}" --blocks 1 listing built
    want 1 "" "jffs2_image: P2 Listing line 3"$'\n'"jffs2_image: note: $2"; unmade built
}
while IFS='|' read -r text note; do
    wrong_line "$text" "$note"
done <<'ROWS'
paint /a|no operation has this name
Create 0644 /a|no operation has this name
create /a|too few words, this operation takes 2 after its name
create 0644|too few words, this operation takes 2 after its name
create 0644 /a /b|too many words, this operation takes 2 after its name
create  0644 /a|two spaces side by side
 create 0644 /a|a space at the start
create 0644 /a |a space at the end
 |a space at the start
\r|a carriage return at the end, as of a file made on Windows
create 8 /a|word 2 has a character that is no digit from 0 to 7
create 0000644 /a|word 2 has more than 6 digits
create -1 /a|word 2 has a character that is no digit from 0 to 7
create 0644\t/a|too few words, this operation takes 2 after its name
write /a 0 0|word 4 is not pairs of hexadecimal digits
write /a 0 0g|word 4 is not pairs of hexadecimal digits
write /a 0 |a space at the end
write /a 0|too few words, this operation takes 3 after its name
write /a -1 00|word 3 has a character that is no digit from 0 to 9
write /a 4294967296 00|word 3 is above 4294967295
write /a 00000000001 00|word 3 has more than 10 digits
write /a 0 00 00|too many words, this operation takes 3 after its name
owner 65536 0|word 2 is above 65535
owner 0|too few words, this operation takes 2 after its name
time x|word 2 has a character that is no digit from 0 to 9
time 4294967296|word 2 is above 4294967295
time 5\r|a carriage return at the end, as of a file made on Windows
remove /\\|word 2 has a backslash that does not begin *x and two hexadecimal digits
remove /\\x6|word 2 has a backslash that does not begin *x and two hexadecimal digits
remove /\\X61|word 2 has a backslash that does not begin *x and two hexadecimal digits
symlink /b \\\\|word 3 has a backslash that does not begin *x and two hexadecimal digits
rename /a|too few words, this operation takes 2 after its name
link /a|too few words, this operation takes 2 after its name
truncate /a x|word 3 has a character that is no digit from 0 to 9
part /a 0 \0377|word 4 is not UTF-8
file 0644 /a|too few words, this operation takes 3 after its name
file /a 0644 f|word 2 has a character that is no digit from 0 to 7
file 0644 /a \\xff|word 4 is not UTF-8
file 8 /a f|word 2 has a character that is no digit from 0 to 7
file 0644 /a a b|too many words, this operation takes 3 after its name
device p 600 5 1 /a|word 2 is neither c nor b
device c 600 5 1048576 /a|word 5 is above 1048575
attr 0600 0 0 0 /a|too few words, this operation takes 6 after its name
attr 0600 0 0 0 0 0 /a|too many words, this operation takes 6 after its name
attr 0600 65536 0 0 0 /a|word 3 is above 65535
attr 0600 0 0 0 4294967296 /a|word 6 is above 4294967295
attr 8 0 0 0 0 /a|word 2 has a character that is no digit from 0 to 7
ROWS
cp made_little built
run build "${small[@]}" --blocks 1 listing built; want 1 "" "jffs2_image: P2 Listing line 3"$'\n'"jffs2_image: note: word 2 *"; same built made_little
rm built
printf 'time 5\r\ncreate 0644 /a\r\n' > listing
run build "${small[@]}" --blocks 1 listing built
want 1 "" $'jffs2_image: P2 Listing line 1\njffs2_image: note: a carriage return *'; unmade built
printf 'create 0644 /a\r\n' > listing
run build "${small[@]}" --blocks 1 listing built; want 0 "accepted 1 nodes 2 bytes 124" ""
run ls "${small[@]}" built; want 0 "$root"$'\n- 0644 0 0 0 0 2 /a\\\\x0d' ""
rm built

# Files that cannot be opened, read or made
run build --blocks 1 none built; want 1 "" "$(unopened none)"; unmade built
run build --blocks 1 /proc/self/mem built; want 1 "" "$(unread /proc/self/mem 'was not read to its end')"; unmade built
lines listing 'create 0644 /b' 'file 0644 /a two\x20folders\x0a'
mkdir $'two folders\n'
run build --blocks 1 listing built; want 1 "" "$(unread 'two folders\\x0a')"; unmade built
rmdir $'two folders\n'
run build --blocks 1 folder built; want 1 "" "$(unread folder)"; unmade built
run build --blocks 1 larger built; want 1 "" "jffs2_image: L2 TooLarge"; unmade built
run build --blocks 1 create_a nowhere/built; want 1 "" "$(unopened nowhere/built)"
run build --blocks 1 create_a folder; want 1 "" "$(unopened folder 'is a directory')"
run build --blocks 1 create_a ""; want 1 "" "$(unopened '')"

# A disk that takes nothing, or 1024 bytes: what it took is a beginning. The bytes go out through a buffer, so no line is told.
run build --blocks 1 create_a /dev/full; want 1 "" "jffs2_image: S4 Sink$no_space"
lines listing '# two files' 'create 0644 /a' 'create 0644 /b'
run build --blocks 1 listing /dev/full; want 1 "" "jffs2_image: S4 Sink$no_space"
lines listing 'create 0644 /a' 'part /a 0 ones' 'create 0644 /b'
run build "${small[@]}" --blocks 2 listing built; want 0 "accepted 3 nodes 6 bytes *" ""
head -c 1024 built > piece
line="an image on a disk of 1024 bytes"
(
    trap '' XFSZ
    ulimit -f 1
    "$program" build "${small[@]}" --blocks 2 listing built > out 2> err
)
got=$?; want 1 "" $'jffs2_image: S4 Sink\njffs2_image: note: the file grows too large'; same built piece
run ls "${small[@]}" built; want 0 "$root"$'\n'"$file_a" "*"
line="an image on a disk of 1024 bytes, by an image with more"
{ cat made_little; erased 8068; } > image
(
    trap '' XFSZ
    ulimit -f 1
    "$program" append "${small[@]}" --blocks 2 image create_b built > out 2> err
)
got=$?; want 1 "" $'jffs2_image: S4 Sink\njffs2_image: note: the file grows too large'
head -c 1024 image > piece; same built piece
rm built

# A file and a folder that may not be read
not_listed=$'not listed: the host refused it\n'
cp made_little closed
chmod 000 closed
if [[ $(id -u) != 0 ]]; then
    run ls closed; want 1 "" "$(unopened closed 'no permission')"
    mkdir -m 000 closed_folder
    run listing closed_folder; want 1 "" "$not_listed$(unopened closed_folder 'no permission')"
    run extract sound closed_folder/new; want 1 "" "$(unopened closed_folder/new 'no permission')"
elif command -v setpriv > /dev/null; then
    chmod 755 "$folder"
    cp "$program" reader; chmod 755 reader
    line="ls of a file that may not be read"
    if setpriv --reuid nobody --clear-groups ./reader --version > out 2> err; then
        setpriv --reuid nobody --clear-groups ./reader ls closed > out 2> err
        got=$?; want 1 "" "$(unopened closed 'no permission')"
        line="folders that may not be read or filled"
        mkdir -m 700 closed_folder
        setpriv --reuid nobody --clear-groups ./reader listing closed_folder > out 2> err
        got=$?; want 1 "" "$not_listed$(unopened closed_folder 'no permission')"
        setpriv --reuid nobody --clear-groups ./reader pack closed_folder none > out 2> err
        got=$?; want 1 "" "$not_listed$(unopened closed_folder 'no permission')"
        setpriv --reuid nobody --clear-groups ./reader extract sound closed_folder/new > out 2> err
        got=$?; want 1 "" "$(unopened closed_folder/new 'no permission')"
        setpriv --reuid nobody --clear-groups ./reader extract sound new > out 2> err
        got=$?; want 1 "" "$(unopened new 'no permission')"
    fi
    rm reader
fi

# Flash that is not written: the sizes come behind the listing, and before OUT is made
for row in "$no_block|--blocks 0" "$small_block|--block 4096 --blocks 2" "$small_block|--block 8188 --blocks 2" \
    "$large_flash|--block 8192 --blocks 32769" "$large_flash|--blocks 4097" "$large_flash|--blocks 4294967295" \
    "$large_flash|--block 4194304 --blocks 65" "$large_flash|--block 4194304 --blocks 4294967295"; do
    words=${row#*|}
    run build $words create_a built; want 1 "" "jffs2_image: S7 Geometry${row%|*}"; unmade built
    run build $words none built; want 1 "" "$(unopened none)"; unmade built
done
for value in 0 4095 4097 8190 4194308 4294967295; do
    run build --block $value --blocks 0 create_a built; want 1 "" "jffs2_image: M1 BlockSize$block_note"; unmade built
done
for words in "--blocks 4096" "--block 4194304 --blocks 64" "--block 8192 --blocks 32768"; do
    run build $words create_a built; want 0 "accepted 1 nodes 2 bytes 124" ""; same built made_little
done

# Flash that is full
head -c 12288 /dev/zero > twelve
head -c 16384 /dev/zero > sixteen
head -c 4096 ones > page
for row in "twelve 12492 3" "sixteen 16656 4"; do
    read -r name needed blocks <<< "$row"
    lines listing 'create 0644 /a' "part /a 0 $name"
    run build "${small[@]}" --blocks 2 listing built
    want 1 "" "jffs2_image: S2 Full needed $needed free 16248 line 2$(fits "$blocks")"; same built made_little
    # In one block less it has no room, and in so many it has.
    run build "${small[@]}" --blocks $((blocks - 1)) listing built
    want 1 "" "jffs2_image: S2 Full needed $needed free * line 2$(fits "$blocks")"; same built made_little
    run build "${small[@]}" --blocks "$blocks" listing built; want 0 "accepted 2 nodes $((blocks + 2)) bytes *" ""
done
# Each block of 8192 bytes holds a node of 4096: the greatest flash holds 32768 of them, and none holds more.
lines listing 'create 0644 /a' 'part /a 0 pages'
truncate -s $((32768 * 4096)) pages
run build "${small[@]}" --blocks 1 listing built
want 1 "" "jffs2_image: S2 Full needed 136445952 free 8068 line 2$(fits 32768)"; same built made_little
truncate -s $((32769 * 4096)) pages
run build "${small[@]}" --blocks 1 listing built
want 1 "" "jffs2_image: S2 Full needed 136450116 free 8068 line 2"; same built made_little
run cuts "${small[@]}" --blocks 1 listing; want 1 "*" "jffs2_image: S2 Full needed 136450116 free 8068 line 2"
rm pages
lines listing 'create 0644 /a' 'part /a 0 page' 'part /a 4096 page' 'truncate /a 5'
run build "${small[@]}" --blocks 1 listing built; want 1 "" "jffs2_image: S2 Full needed 4164 free 3904 line 3$(fits 2)"
run cuts "${small[@]}" --blocks 1 listing; want 1 "* line 2 step 1 of 1 stands *" "jffs2_image: S2 Full needed 4164 free 3904 line 3$(fits 2)"
run cat "${small[@]}" built /a; whole page
line="the bytes before a full flash"
[[ $(wc -c < built) == 4288 ]]; count $?
rm built

# Pages: a node for each that the bytes meet; a piece whose node would spell the magic in its length becomes two
for row in "4096 16384 6 16780" "16384 16384 3 16576" "8192 16384 4 16644" "8192 6464 3 6656" "8192 6465 4 6728" "8192 6466 3 6660" \
    "16384 6465 4 6728" "4096 6465 4 6728"; do
    read -r size length nodes bytes <<< "$row"
    yes 0123456789 | head -c "$length" > long
    lines listing 'create 0644 /a' 'part /a 0 long'
    for order in little big; do
        run build --endian $order --blocks 1 --page "$size" listing built; want 0 "accepted 2 nodes $nodes bytes $bytes" ""
        run check --endian $order built; want 0 $'*\nmount ok' ""
        run cat --endian $order built /a; whole long
    done
done
lines more 'part /a 16000 long' 'create 0644 /b' 'part /b 0 long'
run append --endian big --blocks 2 --page 16384 built more built; want 0 "accepted 3 nodes 7 bytes 13400" ""
run cat --endian big built /b; whole long
for row in "8192 8192" "8192 16384" "8268 8192" "16384 16384" "16460 16384"; do
    run build --block "${row% *}" --blocks 2 --page "${row#* }" create_a unmade_image; want 1 "" "jffs2_image: S7 Geometry$large_page"; unmade unmade_image
    run append --block "${row% *}" --blocks 2 --page "${row#* }" made_little create_b unmade_image; want 1 "" "jffs2_image: S7 Geometry$large_page"; unmade unmade_image
done
for row in "8192 4096" "8272 8192" "16464 16384"; do
    run build --block "${row% *}" --blocks 2 --page "${row#* }" create_a built; want 0 "accepted 1 nodes 2 bytes 124" ""; same built made_little
done
for word in 4095 0 4097 16k 32768 04096 ""; do
    run build --blocks 1 --page "$word" create_a unmade_image; want 2 "" $'error: invalid value \''"$word"$'\' for \'--page <N>\': wanted 4096, 8192 or 16384\n*'
    unmade unmade_image
done
rm built long

# Extending: the nodes go into the first block from which on the flash is blank
for order in little big; do
    flash=("${small[@]}" --endian "$order")
    { cat made_$order; erased 8068; } > first_block
    run append "${flash[@]}" --blocks 2 made_$order empty built; want 0 "$none_accepted" ""; same built first_block
    run append "${flash[@]}" --blocks 1 made_$order create_b built; want 1 "" "jffs2_image: S2 Full needed 112 free 0 line 1$(fits 2)"
    same built first_block
    head -c 12 made_$order > marked
    # Of a beginning of a marker `ls` has notes, and so has `append`.
    for length in 0 7 12; do
        note=
        [[ $length == 7 ]] && note=$(unseen 1)
        head -c "$length" marked > torn
        run append "${flash[@]}" --blocks 1 torn create_a built; want 0 "accepted 1 nodes 2 bytes 124" "$note"; same built made_$order
    done
    run append "${flash[@]}" --blocks 2 made_$order create_b built; want 0 "accepted 1 nodes 2 bytes 124" ""
    run ls "${flash[@]}" built; want 0 "$root"$'\n'"$file_a"$'\n'"$file_b" ""
    run check "${flash[@]}" built
    want 0 $'block 0\n*\n0000007c erased 8068\nblock 1\n00002000 marker 12\n0000200c inode 68 ino 3 version 1 mode 100644 size 0 offset 0 data 0 none\n00002050 entry 44 pino 1 version 2 ino 3 type 8 name b\n0000207c erased 8068\ntotal blocks 2 entries 2 inodes 2 findings 0\nmount ok' ""
    cp built wanted
    { cat first_block marked; erased 16000; } > image
    run append "${flash[@]}" --blocks 3 image create_b built; want 0 "accepted 1 nodes 2 bytes 124" ""; same built wanted
    run append "${flash[@]}" --blocks 3 image create_b image; want 0 "accepted 1 nodes 2 bytes 124" ""; same image wanted
    # A torn node: its block is not written again.
    head -c 100 made_$order > torn
    { cat torn; erased 8092; } > torn_block
    run append "${flash[@]}" --blocks 2 torn create_b built; want 0 "accepted 1 nodes 2 bytes 124" "$(noted 1)"
    line="the bytes after a torn node"
    [[ $(wc -c < built) == 8316 ]]; count $?
    head -c 8192 built > torn; same torn torn_block
    run ls "${flash[@]}" built; want 0 "$root"$'\n'"$file_b" "$(noted 1)"
    run check "${flash[@]}" built
    want 3 $'*\n00000050 damaged 44 node-crc\n*\n0000200c inode 68 ino 3 version 1 *\n00002050 entry 44 pino 1 version 1 ino 3 *\nmount ok' ""
done

# What IMAGE has of damage, and what a wrong order or size of blocks makes of it, is noted as `ls` notes it; not at a fault.
run append --blocks 2 flipped create_b built; want 0 "accepted 1 nodes 2 bytes 124" "$(noted 1)"
run append --blocks 2 --endian big file create_b built; want 0 "accepted 1 nodes 2 bytes 124" "$(unseen "[1-9]*" 2)"
run append "${small[@]}" --blocks 4 "$tree" create_b built; want 0 "accepted 1 nodes 2 bytes 124" ""
run append "${small[@]}" --blocks 4 --endian big "$tree" create_b built; want 0 "accepted 1 nodes 2 bytes 124" "$(unseen "[1-9]*" "[1-9]*")"
run append --weak --blocks 2 --endian big file create_b built; want 0 "accepted 1 nodes 2 bytes 124" "$(unseen "[1-9]*" 2)"
run append --decompress --blocks 2 other create_b built; want 0 "accepted 1 nodes 2 bytes 124" "$(unseen 1)"
run append --blocks 1 flipped create_b built; want 1 "" "jffs2_image: S2 Full needed 112 free 0 line 1$(fits 2)"
# So is, of `update`, that fewer blank blocks are left than Linux keeps in reserve.
run update --blocks 2 flipped create_b built
want 0 "accepted 1 nodes 2 bytes 124" "$(noted 1)"$'\n'"jffs2_image: note: 0 blank blocks are left, Linux keeps 3 in reserve"
run update --blocks 3 file create_b built
want 0 "accepted 1 nodes 2 bytes 124" "jffs2_image: note: 1 blank block is left, Linux keeps 3 in reserve"
run update --blocks 5 file create_b built; want 0 "accepted 1 nodes 2 bytes 124" ""
run update flipped create_b built; want 1 "" "jffs2_image: S2 Full needed 112 free 0 line 1"
run update none create_b built; want 1 "" "$(unopened none)"
run update flipped none built; want 1 "" "$(unopened none)"
run update --blocks 2 flipped create_b; want 2 "" "error: *<OUT>*--help*"
for words in "update --help" "update -h" "help update"; do
    run $words; want 0 "*Usage: jffs2_image update *<IMAGE> <LISTING> ?OUT?*new nodes in its blank blocks*Exit status:*" ""
done
run append --blocks 2 flipped create_b none/built; want 1 "" "$(unopened none/built)"

# IMAGE and OUT in one file, also where the first operation is refused
cp made_little image
run append "${small[@]}" --blocks 2 image create_b image; want 0 "accepted 1 nodes 2 bytes 124" ""
run ls "${small[@]}" image; want 0 "$root"$'\n'"$file_a"$'\n'"$file_b" ""
cp made_little image
run append "${small[@]}" --blocks 2 image create_a image; want 1 "" "jffs2_image: S1 Refused O5 Exists line 1"
run ls "${small[@]}" image; want 0 "$root"$'\n'"$file_a" ""
cp made_little image
printf 'paint\n' > listing
run append "${small[@]}" --blocks 2 image listing image
want 1 "" $'jffs2_image: P2 Listing line 1\njffs2_image: note: no operation has this name'; same image made_little

# A name without an object; a number that is used up: entries of the root for inode 57 and for 4294967295
{
    bytes 85 19 01 e0 29 00 00 00 6d a6 2f d7 01 00 00 00 01 00 00 00 39 00 00 00
    bytes 00 00 00 00 01 08 00 00 9f 90 20 f4 aa 41 02 27 71 ff ff ff
} > dangling
{
    bytes 85 19 01 e0 29 00 00 00 6d a6 2f d7 01 00 00 00 01 00 00 00 ff ff ff ff
    bytes 00 00 00 00 01 08 00 00 9a a5 8a f9 ce 51 b5 3a 61 ff ff ff
} > greatest_number
lines listing 'create 0644 /r' 'remove /q'
run append "${small[@]}" --blocks 2 dangling listing built; want 0 "accepted 2 nodes 3 bytes 168" ""
run ls "${small[@]}" built; want 0 "$root"$'\n- 0644 0 0 0 0 58 /r' ""
run check "${small[@]}" built; want 0 "*findings 0*mount ok" ""
lines listing 'create 0644 /q'
run append "${small[@]}" --blocks 2 dangling listing built; want 1 "" "jffs2_image: S1 Refused O5 Exists line 1"
run append "${small[@]}" --blocks 2 greatest_number create_b built; want 1 "" "jffs2_image: S1 Refused O12 Exhausted line 1"
rm built

# A listing in two parts makes the same tree as the whole, and the same bytes up to the block where the second part begins.
# tree_of FILE: all that `ls` and `cat` say of the built image
tree_of() {
    run ls "${flash[@]}" built
    cp out "$1"
    while read -r _ _ _ _ _ _ _ path; do
        "$program" cat "${flash[@]}" built "$path" >> "$1" 2>&1 < /dev/null
    done < <(grep '^-' out)
}
# The second part begins with the settings that hold where the first one ends.
cut_listing() {
    head -n "$2" "$1" > first_part
    { grep '^time ' first_part | tail -n 1; grep '^owner ' first_part | tail -n 1; tail -n "+$(($2 + 1))" "$1"; } > second_part
}
lines listing 'mkdir 0755 /base' 'create 0600 /base/file' 'write /base/file 0 68656c6c6f'
for order in little big; do
    flash=("${small[@]}" --endian "$order")
    run build "${flash[@]}" --blocks 4 listing base
    for listing in file_listing move_listing tree_listing link_listing; do
        run append "${flash[@]}" --blocks 4 base $listing built; want 0 "accepted *" ""
        tree_of wanted_tree
        cp built whole_image
        for ((place = 0; place <= $(wc -l < $listing); place++)); do
            cut_listing $listing $place
            run append "${flash[@]}" --blocks 4 base first_part first_image; want 0 "accepted *" ""
            run append "${flash[@]}" --blocks 4 first_image second_part built; want 0 "accepted *" ""
            for longer_image in whole_image built; do
                head -c "$(wc -c < first_image)" $longer_image > piece; same piece first_image
            done
            tree_of cut_tree; same cut_tree wanted_tree
        done
    done
done
rm built

# The shape of the tree: halfway through a rename of a directory two names of it are there
lines listing 'mkdir 0755 /d' 'rename /d /e'
run build "${small[@]}" --blocks 1 listing built; want 0 "accepted 2 nodes 4 bytes *" ""
run check --shape "${small[@]}" built; want 0 "*findings 0"$'\nmount ok\nshape ok' ""
head -c 168 built > halfway
run check --shape "${small[@]}" halfway; want 3 "*findings 0"$'\nmount ok\nshape broken' ""
run check "${small[@]}" halfway; want 0 "*findings 0"$'\nmount ok' ""
rm built

# Images that are not extended: nothing is made
{ marker; bytes 85 19 f7 a0 0c 00 00 00 2c 5b fb db; } > read_only
{ marker; bytes 85 19 f7 e0 0c 00 00 00 65 03 08 83; } > later
run check "${small[@]}" read_only; want 3 "*0000000c read-only 12 type a0f7*mount ok read-only" ""
run append "${small[@]}" --blocks 2 read_only create_a built; want 1 "" "jffs2_image: S3 ReadOnly"; unmade built
run append "${small[@]}" --blocks 0 read_only create_a built; want 1 "" "jffs2_image: S3 ReadOnly"; unmade built
run append "${small[@]}" --blocks 2 later create_a built; want 1 "" "jffs2_image: M3 Incompatible at 0000000c type e0f7"; unmade built
erased 8193 > image
run append "${small[@]}" --blocks 1 image create_a built; want 1 "" "jffs2_image: S7 Geometry$long_image"; unmade built
run append --blocks 0 made_little create_a built; want 1 "" "jffs2_image: S7 Geometry$no_block"; unmade built
run append --block 4096 --blocks 2 made_little create_a built; want 1 "" "jffs2_image: S7 Geometry$small_block"; unmade built
run append --block 4097 --blocks 2 made_little create_a built; want 1 "" "jffs2_image: M1 BlockSize$block_note"; unmade built
run append --blocks 2 none absent built; want 1 "" "$(unopened none)"; unmade built
run append --blocks 2 made_little none built; want 1 "" "$(unopened none)"; unmade built
run append --blocks 2 folder create_b built; want 1 "" "$(unread folder)"; unmade built
for file in larger /dev/zero; do
    run append --blocks 2 $file create_b built; want 1 "" "jffs2_image: L2 TooLarge"; unmade built
    run append --blocks 2 made_little $file built; want 1 "" "jffs2_image: L2 TooLarge"; unmade built
    run build --blocks 2 $file built; want 1 "" "jffs2_image: L2 TooLarge"; unmade built
done
lines listing 'paint'
run append --block 4097 --blocks 2 made_little listing built
want 1 "" $'jffs2_image: P2 Listing line 1\njffs2_image: note: no operation has this name'; unmade built
run append --blocks 2 made_little create_b folder; want 1 "" "$(unopened folder 'is a directory')"
run append --blocks 2 made_little create_b nowhere/built; want 1 "" "$(unopened nowhere/built)"
run append --blocks 2 made_little empty /dev/full; want 1 "" "jffs2_image: S4 Sink$no_space"
run append --blocks 2 empty create_a /dev/full; want 1 "" "jffs2_image: S4 Sink$no_space"
run append --blocks 2 empty empty /dev/full; want 0 "$none_accepted" ""
# More than the buffer holds: the operation is named at which the device is seen to be full; none where it is full before.
head -c 70000 /dev/zero > long
lines listing 'create 0644 /c' 'part /c 0 long'
run build --blocks 4 listing /dev/full; want 1 "" "jffs2_image: S4 Sink line 2$no_space"
run append --blocks 4 made_little listing /dev/full; want 1 "" "jffs2_image: S4 Sink line 1$no_space"
run build --blocks 4 listing built; want 0 "accepted 2 nodes 20 bytes *" ""
run append --blocks 8 built create_b /dev/full; want 1 "" "jffs2_image: S4 Sink$no_space"
rm built

# The examples of the help, of the manual page and of its folder
mkdir -p files
printf 'hello flash' > files/start.sh
run help build
sed -n '/^A listing of a small tree:/,/^A block must/s/^  //p' out > example
run build --blocks 1 example built; want 0 "accepted 7 nodes 12 bytes *" ""
run cat built /home/start; whole content
sed -n "/^# a user's folder/,/^\.Ed/p" "$formats" | sed '/^\.Ed/d; s/\\e/\\/g' > example
run build --blocks 1 example built; want 0 "accepted 5 nodes 7 bytes 440" ""
run cat built '/home/start\x20here'; whole content
lines listing 'mkdir 0755 /etc' 'create 0644 /etc/hostname' 'write /etc/hostname 0 626f780a'
run build --blocks 64 listing built; want 0 "$(sed -n 's/^\.Ql \(accepted [0-9].*\) \.$/\1/p' "${pages[@]}")" ""
mkdir -p folder/a/b
printf 'hello flash' > folder/a/file
ln -s a/file folder/link
# shellcheck disable=SC2164
(
    cd folder
    find . -mindepth 1 \( -type d -printf 'owner %U %G\nmkdir %m /%P\n' \) -o \
        \( -type l -printf 'owner %U %G\nsymlink /%P %l\n' \) -o \
        \( -type f -printf 'owner %U %G\ncreate %m /%P\npart /%P 0 %p\n' \) > ../listing
    "$program" build --blocks 64 ../listing ../built > ../out 2> ../err
)
got=$?; line="an image of a folder"; want 0 "accepted 5 nodes 9 bytes *" ""
run ls built; want 0 "$root"$'\nd *\nd *\n- * 11 0 * /a/file\nl 0777 * /link -> a\\\\x2ffile' ""
run cat built /a/file; whole content

# The manual pages have the commands and options of the help, the faults that the sources spell but
# for those that no command tells, and the lines of a listing.
for words in --help "check --help" "ls --help" "cat --help" "build --help" "append --help" "update --help" "decompress --help" "info --help" "diff --help" "map --help"; do
    run $words
    for word in $(sed -n '/^Commands:/,/^$/s/^  \([a-z]*\) .*/\1/p' out); do
        told "$word" "^\.(Nm jffs2_image |It )?Cm $word( |$)"
    done
    for word in $(sed -n '/^Options:/,/^$/p' out | grep -oE -- '--[a-z-]+'); do
        told "$word" "^\.It Fl (. , Fl )?${word#-}( |$)"
    done
done
while read -r fault; do
    told "$fault" "^\.It $fault"
done < <(grep -rhoE '"[CLMPSOZ][0-9]+ [A-Z][A-Za-z]+' "$sources"/*/src | tr -d '"' |
    grep -vE '^(C[234]|O13) ' | sort -u)
run help build
while read -r word values; do
    told "$word" "^\.It Li $word Ar $values$"
done < <(grep -oE '^  [a-z]+( [A-Z]+)+  ' out)

# Standard output that fails
line="standard output is /dev/full"
for words in "--help" "check --help" "ls --help" "check --scan empty" "check empty" "ls empty" "build --blocks 1 create_a built" "info empty" "diff empty one.img"; do
    "$program" $words > /dev/full 2> err; got=$?; : > out; want 1 "" "jffs2_image: P5 Output"
done
same built made_little
line="standard output is closed"
for words in "--help" "check --scan empty" "ls empty" "info empty" "info packed" "diff empty one.img"; do
    "$program" $words >&- 2> err; got=$?; : > out; want 1 "" "jffs2_image: P5 Output"
done
line="standard error is closed"
"$program" check --scan none > out 2>&-; got=$?; : > err; want 1 "" ""
"$program" > out 2>&-; got=$?; : > err; want 2 "" ""
"$program" ls --endian big file > out 2>&-; got=$?; : > err; want 0 "$root" ""
"$program" info packed > out 2>&-; got=$?; : > err; want 3 $'bytes *\norder none\n*' ""
line="standard error is /dev/full"
"$program" check --scan none > out 2> /dev/full; got=$?; : > err; want 1 "" ""

# What stands after a stop: the lines of each operation, and of a weak node
first=$'0000000c 68 line 1 step 1 of 2 stands from 00000050\n00000050 41 line 1 step 2 of 2 stands from 00000079'
lines listing "create 0644 /a"
run cuts --block 8192 --blocks 1 listing
want 0 "$first"$'\ntotal operations 1 steps 2 from 00000000 to 0000007c weak 0' ""
lines listing "create 0644 /a" "write /a 0 ffffff"
run cuts --block 8192 --blocks 1 listing
want 0 "$first"$'\n0000007c 71 line 2 step 1 of 1 stands from 000000c0\ntotal operations 2 steps 3 from 00000000 to 000000c4 weak 0' ""
lines listing "create 0644 /a" "write /a 0 bef98e24fe"
for order in little big; do
    run cuts --block 8192 --blocks 1 --endian $order listing
    want 3 "$first"$'\n0000007c 73 line 2 step 1 of 1 stands from 000000c5\nweak 0000007c at 68\ntotal operations 2 steps 3 from 00000000 to 000000c8 weak 1' ""
done
# cut there it shows a file of five bytes 0xFF, which nobody wrote
run build --block 8192 --blocks 1 listing weak_image; want 0 "accepted 2 nodes 3 bytes 200" ""
head -c $((0x7c + 68)) weak_image > cut_image
run cat --block 8192 cut_image /a; want 0 "*" ""
same out <(bytes ff ff ff ff ff)
# `build` and `append` note it with --weak, when all is written: the same file and the same line
weak_note="jffs2_image: note: weak 0000007c at 68"
run build --block 8192 --blocks 1 --weak listing noted; want 3 "accepted 2 nodes 3 bytes 200" "$weak_note"
same noted weak_image
run build --block 8192 --blocks 1 --endian big listing weak_big; want 0 "accepted 2 nodes 3 bytes 200" ""
run build --weak --block 8192 --blocks 1 --endian big listing noted; want 3 "accepted 2 nodes 3 bytes 200" "$weak_note"
same noted weak_big
run append --block 8192 --blocks 2 --weak weak_image create_b noted; want 0 "accepted 1 nodes 2 bytes 124" ""
run append --block 8192 --blocks 2 weak_image create_b unnoted; want 0 "accepted 1 nodes 2 bytes 124" ""
same noted unnoted
lines weak_b "create 0644 /b" "write /b 0 bef98e24fe" "create 0644 /c" "write /c 0 bef98e24fe"
run cuts --block 8192 --blocks 2 --on weak_image weak_b; want 3 "*weak 2" ""
grep '^weak ' out | sed 's/^/jffs2_image: note: /' > weak_notes
run append --block 8192 --blocks 2 --weak weak_image weak_b noted
want 3 "accepted 4 nodes 6 bytes 388" "$(cat weak_notes)"
run append --block 8192 --blocks 2 --weak --decompress weak_image weak_b noted
want 3 "accepted 4 nodes 6 bytes 388" "$(cat weak_notes)"
# no weak node is no note; findings of the base are noted before, and after a fault there is none
lines sound_listing "create 0644 /a" "write /a 0 ffffff"
run build --block 8192 --blocks 1 --weak sound_listing noted; want 0 "accepted 2 nodes 3 bytes 196" ""
run build --block 8192 --blocks 1 --weak /dev/null noted; want 0 "accepted 0 nodes 0 bytes 0" ""
head -c $((0x7c + 60)) weak_image > torn
run append --block 8192 --blocks 2 --weak torn weak_b noted
want 3 "accepted 4 nodes 6 bytes 388" "$(noted 1)"$'\n'"$(cat weak_notes)"
lines refused_listing "create 0644 /a" "write /a 0 bef98e24fe" "create 0644 /a"
run build --block 8192 --blocks 1 refused_listing refused; want 1 "" "jffs2_image: S1 Refused O5 Exists line 3"
run build --block 8192 --blocks 1 --weak refused_listing noted; want 1 "" "jffs2_image: S1 Refused O5 Exists line 3"
same noted refused
run build --block 8192 --blocks 0 --weak listing noted; want 1 "" "jffs2_image: S7 Geometry$no_block"
run build --block 8192 --blocks 1 --weak listing folder; want 1 "" "$(unopened folder 'is a directory')"
run build --block 8192 --blocks 1 --weak none noted; want 1 "" "$(unopened none)"
line="build --weak, standard output is full"
"$program" build --block 8192 --blocks 1 --weak listing noted > /dev/full 2> err; got=$?; : > out; want 1 "" "jffs2_image: P5 Output"
same noted weak_image
line="build --weak, standard error is full"
"$program" build --block 8192 --blocks 1 --weak listing noted > out 2> /dev/full; got=$?; : > err; want 3 "accepted 2 nodes 3 bytes 200" ""
run cuts --block 8192 --blocks 1 --weak listing; want 2 "" "error: unexpected argument '--weak' found*"
# on a base, from its next block on; and with no operation
run cuts --block 8192 --blocks 2 --on weak_image create_b
want 0 $'0000200c 68 line 1 step 1 of 2 stands from 00002050\n00002050 41 line 1 step 2 of 2 stands from 00002079\ntotal operations 1 steps 2 from 00002000 to 0000207c weak 0' ""
run cuts --block 8192 --blocks 1 --on weak_image /dev/null
want 0 "total operations 0 steps 0 from 00002000 to 00002000 weak 0" ""
# what is refused: the lines of the operations before it stand
lines listing "create 0644 /a" "" "create 0644 /a"
run cuts --block 8192 --blocks 1 listing; want 1 "$first" "jffs2_image: S1 Refused O5 Exists line 3"
run cuts --block 8192 --blocks 1 --on weak_image create_b; want 1 "" "jffs2_image: S2 Full needed 112 free 0 line 1$(fits 2)"
head -c 8193 /dev/zero | tr '\0' '\377' > long_base
for row in "$no_block|--blocks 0" "$small_block|--block 4096 --blocks 2" "$large_flash|--block 8192 --blocks 32769" \
    "$large_page|--block 8192 --blocks 1 --page 8192" "$long_image|--block 8192 --blocks 1 --on long_base"; do
    run cuts ${row#*|} listing; want 1 "" "jffs2_image: S7 Geometry${row%|*}"
done
lines listing "paint /a"
run cuts --blocks 1 listing
want 1 "" $'jffs2_image: P2 Listing line 1\njffs2_image: note: no operation has this name'
lines listing "create 0644 /a" "part /a 0 none"
run cuts --blocks 1 listing; want 1 "" "$(unopened none)"
run cuts --blocks 1 none; want 1 "" "$(unopened none)"
run cuts --blocks 1 --on none listing; want 1 "" "$(unopened none)"
run cuts --blocks 1 --on folder listing; want 1 "" "$(unread folder)"
run cuts listing; want 2 "" "error: *--blocks*"
run cuts --blocks 1 listing out; want 2 "" "error: unexpected argument 'out' found*"
run cuts --blocks 1 --page 512 listing; want 2 "" "error: invalid value '512' for '--page <N>': *"
# The commands of docs/POWER-CUTS.md: each block of its section on `cuts`, and what the next one says that it prints
block_of() {
    awk -v open="\`\`\`$1" -v want="$2" '/^## / { here = /^## See it on your own image/ } /^```$/ { inside = 0 }
        inside { print } here && $0 == open { inside = ++n == want }' "$top/docs/POWER-CUTS.md"
}
jffs2_image() { "$program" "$@"; }
mkdir power_cuts
for block in 1 2 3 4 5 6 7 8; do
    line="docs/POWER-CUTS.md, commands $block"
    (cd power_cuts && set -e && eval "$(block_of sh $block)") > out 2> err; got=$?
    want 0 "$(block_of text $block)" "*"
done
line="docs/POWER-CUTS.md has eight blocks of commands on cuts, the last of seven lines"
got="$(block_of sh 8 | wc -l) $(block_of sh 9 | wc -l)"; want "7 0" "*" "*"

# ---- Options that the image shows

known=$top/tests/data
# shows NOTE OPTIONS COMMAND WORD..: with --auto the output, the status and the notes are those with these options, behind the
# note on what was taken
shows() {
    local note="jffs2_image: note: $1" options=$2 command=$3 status differs
    shift 3
    run "$command" $options "$@"
    status=$got
    mv out out.given
    { echo "$note"; cat err; } > err.given
    run "$command" --auto "$@"
    cmp -s out out.given && cmp -s err err.given && [[ $got == "$status" ]]
    differs=$?
    count $differs
    [[ $differs == 0 ]] || echo "FAILED: $line"
}
little="little-endian, blocks of 8192"
for words in "check" "check --shape" "ls" "damage"; do
    shows "$little" "--block 8192 --decompress" $words "$known/default.img"
done
shows "$little" "--block 8192 --decompress" ls "$known/default.img" /etc
shows "$little" "--block 8192 --decompress" cat "$known/default.img" /etc/passwd
shows "$little" "--block 8192 --decompress" cat "$known/default.img" /none
shows "$little" "--block 8192 --decompress" diff "$known/default.img" "$known/rtime.img"
shows "$little" "--block 8192" check --scan "$known/default.img"
shows "$little" "--block 8192" map "$known/default.img"
for command in ls check damage; do
    shows "big-endian, blocks of 4194304" "--block 4194304 --endian big --decompress" $command "$known/lzo.img"
done
lines auto.txt "mkdir 0755 /auto"
shows "$little" "--block 8192 --decompress" cuts --blocks 8 --on "$known/default.img" auto.txt
# made WORD..: the same of a command that writes OUT, which comes last
made() {
    run "$@" --block 8192 "$known/default.img" made.given
    run "$@" -a "$known/default.img" made.auto
    want "$got" "*" "jffs2_image: note: $little*"
    cmp -s made.given made.auto; count $?
}
for command in decompress compress compact; do made $command; done
run append --blocks 8 --block 8192 --decompress "$known/default.img" auto.txt made.given
run append --blocks 8 --auto "$known/default.img" auto.txt made.auto; want "$got" "accepted *" "jffs2_image: note: $little*"
cmp -s made.given made.auto; count $?
run extract --auto --quiet "$known/default.img" extracted_auto
want 3 "" "jffs2_image: note: $little"$'\n*'
# Where an image is written, or that is foretold, one size alone has to fit.
unclear="jffs2_image: note: big-endian, block size unknown; give --block"
for command in decompress compress compact; do
    run $command --auto "$known/lzo.img" unclear.img
    want 1 "" "$unclear"$'\n'"jffs2_image: M1 BlockSize$block_note"
    [[ ! -e unclear.img ]]; count $?
done
run update -a "$known/lzo.img" auto.txt unclear.img
want 1 "" "$unclear"$'\n'"jffs2_image: M1 BlockSize$block_note"
for words in "--blocks 64" "--blocks 64 --compress"; do
    run cuts -a $words --on "$known/lzo.img" auto.txt
    want 1 "" "$unclear"$'\n'"jffs2_image: M1 BlockSize$block_note"
done
# Without a node nothing is taken.
bytes 1f 8b 08 00 > zipped
nothing=$'jffs2_image: I1 NoNodes\njffs2_image: '"$no_node"
run ls --auto empty; want 1 "" "$nothing"
run ls --auto block; want 1 "" "$nothing"
run ls --auto zipped; want 1 "" $'jffs2_image: note: the file begins as gzip does\n'"$nothing"
run diff --auto zipped "$tree"; want 1 "" $'jffs2_image: note: the file begins as gzip does\n'"$nothing"
run ls --auto none; want 1 "" "$(unopened none)"
run ls --auto folder; want 1 "" "$(unread folder)"
run ls --auto larger; want 1 "" "jffs2_image: L2 TooLarge"
# Beside it nothing is given that it takes, and it wants an image.
for words in "--block 8192" "-e 8K" "--endian little" "-l" "-b" "--decompress" "--block x"; do
    run ls --auto $words "$tree"
    want 2 "" "error: the argument '--auto' cannot be used with '*For more information, try 'jffs2_image ls --help'."
done
run cuts --auto --blocks 1 auto.txt; want 2 "" "error: the following required arguments were not provided:*--on <IMAGE>*"
for words in "build --blocks 1" "pack" "listing" "info"; do
    run $words --auto a b; want 2 "" "error: unexpected argument '--auto' found*"
done

finish
