#!/usr/bin/env bash
# Runs `decompress`, and --decompress of the other commands, on images of mkfs.jffs2 (tests/data)
# and on small ones that are made here: each line, each fault, and what stands in OUT.
# Usage: tests/decompress.sh [PROGRAM]. The last line is 'N passed, M failed'.
set -u
. "$(dirname "$0")/running.sh"
python3 -B "$top/tests/compressed_images.py" . || exit 1
data=$top/tests/data
# method_note METHOD: the note on an image with data of a method that is read
method_note() {
    printf 'jffs2_image: note: the image is compressed (%s); decompress writes one that is not, ' "$1"
    printf 'without damaged nodes; ls, cat, check, extract, diff, damage, cuts and append take --decompress'
}
note=$(method_note zlib)
methods=([2]=rtime [6]=zlib [7]=lzo [8]=lzma)
# unread_note NUMBER TEXT: the note on data of a method that is not read
unread_note() {
    printf '\njffs2_image: note: method %s is %s' "$1" "$2"
}
lines create 'create 0644 /new'
mkdir folder

# ---- Words and help

wrong="error: *Usage: *--help*"
run decompress; want 2 "" "error: *<IMAGE>*Usage: jffs2_image decompress *"
run decompress good; want 2 "" "error: *<OUT>*--help*"; unmade out.img
run decompress good out.img more; want 2 "" "error: unexpected argument 'more' found*Usage: *"
for option in --blocks --scan --decompress --owners --shape; do
    run decompress $option good out.img
    want 2 "" "error: unexpected argument '$option' found*Usage: *"
done
for words in "listing --decompress folder" "build --decompress --blocks 1 create out.img"; do
    run $words; want 2 "" "error: *'--decompress'*Usage: *"
done
# Beside --scan, which mounts nothing, it says nothing.
run check --scan --decompress good; want 3 $'block 0\n*00000038 compressed 84 compr 6*findings 1' ""
run decompress --block=4k good out.img
want 2 "" "error: invalid value '4k' for '--block <N>': *--help*"
run decompress --endian=middle good out.img
want 2 "" "error: invalid value 'middle' for '--endian <ORDER>': *--help*"
run ls --decompress --decompress good; want 2 "" "$wrong"
unmade out.img
for words in "decompress --help" "decompress -h" "help decompress"; do
    run $words
    want 0 "*Usage: jffs2_image decompress *<IMAGE> ?OUT?*--block <N>*65536*--endian <ORDER>*little*\
Exit status:*" ""
done
run --help; want 0 "*Commands:*  decompress *" ""
for command in check ls cat damage diff append extract; do
    run help $command; want 0 "*Options:*--decompress *" ""
done
for command in build listing; do
    run help $command; want 0 "*Usage: *" ""
    line="no --decompress in help of $command"
    ! grep -q -e --decompress out; count $?
done
line="the lines of help, 80 columns wide at most"
for command in decompress check ls cat damage diff append extract; do
    "$program" help $command > out
    awk 'length > 80 { print; wide = 1 } END { exit wide }' out; count $?
done

# ---- One node, byte for byte: twenty bytes 0x61, by ZLIB in the little order and by LZO in the big
# one. Owners 11 and 12, times 13 to 15; the entry of the root is of time 7.

little_entry() {
    marker
    bytes 85 19 01 e0 29 00 00 00 6d a6 2f d7 01 00 00 00 01 00 00 00 02 00 00 00
    bytes 07 00 00 00 01 08 00 00 8c 0b 5e 9b ce 51 b5 3a 61 ff ff ff
}
little_fields() {
    bytes 02 00 00 00 01 00 00 00 a4 81 00 00 0b 00 0c 00 14 00 00 00 0d 00 00 00 0e 00 00 00
    bytes 0f 00 00 00 00 00 00 00
}
twenty() {
    bytes 61 61 61 61 61 61 61 61 61 61 61 61 61 61 61 61 61 61 61 61
}
{
    little_entry
    bytes 85 19 02 e0 4f 00 00 00 1c 7c f6 4f; little_fields
    bytes 0b 00 00 00 14 00 00 00 06 00 00 00 92 f0 e6 cf 63 9e 57 dc
    bytes 78 9c 4b 4c c4 04 00 4f a6 07 95
} > packed_little
{
    little_entry
    bytes 85 19 02 e0 58 00 00 00 3a 13 38 82; little_fields
    bytes 14 00 00 00 14 00 00 00 00 00 00 00 43 10 ba 29 32 b3 b0 87; twenty
} > plain_little
big_entry() {
    bytes 19 85 20 03 00 00 00 0c f0 60 dc 98
    bytes 19 85 e0 01 00 00 00 29 d0 4c 45 0b 00 00 00 01 00 00 00 01 00 00 00 02
    bytes 00 00 00 07 01 08 00 00 08 af 97 e0 3a b5 51 ce 61 ff ff ff
}
big_fields() {
    bytes 00 00 00 02 00 00 00 01 00 00 81 a4 00 0b 00 0c 00 00 00 14 00 00 00 0d 00 00 00 0e
    bytes 00 00 00 0f 00 00 00 00
}
{
    big_entry
    bytes 19 85 e0 02 00 00 00 4c aa 34 aa 0c; big_fields
    bytes 00 00 00 08 00 00 00 14 07 00 00 00 c1 9d 6c 48 e4 95 3d 1b
    bytes 12 61 31 00 00 11 00 00
} > packed_big
{
    big_entry
    bytes 19 85 e0 02 00 00 00 58 b0 ee 7e 71; big_fields
    bytes 00 00 00 14 00 00 00 14 00 00 00 00 29 ba 10 43 95 0a a1 72; twenty
} > plain_big
twenty > twenty_bytes
root="d 0755 0 0 0 0 1 /"
small=(--block 8192)
for order in little big; do
    flash=("${small[@]}" --endian "$order")
    run decompress "${flash[@]}" packed_$order out.img
    want 0 "decompressed 1 nodes 2 bytes 144" ""; same out.img plain_$order
    # What is of the profile already stays as it is.
    run decompress "${flash[@]}" out.img again.img
    want 0 "decompressed 0 nodes 2 bytes 144" ""; same again.img plain_$order
    run cat --decompress "${flash[@]}" packed_$order /a; want 0 "*" ""; whole twenty_bytes
    run cat "${flash[@]}" out.img /a; want 0 "*" ""; whole twenty_bytes
    run ls --decompress "${flash[@]}" packed_$order; want 0 "$root"$'\n- 0644 11 12 20 14 2 /a' ""
    # Compressed, and decompressed again
    run compress "${flash[@]}" plain_$order small.img
    want 0 "compressed 1 nodes 2 bytes 136" ""
    line="the length of OUT"; [[ $(wc -c < small.img) == 136 ]]; count $?
    run decompress "${flash[@]}" small.img again.img
    want 0 "decompressed 1 nodes 2 bytes 144" ""; same again.img plain_$order
    run ls --decompress "${flash[@]}" small.img; want 0 "$root"$'\n- 0644 11 12 20 14 2 /a' ""
    # In the other order nothing is a node, and a fault tells so.
    other=big; [[ $order == little ]] || other=little
    run decompress "${small[@]}" --endian $other packed_$order none.img
    want 1 "" $'jffs2_image: I1 NoNodes\njffs2_image: note: the other byte order has 3 nodes, see --endian and info'
    unmade none.img
    run ls --decompress "${small[@]}" --endian $other packed_$order
    want 0 "$root" "$(unseen "[1-9]*" 3)"$'\n'"$(hinted $order 4194304)"
done
: > empty
for order in little big; do
    run decompress --endian $order empty out.img
    want 0 "decompressed 0 nodes 0 bytes 0" ""; same out.img empty
done
erased 70000 > blank
run decompress blank out.img; want 0 "decompressed 0 nodes 0 bytes 0" ""; same out.img empty
run decompress blank /dev/full; want 0 "decompressed 0 nodes 0 bytes 0" ""

# ---- Images of mkfs.jffs2, and their nodes by LZMA: the folder is that of tests/data/make.sh

seq 1 3000 > log
head -c 5000 /dev/zero > zeros
for k in $(seq 32); do printf '%s' "$k" | sha256sum | cut -c 1-64; done > digits
mapfile -t pairs < <(fold -w 2 digits)
bytes "${pairs[@]}" > noise
printf 'aaaaaaaaaaaa' > short
printf 'root:x:0:0:root:/root:/bin/sh\n' > passwd
printf '%s\n' '#!/bin/sh' 'exec true' > start
tree="$root
- 0644 0 0 0 1000000000 2 /empty
d 0755 0 0 0 1000000000 3 /etc
d 0755 0 0 0 1000000000 11 /etc/init.d
- 0755 0 0 20 1000000000 13 /etc/init.d/start
- 0644 0 0 13893 1000000000 5 /etc/log
- 0644 0 0 30 1000000000 12 /etc/passwd
p 0600 0 0 0 1000000000 4 /fifo
- 0644 0 0 13893 1000000000 5 /log
- 0644 0 0 1024 1000000000 6 /noise
c 0600 0 0 0 1000000000 7 /null
- 0644 0 0 12 1000000000 8 /short
l 0777 0 0 10 1000000000 9 /way -> etc\\\\x2fpasswd
- 0644 0 0 5000 1000000000 10 /zeros"
with_new=${tree/$'\n- 0644 0 0 1024'/$'\n- 0644 0 0 0 0 14 /new\n- 0644 0 0 1024'}
# files_of WORD..: each file of the folder, by `cat` with these words
files_of() {
    local file
    for file in log zeros noise short empty; do
        run cat "$@" "/$file"; whole $file
        [[ $got == 0 && ! -s err ]]; count $?
    done
    run cat "$@" /etc/passwd; whole passwd
    run cat "$@" /etc/init.d/start; whole start
    run cat "$@" /etc/log; whole log
}
# made_of FOLDER: the folder, without what `extract` leaves out
made_of() {
    line="what is in $1 of $line"
    local file
    for file in log zeros noise short empty; do cmp -s "$1/$file" $file; count $?; done
    cmp -s "$1/etc/passwd" passwd; count $?
    cmp -s "$1/etc/init.d/start" start; count $?
    [[ $(readlink "$1/way") == etc/passwd && $1/log -ef $1/etc/log && ! -e $1/null ]]; count $?
    rm -rf "$1"
}
left_out="left out /fifo: FIFO
left out /null: character device"
while read -r name block order address compr changed bytes; do
    image=$data/$name.img
    flash=(--block "$block" --endian "$order")
    run decompress "${flash[@]}" "$image" out.img
    want 0 "decompressed $changed nodes 29 bytes $bytes" ""
    line="the length of OUT"; [[ $(wc -c < out.img) == "$bytes" ]]; count $?
    run check --shape "${flash[@]}" out.img
    want 0 "*entries 13 inodes 16 findings 0"$'\nmount ok\nshape ok' ""
    run ls "${flash[@]}" out.img; want 0 "$tree" ""
    run ls --decompress "${flash[@]}" "$image"; want 0 "$tree" ""
    run ls "${flash[@]}" --decompress out.img; want 0 "$tree" ""
    files_of "${flash[@]}" out.img
    files_of --decompress "${flash[@]}" "$image"
    run extract "${flash[@]}" out.img made; want 3 "" "$left_out"; made_of made
    run extract "${flash[@]}" --decompress "$image" made; want 3 "" "$left_out"; made_of made
    # Extended: the nodes of OUT stay, and the new ones go into the next block.
    run append "${flash[@]}" --blocks 16 out.img create more.img
    want 0 "accepted 1 nodes 2 bytes 124" ""
    run ls "${flash[@]}" more.img; want 0 "$with_new" ""
    run append --decompress "${flash[@]}" --blocks 16 "$image" create again.img
    want 0 "accepted 1 nodes 2 bytes 124" ""; same again.img more.img
    run append --decompress "${flash[@]}" --blocks 1 "$image" create none.img
    case $block in
        65536) want 1 "" "jffs2_image: S2 Full needed 112 free 0 line 1$(fits 2)"; rm none.img ;;
        *) want 1 "" "jffs2_image: S7 Geometry$long_image"; unmade none.img ;;
    esac
    # Without --decompress it is refused, and a note says what to do.
    fault="jffs2_image: M4 Compressed at $address compr $compr"
    its_note=$(method_note ${methods[$compr]})
    run check "${flash[@]}" "$image"; want 3 "*findings $changed"$'\n'"mount refused ${fault#* }" ""
    # Through its compression it mounts: the report is the same, and yet nothing is wrong.
    run check --decompress --shape "${flash[@]}" "$image"
    want 0 "*findings $changed"$'\nmount ok\nshape ok' ""
    run check --decompress --shape "${flash[@]}" out.img
    want 0 "*entries 13 inodes 16 findings 0"$'\nmount ok\nshape ok' ""
    for words in "ls" "cat" "append" "extract"; do
        case $words in
            ls) run ls "${flash[@]}" "$image" ;;
            cat) run cat "${flash[@]}" "$image" /log ;;
            append) run append "${flash[@]}" --blocks 16 "$image" create none.img ;;
            extract) run extract "${flash[@]}" "$image" none.img ;;
        esac
        want 1 "" "$fault"$'\n'"$its_note"
    done
    unmade none.img
    # IMAGE and OUT are one file, by one name or by two.
    cp "$image" image; run decompress "${flash[@]}" image image
    want 0 "decompressed $changed nodes 29 bytes $bytes" ""; same image out.img
    cp "$image" image; ln image link; run decompress "${flash[@]}" image link
    want 0 "decompressed $changed nodes 29 bytes $bytes" ""; same image out.img; rm link
    cp "$image" image; run append --decompress "${flash[@]}" --blocks 16 image create image
    want 0 "accepted 1 nodes 2 bytes 124" ""; same image more.img
    # Compressed, and decompressed again
    run compress "${flash[@]}" out.img small.img; want 0 "compressed * nodes 29 bytes *" ""
    line="compress of $name is shorter"; (($(wc -c < small.img) < bytes)); count $?
    changed_back=$(cut -d ' ' -f 2 out)
    run decompress "${flash[@]}" small.img again.img
    want 0 "decompressed $changed_back nodes 29 bytes $bytes" ""; same again.img out.img
    run ls --decompress "${flash[@]}" small.img; want 0 "$tree" ""
    cp out.img image; run compress "${flash[@]}" image image
    want 0 "compressed * nodes 29 bytes *" ""; same image small.img
    run compress "${flash[@]}" "$image" none.img; want 1 "" "$fault"$'\n'"$its_note"; unmade none.img
    run compress "${flash[@]}" small.img none.img
    want 1 "" "jffs2_image: M4 Compressed at * compr 6"$'\n'"$note"; unmade none.img
    run compress "${flash[@]}" out.img /dev/full; want 1 "" "jffs2_image: S4 Sink$no_space"
    line="compress of $name with standard output full"
    "$program" compress "${flash[@]}" out.img image > /dev/full 2> err
    got=$?; : > out; want 1 "" "jffs2_image: P5 Output"; same image small.img
    # A longer file that was there before is gone.
    cp blank image; run decompress "${flash[@]}" "$image" image
    want 0 "decompressed $changed nodes 29 bytes $bytes" ""; same image out.img
    # A disk that takes nothing, or 1024 bytes
    run decompress "${flash[@]}" "$image" /dev/full; want 1 "" "jffs2_image: S4 Sink$no_space"
    run append --decompress "${flash[@]}" --blocks 16 "$image" create /dev/full
    want 1 "" "jffs2_image: S4 Sink*"
    line="decompress of $name on a disk of 1024 bytes"
    (
        trap '' XFSZ
        ulimit -f 1
        "$program" decompress "${flash[@]}" "$image" image > out 2> err
    )
    got=$?; want 1 "" $'jffs2_image: S4 Sink\njffs2_image: note: the file grows too large'
    head -c 1024 out.img > piece; same image piece
    # Standard output that takes nothing: OUT stands.
    line="decompress of $name with standard output full"
    rm image
    "$program" decompress "${flash[@]}" "$image" image > /dev/full 2> err
    got=$?; : > out; want 1 "" "jffs2_image: P5 Output"; same image out.img
done << 'END'
default 8192 little 0000018c 6 7 30168
lzo 65536 big 0000018c 7 8 21700
rtime 8192 little 0000400c 2 6 30168
lzma 8192 little 0000018c 8 7 30168
lzma_big 65536 big 0000018c 8 8 21700
END

# ---- Faults: nothing is made, and what was there stays

unopened_none=$(unopened none)
unread_folder=$(unread folder)

# unmade_of FAULT WORD..: the commands that make an image of that of these words
unmade_of() {
    local fault="jffs2_image: $1"
    shift
    cp blank there.img
    run decompress "$@" none.img; want 1 "" "$fault"; unmade none.img
    run decompress "$@" there.img; want 1 "" "$fault"; same there.img blank
    run decompress "$@" nowhere/none.img; want 1 "" "$fault"
    run append --decompress --blocks 64 "$@" create none.img; want 1 "" "$fault"; unmade none.img
}
# unjudged_of FAULT WORD..: the commands that look at all of it
unjudged_of() {
    local fault="jffs2_image: $1"
    shift
    run damage --decompress "$@"; want 1 "" "$fault"
    run diff --decompress "$@" "${@: -1}"; want 1 "" "$fault"
    run extract --decompress "$@" none.img; want 1 "" "$fault"; unmade none.img
}
# refused FAULT WORD..: all commands
refused() {
    unmade_of "$@"
    unjudged_of "$@"
    local fault="jffs2_image: $1"
    shift
    run ls --decompress "$@"; want 1 "" "$fault"
    run cat --decompress "$@" /a; want 1 "" "$fault"
}
# refused_data FAULT WORD..: all but `ls` and `cat`, which decompress only what they show
refused_data() {
    unmade_of "$@"
    unjudged_of "$@"
    shift
    run ls --decompress "$@"; want 0 "$root"$'\n- 0644 11 12 18 14 2 /a*' ""
    run cat --decompress "$@" /a; want 0 "abcabcabcabcabcabc" ""
}
refused "${unopened_none#jffs2_image: }" none
refused "${unread_folder#jffs2_image: }" folder
refused "L2 TooLarge" /dev/zero
for value in 0 4095 4097 4194308 4294967295; do
    refused "M1 BlockSize$block_note" --block $value good
done
refused "M3 Incompatible at 0000008c type e0f7" later
rubin_note=$(unread_note 3 'RUBINMIPS, which is not read')
refused_data "M4 Compressed at 0000008c compr 3$rubin_note" wrong_method
for name in rtime zlib lzo lzma; do
    refused_data "Z1 Data at 0000008c" wrong_$name
    run ls wrong_$name; want 1 "" $'jffs2_image: M4 Compressed at 00000038 compr 6\n'"$note"
done
refused_data "Z2 TooLong at 0000008c" "${small[@]}" long
run cat --decompress "${small[@]}" long /long; want 1 "" "jffs2_image: Z2 TooLong at 0000008c"
# A file of a method that is not read is listed, and hides no other; a symlink is not.
refused_data "M4 Compressed at 000000b8 compr 3$rubin_note" unread_file
of_b="jffs2_image: M4 Compressed at 000000b8 compr 3$rubin_note"
run ls --decompress unread_file
want 0 "$root"$'\n- 0644 11 12 18 14 2 /a\n- 0644 11 12 4 14 7 /b' ""
run ls --decompress unread_file /b; want 0 "- 0644 11 12 4 14 7 /b" ""
run cat --decompress unread_file /b; want 1 "" "$of_b"
run cat --decompress unread_file /none; want 1 "" "jffs2_image: P3 Path NotFound"
run ls --decompress unread_link; want 1 "" "$of_b"
run ls --decompress unread_link /a; want 1 "" "$of_b"
run cat --decompress unread_link /b; want 1 "" "$of_b"
run cat --decompress unread_link /a; want 0 "abcabcabcabcabcabc" ""
unmade_of "S3 ReadOnly" read_only
unmade_of "S7 Geometry$small_block" --block 4096 good
unmade_of "S7 Geometry$small_block" --block 8188 good
unmade_of "S2 Full needed 246098596 free 268386304" bomb
# What no image can be made of is shown all the same.
for words in "--block 4096 good" "--block 8188 good" read_only; do
    run ls --decompress $words; want 0 "$root*/a" "*"
    run damage --decompress $words; want 0 "total damaged 0 paths 0 missing 0 gaps 0" ""
done
# Of two faults the first in this order
refused "${unopened_none#jffs2_image: }" --block 4097 none
refused "M1 BlockSize$block_note" --block 4097 wrong_zlib
refused_data "Z1 Data at 0000008c" --block 4096 wrong_zlib
unmade_of "S3 ReadOnly" --block 4096 read_only
run ls later; want 1 "" $'jffs2_image: M4 Compressed at 00000038 compr 6\n'"$note"
# `check` prints them behind its report, and looks no further.
for name in rtime zlib lzo lzma; do
    run check --decompress wrong_$name; want 3 $'*\nmount refused Z1 Data at 0000008c' ""
done
run check --decompress "${small[@]}" long; want 3 $'*\nmount refused Z2 TooLong at 0000008c' ""
run check --decompress later
want 3 $'*\nmount refused M3 Incompatible at 0000008c type e0f7' ""
run check --decompress wrong_method
want 3 $'*\nmount refused M4 Compressed at 0000008c compr 3' ""
run check --decompress clash; want 3 $'*\nmount refused M5 Clash at 0000008c' ""
run check --decompress root_file; want 3 $'*\nmount refused M6 RootKind' ""
run check --decompress read_only; want 3 $'*\nmount ok read-only' ""
run check --decompress --block 4097 wrong_zlib; want 1 "" "jffs2_image: C1 BlockSize$block_note"
run check --decompress none; want 1 "" "$unopened_none"
# The node fits into a larger block.
run decompress --block 8196 long out.img; want 0 "decompressed 2 nodes 4 bytes 16448" ""
head -c 8113 /dev/zero > piece
run cat --block 8196 --decompress long /long; whole piece
# The note on a method that is not read names it: --decompress does not help.
tail -c +141 wrong_method > unread
{ marker; cat unread; } > wrong_alone
for words in "ls wrong_alone" "damage --decompress wrong_alone" "cat wrong_alone /a" \
    "append --blocks 2 wrong_alone create none.img" "decompress wrong_alone none.img"; do
    run $words; want 1 "" "jffs2_image: M4 Compressed at 0000000c compr 3$rubin_note"
done
run ls --decompress wrong_alone; want 0 "$root" ""
unmade none.img
# What does not mount is decompressed all the same.
run decompress clash out.img; want 0 "decompressed 2 nodes 3 bytes 232" ""
run check out.img; want 3 $'*findings 0\nmount refused M5 Clash at 00000090' ""
run append --decompress --blocks 4 clash create none.img
want 1 "" "jffs2_image: M5 Clash at 00000090$(clash_note 00000038 00000090)"
# Mounted through its compression it has its own addresses.
for words in "ls --decompress clash" "cat --decompress clash /a" "damage --decompress clash" \
    "diff --decompress clash good" "diff --decompress good clash" "extract --decompress clash none.img"; do
    run $words; want 1 "" "jffs2_image: M5 Clash at 0000008c$unpaired_note"
done
# So it is of the image that was made: each command that mounts one names both nodes.
for words in "ls out.img" "ls out.img /a" "cat out.img /a" "damage out.img" "diff out.img good" \
    "extract out.img none.img" "append --blocks 4 out.img create none.img" \
    "cuts --blocks 4 --on out.img create"; do
    run $words; want 1 "" "jffs2_image: M5 Clash at 00000090$(clash_note 00000038 00000090)"
done
unmade none.img
# With --clashes higher the node below it is left out, and told; what is left mounts.
run decompress --clashes higher clash out.img
want 3 "decompressed 2 nodes 2 bytes 144" "left out 00000038: clashes with 0000008c"
run check out.img; want 0 $'*findings 0\nmount ok' ""
run decompress --clashes higher good out.img; want 0 "decompressed 1 nodes 2 bytes 144" ""
run decompress good again.img; same out.img again.img
run decompress --clashes higher damaged out.img
want 3 "decompressed 1 nodes 2 bytes 144" "$(noted 1)"
run decompress --clashes=lower clash none.img
want 2 "" "error: invalid value 'lower' for '--clashes <RULE>': wanted higher*--help*"
run decompress clash none.img --clashes; want 2 "" "error: *--clashes <RULE>*"
for words in "ls --clashes higher clash" "compress --clashes higher clash none.img"; do
    run $words; want 2 "" "error: unexpected argument '--clashes' found*"
done
run decompress --clashes higher wrong_zlib none.img; want 1 "" "jffs2_image: Z1 Data at 0000008c"
run decompress --clashes higher none out.img; want 1 "" "$(unopened none)"
unmade none.img
run decompress root_file out.img; want 0 "decompressed 2 nodes 3 bytes 232" ""
run check out.img; want 3 $'*findings 0\nmount refused M6 RootKind' ""
run ls --decompress root_file; want 1 "" "jffs2_image: M6 RootKind"
# Of damage there is a note, as without --decompress. The status is 3 if an image or a folder is made of it, and else
# stays 0.
run decompress damaged out.img; want 3 "decompressed 1 nodes 2 bytes 144" "$(noted 1)"
cp damaged image; run decompress --atomic --force image image; want 3 "decompressed 1 nodes 2 bytes 144" "$(noted 1)"; same image out.img
run check out.img; want 0 "*findings 0"$'\nmount ok' ""
run ls --decompress damaged; want 0 "$root"$'\n- 0644 11 12 18 14 2 /a' "$(noted 1)"
run cat --decompress damaged /a; want 0 "abcabcabcabcabcabc" "$(noted 1)"
run append --decompress --blocks 4 damaged create out.img
want 0 "accepted 1 nodes 2 bytes 124" "$(noted 1)"
run extract --decompress damaged made; want 3 "" "$(noted 1)"; rm -rf made
# Faults of compress, by the same order; a wrong command line
{ marker; bytes 85 19 f7 a0 0c 00 00 00 2c 5b fb db; } > read_only_alone
for words in "P1 File none|none" "L1 Device|folder" "M1 BlockSize|--block 4097 plain_little" \
    "M4 Compressed at 00000038 compr 6|packed_little" "S3 ReadOnly|--block 4096 read_only_alone" \
    "S7 Geometry|--block 4096 plain_little"; do
    cp blank there.img
    run compress ${words#*|} there.img; want 1 "" "jffs2_image: ${words%%|*}*"; same there.img blank
done
run compress; want 2 "" "error: *<IMAGE>*Usage: jffs2_image compress *"
run compress good; want 2 "" "error: *<OUT>*--help*"
run compress --decompress good none.img
want 2 "" "error: unexpected argument '--decompress' found*Usage: *"; unmade none.img
run compress --help
want 0 "*Usage: jffs2_image compress *<IMAGE> ?OUT?*--block <N>*--endian <ORDER>*Exit status:*" ""
run compress blank out.img; want 0 "compressed 0 nodes 0 bytes 0" ""; same out.img empty
run decompress damaged plain.img; head -c 3 /dev/zero | cat plain.img - > dirty.img
run compress dirty.img out.img; want 3 "compressed 1 nodes 2 bytes *" "$(noted 1)"
run compress --atomic dirty.img again.img; want 3 "compressed 1 nodes 2 bytes *" "$(noted 1)"; same again.img out.img
run compress dirty.img /dev/full; want 1 "" "jffs2_image: S4 Sink$no_space"
# An image in which no node is found is refused before anything is made, unless it is blank.
others=$'jffs2_image: I1 NoNodes\njffs2_image: note: the other byte order has [1-9]* nodes, see --endian and info'
no_node="note: no node is found in either byte order, see info"
bare=$'jffs2_image: I1 NoNodes\njffs2_image: '"$no_node"
head -c 70000 /dev/zero | tr '\0' U > dirt
{ erased 65532; bytes 0 0 0 0; } > zeros
marker > marked
for words in decompress "decompress --clashes higher" compress; do
    for option in "" --atomic --force; do
        cp good image; run $words $option --endian big image image; want 1 "" "$others"; same image good
        run $words $option --endian big good none.img; want 1 "" "$others"; unmade none.img
        run $words $option dirt none.img; want 1 "" "$bare"; unmade none.img
        cp blank there.img; run $words $option zeros there.img; want 1 "" "$bare"; same there.img blank
    done
    run $words --block 4097 dirt none.img; want 1 "" "jffs2_image: M1 BlockSize$block_note"; unmade none.img
    run $words marked out.img; want 0 "* 0 nodes 0 bytes 0" ""
    run $words empty out.img; want 0 "* 0 nodes 0 bytes 0" ""
done
for words in "extract dirt none.img" "extract --decompress zeros none.img" "extract dirt none.img /a" "damage dirt"; do
    run $words; want 1 "" "$bare"; unmade none.img
done
run extract --endian big good none.img; want 1 "" "$others"; unmade none.img
for words in "dirt /dev/null" "/dev/null dirt" "dirt dirt" "blank dirt" "good dirt"; do
    run diff $words; want 1 "" $'jffs2_image: I1 NoNodes dirt\njffs2_image: '"$no_node"
done
run diff --endian big blank good
want 1 "" $'jffs2_image: I1 NoNodes good\njffs2_image: note: the other byte order has [1-9]* nodes, see --endian and info'
for name in blank empty marked; do
    run diff $name /dev/null; want 0 "" ""
    run damage $name; want 0 "total damaged 0 paths 0 missing 0 gaps 0" ""
    run extract $name made; want 0 "" ""; rm -rf made
done
# One with findings is not written over without --force, whatever its names are.
spared() {
    printf 'jffs2_image: I2 Findings\njffs2_image: note: %s would be replaced, and has 1 finding, ' "$1"
    printf 'see check --scan; --force does it all the same'
}
ln -s image soft; rm -f image; cp damaged image; ln image hard
for words in decompress "decompress --clashes higher"; do
    for option in "" --atomic; do
        for names in "image image" "image hard" "hard image" "soft image" "image soft" "./image image"; do
            run $words $option $names; want 1 "" "$(spared "${names% *}")"; same image damaged; same hard damaged
        done
    done
    run $words damaged out.img; want 3 "decompressed 1 nodes 2 bytes 144" "$(noted 1)"
    run $words --force image soft; want 3 "decompressed 1 nodes 2 bytes 144" "$(noted 1)"; same image out.img
    cat damaged > image
done
cat dirty.img > image
run compress image hard; want 1 "" "$(spared image)"; same image dirty.img
run compress --force --atomic dirty.img out.img; want 3 "compressed 1 nodes 2 bytes *" "$(noted 1)"
run compress --force image image; want 3 "compressed 1 nodes 2 bytes *" "$(noted 1)"; same image out.img
run ls --force image; want 2 "" "error: unexpected argument '--force' found*"
rm -f image hard soft
# Extended attributes are left out, which is told, and an image with some is not written over either.
attribute() { bytes 85 19 08 e0 0c 00 00 00 a9 a8 cc 67; }
left="jffs2_image: note: nodes of extended attributes, which are left out: 2"
run decompress good plain.img
{ cat good; attribute; attribute; } > attributed
{ cat plain.img; attribute; attribute; } > attributed_plain
run compress plain.img packed.img
for row in "decompress|attributed|plain.img" "decompress --clashes higher|attributed|plain.img" \
    "compress|attributed_plain|packed.img"; do
    IFS='|' read -r words image made <<< "$row"
    cp $image whole
    run $words $image out.img; want 3 "*ompressed 1 nodes 2 bytes *" "$left"; same out.img $made
    run $words whole whole; want 1 "" "$(spared whole | sed 's/1 finding/2 findings/')"; same whole $image
    run $words --force --atomic whole whole; want 3 "*ompressed 1 nodes 2 bytes *" "$left"; same whole $made
done
run append --decompress --blocks 4 attributed create out.img; want 3 "accepted 1 nodes 2 bytes *" "$left"
run append --decompress --blocks 4 plain.img create again.img; same out.img again.img
# nor by an image that goes on from it
for row in "attributed|attributes|2 findings" "damaged|findings|1 finding"; do
    IFS='|' read -r image kind count <<< "$row"
    cp $image whole; ln whole other
    for option in "" --atomic --pad; do
        for names in "whole create whole" "whole create other" "other create ./whole"; do
            run append --decompress --blocks 4 $option $names
            want 1 "" "$(spared "${names%% *}" | sed "s/1 finding/$count/")"; same whole $image; same other $image
        done
    done
    run append --decompress --blocks 4 $image create made.img; made=$got
    run append --decompress --force --blocks 4 whole create other; want "$made" "accepted 1 nodes 2 bytes *" "*"
    same whole made.img; same other made.img; rm -f other
done
cp attributed_plain whole
run append --blocks 4 whole create whole; want 0 "accepted 1 nodes 2 bytes *" ""
cp plain.img whole
run append --decompress --blocks 4 whole create whole; want 0 "accepted 1 nodes 2 bytes *" ""; same whole again.img
run append --blocks 4 attributed_plain create out.img; want 0 "accepted 1 nodes 2 bytes *" ""
run extract --decompress attributed made; rm -rf made
want 3 "" "jffs2_image: note: nodes of extended attributes, which are not extracted: 2"
# OUT that cannot be made
run compress plain_little nowhere/out.img; want 1 "" "$(unopened nowhere/out.img)"
run decompress good nowhere/out.img; want 1 "" "$(unopened nowhere/out.img)"
run decompress good folder; want 1 "" "$(unopened folder 'is a directory')"
run decompress good ""; want 1 "" "$(unopened '')"
run decompress good /dev/null; want 0 "decompressed 1 nodes 2 bytes 144" ""
run cat --decompress good a; want 1 "" "jffs2_image: P3 Path BadPath"
run cat --decompress none '/\'; want 1 "" "jffs2_image: P3 Path BadPath"
run cat --decompress good /none; want 1 "" "jffs2_image: P3 Path NotFound"
run cat --decompress good /; want 1 "" "jffs2_image: P4 NotRegular"
lines listing 'create 0644 /a'
run append --decompress --blocks 4 good listing out.img
want 1 "" "jffs2_image: S1 Refused O5 Exists line 1"
lines listing 'paint'
run append --decompress --blocks 4 good listing none.img
want 1 "" $'jffs2_image: P2 Listing line 1\njffs2_image: note: no operation has this name'; unmade none.img
# The image is decompressed before the listing is read.
for listing in listing none; do
    run append --decompress --blocks 4 wrong_zlib $listing none.img
    want 1 "" "jffs2_image: Z1 Data at 0000008c"; unmade none.img
done
# The greatest image, and one byte more
truncate -s 268435457 larger
run decompress larger none.img; want 1 "" "jffs2_image: L2 TooLarge"; unmade none.img

# ---- Many files, and little memory

run decompress many out.img; want 0 "decompressed 300 nodes 600 bytes *" ""
run check out.img; want 0 $'*entries 300 inodes 300 findings 0\nmount ok' ""
line="an image of 80 KB whose nodes take 1.2 MB, in 24 MB of memory"
(ulimit -v 24000; "$program" decompress many again.img > out 2> err); got=$?
want 0 "decompressed 300 nodes 600 bytes *" ""; same again.img out.img
line="an image of 256 MiB in 64 MiB of memory"
truncate -s 268435456 greatest
(ulimit -v 65536; "$program" decompress greatest none.img > out 2> err); got=$?
want 1 "" "jffs2_image: L3 OutOfMemory"; unmade none.img

finish
