#!/usr/bin/env bash
# Runs the commands that a user types, and compares what they print and write with what the
# documents say: worked examples here, and by tests/commands.py the commands of README.md, GUIDE.md,
# CONTRIBUTING.md and the manual pages as they stand. On a built program it takes seconds.
# Usage: tests/quick.sh [PROGRAM], or tests/quick.sh --try to have `rt try` build one first, without
# a proof (about a minute). The last line is 'N passed, M failed'.
set -u
top=$(cd "$(dirname "$0")/.." && pwd)
data=$top/crates/jffs2_image/data
folder=$(mktemp -d)
trap 'rm -rf "$folder"' EXIT
passed=0
failed=0

# `rt try` keeps no program. So it is told to read a FIFO, and is copied while it waits for that.
try_program() {
    local fifo=$folder/fifo trying words at
    mkfifo "$fifo"
    (cd "$top/crates/jffs2_image" && exec rt try -- check --scan "$fifo") > "$folder/tried" 2>&1 &
    trying=$!
    while kill -0 $trying 2> /dev/null; do
        sleep 0.2
        for at in $(grep -lsF -- "$fifo" /proc/[0-9]*/cmdline); do
            mapfile -d '' -t words 2> /dev/null < "$at"
            # the loader and its options, the program, and its three words
            ((${#words[@]} > 4)) && [[ ${words[-4]} == */program && -x ${words[-4]} ]] || continue
            cp "${words[-4]}" "$folder/tried_program"
            words=("${words[@]:0:${#words[@]}-4}" "$folder/tried_program")
            printf '#!/bin/sh\nexec %s "$@"\n' "${words[*]}" > "$folder/program"
            chmod +x "$folder/program"
            : > "$fifo"
            wait $trying
            return 0
        done
    done
    cat "$folder/tried"
    return 1
}

if [[ ${1-} == --try ]]; then
    try_program || exit 1
    program=$folder/program
else
    program=$(realpath "${1:-$top/crates/jffs2_image/out/jffs2_image}")
fi
if [[ ! -x $program ]]; then
    echo "$program is no program: build it by rt run in crates/jffs2_image, or give --try"
    exit 1
fi
mkdir "$folder/work"
cd "$folder/work" || exit 1

jffs2_image() {
    "$program" "$@"
}

# same ABOUT FOUND WANTED: counts one test
same() {
    if [[ $2 == "$3" ]]; then
        passed=$((passed + 1))
    else
        failed=$((failed + 1))
        printf 'FAILED: %s\n  found:  %s\n  wanted: %s\n' "$1" "${2:0:400}" "${3:0:400}"
    fi
}

# gives STATUS TEXT WORD..: what a command line ends with and prints, standard error included
gives() {
    local found status
    found=$(jffs2_image "${@:3}" 2>&1)
    status=$?
    same "jffs2_image ${*:3}" "$status: $found" "$1: $2"
}

# holds FILE FOLDER: two folders hold the same
holds() {
    local found
    found=$(diff -r "$1" "$2" 2>&1)
    same "what $1 and $2 hold" "$found" ""
}

# ---- The sample, and a folder and back

ln -s "$data" data
gives 0 "accepted 17 nodes 28 bytes 1772" build --block 8192 --blocks 1 data/tree.txt tree.img
tree=$(cat "$data/../stdout")
gives 0 "$tree" ls --block 8192 tree.img
gives 0 "$tree" ls --block 8192 data/tree.img
found=$(jffs2_image check --block 8192 data/tree.img)
same "status of check" $? 0
same "first lines of check" "$(head -n 4 <<< "$found")" "\
block 0
00000000 marker 12
0000000c entry 44 pino 1 version 0 ino 2 type 4 name bin
00000038 inode 68 ino 2 version 1 mode 40755 size 0 offset 0 data 0 none"
same "last lines of check" "$(tail -n 3 <<< "$found")" "\
00000598 erased 6760
total blocks 1 entries 12 inodes 11 findings 0
mount ok"
same "check --shape" "$(jffs2_image check --shape --block 8192 data/tree.img)" "$found"$'\nshape ok'
same "check --scan" "$(jffs2_image check --scan --block 8192 data/tree.img)" "${found%$'\n'*}"
gives 0 "root:x:0:0:root:/root:/bin/sh" cat --block 8192 data/tree.img /etc/passwd

gives 0 "" extract --block 8192 data/tree.img tree
found=$(cd tree && find . -mindepth 1 -type f -printf '%m %s %n %T@ /%P\n' | LC_ALL=C sort -k 5)
same "files that were extracted" "${found//.0000000000/}" "\
755 26 2 1000000000 /bin/again
755 26 2 1000000000 /bin/start
644 7 1 1000000000 /etc/hostname
755 18 1 1000000000 /etc/init.d/network
644 30 1 1000000000 /etc/passwd
644 10 1 1000000000 /var/log/boot log"
same "symlink that was extracted" "$(readlink tree/var/name)" "../etc/hostname"
gives 1 $'jffs2_image: P1 File tree\njffs2_image: note: tree: exists' extract --block 8192 data/tree.img tree
jffs2_image listing --owner 0 0 --time 1000000000 tree > tree.txt
same "listing of a folder" "$(cat tree.txt)" "\
time 1000000000
attr 755 0 0 1000000000 1000000000 /
mkdir 755 /bin
file 755 /bin/again tree/bin/again
link /bin/again /bin/start
mkdir 755 /etc
file 644 /etc/hostname tree/etc/hostname
mkdir 755 /etc/init.d
file 755 /etc/init.d/network tree/etc/init.d/network
file 644 /etc/passwd tree/etc/passwd
mkdir 755 /var
mkdir 700 /var/log
file 644 /var/log/boot\\x20log tree/var/log/boot\\x20log
symlink /var/name ../etc/hostname"
gives 0 "accepted 13 nodes 24 bytes 1500" build --block 8192 --blocks 1 tree.txt again.img
gives 0 "" extract --block 8192 again.img copy
holds tree copy
printf 'mkdir 0755 /bin\nattr 0700 0 0 0 0 /bin\n' > attr.txt
gives 0 "accepted 2 nodes 3 bytes 192" build --blocks 1 attr.txt attr.img
gives 0 $'d 0755 0 0 0 0 1 /\nd 0700 0 0 0 0 2 /bin' ls attr.img

# Exit statuses: 1 a fault, 2 a wrong command line, 3 something was found or left out
gives 1 $'jffs2_image: P1 File none\njffs2_image: note: none: no such file' ls none
found=$(jffs2_image paint 2>&1)
same "status of a wrong command line" $? 2
found=$(jffs2_image check --block 8192 --endian big tree.img)
same "status of a report with findings" $? 3

# ---- docs/FORMAT.md: the smallest image with a file, byte for byte, and its beginnings

printf 'create 0644 /a\n' > a.txt
gives 0 "accepted 1 nodes 2 bytes 124" build --blocks 1 a.txt a.img
same "the smallest image" "$(od -An -v -tx1 -w4 a.img | tr -d ' \n')" "$(tr -d ' \n' << 'END'
85190320 0c000000 b1b01ee4
851902e0 44000000 1dfbf798 02000000 01000000 a4810000 00000000 00000000 00000000 00000000 00000000
00000000 00000000 00000000 00000000 00000000 14d0c471
851901e0 29000000 6da62fd7 01000000 01000000 02000000 00000000 01080000 95029b91 ce51b53a 61ffffff
END
)"
gives 0 "\
block 0
00000000 marker 12
0000000c inode 68 ino 2 version 1 mode 100644 size 0 offset 0 data 0 none
00000050 entry 44 pino 1 version 1 ino 2 type 8 name a
0000007c erased 65412
total blocks 1 entries 1 inodes 1 findings 0
mount ok" check a.img
root="d 0755 0 0 0 0 1 /"
# the last three bytes are 0xFF, as erased flash is
for length in 0 11 12 79 80 81 92 120 121 124; do
    head -c $length a.img > cut.img
    wanted=$root
    ((length < 121)) || wanted+=$'\n- 0644 0 0 0 0 2 /a'
    same "the tree after $length bytes" "$(jffs2_image ls cut.img 2> /dev/null)" "$wanted"
done

# ---- Images by hand

{ head -c 120 a.img; printf b; } > flash.img
same "damaged nodes alone" "$(jffs2_image check --scan flash.img | grep ' damaged ')" \
    "00000050 damaged 44 name-crc"
gives 0 "accepted 17 nodes 28 bytes 1772" build --endian big --blocks 1 data/tree.txt flash.img
gives 0 "$tree" ls --endian big flash.img
jffs2_image cat --endian big flash.img /etc/passwd > passwd
same "passwd" "$(cat passwd)" "root:x:0:0:root:/root:/bin/sh"

printf 'mkdir 0755 /etc\ncreate 0644 /etc/hostname\nwrite /etc/hostname 0 626f780a\n' > tree.txt
gives 0 "accepted 3 nodes 5 bytes 312" build --blocks 64 tree.txt flash.img
found=$(jffs2_image check flash.img)
same "status of check" "$? ${found##*$'\n'}" "0 mount ok"
gives 0 "box" cat flash.img /etc/hostname

printf '1.0\n' > VERSION
printf 'create 0644 /etc/version\npart /etc/version 0 VERSION\n' > more.txt
gives 0 "accepted 2 nodes 3 bytes 200" append --blocks 64 flash.img more.txt new.img
found=$(jffs2_image check new.img)
same "status of check" "$? ${found##*$'\n'}" "0 mount ok"
mv new.img flash.img
gives 0 "1.0" cat flash.img /etc/version

printf 'router\n' > hostname
printf 'truncate /etc/hostname 0\npart /etc/hostname 0 hostname\n' > more.txt
gives 0 "accepted 2 nodes 2 bytes 156" append --blocks 64 flash.img more.txt new.img
gives 0 "router" cat new.img /etc/hostname
gives 0 "box" cat flash.img /etc/hostname

{ cat flash.img; tr '\0' '\377' < /dev/zero; } | head -c 4194304 > whole.img
same "bytes of the whole flash" "$(wc -c < whole.img)" 4194304
gives 0 "$(jffs2_image ls flash.img)" ls whole.img

rm -rf tree copy
mkdir -p tree/etc "tree/two words"
printf 'hello flash' > tree/etc/file
printf '\0\1\2' > "tree/two words/bytes"
ln tree/etc/file tree/etc/again
ln -s etc/file tree/link
jffs2_image listing --owner 0 0 --time 1000000000 tree > tree.txt
same "status of listing" $? 0
gives 0 "accepted 7 nodes 12 bytes 724" build --block 131072 --blocks 128 tree.txt flash.img
gives 0 "accepted 7 nodes 12 bytes 724" pack --owner 0 0 --time 1000000000 --block 131072 tree packed.img
same "the packed image" "$(cmp flash.img packed.img)" ""
gives 0 "" extract --block 131072 flash.img copy
holds tree copy

mkdir files
printf 'hello flash' > files/start.sh
cat > tree.txt << 'END'
# a small tree
time 1000000000
mkdir 0755 /etc
create 0644 /etc/hostname
write /etc/hostname 0 626f780a
symlink /name etc/hostname
owner 1000 100
mkdir 0750 /home
create 0755 /home/start\x20here
part /home/start\x20here 0 files/start.sh
END
gives 0 "accepted 7 nodes 12 bytes 748" build --blocks 1 tree.txt flash.img
gives 0 "$root
d 0755 0 0 0 1000000000 2 /etc
- 0644 0 0 4 1000000000 3 /etc/hostname
d 0750 1000 100 0 1000000000 5 /home
- 0755 1000 100 11 1000000000 6 /home/start\\x20here
l 0777 0 0 12 1000000000 4 /name -> etc\\x2fhostname" ls flash.img
gives 0 "hello flash" cat flash.img '/home/start\x20here'

# ---- The manual page of section 5: its listing, and what is printed of the image that it makes

# block TEXT: the block of the page that begins with this line
block() {
    awk -v first="$1" '
        /^\.Ed/ { if (on) exit; fresh = 0 }
        fresh && $0 == first { on = 1 }
        { fresh = 0 }
        on { gsub(/\\e/, "\\"); print }
        /^\.Bd/ { fresh = 1 }
    ' "$top/docs/jffs2_image.5"
}
block "time 1000000000" > tree.txt
gives 0 "accepted 5 nodes 8 bytes 504" build --blocks 1 tree.txt flash.img
gives 0 "$(block 'block 0')" check flash.img
gives 0 "$(block 'd 0755 0 0 0 0 1 /')" ls flash.img
gives 0 "$(block 'bytes 504')" info flash.img
mkdir -p folder/tree/etc
printf 'box\n' > folder/tree/etc/hostname
printf 'box\n' > "folder/tree/two words"
ln -s etc/hostname folder/tree/name
mkfifo -m 600 folder/tree/queue
chmod 755 folder/tree folder/tree/etc
chmod 644 folder/tree/etc/hostname "folder/tree/two words"
found=$(cd folder && jffs2_image listing --owner 0 0 --time 1000000000 tree)
wanted=$(sed -n '/^\.Ss What listing/,/^\.Ed/p' "$top/docs/jffs2_image.5" |
    sed -n '/^\.Bd/,$ { /^\./d; s/\\e/\\/g; p; }')
same "what listing prints" "$found" "$wanted"

# ---- Images as devices and mkfs.jffs2 write them, compressed

ln -s "$top/tests/data" dumps
gives 1 "jffs2_image: M4 Compressed at 0000018c compr 6
jffs2_image: note: the image is compressed (zlib); decompress writes one that is not, without damaged nodes; ls, cat, check, extract, diff, damage, cuts and append take --decompress" \
    ls --block 8192 dumps/default.img
gives 0 "decompressed 7 nodes 29 bytes 30168" decompress --block 8192 dumps/default.img plain.img
found=$(jffs2_image check --block 8192 plain.img)
same "status of check" "$? ${found##*$'\n'}" "0 mount ok"
found=$(jffs2_image ls --block 8192 plain.img)
same "a line of ls" "$(grep /etc/log <<< "$found")" "- 0644 0 0 13893 1000000000 5 /etc/log"
gives 0 "$found" ls --decompress --block 8192 dumps/default.img
gives 0 "$(seq 1 3000)" cat --decompress --block 8192 dumps/default.img /etc/log
gives 0 "root:x:0:0:root:/root:/bin/sh" cat --block 8192 plain.img /etc/passwd
gives 0 "$found" ls --decompress --block 65536 --endian big dumps/lzo.img
printf 'create 0644 /etc/version\nwrite /etc/version 0 312e300a\n' > more.txt
gives 0 "accepted 2 nodes 3 bytes 200" append --decompress --block 8192 --blocks 8 dumps/default.img more.txt new.img
gives 0 "1.0" cat --block 8192 new.img /etc/version
gives 0 "root:x:0:0:root:/root:/bin/sh" cat --block 8192 new.img /etc/passwd

# What goes wrong in a listing is told with its line
printf '# two directories of one name\nmkdir 0755 /d\nmkdir 0755 /d\n' > tree.txt
gives 1 "jffs2_image: S1 Refused O5 Exists line 3
jffs2_image: note: the new name is there; remove it by an earlier line, or use replace or put if it is no directory" build --blocks 1 tree.txt flash.img
gives 0 "$root"$'\nd 0755 0 0 0 0 2 /d' ls flash.img
printf 'mkdir 0755 /d\npaint /d\n' > tree.txt
gives 1 $'jffs2_image: P2 Listing line 2\njffs2_image: note: no operation has this name' build --blocks 1 tree.txt none.img

# ---- Help

for command in check ls cat build append decompress extract listing info cuts diff; do
    found=$(jffs2_image help "$command")
    same "usage of $command" "$(grep -c "^Usage: [^ ]* $command" <<< "$found")" 1
    same "help in two ways" "$(jffs2_image "$command" --help)" "$found"
done

# ---- The commands of the documents

"$top/tests/commands.py" "$program" > "$folder/commands"
sed '$d' "$folder/commands"
read -r good _ bad _ < <(tail -n 1 "$folder/commands")
passed=$((passed + ${good:-0}))
failed=$((failed + ${bad:-1}))

echo "$passed passed, $failed failed"
[[ $failed == 0 ]]
