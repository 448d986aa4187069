#!/usr/bin/env bash
# Runs the commands that write an image with --pad and --atomic: what stands under the name of OUT,
# and beside it, after each end.
# Usage: tests/placing.sh [PROGRAM]. The last line is 'N passed, M failed'.
set -u
. "$(dirname "$0")/running.sh"
data=$top/tests/data
flash=(--block 8192)
lines create 'create 0644 /new'
lines wrong 'create 0644 /a' 'create 0644 /a'
lines nothing 'paint /a'
erased 30000 > bytes
erased 300000 > more
lines large 'file 0644 /large more'
lines text 'file 0644 /text bytes'

# length FILE N: it has so many bytes
length() {
    [[ $(stat -Lc %s "$1") == "$2" ]]
    local differs=$?
    count $differs
    [[ $differs == 0 ]] || echo "FAILED: $1 has not $2 bytes after $line"
}

# alone: nothing stands beside OUT that the last run made
alone() {
    [[ -z $(find . -name '*.tmp*' -print -quit) ]]
    local there=$?
    count $there
    [[ $there == 0 ]] || echo "FAILED: a new file is left by $line"
    find . -name '*.tmp*' -delete
}

# modes FILE MODE: it has these permissions
modes() {
    [[ $(stat -c %a "$1") == "$2" ]]
    local differs=$?
    count $differs
    [[ $differs == 0 ]] || echo "FAILED: $1 has the mode $(stat -c %a "$1"), wanted $2, after $line"
}

# holds STATUS OUTPUT ERRORS: the last run ended so, OUT is as it was, and nothing is beside it
holds() {
    want "$1" "$2" "$3"
    same out.img old
    alone
}

# padded FILE PLAIN: after the bytes of PLAIN it has 0xFF alone
padded() {
    local n
    n=$(stat -c %s "$2")
    cmp -s -n "$n" "$1" "$2" && [[ -z $(tail -c +$((n + 1)) "$1" | tr -d '\377') ]]
    local differs=$?
    count $differs
    [[ $differs == 0 ]] || echo "FAILED: $1 is not $2 and erased flash after $line"
}

echo "what was there before" > old

# ---- --pad

for order in big little; do
    run build "${flash[@]}" --endian $order --blocks 16 create plain; want 0 "accepted 1 nodes 2 *" ""
    run build "${flash[@]}" --endian $order --blocks 16 --pad create out.img
    want 0 "accepted 1 nodes 2 *" ""; length out.img 131072; padded out.img plain; alone
    run build "${flash[@]}" --endian $order --blocks 16 --pad --atomic create both.img
    want 0 "accepted 1 nodes 2 *" ""; same both.img out.img; alone
done
"$program" check "${flash[@]}" plain | grep -v '^block\|erased\|^total' > check.plain
"$program" check "${flash[@]}" out.img | grep -v '^block\|erased\|^total' > check.padded
line="check of out.img"
same check.plain check.padded
for command in ls "cat --decompress"; do
    [[ $command == ls ]] && path= || path=/new
    run $command "${flash[@]}" plain $path; cp out plain.out
    run $command "${flash[@]}" out.img $path; want 0 "*" ""; same out plain.out
done
# A flash of one block
run build "${flash[@]}" --blocks 1 create one; want 0 "accepted *" ""
run build "${flash[@]}" --blocks 1 --pad create one.img; length one.img 8192; padded one.img one
# append goes on behind what a padded image has.
run append "${flash[@]}" --blocks 48 plain text appended; want 0 "accepted *" ""
run append "${flash[@]}" --blocks 48 out.img text out.img; want 0 "accepted *" ""; same out.img appended
run append "${flash[@]}" --blocks 64 --pad plain text out.img; want 0 "accepted *" ""
length out.img 524288; padded out.img appended
run append "${flash[@]}" --blocks 48 --pad --weak plain text out.img; want 0 "accepted *" ""
length out.img 393216
# A fault pads nothing.
for options in --pad "--pad --weak"; do
    run build "${flash[@]}" --blocks 16 $options wrong out.img; want 1 "" "jffs2_image: S1 Refused O5 Exists line 2"
    [[ $(stat -c %s out.img) -lt 131072 ]]; count $?
done
# What can't be padded to its end.
run build "${flash[@]}" --blocks 16 --pad create /dev/full; want 1 "*" "jffs2_image: *"
run build "${flash[@]}" --blocks 16 --pad create /dev/null; want 0 "accepted 1 nodes 2 *" ""
line="build --pad to a limit"
( trap '' XFSZ; ulimit -f 32; "$program" build "${flash[@]}" --blocks 16 --pad create limited.img > out 2> err )
got=$?
want 1 "" $'jffs2_image: S4 Sink\njffs2_image: note: the file grows too large'
for command in "decompress plain x.img" "compress plain x.img" "ls plain" "check plain" "info plain" \
    "cuts --blocks 16 create"; do
    run $command --pad; want 2 "" "error: unexpected argument '--pad' found*"
done
unmade x.img

# ---- --atomic, where all goes well

commands=("build --blocks 16 create" "append --blocks 48 plain text" "append --decompress --blocks 48 plain text"
    "build --weak --blocks 16 create" "decompress plain" "decompress --clashes higher plain" "compress plain")
for command in "${commands[@]}"; do
    run $command "${flash[@]}" direct.img; status=$got; cp out direct.out; cp err direct.err
    cp old out.img
    run $command "${flash[@]}" --atomic out.img
    want $status "$(cat direct.out)" "$(cat direct.err)"; same out.img direct.img; alone
    rm -f new.img
    run $command "${flash[@]}" --atomic new.img
    want $status "$(cat direct.out)" "$(cat direct.err)"; same new.img direct.img; alone
done
# OUT may be the image that is read.
cp plain itself
run append "${flash[@]}" --blocks 48 --atomic itself text itself; want 0 "accepted *" ""; same itself appended
# A new file is as one that is written without --atomic.
rm -f new.img direct.img
( umask 027; "$program" build "${flash[@]}" --blocks 16 create direct.img > out 2> err )
( umask 027; "$program" build "${flash[@]}" --blocks 16 --atomic create new.img > out 2> err )
modes direct.img 640; modes new.img 640
# The permissions of what was there are kept.
for mode in 640 400 666 4755 2711; do
    cp old out.img; chmod $mode out.img
    run build "${flash[@]}" --blocks 16 --atomic create out.img; want 0 "accepted *" ""; modes out.img $mode
    rm -f out.img
done
# The longest names
for name in "$(printf 'n%.0s' {1..255})" "$(printf 'n%.0s' {1..250})" "n$(printf 'ä%.0s' {1..127})"; do
    run build "${flash[@]}" --blocks 16 --atomic create "$name"; want 0 "accepted *" ""; same "$name" plain; alone
    run build "${flash[@]}" --blocks 16 --atomic create "./$name"; want 0 "accepted *" ""; same "$name" plain; alone
    rm -f "$name"
done
# Names beside OUT that are taken stay as they are.
for n in "" 1 2; do cp old "out.img.tmp$n"; done
run build "${flash[@]}" --blocks 16 --atomic create out.img; want 0 "accepted *" ""; same out.img plain
for n in "" 1 2; do same "out.img.tmp$n" old; done
rm out.img.tmp*
for n in "" $(seq 99); do : > "out.img.tmp$n"; done
cp old out.img
run build "${flash[@]}" --blocks 16 --atomic create out.img; want 1 "" "$(unopened out.img 'exists')"; same out.img old
rm out.img.tmp*

# ---- after a fault

cp old out.img
run build "${flash[@]}" --blocks 16 --atomic wrong out.img; holds 1 "" "jffs2_image: S1 Refused O5 Exists line 2"
run build "${flash[@]}" --blocks 16 --atomic nothing out.img; holds 1 "" "jffs2_image: P2 Listing line 1*no operation has this name"
run build "${flash[@]}" --blocks 16 --atomic none out.img; holds 1 "" "$(unopened none)"
run build "${flash[@]}" --blocks 1 --atomic text out.img; holds 1 "" "jffs2_image: S*"
run build --weak "${flash[@]}" --blocks 16 --atomic wrong out.img; holds 1 "" "jffs2_image: S1 Refused O5 Exists line 2"
run append "${flash[@]}" --blocks 1 --atomic plain text out.img; holds 1 "" "jffs2_image: S*"
run append "${flash[@]}" --blocks 48 --atomic none text out.img; holds 1 "" "$(unopened none)"
run decompress "${flash[@]}" --atomic none out.img; holds 1 "" "$(unopened none)"
run compress "${flash[@]}" --atomic none out.img; holds 1 "" "$(unopened none)"
run build --block 5 --blocks 16 --atomic create out.img; holds 1 "" "jffs2_image: *"
# Standard output fails when OUT is there.
for options in --atomic --pad "--atomic --pad"; do
    for command in "${commands[@]}"; do
        [[ $options == *pad* && $command == *compress* ]] && continue
        run $command "${flash[@]}" $options direct.img
        cp old out.img
        line="$command $options to a full output"
        "$program" $command "${flash[@]}" $options out.img > /dev/full 2> err
        got=$?
        : > out
        want 1 "" "*jffs2_image: P5 Output*"; same out.img direct.img; alone
    done
done
cp old out.img
# The file fails: by a limit, and on a full disk.
for options in "--atomic" "--atomic --pad"; do
    line="build $options to a limit"
    ( trap '' XFSZ; ulimit -f 32; "$program" build "${flash[@]}" --blocks 128 $options large out.img > out 2> err )
    got=$?
    holds 1 "" $'jffs2_image: S4 Sink*\njffs2_image: note: the file grows too large'
    line="build $options create to a limit"
    ( trap '' XFSZ; ulimit -f 32; "$program" build "${flash[@]}" --blocks 128 $options create out.img > out 2> err )
    got=$?
    if [[ $options == --atomic ]]; then
        want 0 "accepted *" ""; cp old out.img; alone
    else
        holds 1 "" $'jffs2_image: S4 Sink\njffs2_image: note: the file grows too large'
    fi
done
if [[ $(id -u) == 0 ]] && mkdir disk && mount -t tmpfs -o size=256k tmpfs disk 2> err; then
    trap 'umount disk; rm -rf "$folder"' EXIT
    cp old disk/out.img
    run build "${flash[@]}" --blocks 128 --atomic large disk/out.img
    want 1 "" "jffs2_image: S4 Sink*$no_space"
    same disk/out.img old; alone
    run build "${flash[@]}" --blocks 64 --atomic --pad create disk/out.img
    want 1 "" "jffs2_image: S4 Sink$no_space"; same disk/out.img old; alone
    run build "${flash[@]}" --blocks 64 --pad create disk/out.img
    want 1 "" "jffs2_image: S4 Sink$no_space"; cp old disk/out.img
    run build "${flash[@]}" --blocks 16 --atomic --pad create disk/out.img; want 0 "accepted *" ""
    length disk/out.img 131072; alone
fi

# ---- no regular file, or no room for a name

ln -s out.img link; ln -s link second; ln -s none lost
cp old out.img
run build "${flash[@]}" --blocks 16 --atomic wrong second; holds 1 "" "jffs2_image: S1 Refused O5 Exists line 2"
run build "${flash[@]}" --blocks 16 --atomic create second; want 0 "accepted *" ""; same out.img plain; alone
[[ -L link && -L second ]]; count $?
run build "${flash[@]}" --blocks 16 --atomic create lost; want 0 "accepted *" ""; same lost plain; alone
[[ ! -L lost && ! -e none ]]; count $?
mkfifo fifo
for options in "" --pad; do
    cat fifo > through &
    reader=$!
    run build "${flash[@]}" --blocks 16 --atomic $options create fifo; want 0 "accepted *" ""
    wait $reader
    if [[ $options == --pad ]]; then length through 131072; padded through plain; else same through plain; fi
    [[ -p fifo ]]; count $?
    alone
done
run build "${flash[@]}" --blocks 16 --atomic create /dev/null; want 0 "accepted *" ""; [[ -c /dev/null ]]; count $?
run build "${flash[@]}" --blocks 16 --atomic create /dev/full; want 1 "" "jffs2_image: S4 Sink$no_space"
mkdir folder
run build "${flash[@]}" --blocks 16 --atomic create folder; want 1 "" "$(unopened folder 'is a directory')"; alone
run build "${flash[@]}" --blocks 16 --atomic create none/out.img; want 1 "" "$(unopened none/out.img)"
mkdir closed; cp old closed/out.img; chmod 555 closed
if [[ $(id -u) != 0 ]]; then
    run build "${flash[@]}" --blocks 16 --atomic create closed/out.img
    want 1 "" "$(unopened closed/out.img 'no permission')"; same closed/out.img old
elif command -v setpriv > /dev/null; then
    chmod 755 "$folder"; chown -R nobody closed
    cp "$program" program; chmod 755 program
    line="build --atomic in a closed folder"
    if setpriv --reuid nobody --clear-groups ./program --version > out 2> err; then
        setpriv --reuid nobody --clear-groups ./program build "${flash[@]}" --blocks 16 --atomic \
            create closed/out.img > out 2> err
        got=$?
        want 1 "" "$(unopened closed/out.img 'no permission')"; same closed/out.img old; alone
    fi
fi
chmod 755 closed

# ---- what the host is asked for, and when

# A file of another user stays his; if it cannot, nobody gets more than it granted.
if [[ $(id -u) == 0 ]] && command -v setpriv > /dev/null; then
    cp old out.img; chown 1000:1001 out.img; chmod 6755 out.img
    run build "${flash[@]}" --blocks 16 --atomic create out.img; want 0 "accepted *" ""; modes out.img 6755
    [[ $(stat -c %u:%g out.img) == 1000:1001 ]]; count $?
    rm out.img
    cp "$program" program; chmod 755 program "$folder"
    # the old mode and group, the groups of who writes, and the new mode and group
    while read -r mode group groups new owned; do
        rm -rf shared; mkdir shared; chmod 777 shared
        cp old shared/out.img; chown 1000:"$group" shared/out.img; chmod "$mode" shared/out.img
        line="build --atomic of the mode $mode, by another user of the groups $groups"
        setpriv --reuid 1002 --regid 1002 --groups "$groups" ./program build "${flash[@]}" --blocks 16 \
            --atomic create shared/out.img > out 2> err
        got=$?
        want 0 "accepted *" ""; modes shared/out.img "$new"
        [[ $(stat -c %u:%g shared/out.img) == "1002:$owned" ]]; count $?
    done <<'MODES'
4755 1001 1002 755 1002
6775 1001 1002 755 1002
640 1001 1002 600 1002
604 1001 1002 600 1002
664 1001 1001,1002 664 1001
6775 1001 1001,1002 775 1001
476 1001 1001,1002 444 1001
MODES
fi
if command -v strace > /dev/null && strace -o /dev/null true 2> err; then
    # The file is on the disk before it has its name, and that is before the line is printed.
    for options in --atomic "--atomic --pad"; do
        cp old out.img
        line="build $options under strace"
        strace -o calls -e trace=fsync,rename,write "$program" build "${flash[@]}" --blocks 16 $options create \
            out.img > out 2> err
        got=$?
        want 0 "accepted *" ""
        [[ $(sed -n 's/^write(1,.*/line/p; s/^\(fsync\|rename\)(.*/\1/p' calls | tr '\n' ' ') == "fsync rename fsync line " ]]
        differs=$?
        count $differs
        [[ $differs == 0 ]] || { echo "FAILED: the calls of $line:"; cat calls; }
    done
    # A folder that cannot be synced
    line="build --atomic in a folder that cannot be synced"
    strace -o calls -e inject=fsync:error=EINVAL:when=2 "$program" build "${flash[@]}" --blocks 16 --atomic create \
        out.img > out 2> err
    got=$?
    want 0 "accepted *" ""; same out.img plain
    # OUT does not get its name, or not whole to the disk.
    for fault in "rename EBUSY in use" "fsync EIO" "rename EXDEV"; do
        read -r call error note <<< "$fault"
        cp old out.img
        line="build --atomic where $call fails"
        strace -o calls -e inject=$call:error=$error:when=1 "$program" build "${flash[@]}" --blocks 16 --atomic create \
            out.img > out 2> err
        got=$?
        holds 1 "" "$(if [[ $note ]]; then unopened out.img "$note"; else echo "jffs2_image: P1 File out.img"; fi)"
    done
    # Until it is whole, it is read by its owner alone; and whatever is put under its name is left as it is.
    chmod 600 old; cp old victim; chmod 644 old
    for swap in none "ln -s victim" "ln victim" "cp victim"; do
        rm -f stolen out.img; cp old out.img; chmod 666 out.img
        line="build --atomic where the new file is moved away: $swap"
        strace -o calls -e inject=chmod,fchmod:delay_enter=1500000 "$program" build "${flash[@]}" --blocks 16 \
            --atomic create out.img > out 2> err &
        running=$!
        for _ in $(seq 100); do [[ -e out.img.tmp ]] && break; sleep 0.05; done
        sleep 0.3
        modes out.img.tmp 600
        if [[ $swap == none ]]; then
            wait $running; got=$?
            want 0 "accepted *" ""; same out.img plain; modes out.img 666; alone
        else
            mv out.img.tmp stolen; $swap out.img.tmp
            wait $running; got=$?
            want 1 "" "$(unopened out.img 'in use')"; same out.img old
            same victim old; modes victim 600; rm -f out.img.tmp*
        fi
    done
fi

# ---- a kill at ten places

run build "${flash[@]}" --blocks 128 large whole.img; want 0 "accepted *" ""
for n in 1 2 3 4 5 6 7 8 9 15; do
    cp old out.img
    line="a kill after 0.00$n s"
    { timeout -s KILL "0.00$n" "$program" build "${flash[@]}" --blocks 128 --atomic large out.img \
        > out 2> err; } 2> killed
    cmp -s out.img old || cmp -s out.img whole.img
    differs=$?
    count $differs
    [[ $differs == 0 ]] || echo "FAILED: OUT is neither the old nor the new file after $line"
    rm -f out.img.tmp*
done

finish
