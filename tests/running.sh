# shellcheck shell=bash
# What the suites program.sh, decompress.sh, placing.sh and release.sh share: which program it is, a new folder
# that they run in and that goes away at the end, runs of the program, and how many tests passed. A
# suite sources this first.
top=$(cd "$(dirname "${BASH_SOURCE[0]}")/.." && pwd)
program=$(realpath "${1:-$top/crates/jffs2_image/out/jffs2_image}")
folder=$(mktemp -d)
trap 'rm -rf "$folder"' EXIT
cd "$folder" || exit 1
passed=0
failed=0

# count WHETHER: counts the last run as passed (0) or failed, and prints where it was called from.
count() {
    if [[ $1 == 0 ]]; then
        passed=$((passed + 1))
    else
        failed=$((failed + 1))
        echo "FAILED: $(caller)"
    fi
}

# What is said of a fault after its line: the first words of the fault, and the sentence.
declare -A sentences
while IFS=$'\t' read -r fault sentence; do
    sentences[$fault]=$sentence
done < "$top/tests/sentences.txt"

# with_sentence ERRORS: the same, and the sentence of the fault in its last line, where it has one
with_sentence() {
    local fault last=${1##*$'\n'}
    last=${last#jffs2_image: }
    for fault in "${!sentences[@]}"; do
        if [[ "$last " == "$fault "* ]]; then
            printf '%s\n%s' "$1" "jffs2_image: note: ${sentences[$fault]}"
            return
        fi
    done
    printf %s "$1"
}

# want STATUS OUTPUT ERRORS: what the last run gave; a text is a pattern of bash, and a fault at the
# end of ERRORS is one with its sentence
want() {
    local status=$1 output=$2 errors
    errors=$(with_sentence "$3")
    # shellcheck disable=SC2053
    if [[ $got != "$status" || $(cat out) != $output || $(cat err) != $errors ]]; then
        echo "FAILED: $line"
        echo "  status $got, wanted $status"
        echo "  output: $(head -c 300 out)"
        echo "  errors: $(head -c 300 err)"
        count 1
    else
        count 0
    fi
}

# finish: the last line of a suite, and its status
finish() {
    echo "$passed passed, $failed failed"
    [[ $failed == 0 ]]
}

run() {
    line="jffs2_image $*"
    "$program" "$@" > out 2> err < /dev/null
    got=$?
}

# bytes HEX..: these bytes
bytes() {
    for byte in "$@"; do printf %b "\\x$byte"; done
}

# erased N: N bytes of erased flash
erased() {
    head -c "$1" /dev/zero | tr '\0' '\377'
}

# A clean marker of the little order
marker() {
    bytes 85 19 03 20 0c 00 00 00 b1 b0 1e e4
}

# The notes after the line of a fault, of every command
# shellcheck disable=SC2034
block_note=$'\n'"jffs2_image: note: --block takes a multiple of 4 from 4096 to 4194304"
# clash_note LOWER HIGHER
clash_note() {
    printf '\njffs2_image: note: the nodes at %s and %s differ; ' "$1" "$2"
    printf 'decompress --clashes higher keeps that of the highest address'
}

# of a clash of which one node alone is told
# shellcheck disable=SC2034
unpaired_note=$'\n'"jffs2_image: note: two nodes differ; decompress --clashes higher keeps that of the higher address"
# shellcheck disable=SC2034
no_space=$'\n'"jffs2_image: note: no space"
# shellcheck disable=SC2034
small_block=$'\n'"jffs2_image: note: a flash that is written has blocks of at least 8192 bytes"
# shellcheck disable=SC2034
no_block=$'\n'"jffs2_image: note: a flash has at least one block"
# shellcheck disable=SC2034
large_flash=$'\n'"jffs2_image: note: a flash has at most 268435456 bytes, blocks times their size"
# shellcheck disable=SC2034
long_image=$'\n'"jffs2_image: note: the image is longer than the flash, blocks times their size"
# shellcheck disable=SC2034
large_page=$'\n'"jffs2_image: note: a page and 80 bytes are more than a block"

# fits N: how many blocks an operation needs that is refused for want of room
fits() {
    printf '\njffs2_image: note: the operation fits into a flash of %s blocks' "$1"
}

# unopened NAME WHY: what standard error says of a file that can't be opened or made
unopened() {
    printf 'jffs2_image: P1 File %s\njffs2_image: note: %s: %s' "$1" "$1" "${2:-no such file}"
}

# unread NAME WHY: what standard error says of a file that was opened, and failed
unread() {
    printf 'jffs2_image: L1 Device\njffs2_image: note: %s: %s' "$1" "${2:-is a directory}"
}

# noted N: what standard error says
noted() {
    local word=findings
    [[ $1 == 1 ]] && word=finding
    echo "jffs2_image: note: $1 $word, see check --scan; a wrong --block or --endian shows as findings too, see info"
}

# missing N: what cat says of the bytes of its file that no node has, in an image with findings
missing() {
    echo "jffs2_image: note: bytes that no node has, zeros here: $1; see damage"
}

# unseen N [OTHERS]: the same where no node is found, and the other byte order has OTHERS nodes, or none
unseen() {
    local word=nodes
    [[ ${2-} == 1 ]] && word=node
    noted "$1"
    if [[ ${2-} ]]; then
        echo "jffs2_image: note: the other byte order has $2 $word, see --endian and info"
    else
        echo "jffs2_image: note: no node is found in either byte order, see info"
    fi
}

# hinted ORDER SIZE: the note on the options that an image shows
hinted() {
    echo "jffs2_image: note: this looks like --endian $1 --block $2 (or --auto)"
}

# whole FILE: the bytes of the last run's output
whole() {
    cmp -s out "$1"
    local differs=$?
    count $differs
    [[ $differs == 0 ]] || echo "FAILED: the bytes of $line"
}

# lines FILE LINE..: makes a text of these lines
lines() {
    printf '%s\n' "${@:2}" > "$1"
}

# same FILE OTHER: after the last run they have the same bytes
same() {
    cmp -s "$1" "$2"
    local differs=$?
    count $differs
    [[ $differs == 0 ]] || echo "FAILED: $1 is not $2 after $line"
}

# unmade FILE: the last run did not make it
unmade() {
    [[ ! -e $1 ]]
    local there=$?
    count $there
    [[ $there == 0 ]] || echo "FAILED: $1 was made by $line"
    rm -f "$1"
}
