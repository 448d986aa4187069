#!/usr/bin/env bash
# The calls for C, Rust and Python: builds the archive (rt lib) and the shared library, runs the
# examples and tests of bindings/, and compares with what the program prints.
# Usage: tests/bindings.sh [--built DIR] [PROGRAM]
#   --built DIR  builds the archive in the clone DIR, over the libraries that `rt ci` made there, and
#                proves no library: this is for the gate
# A part that wants a tool that is not there is left out, which a line says. The tools are cc, cmake
# and pkg-config, cargo, python3 with pip. The last line is 'N passed, M failed'.
set -u
top=$(cd "$(dirname "$0")/.." && pwd)
images="default rtime lzma"
built=''
if [[ ${1-} == --built ]]; then
    built=$(realpath "$2")
    shift 2
fi
program=$(realpath "${1:-$top/crates/jffs2_image/out/jffs2_image}")
data=$top/tests/data
archive=${built:-$top}/crates/jffs2_c/out/libjffs2_c.a
header=$top/bindings/c
folder=$(mktemp -d)
trap 'rm -rf "$folder"' EXIT
passed=0
failed=0

# same ABOUT FOUND WANTED: counts one test
same() {
    if [[ $2 == "$3" ]]; then
        passed=$((passed + 1))
    else
        failed=$((failed + 1))
        printf 'FAILED: %s\n  found:  %s\n  wanted: %s\n' "$1" "${2:0:400}" "${3:0:400}"
    fi
}

# does ABOUT WORD..: a command that ends with status 0
does() {
    local found status
    found=$("${@:2}" 2>&1)
    status=$?
    ((status == 0)) || printf '%s\n' "$found" | tail -n 20
    same "$1" "$status" 0
}

has() {
    command -v "$1" > /dev/null && return 0
    echo "left out: there is no $1 here"
    return 1
}

if [[ ! -x $program ]]; then
    echo "$program is no program: build it by rt run in crates/jffs2_image"
    exit 1
fi
# builds the archive; in a clone of the gate only if what it is made of is proved there
build() {
    cd "${built:-$top}" || return 1
    if [[ $built ]]; then
        python3 "$top/tests/adopt.py" .
        [[ -f crates/jcalls/out/rlib/stamp ]] || { echo "jcalls is not proved in $built" && return 1; }
    fi
    cd crates/jffs2_c && rt lib
}
if ! (build) > "$folder/lib" 2>&1 || [[ ! -f $archive ]]; then
    tail -n 5 "$folder/lib"
    echo "0 passed, 1 failed"
    exit 1
fi
cd "$folder" || exit 1

# ---- The archive: what it gives and what it asks for

same "what the archive asks for" "$(nm -u "$archive" | awk '$1 == "U" { print $2 }' | sort -u | xargs)" \
    "memcpy memmove memset rattle_alloc rattle_dealloc rattle_realloc"
same "what it gives" "$(nm "$archive" | awk '$2 == "T" { print $3 }' | grep '^jffs2_' | sort | xargs)" \
    "$(grep -o 'jffs2_[a-z_]*(' "$header/jffs2.h" | tr -d '(' | sort -u | xargs)"
# bytes that can change, from one call to the next: none (pointers to constants are in .data.rel.ro, which the loader fills
# once and then makes read-only)
same "what it keeps" "$(size -A "$archive" | awk '$1 ~ /^\.(data|bss|tdata|tbss|init_array)(\.|$)/ && $1 !~ /^\.data\.rel\.ro/ && $2 { print $1 }')" ""

# ---- C

if has cc; then
    flags="-std=c11 -O1 -Wall -Werror -I$header"
    does "the shared library" cc -shared -fPIC -o libjffs2.so "$header/jffs2_heap.c" \
        -Wl,--whole-archive "$archive" -Wl,--no-whole-archive -Wl,-z,defs
    for name in print_file look; do
        does "C: $name" cc $flags -o "c_$name" "$header/examples/$name.c" "$header/jffs2_heap.c" "$archive"
    done
    does "C: random" cc $flags -o random "$header/tests/random.c" "$header/jffs2_heap.c" "$archive"
    does "C: failing" cc $flags -o failing "$header/tests/failing.c" "$archive"
    does "C: threads" cc $flags -pthread -o threads "$header/tests/threads.c" "$header/jffs2_heap.c" "$archive"
    for image in $images; do
        "$program" decompress --block 8192 "$data/$image.img" "$image.plain" > "$image.told"
        "$program" check --scan --block 8192 "$data/$image.img" | tail -n 1 > "$image.total"
        "$program" cat --decompress --block 8192 "$data/$image.img" /etc/passwd > "$image.passwd"
        ./c_look "$data/$image.img" 8192 > "$image.look"
        same "C: the counts of $image" "total $(sed -n '1s/blocks/&/p' "$image.look")" "$(cat "$image.total")"
        same "C: $image decompressed" "$(grep '^decompressed' "$image.look")" \
            "decompressed $(stat -c %s "$image.plain") again True"
        ./c_print_file "$data/$image.img" 8192 /etc/passwd > found
        does "C: a file of $image" cmp found "$image.passwd"
        same "C: no file of $image" "$(./c_print_file "$data/$image.img" 8192 /nothing 2>&1)" \
            "status 11 at 00000000 (0)"
        same "C: each allocation of $image" "$(./failing "$data/$image.img" 8192)" \
            "each failure is status 7, nothing leaks, nothing is written"
    done
    does "C: 20,000 cuts and flips" ./random "$data/default.img" 8192 20000 "$RANDOM"
    same "C: threads" "$(./threads "$data/default.img" 8192)" "all threads found the same"
fi

if has cc && has cmake && has pkg-config; then
    does "CMake: it builds" cmake -S "$header" -B cmake -DJFFS2_ARCHIVE="$archive"
    does "CMake: the library" cmake --build cmake
    does "CMake: it installs" cmake --install cmake --prefix "$folder/prefix"
    export PKG_CONFIG_PATH=$folder/prefix/lib/pkgconfig
    read -ra words < <(pkg-config --cflags --libs jffs2)
    does "pkg-config: look" cc -o shared "$header/examples/look.c" "${words[@]}" "-Wl,-rpath,$folder/prefix/lib"
    same "pkg-config: what it prints" "$(./shared "$data/default.img" 8192)" "$(cat default.look)"
fi

# ---- Rust

if has cargo; then
    cp -r "$top/bindings/rust" rust
    export JFFS2_LIB_DIR=${archive%/*} JFFS2_TEST_DATA=$data CARGO_TARGET_DIR=$folder/target
    does "Rust: tests" cargo test --quiet --offline --manifest-path rust/Cargo.toml
    does "Rust: examples" cargo build --quiet --offline --examples --manifest-path rust/Cargo.toml
    for image in $images; do
        target/debug/examples/look "$data/$image.img" 8192 | sed '$d' > found
        does "Rust: $image as C has it" diff found <(sed '$d' "$image.look")
        target/debug/examples/print_file "$data/$image.img" 8192 /etc/passwd > found
        does "Rust: a file of $image" cmp found "$image.passwd"
    done
fi

# ---- Python

if has python3 && has cc; then
    export JFFS2_LIB=$folder/libjffs2.so JFFS2_TEST_DATA=$data PYTHONDONTWRITEBYTECODE=1
    cp -r "$top/bindings/python" python
    does "Python: a wheel" env -C python python3 -c 'import wheel_of_jffs2 as it; it.build_wheel("..")'
    if python3 -m pip --version > pip 2>&1; then
        does "Python: it installs" python3 -m pip install --quiet --no-index --no-deps --no-compile \
            --disable-pip-version-check --root-user-action ignore --target installed jffs2-*.whl
        unset JFFS2_LIB
        export PYTHONPATH=$folder/installed
    else
        echo "left out: there is no pip here, so the module is not installed"
        export PYTHONPATH=$folder/python
    fi
    does "Python: tests" python3 -m unittest discover -s python/tests
    for image in $images; do
        python3 python/examples/look.py "$data/$image.img" 8192 > found
        does "Python: $image as C has it" diff found "$image.look"
        python3 python/examples/print_file.py "$data/$image.img" 8192 /etc/passwd > found
        does "Python: a file of $image" cmp found "$image.passwd"
        python3 python/tests/as_program.py "$data/$image.img" 8192 . > found
        "$program" ls --decompress --block 8192 "$data/$image.img" > wanted
        does "Python: the tree of $image" diff found wanted
        does "Python: the text of the tree of $image" cmp tree.txt wanted
        "$program" check --shape --block 8192 "$data/$image.img" > wanted
        does "Python: the report of $image" cmp check.txt wanted
        does "Python: $image decompressed" cmp plain.img "$image.plain"
        "$program" compress --block 8192 "$image.plain" small.wanted > /dev/null
        does "Python: $image compressed" cmp small.img small.wanted
    done
    # what a listing makes: of no image, and behind one
    printf '%s\n' 'time 7' 'owner 3 4' 'mkdir 0750 /made' 'file 0640 /made/text words' 'part /made/text 4000 words' \
        'symlink /made/name text' 'rename /made/text /made/other' 'remove /made/name' > listing
    python3 -c 'print("some words\n" * 500)' > words
    for image in $images; do
        does "Python: what a listing makes of $image" \
            python3 python/tests/write_as_program.py "$image.plain" 8192 64 listing . words
        flash="--block 8192 --blocks 64"
        "$program" build $flash listing built.wanted > /dev/null
        "$program" append $flash "$image.plain" listing added.wanted > /dev/null
        "$program" cuts $flash listing > built.told
        "$program" cuts $flash --on "$image.plain" listing > added.told
        for name in built added; do
            does "Python: $name of $image" cmp "$name.img" "$name.wanted"
            does "Python: the cuts of what is $name of $image" diff "$name.txt" "$name.told"
        done
    done
    # nodes and findings of ten images: whole, decompressed, in big-endian order, cut and damaged
    cp "$data/lzo.img" lzo.plain
    cp "$data/lzma_big.img" big.plain
    for image in $images; do
        head -c 5001 "$data/$image.img" > "$image.cut.plain"
    done
    python3 -c 'import sys; it = bytearray(sys.stdin.buffer.read()); it[::97] = bytes(len(it[::97])); sys.stdout.buffer.write(it)' \
        < "$data/default.img" > dirty.plain
    cat "$data/default.img" big.plain > both.plain
    for image in *.plain; do
        order=()
        [[ $(python3 -c 'import jffs2, sys; print(jffs2.info(open(sys.argv[1], "rb").read()).order)' "$image") == big ]] && order=(--endian big)
        python3 python/tests/rows_as_program.py "$image" 8192 > found
        "$program" check --scan --block 8192 "${order[@]}" "$image" | grep -v -e '^block ' -e '^total ' -e ' erased ' > wanted
        does "Python: the nodes and findings of $image" diff found wanted
    done
    does "Python: the header, the exports and the module agree" python3 "$header/tests/agree.py" "$top"
fi

echo "$passed passed, $failed failed"
((failed == 0))
