#!/usr/bin/env bash
# Makes the files of a release twice, installs the program into an empty root by the tarball and by
# the Debian package, runs the commands of quick.sh there, and removes it again. The root has no kit
# and no C library, if the program's object is next to it, as `rt run` and the gate leave it.
# Usage: tests/release.sh [--debian] [PROGRAM [ARCHIVE]]. With --debian it is also installed into a
# stable and an oldstable Debian, which debootstrap fetches: as root, with a network, some minutes.
# What cannot be done here is left out, which a line says. The last line is 'N passed, M failed'.
set -u
is_debian=no
[[ ${1-} == --debian ]] && is_debian=yes && shift
archive=$(realpath -m "${2:-$(dirname "$0")/../crates/jffs2_c/out/libjffs2_c.a}")
# shellcheck source=tests/running.sh
. "$(dirname "$0")/running.sh"
PATH=$PATH:/usr/sbin:/sbin
own=(git -c user.name=nobody -c user.email=nobody@localhost.example)

# equal ABOUT FOUND WANTED: counts one test
equal() {
    [[ $2 == "$3" ]]
    local differs=$?
    count $differs
    [[ $differs == 0 ]] || printf 'FAILED: %s\n  found:  %s\n  wanted: %s\n' "$1" "${2:0:400}" "${3:0:400}"
}

# does ABOUT WORD..: a command that ends with status 0
does() {
    local found status
    found=$("${@:2}" 2>&1)
    status=$?
    ((status == 0)) || printf '%s\n' "$found" | tail -n 20
    equal "$1" "$status" 0
}

# refused ABOUT TEXT WORD..: make.sh with these words ends with status 1 and says this
refused() {
    local found status
    found=$(release/make.sh --to "$folder/none" --program "$program" "${@:3}" 2>&1)
    status=$?
    [[ $status == 1 && $found == *"$2"* && ! -e $folder/none ]]
    equal "$1: $status $found" $? 0
}

has() {
    command -v "$1" > /dev/null && return 0
    echo "left out: there is no $1 here"
    return 1
}

if [[ ! -x $program ]]; then
    echo "$program is no program: build it by rt run in crates/jffs2_image"
    exit 1
fi
for tool in ar cc dpkg-deb git objdump strip; do
    has "$tool" || { finish; exit; }
done

# ---- A clean checkout of what is here, inside of the empty root, and logs of a gate that passed

root=$folder/root
source=$root/source
mkdir -p "$source" "$root/tmp" "$root$folder"
# the root by its own name, so that a path means the same inside and outside
ln -sr "$root" "$root$root"
tar -C "$top" -c --exclude=./.git --exclude=out --exclude=must-fail --exclude=__pycache__ . | tar -x -C "$source"
"${own[@]}" -C "$source" init -q
"${own[@]}" -C "$source" add -A
"${own[@]}" -C "$source" commit -q -m "what is tested"
cd "$source" || exit 1
kit=$(rt version)
# as the gate prints it of a crate that it proved
for crate in jffs2_image jffs2_c jtree; do
    printf '== %s\nfn %s::main: proved\nlogic /opt: libraries=1\naxioms libc: %s\n' $crate $crate $crate
    printf 'logic=proved functions=1 axioms=1 sum=%s native=nat\nrt: %s proved\n' "${kit##* }" $crate
done > "$folder/verdict"
printf 'rt: %s is kept: as before\n' jffs2_image jffs2_c > "$folder/kept"
ends=$(printf 'rt: ok; each proof\n8 passed, 0 failed\ncommit %s\n1 passed, 0 failed' "$(git rev-parse HEAD)")
echo "$ends" | cat "$folder/verdict" - > "$folder/gate"
echo "$ends" >> "$folder/kept"
words=(--gate "$folder/gate")
link=static
if [[ ! -f $program.o ]]; then
    echo "left out: linking statically, as $program.o is not there"
    words+=(--dynamic)
    link=dynamic
fi
if [[ -f $archive ]]; then
    words+=(--archive "$archive")
else
    echo "left out: the library, as $archive is not there (rt lib)"
    words+=(--no-library)
fi

# ---- What is refused

refused "no logs" "--gate names" --no-library
sed 's/0 failed/1 failed/' "$folder/gate" > "$folder/bad"
refused "a gate that failed" "did not pass" "${words[@]}" --gate "$folder/bad"
sed 's/commit ..../commit 0000/' "$folder/gate" > "$folder/bad"
refused "a gate of another commit" "it is not of the commit" "${words[@]}" --gate "$folder/bad"
refused "no verdict" "no log has a verdict on jffs2_image" "${words[@]}" --gate "$folder/kept"
sed 's/sum=..../sum=0000/' "$folder/verdict" > "$folder/bad"
refused "a verdict by another logic" "is not proved by the logic" "${words[@]}" --gate "$folder/kept" --verdict "$folder/bad"
touch more
refused "an untracked file" "the checkout is not clean" "${words[@]}"
rm more
echo >> crates/jline/src/lib.rt
"${own[@]}" commit -q -a -m "other sources"
refused "a program of other sources" "the sources of jline in " --trial --no-library
"${own[@]}" reset -q --hard HEAD~1
refused "a program that nobody built" "is not in the folder" --trial --program /bin/true

# ---- Made twice, by another clone at another time and place, the same

does "it is made" release/make.sh --to "$folder/made" --program "$program" "${words[@]}"
"${own[@]}" clone -q "$source" "$folder/clone"
mkdir "$folder/elsewhere"
does "it is made again" env -C "$folder/clone" TZ=America/New_York TMPDIR="$folder/elsewhere" bash -c \
    'umask 077; exec release/make.sh "$@"' make.sh --to "$folder/again" --program "$program" "${words[@]}"
does "both have the same bytes" diff -r "$folder/made" "$folder/again"
rm -rf "$folder/clone" "$folder/again"
cd "$folder/made" || exit 1
does "SHA256SUMS" sha256sum --check --quiet SHA256SUMS
equal "what SHA256SUMS names" "$(cut -c 67- SHA256SUMS | sort | xargs)" \
    "$(find . -type f ! -name SHA256SUMS -printf '%P\n' | sort | xargs)"
commit="commit $(git -C "$source" rev-parse HEAD)"
equal "what PROVED.txt names" "$(grep -c -x -e "$commit" -e "kit $kit" -e "  axioms libc: jffs2_image" \
    -e "  rt: ok; each proof" -e "  1 passed, 0 failed" PROVED.txt)" 5
tarball=$(echo jffs2_image-*.tar.gz)
package=$(echo jffs2-image_*.deb)
equal "owners and times in $tarball" "$(tar -tvzf "$tarball" --numeric-owner --full-time | awk '{ print $2, $4, $5 }' | sort -u)" \
    "0/0 $(TZ=UTC git -C "$source" log -1 --date=format-local:'%Y-%m-%d %H:%M:%S' --format=%cd)"
equal "the commit in the program" "$(tar -xOzf "$tarball" --wildcards '*/bin/jffs2_image' | grep -ao 'commit [0-9a-f]\{40\}')" "$commit"
equal "the licence" "$(tar -xOzf "$tarball" --wildcards '*/LICENCE.txt' | head -n 1)" \
    "No licence has been chosen. All rights reserved until the owner chooses."

# ---- The program in the empty root

# ROOT FOLDER PATH WORD..: runs the program PATH of the root in a folder of it. The root has /proc,
# since a document names /dev/stdin.
cat > "$folder/enter" << 'END'
#!/bin/sh
mount --rbind /proc "$1/proc" || exit
root=$1 place=$2 path=$3
shift 3
exec unshare --root="$root" --wd="$place" "$path" "$@"
END
entered=(unshare --mount)
[[ $(id -u) == 0 ]] || entered+=(--map-root-user)
entered+=(sh "$folder/enter")

# programs ROOT PATH: a program here that runs that of the root, in the same folder
programs() {
    # shellcheck disable=SC2016
    printf '#!/bin/sh\nexec %s %q "$(pwd -P)" %q "$@"\n' "${entered[*]}" "$1" "$2" > "$folder/program"
    chmod +x "$folder/program"
}

# quick ABOUT: the commands of quick.sh, by that program
quick() {
    local good bad
    TMPDIR=$root/tmp "$source/tests/quick.sh" "$folder/program" > "$folder/quick"
    sed '$d' "$folder/quick"
    read -r good _ bad _ < <(tail -n 1 "$folder/quick")
    passed=$((passed + ${good:-0}))
    failed=$((failed + ${bad:-1}))
    equal "$1: --version" "$(cd "$root/tmp" && "$folder/program" --version)" "$("$program" --version)"
}

# held: what the root has, but for the sources, the lists of dpkg and what tests write
held() {
    find "$root" \( -path "$source" -o -path "$root/tmp" -o -path "$root/var" \) -prune \
        -o -type d -printf '%P %m\n' -o -printf '%P %m %s\n' | sort
}

if ! "${entered[@]}" / / "$(command -v true)" 2> "$folder/said"; then
    echo "left out: another root cannot be entered here ($(cat "$folder/said"))"
    finish
    exit
fi
if [[ $link == dynamic ]]; then
    ldd "$program" | grep -o '/[^ ]*' | while IFS= read -r file; do install -D "$(realpath "$file")" "$root$file"; done
fi
mkdir "$folder/unpacked" "$root/dev" "$root/proc" "$root/usr"
ln -s /proc/self/fd/0 "$root/dev/stdin"
touch "$root/usr/kept"
tar -xzf "$tarball" -C "$folder/unpacked" --strip-components=1
before=$(held)
does "the tarball is installed" sh "$folder/unpacked/install.sh" "$root/usr/local"
does "it is installed once more" sh "$folder/unpacked/install.sh" "$root/usr/local"
programs "$root" /usr/local/bin/jffs2_image
quick "the tarball"
does "it is removed" sh "$root/usr/local/share/doc/jffs2_image/install.sh" --remove "$root/usr/local"
equal "what is left of it" "$(held)" "$before"

# ---- The Debian package there

# dpkg's own database, of a system without packages, and dpkg
mkdir -p "$root/var/lib/dpkg/info" "$root/var/lib/dpkg/updates" "$root/var/lib/dpkg/triggers" "$root/var/log"
touch "$root/var/lib/dpkg/status" "$root/var/lib/dpkg/available"
installing=(dpkg --root="$root" --force-not-root --force-depends --log=/dev/null)
[[ $(id -u) == 0 ]] || installing=(unshare --map-root-user "${installing[@]}")
does "the package is installed" "${installing[@]}" --install "$package"
equal "its program is that of the tarball" "$(sha256sum < "$root/usr/bin/jffs2_image")" \
    "$(sha256sum < "$folder/unpacked/bin/jffs2_image")"
does "its sums" env -C "$root" md5sum --check --quiet "var/lib/dpkg/info/jffs2-image.md5sums"
programs "$root" /usr/bin/jffs2_image
quick "the package"
does "the package is removed" "${installing[@]}" --purge jffs2-image
equal "what is left of it" "$(held)" "$before"
if has lintian; then
    equal "lintian" "$(lintian --allow-root "$package" 2>&1)" ""
fi

# ---- The library: C by pkg-config, linked both ways, Rust and Python

data=$source/tests/data/default.img
if [[ -f $archive ]] && has pkg-config; then
    mkdir "$folder/library"
    tar -xzf libjffs2-*.tar.gz -C "$folder/library" --strip-components=1
    export PKG_CONFIG_PATH=$folder/library/lib/pkgconfig
    read -ra flags < <(pkg-config --cflags --libs jffs2)
    example=$folder/library/share/doc/libjffs2/examples/look.c
    does "C, shared" cc -o "$folder/shared" "$example" "${flags[@]}" "-Wl,-rpath,$folder/library/lib"
    does "C, static" cc -static -o "$folder/static" "$example" "${flags[@]}"
    (cd "$folder" && ./shared "$data" 8192) > "$folder/look"
    equal "what C prints" "$(grep -c '^decompressed' "$folder/look")" 1
    equal "what C prints, linked statically" "$(cd "$folder" && ./static "$data" 8192)" "$(cat "$folder/look")"
    if has cargo; then
        mkdir "$folder/crate"
        tar -xzf jffs2-*.crate -C "$folder/crate" --strip-components=1
        does "Rust" env -u JFFS2_LIB_DIR CARGO_TARGET_DIR="$folder/target" cargo build --quiet --offline \
            --examples --manifest-path "$folder/crate/Cargo.toml"
        equal "what Rust prints" "$("$folder/target/debug/examples/look" "$data" 8192 | sed '$d')" \
            "$(sed '$d' "$folder/look")"
    fi
    if has python3 && has pip; then
        does "Python" python3 -m pip install --quiet --no-index --no-deps --no-compile --root-user-action ignore \
            --disable-pip-version-check --target "$folder/python" jffs2-*.whl
        equal "what Python prints" "$(cd "$folder" && env -u JFFS2_LIB PYTHONPATH="$folder/python" python3 \
            "$source/bindings/python/examples/look.py" "$data" 8192)" "$(cat "$folder/look")"
    fi
fi

# ---- Two real systems

if [[ $is_debian == yes ]] && has debootstrap; then
    tested=$root
    for suite in stable oldstable; do
        root=$folder/$suite
        does "$suite" debootstrap --variant=minbase "$suite" "$root" http://deb.debian.org/debian
        mkdir -p "$root$folder"
        ln -sr "$root" "$root$root"
        cp -r "$source" "$root/source"
        source=$root/source
        cp "$package" "$root/tmp"
        does "$suite: dpkg -i" chroot "$root" dpkg -i "/tmp/$package"
        chroot "$root" ldd /usr/bin/jffs2_image > "$folder/said" 2>&1
        equal "$suite: libraries that are missing" "$(grep 'not found' "$folder/said")" ""
        [[ $link == dynamic ]] || equal "$suite: libraries" "$(grep -e '=>' -e '/ld-' "$folder/said")" ""
        programs "$root" /usr/bin/jffs2_image
        quick "$suite"
        does "$suite: dpkg --purge" chroot "$root" dpkg --purge jffs2-image
        equal "$suite: what is left" "$(find "$root" -path "$root/tmp" -prune -o -name '*jffs2?image*' -path "$root/usr/*" -print)" ""
    done
    root=$tested
fi
finish
