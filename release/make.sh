#!/usr/bin/env bash
# Makes the files of a release, of a clean checkout and of what was proved of it: byte for byte the
# same each time that the same programs make them. release/make.sh [OPTION ..]
#   --to FOLDER      where they come, which must not be there yet (release/out)
#   --program FILE   the proved program, and next to it its object FILE.o
#                    (crates/jffs2_image/out/jffs2_image)
#   --archive FILE   the proved archive (crates/jffs2_c/out/libjffs2_c.a)
#   --no-library     leaves out what is made of the archive
#   --gate FILE      what tests/all.sh printed, with the verdict on each crate that it proved
#   --verdict FILE   what `rt verdict`, or an earlier gate, printed of what this gate kept as proved
#   --dynamic        takes the program as rt linked it, which wants glibc; FILE.o is not needed then
#   --trial          makes them without --gate and --verdict, and says so in their names
# The last line says what was made. Status 1 is a refusal, of which standard error has the reason.
set -euo pipefail
umask 022
export LC_ALL=C TZ=UTC
top=$(cd "$(dirname "$0")/.." && pwd)

refuse() {
    echo "make.sh: $*" >&2
    exit 1
}

# ---- What is asked for

to=release/out program=crates/jffs2_image/out/jffs2_image archive=crates/jffs2_c/out/libjffs2_c.a
gate='' verdict='' library=yes link=static trial=''
while (($#)); do
    case $1 in
        --to | --program | --archive | --gate | --verdict)
            (($# > 1)) || refuse "$1 wants a value"
            printf -v "${1#--}" %s "$(realpath -ms "$2")"
            shift
            ;;
        --no-library) library=no ;;
        --dynamic) link=dynamic ;;
        --trial) trial=-trial ;;
        *) refuse "there is no option $1" ;;
    esac
    shift
done
cd "$top"
for tool in ar cc dpkg-deb git gzip nm objcopy objdump python3 rt strip tar; do
    command -v "$tool" > /dev/null || refuse "there is no $tool here"
done
[[ ! -e $to ]] || refuse "$to is there: remove it, or give another --to"

# ---- What it is made of: a clean checkout, one version, this kit

[[ -z $(git status --porcelain) ]] || refuse "the checkout is not clean: git status lists what differs"
commit=$(git rev-parse HEAD)
SOURCE_DATE_EPOCH=$(git log -1 --format=%ct)
export SOURCE_DATE_EPOCH
day=$(date -d "@$SOURCE_DATE_EPOCH" +%Y%m%d)
version=$(sed -n 's/^const VERSION: &str = "\([0-9.]*\).*/\1/p' crates/jcommand/src/commands.rt)
for said in bindings/rust/Cargo.toml:"version = \"$version\"" \
    bindings/python/pyproject.toml:"version = \"$version\"" \
    bindings/python/wheel_of_jffs2.py:"VERSION = \"jffs2\", \"$version\"" \
    bindings/c/CMakeLists.txt:"project(jffs2 VERSION $version " CHANGELOG.md:"## $version"; do
    grep -qF "${said#*:}" "${said%%:*}" || refuse "${said%%:*} does not name the version $version"
done
kit=$(rt version)
logic=${kit##* logic }
grep -qF "logic \`$logic\`" README.md || refuse "the kit is '$kit', and README.md names another logic"

# ---- What was proved of it

for log in "$gate" "$verdict"; do
    [[ -z $log || -f $log ]] || refuse "$log is not there"
done
[[ -n $trial || -n $gate ]] || refuse "--gate names what tests/all.sh printed (or give --trial)"
if [[ -n $gate ]]; then
    grep -qx '[0-9]* passed, 0 failed' <(tail -n 1 "$gate") || refuse "$gate: the gate did not pass"
    tail -n 2 "$gate" | grep -qx "commit $commit" || refuse "$gate: it is not of the commit $commit"
fi

# judged CRATE: the last verdict on it in the logs, with the lines on axioms above it. A log has a
# line for each function of a crate, and then its verdict.
judged() {
    cat /dev/null ${verdict:+"$verdict"} ${gate:+"$gate"} | awk -v crate="$1" '
        /^(fn|struct|enum|impl|trait) / { of = substr($2, 1, index($2, "::") - 1) }
        /^axioms / || / reached$/ { held = held $0 "\n" }
        /^logic=/ { if (of == crate && !/ tests=/) last = held $0; held = of = "" }
        END { if (last) print last }'
}

# check_verdict CRATE WORD: the logs say that it is proved by this logic, in a line with the word
check_verdict() {
    local found
    found=$(judged "$1" | tail -n 1)
    [[ -n $found || -z $trial ]] || return 0
    [[ -n $found ]] || refuse "no log has a verdict on $1: give that of an earlier gate, or of rt verdict, by --verdict"
    [[ $found == "logic=proved "* && $found == *" $2"* && $found == *" sum=$logic "* ]] \
        || refuse "$1 is not proved by the logic $logic: $found"
    [[ ! $found =~ \ (cache|incremental|pinned)= ]] || refuse "$1 has a check and no verdict: $found"
}
check_verdict jffs2_image axioms=
[[ $library == no ]] || check_verdict jffs2_c functions=
known=$(release/of_commit.py "$program") || exit 1
told=$("$program" --version) || refuse "$program does not run here"
[[ $told == "jffs2_image $version"* ]] || refuse "$program is another version: $told"
[[ $told != *logic* || $told == *"$logic"* ]] || refuse "$program is of another logic: $told"
if [[ $library == yes ]]; then
    known_archive=$(release/of_commit.py "$archive") || exit 1
fi

# ---- Folders of what is packed

work=$(mktemp -d)
trap 'rm -rf "$work"' EXIT
made=$work/made
mkdir "$made"

# put MODE FROM TO: a copy below the folder $stage
put() {
    install -D -m "$1" "$2" "$stage/$3"
}

# zipped FROM TO: the same, compressed
zipped() {
    mkdir -p "$stage/${2%/*}"
    gzip -9n < "$1" > "$stage/$2"
}

# pack NAME: an archive of the folder $stage, which becomes NAME/
pack() {
    tar -c --format=gnu --sort=name --owner=0 --group=0 --numeric-owner --mode=u=rwX,go=rX \
        --mtime="@$SOURCE_DATE_EPOCH" --transform="s,^\.,$1," -C "$stage" . | gzip -9n
}

# ---- The program

kit_folder=$(dirname "$(dirname "$(realpath "$(command -v rt)")")")
its_c=("$kit_folder/c/libos_c.a" "$kit_folder/c/liblibc_c.a")

# The object that the program was linked of, which another link makes the same file of
check_object() {
    [[ -f $program.o ]] || refuse "$program.o is not there: run rt run, or give --dynamic"
    "$kit_folder/bin/rattle-link" --target x86_64-unknown-linux-gnu \
        --toolchain "$kit_folder/toolchain" -o "$work/linked" "$program.o" "${its_c[@]}" 2> "$work/said" \
        || refuse "$program.o does not link: $(cat "$work/said")"
    cmp -s "$work/linked" "$program" || refuse "$program was not linked of $program.o"
}

# Links it statically. A warning is an error: one would be that a part of glibc wants files of glibc.
link_static() {
    check_object
    cc -static-pie -o "$work/program" "$program.o" "${its_c[@]}" -Wl,--gc-sections,--fatal-warnings \
        -Wl,-z,relro,-z,now,-z,noexecstack,--build-id=sha1 || refuse "it cannot be linked statically"
    needs="Linux 3.2 or later on x86-64-v2; no library"
    depends=
    libc=$(cc -print-file-name=libc.a)
    linked="statically, by $(cc --version | head -n 1), with libc.a $(sum_of "$libc")"
}

link_dynamic() {
    cp "$program" "$work/program"
    glibc=$(glibc_of "$program")
    needs="Linux on x86-64-v2, with glibc $glibc or later"
    depends="Depends: libc6 (>= $glibc)"$'\n'
    linked="by the kit"
}

# glibc_of FILE: the version of glibc that it needs
glibc_of() {
    objdump -T "$1" | grep -o 'GLIBC_[0-9.]*' | sort -Vu | tail -n 1 | cut -d _ -f 2
}

sum_of() {
    sha256sum < "$1" | cut -d ' ' -f 1
}

# Names the commit in the program, as --version cannot: in a section that is never loaded
name_commit() {
    objcopy -O binary "$work/program" "$work/loaded"
    echo "jffs2_image $version commit $commit logic $logic" > "$work/commit"
    objcopy --add-section ".commit=$work/commit" "$work/program"
    objcopy -O binary "$work/program" "$work/loaded_now"
    cmp "$work/loaded" "$work/loaded_now" || refuse "what is loaded of the program has changed"
}

# indented: the lines of standard input, two columns further in
indented() {
    sed 's/^/  /'
}

# put_verdict CRATE NAME: what the toolchain says of it
put_verdict() {
    echo "The toolchain's verdict on $2, with the C functions whose contracts it assumes:"
    { judged "$1" | grep . || echo "not given"; } | indented
}

# What PROVED.txt says, of the program $work/program and of the archive
proved() {
    echo "jffs2_image $version"
    [[ -z $trial ]] || echo "A TRIAL AND NO RELEASE: the logs of the gate and of the verdict may be missing."
    echo "commit $commit"
    echo "date $(date -d "@$SOURCE_DATE_EPOCH" '+%Y-%m-%d %H:%M:%S') UTC"
    echo "kit $kit"
    echo "licence none: all rights reserved until the owner chooses"
    echo
    echo "The program: it needs $needs."
    echo "  sha256 $(sum_of "$work/program")"
    echo "  linked $linked"
    echo "  known to be of this commit: $known"
    if [[ -f $program.o ]]; then
        echo "  sha256 of the proved object $(sum_of "$program.o")"
        echo "  functions of C that the proved object calls:"
        nm --undefined-only "$program.o" | awk '{ print $2 }' | sort | xargs | fold -s -w 90 \
            | sed 's/ *$//; s/^/    /'
    fi
    echo "  sha256 as the kit links it $(sum_of "$program")"
    if [[ $library == yes ]]; then
        echo "The archive libjffs2_c.a. The library libjffs2.so of it needs glibc $(glibc_of "$work/libjffs2.so") or later."
        echo "  sha256 $(sum_of "$archive")"
        echo "  known to be of this commit: $known_archive"
    fi
    echo
    echo "The gate, tests/all.sh, ended with:"
    if [[ -n $gate ]]; then grep '^rt: ok; ' "$gate" || :; tail -n 2 "$gate"; else echo "not given"; fi | indented
    put_verdict jffs2_image "the program"
    [[ $library == no ]] || put_verdict jffs2_c "the archive"
    echo
    echo "docs/PROOFS.md of the repository says what is proved, what is only tested, and what is trusted."
}

# What each package of the program has, in folders that differ: share SHARE ZSH FISH DOC
share() {
    local share=$1 zsh=$2 fish=$3 doc=$4
    put 644 completions/jffs2_image.bash "$share/bash-completion/completions/jffs2_image"
    put 644 completions/_jffs2_image "$share/$zsh/_jffs2_image"
    put 644 completions/jffs2_image.fish "$share/$fish/jffs2_image.fish"
    put 644 README.md "$doc/README.md"
    for page in GUIDE FAQ POWER-CUTS; do
        put 644 "docs/$page.md" "$doc/docs/$page.md"
    done
    put 644 "$made/PROVED.txt" "$doc/PROVED.txt"
}

make_tarball() {
    stage=$work/tarball
    put 755 "$work/program" bin/jffs2_image
    share share zsh/site-functions fish/vendor_completions.d share/doc/jffs2_image
    for page in docs/*.[157]; do
        put 644 "$page" "share/man/man${page##*.}/${page##*/}"
    done
    put 644 CHANGELOG.md share/doc/jffs2_image/CHANGELOG.md
    put 644 release/LICENCE.txt share/doc/jffs2_image/LICENCE.txt
    put 644 release/install.sh share/doc/jffs2_image/install.sh
    put 644 release/install.sh install.sh
    pack "jffs2_image-$version$trial" > "$made/jffs2_image-$version$trial-x86_64-linux.tar.gz"
}

make_debian() {
    local package=jffs2-image release="$version${trial/-/\~}+$day.g${commit:0:8}-1" doc size
    local maintainer=${DEBFULLNAME:-$(git log -1 --format=%cn)}" <${DEBEMAIL:-$(git log -1 --format=%ce)}>"
    stage=$work/debian
    doc=usr/share/doc/$package
    put 755 "$work/program" usr/bin/jffs2_image
    share usr/share zsh/vendor-completions fish/vendor_completions.d "$doc"
    for page in docs/*.[157]; do
        zipped "$page" "usr/share/man/man${page##*.}/${page##*/}.gz"
    done
    zipped CHANGELOG.md "$doc/changelog.gz"
    printf '%s (%s) unstable; urgency=low\n\n  * The state of commit %s.\n\n -- %s  %s\n' "$package" \
        "$release" "$commit" "$maintainer" "$(date -R -d "@$SOURCE_DATE_EPOCH")" > "$work/changelog"
    zipped "$work/changelog" "$doc/changelog.Debian.gz"
    sed 's/^$/./; s/^/ /' release/LICENCE.txt > "$work/licence"
    sed -e "/@LICENCE@/r $work/licence" -e /@LICENCE@/d release/debian/copyright > "$work/copyright"
    put 644 "$work/copyright" "$doc/copyright"
    put 644 release/debian/lintian-overrides "usr/share/lintian/overrides/$package"
    [[ $link == static ]] || sed -i /lacks-prerequisites/d "$stage/usr/share/lintian/overrides/$package"
    size=$(find "$stage" -type f -printf '%s\n' | awk '{ n += int(($1 + 1023) / 1024) } END { print n }')
    (cd "$stage" && find usr -type f -print0 | sort -z | xargs -0 md5sum) > "$work/md5sums"
    put 644 "$work/md5sums" DEBIAN/md5sums
    sed -e "s/@VERSION@/$release/; s/@MAINTAINER@/$maintainer/; s/@SIZE@/$size/" \
        -e "s/@DEPENDS@/${depends%$'\n'}${depends:+\\n}/" release/debian/control > "$work/control"
    put 644 "$work/control" DEBIAN/control
    find "$stage" -exec touch -h -d "@$SOURCE_DATE_EPOCH" {} +
    DPKG_DEB_THREADS_MAX=1 dpkg-deb --root-owner-group -Zxz --build "$stage" "$made/${package}_${release}_amd64.deb" > "$work/said"
}

# ---- The library

# The shared library and an archive that has the memory of malloc in it
link_library() {
    cc -std=c11 -O2 -fPIC -c bindings/c/jffs2_heap.c -o "$work/jffs2_heap.o"
    cc -shared -o "$work/libjffs2.so" "$work/jffs2_heap.o" -Wl,--whole-archive "$archive" \
        -Wl,--no-whole-archive -Wl,-soname,libjffs2.so -Wl,-z,defs,-z,relro,-z,now,--build-id=sha1
    strip --strip-unneeded --remove-section=.comment "$work/libjffs2.so"
    cp "$archive" "$work/libjffs2.a"
    chmod 644 "$work/libjffs2.a"
    ar rsD "$work/libjffs2.a" "$work/jffs2_heap.o"
}

make_library() {
    stage=$work/library
    put 644 bindings/c/jffs2.h include/jffs2.h
    put 644 "$work/libjffs2.so" lib/libjffs2.so
    put 644 "$work/libjffs2.a" lib/libjffs2.a
    put 644 "$archive" lib/libjffs2_c.a
    mkdir "$stage/lib/pkgconfig"
    sed "s/@CMAKE_INSTALL_LIBDIR@/lib/; s/@CMAKE_INSTALL_INCLUDEDIR@/include/; s/@PROJECT_VERSION@/$version/" \
        bindings/c/jffs2.pc.in > "$stage/lib/pkgconfig/jffs2.pc"
    for name in jffs2_heap.c examples/look.c examples/print_file.c; do
        put 644 "bindings/c/$name" "share/doc/libjffs2/examples/${name##*/}"
    done
    put 644 docs/BINDINGS.md share/doc/libjffs2/BINDINGS.md
    put 644 "$made/PROVED.txt" share/doc/libjffs2/PROVED.txt
    put 644 release/LICENCE.txt share/doc/libjffs2/LICENCE.txt
    pack "libjffs2-$version$trial" > "$made/libjffs2-$version$trial-x86_64-linux.tar.gz"
}

# The crate has the archive in it, so it is built with nothing else
make_crate() {
    stage=$work/crate
    for file in Cargo.toml build.rs src/lib.rs src/sys.rs examples/look.rs examples/print_file.rs; do
        put 644 "bindings/rust/$file" "$file"
    done
    put 644 "$archive" lib/libjffs2_c.a
    put 644 "$made/PROVED.txt" PROVED.txt
    put 644 release/LICENCE.txt LICENCE.txt
    pack "jffs2-$version" > "$made/jffs2-$version.crate"
}

make_wheel() {
    stage=$work/wheel
    for file in wheel_of_jffs2.py jffs2/__init__.py jffs2/py.typed; do
        put 644 "bindings/python/$file" "$file"
    done
    put 644 "$made/PROVED.txt" PROVED.txt
    put 644 release/LICENCE.txt LICENCE.txt
    JFFS2_LIB=$work/libjffs2.so PYTHONDONTWRITEBYTECODE=1 env -C "$stage" \
        python3 -c 'import sys, wheel_of_jffs2; wheel_of_jffs2.build_wheel(sys.argv[1])' "$made"
}

# ---- All of it

"link_$link"
strip --strip-all --remove-section=.comment "$work/program"
name_commit
[[ $library == no ]] || link_library
proved > "$made/PROVED.txt"
make_tarball
make_debian
if [[ $library == yes ]]; then
    make_library
    make_crate
    make_wheel
fi
(cd "$made" && sha256sum -- * > "$work/SHA256SUMS" && mv "$work/SHA256SUMS" .)
mkdir -p "$(dirname "$to")"
mv "$made" "$to"
chmod 755 "$to"
echo "$to has $(find "$to" -type f | wc -l) files of jffs2_image $version$trial, commit $commit"
