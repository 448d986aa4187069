#!/bin/sh
# Installs jffs2_image below PREFIX, or removes it again:
#   sh install.sh [PREFIX]              /usr/local, if none is given; ~/.local needs no root
#   sh install.sh --remove [PREFIX]     also by PREFIX/share/doc/jffs2_image/install.sh
# PREFIX/share/doc/jffs2_image/INSTALLED lists the files, and the folders that were not there
# before. What it lists is removed, a folder only if it is empty then.
set -eu
umask 022
list=share/doc/jffs2_image/INSTALLED

take_away() {
    paths=$(cat "$prefix/$list")
    for path in $paths; do
        case $path in
            */) rmdir "$prefix/$path" 2> /dev/null || : ;;
            *) rm -f "$prefix/$path" ;;
        esac
    done
}

put_there() {
    folders=
    [ -d "$prefix" ] || {
        mkdir "$prefix"
        folders=/
    }
    for folder in $(find bin share -type d | LC_ALL=C sort); do
        [ -d "$prefix/$folder" ] && continue
        mkdir "$prefix/$folder"
        folders="$folder/ $folders"
    done
    files=$(find bin share -type f | LC_ALL=C sort)
    # shellcheck disable=SC2086
    printf '%s\n' $files "$list" $folders > "$prefix/$list"
    for file in $files; do
        rm -f "$prefix/$file"
        cp "$file" "$prefix/$file"
        chmod 644 "$prefix/$file"
    done
    chmod 755 "$prefix/bin/jffs2_image"
}

action=put_there
case ${1-} in
    --remove)
        action=take_away
        shift
        ;;
    -*)
        echo "usage: sh install.sh [--remove] [PREFIX]" >&2
        exit 2
        ;;
esac
prefix=${1:-/usr/local}
case $prefix in
    /*) ;;
    *) prefix=$PWD/$prefix ;;
esac
if [ "$action" = take_away ] && [ ! -f "$prefix/$list" ]; then
    echo "nothing to remove: $prefix/$list is not there" >&2
    exit 1
fi
cd "$(dirname "$0")"
if [ "$action" = put_there ]; then
    [ -f bin/jffs2_image ] || {
        echo "there is no bin/jffs2_image here: unpack the archive" >&2
        exit 1
    }
    # what an earlier version put there
    [ ! -f "$prefix/$list" ] || take_away
fi
"$action"
