# Completion of jffs2_image for bash. Source this file, or copy it to
# ~/.local/share/bash-completion/completions/jffs2_image.

# The options of a command, or of the program if there is no command.
_jffs2_image_options() {
    local plain='-e --block --endian -l --little-endian -b --big-endian' region='--oob --offset --length' auto='-a --auto --oob --offset --length' write='--blocks --page' place='-p --pad --atomic' out='-o --output' help='-h --help'
    case $1 in
        check) echo "$plain $auto --scan --shape --decompress --json $help" ;;
        ls) echo "$plain $auto --decompress --json $help" ;;
        cat) echo "$plain $auto --decompress --strict --ino --upto $help" ;;
        build) echo "$plain $write --weak --compress $place $out $help" ;;
        append) echo "$plain $auto $write --weak $place --decompress --force $out $help" ;;
        update) echo "$plain $auto $write --plain --tail $place $out $help" ;;
        decompress) echo "$plain $auto --clashes --atomic --force $out $help" ;;
        compress) echo "$plain $auto --atomic --force $out $help" ;;
        compact) echo "$plain $auto --blocks --clashes $place --force $out $help" ;;
        extract) echo "$plain $auto --decompress --deleted --owners --quiet $help" ;;
        listing) echo "--owner --time --quiet $help" ;;
        info) echo "$region --json $help" ;;
        cuts) echo "$plain $auto $write --on --compress --decompress --update --plain --tail --json $help" ;;
        diff) echo "$plain $auto --decompress --times --json $help" ;;
        damage) echo "$plain $auto --decompress --json $help" ;;
        map) echo "$plain $auto --svg --json $help" ;;
        history) echo "$plain $auto --since --until --json $help" ;;
        pack) echo "$plain $write --weak --compress $place $out --owner --time --quiet $help" ;;
        verify) echo "$plain $auto --times --owner --time --quiet --json $help" ;;
        '') echo "$help -V --version" ;;
    esac
}

# How many values an option takes.
_jffs2_image_count() {
    case $1 in
        --owner) echo 2 ;;
        -e | --block | --eraseblock | --endian | --blocks | --page | --time | --on | --clashes | --oob | --offset | --length | --ino | --upto | --since | --until | -o | --output) echo 1 ;;
        *) echo 0 ;;
    esac
}

# The values that are offered for an option.
_jffs2_image_values() {
    case $1 in
        -e | --block | --eraseblock) echo '4K 8K 16K 32K 64K 128K 256K' ;;
        --endian) echo 'little big' ;;
        --page) echo '4096 8192 16384' ;;
        --clashes) echo 'higher' ;;
        --oob) echo '512+16 2048+64 4096+128 4096+224' ;;
    esac
}

# How `compgen` finds a command's word at this place, counted from 0.
_jffs2_image_kind() {
    case $1:$2 in
        check:0 | ls:0 | cat:0 | build:[01] | append:[012] | update:[012] | decompress:[01] | compress:[01] | \
            compact:[01] | extract:0 | info:0 | cuts:0 | diff:[01] | damage:0 | map:0 | history:0 | pack:1 | \
            verify:0)
            echo -f
            ;;
        extract:1 | listing:0 | pack:0 | verify:1) echo -d ;;
    esac
}

_jffs2_image() {
    local commands='check ls cat build append update decompress compress compact extract listing info cuts diff damage map history pack verify help'
    local current=${COMP_WORDS[COMP_CWORD]} command='' option='' place=0 values=0 word kind
    # bash cuts --option=value into three words
    for word in "${COMP_WORDS[@]:1:COMP_CWORD-1}"; do
        if [[ $word == '=' ]]; then
            continue
        elif ((values > 0)); then
            values=$((values - 1))
        elif [[ $word == -* ]]; then
            option=$word
            values=$(_jffs2_image_count "$word")
        elif [[ -z $command ]]; then
            command=$word
        else
            place=$((place + 1))
        fi
    done
    [[ $current != '=' ]] || current=''
    COMPREPLY=()
    if ((values > 0)); then
        word=$(_jffs2_image_values "$option")
    elif [[ $current == -* ]]; then
        word=$(_jffs2_image_options "$command")
    elif [[ -z $command || $command:$place == help:0 ]]; then
        word=$commands
    else
        kind=$(_jffs2_image_kind "$command" "$place")
        [[ -n $kind ]] || return 0
        compopt -o filenames 2> /dev/null
        mapfile -t COMPREPLY < <(compgen "$kind" -- "$current")
        return 0
    fi
    mapfile -t COMPREPLY < <(compgen -W "$word" -- "$current")
}

complete -F _jffs2_image jffs2_image
