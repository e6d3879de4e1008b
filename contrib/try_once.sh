# Sourced by `launch` where a kit leaves no program that is not proved: it is built for each run anew, by `rt try`.

# The toolchain runs a program that is not proved in a folder of its own. So each file that a word names is
# handed to it by name, and a name that leads out of that folder is shortened to one that does not. What it writes
# to files goes with the folder.
hand_over() { # WORD..: fills words and files
    local word value
    for word; do
        case $name:$word in
            ten:--picture | ten:--picture=* | ten:--record | ten:--record=* | orders:--record | orders:--record=* | macro:--list | macro:--list=* | macro:--cross | macro:--cross=*)
                say "${word%%=*} needs the program that is proved and built: a quick run keeps no file that it writes; leave out --quick"
                exit 2 ;;
        esac
    done
    need_kit
    for word; do
        value=$word
        case $word in --*=*) value=${word#*=} ;; esac
        words+=("${word%"$value"}$(hand_over_file "$value")")
        hand_over_named "$value"
    done
}

# The name under which a file is handed over: without what leads out of the folder.
hand_over_file() { # NAME
    local file=$1
    if [ -f "$file" ] && [ "${file#-}" = "$file" ]; then
        while [ "${file#/}" != "$file" ] || [ "${file#./}" != "$file" ] || [ "${file#../}" != "$file" ]; do file=${file#*/}; done
    fi
    printf '%s' "$file"
}

# Hands over a file that there is.
hand_over_named() { # NAME
    if [ -f "$1" ] && [ "${1#-}" = "$1" ]; then files+=(--data "$(hand_over_file "$1")=$(readlink -f "$1")"); fi
}

# Keeps the input of a run, and hands over the files that a session of ddt names in it.
keep_input() {
    local line
    if [ -t 0 ]; then
        : >"$folder/input"
    else
        cat >"$folder/input"
    fi
    [ "$name" = ddt ] || return 0
    while read -r line; do hand_over_named "$line"; done < <(sed -n 's/^ *\.DO  *//p' "$folder/input")
}

# Tries the program, and tells what it told: without what the toolchain says of a run that ended, and with its own name
# in place of the one under which it ran. Output that cannot be written is told as the program tells it.
try_it() { # THE WORDS OF rt try; the input is standard input
    local told=$folder/told status=0
    (cd "$top/crates/$crate" && exec rt try "$@") >"$folder/output" 2>"$told" || status=$?
    cat "$folder/output" 2>/dev/null || { echo "$name: write" >"$told"; status=3; }
    sed -e '/^checked: ended status=[0-9]*$/d' -e '/^run=ended status=[0-9]* runners=[0-9]* proved=no$/d' \
        -e "s/^case=\(.*\) run=ended status=\([0-9]*\) .*/$name: \1: status \2/" -e '/^cases=[0-9]* ended=/d' \
        -e "s/^Usage: program/Usage: $name/" "$told" >&2
    say "nothing was proved in this run; without --quick it is"
    exit "$status"
}

# Whether the program reads standard input, whatever its words are.
reads_input() {
    case $name in
        lockmon | ddt | image) ;;
        lockview) for word; do case $word in -* | [0-9]*) ;; *) return 1 ;; esac; done ;;
        lockcheck | macro) for word; do [ "${word#-}" != "$word" ] || return 1; done ;;
        *) return 1 ;;
    esac
}

# Tries the program on these words, and ends.
try_once() { # WORD..
    folder=$(mktemp -d)
    trap 'rm -rf "$folder"' EXIT
    local words=() files=()
    if [ -t 0 ] && reads_input "$@"; then
        say "--quick reads its input to the end before the program begins, so it can't be typed: hand it over, as in < FILE"
        exit 2
    fi
    hand_over "$@"
    say "this kit leaves no program to keep: built for this run alone; its input is read to the end first"
    keep_input
    try_it ${files[@]+"${files[@]}"} -- ${words[@]+"${words[@]}"} <"$folder/input"
}
