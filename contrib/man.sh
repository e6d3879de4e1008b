#!/usr/bin/env bash
# contrib/man.sh FOLDER: writes a manual page of each program into FOLDER, made from the texts of contrib/help,
# which are what the programs say to --help.
set -eu
here=$(dirname "$(readlink -f "$0")")
folder=$1

# The text as a page shows it: nothing in it is a command of the formatter.
escaped() { sed -e 's/\\/\\e/g' -e 's/-/\\-/g' -e "s/^\([.']\)/\\\\\&\1/" "$@"; }

page() { # NAME
    local name=$1 text=$here/help/$1.txt more
    printf '.TH %s 1 "" "Hirvodas %s" "Hirvodas"\n' "${name^^}" "$(cat "$here/help/version")"
    printf '.SH NAME\n%s \\- %s\n' "$name" "$(head -n 1 "$text" | escaped | sed 's/\.$//')"
    printf '.SH SYNOPSIS\n.nf\n'
    sed -n 's/^Usage: //p' "$text" "$here/help/$name"-*.txt 2>/dev/null | escaped
    printf '.fi\n.SH DESCRIPTION\n.nf\n'
    escaped "$text"
    printf '.fi\n'
    for more in "$here/help/$name"-*.txt; do
        [ -f "$more" ] || continue
        printf '.SH %s\n.nf\n' "$(basename "$more" .txt | tr 'a-z-' 'A-Z ')"
        escaped "$more"
        printf '.fi\n'
    done
    printf '.SH SEE ALSO\ndocs/MANUAL.md of the repository has every command, with examples.\n'
}

for text in "$here"/help/*.txt; do
    name=$(basename "$text" .txt)
    [ "${name#*-}" = "$name" ] || continue
    page "$name" >"$folder/$name.1"
done
