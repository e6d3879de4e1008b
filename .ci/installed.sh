#!/usr/bin/env bash
# Whether ./install puts the programs where they are looked for, with manual pages that the formatter takes without
# a warning and with the completion: into a folder that goes away again. Build the programs first. What needs `man`
# or `bash` alone is looked at; the files for zsh and vim only have to be there.
set -u
. "$(dirname "$(readlink -f "$0")")/common.sh"
wrong=0

say() { echo "installed: $*" >&2; wrong=1; }

# What the completion gives for the last of some words.
completed() {
    PATH=$folder/bin:$PATH bash -c '. "$0"; COMP_WORDS=("$@"); COMP_CWORD=$(($# - 1)); _hirvodas; echo "${COMPREPLY[*]}"' \
        "$folder/share/bash-completion/completions/$1" "$@"
}

./install "$folder" 2>"$folder/told" || { cat "$folder/told" >&2; exit 1; }
for name in $(programs); do
    text=contrib/help/$name.txt
    page=$folder/share/man/man1/$name.1
    [ "$("$folder/bin/$name" --version 2>&1)" = "$name $(cat contrib/help/version)" ] || say "$name says another version"
    [ "$(completed "$name" --vers)" = --version ] || say "$name --vers is not completed"
    if command -v man >/dev/null; then
        man --warnings -l "$page" 2>"$folder/warnings" >"$folder/page" || say "$page cannot be shown"
        [ ! -s "$folder/warnings" ] || say "$page: $(cat "$folder/warnings")"
        tail -n 1 "$text" | cut -c 1-40 | grep -qFf - "$folder/page" || say "$page does not end as --help does"
    fi
done
[ "$(completed lockmon qu)" = queue ] || say "lockmon qu is not completed"
[ "$(completed lockmon run --qua)" = --quantum ] || say "lockmon run --qua is not completed"
for file in zsh/site-functions/_hirvodas vim/vimfiles/{ftdetect/hirvodas,syntax/macro10,syntax/lockqueue,ftplugin/macro10,ftplugin/lockqueue}.vim; do
    [ -s "$folder/share/$file" ] || say "$file is missing"
done
if command -v pkg-config >/dev/null; then
    words=$(PKG_CONFIG_PATH=$folder/lib/pkgconfig pkg-config --cflags --libs hirvodas-locks) || say "pkg-config does not find the library"
    cc $words examples/library/guard.c -o "$folder/guard" || say "guard.c does not compile"
    cc examples/library/turns.c $words -o "$folder/turns" || say "turns.c does not compile"
    "$folder/turns" | cmp -s - examples/library/turns.out || say "turns.c writes something else"
fi
if aarch64-linux-gnu-gcc -x c -fsyntax-only - <<<'#include <stdlib.h>' 2>/dev/null && command -v qemu-aarch64-static >/dev/null; then
    ./install --target aarch64 "$folder/aarch64" 2>"$folder/told" || { cat "$folder/told" >&2; exit 1; }
    aarch64-linux-gnu-gcc -static -I"$folder/aarch64/include/hirvodas" examples/library/turns.c "$folder/aarch64/lib/libhirvodas-locks.a" -o "$folder/turns.aarch64" ||
        say "turns.c does not compile for aarch64"
    qemu-aarch64-static "$folder/turns.aarch64" | cmp -s - examples/library/turns.out || say "turns.c writes something else on aarch64"
fi
PYTHONPATH=$folder/share/hirvodas/python PYTHONDONTWRITEBYTECODE=1 python3 examples/library/drives.py |
    cmp -s - examples/library/drives.out || say "drives.py writes something else"
[ "$wrong" = 0 ] && echo "installed: programs, manual pages, completion and the lock library" >&2
exit "$wrong"
