# Sourced by the other scripts: counts the host instructions of a program with these words. Its input is
# the caller's, and its output is thrown away.
counted() { # program words
    valgrind --tool=callgrind --callgrind-out-file=/dev/null "$@" 2>&1 >/dev/null | sed -n 's/.*Collected : *//p'
}
