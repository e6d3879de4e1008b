# Sourced by the scripts at the top of the repository, which `top` names, and by those of .ci.

# The programs that people call, by name.
programs() { basename -s .txt "$top"/contrib/help/*.txt | grep -v -; }

# The crate of a program: that of its name, or NAME_main, as for `macro`, whose name is a word of Rattle.
crate_of() { if grep -q "^$1:" "$top/crates.txt"; then echo "$1"; else echo "$1_main"; fi; }

# The program as it is built.
built() { echo "$top/crates/$(crate_of "$1")/out/$(crate_of "$1")"; }
