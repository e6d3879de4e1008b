#!/usr/bin/env bash
# Host instructions of `image source` for a line, and of `image save` for the same line read again: instructions drawn at
# random, with labels and comments (callgrind, the difference of two lengths).
set -eu
cd "$(dirname "$0")"
. ./counted.sh
program=$(readlink -f "${IMAGE:-../crates/image/out/image}")
folder=$(mktemp -d)
trap 'rm -rf "$folder"' EXIT
for count in 2000 6000; do
    python3 - $count >"$folder/$count.sav" <<'END'
import random
import sys

count, draw = int(sys.argv[1]), random.Random(1)
operations = [0o200, 0o201, 0o202, 0o254, 0o271, 0o306, 0o332, 0o350]
words = [draw.choice(operations) << 27 | draw.randrange(16) << 23 | 0o140 + draw.randrange(count) for _ in range(count)]
block = (-count % (1 << 18)) << 18 | 0o137
for word in [block, *words, 0o254000000140]:
    sys.stdout.buffer.write((word >> 4).to_bytes(4, "big") + bytes([word & 15]))
END
    "$program" source --from core <"$folder/$count.sav" >"$folder/$count.mac"
done
source_of() { counted "$program" source --from core <"$folder/$1.sav"; }
saved() { counted "$program" save --to core <"$folder/$1.mac"; }
echo "a line of image source: $((($(source_of 6000) - $(source_of 2000)) / 4000)) host instructions"
echo "the same line, by image save: $((($(saved 6000) - $(saved 2000)) / 4000))"
