#!/usr/bin/env bash
# Opens an archive of 1,024 rows with the proved reader and with a plain Rust reader, and prints the ratio of the times.
# Run `rt run` in crates/archive_bench first, which builds the proved one. A ratio of 1 is parity; above 1 the proved reader is slower.
set -eu
cd "$(dirname "$0")/.."
times="${1:-20000}"
out="$(mktemp -d)"
rustc -O -o "$out/plain" bench/plain_reader.rs
file=crates/archive_bench/data/full.archive
for round in 1 2 3; do
    proved="$(crates/archive_bench/out/archive_bench "$file" "$times" | cut -d' ' -f2)"
    plain="$("$out/plain" "$file" "$times" | cut -d' ' -f2)"
    awk -v p="$proved" -v q="$plain" -v n="$times" 'BEGIN { printf "proved %.0f ns, plain %.0f ns, ratio %.2f\n", p / n, q / n, p / q }'
done
rm -r "$out"
