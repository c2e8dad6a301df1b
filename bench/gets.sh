#!/usr/bin/env bash
# Times gets of random keys on one index by 1, 2 and 4 threads.  bench/gets.sh [KEYS] [GETS A THREAD]
# The program is proved before it is built, as a crate of a copy of this repository, which takes the proofs along.
set -eu
keys=${1:-1000} gets=${2:-300000}
bench=$(dirname "$(readlink -f "$0")")
top=$bench/..
scratch=$(mktemp -d)
trap 'rm -rf "$scratch"' EXIT

crate=$scratch/crates/gets
cp -a --reflink=auto "$top/crates" "$top/HANDLES" "$scratch"
mkdir -p "$crate/src" "$crate/proofs/visit" "$crate/proofs/fill"
cp "$bench/gets/main.rt.in" "$crate/src/main.rt"
cp "$bench/gets/visit.antt.in" "$crate/proofs/visit/Invariants.antt"
cp "$bench/gets/fill.antt.in" "$crate/proofs/fill/Invariants.antt"

# It uses all that the index does.
uses=$(sed -n 's/^xindex_core[^:]*: *//p' "$top/crates.txt")
{ cat "$top/crates.txt"; echo "gets may_wait=1: xindex_core $uses anyhow"; } > "$scratch/crates.txt"

log=$scratch/log
(cd "$crate" && rt run -- "$keys" 1 > "$log" 2>&1) || { cat "$log" >&2; exit 1; }
"$crate/out/gets" "$keys" "$gets"
