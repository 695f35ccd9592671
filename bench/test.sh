#!/usr/bin/env bash
# The reference's own tests: of its library, also as the peer, and of its port program. Needs rustc; writes only
# below target/.
set -eu
cd "$(dirname "$0")/.."
. bench/reference.sh
try() { # PART OPTION..
    part=$1
    shift
    rustc --edition 2021 -C opt-level=2 --test --extern reference="$reference" "$@" -o "target/bench/test_$part" "bench/reference/src/$part.rs"
    "target/bench/test_$part" --quiet
}
try lib
try lib --cfg table
try main
