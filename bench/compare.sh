#!/usr/bin/env bash
# compare.sh [SEED [COUNT]]: the library against the plain reference over COUNT random calls (1 and 20,000 where none is given).
# Needs the kit (rt) and rustc; writes only below target/ and crates/*/out/.
set -eu
. "$(dirname "$0")/../firmware/archive.sh"
. bench/reference.sh
rustc --edition 2021 -C opt-level=3 -D warnings --extern reference="$reference" -C link-arg="$archive" \
    -o target/bench/compare bench/compare.rs
exec target/bench/compare "$@"
