#!/usr/bin/env bash
# The library's calls against the plain reference and its peer at -O3, in one run: nanoseconds, ratios and real-time factor.
# Needs the kit (rt) and rustc; writes only below target/ and crates/*/out/.
set -eu
. "$(dirname "$0")/../firmware/archive.sh"
. bench/reference.sh
rustc --edition 2021 -C opt-level=3 -D warnings --extern reference="$reference" --extern peer="$peer" -C link-arg="$archive" \
    -o target/bench/bench bench/bench.rs
exec target/bench/bench "$@"
