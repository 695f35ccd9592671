#!/usr/bin/env bash
# A million lines through the port program, through the reference's and through its peer's at -O3, in turns: nanoseconds a line, and ratios.
# Needs the kit (rt), rustc and python3; writes only below target/ and crates/*/out/.
set -eu
. "$(dirname "$0")/../tests/port.sh"
. bench/reference.sh
for side in reference peer; do
    rustc --edition 2021 -C opt-level=3 -D warnings --extern reference="${!side}" -o "target/bench/ports_$side" bench/reference/src/main.rs
done
exec python3 bench/port.py "$port" target/bench/ports_reference target/bench/ports_peer
