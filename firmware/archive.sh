#!/usr/bin/env bash
# Makes target/staticlib/libfirmware.a, the library for C and Rust, where it is missing or older than a crate's file, from the proved crate
# firmware_c. The scripts here and in bench/ source it: it goes to the repository's root and names the archive. What the prover notes on the
# way is shown only if it fails.
cd "$(dirname "${BASH_SOURCE[0]}")/.."
archive=target/staticlib/libfirmware.a
if [ ! -e "$archive" ] || [ -n "$(find crates crates.txt -name out -prune -o -type f -newer "$archive" -print -quit)" ]; then
    echo "making $archive"
    mkdir -p target/staticlib
    (cd crates/firmware_c && rt lib) < /dev/null > target/staticlib.log 2>&1 || { cat target/staticlib.log >&2; exit 1; }
    cp crates/firmware_c/out/libfirmware_c.a "$archive"
fi
