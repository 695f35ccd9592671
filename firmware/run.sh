#!/usr/bin/env bash
# Over the archive: a C program that reads every field by its name, and the listener in C and in Rust, whose output is compared with
# listen.expected. The header is compiled as C++ too, and the Rust binding without its standard library. Needs the kit (rt), gcc, g++ and
# rustc; writes only below target/ and crates/*/out/.
set -eu
. "$(dirname "$0")/archive.sh"
out=target/firmware
mkdir -p "$out"
g++ -std=c++11 -Wall -Wextra -Werror -fsyntax-only -x c++ firmware/tolvendrum.h
for program in fields listen; do
    gcc -std=c11 -O2 -Wall -Wextra -Werror -o "$out/${program}_c" "firmware/$program.c" "$archive"
done
rustc --edition 2021 -O -D warnings -C link-arg="$archive" -o "$out/listen_rs" firmware/listen.rs
printf '#![no_std]\n#[path = "%s/firmware/tolvendrum.rs"]\npub mod tolvendrum;\n' "$PWD" |
    rustc --edition 2021 --crate-type lib -D warnings --emit=metadata -o "$out/no_std.rmeta" -
"$out/fields_c"
for program in listen_c listen_rs; do
    "$out/$program" > "$out/$program.out"
    cmp "$out/$program.out" firmware/listen.expected
    echo "$program: as expected"
done
