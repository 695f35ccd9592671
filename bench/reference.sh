# Sourced by the scripts here, at the repository's root: builds the plain reference at -O3, and its peer, whose check bytes come from a table
# and whose quiet time goes from deadline to deadline.
mkdir -p target/bench
reference=target/bench/libreference.rlib
peer=target/bench/libpeer.rlib
rustc --edition 2021 -C opt-level=3 --crate-type lib --crate-name reference -o "$reference" bench/reference/src/lib.rs
rustc --edition 2021 -C opt-level=3 --crate-type lib --crate-name peer --cfg table -o "$peer" bench/reference/src/lib.rs
