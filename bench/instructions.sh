#!/usr/bin/env bash
# Instructions of one call, of the library and of the peer: callgrind counts two runs of different length, and their difference leaves out what the
# program does besides. They do not depend on what else the machine does. Needs the kit (rt), rustc and valgrind; writes only below target/
# and crates/*/out/.
set -eu
cd "$(dirname "$0")/.."
bench/bench.sh checks library 1 0
count() {
    valgrind --tool=callgrind --callgrind-out-file=/dev/null target/bench/bench "$@" 2>&1 | sed -n 's/.*Collected : //p'
}
each() {
    echo $((($(count "$@" 3000) - $(count "$@" 1000)) / 2000))
}
printf '%-40s %9s %8s %7s\n' 'instructions for each' library peer ratio
row() { # NAME ROW WORDS-OR-BIT-TIMES
    ours=$(each "$2" library "$3") peer=$(each "$2" peer "$3")
    printf '%-40s %9d %8d %7.3f\n' "$1" "$ours" "$peer" "$(awk "BEGIN { print $ours / $peer }")"
}
row 'check bytes, 1 word' checks 1
row 'check bytes, 4 words' checks 4
row 'check bytes, 16 words' checks 16
row 'check bytes, 1 word, sought one by one' sought 1
row 'check bytes, 4 words, sought one by one' sought 4
row 'check bytes, 16 words, sought one by one' sought 16
row 'master and slave frame, 1 word' exchange 1
row 'master and slave frame, 16 words' exchange 16
row 'master frame and reply, 16 words' reply 16
row 'quiet, 1 bit time' quiet 1
row 'quiet, 1,499 bit times' quiet 1499
row 'quiet, 1,500 bit times' quiet 1500
row 'quiet, 65,535 bit times' quiet 65535
