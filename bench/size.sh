#!/usr/bin/env bash
# What firmware pays: the sections of the archive, the deepest stack of each exported call, and the size of the controller.
# Needs the kit (rt), gcc and binutils; writes only below target/ and crates/*/out/.
set -eu
. "$(dirname "$0")/../firmware/archive.sh"
mkdir -p target/bench
echo "sections of $archive, in bytes:"
size -A "$archive" | awk '$2 ~ /^[0-9]+$/ && $1 ~ /^\.(text|rodata|data|bss)/ { split($1, part, "."); sum[part[2]] += $2 }
    END { for (name in sum) printf "  .%-8s %7d\n", name, sum[name] }' | sort
gcc -std=c11 -O2 -Wall -Wextra -Werror -o target/bench/stack bench/stack.c "$archive"
echo "stack of each exported call, beyond the caller's own:"
target/bench/stack
