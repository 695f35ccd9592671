# Sourced by the scripts that run the port program: goes to the repository's root, and builds the program where it is missing or older than a
# crate's file; rt ci leaves it built. What the prover notes on the way is shown only if it fails.
cd "$(dirname "${BASH_SOURCE[0]}")/.."
port=crates/port/out/port
if [ ! -e "$port" ] || [ -n "$(find crates crates.txt -name out -prune -o -type f -newer "$port" -print -quit)" ]; then
    echo "making $port"
    mkdir -p target
    (cd crates/port && rt run) < /dev/null > target/port.log 2>&1 || { cat target/port.log >&2; exit 1; }
fi
