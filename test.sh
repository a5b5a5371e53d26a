#!/usr/bin/env bash
# All that must hold: every proof, must-fail edit and program, then the Rust beside the port, over the library just proved.
set -euo pipefail
cd "$(dirname "${BASH_SOURCE[0]}")"

said=$(mktemp)
trap 'rm -f "$said"' EXIT
# The entries in header, Rust, crates and theorem: read as text, in seconds.
cargo test --offline --quiet --manifest-path rust/Cargo.toml -p boundary
rt ci | tee "$said"
# An edit that can't be tried shows nothing of a contract; rt ci counts it, and passes all the same.
if grep -Eq '^rt: ok.*, [0-9]+ bad' "$said"; then
    echo "test.sh: there are bad must-fail edits, as told above" >&2
    exit 1
fi
# Edits with several wrong programs: each must stand alone in an edit too, where rt ci has tried it.
.ci/refused.py

# One number changed in each of six recorded lines, those that are compared: the replay, as rt ci built it, must see all six.
seen=$(awk 'NR >= 3 && NR <= 8 { $(NR + 7) = $(NR + 7) "1" } { print }' crates/replay/stdin | crates/replay/out/replay | tail -n 1)
case $seen in
*', not as recorded: 6') ;;
*) echo "test.sh: the replay doesn't see changed answers: $seen" >&2; exit 1 ;;
esac

# The library for C and Rust, from the crate that exports the entries, under the name that its callers know.
made=$(cd crates/underhill_mem_c && rt lib) || { echo "$made"; exit 1; }
mkdir -p target/staticlib
cp crates/underhill_mem_c/out/libunderhill_mem_c.a target/staticlib/libunderhill_mem.a

left_out=()
if [ ! -d "${UNDERHILL_MEM_SRC:-../shared/docs/src/openhcl/underhill_mem/src}" ]; then
    echo "test.sh: the original's source is not at hand (UNDERHILL_MEM_SRC): the oracle and the differential run are left out" >&2
    left_out=(--exclude oracle --exclude underhill_mem_source --exclude differential --exclude record)
fi
cargo test --offline --quiet --manifest-path rust/Cargo.toml --workspace "${left_out[@]}"
if [ ${#left_out[@]} -eq 0 ]; then
    cargo run --offline --quiet --release --manifest-path rust/Cargo.toml -p differential -- --calls 100000 --seed 1
else
    echo "differential: not run"
fi

# The verdict of rt ci, once more, as the last line.
tail -n 1 "$said"
