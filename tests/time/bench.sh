#!/bin/bash
# bench.sh: our planners and openings beside a plain Rust program (tests/time/baseline_calls.rs), as ratios of time.
# One command, about a minute. Both draw the same sessions and ask for the same openings; the checksums of all answers must agree.
# On x86-64 ours is crates/bench/out/bench, as `rt run` built it; elsewhere tests/native/build.sh compiles it.
set -euo pipefail
root=$(cd "$(dirname "$0")/../.." && pwd -P)
work=$(mktemp -d)
trap 'rm -rf "$work"' EXIT
rustc -C opt-level=3 "$root/tests/time/baseline_calls.rs" -o "$work/rust"
if [ "$(uname -m)" = x86_64 ]; then
    (cd "$root/crates/bench" && rt run) </dev/null >"$work/log" 2>&1 || { tail -5 "$work/log" >&2; exit 1; }
    cp "$root/crates/bench/out/bench" "$work/ours"
else
    "$root/tests/native/build.sh" bench "$work/ours" || { echo "bench.sh: the kit's own programs are for x86-64" >&2; exit 2; }
fi
exec python3 "$root/tests/time/table.py" "$work/ours" "$work/rust"
