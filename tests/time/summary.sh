#!/bin/bash
# summary.sh: times a program `summary` beside a program `plan` on the same recordings.
#
#   summary.sh PLAN-PROGRAM SUMMARY-PROGRAM [EVENTS]
#   environment: RUN=COMMAND put before both programs; SEED=N (default 1); ROUNDS=N (default 15)
#
# Three recordings of 200,000 events by generate: the paper's workload on 96 x 64, W 256, boards with 64 live tasks. The
# programs run by turns, output to /dev/null and then to a file; the best user + system time of each counts. Prints the times
# and the ratios summary / plan. Ends with 1 if the events that `summary` counts are not the lines of `plan`, with 2 for a
# wrong call.
set -u
here=$(cd "$(dirname "$0")" && pwd -P)
fail() { echo "summary.sh: $*" >&2; exit 2; }
[ $# -ge 2 ] && [ $# -le 3 ] || { sed -n '2,10p' "$0" >&2; exit 2; }
plan=$(realpath -- "$1") summary=$(realpath -- "$2") events=${3:-200000} seed=${SEED:-1} rounds=${ROUNDS:-15}
for program in "$plan" "$summary"; do [ -x "$program" ] || fail "cannot run $program"; done
[[ $events =~ ^[1-9][0-9]*$ && $rounds =~ ^[1-9][0-9]*$ ]] || fail "EVENTS and ROUNDS are to be numbers from 1"
for tool in rustc python3; do command -v $tool >/dev/null || fail "$tool is not here"; done
work=$(mktemp -d) || fail "no temporary folder"
trap 'rm -rf "$work"' EXIT
rustc -O --edition 2021 "$here/../compare/generate.rs" -o "$work/generate" || fail "generate.rs does not compile"
for profile in paper wide crowded; do
    "$work/generate" "$profile" "$seed" "$events" >"$work/$profile" || fail "generate $profile failed"
    lines=$(($(${RUN:-} "$plan" <"$work/$profile" | wc -l) - 1))
    counted=$(${RUN:-} "$summary" <"$work/$profile" | sed -n 's/^events \([0-9]*\) .*/\1/p')
    [ "$lines" = "$counted" ] || { echo "summary.sh: $lines lines of plan, $counted events of summary on generate $profile $seed $events" >&2; exit 1; }
done
echo "machine: $(uname -m), $(sed -n 's/^model name[^:]*: //p' /proc/cpuinfo | head -1)"
python3 - "$work" "$rounds" "$events" "$plan" "$summary" ${RUN:-} <<'P'
import os, sys

work, rounds, events, plan, summary, before = sys.argv[1], int(sys.argv[2]), int(sys.argv[3]), sys.argv[4], sys.argv[5], sys.argv[6:]

def once(program, recording, out):
    command = before + [program]
    with open(recording, "rb") as f:
        actions = [(os.POSIX_SPAWN_DUP2, f.fileno(), 0), (os.POSIX_SPAWN_OPEN, 1, out, os.O_WRONLY | os.O_CREAT | os.O_TRUNC, 0o644)]
        child = os.posix_spawnp(command[0], command, os.environ, file_actions=actions)
        _, status, used = os.wait4(child, 0)
    if os.waitstatus_to_exitcode(status) < 0:
        sys.exit(f"summary.sh: {program} was ended by a signal")
    return used.ru_utime + used.ru_stime

print("recording      output      plan ms  summary ms  summary/plan  ns an event of summary")
for name, profile in (("paper 96 x 64", "paper"), ("W 256", "wide"), ("64 live", "crowded")):
    for where, out in (("/dev/null", "/dev/null"), ("a file", work + "/out")):
        best = [float("inf")] * 2
        for _ in range(rounds):
            for i, program in enumerate((plan, summary)):
                best[i] = min(best[i], once(program, f"{work}/{profile}", out))
        print(f"{name:13}  {where:9} {1000 * best[0]:9.1f} {1000 * best[1]:11.1f} {best[1] / best[0]:13.3f} {1e9 * best[1] / events:23.0f}")
P
