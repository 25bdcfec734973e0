#!/bin/bash
# compare.sh: compares a program `plan` with the second program on fresh random recordings, byte for byte.
#
#   compare.sh PLAN-PROGRAM [EVENTS [UNTIL [PROFILE...]]]
#     PLAN-PROGRAM  reads a recording on standard input and prints the lines of document 01 (with 18 of Q-2 and the grid of Q-3)
#     EVENTS        events in a recording (default 100000; recordings of the profile cut are short and many)
#     UNTIL         how much: a number of events over all profiles (default 2000000), or a time as 600s, or `ever`
#     PROFILE...    of: tiny paper wide crowded late bounds lax grid cut mixed (default: all)
#   environment:
#     SEED=N        first seed (default: from the clock); the same arguments and seed make the same recordings
#     RUN=COMMAND   put before PLAN-PROGRAM, as RUN=qemu-x86_64
#     CHECK=1       runs the second program with --check as well (slow): each answer by two methods, soundness, nothing moves
#
# Builds second and generate with rustc -O in a temporary folder, runs the self-test, then goes through the profiles by
# turns. Of three recordings one comes as a file, one through a pipe, one through a pipe in pieces of 37 bytes. Ends with 0
# if all is equal; with 1 at the first difference: it prints the first line that differs and keeps recording and outputs
# in the temporary folder that it names; with 2 for a wrong call or if the second program itself fails.
set -u
here=$(cd "$(dirname "$0")" && pwd -P)
usage() { sed -n '2,12p' "$0" >&2; exit 2; }
fail() { echo "compare.sh: $*" >&2; exit 2; }
[ $# -ge 1 ] || usage
plan=$1 events=${2:-100000} until=${3:-2000000}
shift; [ $# -gt 0 ] && shift; [ $# -gt 0 ] && shift
profiles=("$@")
[ ${#profiles[@]} -gt 0 ] || profiles=(tiny paper wide crowded late bounds lax grid cut mixed)
for p in "${profiles[@]}"; do case $p in tiny | paper | wide | crowded | late | bounds | lax | grid | cut | mixed) ;; *) fail "no profile $p" ;; esac; done
case $plan in */*) ;; *) [ -f "$plan" ] && plan=./$plan ;; esac
[ -n "${RUN:-}" ] || command -v "$plan" >/dev/null || fail "cannot run $plan"
[ -z "${RUN:-}" ] || [ -f "$plan" ] || fail "no file $plan"
[[ $events =~ ^[1-9][0-9]*$ ]] || fail "EVENTS is to be a number from 1, not '$events'"
limit="" seconds=""
case $until in
    ever) ;;
    *s) seconds=${until%s}; [[ $seconds =~ ^[1-9][0-9]*$ ]] || fail "UNTIL is to be a number of events, a time as 600s, or ever, not '$until'" ;;
    *) limit=$until; [[ $limit =~ ^[1-9][0-9]*$ ]] || fail "UNTIL is to be a number of events, a time as 600s, or ever, not '$until'" ;;
esac
seed=${SEED:-$(($(date +%s) * 1000 + $$ % 1000))}
[[ $seed =~ ^[0-9]+$ ]] || fail "SEED is to be a number, not '$seed'"
command -v rustc >/dev/null || fail "rustc is not here; it builds the second program"

work=$(mktemp -d) || fail "no temporary folder"
keep=""
declare -A compared recordings
totals() {
    local all=0 n=0
    echo "profile    recordings       events"
    for p in "${profiles[@]}"; do
        printf '%-9s %11d %12d\n' "$p" "${recordings[$p]:-0}" "${compared[$p]:-0}"
        all=$((all + ${compared[$p]:-0})) n=$((n + ${recordings[$p]:-0}))
    done
    printf '%-9s %11d %12d\n' all "$n" "$all"
}
trap '[ -n "$keep" ] || rm -rf "$work"' EXIT
trap 'echo "stopped"; totals; exit 130' INT TERM
for program in second generate; do
    rustc -O --edition 2021 "$here/$program.rs" -o "$work/$program" || fail "$program.rs does not compile"
done
"$work/second" --self-test || fail "the second program fails its own test"

differs() { # MESSAGE: says what, keeps the files, ends
    keep=1
    {
        echo "compare.sh: $1"
        echo "  recording: generate $profile $seed $count   (kept: $work/recording)"
        echo "  the second program printed: $work/second.out"
        echo "  $plan printed: $work/plan.out (exit status $status, arrival: $arrival)"
        cmp "$work/second.out" "$work/plan.out" 2>&1 | head -1 | sed 's/^/  /'
        python3 - "$work/second.out" "$work/plan.out" 2>/dev/null <<'P' || diff "$work/second.out" "$work/plan.out" | head -4
import sys
from itertools import zip_longest
with open(sys.argv[1], errors="replace") as a, open(sys.argv[2], errors="replace") as b:
    for n, (x, y) in enumerate(zip_longest(a, b), 1):
        if x != y:
            show = lambda s: "(no line)" if s is None else repr(s)
            print(f"  first difference at line {n}: second {show(x)}, plan {show(y)}")
            break
P
    } >&2
    totals
    exit 1
}

echo "seed $seed, $events events a recording, until $until"
begin=$SECONDS total=0 round=0 lap=0 arrival=file status=0 said=$SECONDS
while :; do
    for profile in "${profiles[@]}"; do
        # a cut recording ends the session: many short ones
        if [ "$profile" = cut ]; then turns=20 count=$((events < 400 ? events : 400)); else turns=1 count=$events; fi
        for ((turn = 0; turn < turns; turn++)); do
            seed=$((seed + 1))
            "$work/generate" "$profile" "$seed" "$count" >"$work/recording" || fail "generate $profile $seed $count failed"
            "$work/second" <"$work/recording" >"$work/second.out" || fail "second failed on generate $profile $seed $count"
            if [ -n "${CHECK:-}" ]; then
                "$work/second" --check <"$work/recording" >"$work/check.out" || { keep=1; fail "second --check failed on $work/recording"; }
                cmp -s "$work/second.out" "$work/check.out" || { keep=1; fail "second and second --check differ on $work/recording"; }
            fi
            case $(((round + lap + turn) % 3)) in
                0) arrival=file; ${RUN:-} "$plan" <"$work/recording" >"$work/plan.out" 2>"$work/plan.err"; status=$? ;;
                1) arrival=pipe; cat "$work/recording" | ${RUN:-} "$plan" >"$work/plan.out" 2>"$work/plan.err"; status=${PIPESTATUS[1]} ;;
                2) arrival="pieces of 37 bytes"; dd if="$work/recording" ibs=64k obs=37 2>/dev/null | ${RUN:-} "$plan" >"$work/plan.out" 2>"$work/plan.err"; status=${PIPESTATUS[1]} ;;
            esac
            [ "$status" -lt 126 ] || differs "$plan ended with status $status: $(head -c 300 "$work/plan.err")"
            cmp -s "$work/second.out" "$work/plan.out" || differs "the outputs differ"
            n=$(($(wc -l <"$work/second.out") - 1))
            compared[$profile]=$((${compared[$profile]:-0} + n)) recordings[$profile]=$((${recordings[$profile]:-0} + 1)) total=$((total + n))
        done
        round=$((round + 1))
        if [ -n "$seconds" ] && [ $((SECONDS - begin)) -ge "$seconds" ]; then break 2; fi
    done
    lap=$((lap + (${#profiles[@]} % 3 == 0)))
    if [ -n "$limit" ] && [ $total -ge "$limit" ]; then break; fi
    if [ $((SECONDS - said)) -ge 60 ]; then said=$SECONDS; echo "$total events compared after $((SECONDS - begin)) s, all equal"; fi
done
totals
echo "all equal, $((SECONDS - begin)) s"
