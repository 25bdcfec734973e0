#!/bin/bash
# time.sh: times a program `plan` against two plain Rust programs of the same job: baseline_slots.rs (a `&mut` board of 64 slots)
# and baseline_plan.rs (the same made faster: live tasks dense in a vector).
#
#   time.sh PLAN-PROGRAM [EVENTS]
#   environment: RUN=COMMAND put before PLAN-PROGRAM; SEED=N (default 1)
#
# Three recordings of 200,000 events by generate: the paper's workload on 96 x 64, W 256, boards with 64 live tasks. The
# programs run by turns, seven times each, output to /dev/null; the best user + system time of each counts. Prints the times, the
# ratios plan / slots and plan / dense, and the peak memory of plan. Ends with 1 if they print different lines, with 2 for a
# wrong call.
set -u
here=$(cd "$(dirname "$0")" && pwd -P)
fail() { echo "time.sh: $*" >&2; exit 2; }
[ $# -ge 1 ] && [ $# -le 2 ] || { sed -n '2,11p' "$0" >&2; exit 2; }
plan=$1 events=${2:-200000} seed=${SEED:-1}
case $plan in */*) ;; *) [ -f "$plan" ] && plan=./$plan ;; esac
[ -n "${RUN:-}" ] || command -v "$plan" >/dev/null || fail "cannot run $plan"
[[ $events =~ ^[1-9][0-9]*$ ]] || fail "EVENTS is to be a number from 1, not '$events'"
for tool in rustc python3; do command -v $tool >/dev/null || fail "$tool is not here"; done
work=$(mktemp -d) || fail "no temporary folder"
trap 'rm -rf "$work"' EXIT
rustc -O --edition 2021 "$here/../compare/generate.rs" -o "$work/generate" || fail "generate.rs does not compile"
for baseline in baseline_slots baseline_plan; do
    rustc -C opt-level=3 --edition 2021 "$here/$baseline.rs" -o "$work/$baseline" || fail "$baseline.rs does not compile"
done
for profile in paper wide crowded; do
    "$work/generate" "$profile" "$seed" "$events" >"$work/$profile" || fail "generate $profile failed"
    ${RUN:-} "$plan" <"$work/$profile" >"$work/two"
    for baseline in baseline_slots baseline_plan; do
        "$work/$baseline" <"$work/$profile" >"$work/one" || fail "$baseline failed"
        cmp "$work/one" "$work/two" >&2 || { echo "time.sh: $plan and $baseline print different lines on generate $profile $seed $events" >&2; exit 1; }
    done
done
echo "machine: $(uname -m), $(sed -n 's/^model name[^:]*: //p' /proc/cpuinfo | head -1)"
python3 - "$work" "$events" ${RUN:-} "$plan" <<'P'
import fcntl, os, sys, termios, time

work, events, plan = sys.argv[1], int(sys.argv[2]), sys.argv[3:]
baselines = [[work + "/baseline_slots"], [work + "/baseline_plan"]]

def once(command, recording):
    with open(recording, "rb") as f:
        actions = [(os.POSIX_SPAWN_DUP2, f.fileno(), 0), (os.POSIX_SPAWN_OPEN, 1, "/dev/null", os.O_WRONLY, 0)]
        child = os.posix_spawnp(command[0], command, os.environ, file_actions=actions)
        _, status, used = os.wait4(child, 0)
    if os.waitstatus_to_exitcode(status) < 0:
        sys.exit(f"time.sh: {command[0]} was ended by a signal")
    return used.ru_utime + used.ru_stime

def peak(command, recording):
    """VmHWM of the program once it has eaten the recording and waits for more (ru_maxrss would count the parent's memory)."""
    theirs, ours = os.pipe()
    actions = [(os.POSIX_SPAWN_DUP2, theirs, 0), (os.POSIX_SPAWN_CLOSE, ours), (os.POSIX_SPAWN_OPEN, 1, "/dev/null", os.O_WRONLY, 0)]
    child = os.posix_spawnp(command[0], command, os.environ, file_actions=actions)
    os.close(theirs)
    with open(recording, "rb") as f, open(ours, "wb", buffering=0) as pipe:
        while block := f.read(1 << 16):
            pipe.write(block)
        for _ in range(500):
            time.sleep(0.01)
            if int.from_bytes(fcntl.ioctl(ours, termios.FIONREAD, bytes(4)), sys.byteorder) == 0:
                break
        time.sleep(0.05)
        with open(f"/proc/{child}/status") as status:
            kib = next((int(line.split()[1]) for line in status if line.startswith("VmHWM")), 0)
    os.wait4(child, 0)
    return kib

print("recording      plan ms  slots ms  plan/slots  dense ms  plan/dense  ns an event  peak memory of plan KiB")
for name, profile in (("paper 96 x 64", "paper"), ("W 256", "wide"), ("64 live", "crowded")):
    best = [float("inf")] * 3
    for _ in range(7):
        for i, command in enumerate([plan] + baselines):
            best[i] = min(best[i], once(command, f"{work}/{profile}"))
    ours, slots, dense = best
    memory = peak(plan, f"{work}/{profile}")
    print(f"{name:13} {1000 * ours:8.1f} {1000 * slots:9.1f} {ours / max(slots, 1e-9):11.2f} {1000 * dense:9.1f} {ours / max(dense, 1e-9):11.2f} {1e9 * ours / events:12.0f} {memory:24}")
P
