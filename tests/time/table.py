#!/usr/bin/env python3
"""table.py OURS RUST: runs both in turn, best of five of user + system time, and prints the ratios ours / Rust.
For openings also ours a second, and the time to the first."""
import os, platform, resource, subprocess, sys

OURS, RUST = sys.argv[1:3]
PLANNERS = ["Reference", "Horizon", "Stuffing", "Full"]
WORKLOADS = ["0 the paper's, 96 columns", "1 256 columns, ~30 live", "2 256 columns, 55-63 live"]
PAGES = ["empty, w 1", "64 live, w 4", "empty, w 33"]
STEPPED = ["empty, w 16, one column a step", "the same, 16 columns a step", "32 live, w 4, one column a step", "the same, 4 columns a step"]
FIRSTS = ["empty", "64 live, w 8", "blocked for 6,400,000 ticks", "the last one, at 1,999,999,999"]
TURNS = 5


def timed(command, text=""):
    before = resource.getrusage(resource.RUSAGE_CHILDREN)
    out = subprocess.run(command, input=text, capture_output=True, text=True, check=True).stdout
    after = resource.getrusage(resource.RUSAGE_CHILDREN)
    return out.split()[-1], after.ru_utime + after.ru_stime - before.ru_utime - before.ru_stime


def ours(planner, workload, rounds):
    return timed([OURS], f"{planner}{workload}{rounds:06}\n")


def rust(planner, workload, rounds):
    return timed([RUST, str(planner), str(workload), str(rounds)])


def enough(run, planner, workload, seconds=0.15):
    """How many rounds take about that long."""
    rounds = 1000
    while rounds < 500_000:
        took = run(planner, workload, rounds)[1]
        if took > seconds / 2:
            break
        rounds = min(500_000, rounds * (2 if took > seconds / 8 else 4))
    return rounds


def pair(planner, workload, rounds=0):
    """Ratio of the best times, seconds a round of ours, and whether the checksums agree."""
    rounds = rounds or enough(rust, planner, workload)
    best, agree = [9e9, 9e9], True
    for _ in range(TURNS):
        sums = []
        for i, run in enumerate((ours, rust)):
            answer, took = run(planner, workload, rounds)
            sums.append(answer)
            best[i] = min(best[i], took)
        agree = agree and sums[0] == sums[1]
    return best[0] / best[1], best[0] / rounds, agree


def openings(board, rounds):
    """How many openings so many rounds of workload 5 write."""
    run = subprocess.run([RUST, str(board), "5", str(rounds), "stats"], capture_output=True, text=True, check=True)
    return int(run.stderr.split()[0])


def machine():
    name = ""
    with open("/proc/cpuinfo") as f:
        for line in f:
            if line.startswith(("model name", "CPU part")):
                name = line.split(":")[1].strip()
    return f"{platform.machine()}, {name}, {os.cpu_count()} processors, {platform.system()} {platform.release()}"


print("machine:", machine())
print(subprocess.run(["rustc", "--version"], capture_output=True, text=True).stdout.strip())
print("time of ours / time of Rust; a round: the clock moved on and a task submitted, by the public calls, which test the board each; the Rust program tests none; below 1 ours is faster")
print(f"{'workload':28}" + "".join(f"{p:>11}" for p in PLANNERS))
all_agree, submission = True, 0.0
for w, label in enumerate(WORKLOADS):
    row = f"{label:28}"
    for p in range(4):
        ratio, each, agree = pair(p, w)
        all_agree = all_agree and agree
        row += f"{ratio:10.2f}" + (" " if agree else "!")
        if (p, w) == (2, 2):
            submission = each
    print(row, flush=True)
row = f"{'4 256 columns, no place':28}"
for p in range(4):
    ratio, each, agree = pair(p, 4)
    all_agree = all_agree and agree
    row += f"{ratio:10.3f}" + (" " if agree else "!")
print(row, flush=True)
print(f"Full on 4, against every column at every visited time: 1 / {1 / ratio:.0f} (bar: 1 / 20)")
print("is_sound / a round of workload 2 by Stuffing, by live tasks:")
for p, live in enumerate((0, 16, 32, 64)):
    rounds = enough(ours, p, 3)
    took = min(ours(p, 3, rounds)[1] for _ in range(TURNS)) / rounds
    print(f"{live:6}: {took / submission:.2f} ({took * 1e9:.0f} ns)")
print("openings, 8,192 into a buffer of 16,384 words, asked on; ours a second, and time of ours / time of Rust:")
for b, label in enumerate(PAGES):
    rounds = max(enough(ours, b, 5), enough(rust, b, 5))
    ratio, each, agree = pair(b, 5, rounds)
    all_agree = all_agree and agree
    rate = openings(b, rounds) / rounds / each / 1e6
    print(f"  {label:32}{rate:6.0f} million{ratio:8.2f}" + ("" if agree else "!") + ("  (bar: 40, goal: 200 million)" if b == 0 else ""), flush=True)
print("a whole list of openings in one call; ours, time of ours / time of Rust, and of the time of one column a step:")
plain = 0.0
for b, label in enumerate(STEPPED):
    rounds = max(enough(ours, b, 7), enough(rust, b, 7))
    ratio, each, agree = pair(b, 7, rounds)
    all_agree = all_agree and agree
    if b % 2 == 0:
        plain = each
    print(f"  {label:32}{each * 1e9:6.0f} ns     {ratio:8.2f}" + ("" if agree else "!") + f"{each / plain:8.3f}", flush=True)
print("the first opening, into a buffer of two words; ours, and time of ours / time of Rust:")
for b, label in enumerate(FIRSTS):
    rounds = max(enough(ours, b, 6), enough(rust, b, 6))
    ratio, each, agree = pair(b, 6, rounds)
    all_agree = all_agree and agree
    print(f"  {label:32}{each * 1e9:6.0f} ns     {ratio:8.2f}" + ("" if agree else "!"), flush=True)
print("checksums:", "all agree" if all_agree else "DIFFER where marked !")
sys.exit(0 if all_agree else 1)
