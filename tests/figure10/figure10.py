#!/usr/bin/env python3
"""figure10.py: the experiment of Fig. 10 of the source (document 003, sections 5.1 and 5.2.1) with our program `summary`.

  figure10.py SUMMARY-PROGRAM [TASKS]
  environment: RUN=COMMAND put before SUMMARY-PROGRAM; SEED=N (default 1); GAP=TICKS, the mean interarrival time (default 7)

Draws 20 independent task sets of TASKS tasks each (default 5000) for a device of 96 x 64, as section 5.1 says: area uniform in
[50, 500], execution time uniform in 5 to 100, laxity uniform in its class: A 1 to 50, B 51 to 100, C 101 to 200. (The source has
B from 50 and C from 100; these two are left out, as `summary` counts 50 to A and 100 to B.) Our choices, where it says nothing:
 - Shape: a standing task has height / width uniform in [1, 5], a lying one width / height. Width and height are rounded, so the
   area can be off by some units. They are at most 50: every task fits.
 - Arrival: interarrival times are exponential, of mean GAP, each arrival at the whole tick before. 7 was chosen once so that
   Reference rejects 40 percent of a set with half of the tasks standing ("some 40 percent", section 5.2.1).
Each set is played by each planner from an empty board, in Fig. 10a with each class. The same areas, shapes, times and arrivals
are used for all planners, classes and shares of standing tasks; with the class only the deadline changes, with the share only
which tasks lie. (So Reference has to take equally many in each class.) A recording is a file, and `summary` is called on the
files of a set; nothing that it prints is computed here in another way.

Prints the rejected tasks in percent (answers 10 and 9, of those submitted), and how many fewer than Reference: relative (of what
Reference rejects) and in points; beside it what the source states. Each is a mean over the 20 sets, with the half-width of its
95 percent confidence interval. Then whether what the source says in words was found: held, NOT HELD, or not told apart where the
interval of the difference has 0 in it (at 95 percent, one in twenty verdicts may be chance). Full is not in the source.
Ends with 0 when it ran through, also where it disagrees with the source; with 2 for a wrong call or a program that fails,
miscounts, or sees a task outside its class.
"""
import itertools
import math
import os
import random
import re
import statistics
import struct
import subprocess
import sys
import tempfile
from collections import defaultdict

COLUMNS, ROWS = 96, 64
PLANNERS = ["reference", "horizon", "stuffing", "full"]
LAXITIES = {"A": (1, 50), "B": (51, 100), "C": (101, 200)}
MEAN_GAP = 7.0  # our choice, see above
SETS = 20
STUDENT = 2.093  # 95 percent, two-sided, SETS - 1 degrees of freedom
HEADER = "planner class submitted taken rejected refused waited taken/submitted"
SHARES = [0, 25, 50, 75, 100]
PAPER_A = {("C", "horizon"): 14.46, ("C", "stuffing"): 23.56}
PAPER_B = {(100, "horizon"): 32, (100, "stuffing"): 59}


def fail(message):
    print(f"figure10.py: {message}", file=sys.stderr)
    sys.exit(2)


def draw_tasks(dice, count, gap, standing_percent):
    """Tasks as (arrival, width, height, execution time, laxity in each class)."""
    tasks, instant = [], 0.0
    for _ in range(count):
        instant += dice.expovariate(1 / gap)
        area, ratio = dice.uniform(50, 500), dice.uniform(1, 5)
        long, short = round(math.sqrt(area * ratio)), round(math.sqrt(area / ratio))
        width, height = (short, long) if dice.uniform(0, 100) < standing_percent else (long, short)
        execution = dice.randint(5, 100)
        laxity = {name: dice.randint(*ends) for name, ends in LAXITIES.items()}
        tasks.append((int(instant), width, height, execution, laxity))
    return tasks


def recording(tasks, planner, class_name):
    """The event records (document 01): a new board, then each task at its arrival. And how many they are."""
    records, now = [struct.pack("<BHH", 1, COLUMNS, ROWS)], 0
    for number, (arrival, width, height, execution, laxity) in enumerate(tasks, 1):
        if arrival != now:
            records.append(struct.pack("<BI", 3, arrival))
            now = arrival
        deadline = arrival + execution + laxity[class_name]
        records.append(struct.pack("<BBIHHII", 2, PLANNERS.index(planner), number, width, height, execution, deadline))
    return b"".join(records), len(records)


def summarize(command, folder, tasks, classes):
    """Calls the program on a recording for each planner and class. (planner, class) -> rejected, refused."""
    files, events = [], 0
    for planner in PLANNERS:
        for class_name in classes:
            records, count = recording(tasks, planner, class_name)
            files.append(os.path.join(folder, f"{planner}-{class_name}"))
            with open(files[-1], "wb") as file:
                file.write(records)
            events += count
    try:
        done = subprocess.run(command + files, capture_output=True, text=True, errors="replace")
    except OSError as error:
        fail(f"cannot run {command[0]}: {error.strerror}")
    if done.returncode != 0:
        fail(f"{' '.join(command)} ended with {done.returncode}: {done.stderr.strip()}")
    lines = done.stdout.splitlines()
    end = ["refused without class 0", f"events {events} files {len(files)} stop end"]
    if len(lines) != 19 or lines[0] != HEADER or lines[17:] != end:
        fail(f"expected a summary of 19 lines that ends in {end}, not {len(lines)} lines that end in {lines[-2:]}")
    counts = {}
    rows = itertools.product(PLANNERS, [*LAXITIES, "Other"])
    for (planner, class_name), line in zip(rows, lines[1:17]):
        expected = len(tasks) if class_name in classes else 0
        found = re.fullmatch(rf"{planner} {class_name} (\d+) (\d+) (\d+) (\d+) \d+ \d+/\d+", line)
        submitted, taken, rejected, refused = map(int, found.groups()) if found else (-1, 0, 0, 0)
        if submitted != expected or taken + rejected + refused != expected:
            fail(f"expected {expected} tasks of class {class_name} by {planner}, not: {line}")
        if class_name in classes:
            counts[planner, class_name] = rejected, refused
    return counts


def mean(values):
    """The mean and the half-width of its 95 percent confidence interval."""
    return statistics.mean(values), STUDENT * statistics.stdev(values) / math.sqrt(len(values))


def less(values, others):
    return [value - other for value, other in zip(values, others)]


def shown(values):
    return "{:6.2f} ± {:.2f}".format(*mean(values))


def table(head, labels, percents, paper):
    print(f"{head:11} planner    rejected %     relative %     points         source")
    for label in labels:
        reference = percents[label, "reference"]
        for planner in PLANNERS:
            ours = percents[label, planner]
            line = f"{label!s:11} {planner:10} {shown(ours):14}"
            if planner != "reference":
                points = less(reference, ours)
                relative = [100 * p / r if r else 0.0 for p, r in zip(points, reference)]
                line += f" {shown(relative):14} {shown(points):14} {paper.get((label, planner), '')}"
            print(line.rstrip())


def falls(what, series):
    """A line on whether the percents fall from each entry of the series to the next, by their paired differences."""
    steps = []
    for before, after in zip(series, series[1:]):
        difference, half = mean(less(before, after))
        verdict = "not told apart" if abs(difference) <= half else "held" if difference > 0 else "NOT HELD"
        steps.append(f"{difference:+.2f} ± {half:.2f} {verdict}")
    print(f"  {what:10} {', '.join(steps)}")


def main():
    if not 2 <= len(sys.argv) <= 3 or sys.argv[1].startswith("-"):
        print(__doc__, file=sys.stderr)
        sys.exit(2)
    program = sys.argv[1]
    if "/" not in program and os.path.isfile(program):
        program = "./" + program
    command = os.environ.get("RUN", "").split() + [program]
    try:
        count = int(sys.argv[2]) if len(sys.argv) == 3 else 5000
        seed, gap = int(os.environ.get("SEED") or 1), float(os.environ.get("GAP") or MEAN_GAP)
    except ValueError as error:
        fail(f"TASKS, SEED and GAP are to be numbers: {error}")
    if not (1 <= count <= 1_000_000 and 0.1 <= gap <= 1000):
        fail("TASKS is to be 1 to 1000000, GAP 0.1 to 1000")

    by_class, by_share, refusals = defaultdict(list), defaultdict(list), 0
    with tempfile.TemporaryDirectory() as folder:
        for number, share in itertools.product(range(SETS), SHARES):
            tasks = draw_tasks(random.Random(f"{seed} {number}"), count, gap, share)
            counts = summarize(command, folder, tasks, list(LAXITIES) if share == 50 else ["B"])
            for (planner, class_name), (rejected, refused) in counts.items():
                refusals += refused
                if share == 50:
                    by_class[class_name, planner].append(100 * (rejected + refused) / count)
                if class_name == "B":
                    by_share[share, planner].append(100 * (rejected + refused) / count)

    print(f"seed {seed}, {SETS} sets of {count} tasks, mean interarrival time {gap:g} ticks, "
          f"refused because 64 were live (in 'rejected' below): {refusals}")
    print("The source's 'by N percent' is taken as relative: 59 points and still above 10 % would need Reference above 69 %.")
    print("\nFig. 10a: half of the tasks standing")
    table("class", LAXITIES, by_class, PAPER_A)
    independent = by_class["A", "reference"] == by_class["B", "reference"] == by_class["C", "reference"]
    print(f"Reference is independent of the class: {'yes, equally many in each set' if independent else 'NO'}")
    print("Reference rejects more than Horizon, Horizon than Stuffing, Stuffing than Full, in points:")
    for class_name in LAXITIES:
        falls(class_name, [by_class[class_name, planner] for planner in PLANNERS])
    print("The lead over Reference grows from A to B, from B to C:")
    for planner in PLANNERS[1:]:
        falls(planner, [less(by_class[class_name, planner], by_class[class_name, "reference"]) for class_name in LAXITIES])

    print("\nFig. 10b: class B")
    table("standing %", SHARES, by_share, PAPER_B)
    print("Fewer are rejected where more tasks stand, from 0 to 25, 25 to 50, 50 to 75, 75 to 100 %, in points:")
    for planner in PLANNERS:
        falls(planner, [by_share[share, planner] for share in SHARES])
    print("The lead over Reference grows:")
    for planner in PLANNERS[1:]:
        falls(planner, [less(by_share[share, planner], by_share[share, "reference"]) for share in SHARES])
    print(f"Stuffing at 100 % standing stays above 10 % rejected in the source; here {shown(by_share[100, 'stuffing']).strip()}")


main()
