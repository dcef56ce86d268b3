#!/usr/bin/env python3
"""Measures the program of speed.rt.txt beside that of plain.c, says for each goal whether it is met, and ends with 1 where one is missed.

    measure.py FOLDER [TURNS [SECONDS]]

FOLDER has the programs `ours` and `plain` and their inputs: ours.NAME and plain.NAME, where NAME is mix, items or a number of nodes. Times are
processor time of whole runs with so many rounds that they take SECONDS, less the least of those with none. Both programs run in turns, TURNS of
them (15 and 0.03): each time is the least, each ratio the median of those of the turns."""
import os
import statistics
import subprocess
import sys

FOLDER = sys.argv[1]
PROGRAMS = ("ours", "plain")
SIZES = (250, 1000, 4000)
TURNS = int(sys.argv[2]) if len(sys.argv) > 2 else 15
SHORTEST = float(sys.argv[3]) if len(sys.argv) > 3 else 0.03
is_missed = False


def ran(program, name, *words):
    """The processor seconds of a run, and what it wrote."""
    with open(f"{FOLDER}/{program}.{name}", "rb") as lines:
        run = subprocess.Popen([f"{FOLDER}/{program}", *map(str, words)], stdin=lines, stdout=subprocess.PIPE)
        said = run.stdout.read()
        _, status, used = os.wait4(run.pid, 0)
    run.returncode = status
    if status != 0:
        sys.exit(f"{program} {name} {words}: status {status}")
    return used.ru_utime + used.ru_stime, said


def rounds_for(program, name, word, kind, base):
    rounds = 1
    while True:
        took = ran(program, name, word, kind, rounds)[0] - base
        if took >= SHORTEST:
            return rounds
        rounds = int(rounds * max(2, min(16, 1.2 * SHORTEST / max(took, 0.001))))


def measured(names, word, kind):
    """Microseconds of a round, by program and name, for each turn. Whatever is compared runs in turns, since a processor that is shared may be
    twice as slow for a while."""
    pairs = [(program, name) for name in names for program in PROGRAMS]
    base = {pair: min(ran(*pair, word, kind, 0)[0] for _ in range(TURNS)) for pair in pairs}
    rounds = {pair: rounds_for(*pair, word, kind, base[pair]) for pair in pairs}
    took = {pair: [] for pair in pairs}
    for _ in range(TURNS):
        for pair in pairs:
            took[pair].append((ran(*pair, word, kind, rounds[pair])[0] - base[pair]) * 1e6 / rounds[pair])
    return took


def median_ratio(one, other):
    """That of the ratios of each turn."""
    return statistics.median(a / b for a, b in zip(one, other))


def verdict(what, number, most):
    global is_missed
    is_met = number <= most
    is_missed = is_missed or not is_met
    print("%s: %s: %.2f, at most %.2f" % ("met" if is_met else "MISSED", what, number, most), flush=True)


def compare(name):
    ours, plain = (ran(program, name, "values", "ALL")[1].decode().split("\n") for program in PROGRAMS)
    if ours != plain:
        at = next((at for at, pair in enumerate(zip(ours, plain)) if pair[0] != pair[1]), min(len(ours), len(plain)))
        sys.exit(f"{name}: the programs differ in line {at + 1} of what they print")
    print(f"{name}: {len(ours) - 1} lines are the same", flush=True)


def kinds_of(name):
    with open(f"{FOLDER}/ours.{name}", encoding="utf-8") as lines:
        return list(dict.fromkeys(line.split("\t")[1] for line in lines if line[0] != "["))


def beside(kind, most):
    for word in ("evaluated", "parsed"):
        took = measured(["mix"], word, kind)
        ours, plain = (took[program, "mix"] for program in PROGRAMS)
        verdict("%s, %s: %.1f us beside %.1f" % (kind, word, min(ours), min(plain)), median_ratio(ours, plain), most)


def grown(kind):
    """What sixteen times as many nodes cost: up to half more than sixteen times as much, but for pairs of nodes."""
    took = measured(SIZES, "evaluated", kind)
    ours, plain = ([took[program, size] for size in SIZES] for program in PROGRAMS)
    said = ["%.1f us beside %.1f" % (min(one), min(other)) for one, other in zip(ours, plain)]
    what = "%s of %s nodes: %s" % (kind, ", ".join(map(str, SIZES)), ", ".join(said))
    growth = median_ratio(ours[-1], ours[0])
    if kind.startswith("pairs-"):
        print("not linear by its meaning: %s: %.2f" % (what, growth), flush=True)
    else:
        verdict(what, growth, 24)


def main():
    print("load %.1f" % os.getloadavg()[0])
    for name in ("mix", "items", *map(str, SIZES)):
        compare(name)
    beside("ALL", 1)
    for kind in kinds_of("mix"):
        beside(kind, 2)
    took = measured(["items"], "evaluated", "ALL")
    verdict("ns an item of sum(../item/sum) over 1,000, libxml2 %.0f" % min(took["plain", "items"]), min(took["ours", "items"]), 60)
    for kind in kinds_of("250"):
        grown(kind)
    print("load %.1f" % os.getloadavg()[0])
    return is_missed


sys.exit(main())
