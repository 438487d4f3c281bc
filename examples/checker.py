#!/usr/bin/env python3
"""Checks a ledger of a flux system: checker.py SYSTEM LEDGER. docs/CHECKER.md explains it line by line."""
import re
import sys

PARTS = 10**12  # of a nanolumen
SYSTEM = r"lux-system 1\npatches #\nthreshold #\ndirect(?: #)+\nreflectance(?: #)+\n(?:shares(?: #)+\n)+"
PATCHES, INTERVALS = r"(?:patch # direct # taken # residual # err #\n)+", r"(?:interval # # #\n)*"
LEDGER = r"lux-ledger 1\npatches #\nwins #\nparts #\n" + PATCHES + INTERVALS


def require(holds, *words):
    if not holds:
        print(*words)
        sys.exit(1)


def read(name, form):
    text = (open(name, encoding="latin-1", newline="").read().removesuffix("\n") + "\n").replace("\r\n", "\n")
    require(re.fullmatch(form.replace("#", "(?:0|[1-9][0-9]{0,19})"), text), "no text of its kind:", name)
    lines = [[int(word) for word in line.split(" ") if word.isdecimal()] for line in text.split("\n")[1:-1]]
    require(max(map(max, lines)) < 2**64, "a number of more than 64 bits:", name)
    return lines


(n,), (threshold,), direct, reflectance, *shares = read(sys.argv[1], SYSTEM)
require(n <= 1024 and all(len(values) == n for values in (direct, reflectance, shares, *shares)), "no system: size")
require(1 <= threshold <= 10**16 and max(reflectance) <= 950 and max(map(sum, shares)) < 10**9, "no system: values")
rows = [[r * share for share in row] for r, row in zip(reflectance, shares)]
columns, kept = list(zip(*rows)), [PARTS - sum(row) for row in rows]

(size,), (wins,), (parts,), *lines = read(sys.argv[2], LEDGER)
patches, ends = ([line for line in lines if len(line) == length] for length in (5, 3))
require(size <= 4096 and parts < 2**32 and [j for j, *_ in patches] == [*range(size)], "no ledger: head or patches")
require([j for j, *_ in ends] in ([], [*range(size)]), "no ledger: intervals")

require(size == n, "size", n, size)
_, own, taken, residual, err = zip(*patches)
for j in range(n):
    require(own[j] == direct[j], "direct", j, direct[j], own[j])
for j in range(n):
    require(err[j] < parts * PARTS, "err", j, err[j])
for j in range(n):
    require(residual[j] < threshold, "residual", j, residual[j])
for j in range(n):
    there = PARTS * (taken[j] + residual[j]) + err[j]
    came = PARTS * direct[j] + sum(t * passed for t, passed in zip(taken, columns[j]))
    require(there == came, "unbalanced", j, there, came)
most_wins = PARTS * sum(direct) // (threshold * min(kept))
require(wins <= most_wins, "wins", wins, most_wins)

spill = -(-(PARTS * sum(residual) + sum(err)) // PARTS)
intervals = []
for j in range(n):
    low = taken[j] + residual[j]
    most = max(-(-passed * spill // keep) for passed, keep in zip(columns[j], kept))
    intervals.append([j, low, low - (-err[j] // PARTS) + most])
    require(not ends or ends[j] == intervals[j], "bounds", *intervals[j])
print("\n".join(["balanced", *("interval {} {} {}".format(*interval) for interval in intervals)]))
