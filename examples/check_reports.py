#!/usr/bin/env python3
"""Checks reports that `lux run` wrote, whichever of its shooters took what and when.

    check_reports.py PROJECT REFERENCE SHOOTERS:STATUS:REPORT ..

PROJECT is a project file, REFERENCE a report of it that is known to be right, as one shooter always writes it, and each
REPORT what was written with so many SHOOTERS by a run that ended with this STATUS. Reports of several shooters may
differ from run to run, and each of them must

- be a report in lines, to the last byte, say what the project says, and have the parts of its shooters and the desk;
- have the reference's direct flux and its sum, and balance at each patch;
- be paid and finished: as many wins took at least the threshold each, and no residual reaches it;
- have the intervals of patches that follow from its ledger, and these must meet the reference's: both enclose what is
  exact;
- have the intervals of points that follow from those of patches, averages and uniformities that follow from those of
  points, the verdicts that these have at the project's limits, and the status that follows from the verdicts, with
  which the run ended.

Each number is held against those that it follows from, as they are printed, so that a wrong one is found once. Nothing
in a report says how many wins there were: their number is held against its bounds alone. What luminaires send to
patches and points is taken from the reference, and no photometry is read. All is computed in whole numbers, where `//`
is the quotient, cut; rooms, patches, shares, points and verdicts are those of docs/FORMATS.md.

Each fault is a line, and the last line says how many reports are right. Exit status: 0 where all are, 1 where one is
not, 2 where they can't be checked by these words, and 77 where this Python can't read a project.
"""
import itertools
import operator
import re
import sys
from array import array
from collections import namedtuple

sys.dont_write_bytecode = True  # the module beside this program leaves nothing behind
from rooms import SCALE, X, Y, Unusable, load_project, patches_of, round_up, rows_of, tomllib, way_between

ALL_RIGHT, FAULTY, UNUSABLE, SKIPPED = 0, 1, 2, 77

MOST_SHOOTERS = 64
NUMERAL = re.compile("0|[1-9][0-9]{0,38}")
RUN = re.compile("([0-9]+):([0-9]+):(.+)")
VERDICTS = ("pass", "fail", "open")
Report = namedtuple("Report", "total wins parts direct taken residual err intervals answers status")
# What a report says on a check: the ends of both values with their verdicts, and the ends of each point.
Answer = namedtuple("Answer", "average average_verdict uniformity uniformity_verdict points")


def points_of(check):
    """The points of a check in their order, in half-millimetres: the middles of the cells of its rectangle."""
    middles = [
        [2 * first + (2 * k + 1) * (last - first) // cells for k in range(cells)]
        for (first, last), cells in zip((check["x"], check["y"]), check["points"])
    ]
    return [(x, y, 2 * check["z"]) for y, x in itertools.product(middles[Y], middles[X])]


def light_from(patch, point):
    """What a patch sends to a level surface at a point of each nanolumen that reaches it, in parts of 10^15 of a
    nanolux: its reflectance times the two cosines over the square of the distance, and over pi, whose reciprocal is
    counted in parts of 10^9. It is 0 unless the point lies in front of the patch, and the patch's middle above it.
    """
    x, y, z = way = way_between(point, patch.centre)
    ahead = -patch.towards * way[patch.normal]
    if ahead <= 0 or z <= 0:
        return 0
    square = x * x + y * y + z * z
    return patch.reflectance * (318309886 * 4 * 10**9 * ahead * z // (square * square))


class Grid:
    """The points of a check, with what comes to each from the patches, and its limits."""

    def __init__(self, check, patches):
        self.name = check["name"]
        self.lights = [[light_from(patch, point) for patch in patches] for point in points_of(check)]
        self.maintenance = check["maintenance"]
        self.average_limit = 1000 * check["average"]  # millilux
        self.uniformity_limit = check["uniformity"]  # per mille

    def reflected(self, intervals):
        """The two ends of what patches with these intervals send to each point, in nanolux."""
        lows, highs = zip(*intervals)
        for lights in self.lights:
            low, high = (sum(map(operator.mul, lights, ends)) for ends in (lows, highs))
            yield low // 10**15, round_up(high, 10**15)

    def average(self, points):
        """The two ends of the average of points with these intervals, as it is maintained, in millilux."""
        low, high = (self.maintenance * sum(ends) for ends in zip(*points))
        return low // (len(points) * 10**9), round_up(high, len(points) * 10**9)

    def uniformity(self, points):
        """The two ends of the uniformity, the least over the mean, in per mille: 1000 where there is no light."""
        lows, highs = zip(*points)
        low = 1000 * min(lows) * len(points) // sum(highs) if sum(highs) else 1000
        high = round_up(1000 * min(highs) * len(points), sum(lows)) if sum(lows) else 1000
        return low, min(high, 1000)


def verdict_of(ends, limit):
    """What is known of a value between two ends: it passes a limit, fails it, or neither is known."""
    low, high = ends
    return "pass" if low >= limit else "fail" if high < limit else "open"


def status_of(verdicts):
    """The status that some verdicts come to: the worst of them counts."""
    return 1 if "fail" in verdicts else 2 if "open" in verdicts else 0


class System:
    """The flux system of a project.

    Its exact solution has at each patch j

        exact[j] = direct[j] + (the sum over i of coefficient[i][j] * exact[i]) / 10^12

    which is the radiosity equation of Cohen, Chen, Wallace and Greenberg (1988) for the flux that reaches each patch.
    What patch i doesn't pass on it keeps: kept[i] = 10^12 - (the sum over j of coefficient[i][j]).
    """

    def __init__(self, project):
        patches = patches_of(project)
        self.patches = len(patches)
        self.luminaires = len(project.get("luminaire", []))
        self.grids = [Grid(check, patches) for check in project.get("check", [])]
        self.threshold = project["solver"]["threshold"]
        self.rows, self.least_kept = [], SCALE
        # Of each patch the coefficient and the kept part whose quotient is the greatest.
        self.steepest = [(0, SCALE)] * self.patches
        for patch, shares in zip(patches, rows_of(patches)):
            self.add_row(array("Q", (patch.reflectance * share for share in shares)))

    def add_row(self, row):
        """Adds what the next patch passes on to each patch."""
        kept = SCALE - sum(row)
        self.rows.append(row)
        self.least_kept = min(self.least_kept, kept)
        for j, coefficient in enumerate(row):
            greatest, of_kept = self.steepest[j]
            if coefficient * of_kept > greatest * kept:
                self.steepest[j] = coefficient, kept

    def passed_on(self, taken):
        """What all that was taken passes on to each patch j, in parts: the sum over i of taken[i] * coefficient[i][j]."""
        passed = [0] * self.patches
        for amount, row in zip(taken, self.rows):
            if amount:
                passed = list(map(operator.add, passed, map(operator.mul, row, itertools.repeat(amount))))
        return passed

    def intervals(self, report):
        """The interval of each patch that follows from a finished and balanced ledger, in nanolumens:

            low[j]  = taken[j] + residual[j]
            high[j] = low[j] + err[j] / 10^12 + the greatest over i of coefficient[i][j] * spill / kept[i]
            spill   = the sum over j of residual[j] + err[j] / 10^12

        with each of the quotients and the spill rounded up. The greatest quotient is that of the greatest coefficient
        over kept part, whatever the spill.
        """
        spill = round_up(SCALE * sum(report.residual) + sum(report.err), SCALE)
        for taken, residual, err, (coefficient, kept) in zip(report.taken, report.residual, report.err, self.steepest):
            low = taken + residual
            yield low, low + round_up(err, SCALE) + round_up(coefficient * spill, kept)


def report_lines(system, shooters):
    """The lines of a report, where # stands for a numeral and ? for a verdict."""
    yield from ("lux report 1", f"patches {system.patches}", f"luminaires {system.luminaires}", f"shooters {shooters}")
    yield from (f"threshold {system.threshold}", "direct #", "wins #", "parts #")
    yield from (f"patch {j} direct # taken # residual # err # low # high #" for j in range(system.patches))
    for grid in system.grids:
        yield f"check {grid.name} points {len(grid.lights)}"
        yield f"average low # high # limit {grid.average_limit} ?"
        yield f"uniformity low # high # limit {grid.uniformity_limit} ?"
        yield from (f"point {g} low # high #" for g in range(len(grid.lights)))
    yield "status #"


def values_of(line, form):
    """The numbers and verdicts of a line, or None where it is not of the form."""
    words, expected = line.split(" "), form.split(" ")
    if len(words) != len(expected):
        return None
    values = []
    for word, wanted in zip(words, expected):
        if wanted == "#" and NUMERAL.fullmatch(word) and int(word) < 2**128:
            values.append(int(word))
        elif wanted == "?" and word in VERDICTS:
            values.append(word)
        elif wanted in "#?" or word != wanted:
            return None
    return values


def answer_of(lines, points):
    """What the next lines say on a check of so many points."""
    next(lines)
    *average, average_verdict = next(lines)
    *uniformity, uniformity_verdict = next(lines)
    ends = [tuple(next(lines)) for _ in range(points)]
    return Answer(tuple(average), average_verdict, tuple(uniformity), uniformity_verdict, ends)


def parse_report(text, system, shooters):
    """The report that a text says; else the first line that is not as it must be."""
    *lines, rest = text.split("\n")
    if rest:
        raise Unusable(f"line {len(lines) + 1}: no line end behind {ascii(rest)[:120]}")
    values = []
    for number, (line, form) in enumerate(itertools.zip_longest(lines, report_lines(system, shooters)), 1):
        if line is None:
            raise Unusable(f"line {number}: missing, must be '{form}'")
        if form is None:
            raise Unusable(f"line {number}: {ascii(line)[:120]} stands behind the last line")
        values.append(values_of(line, form))
        if values[-1] is None:
            raise Unusable(f"line {number}: {ascii(line)[:120]}, must be '{form}'")
    after_head = iter(values[5:])
    head = [number for (number,) in itertools.islice(after_head, 3)]
    *ledger, lows, highs = zip(*itertools.islice(after_head, system.patches))
    answers = [answer_of(after_head, len(grid.lights)) for grid in system.grids]
    (status,) = next(after_head)
    return Report(*head, *ledger, list(zip(lows, highs)), answers, status)


def read_report(name, system, shooters):
    try:
        with open(name, encoding="latin-1", newline="") as file:
            text = file.read()
    except OSError as error:
        raise Unusable(f"cannot be read: {error.strerror}")
    return parse_report(text, system, shooters)


class Reference:
    """What is taken from the reference: its direct flux and intervals, and what luminaires send to each point, which is
    what its points have beside what its patches send there."""

    def __init__(self, system, report):
        self.direct = report.direct
        self.intervals = report.intervals
        self.direct_lights = [
            [low - least for (low, _), (least, _) in zip(answer.points, grid.reflected(report.intervals))]
            for grid, answer in zip(system.grids, report.answers)
        ]


def faults_in_all(system, shooters, report):
    """What is wrong with a report as a whole."""
    if report.parts != 1 + shooters:
        yield f"parts {report.parts}, must be {1 + shooters}"
    if report.total != sum(report.direct):
        yield f"direct flux {report.total} in all, must be {sum(report.direct)}"
    taken, direct = sum(report.taken), SCALE * sum(report.direct)
    least_taken = report.wins * system.threshold
    least_kept = least_taken * system.least_kept
    if least_taken > taken:
        yield f"not paid: the wins took at least {least_taken}, and taken is {taken}"
    if least_kept > direct:
        yield f"too many wins: they keep at least {least_kept} parts, and the direct flux is {direct}"


def faults_at(j, system, reference, report, passed, interval):
    """What is wrong with a report at patch j, to which so much is passed on, where this interval follows from its
    ledger.

    It balances where what is there is what came, in parts: 10^12 * (taken + residual) + err of the patch is
    10^12 * direct and what all that was taken passes on to it.
    """
    direct, taken, residual, err = report.direct[j], report.taken[j], report.residual[j], report.err[j]
    if direct != reference.direct[j]:
        yield f"direct {direct}, must be {reference.direct[j]}"
    there = SCALE * (taken + residual) + err
    came = SCALE * direct + passed
    if there != came:
        yield f"not balanced: there is {there}, and {came} came"
    if err >= SCALE * report.parts:
        yield f"err {err}, must be below {SCALE * report.parts}"
    if residual >= system.threshold:
        yield f"not finished: residual {residual}, must be below {system.threshold}"
    printed, other = report.intervals[j], reference.intervals[j]
    if printed != interval:
        yield "interval {} {}, must be {} {}".format(*printed, *interval)
    if max(printed[0], other[0]) > min(printed[1], other[1]):
        yield "apart from the reference: interval {} {}, there {} {}".format(*printed, *other)


def faults_on(grid, direct_lights, intervals, answer):
    """What is wrong with what a report says on a check, where its patches have these intervals."""
    expected = zip(direct_lights, grid.reflected(intervals))
    for g, ((low, high), (direct, (least, most))) in enumerate(zip(answer.points, expected)):
        if (low, high) != (direct + least, direct + most):
            yield f"point {g} {low} {high}, must be {direct + least} {direct + most}"
    average, uniformity = grid.average(answer.points), grid.uniformity(answer.points)
    if answer.average != average:
        yield "average {} {}, must be {} {}".format(*answer.average, *average)
    if answer.uniformity != uniformity:
        yield "uniformity {} {}, must be {} {}".format(*answer.uniformity, *uniformity)
    verdict = verdict_of(answer.average, grid.average_limit)
    if answer.average_verdict != verdict:
        yield f"verdict on the average '{answer.average_verdict}', must be '{verdict}'"
    verdict = verdict_of(answer.uniformity, grid.uniformity_limit)
    if answer.uniformity_verdict != verdict:
        yield f"verdict on the uniformity '{answer.uniformity_verdict}', must be '{verdict}'"


def faults_of(system, reference, shooters, status, report):
    """All that is wrong with a report of so many shooters, whose run ended with this status."""
    yield from faults_in_all(system, shooters, report)
    for j, (passed, interval) in enumerate(zip(system.passed_on(report.taken), system.intervals(report))):
        yield from (f"patch {j}: {fault}" for fault in faults_at(j, system, reference, report, passed, interval))
    for grid, direct_lights, answer in zip(system.grids, reference.direct_lights, report.answers):
        faults = faults_on(grid, direct_lights, report.intervals, answer)
        yield from (f"check {grid.name}: {fault}" for fault in faults)
    verdicts = [verdict for answer in report.answers for verdict in (answer.average_verdict, answer.uniformity_verdict)]
    if report.status != status_of(verdicts):
        yield f"status {report.status}, must be {status_of(verdicts)}"
    if report.status != status:
        yield f"ended with {status}, and its status is {report.status}"


def run_of(word):
    """The shooters of a run, the status with which it ended, and the name of its report."""
    run = RUN.fullmatch(word)
    if not (run and 1 <= int(run[1]) <= MOST_SHOOTERS):
        raise Unusable(f"{word} is not SHOOTERS:STATUS:REPORT")
    return int(run[1]), int(run[2]), run[3]


def read_project(name):
    try:
        return System(load_project(name))
    except (KeyError, TypeError, ValueError, ZeroDivisionError) as error:
        raise Unusable(f"{name}: no project that can be used: {error}")


def read_reference(name, system):
    try:
        return Reference(system, read_report(name, system, 1))
    except Unusable as error:
        raise Unusable(f"{name}: {error}")


def check(system, reference, shooters, status, name):
    """Prints all that is wrong with a report; whether nothing is."""
    try:
        faults = list(faults_of(system, reference, shooters, status, read_report(name, system, shooters)))
    except Unusable as error:
        faults = [str(error)]
    for fault in faults:
        print(f"{name}: {fault}")
    return not faults


def main(words):
    if tomllib is None:
        print("check_reports: this Python has no tomllib, which comes with Python 3.11", file=sys.stderr)
        return SKIPPED
    try:
        if len(words) < 3:
            raise Unusable("usage: check_reports.py PROJECT REFERENCE SHOOTERS:STATUS:REPORT ..")
        runs = [run_of(word) for word in words[2:]]
        system = read_project(words[0])
        reference = read_reference(words[1], system)
    except Unusable as error:
        print(f"check_reports: {error}", file=sys.stderr)
        return UNUSABLE
    right = sum(check(system, reference, *run) for run in runs)
    print(f"{len(runs)} reports checked, {right} right")
    return ALL_RIGHT if right == len(runs) else FAULTY


if __name__ == "__main__":
    sys.exit(main(sys.argv[1:]))
