#!/usr/bin/env python3
"""Writes the system text of a project: its threshold, the direct flux of the patches of its room, their reflectances
and their shares.

    system_text.py PROJECT

With it the ledger of a report of that project can be audited: what `lux run` settles is this system, and it writes a
ledger and no system. All is computed here once more by the formulas of docs/FORMATS.md, from the project and its
photometry files alone, in whole numbers, where `//` is the quotient, cut. The files' names are paths from the current
folder, as they are for `lux run`. It is there for projects that `lux run` accepts; as Python reads TOML 1.0, it refuses
those few that are TOML 1.1 alone, such as one with a byte order mark or an inline table on several lines. A system text
has at most 1,024 patches, so that of a larger room is none that `lux audit` reads.

Exit status: 0, 1 where no text can be made, and 77 where this Python can't read a project.
"""
import math
import sys
from bisect import bisect

sys.dont_write_bytecode = True  # the modules beside this program leave nothing behind
from photometry import TURN, NoPhotometry, read_photometry
from rooms import Unusable, load_project, patches_of, rows_of, tomllib, way_between

DONE, REFUSED, SKIPPED = 0, 1, 77

QUARTER = TURN // 4
UNIT = 10**18  # the sine of a right angle in the table of directions
DEGREE = (17452406437283512, 999847695156391239)  # sine and cosine of one degree


def table_of_directions():
    """Sine and cosine of each whole degree up to 90."""
    sine, cosine = DEGREE
    table = [(0, UNIT)]
    for _ in range(89):
        s, c = table[-1]
        table.append(((s * cosine + c * sine) // UNIT, (c * cosine - s * sine) // UNIT))
    return [*table, (UNIT, 0)]


TABLE = table_of_directions()


def angle(x, y):
    """The angle from the x axis to (x, y), neither of which is negative: as many whole degrees as it has reached, and
    its place between that degree and the next one."""
    if x == y == 0:
        return 0

    def is_past(k):
        return x * TABLE[k][0] > y * TABLE[k][1]

    k = bisect(range(1, 90), False, key=is_past)
    past = y * TABLE[k][1] - x * TABLE[k][0]
    short = x * TABLE[k + 1][0] - y * TABLE[k + 1][1]
    return 1000 * k + 1000 * past // (past + short)


def bearing(x, y):
    """The angle from the x axis all round."""
    quarter = 0
    while x < 0 or y < 0 or x == 0 < y:  # turned back by a quarter of a turn
        quarter, x, y = quarter + 1, y, -x
    return QUARTER * quarter + angle(x, y)


def intensity(web, plane, gamma):
    """The intensity in a direction: the mean of the four stored values around it, each weighed by the part of the cell
    that lies opposite."""
    if not web.gammas[0] <= gamma <= web.gammas[-1]:
        return 0
    a = bisect(web.planes, plane) - 1
    b = min(bisect(web.gammas, gamma), len(web.gammas) - 1) - 1
    u, width = plane - web.planes[a], web.planes[a + 1] - web.planes[a]
    v, height = gamma - web.gammas[b], web.gammas[b + 1] - web.gammas[b]
    near, far = web.intensities[a], web.intensities[a + 1]
    top = near[b] * (width - u) + far[b] * u
    bottom = near[b + 1] * (width - u) + far[b + 1] * u
    return (top * (height - v) + bottom * v) // (width * height)


def beam(luminaire, web, way):
    """The intensity of a luminaire along a way in half-millimetres, at its level."""
    x, y, z = way
    tilt = angle(1000 * abs(z), math.isqrt((x * x + y * y) * 10**6))
    gamma = tilt if z <= 0 else TURN // 2 - tilt
    plane = (bearing(x, y) + TURN - luminaire["rotation"]) % TURN
    return intensity(web, plane, gamma) * luminaire["level"] // 1000


def flux_on(patch, luminaire, web):
    """What a luminaire sends to a patch: intensity times cosine times area over the square of the distance."""
    way = way_between([2 * luminaire[axis] for axis in "xyz"], patch.centre)
    ahead = -patch.towards * way[patch.normal]
    if ahead <= 0:
        return 0
    square = sum(length * length for length in way)
    return beam(luminaire, web, way) * 4 * 10**6 * ahead * patch.area // (square * math.isqrt(square * 10**6))


def direct_flux(patches, luminaires):
    """What all luminaires send to each patch."""
    webs = {file: read_photometry(file).web for file in {luminaire["file"]: None for luminaire in luminaires}}
    return [sum(flux_on(patch, luminaire, webs[luminaire["file"]]) for luminaire in luminaires) for patch in patches]


def system_lines(project):
    patches = patches_of(project)
    yield "lux-system 1"
    yield f"patches {len(patches)}"
    yield f"threshold {project['solver']['threshold']}"
    yield " ".join(map(str, ["direct", *direct_flux(patches, project.get("luminaire", []))]))
    yield " ".join(map(str, ["reflectance", *(patch.reflectance for patch in patches)]))
    for row in rows_of(patches):
        yield " ".join(map(str, ["shares", *row]))


def main(words):
    if tomllib is None:
        print("system_text: this Python has no tomllib, which comes with Python 3.11", file=sys.stderr)
        return SKIPPED
    try:
        if len(words) != 1:
            raise Unusable("usage: system_text.py PROJECT")
        lines = list(system_lines(load_project(words[0])))
    except (Unusable, NoPhotometry) as error:
        print(f"system_text: {error}", file=sys.stderr)
        return REFUSED
    except (KeyError, TypeError, ValueError, ZeroDivisionError) as error:
        print(f"system_text: {words[0]}: no project that can be used: {error!r}", file=sys.stderr)
        return REFUSED
    print("\n".join(lines))
    return DONE


if __name__ == "__main__":
    sys.exit(main(sys.argv[1:]))
