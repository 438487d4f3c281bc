#!/usr/bin/env python3
"""Reads a photometry file, IES LM-63 or EULUMDAT, by docs/FORMATS.md, in whole numbers and fractions.

    photometry.py FILE

writes what `lux photo FILE` writes. It shares nothing with `lux` but the description of the formats. It is there for
files that `lux` accepts: of a file that `lux` refuses it says less, or nothing.
"""
import re
import sys
from collections import namedtuple
from fractions import Fraction

NUMBER = re.compile(r"[+-]?(\d+\.?\d*|\.\d+)([Ee][+-]?\d\d?)?", re.ASCII)
HEADERS = ("IESNA:LM-63-2002", "IESNA:LM-63-1995", "IESNA91")
TURN = 360000  # angles are in thousandths of a degree
# For each symmetry, which planes a stored plane is the image of.
IMAGES = {
    "axis": lambda plane: (0,),
    "quadrant": lambda plane: (plane, TURN // 2 - plane, TURN // 2 + plane, TURN - plane),
    "plane0": lambda plane: (plane, TURN - plane),
    "plane90": lambda plane: (plane, (TURN // 2 - plane) % TURN),
    "full": lambda plane: (plane,),
}

# Intensities are in microcandela: a list for each plane, in it one for each gamma.
Web = namedtuple("Web", "gammas planes intensities")
Photometry = namedtuple("Photometry", "form symmetry web")


class NoPhotometry(Exception):
    """A file that can't be read as photometry, and why."""


def number(word):
    if not NUMBER.fullmatch(word):
        raise NoPhotometry(f"{word[:40]!r} is no number")
    return Fraction(word)


def cut(value, places):
    """A number times a power of ten, cut to a whole number."""
    return int(value * 10**places)


def count(value, least, most):
    if value.denominator != 1 or not least <= value <= most:
        raise NoPhotometry(f"a count is {value}")
    return int(value)


def rising(angles, most):
    """Angles in thousandths of a degree, each above the one before it."""
    cuts = [cut(angle, 3) for angle in angles]
    if min(angles) < 0 or cuts[-1] > most or any(low >= high for low, high in zip(cuts, cuts[1:])):
        raise NoPhotometry("angles don't rise within their limits")
    return cuts


def expanded(symmetry, gammas, planes, intensities):
    """The web of stored planes: each image of each of them once, in rising order, and plane 0 once more at 360 degrees
    where that is no image."""
    web = {image: row for plane, row in zip(planes, intensities) for image in IMAGES[symmetry](plane)}
    web.setdefault(TURN, web[0])
    return Web(gammas, sorted(web), [web[plane] for plane in sorted(web)])


def symmetry_of(planes):
    first, last = planes[0], planes[-1]
    if planes == [0]:
        return "axis"
    if first == 90000 and last == 270000 and 180000 in planes:
        return "plane90"
    if first == 0 and last in (90000, 180000) or first == 0 and last > 180000:
        return {90000: "quadrant", 180000: "plane0"}.get(last, "full")
    raise NoPhotometry("no symmetry has these horizontal angles")


def read_lm63(lines):
    if lines[0].rstrip(" \t") not in HEADERS:
        raise NoPhotometry("another header")
    tilt = next((place for place, line in enumerate(lines) if place and line.startswith("TILT=")), None)
    if tilt is None:
        raise NoPhotometry("no line TILT=")
    numbers = map(number, re.findall(r"[^ \t,\r\n]+", "\n".join(lines[tilt + 1 :])))

    def take(many):
        return [next(numbers) for _ in range(many)]

    if lines[tilt].removeprefix("TILT=").strip(" \t") == "INCLUDE":
        _, pairs = take(2)
        take(2 * count(pairs, 1, 721))
    _, _, multiplier, verticals, horizontals, kind, _, _, _, _, ballast, twelfth, _ = take(13)
    if kind != 1:
        raise NoPhotometry("not of type C")
    gammas = rising(take(count(verticals, 2, 721)), TURN // 2)
    planes = rising(take(count(horizontals, 1, 361)), TURN)
    factor = cut(multiplier, 9) * cut(ballast, 9) * cut(twelfth, 9) // 10**18
    rows = [[cut(value, 9) * factor // 10**12 for value in take(len(gammas))] for _ in planes]
    if next(numbers, None) is not None:
        raise NoPhotometry("numbers behind the last value")
    symmetry = symmetry_of(planes)
    return Photometry("lm63", symmetry, expanded(symmetry, gammas, planes, rows))


def stored_planes(indicator, planes):
    """The symmetry of an indicator, and which planes are stored, counted from 0."""
    stored = {
        0: ("full", range(planes)),
        1: ("axis", range(1)),
        2: ("plane0", range(planes // 2 + 1)),
        3: ("plane90", [(3 * planes // 4 + k) % planes for k in range(planes // 2 + 1)]),
        4: ("quadrant", range(planes // 4 + 1)),
    }
    return stored[indicator]


def read_ldt(lines):
    def value(line):
        return number(lines[line - 1].strip(" \t").replace(",", ".", 1))

    planes, gammas = count(value(4), 1, 360), count(value(6), 2, 721)
    symmetry, stored = stored_planes(count(value(3), 0, 4), planes)
    if value(26) != 1:
        raise NoPhotometry("not one lamp set")
    factor = cut(value(29), 3) * cut(value(24), 6)
    first_gamma, first_value = 43 + planes, 43 + planes + gammas
    angles = [0] if symmetry == "axis" else [cut(value(43 + plane), 3) for plane in stored]
    if symmetry == "plane90":  # a plane stored at C is the one at 180 degrees - C
        angles = [(TURN // 2 - angle) % TURN for angle in angles]
    rows = [
        [cut(value(first_value + row * gammas + k), 9) * factor // 10**15 for k in range(gammas)]
        for row in range(len(angles))
    ]
    if any(line.strip(" \t") for line in lines[first_value - 1 + len(angles) * gammas :]):
        raise NoPhotometry("lines behind the last value")
    gamma_angles = rising([value(first_gamma + k) for k in range(gammas)], TURN // 2)
    return Photometry("ldt", symmetry, expanded(symmetry, gamma_angles, angles, rows))


def read_photometry(name):
    """The photometry of a file."""
    ending = b" \t\r\n"
    try:
        with open(name, "rb") as file:
            body = file.read().rstrip(ending).removesuffix(b"\x1a").rstrip(ending)
        lines = [line.removesuffix("\r") for line in body.decode("latin-1").split("\n")]
        return read_lm63(lines) if body.startswith((b"IESNA", b"IES:")) else read_ldt(lines)
    except OSError as error:
        raise NoPhotometry(f"{name}: cannot be read: {error.strerror}")
    except (StopIteration, IndexError):
        raise NoPhotometry(f"{name}: no photometry: it ends too early")
    except NoPhotometry as error:
        raise NoPhotometry(f"{name}: no photometry: {error}")


def photometry_lines(photometry):
    yield f"photometry {photometry.form}"
    yield f"symmetry {photometry.symmetry}"
    web = photometry.web
    yield " ".join(map(str, ["gammas", *web.gammas]))
    for plane, row in zip(web.planes, web.intensities):
        yield " ".join(map(str, ["plane", plane, *row]))


def main(words):
    try:
        if len(words) != 1:
            raise NoPhotometry("usage: photometry.py FILE")
        for line in photometry_lines(read_photometry(words[0])):
            print(line)
    except NoPhotometry as error:
        print(f"photometry: {error}", file=sys.stderr)
        return 1
    return 0


if __name__ == "__main__":
    sys.exit(main(sys.argv[1:]))
