"""The patches of a project's room and their shares, by docs/FORMATS.md, in whole numbers: `//` is the quotient, cut."""
import itertools
import operator
from collections import namedtuple

try:
    import tomllib
except ImportError:
    tomllib = None  # it comes with Python 3.11

SCALE = 10**12  # the parts of a nanolumen in which fractions are counted, and what patches pass on and keep of it
X, Y, Z = range(3)
# For each surface of a room: the axis of its normal, whether it lies at that axis's far end, and the axes along which
# its patches go in a row and its rows go on.
SURFACES = (
    (Z, False, X, Y),
    (Z, True, X, Y),
    (X, False, Y, Z),
    (X, True, Y, Z),
    (Y, False, X, Z),
    (Y, True, X, Z),
)

# The normal of a patch is an axis, towards greater (1) or smaller (-1) places. Centres are in half-millimetres.
Patch = namedtuple("Patch", "centre normal towards area reflectance")


class Unusable(Exception):
    """A text that can't be read as what it should be, and why."""


def load_project(name):
    """The tables of a project file."""
    try:
        with open(name, "rb") as file:
            return tomllib.load(file)
    except (OSError, ValueError) as error:
        raise Unusable(f"{name}: no project that can be used: {error}")


def round_up(dividend, divisor):
    """The quotient, rounded up."""
    return -(-dividend // divisor)


def way_between(here, there):
    """The way from one place to another, along the three axes."""
    return tuple(map(operator.sub, there, here))


def strips(length, parts):
    """The two ends of each part of a length, in whole millimetres: `k * length // parts` and the next."""
    bounds = [k * length // parts for k in range(parts + 1)]
    return list(zip(bounds, bounds[1:]))


def surface_reflectances(project):
    """The reflectance of each surface. A project of version 1 has one number for its four walls, and one of version 2
    a list."""
    room = project["room"]
    walls = [room["walls"]] * 4 if project["version"] == 1 else room["walls"]
    if len(walls) != 4:
        raise ValueError(f"there are 4 walls, and not {len(walls)}")
    return [room["floor"], room["ceiling"], *walls]


def reflectance_at(surface, u, v, reflectance, regions):
    """The reflectance of a patch whose centre is there on its surface, in half-millimetres: that of the last region
    around it, and else the surface's. A region has its near edges and not its far ones."""
    for region in reversed(regions):
        if region["surface"] == surface:
            ends = (region["u"], region["v"])
            if all(2 * near <= place < 2 * far for place, (near, far) in zip((u, v), ends)):
                return region["reflectance"]
    return reflectance


def patches_of(project):
    """The patches of a project's room in their order: surface after surface, row after row."""
    room, regions = project["room"], project.get("region", [])
    lengths = (room["width"], room["depth"], room["height"])
    cuts = [strips(length, parts) for length, parts in zip(lengths, room["counts"])]
    patches = []
    for surface, reflectance in enumerate(surface_reflectances(project)):
        normal, is_far, along, onward = SURFACES[surface]
        for (low, high), (left, right) in itertools.product(cuts[onward], cuts[along]):
            centre = [0, 0, 0]
            centre[normal] = 2 * lengths[normal] if is_far else 0
            centre[along] = left + right
            centre[onward] = low + high
            towards = -1 if is_far else 1
            own = reflectance_at(surface, left + right, low + high, reflectance, regions)
            patches.append(Patch(centre, normal, towards, (right - left) * (high - low), own))
    return patches


def weights_from(one, surface):
    """The weight of each patch of a surface in the light of a patch: 10^15 times the distances of the two centres in
    front of the two planes, times the other's area, over the fourth power of the distance between the centres. It is
    the two cosines times the area over the square of the distance, and 0 unless each centre lies in front of the other
    plane.
    """
    x, y, z = one.centre
    other = surface[0]  # all patches of a surface have one plane
    back = other.towards * (one.centre[other.normal] - other.centre[other.normal])
    if back <= 0:
        return [0] * len(surface)
    scale, plane, normal = 10**15 * back * one.towards, one.centre[one.normal], one.normal
    return [
        max(0, scale * (there[normal] - plane) * area)
        // ((there[X] - x) ** 2 + (there[Y] - y) ** 2 + (there[Z] - z) ** 2) ** 2
        for there, _, _, area, _ in surface
    ]


def shares_from(weights):
    """What share of a patch's light falls on each patch, in parts of 10^9: the weight times 10^9 - 1 over the sum of
    all its weights."""
    total = max(1, sum(weights))  # all are 0 where the sum is
    return [weight * (10**9 - 1) // total for weight in weights]


def rows_of(patches):
    """The shares of each patch, a row for each."""
    surfaces = [list(group) for _, group in itertools.groupby(patches, operator.attrgetter("normal", "towards"))]
    for one in patches:
        yield shares_from(list(itertools.chain.from_iterable(weights_from(one, surface) for surface in surfaces)))
