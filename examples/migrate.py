#!/usr/bin/env python3
"""Turns a project of version 1 into one of version 2 that says the same.

    migrate.py PROJECT >NEW

In version 2 each wall has its own reflectance, so `version = 1` becomes `version = 2`, and `walls = 500` becomes
`walls = [500, 500, 500, 500]`. All else stays as it is, with its comments and its line ends. `lux run` answers both
projects alike, to the byte. What is written is read again: it is the same project but for these two values, or nothing
is written. As Python reads TOML 1.0, a project is refused that is TOML 1.1 alone.

Exit status: 0, 1 where a project can't be turned, and 77 where this Python can't read one.
"""
import copy
import itertools
import re
import sys

sys.dont_write_bytecode = True  # the module beside this program leaves nothing behind
from rooms import Unusable, tomllib

DONE, REFUSED, SKIPPED = 0, 1, 77


def values_of(key, text):
    """Where a number may stand as the value of a key, quoted or not: comments and texts may look so as well."""
    return [match.span(1) for match in re.finditer(key + r"""["']?[ \t]*=[ \t]*([-+0-9A-Fa-fxob_]+)""", text)]


def exchanged(text, spans, values):
    """A text with other values in these places, which don't overlap."""
    for (start, end), value in sorted(zip(spans, values), reverse=True):
        text = text[:start] + value + text[end:]
    return text


def tree_of(text):
    try:
        return tomllib.loads(text)
    except ValueError as error:
        raise Unusable(f"no TOML: {error}")


def is_tree(text, wanted):
    """Whether a text is TOML, and stands for this."""
    try:
        return tomllib.loads(text) == wanted
    except ValueError:
        return False


def migrated(text):
    """A project of version 1 as one of version 2."""
    tree = tree_of(text)
    if type(tree.get("version")) is not int or tree["version"] != 1:
        raise Unusable("its version is not 1")
    if "region" in tree:
        raise Unusable("version 1 has no regions")
    room = tree.get("room")
    walls = room.get("walls") if isinstance(room, dict) else None
    if type(walls) is not int:
        raise Unusable("room.walls is no number")
    wanted = copy.deepcopy(tree)
    wanted["version"], wanted["room"]["walls"] = 2, [walls] * 4
    for places in itertools.product(values_of("version", text), values_of("walls", text)):
        literal = text[slice(*places[1])]
        new = exchanged(text, places, ("2", f"[{', '.join([literal] * 4)}]"))
        if is_tree(new, wanted):
            return new
    raise Unusable("its version or its walls are written in another way than `version = 1` and `walls = 500`")


def main(words):
    if tomllib is None:
        print("migrate: this Python has no tomllib, which comes with Python 3.11", file=sys.stderr)
        return SKIPPED
    try:
        if len(words) != 1:
            raise Unusable("usage: migrate.py PROJECT >NEW")
        try:
            with open(words[0], encoding="utf-8", newline="") as file:
                new = migrated(file.read())
        except (OSError, ValueError) as error:
            raise Unusable(f"{words[0]}: cannot be read: {error}")
        except Unusable as error:
            raise Unusable(f"{words[0]}: {error}")
    except Unusable as error:
        print(f"migrate: {error}", file=sys.stderr)
        return REFUSED
    sys.stdout.buffer.write(new.encode())
    return DONE


if __name__ == "__main__":
    sys.exit(main(sys.argv[1:]))
