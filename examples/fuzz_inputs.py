"""Inputs of fuzz.py: files of the examples, damaged in some places, and the words of a command that reads them."""
import os
import pathlib
import random
import re
from dataclasses import dataclass, field

EXAMPLES = pathlib.Path(__file__).resolve().parent
MOST_BYTES = 200_000  # of a file of the examples: runs on greater ones take long
NUMBER = re.compile(rb"-?\d+(?:\.\d+)?")
WORD = re.compile(rb"[^\s,]+")
VALUE = re.compile(rb"(?m)(?<== ).+$")
FILE = re.compile(rb'(?m)^(file *= *)"([^"\\]*)"')
# What a name with a line feed is written with: such a name makes a note of more than one line, and is left out.
LINE_FEEDS = re.compile(rb"\\[nuUx]|\"\"\"|'''")
LIMITS = [str(number).encode() for number in (
    *range(-1, 7), 9, 10, 16, 17, 19, 64, 65, 90, 180, 270, 360, 500, 721, 722, 950, 951, 999, 1000, 1001, 1024, 1025,
    4096, 4097, 90000, 100000, 100001, 180000, 359999, 360000, 360001, 10**6, 10**8, 10**8 + 1, 10**9 - 1, 10**9,
    10**9 + 1, 10**12, 2**31 - 1, 2**31, 2**32 - 1, 2**32, 10**15, 10**16, 10**16 + 1, 2**63 - 1, 2**63, 2**64 - 1,
    2**64, 2**128, 10**30,
)] + [b"1e308", b"1e99", b"1e-99", b"0.5", b"-0", b"1.", b".5", b"+1", b"00", b"1e", b"nan", b"0x10"]
OTHER_KINDS = [
    b"1.5", b'"1"', b"true", b"[1]", b"[]", b"{}", b"[1, 2]", b"[1, 2, 3]", b"[0, 1, 2, 950]", b"[0.5, 1]", b"1979-05-27"
]
BYTES = [b" ", b"\t", b"\n", b"\r\n", b"\r", b",", b"-", b"0", b"\0", b"\x1a", b"\xff"]
FILE_LIMIT, TEXT_LIMIT = 4_194_304, 16_777_216


@dataclass
class Input:
    """The words of a run, and the files that are there, by their names."""

    words: list
    files: dict = field(default_factory=dict)


# Each kind of damage: from dice, a text and another text of its kind to a damaged text.


def flip_bit(dice, text, other):
    at = dice.randrange(len(text))
    return text[:at] + bytes([text[at] ^ 1 << dice.randrange(8)]) + text[at + 1 :]


def put_byte(dice, text, other):
    at = dice.randrange(len(text))
    return text[:at] + dice.choice(BYTES) + text[at:]


def cut(dice, text, other):
    return text[: dice.randrange(len(text))]


def splice(dice, text, other):
    return text[: dice.randrange(len(text))] + other[dice.randrange(len(other)) :]


def change_lines(change):
    def damage(dice, text, other):
        lines = text.splitlines(keepends=True)
        change(dice, lines, dice.randrange(len(lines)), dice.randrange(len(lines)), other)
        return b"".join(lines)

    return damage


def drop_line(dice, lines, at, to, other):
    del lines[at]


def double_line(dice, lines, at, to, other):
    lines.insert(to, lines[at])


def exchange_lines(dice, lines, at, to, other):
    lines[at], lines[to] = lines[to], lines[at]


def take_line(dice, lines, at, to, other):
    lines[at] = dice.choice(other.splitlines(keepends=True))


def double_block(dice, lines, at, to, other):
    lines[to:to] = lines[at : at + dice.randrange(1, 12)] * dice.choice([1, 1, 2, 40])


def change_match(pattern, change):
    def damage(dice, text, other):
        matches = list(pattern.finditer(text))
        if not matches:
            return text
        match = dice.choice(matches)
        return text[: match.start()] + change(dice, match[0], matches) + text[match.end() :]

    return damage


def other_number(dice, number, numbers):
    return dice.choice(LIMITS)


def near_number(dice, number, numbers):
    value = int(number.split(b".")[0])
    return str(dice.choice([value + 1, value - 1, value * 2, value // 2, value * 10, value // 10, -value])).encode()


def number_of_text(dice, number, numbers):
    return dice.choice(numbers)[0]


def drop_word(dice, word, words):
    return b""


def double_word(dice, word, words):
    return word + b" " + word


def other_word(dice, word, words):
    return dice.choice(words)[0]


def other_kind(dice, value, values):
    return dice.choice(OTHER_KINDS)


NUMBERS = [change_match(NUMBER, change) for change in (other_number, near_number, number_of_text)]
DAMAGES = (
    [flip_bit, put_byte, cut, splice]
    + [change_lines(change) for change in (drop_line, double_line, exchange_lines, take_line)]
    + [change_match(WORD, change) for change in (drop_word, double_word, other_word)]
    + NUMBERS * 5
)
DAMAGES_OF_PROJECTS = DAMAGES + [change_match(VALUE, other_kind), change_lines(double_block)] * 2 + NUMBERS * 8
HOW_MUCH = [0, 1, 1, 1, 1, 1, 2, 2, 3, 6]


def damaged(dice, text, others, damages=DAMAGES):
    """A text with some damages, mostly one of them."""
    for _ in range(dice.choice(HOW_MUCH)):
        other = dice.choice(others)
        if text and other:
            text = dice.choice(damages)(dice, text, other)
    return text


def padded(dice, text, limit):
    """A text, once in a while with blanks up to the most bytes that a file may have, or one more."""
    return text if dice.random() < 0.998 else text.ljust(limit + dice.randrange(2))


class Texts(list):
    """Texts of a kind, and among them those that are accepted as they are."""

    def __init__(self):
        self.accepted = []

    def add(self, text, is_accepted=True):
        self.append(text)
        if is_accepted:
            self.accepted.append(text)

    def choose(self, dice):
        """One of them, mostly one that is accepted, so that what is damaged in it is met."""
        return dice.choice(self if dice.random() < 0.1 else self.accepted)


class Corpus:
    """The texts of the examples, as they are."""

    def __init__(self):
        self.systems, self.ledgers, self.luminaires, self.projects = (Texts() for _ in range(4))
        for path in sorted(EXAMPLES.glob("*.ies")) + sorted(EXAMPLES.glob("*.ldt")):
            self.luminaires.add(path.read_bytes())
        for system in ("two-patches.txt", "store-room.system.txt"):
            ledger = system.split(".")[0] + ".solve.txt"
            self.add_system((EXAMPLES / system).read_bytes(), (EXAMPLES / ledger).read_bytes())
        for path in sorted(EXAMPLES.glob("*.toml")) + sorted(EXAMPLES.glob("*/*.toml")):
            self.add_project(path.read_bytes(), EXAMPLES.parent)
        for folder in sorted((EXAMPLES / "cases").iterdir()):
            self.add_case(folder, (folder / "words").read_text().split("\n")[:-1])

    def add_case(self, folder, words):
        files = [folder / word for word in words[1:] if word and os.path.isfile(folder / word)]
        if not files or any(file.stat().st_size > MOST_BYTES for file in files):
            return
        texts = [file.read_bytes() for file in files]
        is_accepted = (folder / "stdout").exists()
        if words[0] == "photo":
            self.luminaires.add(texts[0], is_accepted)
        elif words[0] == "run":
            self.add_project(texts[0], folder, is_accepted)
        elif words[0] == "audit" and len(texts) == 2:
            self.add_system(*texts, is_accepted)
        elif words[0] == "solve":
            self.systems.add(texts[0], is_accepted)

    def add_system(self, system, ledger, is_accepted=True):
        self.systems.add(system, is_accepted)
        self.ledgers.add((system, ledger), is_accepted)

    def add_project(self, text, folder, is_accepted=True):
        """A project with the luminaires that it names, which are named anew: lamp0, lamp1 and so on."""
        names = list(dict.fromkeys(name.decode(errors="replace") for _, name in FILE.findall(text)))
        lamps = [(folder / name).read_bytes() for name in names if name and os.path.isfile(folder / name)]
        if len(lamps) < len(names) or LINE_FEEDS.search(text):
            return
        for number, name in enumerate(names):
            text = text.replace(b'"%s"' % name.encode(), b'"lamp%d"' % number)
        self.projects.add((text, lamps), is_accepted)


class Inputs:
    """The inputs of runs by their numbers: each is made by dice of its own, from the seed and its number."""

    def __init__(self, seed, knows_audit):
        self.seed, self.knows_audit = seed, knows_audit
        self.corpus = Corpus()
        self.makers = [self.photo] * 6 + [self.solve] * 4 + [self.run] * 8 + [self.words]
        self.makers += [self.audit] * 5 if knows_audit else []

    def of_run(self, number):
        """The input of a run, and the dice that say how it is run."""
        dice = random.Random(f"{self.seed} {number}")
        return dice.choice(self.makers)(dice), dice

    def photo(self, dice):
        text = damaged(dice, self.corpus.luminaires.choose(dice), self.corpus.luminaires)
        return Input(["photo", "lamp"], {"lamp": padded(dice, text, FILE_LIMIT)})

    def solve(self, dice):
        text = damaged(dice, self.corpus.systems.choose(dice), self.corpus.systems)
        return Input(["solve", "system"], {"system": padded(dice, text, TEXT_LIMIT)})

    def audit(self, dice):
        system, ledger = self.corpus.ledgers.choose(dice)
        if dice.random() < 0.2:
            system = damaged(dice, system, self.corpus.systems)
        ledger = damaged(dice, ledger, [other for _, other in self.corpus.ledgers])
        return Input(["audit", "system", "ledger"], {"system": system, "ledger": padded(dice, ledger, TEXT_LIMIT)})

    def run(self, dice):
        text, lamps = self.corpus.projects.choose(dice)
        text = damaged(dice, text, [other for other, _ in self.corpus.projects], DAMAGES_OF_PROJECTS)
        if LINE_FEEDS.search(text):
            text = b""
        files = {f"lamp{number}": lamp for number, lamp in enumerate(lamps)}
        if lamps and dice.random() < 0.2:
            lamp = dice.choice(list(files))
            files[lamp] = damaged(dice, files[lamp], self.corpus.luminaires)
        options = dice.choice([[], ["--csv"]]) + dice.choice([[], ["--shooters", str(dice.randrange(1, 65))]])
        words = dice.choice([["project", *options], [*options, "project"]])
        return Input(["run", *words], {"project": padded(dice, text, FILE_LIMIT), **files})

    def words(self, dice):
        """Words that are mostly no command, over files that are right."""
        names = ["system", "lamp", "project", "none", "."]
        known = ["solve", "photo", "run", "audit", "gen", "--csv", "--shooters", "--", "-", "", "0", "64", "65", "9999"]
        lamp = self.corpus.luminaires[0]
        files = {"system": self.corpus.systems[0], "lamp": lamp, "project": self.corpus.projects[0][0], "lamp0": lamp}
        return Input(dice.choices(known + names, k=dice.randrange(5)), files)
