#!/usr/bin/env python3
"""Runs lux on damaged files for a while, and sees that it ends as it must, whatever the files are.

    fuzz.py PROGRAM SECONDS [SEED] [--jobs N] [--kinds]

Each run is `photo`, `solve`, `run` (with up to 64 shooters, as lines and as CSV), `audit` where the program knows it, or
words that are mostly no command. Its files are examples in which bits are flipped, lines and words dropped, doubled and
exchanged, numbers replaced by ones at and beside limits, texts cut, and two of them joined: mostly in one place, so that
many are accepted and most faults deep in a text are met. fuzz_inputs.py makes them. Some runs get little memory, and
some an output that is full, closed or without a reader. A ledger that was written is audited.

Of each run is asked that

- it ends within a minute, by itself and not by a signal, with a status from 0 to 10;
- with 0, 1 or 2 there is a result on standard output and nothing on standard error, and a report says this status;
- else there is nothing on standard output, and one line on standard error, which begins with `lux: ` and is a note that
  belongs to the status;
- 7 comes only where the output takes nothing, and there no result comes; 8 comes only where there is little memory;
- what `solve` has written is balanced to `audit`.

Each fault is a line, and the files of its run are kept in a new folder, which the line names, as a case is kept in
cases/. The last line says how many runs there were, how often each status came and how many runs were at fault; with
--kinds the notes are counted by their kind above it. Exit status: 0 where none was at fault, 1 where one was, and 2
where nothing could be run by these words.
"""
import argparse
import os
import pathlib
import re
import resource
import shutil
import subprocess
import sys
import tempfile
import time
from collections import Counter
from concurrent.futures import ProcessPoolExecutor
from dataclasses import dataclass

from fuzz_inputs import Input, Inputs

SECONDS = 60  # that a run has
AMPLE = 2**32  # bytes of addresses that a run has: 64 threads reserve much
NO_WORDS = 3  # how the program ends that is run without words
DONE, LOST, NO_MEMORY = (0, 1, 2), 7, 8
NOTES = {
    3: "usage",
    4: "system|ledger|project|room|luminaire|check [0-9]+",
    5: "photometry [^\n]*",
    6: "(cannot read|file too long)",
    LOST: "cannot write$",
    NO_MEMORY: "out of memory$",
    9: "audit",
    10: "limit",
}
OUTPUTS = ["kept"] * 47 + ["full", "closed", "unread"]


@dataclass
class Answer:
    status: int  # negative where it was a signal, and None where it did not end
    stdout: bytes
    stderr: bytes


def limited(memory, closes):
    """What a run does before it becomes the program: little memory is little for its data alone, and not for its
    stack, which no program can be refused without a signal."""

    def begin():
        resource.setrlimit(resource.RLIMIT_CORE, (0, 0))
        resource.setrlimit(resource.RLIMIT_AS, (AMPLE, AMPLE))
        if memory is not None:
            resource.setrlimit(resource.RLIMIT_DATA, (memory, memory))
        if closes:
            os.close(1)

    return begin


def open_output(output):
    """What a run gets as standard output: a pipe that is read, or one of those that take nothing."""
    if output == "full":
        return os.open("/dev/full", os.O_WRONLY)
    if output == "unread":
        reader, writer = os.pipe()
        os.close(reader)
        return writer
    return subprocess.PIPE


def answer_of(program, words, folder, memory=None, output="kept"):
    """What the program answers to the words."""
    stdout = open_output(output)
    # So that the heap grows by pages, and each growth can be the one that is refused.
    small = {"GLIBC_TUNABLES": "glibc.malloc.top_pad=0"} if memory is not None else {}
    process = subprocess.Popen(
        [program, *words],
        cwd=folder,
        env={**os.environ, **small},
        stdin=subprocess.DEVNULL,
        stdout=stdout,
        stderr=subprocess.PIPE,
        preexec_fn=limited(memory, output == "closed"),
    )
    if stdout != subprocess.PIPE:
        os.close(stdout)
    try:
        out, notes = process.communicate(timeout=SECONDS)
    except subprocess.TimeoutExpired:
        process.kill()
        out, notes = process.communicate()
        return Answer(None, out or b"", notes)
    return Answer(process.returncode, out or b"", notes)


def status_in(report):
    """The status that the last line of a report says, in lines or as CSV, or None."""
    said = re.search(rb"(?:^|\n)status(?:,,0,| )([0-9])(?:,,,)?\n\Z", report)
    return int(said[1]) if said else None


def faults_of(words, answer, memory=None, output="kept"):
    """All that is wrong with an answer."""
    if answer.status is None:
        yield f"no end within {SECONDS} seconds"
    elif answer.status < 0:
        yield f"ended by signal {-answer.status}"
    elif answer.status in DONE:
        if answer.stderr:
            yield "a note with a result"
        if output != "kept":
            yield "a result into an output that takes nothing"
        elif not answer.stdout:
            yield "no result"
        elif words[0] == "run" and status_in(answer.stdout) != answer.status:
            yield "ended with another status than the report's"
        elif words[0] != "run" and answer.status:
            yield "a status of reports"
    elif answer.status not in NOTES:
        yield f"status {answer.status}"
    else:
        if answer.stdout:
            yield "a result with a note"
        note = answer.stderr.decode(errors="replace")
        if not re.fullmatch(f"lux: (?:{NOTES[answer.status]})[^\n]*\n", note):
            yield "not one note, or none of this status"
        if answer.status == LOST and output == "kept":
            yield "an output that can't be written"
        if answer.status == NO_MEMORY and memory is None:
            yield "no memory, where there is enough"


def kind_of(note, files):
    """What a note says, without its numbers and names."""
    note = note.decode(errors="replace").strip()[5:]
    photometry = re.match("photometry ([^:]*): (.*)", note)
    if photometry:
        name, fault = photometry.groups()
        form = "lm63" if files.get(name, b"").startswith((b"IESNA", b"IES:")) else "eulumdat"
        return f"photometry {form}: " + re.sub(" [0-9]+", "", fault)
    if note.startswith("project: "):
        return " ".join(note.split()[:2])
    known = re.match("usage|cannot read|file too long", note)
    return known[0] if known else re.sub(" [0-9]+", "", note)


class Fuzz:
    """Runs one after another, in a folder of their own, until there is no time left."""

    def __init__(self, program, inputs, little, ends):
        self.program, self.inputs, self.little, self.ends = program, inputs, little, ends
        self.statuses, self.kinds, self.faulty = Counter(), Counter(), 0
        self.kept = None

    def make_runs(self, first, step):
        """Runs with the numbers from the first on, in steps."""
        with tempfile.TemporaryDirectory(prefix="lux-fuzz-") as folder:
            number = first
            while time.time() < self.ends:
                self.make_run(number, pathlib.Path(folder))
                number += step

    def make_run(self, number, folder):
        case, dice = self.inputs.of_run(number)
        output = dice.choice(OUTPUTS)
        memory = self.little + int(2 ** dice.uniform(0, 23)) if dice.random() < 0.1 else None
        for name, text in case.files.items():
            (folder / name).write_bytes(text)
        answer = self.judge(number, case, folder, memory, output)
        if case.words[:1] == ["solve"] and answer.status == 0 and self.inputs.knows_audit:
            (folder / "ledger").write_bytes(answer.stdout)
            audit = Input(["audit", "system", "ledger"], {**case.files, "ledger": answer.stdout})
            if self.judge(number, audit, folder).status != 0:
                self.keep(number, audit, answer, ["a ledger of solve that is not balanced"])
        for path in folder.iterdir():
            path.unlink()

    def judge(self, number, case, folder, memory=None, output="kept"):
        answer = answer_of(self.program, case.words, folder, memory, output)
        self.statuses[answer.status] += 1
        if answer.stderr:
            self.kinds[kind_of(answer.stderr, case.files)] += 1
        faults = list(faults_of(case.words, answer, memory, output))
        if faults:
            little = [f"with {memory} bytes of data"] if memory is not None else []
            self.keep(number, case, answer, faults + little + [f"output: {output}"])
        return answer

    def keep(self, number, case, answer, faults):
        """Says what is wrong with a run, and keeps its files as those of a case."""
        self.faulty += 1
        self.kept = self.kept or pathlib.Path(tempfile.mkdtemp(prefix="lux-fuzz-kept-"))
        folder = self.kept / f"{number}-{self.faulty}"
        folder.mkdir()
        for name, text in case.files.items():
            (folder / name).write_bytes(text)
        (folder / "words").write_text("".join(word + "\n" for word in case.words))
        (folder / "stdout").write_bytes(answer.stdout)
        (folder / "stderr").write_bytes(answer.stderr)
        (folder / "status").write_text(f"{answer.status}\n")
        print(f"fuzz: run {number}: {', '.join(faults)}; kept in {folder}", flush=True)


def least_memory(program):
    """The least memory for its data with which the program comes so far that it finds no words."""
    low, high = 0, AMPLE
    while high - low > 512:
        middle = (low + high) // 2
        if answer_of(program, [], None, middle).status == NO_WORDS:
            high = middle
        else:
            low = middle
    return high


def work(task):
    """The runs of one job, and what is counted of them."""
    (program, seed, knows_audit, little, ends), first, step = task
    fuzz = Fuzz(program, Inputs(seed, knows_audit), little, ends)
    fuzz.make_runs(first, step)
    return fuzz.statuses, fuzz.kinds, fuzz.faulty


def program_named(name):
    """The path of a program, which a run in another folder finds."""
    path = shutil.which(os.path.abspath(name))
    if path is None:
        raise argparse.ArgumentTypeError(f"no program: {name}")
    return path


def words_of(words):
    reader = argparse.ArgumentParser(prog="fuzz", description="Runs lux on damaged files.")
    reader.add_argument("program", type=program_named)
    reader.add_argument("seconds", type=float)
    reader.add_argument("seed", type=int, nargs="?", default=1)
    reader.add_argument("--jobs", type=int, default=1)
    reader.add_argument("--kinds", action="store_true")
    return reader.parse_args(words)


def main(words):
    chosen = words_of(words)
    knows_audit = answer_of(chosen.program, ["audit", "none", "none"], None).status != NO_WORDS
    little = least_memory(chosen.program)
    shared = (chosen.program, chosen.seed, knows_audit, little, time.time() + chosen.seconds)
    tasks = [(shared, first, chosen.jobs) for first in range(chosen.jobs)]
    if chosen.jobs == 1:
        counts = list(map(work, tasks))
    else:
        with ProcessPoolExecutor(chosen.jobs) as pool:
            counts = list(pool.map(work, tasks))
    statuses, kinds = (sum((count[at] for count in counts), Counter()) for at in range(2))
    faulty = sum(count[2] for count in counts)
    if chosen.kinds:
        for kind, number in sorted(kinds.items()):
            print(f"{number:8} {kind}")
    often = ", ".join(f"{status}: {statuses[status]}" for status in sorted(statuses, key=lambda it: (it is None, it)))
    print(f"fuzz: seed {chosen.seed}, {statuses.total()} runs, by status {often}; {faulty} at fault")
    return 1 if faulty else 0


if __name__ == "__main__":
    sys.exit(main(sys.argv[1:]))
