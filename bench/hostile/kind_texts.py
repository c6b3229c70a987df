"""Catalogues, covers and jobs: the code, the line of a fault and the output of the program are compared with those of the model."""
import random
import time

import covers
import jobs
from answers import answer, usage
from cabinet import Cabinet
from catalogue_faults import first_fault
from catalogues import TIGHT, WIDE, read
from kind_lines import Taken
from program import Program
from runs import scheduled
from targets import path, sendable
from texts import catalogue_in, cover_in, job_in, schedule_in

LARGEST = 4096  # pixels of a tile that the model draws


def is_drawn(catalogue):
    """Whether all tiles of a catalogue are small enough."""
    return all(it.width * it.height <= LARGEST for grid in catalogue.grids for it in grid.matrices)


def lines_for(chance, text):
    """A schedule over an accepted catalogue, and its ends; none where the model hasn't all of it."""
    catalogue = read(text) if text and b"ages" not in text else None
    if not catalogue or not is_drawn(catalogue):
        return b"", {(b"", "0")}
    lines = schedule_in(chance, catalogue, Taken(catalogue))
    return lines, scheduled(Cabinet(catalogue), b"", lines)


def one_catalogue(tally, chance, number, program):
    """A catalogue for `schedule`, without a line, and then with some: its fault, or what the model answers."""
    text = catalogue_in(chance)
    (program.folder / "catalogue.json").write_bytes(text)
    status = first_fault(text)
    lines, ends = lines_for(chance, text) if status == "0" else (b"", {(b"", status)})
    for data, expected in ((b"", {(b"", status)}), (lines, ends)):
        ran = program.run("schedule", data=data)
        rule = ran.broken_rule((0, 3, 7, 12)) or (None if (ran.output, ran.status) in expected else "another answer")
        if rule:
            tally.finding("catalogues", number, rule, catalogue=text, input=data, expected=expected, received=(ran.output, ran.status))
            break
    tally.count("catalogues", " ".join(status.split()[:2]))


def run_catalogues(tally, program_path, folder, seed, cases):
    folder.mkdir(parents=True, exist_ok=True)
    for number in range(cases):
        one_catalogue(tally, random.Random(f"{seed} catalogues {number}"), number, Program(program_path, folder))


class KeptModel:
    """A cache on the disk that some tiles were put into, and its model, opened again for each word."""

    def __init__(self, program, chance, text=TIGHT):
        self.program, self.cabinet, self.opening = program, Cabinet(read(text)), 0
        (program.folder / "catalogue.json").write_text(text)
        self.made = program.run("make")
        self.fill(chance)

    def reopen(self):
        """The number of the opening, and the truncations that stay: those above the least number, not contained in a later one."""
        self.opening += 1
        self.cabinet.number = self.opening << 40
        self.cabinet.purge()

    def fill(self, chance):
        self.reopen()
        targets = [sendable(path(chance, self.cabinet.catalogue)) for _ in range(12)]
        for it in targets:
            answer(self.cabinet, b"", b"GET", it)
        return self.program.run("schedule", "--kept", data=b"".join(b"0 GET %s\n" % it for it in targets))

    def truncated(self, text):
        """The status and the output that are right."""
        try:
            cover = covers.read(self.cabinet.catalogue, text)
        except covers.Fault as fault:
            return f"13 form {fault.kind} {fault.field}", b""
        self.reopen()
        number = self.cabinet.cut(cover)
        return ("9 cuts full", b"") if number is None else ("0", b"cut %d\n" % number)

    def worked(self, text):
        """The same of a job."""
        try:
            job = jobs.read(self.cabinet.catalogue, text)
        except covers.Fault as fault:
            return f"13 form {fault.kind} {fault.field}", b""
        self.reopen()
        return "0", jobs.told(job, *jobs.run(self.cabinet, job))


def run_jobs(tally, program_path, folder, seed, cases):
    """Jobs for `job` on a cache, compared with the model's reading, and with what it keeps."""
    folder.mkdir(parents=True, exist_ok=True)
    program, kept = Program(program_path, folder), None
    for number in range(cases):
        chance = random.Random(f"{seed} jobs {number}")
        if kept is None or number % 20 == 0:
            kept = KeptModel(program, chance, WIDE)
        text = job_in(chance, kept.cabinet.catalogue)
        ran, expected = program.run("job", data=text), kept.worked(text)
        rule = ran.broken_rule((0, 13)) or (None if (ran.status, ran.output) == expected else "another answer")
        if not rule and number % 5 == 0:
            kept.reopen()
            rule = None if program.run("usage").output == usage(kept.cabinet) else "another usage behind it"
        tally.count("jobs", " ".join(ran.status.split()[:3]) if ran.code else "0")
        if rule:
            tally.finding("jobs", number, rule, job=text, expected=expected, received=(ran.status, ran.output))
            kept = None


def run_covers(tally, program_path, folder, seed, cases):
    """Covers for `truncate` on a cache, compared with the model's reading and its numbers."""
    folder.mkdir(parents=True, exist_ok=True)
    program, kept = Program(program_path, folder), None
    for number in range(cases):
        chance = random.Random(f"{seed} covers {number}")
        if kept is None or number % 20 == 0:
            kept = KeptModel(program, chance)
        elif number % 3 == 0:
            kept.fill(chance)
        text = cover_in(chance, kept.cabinet.catalogue)
        ran, expected = program.run("truncate", data=text), kept.truncated(text)
        rule = ran.broken_rule((0, 9, 13)) or (None if (ran.status, ran.output) == expected else "another answer")
        if not rule and ran.code == 13 and program.run("truncate", data=text).status != ran.status:
            rule = "the same text has another answer"
        tally.count("covers", " ".join(ran.status.split()[:3]) if ran.code else "0")
        if rule:
            tally.finding("covers", number, rule, cover=text, expected=expected, received=(ran.status, ran.output))
            kept = None


def run(tally, program_path, folder, seed, cases):
    begun = time.monotonic()
    run_catalogues(tally, program_path, folder / "catalogues", seed, cases)
    run_covers(tally, program_path, folder / "covers", seed, cases)
    run_jobs(tally, program_path, folder / "jobs", seed, cases)
    print(f"catalogues, covers and jobs: {cases:,} each in {time.monotonic() - begun:.0f} s", flush=True)
