"""Schedules and replays: random bytes on standard input, the output and the end compared with those of the model."""
import random
import time

from cabinet import Cabinet
from catalogues import MANY, TIGHT, read
from kind_queries import CAPABILITIES
from program import Program
from runs import Refused, Schedule, replayed, scheduled
from streams import stream_in
from texts import schedule_in

CODES = {"schedule": (0, 7), "replay": (0, 11)}


class Taken:
    """Tells whether a line would be taken behind the lines so far, by running them as they come."""

    def __init__(self, catalogue):
        self.schedule, self.count = Schedule(Cabinet(catalogue), b""), 0

    def __call__(self, lines, line):
        for it in lines[self.count:]:
            self.try_line(it)
        self.count = len(lines)
        return self.would_take(line)

    def try_line(self, line):
        try:
            self.schedule.run_line(0, line)
        except Refused:
            pass

    def would_take(self, line):
        actor, _, rest = line.partition(b" ")
        return not rest or not actor.isdigit() or (int(actor) in self.schedule.busy) == (rest == b"STEP")


def input_for(chance, word, catalogue):
    if chance.random() < 0.02:
        return chance.randbytes(chance.choice((0, 1, 20, 20000)))
    return stream_in(chance, catalogue) if word == "replay" else schedule_in(chance, catalogue, Taken(catalogue))


def one_case(tally, chance, number, programs):
    word, (program, catalogue) = chance.choice(("schedule", "schedule", "replay")), chance.choice(programs)
    kind, data = f"{word}s", input_for(chance, word, catalogue)
    ran = program.run(word, data=data)
    ends = (replayed if word == "replay" else scheduled)(Cabinet(catalogue), CAPABILITIES, data)
    rule = ran.broken_rule(CODES[word]) or (None if (ran.output, ran.status) in ends else "another answer")
    tally.count(kind, " ".join(ran.status.split()[:2 if ran.code == 7 else 4]))
    if rule:
        expected = b"\n--or--\n".join(output + status.encode() for output, status in sorted(ends))
        tally.finding(kind, number, rule, input=data, catalogue=(program.folder / "catalogue.json").read_bytes(), expected=expected,
                      received=ran.output + ran.status.encode())


def run(tally, path, folder, seed, cases):
    begun, programs = time.monotonic(), []
    for name, text in (("many", MANY), ("tight", TIGHT)):
        (folder / name).mkdir(parents=True, exist_ok=True)
        (folder / name / "catalogue.json").write_text(text)
        (folder / name / "capabilities.xml").write_bytes(CAPABILITIES)
        programs.append((Program(path, folder / name), read(text)))
    for number in range(cases):
        one_case(tally, random.Random(f"{seed} lines {number}"), number, programs)
    print(f"schedules and replays: {cases:,} in {time.monotonic() - begun:.0f} s", flush=True)
