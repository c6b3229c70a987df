"""Kept caches: words one after the other on one cache, each output compared with the model's, and the file with what the model keeps."""
import random
import time

import covers
import jobs
from answers import usage
from catalogues import DEMO, TIGHT, read
from journal import opened
from kind_lines import Taken
from kind_queries import CAPABILITIES
from program import Program
from runs import replayed, scheduled
from streams import stream_in
from texts import cover_in, job_in, schedule_in

KIND, CODES = "kept", (0, 7, 9, 11, 13)
WORDS = [("schedule", "--kept")] * 4 + [("replay", "--kept")] * 2 + [("truncate",)] * 2 + [("job",)] * 2 + [("expire",), ("usage",)]


class Cache:
    def __init__(self, path, folder, text):
        folder.mkdir(parents=True, exist_ok=True)
        (folder / "catalogue.json").write_text(text)
        (folder / "capabilities.xml").write_bytes(CAPABILITIES)
        self.text, self.catalogue, self.disk = text.encode(), read(text), folder / "cache.disk"
        self.program = Program(path, folder)
        self.program.run("make")

    def opened(self):
        return opened(self.catalogue, self.text, self.disk.read_bytes())


def input_for(chance, words, catalogue):
    if words[0] == "schedule":
        return schedule_in(chance, catalogue, Taken(catalogue))
    if words[0] == "replay":
        return stream_in(chance, catalogue)
    if words[0] == "job":
        return job_in(chance, catalogue)
    return cover_in(chance, catalogue) if words[0] == "truncate" else b""


def truncated(cabinet, data):
    number = cabinet.cut(covers.read(cabinet.catalogue, data))
    return (b"", "9 cuts full") if number is None else (b"cut %d\n" % number, "0")


def expired(cabinet):
    count = 0
    while cabinet.expire():
        count += 1
    return b"dropped %d\n" % count, "0"


def worked(cabinet, data):
    job = jobs.read(cabinet.catalogue, data)
    return jobs.told(job, *jobs.run(cabinet, job)), "0"


def ends_of(cache, words, data):
    """The ends that are right, and the cabinet behind them; None where the cache isn't opened."""
    cabinet = cache.opened()
    if words[0] == "schedule":
        return scheduled(cabinet, CAPABILITIES, data), cabinet
    if words[0] == "replay":
        return replayed(cabinet, CAPABILITIES, data), cabinet
    if words[0] == "usage":
        return {(usage(cabinet), "0")}, cabinet
    if words[0] == "expire":
        return {expired(cabinet)}, cabinet
    try:
        return {(worked if words[0] == "job" else truncated)(cabinet, data)}, cabinet
    except covers.Fault as fault:
        return {(b"", f"13 form {fault.kind} {fault.field}")}, None


def state_of(cabinet):
    """What a later opening finds: regions, uses and truncations."""
    cabinet.purge()
    return {block: (it.number, it.place, it.length, it.uses) for block, it in cabinet.kept.items()}, cabinet.cuts


def one_case(tally, chance, number, cache):
    """Whether the model and the program agree."""
    words, before = chance.choice(WORDS), cache.disk.read_bytes()
    data = input_for(chance, words, cache.catalogue)
    ends, cabinet = ends_of(cache, words, data)
    ran = cache.program.run(*words, data=data)
    rule, left = ran.broken_rule(CODES), None
    if not rule and (ran.output, ran.status) not in ends:
        rule = "another answer"
    if not rule and cabinet and (left := state_of(cache.opened())) != state_of(cabinet):
        rule = "the file has another state"
    if not rule and not cabinet and cache.disk.read_bytes() != before:
        rule = "a refused text changed the file"
    tally.count(KIND, " ".join([words[0], *ran.status.split()[:1]]))
    if rule:
        right, told = (ends, cabinet and state_of(cabinet)), (ran.output, ran.status, left)
        tally.finding(KIND, number, f"{words[0]}: {rule}", catalogue=cache.text, file=before, input=data, expected=right, received=told)
    return not rule


def run(tally, path, folder, seed, cases):
    begun, caches = time.monotonic(), [Cache(path, folder / name, text) for name, text in (("demo", DEMO), ("tight", TIGHT))]
    for number in range(cases):
        chance = random.Random(f"{seed} {KIND} {number}")
        cache = chance.choice(caches)
        if not one_case(tally, chance, number, cache) or number % 500 == 499:
            cache.program.run("make")
    print(f"{KIND}: {cases:,} in {time.monotonic() - begun:.0f} s", flush=True)
