"""Words of the command line: each growth of each of them refused alone, and all growths from each one on."""
import re
import time
from functools import lru_cache

import covers
import jobs
from answers import usage
from cabinet import Cabinet
from cases import CASES, DOCUMENT, KEPT, LINES
from catalogues import read
from forks import schedule_ends, session_ends
from honest import Broken, check_schedule, check_session, demand
from journal import Refusal, bodies_in, half_in_force, opened, slots_in
from pictures import tile_text, tiles_of
from refusals import ASKED, EVER

OUT, FURTHER = "10 out of memory", 300
CUT, DROPPED = re.compile(rb"cut ([0-9]+)\n"), re.compile(rb"dropped ([0-9]+)\n")
DONE = re.compile(rb"job (seed|reseed|truncate) places ([0-9]+) done ([0-9]+) failed ([0-9]+)\n")
SUMMARY = re.compile(rb"drill 7 lines 4096 answers ([0-9]+) hits ([0-9]+) misses ([0-9]+) other ([0-9]+)\nsha256 [0-9a-f]{64}\n")


def state_of(cabinet, with_uses):
    """What a later opening finds."""
    cabinet.purge()
    kept = {block: (it.number, it.place, it.length, it.uses if with_uses else 0) for block, it in cabinet.kept.items()}
    return kept, cabinet.cuts


def upholds(cabinet, cuts):
    """Whether nothing is kept from before one of these truncations that it covers."""
    return all(it.number > number or not covers.hits(cabinet.catalogue, cover, block) for number, cover in cuts for block, it in cabinet.kept.items())


def has_pictures(cabinet):
    """Whether each kept metatile has the tiles of its number."""
    for block, it in cabinet.kept.items():
        rows, cols = tiles_of(cabinet.catalogue, block)
        texts = [tile_text(cabinet.catalogue, it.number, block._replace(row=row, col=col)) for row in rows for col in cols]
        if b"".join(texts) != cabinet.blobs[block]:
            return False
    return True


class Stage:
    """The folder in which a word is run, and what its cache is at the beginning of each run."""

    def __init__(self, program):
        self.program, self.text, self.catalogue = program, KEPT.encode(), read(KEPT)
        self.disk, self.begins = program.folder / "cache.disk", b""
        (program.folder / "catalogue.json").write_text(KEPT)
        (program.folder / "capabilities.xml").write_bytes(DOCUMENT)
        program.run("make")
        while self.records() < slots_in(self.catalogue) - 30:
            program.run("schedule", "--kept", data=LINES)
        self.begins = self.disk.read_bytes()

    def records(self):
        image = self.disk.read_bytes()
        return len(bodies_in(self.catalogue, image, half_in_force(image)[0]))

    def set(self, case):
        if case.kept:
            self.disk.write_bytes(self.begins)
        else:
            self.disk.unlink(missing_ok=True)

    def opened(self):
        """The cabinet that the file opens to."""
        try:
            return opened(self.catalogue, self.text, self.disk.read_bytes())
        except Refusal as refusal:
            raise Broken(f"the file doesn't open: {refusal}") from refusal

    def before(self, case):
        return opened(self.catalogue, self.text, self.begins) if case.kept else Cabinet(self.catalogue)


def check_end(ran):
    demand(ran.code is not None, "the run doesn't end")
    demand(ran.code >= 0, f"a signal ended the run: {-ran.code}")
    demand((ran.code == 10) == (ran.error == "out of memory\n"), "another line of the fault")


def ends_of(stage, case, ran):
    """The cabinets that a run with one refused growth may leave, by its output and its status; and the truncations that were answered."""
    cabinet, word = stage.before(case), case.words[0]
    if word == "schedule":
        return schedule_ends(cabinet, DOCUMENT, case.data, ran)
    if word == "replay":
        return session_ends(cabinet, DOCUMENT, case.data, ran)
    ways = {"truncate": truncate_ends, "expire": expire_ends, "usage": usage_ends, "job": job_ends}
    return ways[word](stage, case, ran)


def truncate_ends(stage, case, ran):
    before, after = stage.before(case), stage.before(case)
    try:
        number = after.cut(covers.read(stage.catalogue, case.data))
    except covers.Fault as fault:
        demand(ran.status in (OUT, f"13 form {fault.kind} {fault.field}") and not ran.output, "another end")
        return None
    if ran.status == "0":
        demand(ran.output == b"cut %d\n" % number, "another number")
        return [after]
    demand(ran.status == OUT and not ran.output, "another end")
    return [before, after]


def expire_ends(stage, case, ran):
    ways = [stage.before(case)]
    while True:
        further = stage.before(case)
        if not all(further.expire() for _ in ways):
            break
        ways.append(further)
    if ran.status == "0":
        demand(ran.output == b"dropped %d\n" % (len(ways) - 1), "another count")
        return ways[-1:]
    demand(ran.status == OUT and not ran.output, "another end")
    return ways


def usage_ends(stage, case, ran):
    cabinet = stage.before(case)
    demand((ran.status, ran.output) in ((OUT, b""), ("0", usage(cabinet))), "another usage")
    return [cabinet]


def job_ends(stage, case, ran):
    """A place that memory ran out for is failed; the places before and behind it are done."""
    try:
        job = jobs.read(stage.catalogue, case.data)
    except jobs.Fault as fault:
        demand(ran.status in (OUT, f"13 form {fault.kind} {fault.field}") and not ran.output, "another end")
        return None
    count = jobs.count(stage.catalogue, job)
    if ran.status == OUT:
        demand(not ran.output, "an output of a run that failed")
        return [job_cabinet(stage, case, job, failed, spends) for failed in [None, *range(count)] for spends in (False, True)] + [stage.before(case)]
    told = DONE.fullmatch(ran.output)
    demand(ran.status == "0" and told, "another end")
    done, failed = int(told[3]), int(told[4])
    demand(told[1].decode() == job.kind and int(told[2]) == count == done + failed and failed <= 1, "another tally")
    ways = [None] if not failed else range(count)
    return [job_cabinet(stage, case, job, it, spends) for it in ways for spends in (False, True)]


@lru_cache(maxsize=None)
def job_cabinet(stage, case, job, failed, spends):
    """The cabinet behind a job whose place of this number failed, before or after a number was spent."""
    cabinet = stage.before(case)
    if job.kind == "truncate":
        if failed is None:
            cabinet.cut(job.cover)
        return cabinet
    for at, block in enumerate(jobs.places(stage.catalogue, job)):
        if at == failed:
            cabinet.number += spends
            continue
        tile = jobs.first_tile(stage.catalogue, block)
        found, number = cabinet.ask(tile) if job.kind == "seed" else cabinet.force(tile)
        if found == "ticket":
            cabinet.finish(number)
    return cabinet


def check_others(stage, case, ran):
    """The words that have no state of the cache to compare. Whether the word was one of them."""
    if case.words[0] == "drill":
        told = SUMMARY.fullmatch(ran.output)
        demand((ran.status, ran.output) == (OUT, b"") or (ran.status == "0" and told), "another end")
        demand(not told or int(told[1]) == sum(int(it) for it in told.groups()[1:]), "another sum of answers")
    elif case.words[0] == "make":
        demand((ran.status, ran.output) in ((OUT, b""), ("0", b"made\n")), "another end")
        if ran.code == 0 or not case.kept:
            demand(ran.code or not stage.opened().kept, "an empty cache that isn't empty")
        else:
            demand(stage.disk.read_bytes() == stage.begins or not stage.opened().kept, "neither the old cache nor an empty one")
    elif case.words[0] == "--help":
        demand(ran.status in (OUT, "0", "5 write fault"), "another end")
    elif case.name == "no command":
        demand(ran.status in (OUT, "2 usage") and not ran.output, "another end")
    else:
        return False
    return True


def check_one(stage, case, ran):
    """The rules of a run of which one growth was refused."""
    check_end(ran)
    if check_others(stage, case, ran):
        return
    found = ends_of(stage, case, ran)
    demand(found != [], "an output or an end that no refused growth explains")
    if case.kept:
        check_left(stage, case, found, ran.code == 0)


def check_left(stage, case, found, with_uses):
    if found is None:
        return demand(stage.disk.read_bytes() == stage.begins, "the file changed")
    left = state_of(stage.opened(), with_uses)
    return demand(any(left == state_of(it, with_uses) for it in found), "the file has another state")


def check_all(stage, case, ran):
    """The rules of a run whose growths from one on are refused."""
    check_end(ran)
    if check_others(stage, case, ran):
        return
    cuts = []
    if case.words[0] in ("schedule", "replay"):
        check = check_schedule if case.words[0] == "schedule" else check_session
        cuts = [(number, cover) for _, number, cover in check(stage.catalogue, case.data, ran.output).cuts]
        demand(ran.code in (0, 7, 10, 11), "another code")
    else:
        check_front(stage, case, ran)
        cuts = [(int(it[1]), covers.read(stage.catalogue, case.data)) for it in [CUT.fullmatch(ran.output)] if it]
    if case.kept:
        demand(upholds(stage.opened(), cuts), "the file forgot a truncation that was answered")


def check_front(stage, case, ran):
    """An output of another word."""
    if case.words[0] == "job" and (told := DONE.fullmatch(ran.output)):
        demand(int(told[2]) == int(told[3]) + int(told[4]), "another tally")
    else:
        ends_of(stage, case, ran)


def opens_again(stage, case):
    """The next run of another word, of which nothing is refused, tells what is kept."""
    if not case.kept:
        return
    cabinet = stage.opened()
    demand(has_pictures(cabinet), "a kept metatile has another picture than that of its number")
    expected = usage(cabinet)
    ran = stage.program.run("usage")
    demand((ran.status, ran.output) == ("0", expected), "the next word has another answer")


def try_one(tally, stage, case, check, first, last):
    """One run; whether a growth was refused."""
    for _ in range(2):  # a run that doesn't end is tried again, since a machine that stands still looks the same
        stage.set(case)
        ran, refused = stage.program.refused(first, last, *case.words, data=case.data)
        if ran.code is not None:
            break
    try:
        check(stage, case, ran)
        opens_again(stage, case)
    except Broken as broken:
        tally.finding(case.name.replace(" ", "_"), first, str(broken), output=ran.output, error=ran.error.encode(),
                      status=ran.status.encode(), refused=f"{first} to {last}".encode())
    tally.count(f"{case.name}, {'one' if first == last else 'all from one on'}", ran.status.split(" ")[0])
    return refused


def run_case(tally, stage, case, most, part):
    """Refuses each growth of a word, or those of one part alone: a first one, and each so many further on."""
    began, count, (first, step) = time.monotonic(), 0, part
    for check, last in ((check_one, lambda it: it), (check_all, lambda _: EVER)):
        number = first
        while number <= most and try_one(tally, stage, case, check, number, last(number)):
            number += step
        count = number - step
        if number > most:
            count = try_further(tally, stage, case, check, most, last)
    told = "growths" if step == 1 else f"was the last of the growths {step} apart from {first} on"
    print(f"{case.name}: {count:,} {told}, {time.monotonic() - began:.0f} s", flush=True)


def try_further(tally, stage, case, check, most, last):
    """Refuses some of the growths behind the first ones, at equal steps. How many growths a whole run has."""
    stage.set(case)
    stage.program.refused(0, 0, *case.words, data=case.data)
    total = stage.program.growths.number(ASKED)
    for number in range(most + 1, total + 1, max((total - most) // FURTHER, 1)):
        try_one(tally, stage, case, check, number, last(number))
    return total


def run(tally, program, names, most, part):
    stage = Stage(program)
    for case in CASES:
        if not names or case.words[0] in names:
            run_case(tally, stage, case, most, part)
