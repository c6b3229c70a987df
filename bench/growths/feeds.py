"""The words of a feed: each growth of each of them refused alone, and all growths from each one on. A change that is told as done is repeated in the next
run, one of which nothing was told is done then, and nothing is kept from before a change that was told."""
import re
import time

import covers
from cases import BOXED, COVER, DOCUMENT, KEPT, LINES
from catalogues import read
from honest import Broken, demand
from journal import Refusal, opened
from refusals import EVER
from words import check_end, upholds

# A change, the same again, one too early, and one that follows. Two more are behind them in the file of marks that a run begins with.
NUMBERS = (3, 3, 5, 4)
CHANGES = b"".join(b"%d %s\n" % (number, cover) for number, cover in zip(NUMBERS, (COVER, COVER, COVER, BOXED)))
EARLIER = b"1 %s\n2 %s\n" % (COVER, COVER)
REFUSED = b"3 %s\nno change\n4 %s\n" % (COVER, BOXED)
ANSWER = re.compile(rb"(done|repeated|gap) ([0-9]+)( [0-9]+)?\n")


class FeedStage:
    """The folder in which a feed is run, with the cache and the marks of the beginning of each run."""

    def __init__(self, program):
        self.program, self.text, self.catalogue = program, KEPT.encode(), read(KEPT)
        self.disk, self.marks = program.folder / "cache.disk", program.folder / "cache.marks"
        (program.folder / "catalogue.json").write_text(KEPT)
        (program.folder / "capabilities.xml").write_bytes(DOCUMENT)
        for words, data in ((("make",), b""), (("feed", "make"), b""), (("feed",), EARLIER), (("schedule", "--kept"), LINES)):
            ran = program.run(*words, data=data)
            demand(ran.code == 0 or words[0] == "schedule", f"{words} ends with {ran.status}")
        self.begins = self.disk.read_bytes(), self.marks.read_bytes()

    def set(self):
        self.disk.write_bytes(self.begins[0])
        self.marks.write_bytes(self.begins[1])

    def opened(self):
        """The cabinet that the file of the cache opens to."""
        try:
            return opened(self.catalogue, self.text, self.disk.read_bytes())
        except Refusal as refusal:
            raise Broken(f"the file doesn't open: {refusal}") from refusal


def answers_in(output):
    """What an output tells, a line each: the answer, the change and the number that stands behind it."""
    told, at = [], 0
    while at < len(output):
        line = ANSWER.match(output, at)
        demand(line, "a line that no feed writes")
        told.append((line[1].decode(), int(line[2]), line[3] and int(line[3])))
        at = line.end()
    return told


def expected(last, numbers):
    """What becomes of changes behind the last one, without the numbers of their cuts."""
    ways = []
    for number in numbers:
        if number <= last:
            ways.append(("repeated", number))
        elif number > last + 1:
            ways.append(("gap", number))
        else:
            ways.append(("done", number))
            last = number
    return ways


def check_run(stage, ran, numbers, ends):
    """The rules of a run: its lines are the first of those that it writes where nothing is refused, and the next run goes on behind them."""
    check_end(ran)
    told = answers_in(ran.output)
    whole = expected(2, numbers)
    demand([it[:2] for it in told] == whole[:len(told)], "another answer")
    demand(ran.status == "10 out of memory" or ran.status in ends and len(told) == len(whole), "another end")
    done = [(number, cut) for answer, number, cut in told if answer == "done"]
    demand(upholds(stage.opened(), [(cut, covers.read(stage.catalogue, COVER if number == 3 else BOXED)) for number, cut in done]), "the cache forgot a change that was told")
    again = stage.program.run("feed", data=CHANGES)
    demand(again.status == "0", f"the next run ends with {again.status}")
    demand([it[:2] for it in answers_in(again.output)] == expected(2 + len(done), NUMBERS), "the next run has another answer")


def check_feed(stage, ran):
    check_run(stage, ran, NUMBERS, ("0",))


def check_refused(stage, ran):
    check_run(stage, ran, NUMBERS[:1], ("7 line 2",))


def check_made(stage, ran):
    """Marks are made whole, or stay as they were."""
    check_end(ran)
    demand((ran.status, ran.output) in (("0", b"made\n"), ("10 out of memory", b"")), "another end")
    again = stage.program.run("feed", data=EARLIER)
    answers = [it[0] for it in answers_in(again.output)]
    demand(again.status == "0" and answers == (["done", "done"] if ran.code == 0 else ["repeated", "repeated"]), "neither the old marks nor empty ones")


CASES = (("feed", ("feed",), CHANGES, check_feed), ("feed, a refused line", ("feed",), REFUSED, check_refused), ("feed make", ("feed", "make"), b"", check_made))


def try_one(tally, stage, case, first, last):
    """One run; whether a growth was refused."""
    name, words, data, check = case
    stage.set()
    ran, refused = stage.program.refused(first, last, *words, data=data)
    try:
        check(stage, ran)
    except Broken as broken:
        tally.finding(name.replace(" ", "_"), first, str(broken), output=ran.output, error=ran.error.encode(), status=ran.status.encode(), refused=f"{first} to {last}".encode())
    tally.count(f"{name}, {'one' if first == last else 'all from one on'}", ran.status.split(" ")[0])
    return refused


def run(tally, program, most, part):
    stage, (first, step) = FeedStage(program), part
    for case in CASES:
        began, number = time.monotonic(), first
        for last in (lambda it: it, lambda _: EVER):
            number = first
            while number <= most and try_one(tally, stage, case, number, last(number)):
                number += step
        print(f"{case[0]}: {number - step:,} growths, {time.monotonic() - began:.0f} s", flush=True)
