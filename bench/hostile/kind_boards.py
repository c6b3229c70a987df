"""Boards: jobs that are submitted to a server, looked at and ended, one message after the other. Each answer is compared with that of the
model, which runs each job once its last place is told as done; which of its places took which of its numbers is left open until it is seen."""
import random
import re
import time
from itertools import islice

import covers
import jobs
from answers import JSON, answer, response, wanted
from cabinet import Cabinet
from catalogues import WIDER, Address, read
from forms import PROGRESS
from kind_queries import CAPABILITIES
from members import Members
from pictures import block_of
from program import Program, Server
from reading import Refused
from targets import names_in, target_in
from texts import cover_in, job_in

KIND, WAITING, SUBMITTED, MANY_PLACES = "boards", 64, 1024, 20_000
LONG = b'{"layer":"wide","grid":"wide","zoomStart":1,"zoomStop":1,"type":"seed","threads":%d}'
ALL_WIDE = b'{"layer":"wide","grid":"wide","zoomStart":0,"zoomStop":1}'
SHORT = b'{"layer":"bare","grid":"apart","zoomStart":0,"zoomStop":0,"type":"truncate"}'
ODD_NUMBERS = [b"", b"0", b"00", b"-1", b"+1", b"1.0", b"x", b"1/", b"/1", b"%31", b"1%20", b"9" * 18, b"9" * 19, b"0" * 18, b"0" * 19,
               b"\xd9\xa1", b"1;x", b"1&x", b"18446744073709551617"]
PATHS = [b"/jobs/", b"/jobs//", b"/jobsx", b"/Jobs", b"//jobs", b"/jobs?x=1", b"/jobs?", b"/jobs#x", b"/jobs;x", b"/job", b"/%6aobs"]
METHODS = [b"GET", b"GET", b"GET", b"POST", b"DELETE", b"PUT", b"HEAD", b"delete", b"OPTIONS"]
TILE = re.compile(rb"geowebcache-cache-result: HIT\r\ntile-render: ([0-9]+)\r\n")


class Broken(Exception):
    """A rule that an answer breaks, with the message and the answer."""


class Kept:
    """A job that was submitted, and how far it was when it was looked at last."""

    def __init__(self, job, places):
        self.job, self.places, self.seen, self.is_cancelled, self.is_over = job, places, (0, 0, 0), False, False


class Board:
    def __init__(self, tally, server):
        self.tally, self.server, self.catalogue = tally, server, read(WIDER)
        self.cabinet, self.jobs, self.members = Cabinet(self.catalogue, 1), [], Members()
        self.link, self.sent, self.got, self.expected = None, b"", b"", ()

    def close(self):
        if self.link:
            self.link.close()
        self.link = None

    def stop(self):
        self.close()
        self.server.stop()

    def ask(self, method, target, body=b""):
        """A message, and its answer without what says that the connection ends."""
        length = b"Content-Length: %d\r\n" % len(body) if body else b""
        self.sent = b"%s %s HTTP/1.1\r\n%s\r\n%s" % (method, target, length, body)
        self.link = self.link or self.server.connect()
        self.link.sendall(self.sent)
        self.got, self.expected = self.read(), ()
        self.tally.count(KIND, self.got[9:12].decode("latin-1"))
        head, blank, text = self.got.partition(b"\r\n\r\n")
        if not head.endswith(b"\r\nConnection: close"):
            return self.got
        self.close()
        return head.removesuffix(b"\r\nConnection: close") + blank + text

    def read(self):
        """The bytes of an answer."""
        got, length = b"", None
        while length is None or len(got) < length:
            piece = self.link.recv(1 << 18)
            self.demand(piece, f"the connection ended behind {got!r}")
            got += piece
            head, blank, _ = got.partition(b"\r\n\r\n")
            if blank and length is None:
                told = re.search(rb"\r\nContent-Length: ([0-9]+)", head)
                self.demand(told, "an answer without its length")
                length = len(head) + 4 + int(told[1])
        return got

    def demand(self, test, rule):
        if not test:
            raise Broken(rule)

    def equals(self, got, *expected):
        self.expected = expected
        self.demand(got in expected, "another answer")

    def submit(self, body, target=b"/jobs"):
        """Submits a text. The job, or None where it is none."""
        got = self.ask(b"POST", target, body)
        try:
            job = jobs.read(self.catalogue, body)
        except covers.Fault as fault:
            return self.equals(got, response(400, JSON, b'{"fault":"%s","field":"%s"}\n' % (fault.kind.encode(), fault.field.encode())))
        if len(self.jobs) >= SUBMITTED or (got.startswith(b"HTTP/1.1 409") and self.waiting() >= WAITING):
            return self.equals(got, response(409, JSON, b'{"fault":"board full"}\n'))
        self.equals(got, response(200, JSON, b'{"job":%d}\n' % (len(self.jobs) + 1)))
        self.jobs.append(Kept(job, jobs.count(self.catalogue, job)))
        return self.jobs[-1]

    def waiting(self):
        """How many jobs may still wait, as far as was seen."""
        return sum(not it.is_over and it.seen[0] == 0 for it in self.jobs)

    def check_progress(self, number, got, cancels=False):
        """Checks how far a job is: it never goes back, and what is claimed is exact unless it was ended early."""
        job = self.jobs[number - 1]
        job.is_cancelled |= cancels
        told = PROGRESS.fullmatch(got.partition(b"\r\n\r\n")[2])
        self.demand(told and got == response(200, JSON, told[0]), "another form of a progress")
        named, places, *counts = (int(it) for it in told.groups()[:5])
        self.demand((named, places) == (number, job.places) and (told[6] == b"true") == job.is_cancelled, "another job's progress")
        claimed, done, failed = counts
        self.demand(all(now >= before for now, before in zip(counts, job.seen)), "a progress that goes back")
        self.demand(done + failed <= min(claimed, places), "more places ended than claimed")
        self.demand(claimed <= places + (job.job.threads if job.is_cancelled else 0), "more places claimed than there are")
        job.seen = tuple(counts)
        return job

    def look(self, number, method=b"GET"):
        got = self.ask(method, b"/jobs/%d" % number)
        return self.check_progress(number, got, method == b"DELETE")

    def wait(self, number, seconds=60):
        """Waits until all places of a job that isn't cancelled are ended."""
        until, pause = time.monotonic() + seconds, 0.001
        while sum((job := self.look(number)).seen[1:]) < job.places:
            self.demand(time.monotonic() < until, "a job that doesn't end")
            time.sleep(pause)
            pause = min(2 * pause, 0.5)

    def ends(self, number):
        """A job is over. The model runs it too: where it was ended early, as many of the first places as are done."""
        job = self.look(number)
        job.is_over = True
        self.demand(job.seen[1:] == self.ran(job.job, job.seen[1]), "another tally")

    def ran(self, job, most=None):
        """Lets the model run a job. How many places are done, and how many failed."""
        numbers = {}
        tally = jobs.run(self.cabinet, job, numbers, most)
        self.members.add(numbers, job.threads)
        return tally

    def agrees(self, chance, job):
        """Tiles of the places that a job was done with are kept under numbers of the job, and the usage is the model's."""
        if job.job.kind != "truncate" and job.seen[1]:
            for block in some_of(chance, self.catalogue, job):
                self.kept_tile(jobs.first_tile(self.catalogue, block))
        self.equals(self.ask(b"GET", b"/usage"), answer(self.cabinet, CAPABILITIES, b"GET", b"/usage"))

    def kept_tile(self, address):
        """Asks for a tile that is kept."""
        target = b"/rest/wmts/" + b"/".join(names_in(self.catalogue, address)) + b".ppm"
        got = self.ask(b"GET", target)
        self.demand(TILE.search(got), "a tile of a job that isn't kept")
        self.same(got, b"GET", target)

    def same(self, got, method, target, body=b""):
        """Compares an answer with the model's. The number of a kept tile may be another one of the job of several members that rendered it."""
        told = TILE.search(got)
        try:
            address = told and wanted(self.catalogue, method, target)
        except Refused:
            address = None
        block = block_of(self.catalogue, address) if isinstance(address, Address) else None
        if block in self.cabinet.kept:
            self.demand(self.members.see(self.cabinet, block, int(told[1])), "the number of another metatile")
        self.equals(got, answer(self.cabinet, CAPABILITIES, method, target, body))


def some_of(chance, catalogue, job):
    """Of the places that a job was done with the first one, the last one, and some beside each other, of which its members had several at once."""
    count = job.seen[1]
    first = chance.randrange(count)
    chosen = {0, count - 1, *range(first, min(first + 3 * job.job.threads, count))}
    return [block for at, block in enumerate(islice(jobs.places(catalogue, job.job), count)) if at in chosen]


def end_early(board, chance, number, behind):
    """Ends a job early, waits for the ends of jobs behind it, and looks at what it left. A job is run once the one before it is over, so its members
    are then done with the places that they were at. All that it left is truncated, since it may be much."""
    job = board.look(number, b"DELETE")
    if not behind:  # no more jobs are taken, and the server's run is over
        return
    for it in behind:
        board.wait(it)
    for it in (number, *behind):
        board.ends(it)
    board.agrees(chance, job)
    board.same(board.ask(b"POST", b"/truncate", ALL_WIDE), b"POST", b"/truncate", ALL_WIDE)


def submit_behind(board, count):
    """Submits so many short jobs, or fewer where no more are taken. Their numbers."""
    first = len(board.jobs) + 1
    for _ in range(min(count, SUBMITTED - len(board.jobs))):
        board.submit(SHORT)
    return range(first, len(board.jobs) + 1)


def long_job(board, chance):
    """A job of ten million places, which is ended early, and jobs behind it, up to 64 that wait."""
    threads = chance.randint(1, 8)
    job = board.submit(LONG % threads)
    board.demand(job and job.places == 10_000_000, "a job of ten million places is refused")
    number = len(board.jobs)
    while board.look(number).seen[0] == 0:
        time.sleep(0.002)
    behind = submit_behind(board, chance.choice((1, 2, WAITING)))
    if len(behind) == WAITING:
        board.equals(board.ask(b"POST", b"/jobs", SHORT), response(409, JSON, b'{"fault":"board full"}\n'))
    ended = {it for it in behind[:-1] if chance.random() < 0.2}
    for it in sorted(ended):
        board.look(it, b"DELETE")
    end_early(board, chance, number, [it for it in behind if it not in ended])
    for it in sorted(ended):
        board.demand(board.look(it).seen[1:] == (0, 0), "a place of a job that was ended before it began")
        board.jobs[it - 1].is_over = True


def odd_message(board, chance):
    """A message below the path of jobs that may be off."""
    method = chance.choice(METHODS)
    if chance.random() < 0.25:
        target, body = chance.choice(PATHS), b""
        path = target.partition(b"?")[0]
        if path == b"/jobs" and method == b"POST":
            return board.equals(board.ask(method, target, body), response(400, JSON, b'{"fault":"not json","field":""}\n'))
        expected = 405 if path == b"/jobs" else 404
        return board.equals(board.ask(method, target, body), response(expected))
    number = chance.choice(ODD_NUMBERS) if chance.random() < 0.5 else b"%d" % chance.randint(0, len(board.jobs) + 2)
    if chance.random() < 0.1:
        number = b"0" * chance.randrange(5) + number
    target = b"/jobs/" + number + (b"?x" if chance.random() < 0.1 else b"")
    if not re.fullmatch(rb"[0-9]{1,18}", number):
        return board.equals(board.ask(method, target), response(404))
    if method not in (b"GET", b"DELETE"):
        return board.equals(board.ask(method, target), response(405))
    if not 0 < int(number) <= len(board.jobs):
        return board.equals(board.ask(method, target), response(404))
    board.check_progress(int(number), board.ask(method, target), method == b"DELETE")
    return None


def whole_job(board, chance):
    """A text that may be a job. One with few places is waited for, and what it keeps is looked at."""
    job = board.submit(job_in(chance, board.catalogue), chance.choice((b"/jobs", b"/jobs", b"/jobs?x")))
    if job is None:
        return
    number = len(board.jobs)
    if job.places > MANY_PLACES:
        end_early(board, chance, number, submit_behind(board, 1))
    else:
        board.wait(number)
        board.ends(number)
        board.agrees(chance, job)


def one_case(board, chance):
    way = chance.random()
    if way < 0.35:
        whole_job(board, chance)
    elif way < 0.7:
        odd_message(board, chance)
    elif way < 0.985:
        cover = cover_in(chance, board.catalogue)
        method, target, body = (b"POST", b"/truncate", cover) if way < 0.74 else (b"GET", target_in(chance, board.catalogue), b"")
        board.same(board.ask(method, target, body), method, target, body)
    else:
        long_job(board, chance)


def full(board):
    """No job is taken any more, and the last one is still told."""
    board.equals(board.ask(b"POST", b"/jobs", SHORT), response(409, JSON, b'{"fault":"board full"}\n'))
    board.equals(board.ask(b"GET", b"/jobs/%d" % (SUBMITTED + 1)), response(404))
    board.look(SUBMITTED)


def run(tally, path, folder, seed, cases):
    folder.mkdir(parents=True, exist_ok=True)
    (folder / "catalogue.json").write_text(WIDER)
    (folder / "capabilities.xml").write_bytes(CAPABILITIES)
    program, begun = Program(path, folder), time.monotonic()
    board = Board(tally, Server(program))
    for number in range(cases):
        try:
            one_case(board, random.Random(f"{seed} {KIND} {number}"))
            if len(board.jobs) >= SUBMITTED:
                full(board)
        except (Broken, OSError) as error:
            rule = str(error) if board.server.lives() else "the server ended"
            tally.finding(KIND, number, rule, sent=board.sent, received=board.got, expected=board.expected)
            board.stop()
            board = Board(tally, Server(program))
        if len(board.jobs) >= SUBMITTED:
            board.stop()
            board = Board(tally, Server(program))
    board.stop()
    print(f"{KIND}: {cases:,} in {time.monotonic() - begun:.0f} s", flush=True)
