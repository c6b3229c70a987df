"""A server whose growths are refused: while it starts, serves and ends, and while it answers one message after the other."""
import json
import re
import socket
import subprocess
import time

from answers import JSON, response
from cases import COVER, DOCUMENT, PATH, QUERY, SEED, SERVED
from catalogues import read
from forms import PROGRESS, SUBMITTED
from honest import Book, Broken, demand, response_at
from messages import messages_of
from program import free_port, read_to_end
from refusals import EVER

# The lines with which a server tells that it is ready, and that it has served all.
READY_OR_SERVED = re.compile(r"(?m)^(serving on port \d+(, ready in \d+ ms)?|served \d+ connections?, and ended)\n")

BIG = b"GET /rest/wmts/large/grey/large/0/0/0.ppm HTTP/1.1\r\nConnection: close\r\n\r\n"


def message(method, target, body=b"", fields=b""):
    """A message that is the last of its connection."""
    length = b"Content-Length: %d\r\n" % len(body) if body else b""
    return b"%s %s HTTP/1.1\r\n%sConnection: close\r\n%s\r\n%s" % (method, target, fields, length, body)


ALL = [b'{"layer":"demo","grid":"tiny","zoomStart":0,"zoomStop":2}', b'{"layer":"large","grid":"large","zoomStart":0,"zoomStop":0}']
PREPARE = b"".join(b"POST /truncate HTTP/1.1\r\nContent-Length: %d\r\n\r\n%s" % (len(it), it) for it in ALL)

# Each message, and whether what it asks for is truncated before it.
MESSAGES = {
    "a tile that is rendered": (message(b"GET", PATH % (0, 0)), True),
    "a tile that is kept": (message(b"GET", PATH % (0, 0)), False),
    "a large tile that is rendered": (BIG, True),
    "a large tile that is kept": (BIG, False),
    "a query": (message(b"GET", QUERY), True),
    "a truncation": (message(b"POST", b"/truncate", COVER), False),
    "a truncation without a cover": (message(b"POST", b"/truncate", b"{}"), False),
    "an expiry": (message(b"POST", b"/expire"), False),
    "the usage": (message(b"GET", b"/usage"), False),
    "the capabilities": (message(b"GET", b"/wmts?service=WMTS&request=GetCapabilities"), False),
    "a refusal": (message(b"GET", b"/wmts?service=%26%3c"), False),
    "no such path": (message(b"GET", b"/none"), False),
    "a head of 16,384 bytes": (message(b"GET", b"/usage", fields=b"x: " + b"y" * 16_337 + b"\r\n"), False),
    "a body of 65,536 bytes": (message(b"POST", b"/truncate", COVER.ljust(65_536)), False),
    "a body of 65,537 bytes": (message(b"POST", b"/truncate", COVER.ljust(65_537)), False),
    "bytes that are no message": (b"no message\r\n\r\n", False),
    "a message that is chunked": (b"POST /expire HTTP/1.1\r\nTransfer-Encoding: chunked\r\n\r\n0\r\n\r\n", False),
    "twenty messages": (b"GET /usage HTTP/1.1\r\n\r\n" * 19 + message(b"GET", PATH % (1, 1)), False),
    "a job": (message(b"POST", b"/jobs", SEED.replace(b"}", b',"threads":3}')), True),
    "a job that forces": (message(b"POST", b"/jobs", SEED.replace(b"seed", b"reseed")), False),
    "a job that truncates": (message(b"POST", b"/jobs", SEED.replace(b"seed", b"truncate")), False),
    "no job": (message(b"POST", b"/jobs", b"["), False),
    "the progress of a job": (message(b"GET", b"/jobs/1"), False),
    "the end of a job": (message(b"DELETE", b"/jobs/1"), False),
    "no such job": (message(b"GET", b"/jobs/1000"), False),
}


class Served:
    """A server, and what was answered so far."""

    def __init__(self, program, connections=1_000_000):
        self.program, self.port = program, free_port()
        self.book, self.moment = Book(read(SERVED)), 0
        self.jobs, self.most_jobs = 0, 0  # those that were told, and those that may be there, since no number of theirs was told
        self.process = program.start("serve", "--port", str(self.port), "--connections", str(connections))

    def connect(self, seconds=20):
        """A connection; None where the server ended first."""
        until = time.monotonic() + seconds
        while time.monotonic() < until:
            try:
                return socket.create_connection(("127.0.0.1", self.port), timeout=seconds)
            except ConnectionError:
                if self.process.poll() is not None:
                    return None
                time.sleep(0.002)
        raise Broken("the server takes no connection, and doesn't end")

    def told(self, data):
        """All that a connection is answered; nothing where the server has ended."""
        link = self.connect()
        if link is None:
            return b""
        with link:
            try:
                link.sendall(data)
            except ConnectionError:
                pass
            got, how = read_to_end(link)
        demand(how != "silence", "a connection that is neither answered nor ended")
        return got

    def check(self, data, got):
        """Checks what was answered to messages. How many answers there were, and how many of them were 503."""
        at, wants, count, (sent, stops) = 0, self.book.wants, 0, messages_of(data)
        self.moment += 1
        for it in sent:
            self.most_jobs += it.target == b"/jobs"
            if at == len(got):
                break
            head, body, at = response_at(got, at)
            count += 1
            self.moment += 1
            if it.target.startswith(b"/jobs") and head[1] != b"503":
                self.check_job(it, head, body)
            else:
                self.book.check(it.method, it.target, it.body, head, body, self.moment, self.moment)
        endings = {response(it, closes=True) for it in stops if isinstance(it, int)}
        demand(got[at:] in endings | {b"", response(503, closes=True)}, "another last answer")
        return count + bool(got[at:]), self.book.wants - wants + (got[at:] == response(503, closes=True))

    def check_job(self, sent, head, body):
        demand(head[0] + body in (response(404, closes=True), response(int(head[1]), JSON, body, closes=True)), "another form of an answer")
        if sent.method == b"POST" and sent.body != b"[":
            told = SUBMITTED.fullmatch(body)
            demand(told and self.jobs < int(told[1]) <= self.most_jobs, "another number of a job")
            self.jobs = self.most_jobs = int(told[1])
        elif sent.method == b"POST":
            demand(body == b'{"fault":"not json","field":""}\n', "another refusal of a job")
            self.most_jobs -= 1
        else:
            number = int(sent.target[6:])
            demand(number > self.jobs if head[1] == b"404" else number <= self.most_jobs, "another job")
            demand(head[1] == b"404" or PROGRESS.fullmatch(body), "another progress")

    def ended(self, seconds=20):
        """The code that the server ended with, and what it told but that it was ready and that it has served all."""
        try:
            self.process.wait(seconds)
        except subprocess.TimeoutExpired as expired:
            raise Broken("the server doesn't end") from expired
        return self.process.returncode, READY_OR_SERVED.sub("", self.process.stderr.read().decode("utf-8", "replace"))

    def stop(self):
        if self.process.poll() is None:
            self.process.kill()
        self.process.wait(10)
        self.process.stderr.close()


def rest_of_jobs(served):
    """Waits until all jobs are done or ended."""
    until = time.monotonic() + 20
    for number in range(max(1, served.jobs - 2), served.jobs + 1):
        while True:
            ask = message(b"GET", b"/jobs/%d" % number)
            got = served.told(ask)
            served.check(ask, got)
            told = PROGRESS.search(got)
            demand(told, "no progress of a job")
            places, claimed, done, failed = (int(told[at]) for at in range(2, 6))
            demand(done + failed <= claimed, "another count of places")
            if done + failed == places or (told[6] == b"true" and done + failed in range(claimed - 8, claimed + 1)):
                break
            demand(time.monotonic() < until, f"a job of {places} places stays at {claimed} claimed, {done} done and {failed} failed")
            time.sleep(0.005)


class Serving:
    def __init__(self, tally, program):
        self.tally, self.program, self.served = tally, program, None
        (program.folder / "catalogue.json").write_text(SERVED)
        (program.folder / "capabilities.xml").write_bytes(DOCUMENT)

    def begin(self):
        if self.served:
            self.served.stop()
        self.program.growths.refuse_none()
        self.program.run("make")
        self.served = Served(self.program)
        demand(self.served.told(message(b"GET", b"/usage")), "the server doesn't begin")

    def refused(self, name, data, truncates, count, last):
        """One message of which a growth is refused, and the same again. Whether a growth was refused."""
        if truncates:
            before = PREPARE + message(b"GET", b"/usage")
            demand(self.served.check(before, self.served.told(before)) == (len(ALL) + 1, 0), "an answer before has no memory")
        self.program.growths.refuse_next(count, last)
        got = self.served.told(data)
        if name.startswith("a job"):
            time.sleep(0.02)
        refused = self.program.growths.refuse_none()
        answers, wants = self.served.check(data, got)
        demand(refused or (answers and not wants), "no answer, or 503, though nothing was refused")
        self.tally.count(f"serve, {name}", "no answer" if not answers else "503" if wants else "the answer")
        demand(self.served.process.poll() is None, "the server ended")
        rest_of_jobs(self.served)
        again = message(b"GET", PATH % (0, 1)) if name.startswith("a job") else data
        answers, wants = self.served.check(again, self.served.told(again))
        demand(answers == max(len(messages_of(again)[0]), 1) and not wants, "the next message isn't answered")
        return refused > 0

    def message(self, name, most):
        data, truncates = MESSAGES[name]
        counts = []
        for last in (None, EVER):
            count, missed = 1, 0
            while count <= most and missed < 2:
                try:
                    refused = self.refused(name, data, truncates, count, last)
                except Broken as broken:
                    ended = self.served.process.poll()
                    self.tally.finding("serve", f"{name.replace(' ', '_')}-{count}", f"{name}: {broken}" + ("" if ended is None else f" ({ended})"),
                                       count=count, all=last)
                    refused = True
                    self.begin()
                missed, count = 0 if refused else missed + 1, count + 1
                if self.served.jobs > 900:
                    self.begin()
            counts.append(count - 3)
        print(f"serve, {name}: {counts[0]:,} growths", flush=True)

    def whole(self, number, last):
        """A server of three connections from its start to its end, of which a growth is refused. Whether one was."""
        self.program.run("make")
        self.program.growths.begin(number, last)
        served = Served(self.program, 3)
        try:
            datas = [message(b"GET", PATH % (0, 0)), message(b"POST", b"/jobs", SEED), message(b"GET", b"/usage")]
            answered = 0
            for at in range(20):
                if served.process.poll() is not None:
                    break
                data = datas[at % 3]
                answered += served.check(data, served.told(data))[0]
                if last == EVER and at == 2:
                    self.program.growths.refuse_none()
            code, line = served.ended()
            demand((code, line) in ((0, ""), (10, "out of memory\n"), (14, "listen fault\n")), f"the server ended with {code} {line!r}")
            self.tally.count("serve, a whole run" if last != EVER else "serve, a whole run, all from one on", f"{code} with {answered} answers")
        finally:
            served.stop()
        refused = self.program.growths.refuse_none() or self.program.growths.number(3)
        ran = self.program.run("usage")
        demand(ran.code == 0, f"the next word ends with {ran.status}")
        return refused > 0

    def whole_runs(self, most, last):
        number, missed, began = 1, 0, time.monotonic()
        while number <= most and missed < 2:
            try:
                refused = self.whole(number, last(number))
            except Broken as broken:
                self.tally.finding("serve", f"whole-{number}", f"a whole run: {broken}", number=number, last=last(number))
                refused = True
            missed, number = 0 if refused else missed + 1, number + 1
        print(f"serve, a whole run: {number - 3:,} growths, {time.monotonic() - began:.0f} s", flush=True)


def run(tally, program, most):
    serving = Serving(tally, program)
    serving.begin()
    for name in MESSAGES:
        serving.message(name, most)
    serving.served.stop()
    for last in (lambda it: it, lambda _: EVER):
        serving.whole_runs(most, last)
