"""Crowds: many clients at once ask, truncate, expire, submit jobs and misbehave. Which tiles are hits depends on their order, so the rules are
fewer: the form of each answer, the bytes of each tile under its number, each refusal, that no number is given twice, and that no tile is older
than a truncation that was answered before its request, or than a job's truncation that was told as done."""
import random
import re
import socket
import threading
import time

import covers
import jobs
from answers import JSON, PPM, TEXT, XML, refusal, response, wanted
from catalogues import TIGHT, Address, read
from forms import CUT, DROPPED, HEAD, PROGRESS, SUBMITTED
from kind_queries import CAPABILITIES
from pictures import block_of, tile_text
from program import Program, Server
from reading import CAPABILITIES as THE_CAPABILITIES, Refused
from streams import WHOLES
from targets import target_in
from texts import cover_in, job_in

KIND, CLIENTS, LOOKED_AT = "crowds", 24, 20
CATALOGUE = TIGHT.replace('"cutLimit":4', '"cutLimit":40')
USAGE = re.compile(rb"(layer [^ ]+ [0-9]+ [0-9]+ ([0-9]+|-)\n){4}total [0-9]+ [0-9]+ ([0-9]+|-)\ncuts [0-9]+\n")


class Broken(Exception):
    """A rule that an answer breaks."""


class Crowd:
    """What the clients share."""

    def __init__(self, tally, server):
        self.tally, self.server, self.catalogue = tally, server, read(CATALOGUE)
        self.lock, self.cuts, self.numbers, self.top = threading.Lock(), [], set(), 0
        self.jobs = {}  # each job that was submitted, with a number that was given before it was

    def new_number(self, number):
        with self.lock:
            if number in self.numbers:
                raise Broken("a number was given twice")
            self.numbers.add(number)
            self.top = max(self.top, number)

    def new_job(self, number, job, top):
        with self.lock:
            if number in self.jobs:
                raise Broken("a job's number was given twice")
            self.jobs[number] = job, jobs.count(self.catalogue, job), top


class Link:
    """A connection, and what was read of it beyond the last answer."""

    def __init__(self, server):
        self.link, self.held = server.connect(), bytearray()

    def send(self, chance, data):
        """Sends bytes, now and then in two pieces."""
        at = chance.randrange(len(data)) if chance.random() < 0.2 else 0
        for piece in filter(None, (data[:at], data[at:])):
            self.link.sendall(piece)

    def read(self):
        piece = self.link.recv(1 << 16)
        if not piece:
            raise Broken(f"the connection ended behind {bytes(self.held)!r}")
        self.held += piece

    def answer(self):
        """The match of the next head, and the body."""
        while not (head := HEAD.match(bytes(self.held))):
            if len(self.held) > 8192:
                raise Broken(f"no answer of the form, but {bytes(self.held)!r}")
            self.read()
        end = head.end() + int(head[2])
        while len(self.held) < end:
            self.read()
        body = bytes(self.held[head.end():end])
        del self.held[:end]
        return head, body

    def close(self):
        self.link.close()


def demand(test, rule):
    if not test:
        raise Broken(rule)


def check_tile(crowd, known, address, head, body):
    demand(head[3], "a tile without its result")
    number, is_hit = int(head[4]), head[3] == b"HIT"
    plain = response(200, PPM, tile_text(crowd.catalogue, number, address), (is_hit, number))
    demand(head[0].replace(b"Connection: close\r\n", b"") + body == plain, "another tile than that of its number")
    if not is_hit:
        crowd.new_number(number)
    block = block_of(crowd.catalogue, address)
    for cut, cover in known[-LOOKED_AT:]:
        demand(number > cut or not covers.hits(crowd.catalogue, cover, block), "a tile that is older than a truncation answered before")


def check_cut(crowd, known, body_sent, head, body):
    """Compares an answer to a truncation; where it was made, later messages of this connection know it, and later ones of all others."""
    try:
        cover = covers.read(crowd.catalogue, body_sent)
    except covers.Fault as fault:
        told = b'{"fault":"%s","field":"%s"}\n' % (fault.kind.encode(), fault.field.encode())
        return demand((head[1], body) == (b"400", told), "another refusal of a cover")
    if head[1] == b"409":
        return demand(body == b'{"fault":"cuts full"}\n', "another 409")
    told = CUT.fullmatch(body)
    demand(head[1] == b"200" and told, "another answer to a truncation")
    crowd.new_number(int(told[1]))
    known.append((int(told[1]), cover))
    with crowd.lock:
        crowd.cuts.append(known[-1])
    return None


def check_submission(crowd, top, sent, head, body):
    """Compares an answer to a job's text; `top` is a number that was given before it was sent."""
    try:
        job = jobs.read(crowd.catalogue, sent)
    except covers.Fault as fault:
        told = b'{"fault":"%s","field":"%s"}\n' % (fault.kind.encode(), fault.field.encode())
        return demand(plain(head, body) == response(400, JSON, told), "another refusal of a job")
    if head[1] == b"409":
        return demand(plain(head, body) == response(409, JSON, b'{"fault":"board full"}\n'), "another 409 to a job")
    told = SUBMITTED.fullmatch(body)
    demand(told and plain(head, body) == response(200, JSON, body), "another answer to a job")
    return crowd.new_job(int(told[1]), job, top)


def check_progress(crowd, known, submitted, method, number, head, body):
    """Compares how far a job is; a truncation that is told as done is known from then on. `submitted` are the jobs that were before."""
    if head[1] == b"404":
        return demand(plain(head, body) == response(404) and number not in submitted, "a job that is gone")
    told = PROGRESS.fullmatch(body)
    demand(told and plain(head, body) == response(200, JSON, body) and int(told[1]) == number, "another form of a progress")
    places, claimed, done, failed = (int(told[at]) for at in range(2, 6))
    demand(done + failed <= min(claimed, places) and claimed <= places + 8, "another count of places")
    demand(method == b"GET" or told[6] == b"true", "a job that isn't ended")
    if number in submitted:
        job, count, top = submitted[number]
        demand(places == count, "another number of places")
        if job.kind == "truncate" and done:
            known.append((top, job.cover))
            with crowd.lock:
                crowd.cuts.append(known[-1])
    return None


def check_job(crowd, known, before, message, head, body):
    """Compares an answer to a message below the path of jobs."""
    (top, submitted), (method, target, sent) = before, message
    if target == b"/jobs":
        return check_submission(crowd, top, sent, head, body)
    return check_progress(crowd, known, submitted, method, int(target.removeprefix(b"/jobs/")), head, body)


def check(crowd, known, before, message, head, body):
    """Compares an answer with what may come to a message; `known` are the truncations answered before it was sent."""
    method, target, sent = message
    if target.startswith(b"/jobs"):
        return check_job(crowd, known, before, message, head, body)
    try:
        found = wanted(crowd.catalogue, method, target)
    except Refused as refused:
        return demand(plain(head, body) == refusal(refused), "another refusal")
    if isinstance(found, Address):
        check_tile(crowd, known, found, head, body)
    elif found == "/truncate":
        check_cut(crowd, known, sent, head, body)
    elif found == "/expire":
        demand(head[1] == b"200" and DROPPED.fullmatch(body), "another answer to an expiry")
    elif found == "/usage":
        demand(plain(head, body) == response(200, TEXT, body) and USAGE.fullmatch(body), "another answer to usage")
    else:
        demand(plain(head, body) == (response(200, XML, CAPABILITIES) if found == THE_CAPABILITIES else response(found)), "another answer")
    return None


def plain(head, body):
    return head[0].replace(b"Connection: close\r\n", b"") + body


def message_in(chance, crowd):
    way, catalogue = chance.random(), crowd.catalogue
    if way < 0.08:
        return b"POST", b"/truncate", cover_in(chance, catalogue)
    if way < 0.11:
        return (b"POST", b"/expire", b"") if chance.random() < 0.5 else (b"GET", b"/usage", b"")
    if way < 0.12:
        return b"POST", b"/jobs", job_in(chance, catalogue)
    if way < 0.15:
        return chance.choice((b"GET", b"GET", b"DELETE")), b"/jobs/%d" % chance.randint(1, len(crowd.jobs) + 2), b""
    return b"GET", target_in(chance, catalogue), b""


def misbehave(chance, server):
    """A client of its own that sends what is no message, or goes in the middle."""
    with server.connect() as link:
        link.sendall(chance.choice(WHOLES) + chance.randbytes(chance.randrange(50)))
        if chance.random() < 0.5:
            link.shutdown(socket.SHUT_WR)
            link.recv(100)


def bytes_of(message):
    method, target, body = message
    return b"%s %s HTTP/1.1\r\nContent-Length: %d\r\n\r\n%s" % (method, target, len(body), body)


def ask(crowd, chance, link, messages):
    """Sends messages in one go and checks their answers. How many were answered, and whether the connection goes on."""
    with crowd.lock:
        known, before = crowd.cuts[:], (crowd.top, dict(crowd.jobs))
    link.send(chance, b"".join(map(bytes_of, messages)))
    for count, message in enumerate(messages, 1):
        head, body = link.answer()
        check(crowd, known, before, message, head, body)
        crowd.tally.count(KIND, head[1].decode())
        if b"Connection: close\r\n" in head[0]:
            return count, False
    return len(messages), True


def client(crowd, chance, count, ended):
    link, left = Link(crowd.server), []
    while count > 0:
        left = left or [message_in(chance, crowd) for _ in range(chance.choice((1, 1, 1, 2, 5, 20)))]
        try:
            answered, goes_on = ask(crowd, chance, link, left)
            count, left = count - answered, left[answered:]
            if chance.random() < 0.02:
                misbehave(chance, crowd.server)
        except (Broken, OSError) as error:
            crowd.tally.finding(KIND, count, str(error), sent=b"".join(map(bytes_of, left)))
            count, left, goes_on = count - 1, [], False
        if not goes_on:
            link.close()
            link = Link(crowd.server)
    link.close()
    ended.append(True)


def run(tally, path, folder, seed, cases):
    folder.mkdir(parents=True, exist_ok=True)
    (folder / "catalogue.json").write_text(CATALOGUE)
    (folder / "capabilities.xml").write_bytes(CAPABILITIES)
    begun, crowd, ended = time.monotonic(), Crowd(tally, Server(Program(path, folder))), []
    chances = [random.Random(f"{seed} {KIND} {at}") for at in range(CLIENTS)]
    clients = [threading.Thread(target=client, args=(crowd, it, max(cases // CLIENTS, 10), ended)) for it in chances]
    for it in clients:
        it.start()
    for it in clients:
        it.join()
    if len(ended) < CLIENTS or not crowd.server.lives():
        tally.finding(KIND, "all", "the server ended, or takes no connection")
    crowd.server.stop()
    print(f"{KIND}: {cases:,} of {CLIENTS} clients in {time.monotonic() - begun:.0f} s, {len(crowd.cuts)} truncations, {len(crowd.jobs)} jobs", flush=True)
