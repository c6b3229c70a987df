"""Queries: random targets over one connection, each answer compared byte by byte with that of the model."""
import random
import time

from answers import answer
from cabinet import Cabinet
from catalogues import MANY, read
from exchanges import Line
from program import Program, Server
from targets import target_in
from texts import cover_in

KIND, BATCH = "queries", 100
CAPABILITIES = b"<Capabilities>\xc3\xa9</Capabilities>\n"


def case(chance, cabinet):
    """A message and its answer."""
    way = chance.random()
    if way < 0.99:
        method, target, body = b"GET", target_in(chance, cabinet.catalogue), b""
    elif way < 0.998:
        method, target, body = b"POST", b"/truncate", cover_in(chance, cabinet.catalogue)
    else:
        method, target, body = chance.choice(((b"POST", b"/expire", b""), (b"GET", b"/usage", b"")))
    length = b"Content-Length: %d\r\n" % len(body) if body else b""
    return b"%s %s HTTP/1.1\r\n%s\r\n%s" % (method, target, length, body), answer(cabinet, CAPABILITIES, method, target, body)


class Fresh:
    """A new server, the model of its cabinet, and a connection."""

    def __init__(self, program):
        self.server, self.cabinet = Server(program), Cabinet(read(MANY), 1)
        self.line = Line(self.server)

    def stop(self):
        self.line.close()
        self.server.stop()


def broken_rule(fresh, got):
    if not fresh.server.lives():
        return "the server ended"
    return "another answer" if got else "no answer"


def run(tally, path, folder, seed, cases):
    folder.mkdir(parents=True, exist_ok=True)
    (folder / "catalogue.json").write_text(MANY)
    (folder / "capabilities.xml").write_bytes(CAPABILITIES)
    fresh, begun = Fresh(Program(path, folder)), time.monotonic()
    for batch in range(-(-cases // BATCH)):
        chance = random.Random(f"{seed} {KIND} {batch}")
        messages, answers = zip(*(case(chance, fresh.cabinet) for _ in range(BATCH)))
        told = fresh.line.exchange(messages, answers)
        for it in answers:
            tally.count(KIND, it[9:12].decode())
        if told:
            at, got = told
            tally.finding(KIND, batch, broken_rule(fresh, got), message=messages[at], expected=answers[at], received=got)
            fresh.stop()
            fresh = Fresh(Program(path, folder))
    closes, sent = fresh.line.closes, fresh.line.sent
    if closes > sent // 10_000:
        tally.finding(KIND, "all", f"connections were ended {closes} times in {sent} messages")
    fresh.stop()
    print(f"{KIND}: {cases:,} in {time.monotonic() - begun:.0f} s, {closes} ended behind a good message", flush=True)
