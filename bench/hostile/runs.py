"""What `replay` and `schedule` have to write over a cabinet in memory, and how they have to end."""
import re
from dataclasses import dataclass

import reading
from answers import answer, expired, response, tile_response, truncated, wanted
from catalogues import Address
from messages import SESSION, TRUNCATED, messages_of

LINE_LIMIT = 16384
ACTOR = re.compile(rb"(0|[1-9]|[1-5][0-9]|6[0-3]) (.*)", re.DOTALL)
ASKING = re.compile(rb"(GET|ASK|FORCE) ([^ ]+)", re.DOTALL)


def replayed(cabinet, capabilities, data):
    """The ends that are right: pairs of the bytes that are written and of the status with its fault."""
    messages, stops = messages_of(data)
    written = []
    for at, message in enumerate(messages, 1):
        closes = message.last or at == SESSION
        written.append(answer(cabinet, capabilities, message.method, message.target, message.body, closes))
    front = b"".join(written)
    return {ended(front, messages, stop) for stop in stops}


def ended(front, messages, stop):
    if stop is None:
        return front, "0" if messages[-1].last else "11 stream too many"
    if stop == TRUNCATED:
        return front, "11 stream truncated"
    if isinstance(stop, int):
        return front + response(stop, closes=True), f"11 stream bad {stop}"
    return front, "0"


@dataclass
class Request:
    """What a busy actor waits for: the line of its start, and, once it has one, its ticket and whether it was rendered."""
    line: int
    address: Address
    forces: bool
    number: int = 0
    rendered: bool = False


class Refused(Exception):
    """The line is refused."""


class Schedule:
    def __init__(self, cabinet, capabilities):
        self.cabinet, self.capabilities, self.busy, self.written = cabinet, capabilities, {}, []

    def write(self, line, actor, start, text):
        self.written.append(b"answer %d %d %d %d\n" % (line, actor, start, len(text)) + text)

    def give_tile(self, line, actor, start, address, found, number):
        self.write(line, actor, start, tile_response(self.cabinet, address, found == "hit", number))

    def begin(self, line, actor, request):
        """An ask or a force: the actor is answered, or is busy with the request."""
        found, number = (self.cabinet.force if request.forces else self.cabinet.ask)(request.address)
        if found == "hit":
            self.busy.pop(actor, None)
            return self.give_tile(line, actor, request.line, request.address, found, number)
        request.number = number or 0
        self.busy[actor] = request
        return None

    def step(self, line, actor):
        request = self.busy[actor]
        if not request.number:
            self.begin(line, actor, request)
        elif not request.rendered:
            request.rendered = True
        else:
            self.end(line, actor)

    def end(self, line, actor):
        request = self.busy.pop(actor)
        self.cabinet.finish(request.number)
        self.give_tile(line, actor, request.line, request.address, "ticket", request.number)

    def ask(self, line, actor, verb, target):
        try:
            found = wanted(self.cabinet.catalogue, b"GET", target)
        except reading.Refused:
            found = None
        if not isinstance(found, Address):
            return self.write(line, actor, line, answer(self.cabinet, self.capabilities, b"GET", target))
        self.begin(line, actor, Request(line, found, verb == b"FORCE"))
        if verb == b"GET" and actor in self.busy and self.busy[actor].number:
            self.end(line, actor)
        return None

    def run_line(self, line, text):
        if not text or (text.startswith(b"#") and len(text) <= LINE_LIMIT):
            return
        told = ACTOR.fullmatch(text)
        if len(text) > LINE_LIMIT or not told:
            raise Refused
        actor, rest = int(told[1]), told[2]
        asking = ASKING.fullmatch(rest)
        if not (asking or rest in (b"STEP", b"EXPIRE") or (rest.startswith(b"TRUNCATE ") and len(rest) > 9)):
            raise Refused
        if (actor in self.busy) != (rest == b"STEP"):
            raise Refused
        if asking:
            self.ask(line, actor, *asking.groups())
        elif rest == b"STEP":
            self.step(line, actor)
        elif rest == b"EXPIRE":
            self.write(line, actor, line, expired(self.cabinet))
        else:
            self.write(line, actor, line, truncated(self.cabinet, rest[9:]))


def scheduled(cabinet, capabilities, data):
    """The one end that is right."""
    lines = data.split(b"\n")
    if not lines[-1]:
        lines.pop()
    schedule, status = Schedule(cabinet, capabilities), "0"
    for line, text in enumerate(lines, 1):
        try:
            schedule.run_line(line, text)
        except Refused:
            status = f"7 line {line}"
            break
    for actor in sorted(schedule.busy):
        if schedule.busy[actor].number:
            cabinet.running.pop(schedule.busy[actor].number, None)
    return {(b"".join(schedule.written), status)}
