"""What a schedule or a connection may come to when one growth is refused. The model of bench/hostile goes line by line beside the output.
Where 503 stands in place of an answer, it goes on from each state that the request may have left: that from before it, that with a number
spent, and that from after it. All that follows has to be right from one of them."""
import copy
import re

from answers import answer, response
from messages import TRUNCATED, messages_of
from runs import ACTOR, Refused, Schedule

WANT = response(503)


class Way:
    """A state that the run may be in, and what of the output comes behind it."""

    def __init__(self, model, rest, refused=False):
        self.model, self.rest, self.refused = model, rest, refused

    def after(self, told, model, refused=False):
        """The way on, where the output goes on so."""
        if not self.rest.startswith(told) or (refused and self.refused):
            return []
        return [Way(model, self.rest[len(told):], self.refused or refused)]


def copied(model, catalogue):
    return copy.deepcopy(model, {id(catalogue): catalogue})


def spent(cabinet):
    """The number of a render that wasn't made is given."""
    cabinet.number += 1
    return cabinet


class Ends:
    """The states in which a run may have ended, by its status."""

    def __init__(self, status):
        self.status, self.found = status, []

    def add(self, way, status, cabinet):
        if not way.rest and status == self.status:
            self.found.append(cabinet)

    def add_prefix(self, ways):
        """Those from which the run may have ended by want of memory."""
        for way in ways:
            self.add(way, "10 out of memory", getattr(way.model, "cabinet", way.model))


def given_up(schedule):
    """The cabinet once the busy actors have given up."""
    for it in schedule.busy.values():
        schedule.cabinet.running.pop(it.number, None)
    return schedule.cabinet


def idle(schedule, actor):
    """The actor has no request any more, and its render isn't made."""
    request = schedule.busy.pop(actor, None)
    if request:
        schedule.cabinet.running.pop(request.number, None)
    return schedule


def wants(way, catalogue, line, text, done):
    """The ways on where the line is answered 503."""
    actor = int(ACTOR.fullmatch(text)[1])
    start = way.model.busy[actor].line if actor in way.model.busy else line
    told = b"answer %d %d %d %d\n" % (line, actor, start, len(WANT)) + WANT
    states = [idle(copied(way.model, catalogue), actor) for _ in range(2)] + [idle(copied(done, catalogue), actor)]
    spent(states[1].cabinet)
    return [it for state in states for it in way.after(told, state, True)]


def line_of(way, catalogue, line, text, ends):
    """The ways on behind a line."""
    done = copied(way.model, catalogue)
    try:
        done.run_line(line, text)
    except Refused:
        ends.add(way, f"7 line {line}", given_up(copied(way.model, catalogue)))
        return []
    told, done.written = b"".join(done.written), []
    found = [] if not told and re.match(rb"answer %d " % line, way.rest) else way.after(told, done)
    return found + (wants(way, catalogue, line, text, done) if ACTOR.fullmatch(text) else [])


def schedule_ends(cabinet, capabilities, data, ran):
    """The cabinets that a schedule may have left, where its output may be one's."""
    catalogue, ends = cabinet.catalogue, Ends(ran.status)
    ways = [Way(Schedule(copied(cabinet, catalogue), capabilities), ran.output)]
    ends.add_prefix(ways)
    for line, text in enumerate(data.split(b"\n")[:-1], 1):
        ways = [it for way in ways for it in line_of(way, catalogue, line, text, ends)]
        ends.add_prefix(ways)
    for way in ways:
        ends.add(way, "0", given_up(way.model))
    return ends.found


def message_of(way, catalogue, capabilities, message, closes):
    """The ways on behind a message."""
    states = [copied(way.model, catalogue) for _ in range(3)]
    told = answer(states[0], capabilities, message.method, message.target, message.body, closes)
    want, found = response(503, closes=closes), way.after(told, states[0])
    for it in (states[1], spent(states[2]), copied(states[0], catalogue)):
        found += way.after(want, it, True)
    return found


def session_ends(cabinet, capabilities, data, ran):
    """The same of a connection that is replayed."""
    catalogue, ends = cabinet.catalogue, Ends(ran.status)
    messages, stops = messages_of(data)
    ways = [Way(copied(cabinet, catalogue), ran.output)]
    ends.add_prefix(ways)
    for it in messages:
        ways = [way for before in ways for way in message_of(before, catalogue, capabilities, it, it.last)]
        ends.add_prefix(ways)
    for stop in stops:
        bad = response(stop, closes=True) if isinstance(stop, int) else b""
        status = f"11 stream bad {stop}" if bad else "11 stream truncated" if stop == TRUNCATED else "0"
        for way in [it for before in ways for it in before.after(bad, before.model)]:
            ends.add(way, status, way.model)
    return ends.found
