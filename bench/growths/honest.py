"""What each answer has to be, however many growths were refused: its text, or 503; a tile that of its number, and newer than each truncation
that was answered before its request."""
import re

import covers
from answers import JSON, PPM, TEXT, XML, refusal, response, wanted
from cases import DOCUMENT
from catalogues import Address
from forms import CUT, DROPPED, HEAD
from messages import messages_of
from pictures import block_of, tile_text
from reading import CAPABILITIES, Refused

USAGE = re.compile(rb"(layer [^ ]+ [0-9]+ [0-9]+ ([0-9]+|-)\n)+total [0-9]+ [0-9]+ ([0-9]+|-)\ncuts [0-9]+\n")
LINE = re.compile(rb"answer ([0-9]+) ([0-9]+) ([0-9]+) ([0-9]+)\n")


class Broken(Exception):
    """A rule that an answer breaks."""


def demand(test, rule):
    if not test:
        raise Broken(rule)


class Book:
    """The truncations that were answered, with the moment of each: the number of answers before it."""

    def __init__(self, catalogue):
        self.catalogue, self.cuts, self.wants = catalogue, [], 0

    def check_tile(self, address, head, body, begun):
        demand(head[3], "a tile without its result")
        number = int(head[4])
        plain = response(200, PPM, tile_text(self.catalogue, number, address), (head[3] == b"HIT", number), bool(head[5]))
        demand(head[0] + body == plain, "another tile than that of its number")
        block = block_of(self.catalogue, address)
        for at, cut, cover in self.cuts:
            demand(at >= begun or number > cut or not covers.hits(self.catalogue, cover, block), "a tile from before a truncation")

    def check_cut(self, text, head, body, now):
        try:
            cover = covers.read(self.catalogue, text)
        except covers.Fault as fault:
            told = b'{"fault":"%s","field":"%s"}\n' % (fault.kind.encode(), fault.field.encode())
            return demand((head[1], body) == (b"400", told), "another refusal of a cover")
        told = CUT.fullmatch(body)
        demand(head[1] == b"200" and told, "another answer to a truncation")
        self.cuts.append((now, int(told[1]), cover))
        return None

    def check(self, method, target, text, head, body, begun, now):
        """Compares an answer with what may come to a message that was sent at the moment `begun`."""
        closes = bool(head[5])
        if head[1] == b"503":
            self.wants += 1
            return demand(head[0] + body == response(503, closes=closes), "another 503")
        try:
            found = wanted(self.catalogue, method, target)
        except Refused as refused:
            return demand(head[0] + body == refusal(refused, closes), "another refusal")
        if isinstance(found, Address):
            return self.check_tile(found, head, body, begun)
        if found == "/truncate":
            return self.check_cut(text, head, body, now)
        plain = {"/expire": (JSON, DROPPED), "/usage": (TEXT, USAGE)}.get(found)
        if plain:
            return demand(head[0] + body == response(200, plain[0], body, closes=closes) and plain[1].fullmatch(body), f"another answer to {found}")
        whole = response(200, XML, DOCUMENT, closes=closes) if found == CAPABILITIES else response(found, closes=closes)
        return demand(head[0] + body == whole, "another answer")


def response_at(data, at):
    """The match of the head that stands there, its body, and where they end."""
    head = HEAD.match(data, at)
    demand(head, "no answer of the form")
    end = head.end() + int(head[2])
    demand(end <= len(data), "half an answer")
    return head, data[head.end():end], end


def read_line(text):
    """Method, target and body of a line of a schedule that asks for something."""
    _, verb, *rest = text.split(b" ", 2)
    if verb in (b"TRUNCATE", b"EXPIRE"):
        return b"POST", b"/" + verb.lower(), rest[0] if rest else b""
    return b"GET", rest[0], b""


def check_schedule(catalogue, data, output):
    """Checks each answer of a schedule; the book of its truncations."""
    book, lines, at, last = Book(catalogue), data.split(b"\n"), 0, 0
    while at < len(output):
        told = LINE.match(output, at)
        demand(told, "no answer of the form")
        line, start = int(told[1]), int(told[3])
        head, body, end = response_at(output, told.end())
        demand(end == told.end() + int(told[4]) and last < line <= len(lines) and start <= line, "another line of an answer")
        book.check(*read_line(lines[start - 1]), head, body, start, line)
        at, last = end, line
    return book


def check_session(catalogue, data, output):
    """The same of a connection; behind the answers to its messages the one to bytes that are no message may stand."""
    book, at = Book(catalogue), 0
    messages, stops = messages_of(data)
    for number, it in enumerate(messages):
        if at == len(output):
            return book
        head, body, at = response_at(output, at)
        book.check(it.method, it.target, it.body, head, body, number, number)
    demand(output[at:] in {b""} | {response(it, closes=True) for it in stops if isinstance(it, int)}, "another last answer")
    return book
