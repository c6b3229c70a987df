"""The messages of a stream of bytes, as `httparse` reads heads in its default form, and how the stream stops."""
import codecs
import re
from collections import namedtuple

Message = namedtuple("Message", "method target body last")

HEAD_LIMIT, FIELD_LIMIT, BODY_LIMIT, SESSION = 16384, 64, 65536, 10000
BLANK = re.compile(rb"(?:\r?\n)*")
METHOD = re.compile(rb"[!#$%&'*+\-.^_`|~0-9A-Za-z]*")
TARGET = re.compile(rb"[^\x00-\x20\x7f]*")
VALUE = re.compile(rb"[^\x00-\x08\x0a-\x1f\x7f]*")
END, TRUNCATED = "end", "truncated"


class Partial(Exception):
    """The bytes end before their head does; `target` is the part of the target where they end within it."""

    def __init__(self, target=None):
        super().__init__()
        self.target = target


class Hopeless(Exception):
    """No continuation of the bytes begins with a head."""


def byte_at(data, at):
    if at >= len(data):
        raise Partial
    return data[at]


def after_newline(data, at):
    """Behind the line's end that stands here."""
    if byte_at(data, at) == 13:
        at += 1
    if byte_at(data, at) != 10:
        raise Hopeless
    return at + 1


def read_method(data, at):
    end = METHOD.match(data, at).end()
    if byte_at(data, end) != 32 or end == at:
        raise Hopeless
    return data[at:end], end + 1


def read_target(data, at):
    end = TARGET.match(data, at).end()
    if end >= len(data):
        raise Partial(data[at:])
    if data[end] != 32 or end == at:
        raise Hopeless
    try:
        data[at:end].decode("utf-8")
    except UnicodeDecodeError as error:
        raise Hopeless from error
    return data[at:end], end + 1


def read_version(data, at):
    """The minor version."""
    for place, expected in enumerate(b"HTTP/1."):
        if byte_at(data, at + place) != expected:
            raise Hopeless
    if byte_at(data, at + 7) not in b"01":
        raise Hopeless
    return data[at + 7] - 48, after_newline(data, at + 8)


def read_field(data, at):
    colon = METHOD.match(data, at).end()  # names are tokens as methods are
    if byte_at(data, colon) != 58 or colon == at:
        raise Hopeless
    end = VALUE.match(data, colon + 1).end()
    return (data[at:colon].lower(), data[colon + 1:end].strip(b" \t")), after_newline(data, end)


def read_fields(data, at, fields):
    """Behind the empty line of the head; the fields before it, or before the bytes end, are put into the list."""
    while byte_at(data, at) not in b"\r\n":
        field, at = read_field(data, at)
        fields.append(field)
    return after_newline(data, at)


def after_blank_lines(data):
    at = BLANK.match(data).end()
    return after_newline(data, at) if byte_at(data, at) == 13 else at  # half of a line's end


def read_head(data, fields):
    method, at = read_method(data, after_blank_lines(data))
    target, at = read_target(data, at)
    minor, at = read_version(data, at)
    return method, target, minor, read_fields(data, at, fields)


def may_become_text(target):
    """Whether more bytes can make these a text of UTF-8."""
    try:
        codecs.getincrementaldecoder("utf-8")().decode(target)
    except UnicodeDecodeError:
        return False
    return True


def stops_of_partial(partial, front, fields):
    """How bytes stop that hold no whole head: the first is the proper one."""
    unfinished = 431 if len(front) >= HEAD_LIMIT else TRUNCATED
    many = {431} if len(fields) > FIELD_LIMIT else set()
    if partial.target is not None and not may_become_text(partial.target):
        return {400, unfinished} | many
    return {unfinished} | many


def next_of(data, at):
    """(message, where the next one begins), or (None, the set of stops that are right here)."""
    front, fields = data[at:at + HEAD_LIMIT], []
    if not front:
        return None, {END}
    try:
        method, target, minor, length = read_head(front, fields)
    except Partial as partial:
        return None, stops_of_partial(partial, front, fields)
    except Hopeless:
        return None, {400, 431} if len(fields) > FIELD_LIMIT else {400}
    if len(fields) > FIELD_LIMIT:
        return None, {431}
    return body_of(data, at + length, fields, (method, target, minor))


def body_of(data, at, fields, line):
    """The same, where a whole head ends here."""
    lengths = [value for name, value in fields if name == b"content-length"]
    if len(lengths) > 1 or not re.fullmatch(rb"[0-9]{1,18}", (lengths + [b"0"])[0]):
        return None, {400}
    if any(name == b"transfer-encoding" for name, _ in fields):
        return None, {501}
    length = int((lengths + [b"0"])[0])
    if length > BODY_LIMIT:
        return None, {413}
    if len(data) - at < length:
        return None, {TRUNCATED}
    method, target, minor = line
    last = minor == 0 or any(name == b"connection" and value.lower() == b"close" for name, value in fields)
    return Message(method, target, data[at:at + length], last), at + length


def messages_of(data):
    """The messages of one connection, and the stops that are right behind them; {None} where the last message ends it."""
    found, at = [], 0
    while True:
        message, told = next_of(data, at)
        if message is None:
            return found, told
        found.append(message)
        at = told
        if message.last or len(found) == SESSION:
            return found, {None}
