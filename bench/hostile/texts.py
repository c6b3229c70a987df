"""Random covers and schedules as texts, valid ones and those that are a little off."""
import json

from catalogues import MANY
from mutations import mutated
from targets import address_in, target_in

BOUNDS = [
    "0", "-20.5", "10.125", "16", "4.000004", "4.000003999", "0.000001", "-0", "100000000", "100000000.1",
    "1.0000000001", "1e3", "", "-", "1.", ".5", "007.50", "123456789012345678", "1234567890123456789",
    "0.1234567890123456", " 1", "\u0661",
]
VALUES = [None, True, -1, 0, 1, 2, 3, 1.0, 1e400, 2**64, "", "grey", "none", [], {}, ["0"], {"time": "a"}, "image/x-portable-pixmap"]

KINDS = ["seed", "seed", "reseed", "truncate"]
THREADS = [1, 1, 2, 2, 3, 4, 5, 7, 8, 8, 0, 9, 2**64 - 1, 2**64, -1, 1.0, "1", None]

MEMBERS = ["layer", "grid", "zoomStart", "zoomStop", "bounds", "format", "style", "dimensions", "type", "threads", "x"]


def box_in(chance):
    if chance.random() < 0.75:
        xs, ys = (sorted(round(chance.uniform(-25, 40), chance.randrange(4)) for _ in range(2)) for _ in range(2))
        return [str(it) for it in (xs[0], ys[0], xs[1], ys[1])]
    return [chance.choice(BOUNDS) for _ in range(chance.choice((4, 4, 4, 4, 3, 5)))]


def members_in(chance, catalogue):
    """The members of a cover that may be right."""
    address = address_in(chance, catalogue)
    layer, grid = catalogue.layers[address.layer], catalogue.grids[address.grid]
    start = chance.randint(0, address.z)
    stop = chance.randint(start, len(grid.matrices) - 1)
    told = {"layer": layer.name.decode(), "grid": grid.name.decode(), "zoomStart": start, "zoomStop": stop}
    if chance.random() < 0.6:
        told["bounds"] = box_in(chance)
    if chance.random() < 0.2:
        told["format"] = "image/x-portable-pixmap"
    if chance.random() < 0.3:
        told["style"] = layer.styles[address.style].name.decode()
    if chance.random() < 0.4:
        chosen = [it for it in zip(layer.dimensions, address.values) if chance.random() < 0.6]
        told["dimensions"] = {it.name.decode(): it.values[at].decode() for it, at in chosen}
    return told


def text_of(chance, told):
    """The bytes of an object of such members, now and then a little off."""
    for _ in range(chance.choice((0, 0, 0, 1, 2))):
        if chance.random() < 0.4 and told:
            told.pop(chance.choice(sorted(told)))
        else:
            told[chance.choice(MEMBERS)] = chance.choice(VALUES)
    text = json.dumps(told, separators=chance.choice([(",", ":"), (", ", ": ")])).encode()
    if chance.random() < 0.03:
        text = with_odd_member(chance, text)
    return mutated(chance, text) if chance.random() < 0.15 else text


def cover_in(chance, catalogue):
    """The bytes of a cover."""
    return text_of(chance, members_in(chance, catalogue))


def job_in(chance, catalogue):
    """The bytes of a job."""
    told = members_in(chance, catalogue)
    told["type"] = chance.choice(KINDS)
    if chance.random() < 0.5:
        told["threads"] = chance.choice(THREADS)
    return text_of(chance, told)


def with_odd_member(chance, text):
    """An object's text with a member in front that nobody reads: deep, long, or only just JSON."""
    depth = chance.choice((125, 126, 127, 128, 129, 5000))
    odd = [b"[" * depth + b"]" * depth, b'{"a":' * depth + b"1" + b"}" * depth, b"[" * depth, b"1e%d" % chance.choice((307, 308, 309, 999)),
           b"-0", b"1" * chance.choice((19, 20, 21, 308, 309, 310, 5000)), b'"\\ud800"', b'"\\ud83d\\ude00"', b'"\\ude00\\ud83d"', b'"\\u0000"',
           b'"\0"', b'"\x7f"', b'"\xff"', b"NaN", b"Infinity", b"01", b"1.", b".5", b"+1", b"1e", b"tru", b"[1,]", b"'a'", b'"\\x"', b"0.0e-999"]
    return b"{" + chance.choice((b'"x"', b'"\\u0078"', b'"\\ud800"', b"x", b'""')) + b":" + chance.choice(odd) + b"," + text[1:]


def line_in(chance, catalogue):
    """A line of a schedule."""
    actor = b"%d" % chance.choice((0, 0, 0, 1, 1, 2, 63))
    way = chance.random()
    if way < 0.35:
        verb = chance.choice((b"GET", b"ASK", b"ASK", b"FORCE"))
        return b"%s %s %s" % (actor, verb, target_in(chance, catalogue))
    if way < 0.8:
        return actor + b" STEP"
    if way < 0.9:
        return actor + b" TRUNCATE " + cover_in(chance, catalogue).replace(b"\n", b" ")
    return actor + b" EXPIRE" if way < 0.96 else chance.choice((b"", b"# a comment", b"#", b"#" * 16384))


def odd_line(chance, line):
    way = chance.randrange(5)
    if way == 0:
        return mutated(chance, line)
    if way == 1:
        return line + b" " * chance.randrange(1, 3)
    if way == 2:
        return b"0" + line
    if way == 3:
        return line.replace(b" ", b"\t", 1)
    return (line + b"x" * 16384)[:chance.choice((16384, 16385))]


def schedule_in(chance, catalogue, busy_of):
    """The bytes of a schedule. `busy_of` tells which actors the lines so far leave busy, so that most lines are ones that are taken."""
    lines = []
    for _ in range(chance.choice((1, 3, 10, 40, 40))):
        line = line_in(chance, catalogue)
        for _ in range(8):
            if chance.random() < 0.02 or busy_of(lines, line):
                break
            line = line_in(chance, catalogue)
        lines.append(odd_line(chance, line) if chance.random() < 0.02 else line)
    return b"\n".join(lines) + (b"\n" if chance.random() < 0.7 else b"")


def catalogue_in(chance):
    """The bytes of a catalogue that is off in one or a few places."""
    told = json.loads(MANY)
    for _ in range(chance.choice((0, 1, 1, 1, 2, 3))):
        change(chance, told)
    text = json.dumps(told, separators=(",", ":")).encode()
    if chance.random() < 0.05:
        text = with_odd_member(chance, text)
    return mutated(chance, text) if chance.random() < 0.3 else text


def places_in(value):
    """Each list and object within a value, itself among them."""
    yield value
    for it in value.values() if isinstance(value, dict) else value:
        if isinstance(it, (dict, list)):
            yield from places_in(it)


NUMBERS = [
    0, 1, 2, 8, 9, 64, 65, 255, 256, 512, 513, 4294967295, 4294967296, 2**40, 2**40 + 1, 2**50, 2**50 + 1, 2**64 - 1,
    2**64, -1, 1.5, 1e300, True, None,
]
TEXTS = [
    "", "0", "1/3", "2/6", "1/0", "0/1", "45/64", "9" * 24, "9" * 25, "1." + "1" * 15, "1." + "1" * 16, "-1", "a" * 64,
    "a" * 65, "tiny", "lfu", "Service", "TILEROW", "a b", "\u00e9", "\ud800", "559082264.0287178", "0.703125",
    "100000000.000000001", "-0.0",
]

OPTIONS = ["ages", "quota", "gutter", "cell", "meta", "span", "scale", "default", "corner", "policy", "source", "metersPerUnit"]


def change(chance, told):
    """Takes one member away, or gives it another value, or another place."""
    place = chance.choice([it for it in places_in(told) if it] or [told])
    if not place:
        return
    at = chance.choice(sorted(place)) if isinstance(place, dict) else chance.randrange(len(place))
    way = chance.randrange(8)
    if way == 0:
        place.pop(at)
    elif way == 1:
        place[at] = chance.choice(NUMBERS)
    elif way == 2:
        place[at] = chance.choice(TEXTS)
    elif way == 3 and isinstance(place, list):
        place.append(place[at])
    elif way == 4 and isinstance(place, list):
        place[:] = [place[at]] * chance.choice((0, 5, 31, 33, 65, 257, 1025))
    elif way == 5 and isinstance(place, dict):
        place[chance.choice(OPTIONS)] = chance.choice(NUMBERS + TEXTS + [[]])
    else:
        place[at] = chance.choice([[], {}, [1, 2], ["0", "16"], [[0, 10]], [[3, 1], [2, 1]], [0, 1, 2, 3]])
