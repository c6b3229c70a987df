"""Random targets of messages: queries and paths, valid ones and those that are a little off."""
import re

from catalogues import Address
from mutations import ODD, mutated

TEXTS = [
    b"", b"0", b"1", b"none", b"grey", b"GREY", b"tiny", b"Tiny", b"a", b"A", b"10", b"-1", b"+1", b"1.0", b"x",
    b"WMTS", b"default", b"demo ", b" demo",
]
NUMBERS = [
    b"00", b"000001", b"4294967296", b"18446744073709551616", b"9" * 60, b"0" * 400 + b"1", b"0x1", b"1e1", b"\xd9\xa1",
    b"%30", b"1 ", b"",
]
OTHERS = [
    b"/", b"*", b"/wmts/", b"/WMTS", b"/wmts", b"/wmts?", b"/wmt", b"/wmtsx", b"//wmts", b"/rest/wmts/", b"/rest/wmts",
    b"/rest/wmts/WMTSCapabilities.xml", b"/rest/wmts/WMTSCapabilities.xml?x=1", b"/rest/wmts/WMTSCapabilities.xml/",
    b"/rest/wmts/%57MTSCapabilities.xml", b"/usage", b"/usage?x", b"/usage/", b"/truncate", b"/expire", b"/expire?a=b",
    b"http://here/wmts", b"wmts", b"/%77mts", b"/usage#x", b"/../usage", b"/favicon.ico",
]
ENDINGS = [b"", b".png", b".PPM", b".ppm/", b"%2eppm", b".ppm?a=b", b".ppm.ppm"]
NAMES = [b"service", b"request", b"version", b"layer", b"style", b"format", b"TileMatrixSet", b"TileMatrix", b"TileRow", b"TileCol"]


def address_in(chance, catalogue):
    """A tile of the catalogue."""
    number = chance.randrange(len(catalogue.layers))
    layer = catalogue.layers[number]
    grid = chance.choice(layer.grids)
    z = chance.randrange(len(catalogue.grids[grid].matrices))
    matrix = catalogue.grids[grid].matrices[z]
    values = [chance.randrange(len(it.values)) for it in layer.dimensions]
    values, style = tuple(values + [0] * (4 - len(values))), chance.randrange(len(layer.styles))
    return Address(number, style, values, grid, z, chance.randrange(matrix.rows), chance.randrange(matrix.cols))


def names_in(catalogue, address):
    """The texts that a tile is asked for by: layer, style, values, grid, matrix, row and column."""
    layer, grid = catalogue.layers[address.layer], catalogue.grids[address.grid]
    values = [it.values[at] for it, at in zip(layer.dimensions, address.values)]
    place = b"%d" % address.row, b"%d" % address.col
    return [layer.name, layer.styles[address.style].name, *values, grid.name, grid.matrices[address.z].name, *place]


def pairs_in(catalogue, address):
    texts = names_in(catalogue, address)
    fixed = [(b"service", b"WMTS"), (b"request", b"GetTile"), (b"version", b"1.0.0"), (b"format", b"image/x-portable-pixmap")]
    dimensions = [it.name for it in catalogue.layers[address.layer].dimensions]
    return fixed + list(zip([b"layer", b"style", *dimensions, b"TileMatrixSet", b"TileMatrix", b"TileRow", b"TileCol"], texts))


def other_text(chance, text):
    """Another value in place of one."""
    way = chance.randrange(6)
    if way == 0:
        return chance.choice(TEXTS)
    if way == 1:
        return chance.choice(NUMBERS)
    if way == 2:
        return text.swapcase()
    if way == 3:
        return b"0" * chance.randrange(4) + b"%d" % chance.randrange(40)
    return mutated(chance, text, 2) if way == 4 else text + chance.choice(ODD)


def coded(chance, text):
    """A text with some of its bytes written as escapes."""
    return b"".join((b"%%%02x" if chance.random() < 0.5 else b"%%%02X") % it if chance.random() < 0.3 else bytes([it]) for it in text)


def changed_pairs(chance, pairs):
    """The pairs with one that is missing, given twice, moved, renamed or of another value."""
    at, way = chance.randrange(len(pairs)), chance.randrange(7)
    name, value = pairs[at]
    if way == 0:
        pairs.pop(at)
    elif way in (1, 2):
        pairs[at] = name, other_text(chance, value)
    elif way == 3:
        pairs.insert(chance.randrange(len(pairs) + 1), (name.swapcase(), other_text(chance, value)))
    elif way == 4:
        pairs[at] = (name.upper() if chance.random() < 0.5 else name.swapcase()), value
    elif way == 5:
        pairs[at] = other_text(chance, name), value
    else:
        pairs.append((chance.choice(NAMES), chance.choice(TEXTS)))


def query(chance, catalogue):
    pairs = pairs_in(catalogue, address_in(chance, catalogue))
    if chance.random() < 0.3:
        chance.shuffle(pairs)
    for _ in range(chance.choice((0, 0, 1, 1, 2, 4))):
        if pairs:
            changed_pairs(chance, pairs)
    text = b"&".join(b"%s=%s" % it for it in pairs)
    way = chance.random()
    if way < 0.1:
        text = mutated(chance, text)
    elif way < 0.2:
        text = coded(chance, text.replace(b" ", b"+"))
    elif way < 0.22:
        text = b"&" * chance.randrange(200) + text.replace(b"&", b"&&")
    return b"/wmts?" + text


def path(chance, catalogue):
    segments = names_in(catalogue, address_in(chance, catalogue))
    for _ in range(chance.choice((0, 0, 0, 1, 1, 2, 3))):
        at, way = chance.randrange(len(segments)), chance.randrange(6)
        if way == 0 and len(segments) > 1:
            segments.pop(at)
        elif way == 1:
            segments.insert(at, chance.choice(TEXTS))
        elif way == 2:
            segments[at] = coded(chance, segments[at])
        else:
            segments[at] = other_text(chance, segments[at])
    text = b"/rest/wmts/" + b"/".join(segments) + (b".ppm" if chance.random() < 0.95 else chance.choice(ENDINGS))
    return mutated(chance, text) if chance.random() < 0.1 else text


def sendable(target):
    """The target with an escape for each byte that no target may have, of at most 12,000 bytes."""
    target = re.sub(rb"[\x00-\x20\x7f]", lambda it: b"%%%02X" % it[0][0], target[:4000])
    try:
        target.decode("utf-8")
    except UnicodeDecodeError:
        target = re.sub(rb"[\x80-\xff]", lambda it: b"%%%02X" % it[0][0], target)
    return target or b"/"


def target_in(chance, catalogue):
    """A target that may stand in a message."""
    way = chance.random()
    if way < 0.55:
        return sendable(query(chance, catalogue))
    if way < 0.95:
        return sendable(path(chance, catalogue))
    return sendable(chance.choice(OTHERS) if way < 0.98 else mutated(chance, chance.choice(OTHERS)))
