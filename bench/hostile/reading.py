"""The reading of a query and of a path: a tile, the capabilities, or the first refusal in the order of the parameters."""
import re
from urllib.parse import unquote_to_bytes

from catalogues import Address, place_of

MISSING, INVALID, OUT, UNSUPPORTED = "MissingParameterValue", "InvalidParameterValue", "TileOutOfRange", "OperationNotSupported"
STATUS = {MISSING: 400, INVALID: 400, OUT: 400, UNSUPPORTED: 501, "NoApplicableCode": 500}
FORMAT = b"image/x-portable-pixmap"
CAPABILITIES = "capabilities"
SUPPLIED = [(b"service", b"WMTS"), (b"request", b"GetTile"), (b"version", b"1.0.0"), (b"format", FORMAT)]


class Refused(Exception):
    """A refusal: its code, and the parameter (or, of another operation, the value) that its locator names."""

    def __init__(self, code, locator):
        super().__init__(code, locator)
        self.code, self.locator = code, locator


def decoded(text):
    """A text without its escapes, of UTF-8, with U+FFFD where bytes are none."""
    if b"%" in text:
        text = unquote_to_bytes(text)
    return text if text.isascii() else text.decode("utf-8", "replace").encode()


def pairs_of(query):
    """The pairs of a query, decoded as a form's."""
    split = [part.partition(b"=") for part in query.replace(b"+", b" ").split(b"&") if part]
    return [(decoded(name), decoded(value)) for name, _, value in split]


def first_values(pairs):
    """The value of the first pair of each name, by the name without the case of its ASCII letters."""
    return {name.lower(): value for name, value in reversed(pairs)}


def needed(values, name):
    value = values.get(name.lower())
    if value is None:
        raise Refused(MISSING, name)
    return value


def checked(values, name, test):
    """The number that a test gives to a parameter's value."""
    found = test(needed(values, name))
    if found is None:
        raise Refused(INVALID, name)
    return found


def equal(text):
    return lambda value: 0 if value == text else None


def digits(value):
    """The number that digits spell; of a long one the first twenty that count, which are beyond each matrix."""
    return int(value.lstrip(b"0")[:20] or b"0") if re.fullmatch(rb"[0-9]+", value) else None


def among(texts):
    return lambda value: texts.index(value) if value in texts else None


def style_of(layer):
    return lambda value: place_of(layer.styles, value) if value else 0


def grid_of(catalogue, layer):
    """A grid of the catalogue by its name, where the layer has it."""

    def test(value):
        at = place_of(catalogue.grids, value)
        return at if at in layer.grids else None

    return test


def values_of(values, layer):
    """The numbers of the values of the four dimensions, 0 where the layer has fewer."""
    numbers = []
    for dimension in layer.dimensions:
        if dimension.name.lower() not in values and dimension.default is not None:
            numbers.append(dimension.default)
        else:
            numbers.append(checked(values, dimension.name, among(dimension.values)))
    return tuple(numbers + [0] * (4 - len(numbers)))


def reading(catalogue, pairs):
    """The address that the pairs name, or CAPABILITIES; Refused at the first parameter that fails."""
    given = first_values(pairs)
    checked(given, b"service", equal(b"WMTS"))
    request = needed(given, b"request")
    if request == b"GetCapabilities":
        return CAPABILITIES
    if request != b"GetTile":
        raise Refused(UNSUPPORTED, request)
    checked(given, b"version", equal(b"1.0.0"))
    number = checked(given, b"layer", lambda value: place_of(catalogue.layers, value))
    layer = catalogue.layers[number]
    style = checked(given, b"style", style_of(layer))
    checked(given, b"format", equal(FORMAT))
    numbers = values_of(given, layer)
    grid = checked(given, b"TileMatrixSet", grid_of(catalogue, layer))
    z = checked(given, b"TileMatrix", lambda value: place_of(catalogue.grids[grid].matrices, value))
    row = checked(given, b"TileRow", digits)
    col = checked(given, b"TileCol", digits)
    matrix = catalogue.grids[grid].matrices[z]
    if row >= matrix.rows:
        raise Refused(OUT, b"TileRow")
    if col >= matrix.cols:
        raise Refused(OUT, b"TileCol")
    return Address(number, style, numbers, grid, z, row, col)


def path_reading(catalogue, path):
    """The same of a path that begins with /rest/wmts/; None where it has another shape."""
    try:
        path.decode("utf-8")
    except UnicodeDecodeError:
        return None
    if path == b"/rest/wmts/WMTSCapabilities.xml":
        return CAPABILITIES
    segments = path.removeprefix(b"/rest/wmts/").split(b"/")
    if not 6 <= len(segments) <= 10 or not all(segments) or not segments[-1].endswith(b".ppm"):
        return None
    segments[-1] = segments[-1].removesuffix(b".ppm")
    texts = [decoded(it) for it in segments]
    layer = place_of(catalogue.layers, texts[0])
    dimensions = [] if layer is None else [it.name for it in catalogue.layers[layer].dimensions]
    if layer is not None and len(texts) != 6 + len(dimensions):
        return None
    names = [b"layer", b"style", *dimensions, b"TileMatrixSet", b"TileMatrix", b"TileRow", b"TileCol"]
    return reading(catalogue, SUPPLIED + list(zip(names, texts)))


def escaped(locator):
    """A locator as an attribute's value; it is a text of UTF-8."""
    text = "".join("?" if it < " " or it in "\ufffe\uffff" else it for it in locator.decode())
    for plain, entity in (("&", "&amp;"), ("<", "&lt;"), (">", "&gt;"), ('"', "&quot;")):
        text = text.replace(plain, entity)
    return text.encode()


def report(code, locator=None):
    """The bytes of an exception report."""
    where = b"" if locator is None else b' locator="' + escaped(locator) + b'"'
    return (b'<?xml version="1.0" encoding="UTF-8"?>\n<ExceptionReport xmlns="http://www.opengis.net/ows/1.1" version="1.1.0">\n'
            b'<Exception exceptionCode="' + code.encode() + b'"' + where + b"/>\n</ExceptionReport>\n")
