"""The first fault of a catalogue's text, in the order of its members; None where it has none."""
import re
from fractions import Fraction

from json_text import NotJson, object_of

NAME = re.compile(r"[A-Za-z0-9_.:-]+")
DECIMAL = re.compile(r"-?[0-9]+(\.[0-9]+)?")
SPAN = re.compile(r"([0-9]+)(?:/([0-9]+))?")
RESERVED = "service request version layer style format tilematrixset tilematrix tilerow tilecol".split()
BAD, LIMIT, MISSING, DUPLICATE = "bad", "limit", "missing", "duplicate"
LONGEST = 1_048_576


class Fault(Exception):
    """A fault: its kind, its field and its index."""


class Members:
    """The members of an object with its index, read by their forms."""

    def __init__(self, told, index=0):
        self.told, self.index = told, index

    def refuse(self, kind, field):
        raise Fault(kind, field, self.index)

    def demand(self, test, kind, field):
        if not test:
            self.refuse(kind, field)

    def has(self, member):
        return member in self.told

    def required(self, member, field):
        self.demand(self.has(member), MISSING, field)
        return self.told[member]

    def number(self, member, field, least=0, most=None, default=None, needed=False):
        """A whole number; the default where it is absent and isn't needed."""
        if not needed and not self.has(member):
            return default
        value = self.required(member, field)
        self.demand(is_number(value), BAD, field)
        self.demand(least <= value and (most is None or value <= most), LIMIT, field)
        return value

    def numbers(self, member, field, count):
        value = self.required(member, field)
        self.demand(isinstance(value, list) and len(value) == count and all(map(is_number, value)), BAD, field)
        return value

    def name(self, member, field, others):
        """An identifier that is none of the others."""
        value = self.required(member, field)
        self.check_names([value], field)
        self.demand(value not in others, DUPLICATE, field)
        return value

    def check_names(self, values, field):
        self.demand(all(isinstance(it, str) and NAME.fullmatch(it) for it in values), BAD, field)
        self.demand(all(len(it) <= 64 for it in values), LIMIT, field)

    def names(self, member, field, most):
        values = self.required(member, field)
        self.demand(isinstance(values, list) and all(isinstance(it, str) and NAME.fullmatch(it) for it in values), BAD, field)
        self.demand(1 <= len(values) <= most and all(len(it) <= 64 for it in values), LIMIT, field)
        return values

    def objects(self, member, field, least, most):
        values = self.required(member, field)
        self.demand(isinstance(values, list) and all(isinstance(it, dict) for it in values), BAD, field)
        self.demand(least <= len(values) <= most, LIMIT, field)
        return [Members(it, at) for at, it in enumerate(values)]

    def decimals(self, values, field):
        self.demand(all(isinstance(it, str) and DECIMAL.fullmatch(it) for it in values), BAD, field)
        self.demand(all(len(re.findall("[0-9]", it)) <= 18 and len(it.partition(".")[2]) <= 15 for it in values), LIMIT, field)
        return [Fraction(it) for it in values]

    def corner(self, field):
        value = self.required("corner", field)
        self.demand(isinstance(value, list) and len(value) == 2, BAD, field)
        return self.decimals(value, field)

    def span(self):
        value = self.told["span"]
        told = SPAN.fullmatch(value) if isinstance(value, str) else None
        self.demand(told and all(it is None or it.strip("0") for it in told.groups()), BAD, "Span")
        self.demand(all(it is None or len(it) <= 24 for it in told.groups()), LIMIT, "Span")
        return Fraction(value)


def is_number(value):
    return isinstance(value, int) and not isinstance(value, bool)


def are_rows(value, count):
    """Whether it is a list of lists of so many whole numbers."""
    return isinstance(value, list) and all(isinstance(at, list) and len(at) == count and all(map(is_number, at)) for at in value)


def check_matrix(it, corner, meters, names):
    """Reads a matrix, and then makes it. Its tile's width and height."""
    names.append(it.name("id", "MatrixId", names))
    if it.has("corner"):
        corner = it.corner("MatrixCorner")
    if it.has("span"):
        field, span = "Span", it.span()
    else:
        field, span = "Scale", it.decimals([it.required("scale", "Scale")], "Scale")[0] * Fraction(28, 100000) / meters
    tile, size = it.numbers("tile", "Tile", 2), it.numbers("size", "Size", 2)
    it.demand(all(abs(at) <= 10**8 and (at * 10**9).denominator == 1 for at in corner), LIMIT, "MatrixCorner")
    it.demand(span > 0, BAD, field)
    it.demand(span.numerator <= 10**20 and span.denominator <= 10**18, LIMIT, field)
    it.demand(all(1 <= at <= 512 for at in tile), LIMIT, "Tile")
    it.demand(all(1 <= at <= 2**31 for at in size), LIMIT, "Size")
    it.demand(all(span * side * count <= 10**9 for side, count in zip(tile, size)), LIMIT, "Size")
    return tile


def check_grid(it, tiles):
    """Reads a grid, and puts the tiles of its matrices under its name."""
    name, meters = it.name("id", "GridId", tiles), Fraction(1)
    if it.has("metersPerUnit"):
        meters = it.decimals([it.told["metersPerUnit"]], "Meters")[0]
        it.demand(meters > 0, BAD, "Meters")
    corner, names = it.corner("Corner"), []
    tiles[name] = [check_matrix(matrix, corner, meters, names) for matrix in it.objects("matrices", "Matrices", 1, 30)]


def check_breaks(it):
    value = it.required("breaks", "Breaks")
    it.demand(are_rows(value, 4), BAD, "Breaks")
    it.demand(len(value) <= 256 and all(part <= 255 for at in value for part in at), LIMIT, "Breaks")
    starts = [at[0] for at in value]
    it.demand(starts[:1] in ([], [0]) and all(one < other for one, other in zip(starts, starts[1:])), BAD, "Breaks")


def check_styles(it):
    names = []
    for style in it.objects("styles", "Styles", 1, 32):
        names.append(style.name("id", "StyleId", names))
        check_breaks(style)


def check_dimensions(it):
    names = list(RESERVED)
    for dimension in it.objects("dimensions", "Dimensions", 0, 4) if it.has("dimensions") else []:
        name = dimension.name("id", "DimensionId", [])
        dimension.demand(name.lower() not in names, DUPLICATE, "DimensionId")
        names.append(name.lower())
        values = dimension.names("values", "Values", 1024)
        dimension.demand(len(set(values)) == len(values), DUPLICATE, "Values")
        if dimension.has("default"):
            dimension.demand(isinstance(dimension.told["default"], str) and dimension.told["default"] in values, BAD, "Default")


def check_layer_grids(it, tiles):
    names = it.names("grids", "LayerGrids", 16)
    for at, name in enumerate(names):
        it.demand(name in tiles, BAD, "LayerGrids")
        it.demand(name not in names[:at], DUPLICATE, "LayerGrids")
    return names


def check_ages(it):
    if not it.has("ages"):
        return
    value = it.told["ages"]
    it.demand(are_rows(value, 2), BAD, "Ages")
    it.demand(len(value) <= 30, LIMIT, "Ages")
    it.demand(all(zoom <= 29 and seconds < 2**32 for zoom, seconds in value), BAD, "Ages")
    it.demand(all(one[0] < other[0] for one, other in zip(value, value[1:])), BAD, "Ages")


def check_layer(it, tiles, names):
    names.append(it.name("id", "LayerId", names))
    grids = check_layer_grids(it, tiles)
    check_styles(it)
    check_dimensions(it)
    meta = it.numbers("meta", "Meta", 2) if it.has("meta") else [4, 4]
    it.demand(all(1 <= at <= 8 for at in meta), LIMIT, "Meta")
    gutter = it.number("gutter", "Gutter", 0, 64, 0)
    it.number("cell", "Cell", 1, 10**9)
    it.number("quota", "LayerQuota", 0, 2**50)
    check_ages(it)
    sides = [(meta[0] * wide + 2 * gutter, meta[1] * high + 2 * gutter) for name in grids for wide, high in tiles[name]]
    it.demand(all(wide * high <= 4_500_000 for wide, high in sides), LIMIT, "Meta")


def check(it):
    it.number("source", "Source", 0, 2**32 - 1)
    it.number("keptLimit", "KeptLimit", 1, 1 << 20)
    it.number("cutLimit", "CutLimit", 1, 1 << 16)
    it.number("blobBytes", "BlobBytes", 1, 2**40, needed=True)
    it.number("quota", "Quota", 0, 2**50)
    it.demand(it.told.get("policy", "lru") in ("lru", "lfu"), BAD, "Policy")
    tiles, names = {}, []
    for grid in it.objects("grids", "Grids", 1, 16):
        check_grid(grid, tiles)
    for layer in it.objects("layers", "Layers", 1, 64):
        check_layer(layer, tiles, names)


def first_fault(data):
    """The status that a catalogue of these bytes ends with: "0", or the code and the fault's line. No bytes are the built-in one."""
    if not data:
        return "0"
    if len(data) > LONGEST:
        return "12 too long"
    try:
        check(Members(object_of(data)))
    except NotJson:
        return "3 catalogue not json  0"
    except Fault as fault:
        return "3 catalogue {} {} {}".format(*fault.args)
    return "0"
