"""Covers: how one is read, which tiles it is for, and which covers it contains."""
import re
from collections import namedtuple
from fractions import Fraction
from math import floor

from catalogues import place_of
from json_text import NotJson, object_of
from pictures import matrix_at, tiles_of

Cover = namedtuple("Cover", "layer grid start stop box style values")
EPS = Fraction(1, 1_000_000)
ABSENT = object()


class Fault(Exception):
    """A fault of a cover: its kind and its field."""

    def __init__(self, kind, field=""):
        super().__init__(kind, field)
        self.kind, self.field = kind, field


def required(told, member, field):
    if member not in told:
        raise Fault("missing", field)
    return told[member]


def named(members, name, field):
    """The number of the member of that name."""
    at = place_of(members, name.encode()) if isinstance(name, str) else None
    if at is None:
        raise Fault("bad", field)
    return at


def grid_in(catalogue, layer, name):
    at = named(catalogue.grids, name, "Grid")
    if at not in catalogue.layers[layer].grids:
        raise Fault("bad", "Grid")
    return at


def zoom(value, least, count, field):
    if not isinstance(value, int) or isinstance(value, bool) or not least <= value < count:
        raise Fault("bad", field)
    return value


def decimal(text):
    """The number of a decimal text. Texts of another form are bad, those that are too long a limit."""
    if not isinstance(text, str) or not re.fullmatch(r"-?[0-9]+(\.[0-9]+)?", text, re.ASCII):
        raise Fault("bad", "Bounds")
    return text


def within_limits(text):
    digits = text.lstrip("-")
    behind = len(digits.partition(".")[2])
    if len(digits.replace(".", "")) > 18 or behind > 15:
        raise Fault("limit", "Bounds")
    number = Fraction(text)
    if abs(number) > 10**8 or (number * 10**9).denominator != 1:
        raise Fault("limit", "Bounds")
    return number


def box_of(value):
    if not isinstance(value, list) or len(value) != 4:
        raise Fault("bad", "Bounds")
    min_x, min_y, max_x, max_y = (within_limits(it) for it in [decimal(it) for it in value])
    if min_x > max_x or min_y > max_y:
        raise Fault("bad", "Bounds")
    return min_x, min_y, max_x, max_y


def values_of(layer, told):
    """The numbers of the values that are named, None where any value will do."""
    if not isinstance(told, dict):
        raise Fault("bad", "Dimensions")
    names = {it.name.decode(): it for it in layer.dimensions}
    for name, value in told.items():
        if name not in names or not isinstance(value, str) or value.encode() not in names[name].values:
            raise Fault("bad", "Dimensions")
    chosen = [it.values.index(told[it.name.decode()].encode()) if it.name.decode() in told else None for it in layer.dimensions]
    return tuple(chosen + [None] * (4 - len(chosen)))


def read(catalogue, data):
    """The cover of a text; Fault at the first member that has one."""
    try:
        told = object_of(data)
    except NotJson as error:
        raise Fault("not json") from error
    number = named(catalogue.layers, required(told, "layer", "Layer"), "Layer")
    layer = catalogue.layers[number]
    grid = grid_in(catalogue, number, required(told, "grid", "Grid"))
    count = len(catalogue.grids[grid].matrices)
    start = zoom(required(told, "zoomStart", "ZoomStart"), 0, count, "ZoomStart")
    stop = zoom(required(told, "zoomStop", "ZoomStop"), start, count, "ZoomStop")
    box = box_of(told["bounds"]) if "bounds" in told else None
    if told.get("format", "image/x-portable-pixmap") != "image/x-portable-pixmap":
        raise Fault("bad", "Format")
    style = named(layer.styles, told["style"], "Style") if "style" in told else None
    return Cover(number, grid, start, stop, box, style, values_of(layer, told.get("dimensions", {})))


def range_of(matrix, box):
    """The rows and the columns of a matrix that a box is for."""
    min_x, min_y, max_x, max_y = box
    across, down = matrix.width * matrix.span, matrix.height * matrix.span
    cols = floor((min_x - matrix.left) / across + EPS), floor((max_x - matrix.left) / across - EPS)
    rows = floor((matrix.top - max_y) / down + EPS), floor((matrix.top - min_y) / down - EPS)
    return (range(max(rows[0], 0), min(rows[1], matrix.rows - 1) + 1), range(max(cols[0], 0), min(cols[1], matrix.cols - 1) + 1))


def meets(one, other):
    return max(one.start, other.start) < min(one.stop, other.stop)


def hits(catalogue, cover, block):
    """Whether a cover is for some tile of a metatile."""
    if (cover.layer, cover.grid) != (block.layer, block.grid) or not cover.start <= block.z <= cover.stop:
        return False
    if cover.style not in (None, block.style) or any(it not in (None, at) for it, at in zip(cover.values, block.values)):
        return False
    if cover.box is None:
        return True
    return all(map(meets, tiles_of(catalogue, block), range_of(matrix_at(catalogue, block), cover.box)))


def contains(outer, inner):
    """Whether a cover is for all that another one is for, as their members say."""
    if (outer.layer, outer.grid) != (inner.layer, inner.grid) or not outer.start <= inner.start <= inner.stop <= outer.stop:
        return False
    if outer.box is not None:
        if inner.box is None:
            return False
        (left, low, right, high), (a, b, c, d) = outer.box, inner.box
        if not (left <= a and low <= b and right >= c and high >= d):
            return False
    wanted, given = (outer.style, *outer.values), (inner.style, *inner.values)
    return all(it in (None, at) for it, at in zip(wanted, given))
