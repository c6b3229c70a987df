"""A catalogue that is known to be valid, as the model sees it, and the catalogue that most cases are made for."""
import json
from collections import namedtuple
from fractions import Fraction

Matrix = namedtuple("Matrix", "name span left top width height cols rows")
Grid = namedtuple("Grid", "name matrices")
Style = namedtuple("Style", "name breaks")
Dimension = namedtuple("Dimension", "name values default")
Layer = namedtuple("Layer", "name grids styles dimensions meta_x meta_y cell quota")
Catalogue = namedtuple("Catalogue", "source kept_limit cut_limit blob_bytes quota policy grids layers")

# What a tile is asked for by: numbers of the layer, of its style and of four values, the number of the grid, and its place.
Address = namedtuple("Address", "layer style values grid z row col")

DEMO = """{"source":0,"keptLimit":64,"cutLimit":16,"blobBytes":4096,"policy":"lru",
"grids":[{"id":"tiny","corner":["0","16"],"matrices":[
{"id":"0","span":"8","tile":[2,2],"size":[1,1]},
{"id":"1","span":"4","tile":[2,2],"size":[2,2]},
{"id":"2","span":"2","tile":[2,2],"size":[4,4]}]}],
"layers":[{"id":"demo","grids":["tiny"],"styles":[{"id":"grey","breaks":[]}],"meta":[1,1],"gutter":0,"cell":1}]}"""

# Several layers, grids, styles and dimensions, with names of all bytes that names may have, and corners, spans, tiles and factors that
# aren't round.
MANY = """{"source":7,"keptLimit":4096,"cutLimit":12,"blobBytes":2000000000,"policy":"lru",
"grids":[{"id":"tiny","corner":["0","16"],"matrices":[
{"id":"0","span":"8","tile":[2,2],"size":[1,1]},
{"id":"1","span":"4","tile":[2,2],"size":[2,2]},
{"id":"2","span":"2","tile":[2,2],"size":[4,4]}]},
{"id":"Wide:2.b","metersPerUnit":"0.5","corner":["-20.5","10.125"],"matrices":[
{"id":"a","span":"9/7","tile":[3,2],"size":[5,3]},
{"id":"A","scale":"1000","corner":["-1.000000001","7"],"tile":[1,4],"size":[7,6]},
{"id":"z_-9","span":"1/3","tile":[2,3],"size":[31,17]}]},
{"id":"apart","corner":["0","0"],"matrices":[{"id":"0","span":"1","tile":[1,1],"size":[3,3]}]}],
"layers":[{"id":"demo","grids":["tiny"],"styles":[{"id":"grey","breaks":[]}],"meta":[1,1]},
{"id":"sea","grids":["tiny","Wide:2.b"],"styles":[{"id":"grey","breaks":[]},{"id":"two","breaks":[[0,0,0,255],[128,255,255,255]]}],
 "dimensions":[{"id":"time","values":["a","b"],"default":"a"},{"id":"level","values":["0","10"]}],"meta":[2,2],"gutter":1},
{"id":"L.-_:9","grids":["Wide:2.b","apart"],"styles":[{"id":"S:1","breaks":[[0,1,2,3],[1,4,5,6],[200,7,8,9]]},{"id":"s:1","breaks":[]}],
 "dimensions":[{"id":"Elevation","values":["-1","0","1"],"default":"0"},{"id":"dim_two","values":["x"]},
 {"id":"t.t","values":["2026-01-01","2026-01-02:00"],"default":"2026-01-02:00"},
 {"id":"Z","values":["a","A","aa"]}],"meta":[3,1],"gutter":2,"cell":2},
{"id":"bare","grids":["apart"],"styles":[{"id":"grey","breaks":[]}]}]}"""

# Little room, few cuts and quotas, so that all of them are met.
TIGHT = MANY.replace('"keptLimit":4096,"cutLimit":12,"blobBytes":2000000000,"policy":"lru"',
                     '"keptLimit":9,"cutLimit":4,"blobBytes":700,"quota":500,"policy":"lfu"').replace(
                     '"meta":[1,1]}', '"meta":[1,1],"quota":46}')

# The same, with a layer of which most jobs have too many places: one row more, and its first matrix has more than ten million tiles.
WIDE = TIGHT.replace('{"id":"apart"', '{"id":"wide","corner":["0","11"],"matrices":[{"id":"0","span":"1","tile":[1,1],"size":[909091,11]}]},\n{"id":"apart"').replace(
    '{"id":"bare"', '{"id":"wide","grids":["wide","apart"],"styles":[{"id":"grey","breaks":[]}],"meta":[1,1]},\n{"id":"bare"')

# The same with room for all tiles of the others, and a second matrix of exactly ten million tiles.
WIDER = WIDE.replace('"size":[909091,11]}', '"size":[909091,11]},{"id":"1","span":"1","tile":[1,1],"size":[4000,2500]}').replace(
    '"keptLimit":9,"cutLimit":4,"blobBytes":700,"quota":500,"policy":"lfu"', '"keptLimit":200000,"cutLimit":12,"blobBytes":2000000000').replace(
    '"quota":46', '"quota":1000000')


def matrix_of(grid, text):
    """A matrix of a grid's text; a scale gives the span by the pixel of 0.28 mm."""
    if "span" in text:
        span = Fraction(text["span"])
    else:
        span = Fraction(text["scale"]) * Fraction(28, 100000) / Fraction(grid.get("metersPerUnit", "1"))
    left, top = (Fraction(it) for it in text.get("corner", grid["corner"]))
    return Matrix(text["id"].encode(), span, left, top, *text["tile"], *text["size"])


def grid_of(text):
    return Grid(text["id"].encode(), [matrix_of(text, it) for it in text["matrices"]])


def dimension_of(text):
    values = [it.encode() for it in text["values"]]
    return Dimension(text["id"].encode(), values, values.index(text["default"].encode()) if "default" in text else None)


def layer_of(text, grid_names):
    styles = [Style(it["id"].encode(), it["breaks"]) for it in text["styles"]]
    dimensions = [dimension_of(it) for it in text.get("dimensions", [])]
    served = [grid_names.index(it.encode()) for it in text["grids"]]
    return Layer(text["id"].encode(), served, styles, dimensions, *text.get("meta", [4, 4]), text.get("cell", 1), text.get("quota"))


def read(text):
    """The catalogue of a valid text."""
    told = json.loads(text)
    grids = [grid_of(it) for it in told["grids"]]
    layers = [layer_of(it, [grid.name for grid in grids]) for it in told["layers"]]
    limits = (told.get("keptLimit", 1 << 20), told.get("cutLimit", 1 << 16), told["blobBytes"], told.get("quota"))
    return Catalogue(told.get("source", 0), *limits, told.get("policy", "lru"), grids, layers)


def place_of(members, name):
    """The number of the member of that name, or None."""
    return next((at for at, it in enumerate(members) if it.name == name), None)
