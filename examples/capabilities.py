#!/usr/bin/env python3
"""Writes a capabilities document (OGC 07-057r7) that follows a catalogue, to begin one's own with.

    python3 examples/capabilities.py [--png] TITLE ADDRESS GRID=CRS[,WEST,SOUTH,EAST,NORTH] .. < catalogue.json > capabilities.xml

ADDRESS is where clients reach the server, as http://localhost:8080. For each grid of the catalogue it takes the name of its
coordinate system, one whose first axis points east, and the extent in degrees that its layers are told to have: the whole world
where none is given. The titles of layers and styles are their identifiers; mend them by hand.

With --png it offers each tile as PNG, too, before PPM, since some clients take the first format; and GetTile by paths alone, since a query
asks for PPM.
"""
import json
import sys
from decimal import Decimal, getcontext
from fractions import Fraction
from xml.sax.saxutils import escape, quoteattr

# The formats of a tile: the media type, what the path begins with, and what it ends with.
PPM = ("image/x-portable-pixmap", "rest/wmts", ".ppm")
PNG = ("image/png", "png", ".png")
PIXEL = Fraction(28, 100000)
HEAD = '''<?xml version="1.0" encoding="UTF-8"?>
<Capabilities xmlns="http://www.opengis.net/wmts/1.0" xmlns:ows="http://www.opengis.net/ows/1.1" \
xmlns:xlink="http://www.w3.org/1999/xlink" xmlns:xsi="http://www.w3.org/2001/XMLSchema-instance" \
xsi:schemaLocation="http://www.opengis.net/wmts/1.0 http://schemas.opengis.net/wmts/1.0/wmtsGetCapabilities_response.xsd" \
version="1.0.0">'''


class Page:
    """An XML text that grows line by line."""

    def __init__(self):
        self.depth = 0

    def line(self, text):
        print("  " * self.depth + text)

    def leaf(self, name, value):
        self.line(f"<{name}>{escape(str(value))}</{name}>")

    def within(self, tag, write):
        self.line(f"<{tag}>")
        self.depth += 1
        write()
        self.depth -= 1
        self.line(f"</{tag.split(' ')[0]}>")


def decimal(fraction):
    """A fraction as a decimal text of 16 digits, without an exponent."""
    getcontext().prec = 16
    text = format(Decimal(fraction.numerator) / Decimal(fraction.denominator), "f")
    return text.rstrip("0").rstrip(".") if "." in text else text


def write_operation(page, name, ways):
    """An operation, with the address of each way to ask for it."""
    def write_way(address, encoding):
        page.within(f"ows:Get xlink:href={quoteattr(address)}", lambda: page.within(
            'ows:Constraint name="GetEncoding"', lambda: page.within(
                "ows:AllowedValues", lambda: page.leaf("ows:Value", encoding))))
    page.within(f'ows:Operation name="{name}"', lambda: page.within("ows:DCP", lambda: page.within(
        "ows:HTTP", lambda: [write_way(*way) for way in ways])))


def span_of(grid, matrix):
    """The side of a pixel in units of the grid."""
    meters = Fraction(grid.get("metersPerUnit", "1"))
    return Fraction(matrix["span"]) if "span" in matrix else Fraction(matrix["scale"]) * PIXEL / meters


def write_box(page, grid):
    """The extent of a grid's first matrix, in its own coordinate system."""
    matrix = grid["matrices"][0]
    left, top = map(Fraction, matrix.get("corner", grid["corner"]))
    width, height = (tile * size * span_of(grid, matrix) for tile, size in zip(matrix["tile"], matrix["size"]))
    page.leaf("ows:LowerCorner", f"{decimal(left)} {decimal(top - height)}")
    page.leaf("ows:UpperCorner", f"{decimal(left + width)} {decimal(top)}")


def write_layer(page, layer, grids, address, systems, formats):
    """A layer, with its styles, its dimensions, its grids and the templates of its paths."""
    page.leaf("ows:Title", layer["id"])
    extents = [systems[grid][1] for grid in layer["grids"]]
    west, south = (min((extent[i] for extent in extents), key=Decimal) for i in (0, 1))
    east, north = (max((extent[i] for extent in extents), key=Decimal) for i in (2, 3))
    page.within("ows:WGS84BoundingBox", lambda: (page.leaf("ows:LowerCorner", f"{west} {south}"),
                                                 page.leaf("ows:UpperCorner", f"{east} {north}")))
    page.leaf("ows:Identifier", layer["id"])
    for grid in grids:
        if grid["id"] in layer["grids"]:
            page.within(f"ows:BoundingBox crs={quoteattr(systems[grid['id']][0])}", lambda: write_box(page, grid))
    for number, style in enumerate(layer["styles"]):
        page.within('Style isDefault="true"' if number == 0 else "Style", lambda: page.leaf("ows:Identifier", style["id"]))
    for media_type, _, _ in formats:
        page.leaf("Format", media_type)
    for dimension in layer.get("dimensions", []):
        page.within("Dimension", lambda: write_dimension(page, layer, dimension))
    for grid in layer["grids"]:
        page.within("TileMatrixSetLink", lambda: page.leaf("TileMatrixSet", grid))
    parts = ["Style"] + [dimension["id"] for dimension in layer.get("dimensions", [])]
    parts += ["TileMatrixSet", "TileMatrix", "TileRow", "TileCol"]
    for media_type, front, ending in formats:
        template = "/".join([address, front, layer["id"]] + ["{%s}" % part for part in parts]) + ending
        page.line(f'<ResourceURL format="{media_type}" resourceType="tile" template={quoteattr(template)}/>')


def write_dimension(page, layer, dimension):
    """A dimension and its values. The standard's schema wants a default, so one without can't be told."""
    if "default" not in dimension:
        sys.exit(f"the dimension {dimension['id']} of the layer {layer['id']} has no default, which a Dimension has to have")
    page.leaf("ows:Identifier", dimension["id"])
    page.leaf("Default", dimension["default"])
    for value in dimension["values"]:
        page.leaf("Value", value)


def write_matrix(page, grid, matrix):
    """A tile matrix. Its scale denominator is the catalogue's, or that of its span."""
    scale = matrix.get("scale")
    if "span" in matrix:
        scale = decimal(span_of(grid, matrix) * Fraction(grid.get("metersPerUnit", "1")) / PIXEL)
    page.leaf("ows:Identifier", matrix["id"])
    page.leaf("ScaleDenominator", scale)
    page.leaf("TopLeftCorner", " ".join(matrix.get("corner", grid["corner"])))
    for name, value in zip(("TileWidth", "TileHeight", "MatrixWidth", "MatrixHeight"), matrix["tile"] + matrix["size"]):
        page.leaf(name, value)


def write_grid(page, grid, system):
    page.leaf("ows:Identifier", grid["id"])
    page.leaf("ows:SupportedCRS", system)
    for matrix in grid["matrices"]:
        page.within("TileMatrix", lambda: write_matrix(page, grid, matrix))


def write_contents(page, catalogue, address, systems, formats):
    for layer in catalogue["layers"]:
        page.within("Layer", lambda: write_layer(page, layer, catalogue["grids"], address, systems, formats))
    for grid in catalogue["grids"]:
        page.within("TileMatrixSet", lambda: write_grid(page, grid, systems[grid["id"]][0]))


def write_document(page, title, address, catalogue, systems, formats):
    """The whole document."""
    kvp, document = (f"{address}/wmts?", "KVP"), f"{address}/rest/wmts/WMTSCapabilities.xml"
    by_query = [kvp] if formats == [PPM] else []
    page.line(HEAD)
    page.depth = 1
    page.within("ows:ServiceIdentification", lambda: (
        page.leaf("ows:Title", title), page.leaf("ows:ServiceType", "OGC WMTS"), page.leaf("ows:ServiceTypeVersion", "1.0.0")))
    page.within("ows:ServiceProvider", lambda: (
        page.leaf("ows:ProviderName", "The operator of this server"), page.line("<ows:ServiceContact/>")))
    page.within("ows:OperationsMetadata", lambda: (
        write_operation(page, "GetCapabilities", [kvp, (document, "RESTful")]),
        write_operation(page, "GetTile", by_query + [(f"{address}/rest/wmts/", "RESTful")])))
    page.within("Contents", lambda: write_contents(page, catalogue, address, systems, formats))
    page.line(f"<ServiceMetadataURL xlink:href={quoteattr(document)}/>")
    page.depth = 0
    page.line("</Capabilities>")


def main(words):
    formats = [PPM]
    if words[:1] == ["--png"]:
        words, formats = words[1:], [PNG, PPM]
    if len(words) < 3 or not all("=" in word for word in words[2:]):
        sys.exit(__doc__)
    systems = {}
    for word in words[2:]:
        grid, told = word.split("=", 1)
        name, *extent = told.split(",")
        systems[grid] = (name, extent if len(extent) == 4 else ["-180", "-90", "180", "90"])
    catalogue = json.load(sys.stdin)
    for grid in catalogue["grids"]:
        if grid["id"] not in systems:
            sys.exit(f"no coordinate system is given for the grid {grid['id']}")
    write_document(Page(), words[0], words[1].rstrip("/"), catalogue, systems, formats)


if __name__ == "__main__":
    main(sys.argv[1:])
