"""Reads tiles by OWSLib: owslib_tiles.py CAPABILITIES kvp|rest LAYER STYLE FOLDER ZOOM/ROW/COL .. and writes the bytes of each to FOLDER. It
prints the layers that OWSLib read, and the version. Run by the Python that has OWSLib."""
import pathlib
import sys

import owslib
from owslib.util import openURL
from owslib.wmts import WebMapTileService

IMAGE = "image/x-portable-pixmap"


def read(service, way, layer, style, zoom, row, col):
    names = {"layer": layer, "style": style, "format": IMAGE, "tilematrixset": "web", "tilematrix": zoom, "row": row, "column": col}
    if way == "kvp":
        return service.gettile(**names).read()
    return openURL(service.buildTileResource(**names)).read()


def main(address, way, layer, style, folder, *places):
    service = WebMapTileService(address)
    print(owslib.__version__, *sorted(service.contents))
    for place in places:
        zoom, row, col = place.split("/")
        (pathlib.Path(folder) / f"{zoom}-{row}-{col}.ppm").write_bytes(read(service, way, layer, style, zoom, row, col))


if __name__ == "__main__":
    main(*sys.argv[1:])
