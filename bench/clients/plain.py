"""The clients without a page: curl, wrk, GDAL and OWSLib."""
import os
import re
import socket
import subprocess

from pixels import LAYER_STYLES, SIDE, Failed, of_ppm, without_alpha

LEVEL_2 = [("islands", 2, row, col) for row in range(4) for col in range(4)]
OTHERS = [("islands", 0, 0, 0), ("world", 0, 0, 0), ("world", 1, 1, 0), ("islands", 18, 262143, 262143), ("world", 18, 0, 262143),
          ("islands", 11, 1023, 1024)]
# Windows that GDAL reads: a whole level, and pixels across edges of tiles and of metatiles; the level, left, top, width and height.
WINDOWS = [("islands", 3, 0, 0, 2048, 2048), ("islands", 18, 40_000_123, 30_000_777, 700, 500), ("world", 5, 900, 1000, 300, 257)]
COVER = '{"layer":"islands","grid":"web","zoomStart":2,"zoomStop":2}'


def rest(layer, zoom, row, col):
    return f"/rest/wmts/{layer}/{LAYER_STYLES[layer]}/web/{zoom}/{row}/{col}.ppm"


def query(layer, zoom, row, col):
    names = {"service": "WMTS", "request": "GetTile", "version": "1.0.0", "layer": layer, "style": LAYER_STYLES[layer],
             "format": "image/x-portable-pixmap", "TileMatrixSet": "web", "TileMatrix": zoom, "TileRow": row, "TileCol": col}
    return "/wmts?" + "&".join(f"{name}={value}" for name, value in names.items())


def ran(*words, **more):
    """What a program wrote, and what it said."""
    told = subprocess.run(words, capture_output=True, check=False, timeout=300, **more)
    if told.returncode:
        raise Failed(f"{' '.join(map(str, words))} ended with {told.returncode}: {told.stderr.decode(errors='replace')}")
    return told.stdout, told.stderr.decode(errors="replace")


def curled(address, *words):
    """The status and the fields of an answer, and its body."""
    head, _, body = ran("curl", "-sS", "-i", *words, address)[0].partition(b"\r\n\r\n")
    fields = dict(it.split(": ", 1) for it in head.decode("latin-1").lower().split("\r\n")[1:])
    return int(head.split()[1]), fields, body


def curl(report, world, way, address, path_of):
    """Reads tiles, each of a level in turn and some at the edges."""
    for place in LEVEL_2 + OTHERS:
        status, fields, body = curled(address + path_of(*place))
        width, height, pixels = of_ppm(body)
        number = int(fields.get("tile-render", 0))
        report.compare("curl", way, pixels, world.tile(*place, number), f"{place}")
        is_right = (status, width, height) == (200, SIDE, SIDE) and fields["content-type"] == "image/x-portable-pixmap"
        report.demand("curl", way, is_right, f"{place}: {status} {fields}")


def curl_truncates(report, world, served):
    """A truncation at the program's own port, and the tiles that follow it."""
    way = "truncation at the port"
    status, _, body = curled(served.address + "/truncate", "--data", COVER)
    told = re.fullmatch(rb'\{"cut":([0-9]+)\}\n', body)
    report.demand("curl", way, status == 200 and told, f"{status} {body!r}")
    for place in LEVEL_2:
        _, fields, body = curled(served.address + rest(*place))
        number = int(fields["tile-render"])
        report.compare("curl", way, of_ppm(body)[2], world.tile(*place, number), f"{place}")
        report.demand("curl", way, told and number > int(told[1]), f"{place} has the number {number}")


def refuses(report, way, address, asked):
    """Each of these is answered with its status: words of curl, a path, and the status."""
    for *words, path, status in asked:
        got = curled(address + path, *words)[0]
        report.demand("nginx", way, got == status, f"{' '.join(words)} {path}: {got}, not {status}")


def own_address():
    """An address of this machine that isn't that of itself alone, or None."""
    with socket.socket(socket.AF_INET, socket.SOCK_DGRAM) as link:
        try:
            link.connect(("192.0.2.1", 9))
        except OSError:
            return None
        found = link.getsockname()[0]
    return None if found.startswith("127.") else found


def wrk(report, world, way, address, folder):
    """Sixteen connections that ask for one tile for two seconds; each body is compared."""
    place = LEVEL_2[5]
    _, fields, body = curled(address + rest(*place))
    report.compare("wrk", way, of_ppm(body)[2], world.tile(*place, int(fields["tile-render"])), f"{place}")
    (folder / "tile").write_bytes(body)
    script = os.path.join(os.path.dirname(__file__), "bodies.lua")
    told = ran("wrk", "-t2", "-c16", "-d2s", "-s", script, address + rest(*place), env={**os.environ, "TILE": str(folder / "tile")})[0]
    right, wrong, errors = (int(it) for it in re.search(rb"right ([0-9]+) wrong ([0-9]+) errors ([0-9]+)\n", told).groups())
    report.count("wrk", way, (right + wrong) * SIDE * SIDE, wrong * SIDE * SIDE, 0)
    report.demand("wrk", way, right > 100 and not wrong and not errors, f"{right} right, {wrong} wrong, {errors} errors")


def gdal_window(folder, source, window, path):
    """The pixels that GDAL reads, and the targets that it asked for."""
    layer, zoom, *rectangle = window
    out, cache = folder / "window", folder / "cache"
    settings = {**os.environ, "CPL_DEBUG": "ON", "GDAL_DEFAULT_WMS_CACHE_PATH": str(cache)}
    words = ["-of", "ENVI", "-co", "INTERLEAVE=BIP", "-srcwin", *map(str, rectangle), f"WMTS:{source},layer={layer},zoom_level={zoom}", str(out)]
    _, said = ran("gdal_translate", *words, env=settings)
    bands = int(re.search(r"bands *= ([0-9]+)", out.with_name("window.hdr").read_text())[1])
    data = out.read_bytes()
    return (without_alpha(data) if bands == 4 else data), [it for it in re.findall(r"https?://[^\s),]+", said) if path in it]


def numbers_of(served, layer, zoom):
    """What tells the number of the render of a tile, asking once for each metatile of 4 by 4 tiles."""
    found = {}

    def number_of(row, col):
        metatile = row // 4, col // 4
        if metatile not in found:
            found[metatile] = served.number(layer, LAYER_STYLES[layer], zoom, row, col)
        return found[metatile]
    return number_of


def gdal(report, world, way, served, folder, source, path):
    """Reads windows, and asks for their tiles by the paths that begin so."""
    for at, window in enumerate(WINDOWS):
        (folder / str(at)).mkdir(parents=True)
        layer, zoom, *rectangle = window
        got, targets = gdal_window(folder / str(at), source, window, path)
        expected = world.window(layer, zoom, *rectangle, numbers_of(served, layer, zoom))
        report.compare("GDAL", way, got, expected, f"{window}")
        report.demand("GDAL", way, targets, f"{window}: no target with {path}")


def owslib(report, world, way, served, folder, address, python="/usr/bin/python3"):
    """Reads tiles of both layers."""
    script = os.path.join(os.path.dirname(__file__), "owslib_tiles.py")
    for layer, style in LAYER_STYLES.items():
        places = [it[1:] for it in LEVEL_2 + OTHERS if it[0] == layer]
        (folder / layer).mkdir(parents=True)
        names = ["/".join(map(str, it)) for it in places]
        told = ran(python, script, address, way.partition(",")[0].lower(), layer, style, str(folder / layer), *names)[0].split()
        report.demand("OWSLib", way, told[1:] == [b"islands", b"roads", b"world"], f"the layers {told[1:]}")
        for zoom, row, col in places:
            pixels = of_ppm((folder / layer / f"{zoom}-{row}-{col}.ppm").read_bytes())[2]
            number = served.number(layer, style, zoom, row, col)
            report.compare("OWSLib", way, pixels, world.tile(layer, zoom, row, col, number), f"{layer} {zoom}/{row}/{col}")
