"""The bytes of a response, and what a message is answered over a cabinet."""
import json

from covers import Fault, read
from reading import CAPABILITIES, STATUS, Refused, pairs_of, path_reading, reading, report

PHRASES = {200: "OK", 400: "Bad Request", 404: "Not Found", 405: "Method Not Allowed", 409: "Conflict", 413: "Payload Too Large",
           431: "Request Header Fields Too Large", 500: "Internal Server Error", 501: "Not Implemented", 503: "Service Unavailable"}
PPM, XML, TEXT, JSON = b"image/x-portable-pixmap", b"text/xml", b"text/plain", b"application/json"
POSTED = (b"/truncate", b"/expire")


def response(status, kind=b"", body=b"", tile=None, closes=False):
    """The bytes of a response; `tile` is whether it is a hit, and its number."""
    head = [b"HTTP/1.1 %d %s" % (status, PHRASES[status].encode())]
    if body:
        head.append(b"Content-Type: " + kind)
    head.append(b"Content-Length: %d" % len(body))
    if tile:
        head.append(b"geowebcache-cache-result: " + (b"HIT" if tile[0] else b"MISS"))
        head.append(b"tile-render: %d" % tile[1])
    if closes:
        head.append(b"Connection: close")
    return b"\r\n".join(head) + b"\r\n\r\n" + body


def split_target(target):
    path, _, query = target.partition(b"?")
    return path, query


def wanted(catalogue, method, target):
    """What a message asks for: an address, CAPABILITIES, the name of a command, or a status without a body; Refused where it is refused."""
    path, query = split_target(target)
    if path in POSTED:
        return path.decode() if method == b"POST" else 405
    is_tile, is_rest = path == b"/wmts", path.startswith(b"/rest/wmts/")
    if not (is_tile or is_rest or path == b"/usage"):
        return 404
    if method != b"GET":
        return 405
    if is_tile:
        return reading(catalogue, pairs_of(query))
    if is_rest:
        found = path_reading(catalogue, path)
        return 404 if found is None else found
    return "/usage"


def refusal(refused, closes=False):
    return response(STATUS[refused.code], XML, report(refused.code, refused.locator), closes=closes)


def tile_response(cabinet, address, is_hit, number, closes=False):
    return response(200, PPM, cabinet.tile(is_hit, number, address), (is_hit, number), closes)


def got(cabinet, address, closes=False):
    """A tile that is asked, rendered and finished at once, or None where its metatile is being rendered."""
    found, number = cabinet.ask(address)
    if found == "busy":
        return None
    if found == "ticket":
        cabinet.finish(number)
    return tile_response(cabinet, address, found == "hit", number, closes)


def truncated(cabinet, body, closes=False):
    try:
        number = cabinet.cut(read(cabinet.catalogue, body))
    except Fault as fault:
        return response(400, JSON, b'{"fault":"%s","field":"%s"}\n' % (fault.kind.encode(), fault.field.encode()), closes=closes)
    if number is None:
        return response(409, JSON, b'{"fault":"cuts full"}\n', closes=closes)
    return response(200, JSON, b'{"cut":%d}\n' % number, closes=closes)


def dropped_text(catalogue, block):
    """An expiry's answer, which names the metatile."""
    layer = catalogue.layers[block.layer]
    values = [it.values[at].decode() for it, at in zip(layer.dimensions, block.values)]
    grid = catalogue.grids[block.grid].name.decode()
    told = {"layer": layer.name.decode(), "style": layer.styles[block.style].name.decode(), "dimensions": values, "grid": grid}
    told.update(z=block.z, row=block.row, col=block.col)
    return json.dumps({"dropped": told}, separators=(",", ":")).encode() + b"\n"


def expired(cabinet, closes=False):
    block = cabinet.expire()
    body = b'{"within":true}\n' if block is None else dropped_text(cabinet.catalogue, block)
    return response(200, JSON, body, closes=closes)


def or_dash(quota):
    return "-" if quota is None else quota


def usage(cabinet):
    """The usage text."""
    layers = cabinet.catalogue.layers
    counts = [sum(block.layer == at for block in cabinet.kept) for at in range(len(layers))]
    lines = [f"layer {it.name.decode()} {counts[at]} {cabinet.used(at)} {or_dash(it.quota)}" for at, it in enumerate(layers)]
    lines.append(f"total {len(cabinet.kept)} {cabinet.used(None)} {or_dash(cabinet.catalogue.quota)}")
    lines.append(f"cuts {len(cabinet.cuts)}")
    return "".join(f"{it}\n" for it in lines).encode()


def answer(cabinet, capabilities, method, target, body=b"", closes=False):
    """The response to a message, whose tile is asked, rendered and finished at once; None where its metatile is being rendered."""
    try:
        found = wanted(cabinet.catalogue, method, target)
    except Refused as refused:
        return refusal(refused, closes)
    if found == CAPABILITIES:
        return response(200, XML, capabilities, closes=closes)
    if found == "/usage":
        return response(200, TEXT, usage(cabinet), closes=closes)
    if found == "/truncate":
        return truncated(cabinet, body, closes)
    if found == "/expire":
        return expired(cabinet, closes)
    if isinstance(found, int):
        return response(found, closes=closes)
    return got(cabinet, found, closes)
