#!/usr/bin/env python3
"""Asks a renderer that paints PNG alone, and answers with the same picture as a binary pixmap, which the tile server takes.

    python3 from_png.py PORT URL

Each GET that comes to PORT of this machine is asked of URL with the same query behind it, as http://localhost/ogc/world? of QGIS Server or
http://localhost:8080/geoserver/wms? of GeoServer; the template of source.http then names http://127.0.0.1:PORT/ and asks for
FORMAT=image/png. What isn't covered in the picture is white. It needs Pillow (the Debian package python3-pil).
"""
import io
import sys
import urllib.request
from http.server import BaseHTTPRequestHandler, ThreadingHTTPServer

from PIL import Image

PATIENCE = 60


class Converter(BaseHTTPRequestHandler):
    """Answers one request. A renderer that fails is told by 502, so that the tile server keeps nothing."""

    protocol_version = "HTTP/1.1"
    renderer = ""

    def do_GET(self):
        query = self.path.partition("?")[2]
        try:
            with urllib.request.urlopen(self.renderer + query, timeout=PATIENCE) as answer:
                picture = Image.open(io.BytesIO(answer.read())).convert("RGBA")
        except (OSError, ValueError) as fault:
            self.answer(502, "text/plain", f"{fault}\n".encode())
            return
        white = Image.new("RGBA", picture.size, "white")
        pixels = Image.alpha_composite(white, picture).convert("RGB").tobytes()
        head = f"P6\n{picture.width} {picture.height}\n255\n".encode()
        self.answer(200, "image/x-portable-pixmap", head + pixels)

    def answer(self, status, media_type, body):
        self.send_response(status)
        self.send_header("Content-Type", media_type)
        self.send_header("Content-Length", str(len(body)))
        self.send_header("Connection", "close")
        self.end_headers()
        self.wfile.write(body)

    def log_message(self, form, *values):
        """Requests aren't told."""


def main(words):
    if len(words) != 2 or not words[0].isdigit():
        sys.exit(__doc__)
    Converter.renderer = words[1]
    ThreadingHTTPServer(("127.0.0.1", int(words[0])), Converter).serve_forever()


if __name__ == "__main__":
    main(sys.argv[1:])
