"""The pages of examples/browser with Leaflet in Chromium, driven by chromedriver over WebDriver."""
import base64
import http.client
import json
import re
import subprocess
import time

from deployed import stop, wait_for
from pixels import SIDE, Failed, of_png, without_alpha

ELEMENT = "element-6066-11e4-a52e-4f735466cecf"
ARGUMENTS = ["--headless=new", "--no-sandbox", "--disable-dev-shm-usage", "--disable-gpu", "--hide-scrollbars", "--force-color-profile=srgb",
             "--force-device-scale-factor=1", "--window-size=1280,1000"]
# The tiles of a page's layer: their places, what their labels say, and their pixels. One page has canvases, the other PNG images.
TILES = """return Object.entries(tiles._tiles).filter(([, it]) => it.current).map(([place, it]) => {
  const isImage = it.el instanceof Image, canvas = isImage ? document.createElement("canvas") : it.el.querySelector("canvas");
  if (isImage) {
    canvas.width = it.el.naturalWidth;
    canvas.height = it.el.naturalHeight;
    canvas.getContext("2d").drawImage(it.el, 0, 0);
  }
  const data = canvas.getContext("2d").getImageData(0, 0, canvas.width, canvas.height).data;
  let text = "";
  for (let at = 0; at < data.length; at += 8192) text += String.fromCharCode(...data.subarray(at, at + 8192));
  const box = it.el.getBoundingClientRect(), map = document.getElementById("map").getBoundingClientRect();
  const label = (isImage ? labels.get(it.el) : it.el.querySelector(".render")).textContent;
  return [place, label, canvas.width, canvas.height, btoa(text), box.x - map.x, box.y - map.y, box.width, box.height];
});"""
BARE = """const style = document.head.appendChild(document.createElement("style"));
style.textContent = ".render, .leaflet-control-container { display: none } .leaflet-tile { outline: none !important }";"""


class Driver:
    """A session with chromedriver."""

    def __init__(self, folder, port):
        self.told = (folder / "told").open("wb")
        self.process = subprocess.Popen(["chromedriver", f"--port={port}"], stdout=self.told, stderr=self.told)
        wait_for(port, self.process)
        self.port, self.path = port, ""
        arguments = ARGUMENTS + [f"--user-data-dir={folder}/profile"]
        wanted = {"browserName": "chrome", "goog:chromeOptions": {"binary": "/usr/bin/chromium", "args": arguments}}
        told = self.ask("POST", "/session", {"capabilities": {"alwaysMatch": wanted}})
        self.version, self.path = told["capabilities"]["browserVersion"], "/session/" + told["sessionId"]

    def ask(self, method, path, body=None):
        link = http.client.HTTPConnection("127.0.0.1", self.port, timeout=120)
        link.request(method, self.path + path, None if body is None else json.dumps(body), {"Content-Type": "application/json"})
        told = json.loads(link.getresponse().read())["value"]
        link.close()
        if isinstance(told, dict) and "error" in told:
            raise Failed(f"chromedriver: {told['error']}: {told['message']}")
        return told

    def script(self, text):
        return self.ask("POST", "/execute/sync", {"script": text, "args": []})

    def element(self, selector):
        return "/element/" + self.ask("POST", "/element", {"using": "css selector", "value": selector})[ELEMENT]

    def click(self, selector):
        self.ask("POST", self.element(selector) + "/click", {})

    def wait(self, text, seconds=60):
        """Waits until a text of JavaScript tells something, and returns that."""
        until = time.monotonic() + seconds
        while not (told := self.script(text)):
            if time.monotonic() > until:
                raise Failed(f"the page never came to: {text}")
            time.sleep(0.1)
        return told

    def stop(self):
        if self.path:
            self.ask("DELETE", "")
        stop(self.process)
        self.told.close()


class Page:
    def __init__(self, report, world, driver):
        self.report, self.world, self.driver, self.seen = report, world, driver, []

    def walk(self, name, address, served):
        """Looks at the map, goes nearer, truncates what is in view, and looks at what isn't."""
        self.driver.ask("POST", "/url", {"url": address})
        self.tiles(f"{name}, level 2", 2)
        for zoom in (3, 4, 5):
            self.driver.click(".leaflet-control-zoom-in")
            self.settle(zoom)
        before = self.tiles(f"{name}, level 5", 5)
        self.screen(f"{name}, level 5, the screen")
        beside = served.number("islands", "relief", 5, 0, 0)
        self.truncate(f"{name}, after its button", 5, before)
        self.screen(f"{name}, after its button, the screen")
        is_kept = served.number("islands", "relief", 5, 0, 0) == beside
        self.report.demand("Leaflet", f"{name}, after its button", is_kept, "a tile beside the view was truncated")

    def settle(self, zoom):
        """Waits until all tiles in view are painted at this level."""
        self.driver.wait(f"return map.getZoom() === {zoom} && !map._animatingZoom && !tiles.isLoading() && tiles._tileZoom === {zoom} && "
                         "Object.keys(tiles._tiles).length > 0 && [...document.querySelectorAll('.render')].every((it) => it.textContent) && "
                         f"Object.values(tiles._tiles).every((it) => !it.current || it.el.getBoundingClientRect().width === {SIDE});")

    def tiles(self, way, zoom):
        """Compares the canvas of each tile in view. The numbers by their places."""
        self.settle(zoom)
        numbers, self.seen = {}, []
        for name, label, width, height, data, *box in self.driver.script(TILES):
            col, row, z = (int(it) for it in name.split(":"))
            number, result = label.split()
            self.report.demand("Leaflet", way, (z, width, height) == (zoom, SIDE, SIDE) and result in ("HIT", "MISS"), f"{name} {label}")
            expected = self.world.tile("islands", z, row, col, int(number))
            self.report.compare("Leaflet", way, without_alpha(base64.b64decode(data)), expected, name)
            numbers[row, col] = int(number)
            self.seen.append((expected, *(round(it) for it in box)))
        self.report.demand("Leaflet", way, len(numbers) >= 8, f"{len(numbers)} tiles at the level {zoom}")
        return numbers

    def screen(self, way):
        """Compares what the screen shows of the tiles that were compared last, without labels, outlines and controls."""
        self.driver.script(BARE)
        time.sleep(1)
        width, height, pixels = of_png(base64.b64decode(self.driver.ask("GET", self.driver.element("#map") + "/screenshot")))
        self.report.demand("Leaflet", way, pixels and width * height >= 512 * 512, f"a picture of {width} by {height} pixels")
        for tile, left, top, wide, high in self.seen:
            self.report.demand("Leaflet", way, (wide, high) == (SIDE, SIDE), f"a tile is {wide} by {high} on the screen")
            first, last = max(left, 0), min(left + SIDE, width)
            rows = range(max(top, 0), min(top + SIDE, height))
            if first < last and rows:
                got = b"".join(pixels[3 * (y * width + first):3 * (y * width + last)] for y in rows)
                expected = b"".join(tile[3 * ((y - top) * SIDE + first - left):3 * ((y - top) * SIDE + last - left)] for y in rows)
                self.report.compare("Leaflet", way, got, expected, f"the tile at {left}, {top}")

    def truncate(self, way, zoom, before):
        """Presses the button. All that is in view is then newer than the truncation."""
        self.driver.click("#truncate")
        said = self.driver.wait('const said = document.getElementById("said").textContent; return /^[0-9]/.test(said) && said;')
        told = re.fullmatch(r'200 \{"cut":([0-9]+)\}\n', said)
        self.report.demand("Leaflet", way, told, f"the page says {said!r}")
        cut, after = int(told[1]) if told else 0, self.tiles(way, zoom)
        self.report.demand("Leaflet", way, max(before.values()) < cut < min(after.values()), f"numbers {before} then {cut} then {after}")
        self.report.demand("Leaflet", way, set(before) == set(after), "other tiles are in view")


def page(report, world, folder, port, address, served):
    """Walks through the page of PNG images and through that of canvases."""
    driver = Driver(folder, port)
    try:
        driver.ask("POST", "/url", {"url": address + "/"})
        report.versions["Leaflet"] += f" (says {driver.script('return L.version;')}), Chromium {driver.version}"
        it = Page(report, world, driver)
        it.walk("PNG", address + "/", served)
        it.walk("canvases", address + "/parts.html?parts=islands", served)
    finally:
        driver.stop()
