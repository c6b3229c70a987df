"use strict";

/**
 * The maps that the page can show: a grid whose matrices are the levels of the usual web map, how many of them there are behind the first, and the
 * parts from the top down, each a layer and a style. A part is seen through where it has the colour of its key: red, green and blue. The last
 * one has none.
 */
const MAPS = {
  web: {
    grid: "web",
    zooms: 18,
    parts: [
      { layer: "roads", style: "overlay", key: [255, 0, 255] },
      { layer: "islands", style: "relief" },
    ],
  },
  mapserver: { grid: "EPSG:3857", zooms: 12, parts: [{ layer: "countries", style: "plain" }] },
};

/** The one that the page's address names, as ?map=mapserver does: that of examples/web where it names none. */
const ADDRESS = new URLSearchParams(location.search);
const GRID = MAPS[ADDRESS.get("map") ?? "web"];

/** The parts that the address names, as ?parts=islands does; all where it names none. */
const NAMED = ADDRESS.get("parts");
const PARTS = NAMED === null ? GRID.parts : GRID.parts.filter(({ layer }) => NAMED.split(",").includes(layer));

/** The pixels of a binary PPM image: its width, its height, and red, green, blue and opacity of each pixel, which is 0 where it is the key. */
function decoded(bytes, key) {
  const head = /^P6\n(\d+) (\d+)\n255\n/.exec(new TextDecoder("latin1").decode(bytes.subarray(0, 32)));
  if (!head) throw new Error("no binary PPM image");
  const [width, height] = [Number(head[1]), Number(head[2])];
  const samples = bytes.subarray(head[0].length);
  const pixels = new Uint8ClampedArray(4 * width * height);
  for (let pixel = 0; pixel < width * height; pixel++) {
    const colour = samples.subarray(3 * pixel, 3 * pixel + 3);
    const isKey = key !== undefined && colour.every((sample, at) => sample === key[at]);
    pixels.set(colour, 4 * pixel);
    pixels[4 * pixel + 3] = isKey ? 0 : 255;
  }
  return new ImageData(pixels, width, height);
}

/** One part of a tile: its image, and what its answer says of the render. Each part is asked for by itself, so each is newer than all truncations of it. */
async function fetched(part, { x, y, z }) {
  const answer = await fetch(`/rest/wmts/${part.layer}/${part.style}/${GRID.grid}/${z}/${y}/${x}.ppm`, { cache: "no-store" });
  if (!answer.ok) throw new Error(`the server answered ${answer.status}`);
  const image = decoded(new Uint8Array(await answer.arrayBuffer()), part.key);
  return { image, render: `${answer.headers.get("tile-render")} ${answer.headers.get("geowebcache-cache-result")}` };
}

/** Paints one tile, part over part from the bottom up, and names the render of each from the top down. */
async function paint(frame, place) {
  const parts = await Promise.all(PARTS.map((part) => fetched(part, place)));
  for (const { image } of parts.slice().reverse()) {
    const canvas = frame.appendChild(document.createElement("canvas"));
    canvas.className = "part";
    canvas.width = image.width;
    canvas.height = image.height;
    canvas.getContext("2d").putImageData(image, 0, 0);
  }
  const label = frame.appendChild(document.createElement("div"));
  label.className = "render";
  label.textContent = parts.map(({ render }) => render).join(" over ");
}

const PpmLayer = L.GridLayer.extend({
  createTile(place, done) {
    const frame = document.createElement("div");
    paint(frame, place).then(() => done(null, frame), (error) => done(error, frame));
    return frame;
  },
});

const map = L.map("map", { maxZoom: GRID.zooms }).setView([0, 0], 2);
const tiles = new PpmLayer({ noWrap: true, bounds: [[-85.06, -180], [85.06, 180]] }).addTo(map);

/** What is in view of a layer, as a cover of all zooms. */
function coverInView(layer) {
  return { layer, grid: GRID.grid, zoomStart: 0, zoomStop: GRID.zooms, bounds: boundsInView(map) };
}

const chosen = document.getElementById("layer");
for (const { layer } of PARTS) chosen.add(new Option(layer));

document.getElementById("truncate").addEventListener("click", async () => {
  const answer = await fetch("/truncate", { method: "POST", body: JSON.stringify(coverInView(chosen.value)) });
  document.getElementById("said").textContent = `${answer.status} ${await answer.text()}`;
  tiles.redraw();
});
