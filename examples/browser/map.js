"use strict";

/** The tiles: one layer and one style of examples/web as PNG, for Leaflet. */
const TILES = "/png/islands/relief/web/{z}/{y}/{x}.png";

/** What a truncation is of. */
const LAYER = "islands", GRID = "web", ZOOMS = 18;

const map = L.map("map", { maxZoom: ZOOMS }).setView([0, 0], 2);
const tiles = L.tileLayer(TILES, { noWrap: true, bounds: [[-85.06, -180], [85.06, 180]] }).addTo(map);

// All above shows the map. What follows tells the number of each tile's render, and corrects what is in view.

/** The label of each tile in view. */
const labels = new Map();

/** What the answer that gave a tile says of its render: the answer is asked of the browser, which keeps it, and not of the server. */
async function renderOf(address) {
  const { headers } = await fetch(address, { cache: "force-cache" });
  return `${headers.get("tile-render")} ${headers.get("geowebcache-cache-result")}`;
}

tiles.on("tileload", async ({ tile }) => {
  const label = document.createElement("div");
  label.className = "render";
  label.style.transform = tile.style.transform;
  tile.after(label);
  labels.set(tile, label);
  label.textContent = await renderOf(tile.src);
});

tiles.on("tileunload", ({ tile }) => {
  labels.get(tile)?.remove();
  labels.delete(tile);
});

/** What is in view, as a cover of all zooms. */
function coverInView() {
  return { layer: LAYER, grid: GRID, zoomStart: 0, zoomStop: ZOOMS, bounds: boundsInView(map) };
}

document.getElementById("truncate").addEventListener("click", async () => {
  const answer = await fetch("/truncate", { method: "POST", body: JSON.stringify(coverInView()) });
  const said = await answer.text();
  document.getElementById("said").textContent = `${answer.status} ${said}`;
  // A page holds the images that it shows: under an address of its own each is asked for anew.
  if (answer.ok) tiles.setUrl(`${TILES}?after=${JSON.parse(said).cut}`);
});
