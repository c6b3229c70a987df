"use strict";

/** Half the side of the web map's world, in meters. */
const HALF_WORLD = 20037508.342789244;

/** What a map shows: west, south, east and north in meters of the web map, within its world, as a cover spells them. */
function boundsInView(map) {
  const within = (meters) => Math.max(-HALF_WORLD, Math.min(HALF_WORLD, meters)).toFixed(3);
  const corner = (place) => L.CRS.EPSG3857.project(place);
  const view = map.getBounds();
  const [least, greatest] = [corner(view.getSouthWest()), corner(view.getNorthEast())];
  return [least.x, least.y, greatest.x, greatest.y].map(within);
}
