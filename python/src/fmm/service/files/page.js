// The page: a file that is dropped or opened is matched by POST match, and shown.
"use strict";
const KINDS = {gpx: "application/gpx+xml", csv: "text/csv", json: "application/geo+json", geojson: "application/geo+json"};
const says = document.getElementById("says");
const drawn = {routes: 0, points: 0, off: 0, pieces: 0};  // what is on the map, for tests
window.drawn = drawn;

function say(text, wrong) {
  says.textContent = text;
  says.className = wrong ? "wrong" : "";
}

function start() {
  if (!window.L) {
    say("The map needs Debian's package libjs-leaflet on the machine of the service.", true);
    return;
  }
  const map = L.map("map", {preferCanvas: true, attributionControl: false, zoomSnap: 0.5, maxZoom: 22}).setView([0, 0], 2);
  const layer = L.featureGroup().addTo(map);
  L.control.scale({imperial: false}).addTo(map);
  fetch("network.json").then(answer => answer.json()).then(about => {
    const [west, south, east, north] = about.bounds;
    map.fitBounds([[south, west], [north, east]]);
    L.rectangle([[south, west], [north, east]], {color: "#6b7480", weight: 1, fill: false, interactive: false}).addTo(map);
    if (about.live) new Fleet(map, drawn).listen();
  });
  takeFiles(map, layer);
}

function takeFiles(map, layer) {
  const box = document.getElementById("map"), input = document.getElementById("file");
  box.addEventListener("dragover", event => { event.preventDefault(); box.classList.add("drop"); });
  box.addEventListener("dragleave", () => box.classList.remove("drop"));
  box.addEventListener("drop", event => {
    event.preventDefault();
    box.classList.remove("drop");
    if (event.dataTransfer.files.length) match(event.dataTransfer.files[0], map, layer);
  });
  input.addEventListener("change", () => {
    if (input.files.length) match(input.files[0], map, layer);
    input.value = "";
  });
}

async function match(file, map, layer) {
  const kind = KINDS[file.name.split(".").pop().toLowerCase()];
  if (!kind) return say(`${file.name} is no GPX, CSV or GeoJSON file.`, true);
  say(`Matching ${file.name} ..`);
  try {
    const answer = await fetch("match?layers=points,routes", {method: "POST", headers: {"content-type": kind}, body: file});
    const content = await answer.json();
    if (!answer.ok) return say(`${file.name}: ${content.message}`, true);
    show(content, map, layer);
    offerMap(file, kind);
    const report = content.report;
    say(`${file.name}: ${report.matched} of ${report.positions} positions have a road.`, !report.matched);
  } catch (fault) {
    say(`${file.name}: the service did not answer (${fault.message}).`, true);
  }
}

// The map with candidates and margins is a file of its own.
function offerMap(file, kind) {
  const button = document.getElementById("keep");
  button.hidden = false;
  button.onclick = async () => {
    button.disabled = true;
    const answer = await fetch("map", {method: "POST", headers: {"content-type": kind}, body: file});
    button.disabled = false;
    if (!answer.ok) return say(`${file.name}: ${(await answer.json()).message}`, true);
    const link = Object.assign(document.createElement("a"), {href: URL.createObjectURL(await answer.blob()),
      download: `${file.name.replace(/\.[^.]*$/, "")}.html`});
    link.click();
    setTimeout(() => URL.revokeObjectURL(link.href), 60000);
  };
}

function show(content, map, layer) {
  layer.clearLayers();
  Object.assign(drawn, {routes: 0, points: 0, off: 0, pieces: 0});
  const rows = document.querySelector("#routes tbody");
  rows.replaceChildren();
  const routes = content.features.filter(feature => feature.properties.layer === "routes");
  const points = content.features.filter(feature => feature.properties.layer === "points");
  for (const route of routes) {
    drawn.pieces += 1;
    const line = route.geometry && L.geoJSON(route, {style: {color: "#0072b2", weight: 5, opacity: 0.8}}).addTo(layer);
    if (line) drawn.routes += 1;
    rows.append(rowOf(route.properties, line && (() => map.fitBounds(line.getBounds(), {maxZoom: 18}))));
  }
  for (const point of points) showPoint(point, layer);
  if (layer.getLayers().length) map.fitBounds(layer.getBounds(), {padding: [20, 20], maxZoom: 18});
  showReport(content.report);
}

function showPoint(point, layer) {
  if (!point.geometry) return;
  const about = point.properties, off = about.edge === null;
  const place = [point.geometry.coordinates[1], point.geometry.coordinates[0]];
  const style = off ? {color: "#a30000", fill: false, weight: 2} : {color: "#1b1f24", fillColor: "#e69f00", fillOpacity: 1, weight: 1};
  const text = document.createElement("span");
  text.textContent = off ? `${about.id}: ${about.reason}` : `${about.id} ${about.time || ""}: ${about.name || about.way || ""} ` +
    `edge ${about.edge}, ${about.distance} m from the road`;
  L.circleMarker(place, {radius: 4, ...style}).bindPopup(text).addTo(layer);
  drawn[off ? "off" : "points"] += 1;
}

function rowOf(route, go) {
  const row = document.createElement("tr");
  const button = document.createElement("button");
  button.textContent = `${route.id}, drive ${route.trace}, piece ${route.piece}`;
  button.disabled = !go;
  button.addEventListener("click", () => go());
  row.insertCell().append(button);
  row.insertCell().textContent = `${(route.metres / 1000).toFixed(2)} km`;
  return row;
}

function showReport(report) {
  const list = document.getElementById("report");
  list.replaceChildren();
  const lines = [["positions", report.positions], ["with a road", report.matched], ["drives", report.drives],
    ["pieces of road", report.pieces], ["driven", `${(report.metres / 1000).toFixed(2)} km`],
    ...Object.entries(report.left_out).map(([reason, count]) => [reason, count])];
  for (const [name, value] of lines) {
    list.append(Object.assign(document.createElement("dt"), {textContent: name}),
      Object.assign(document.createElement("dd"), {textContent: value}));
  }
}

start();
