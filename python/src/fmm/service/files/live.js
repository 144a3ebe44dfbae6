// The live fleet: a marker for each vehicle, which moves with the events of GET live.
"use strict";
const MOST_VEHICLES = 2000, MOST_LINES = 50;

class Fleet {
  constructor(map, drawn) {
    Object.assign(this, {map, drawn, vehicles: new Map(), lines: []});
    this.layer = L.featureGroup().addTo(map);
    this.rows = document.querySelector("#vehicles tbody");
    document.getElementById("fleet").hidden = false;
    Object.assign(drawn, {vehicles: 0, moves: 0, drives: 0});
  }

  listen() {
    const source = new EventSource("live");
    for (const kind of ["position", "provisional"]) {
      source.addEventListener(kind, event => this.move(JSON.parse(event.data)));
    }
    source.addEventListener("drive", event => this.showDrive(JSON.parse(event.data)));
    source.addEventListener("error", () => say("The live fleet cannot be reached; trying again.", true));
    source.addEventListener("open", () => say("Live. A GPX file can be dropped on the map, too."));
  }

  move(one) {
    const known = this.vehicles.get(one.vehicle) || this.begin(one.vehicle), time = Date.parse(one.time);
    if (time < known.time) return;  // a position that settles later than newer ones came
    known.time = time;
    known.marker.setLatLng([one.latitude, one.longitude]);
    known.marker.setStyle({fillColor: one.edge === null ? "#ffffff" : "#e69f00", dashArray: one.kind === "provisional" ? "2 2" : null});
    const speed = one.speed === null ? "" : `${Math.round(one.speed)} km/h`;
    known.marker.setTooltipContent(textOf(`${one.vehicle}: ${one.street} ${speed}`));
    known.street.textContent = one.edge === null ? "no road" : one.street || `edge ${one.edge}`;
    known.speed.textContent = speed;
    this.drawn.moves += 1;
  }

  begin(vehicle) {
    if (this.vehicles.size >= MOST_VEHICLES) this.forget();
    const marker = L.circleMarker([0, 0], {radius: 7, color: "#1b1f24", weight: 2, fillOpacity: 1}).bindTooltip("").addTo(this.layer);
    const row = this.rows.insertRow(), button = document.createElement("button");
    button.textContent = vehicle;
    button.addEventListener("click", () => this.map.setView(marker.getLatLng(), Math.max(this.map.getZoom(), 16)));
    row.insertCell().append(button);
    const known = {marker, row, time: -Infinity, street: row.insertCell(), speed: row.insertCell()};
    this.vehicles.set(vehicle, known);
    this.drawn.vehicles = this.vehicles.size;
    return known;
  }

  // Removes the vehicle that was not heard for the longest time.
  forget() {
    const [vehicle, known] = [...this.vehicles].reduce((a, b) => a[1].time <= b[1].time ? a : b);
    known.marker.remove();
    known.row.remove();
    this.vehicles.delete(vehicle);
  }

  showDrive(one) {
    const line = L.geoJSON(one.route, {style: {color: "#0072b2", weight: 4, opacity: 0.5}}).addTo(this.layer);
    line.bindTooltip(textOf(`${one.vehicle}: ${(one.metres / 1000).toFixed(2)} km`));
    this.lines.push(line);
    if (this.lines.length > MOST_LINES) this.lines.shift().remove();
    this.drawn.drives = this.lines.length;
  }
}

// An element, since a tooltip would read a text as HTML.
function textOf(text) {
  return Object.assign(document.createElement("span"), {textContent: text});
}
