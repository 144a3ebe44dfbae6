// A drive that is played in time: a marker moves along the driven edges.

class Player {
  constructor(app) {
    this.app = app;
    this.drive = null;
    this.playing = false;
    this.at = 0;  // seconds since the beginning of the drive
    $("play").addEventListener("click", () => this.toggle());
    $("moment").addEventListener("input", () => this.move(this.length * Number($("moment").value) / 1000));
  }

  take(drive) {
    this.stop();
    this.drive = drive;
    this.at = 0;
    this.marker?.remove();
    this.marker = null;
    this.stops = drive ? this.places(drive) : [];
    this.length = this.stops.length ? this.stops[this.stops.length - 1].time : 0;
    for (const id of ["play", "moment"]) $(id).disabled = this.stops.length < 2;
    $("moment").value = 0;
    $("clock").textContent = drive ? "" : "Choose a drive to play it.";
  }

  // Places and times of a drive: along its driven edges, or its positions a second apart if it has no times.
  places(drive) {
    const { data } = this.app, stops = [];
    if (Number.isNaN(drive.begin)) {
      for (let p = drive.first; p < drive.after; p++) stops.push({ time: p - drive.first, x: data.onto[2 * p], y: data.onto[2 * p + 1] });
      return stops;
    }
    for (const e of drive.edges) if (!Number.isNaN(data.edgeEntry[e])) this.along(stops, e, drive.begin);
    return stops;
  }

  // The points of an edge, with times by their distance along it.
  along(stops, e, begin) {
    const { data } = this.app, xy = data.edgeXy, first = data.edgeFirst[e], end = data.edgeFirst[e + 1], far = [0];
    for (let p = first + 1; p < end; p++) {
      far.push(far[far.length - 1] + Math.hypot(xy[2 * p] - xy[2 * p - 2], xy[2 * p + 1] - xy[2 * p - 1]));
    }
    const all = far[far.length - 1] || 1, entry = data.edgeEntry[e] - begin, seconds = data.edgeExit[e] - data.edgeEntry[e];
    for (let p = first; p < end; p++) stops.push({ time: entry + seconds * far[p - first] / all, x: xy[2 * p], y: xy[2 * p + 1] });
  }

  toggle() {
    if (this.playing) this.stop();
    else if (this.stops?.length > 1) this.start();
  }

  start() {
    this.playing = true;
    $("play").textContent = "Pause";
    if (this.at >= this.length) this.at = 0;
    let before = performance.now();
    const tick = (now) => {
      if (!this.playing) return;
      this.move(Math.min(this.at + Number($("rate").value) * (now - before) / 1000, this.length));
      before = now;
      if (this.at >= this.length) this.stop();
      else requestAnimationFrame(tick);
    };
    requestAnimationFrame(tick);
  }

  stop() {
    this.playing = false;
    $("play").textContent = "Play";
  }

  move(seconds) {
    const { map } = this.app;
    this.at = seconds;
    const place = this.place(seconds);
    if (!this.marker) {
      this.marker = L.circleMarker(place, { radius: 8, color: "#000", weight: 2, fillColor: "#ffd43b", fillOpacity: 1,
        interactive: false }).addTo(map);
    }
    this.marker.setLatLng(place);
    if (!map.getBounds().pad(-0.1).contains(place)) map.panTo(place, { animate: false });
    $("moment").value = this.length ? Math.round(1000 * seconds / this.length) : 0;
    const clock = Number.isNaN(this.drive.begin) ? `position ${Math.round(seconds) + 1}` : timeText(this.drive.begin + seconds);
    if ($("clock").textContent !== clock) $("clock").textContent = clock;
    $("moment").setAttribute("aria-valuetext", clock);
  }

  place(seconds) {
    const { stops } = this;
    let low = 0, high = stops.length - 1;
    while (low < high) {
      const middle = (low + high + 1) >> 1;
      if (stops[middle].time <= seconds) low = middle;
      else high = middle - 1;
    }
    const one = stops[low], other = stops[Math.min(low + 1, stops.length - 1)];
    const share = other.time > one.time ? Math.min(Math.max((seconds - one.time) / (other.time - one.time), 0), 1) : 0;
    return placeOf(one.x + share * (other.x - one.x), one.y + share * (other.y - one.y));
  }
}
