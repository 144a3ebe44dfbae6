// Puts the page together, and has the keys.

const KEYS = [["/", "search"], ["space", "play, pause"], ["n p", "next, previous position"], ["d D", "next, previous doubt"],
  ["a", "all drives"], ["Esc", "close"], ["arrows + −", "move and zoom the map"]];

async function opened() {
  const data = await unpacked("arrays", about.arrays);
  const app = { data, drives: drivesOf(data), frames: 0 };
  app.vehicles = vehiclesOf(app.drives);
  app.filter = new Filter(data, app.drives);
  app.colours = new Colours(data, app.drives);
  app.edges = new Lines(data.edgeFirst, data.edgeXy);
  app.network = data.networkFirst ? new Lines(data.networkFirst, data.networkXy) : null;
  app.map = L.map("map", { crs, zoomSnap: 0.5, minZoom: about.mercator ? 2 : -14, maxZoom: about.mercator ? 22 : 6,
    attributionControl: Boolean(about.tiles), zoomControl: true });
  L.control.scale().addTo(app.map);
  if (about.tiles) L.tileLayer(about.tiles, { maxZoom: 22, maxNativeZoom: 19, attribution: "© OpenStreetMap contributors" }).addTo(app.map);
  app.bounds = (drives) => boundsOf(app, drives);
  app.map.fitBounds(app.bounds(app.drives), { animate: false });
  app.layer = new CanvasLayer((context, view) => draw(app, context, view)).addTo(app.map);
  app.redraw = () => app.layer.redraw();
  app.measure = (seconds) => measured(app, seconds);
  app.refilter = () => { app.filter.update(); app.redraw(); };
  let candidates = null;
  app.candidates = () => candidates ||= about.candidates.first ? unpacked("candidates", about.candidates) : Promise.resolve(null);
  app.details = new Details(app);
  app.player = new Player(app);
  app.player.take(null);
  app.panel = new Panel(app);
  if (window.innerWidth <= 700) app.panel.toggle();
  keys(app);
  return app;
}

// Pans the map for some seconds, as a hand does, and counts the frames that the browser shows.
function measured(app, seconds) {
  return new Promise((resolve) => {
    const begin = performance.now();
    let frames = 0, last = begin, longest = 0, moving = true;
    const step = () => {
      const now = performance.now();
      frames++;
      longest = Math.max(longest, now - last);
      last = now;
      if (moving) requestAnimationFrame(step);
      else resolve({ frames, seconds: (now - begin) / 1000, longest, drawing: app.layer.milliseconds });
    };
    app.map.once("moveend", () => { moving = false; });
    requestAnimationFrame(step);
    app.map.panBy([200, 100], { animate: true, duration: seconds, easeLinearity: 1 });
  });
}

function boundsOf(app, drives) {
  const { data } = app, box = [Infinity, Infinity, -Infinity, -Infinity];
  for (const drive of drives) {
    for (let p = drive.first; p < drive.after; p++) {
      const x = data.xy[2 * p], y = data.xy[2 * p + 1];
      box[0] = Math.min(box[0], x);
      box[1] = Math.min(box[1], y);
      box[2] = Math.max(box[2], x);
      box[3] = Math.max(box[3], y);
    }
  }
  if (box[0] > box[2]) return L.latLngBounds([placeOf(-1e5, -1e5), placeOf(1e5, 1e5)]);
  const around = Math.max(2000, 0.02 * Math.max(box[2] - box[0], box[3] - box[1]));
  return L.latLngBounds([placeOf(box[0] - around, box[1] - around), placeOf(box[2] + around, box[3] + around)]);
}

function draw(app, context, view) {
  const { data, filter, colours } = app, frame = new Frame(context, view), { shown } = filter;
  if (shown.network && app.network) frame.network(app.network);
  if (shown.routes) frame.routes(app.edges, filter, colours);
  if (shown.lines && view.close) frame.between(data, filter);
  if (shown.matched && view.close) frame.dots("matched", data.onto, filter, colours, 4, (p) => data.flags[p] & MATCHED);
  if (shown.positions) frame.dots("positions", data.xy, filter, colours, view.close ? 6 : 3, () => true);
  if (shown.doubtful) frame.doubtful(data, filter);
  app.drawn = frame.drawn;
  app.frames++;
}

function keys(app) {
  $("keys").replaceChildren(...KEYS.flatMap(([key, what]) => [element("dt", {}, key), element("dd", {}, what)]));
  const actions = { "/": () => { $("panel").hidden && app.panel.toggle(); $("search").focus(); }, " ": () => app.player.toggle(),
    n: () => app.details.step(1), p: () => app.details.step(-1), d: () => app.details.doubt(1), D: () => app.details.doubt(-1),
    a: () => app.panel.choose(null), Escape: () => app.details.close() };
  document.addEventListener("keydown", (event) => {
    const typing = event.target.closest("input, select, button, textarea");
    if (event.ctrlKey || event.altKey || event.metaKey || !actions[event.key] || typing && event.key !== "Escape") return;
    event.preventDefault();
    actions[event.key]();
  });
}

// `window.fmm` is for tests and for whoever builds on the page: the app, and how long the page took to open.
opened().then((app) => requestAnimationFrame(() => {
  window.fmm = Object.assign(app, { about, ready: true, milliseconds: performance.now() });
})).catch((fault) => {
  window.fmm = { ready: true, fault: String(fault) };
  document.getElementById("figures").textContent = "This browser cannot open the map: " + fault;
});
