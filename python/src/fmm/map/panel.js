// The panel: drives, filters, legend and report.

const LISTED = 200;  // entries of the list at once
const LABELS = { network: "Network", routes: "Driven roads", lines: "Lines to the road", matched: "Matched places",
  positions: "Positions", doubtful: "Doubtful: small margin ○, broken △, no edge ×" };
const $ = (id) => document.getElementById(id);

function element(name, words, ...inner) {
  const made = document.createElement(name);
  for (const [key, value] of Object.entries(words)) {
    if (key.startsWith("on")) made.addEventListener(key.slice(2), value);
    else if (key === "style") made.style.cssText = value;
    else if (value !== false && value != null) made.setAttribute(key, value === true ? "" : value);
  }
  made.append(...inner);
  return made;
}

const swatch = (colour) => element("span", { class: "swatch", style: `background:${colour}`, "aria-hidden": "true" });

const counted = (count, name) => `${count.toLocaleString("en")} ${name}${count === 1 ? "" : "s"}`;

class Panel {
  constructor(app) {
    this.app = app;
    this.chosen = null;  // a vehicle, a drive, or null for all
    const { drives, vehicles } = app, { figures } = about;
    $("figures").textContent = Object.entries({ vehicle: figures.vehicles, drive: figures.drives, position: figures.positions })
      .map(([name, count]) => counted(count, name)).join(", ");
    this.vehicles = vehicles;
    this.last = drives.reduce((most, drive) => drive.end > most ? drive.end : most, 0);
    this.timed = drives.some((drive) => !Number.isNaN(drive.end));
    $("search").addEventListener("input", () => this.list());
    $("search").addEventListener("keydown", (event) => {
      if (event.key === "Enter") $("drives").querySelector("button")?.click();
    });
    $("all").addEventListener("click", () => this.choose(null));
    $("toggle").addEventListener("click", () => this.toggle());
    this.list();
    this.kinds();
    this.times();
    this.report();
  }

  toggle() {
    $("panel").hidden = !$("panel").hidden;
    $("toggle").setAttribute("aria-expanded", String(!$("panel").hidden));
    this.app.map.invalidateSize();
  }

  // The vehicles whose id has the text of the search, and their drives.
  list() {
    const wanted = $("search").value.trim().toLowerCase();
    const found = this.vehicles.filter((vehicle) => vehicle.id.toLowerCase().includes(wanted));
    const rows = [];
    for (const vehicle of found) {
      if (rows.length >= LISTED) break;
      rows.push(this.entry(vehicle, "vehicle", `${vehicle.id || "(no id)"}`, vehicle.drives.length > 1));
      if (vehicle.drives.length > 1) {
        for (const drive of vehicle.drives.slice(0, LISTED - rows.length)) rows.push(this.entry(drive, "drive", "", true));
      }
    }
    $("drives").replaceChildren(...rows);
    const drives = found.reduce((sum, vehicle) => sum + vehicle.drives.length, 0);
    $("found").textContent = `${counted(found.length, "vehicle")}, ${counted(drives, "drive")}`
      + (rows.length >= LISTED ? "; search to see the others" : "");
  }

  entry(of, kind, name) {
    const drive = kind === "drive" ? of : of.drives.length === 1 ? of.drives[0] : null;
    const about_drive = drive ? (drive.trace < 0 ? "no drive" : `${Number.isNaN(drive.begin) ? "drive " + drive.trace
      : timeText(drive.begin)}, ${metresText(drive.metres)}`) + (drive.doubts ? `, ${drive.doubts} in doubt` : "")
      : `${of.drives.length} drives`;
    const target = drive || of;
    const button = element("button", { type: "button", class: kind, "aria-pressed": String(this.chosen === target),
      onclick: () => this.choose(target) });
    if (kind === "vehicle") button.append(swatch(VEHICLES[of.colour % VEHICLES.length]), name, " · ");
    button.append(about_drive);
    return element("li", {}, button);
  }

  // Shows a vehicle or a drive alone, or all (null).
  choose(target, move = true) {
    const { filter, drives, map, player } = this.app;
    this.chosen = target;
    const some = target === null ? drives : target.drives || [target];
    filter.drive.fill(target === null ? 1 : 0);
    for (const drive of some) filter.drive[drive.number] = 1;
    $("all").setAttribute("aria-pressed", String(target === null));
    this.list();
    player.take(target !== null && some.length === 1 ? some[0] : null);
    this.app.refilter();
    if (move) map.fitBounds(this.app.bounds(some), { padding: [30, 30], animate: false });
  }

  kinds() {
    const { filter } = this.app;
    for (const kind of KINDS) {
      const box = element("input", { type: "checkbox", id: `show-${kind}`, checked: true });
      box.addEventListener("change", () => { filter.shown[kind] = box.checked; this.app.redraw(); });
      $("layers").append(element("label", { for: `show-${kind}` }, box, LABELS[kind]));
    }
    $("colour").addEventListener("change", () => this.colour());
    this.colour();
  }

  colour() {
    const { colours } = this.app;
    colours.use($("colour").value);
    $("legend").replaceChildren(...colours.legend().map(([colour, name]) => element("li", {}, swatch(colour), name)));
    this.app.redraw();
  }

  times() {
    if (!this.timed) {
      $("times").hidden = true;
      return;
    }
    for (const name of ["from", "to"]) $(name).addEventListener("input", () => this.time());
    this.time();
  }

  time() {
    const { filter } = this.app, at = (name) => this.last * Number($(name).value) / 1000;
    const from = Math.min(at("from"), at("to")), to = Math.max(at("from"), at("to"));
    $("from-text").textContent = timeText(from);
    $("to-text").textContent = timeText(to);
    for (const [name, value] of [["from", from], ["to", to]]) $(name).setAttribute("aria-valuetext", timeText(value));
    filter.from = from > 0 ? from : -Infinity;
    filter.to = to < this.last ? to : Infinity;
    this.app.refilter();
  }

  report() {
    const lines = [...about.report, ...about.notes.map((note) => "note: " + note)];
    $("report").replaceChildren(...lines.map((line) => element("li", {}, line)));
    $("warnings").replaceChildren(...about.warnings.map((line) => element("p", {}, line)));
    $("warnings").hidden = !about.warnings.length;
    $("places").replaceChildren(...about.places.map((place) => element("li", {}, element("button", { type: "button",
      onclick: () => this.app.details.show(place.position, true) }, placeText(place)))));
    if (!about.places.length) $("places-title").textContent = "No place is in doubt";
  }
}

function placeText(place) {
  return `${place.name ? place.name + ", " : ""}edge ${place.edge}: ${place.positions} in doubt`
    + (place.broken ? `, ${place.broken} at breaks` : "") + (place.least === null ? "" : `, least margin ${costText(place.least)}`);
}
