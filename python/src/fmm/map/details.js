// A chosen position: its candidates, what each costs, and the road that would have been next best.

const REACH = 14;  // pixels between a click and a position

class Details {
  constructor(app) {
    this.app = app;
    this.position = -1;
    this.marks = L.layerGroup().addTo(app.map);
    app.map.on("click", (event) => this.click(event));
  }

  // The nearest position that is shown, in pixels of the map; -1 if none is near.
  nearest(point) {
    const { data, filter, layer } = this.app, view = viewOf(this.app.map, layer._bounds);
    let best = -1, least = REACH * REACH;
    for (let p = 0; p < filter.positions.length; p++) {
      if (!filter.positions[p]) continue;
      const x = data.xy[2 * p] * view.ax + view.bx - point.x, y = data.xy[2 * p + 1] * view.ay + view.by - point.y;
      if (x * x + y * y < least) [best, least] = [p, x * x + y * y];
    }
    return best;
  }

  click(event) {
    const position = this.nearest(event.layerPoint);
    if (position >= 0) this.show(position, false);
    else this.close();
  }

  close() {
    this.position = -1;
    this.marks.clearLayers();
    $("details").hidden = true;
  }

  // The position before or after in its drive.
  step(by) {
    const { data } = this.app, next = this.position + by;
    if (this.position >= 0 && data.drive[next] === data.drive[this.position]) this.show(next, true);
  }

  // The next position in doubt that is shown.
  doubt(by) {
    const { data, filter } = this.app, count = filter.positions.length;
    for (let i = 1; i <= count; i++) {
      const p = (Math.max(this.position, by > 0 ? -1 : 0) + by * i + count * 2) % count;
      if (filter.positions[p] && data.flags[p] & (SMALL | BROKEN | FAR)) return this.show(p, true);
    }
  }

  async show(position, move) {
    const { data, drives, map, filter } = this.app;
    if (!filter.positions[position]) this.app.panel.choose(null, false);
    this.position = position;
    if (move) this.approach(position);
    const candidates = await this.app.candidates();
    if (this.position !== position) return;
    const drive = drives[data.drive[position]];
    const lines = [`${timeText(data.time[position])}, row ${data.row[position]}`];
    if (data.flags[position] & MATCHED) {
      lines.push(`edge ${data.edge[position]}${named(data.name[position])}, ${metresText(data.distance[position])} from the road`);
    }
    if (text(data.reason[position])) lines.push(text(data.reason[position]));
    lines.push(...this.costs(position));
    const close = element("button", { type: "button", class: "close", onclick: () => { this.close(); map.getContainer().focus(); } },
      "Close");
    const title = `${drive.vehicle}, position ${position - drive.first + 1} of ${drive.after - drive.first}`;
    $("details").replaceChildren(element("h2", {}, title), close, ...lines.map((line) => element("p", {}, line)),
      ...this.table(position, candidates));
    $("details").hidden = false;
    if (move) this.uncover();
    this.mark(position, candidates);
  }

  // Moves the map so that the details do not cover the position, which is in its middle.
  uncover() {
    const { map } = this.app, size = map.getSize(), box = $("details").getBoundingClientRect();
    const free = size.y - box.height - 30;
    map.panBy([0, Math.round(size.y / 2 - Math.max(free, 80) / 2)], { animate: false });
  }

  approach(position) {
    const { data, map } = this.app, xy = placeOf(data.xy[2 * position], data.xy[2 * position + 1]);
    const close = about.mercator ? 17 : 0;
    if (map.getZoom() < close) map.setView(xy, close, { animate: false });
    else map.setView(xy, map.getZoom(), { animate: false });
  }

  costs(position) {
    const { data } = this.app, lines = [], margin = data.margin[position];
    if (!Number.isNaN(data.pieceCost[position])) {
      lines.push(`piece ${data.piece[position]} costs ${costText(data.pieceCost[position])} in all`);
    }
    if (!Number.isNaN(margin)) {
      lines.push(`margin ${costText(margin)}: so much more the best sequence over another road costs`
        + (margin < about.limit ? "; a small margin, so the road is in doubt" : ""));
    } else if (about.margins && data.flags[position] & MATCHED) {
      lines.push("no other road is possible for this position");
    }
    return lines;
  }

  table(position, candidates) {
    const begin = candidates?.first[position], end = candidates?.first[position + 1];
    if (!candidates || begin === end) return [];
    const best = this.app.data.pieceCost[position], heads = ["rank", "road", "distance", "emission", "from", "transition", "in all", "more"];
    const rows = [];
    for (let c = begin; c < end; c++) {
      const known = candidates.total[c] >= 0, before = candidates.before[c];
      const cells = [c - begin, `edge ${candidates.edge[c]}${named(candidates.name[c])}`, candidates.distance[c].toFixed(1) + " m",
        costText(candidates.emission[c]), before >= 0 ? before : "", before >= 0 ? costText(candidates.transition[c]) : "",
        known ? costText(candidates.total[c]) : "no route", known ? (candidates.chosen[c] ? "chosen" : costText(candidates.total[c] - best)) : ""];
      const kind = candidates.chosen[c] ? "chosen" : candidates.another[c] ? "rival" : "";
      rows.push(element("tr", { class: kind }, ...cells.map((cell) => element("td", {}, String(cell)))));
    }
    const caption = element("caption", {}, "Candidates; “from” is the rank at the position before on the best way to each. "
      + "“In all” is the cost of the best sequence of the piece through it. Shaded rows are other roads.");
    return [element("table", {}, caption, element("thead", {}, element("tr", {}, ...heads.map((head) => element("th", { scope: "col" },
      head)))), element("tbody", {}, ...rows))];
  }

  // Lines to the candidates, numbered.
  mark(position, candidates) {
    const { data } = this.app, place = placeOf(data.xy[2 * position], data.xy[2 * position + 1]);
    this.marks.clearLayers();
    L.circleMarker(place, { radius: 9, color: "#000", weight: 3, fill: false, interactive: false }).addTo(this.marks);
    if (!candidates) return;
    for (let c = candidates.first[position]; c < candidates.first[position + 1]; c++) {
      const there = placeOf(candidates.xy[2 * c], candidates.xy[2 * c + 1]), chosen = candidates.chosen[c];
      L.polyline([place, there], { color: "#000", weight: chosen ? 3 : 1.5, dashArray: chosen ? null : "4 4", interactive: false })
        .addTo(this.marks);
    }
  }
}

const named = (number) => text(number) ? ` (${text(number)})` : "";
