// Colours, filters and the drawing of one frame.

// Okabe and Ito's colours, without the yellow that is too pale for a line, and five steps of plasma: people with any kind of
// colour blindness can tell them apart. Doubts are told by their shapes, too.
const VEHICLES = ["#0072b2", "#d55e00", "#009e73", "#cc79a7", "#e69f00", "#56b4e9", "#000000"];
const STEPS = ["#0d0887", "#7e03a8", "#cc4778", "#f0804e", "#fdb42f"];
const PLAIN = "#0b5394", UNKNOWN = "#8c959f";
const SPEEDS = [10, 30, 50, 80], DISTANCES = [2, 5, 10, 20];
const KINDS = ["network", "routes", "lines", "matched", "positions", "doubtful"];

class Colours {
  constructor(data, drives) {
    this.data = data;
    this.drives = drives;
    this.use("vehicle");
  }

  use(mode) {
    this.mode = mode;
    const { data, drives } = this;
    const steps = mode === "vehicle" ? VEHICLES : [...STEPS, UNKNOWN];
    this.palette = [...steps, PLAIN];
    const plain = steps.length, unknown = steps.length - 1;
    const step = (value, bounds) => Number.isNaN(value) ? unknown : bounds.filter((bound) => value >= bound).length;
    const ofVehicle = (drive) => drives[drive].colour % VEHICLES.length;
    this.positions = this.grouped(data.drive.length, (p) => mode === "vehicle" ? ofVehicle(data.drive[p])
      : mode === "distance" ? step(data.distance[p], DISTANCES) : plain);
    this.edges = this.grouped(data.edgeDrive.length, (e) => mode === "vehicle" ? ofVehicle(data.edgeDrive[e])
      : mode === "speed" ? step(data.edgeSpeed[e], SPEEDS) : plain);
  }

  // The numbers below count by colour, and where each colour begins.
  grouped(count, colourOf) {
    const colour = new Uint8Array(count), begins = new Uint32Array(this.palette.length + 1);
    for (let i = 0; i < count; i++) begins[(colour[i] = colourOf(i)) + 1]++;
    for (let c = 0; c < this.palette.length; c++) begins[c + 1] += begins[c];
    const next = begins.slice(), order = new Uint32Array(count);
    for (let i = 0; i < count; i++) order[next[colour[i]]++] = i;
    return { order, begins };
  }

  legend() {
    if (this.mode === "vehicle") return [];
    const [bounds, unit] = this.mode === "speed" ? [SPEEDS, "km/h"] : [DISTANCES, "m"];
    const names = [`below ${bounds[0]} ${unit}`, ...bounds.map((b, i) => i + 1 < bounds.length ? `${b} to ${bounds[i + 1]} ${unit}`
      : `${b} ${unit} and more`), "unknown"];
    return names.map((name, i) => [this.palette[i], name]);
  }
}

// What is shown: kinds of things, drives and a time span.
class Filter {
  constructor(data, drives) {
    this.data = data;
    this.drives = drives;
    this.shown = Object.fromEntries(KINDS.map((kind) => [kind, true]));
    this.drive = new Uint8Array(drives.length).fill(1);
    this.from = -Infinity;
    this.to = Infinity;
    this.positions = new Uint8Array(data.drive.length);
    this.edges = new Uint8Array(data.edgeDrive.length);
    this.update();
  }

  update() {
    const { data, from, to, drive } = this;
    for (let p = 0; p < this.positions.length; p++) {
      this.positions[p] = drive[data.drive[p]] && !(data.time[p] < from) && !(data.time[p] > to) ? 1 : 0;
    }
    for (let e = 0; e < this.edges.length; e++) {
      this.edges[e] = drive[data.edgeDrive[e]] && !(data.edgeExit[e] < from) && !(data.edgeEntry[e] > to) ? 1 : 0;
    }
  }
}

// One frame on a canvas. `view` has the pixel of a place, ax * x + bx and ay * y + by, the box of pixels that is drawn, the size of a
// pixel of the screen, and whether the map is close enough to tell places on the road from positions.
class Frame {
  constructor(context, view) {
    this.context = context;
    this.view = view;
    this.drawn = Object.fromEntries(KINDS.map((kind) => [kind, 0]));
    this.level = Math.floor(Math.log2(1 / Math.abs(view.ax)));  // squares of half a pixel to a pixel
    this.squares = Math.ceil((view.right - view.left) / 2) + 2;  // in a row of two by two pixels
    this.taken = new Uint8Array(this.squares * (Math.ceil((view.bottom - view.top) / 2) + 2));
    const xs = [(view.left - view.bx) / view.ax, (view.right - view.bx) / view.ax];
    const ys = [(view.top - view.by) / view.ay, (view.bottom - view.by) / view.ay];
    this.box = [Math.min(...xs), Math.min(...ys), Math.max(...xs), Math.max(...ys)];
  }

  // Whether the square of two by two pixels is still free; it is taken then.
  free(px, py) {
    const at = ((py - this.view.top) >> 1) * this.squares + ((px - this.view.left) >> 1);
    return this.taken[at] ? false : (this.taken[at] = 1, true);
  }

  // Adds a line to a path. Returns whether it is drawn.
  line(path, lines, i) {
    const { view, level, box } = this, at = 4 * i;
    if (lines.box[at] > box[2] || lines.box[at + 2] < box[0] || lines.box[at + 1] > box[3] || lines.box[at + 3] < box[1]) return false;
    const { xy } = lines, end = lines.first[i + 1];
    let p = lines.first[i];
    if (p >= end) return false;
    const x = xy[2 * p] * view.ax + view.bx, y = xy[2 * p + 1] * view.ay + view.by;
    const small = (lines.box[at + 2] - lines.box[at]) * view.ax < 1 && (lines.box[at + 3] - lines.box[at + 1]) * -view.ay < 1;
    if (small && x >= view.left && x < view.right && y >= view.top && y < view.bottom && !this.free(x, y)) return false;
    path.moveTo(x, y);
    for (p++; p < end; p++) {
      if (lines.level[p] > level) path.lineTo(xy[2 * p] * view.ax + view.bx, xy[2 * p + 1] * view.ay + view.by);
    }
    return true;
  }

  network(lines) {
    const { context, view } = this;
    this.taken.fill(0);
    context.strokeStyle = "#b4bac1";
    context.lineWidth = view.close ? 1 : view.pixel;
    context.beginPath();
    for (let i = 0; i < lines.count; i++) this.drawn.network += this.line(context, lines, i);
    context.stroke();
  }

  routes(lines, filter, colours) {
    const { order, begins } = colours.edges;
    this.taken.fill(0);
    for (let c = 0; c < colours.palette.length; c++) {
      const path = new Path2D();
      for (let at = begins[c]; at < begins[c + 1]; at++) {
        if (filter.edges[order[at]]) this.drawn.routes += this.line(path, lines, order[at]);
      }
      this.wide(path, colours.palette[c]);
    }
  }

  // Strokes a path with a wide line. From afar a path has so many lines that its outline takes seconds to fill; three lines of one
  // pixel beside each other, which have no outline, take a tenth of that.
  wide(path, colour) {
    const { context, view } = this, { pixel } = view;
    context.strokeStyle = colour;
    context.lineJoin = context.lineCap = view.close ? "round" : "butt";
    context.lineWidth = view.close ? 3.5 : pixel;
    for (const [dx, dy] of view.close ? [[0, 0]] : [[0, 0], [pixel, 0], [0, pixel]]) {
      context.translate(dx, dy);
      context.stroke(path);
      context.translate(-dx, -dy);
    }
  }

  // Lines from positions to their places on the road.
  between(data, filter) {
    const { context, view } = this;
    this.taken.fill(0);
    context.strokeStyle = "#57606a";
    context.lineWidth = 1;
    context.beginPath();
    for (let p = 0; p < filter.positions.length; p++) {
      if (!filter.positions[p] || !(data.flags[p] & MATCHED)) continue;
      const x = data.xy[2 * p] * view.ax + view.bx, y = data.xy[2 * p + 1] * view.ay + view.by;
      const u = data.onto[2 * p] * view.ax + view.bx, v = data.onto[2 * p + 1] * view.ay + view.by;
      if (Math.abs(u - x) + Math.abs(v - y) < 2 || !this.inside(x, y) && !this.inside(u, v)) continue;
      context.moveTo(x, y);
      context.lineTo(u, v);
      this.drawn.lines++;
    }
    context.stroke();
  }

  inside(x, y) {
    return x >= this.view.left && x < this.view.right && y >= this.view.top && y < this.view.bottom;
  }

  // Squares at places, one in each two by two pixels.
  dots(kind, xy, filter, colours, size, wanted) {
    const { context, view } = this, { order, begins } = colours.positions, half = size / 2;
    this.taken.fill(0);
    for (let c = 0; c < colours.palette.length; c++) {
      context.fillStyle = kind === "matched" ? "#ffffff" : colours.palette[c];
      for (let at = begins[c]; at < begins[c + 1]; at++) {
        const p = order[at];
        if (!filter.positions[p] || !wanted(p)) continue;
        const x = xy[2 * p] * view.ax + view.bx, y = xy[2 * p + 1] * view.ay + view.by;
        if (!this.inside(x, y) || !this.free(x, y)) continue;
        context.fillRect(Math.round(x - half), Math.round(y - half), size, size);
        if (kind === "matched") context.strokeRect(Math.round(x - half), Math.round(y - half), size, size);
        this.drawn[kind]++;
      }
    }
  }

  // Rings where the margin is small, triangles where a drive breaks, crosses where no edge is in reach.
  doubtful(data, filter) {
    const { context } = this, paths = { [SMALL]: new Path2D(), [BROKEN]: new Path2D(), [FAR]: new Path2D() };
    for (const flag of [SMALL, BROKEN, FAR]) this.marks(data, filter, flag, paths[flag]);
    context.lineWidth = 2;
    context.strokeStyle = "#000000";
    context.fillStyle = "#ffd43b";
    context.stroke(paths[SMALL]);
    context.fill(paths[BROKEN]);
    context.stroke(paths[BROKEN]);
    context.strokeStyle = "#b3001b";
    context.stroke(paths[FAR]);
  }

  marks(data, filter, flag, path) {
    const { view } = this;
    this.taken.fill(0);
    for (let p = 0; p < filter.positions.length; p++) {
      if (!(data.flags[p] & flag) || !filter.positions[p]) continue;
      const x = data.xy[2 * p] * view.ax + view.bx, y = data.xy[2 * p + 1] * view.ay + view.by;
      if (!this.inside(x, y) || !this.free(x, y)) continue;
      this.drawn.doubtful++;
      mark(path, flag, x, y);
    }
  }
}

function mark(path, flag, x, y) {
  if (flag === SMALL) {
    path.moveTo(x + 6, y);
    path.arc(x, y, 6, 0, 2 * Math.PI);
  } else if (flag === BROKEN) {
    path.moveTo(x, y - 7);
    path.lineTo(x + 6.5, y + 5);
    path.lineTo(x - 6.5, y + 5);
    path.closePath();
  } else {
    path.moveTo(x - 4, y - 4);
    path.lineTo(x + 4, y + 4);
    path.moveTo(x + 4, y - 4);
    path.lineTo(x - 4, y + 4);
  }
}
