// The data of the page as typed arrays, and what is derived from them once.

const about = JSON.parse(document.getElementById("about").textContent);

async function unpacked(id, index) {
  const text = atob(document.getElementById(id).textContent);
  const bytes = new Uint8Array(text.length);
  for (let i = 0; i < text.length; i++) bytes[i] = text.charCodeAt(i);
  const stream = new Blob([bytes]).stream().pipeThrough(new DecompressionStream("gzip"));
  const buffer = await new Response(stream).arrayBuffer();
  const arrays = {};
  for (const [name, [kind, begin, length]] of Object.entries(index)) {
    arrays[name] = new globalThis[kind + "Array"](buffer, begin, length);
  }
  return arrays;
}

const MATCHED = 1, SMALL = 2, BROKEN = 4, FAR = 8;
const text = (number) => about.texts[number];

// Lines: the points xy of line i are those from first[i] to first[i + 1]. A point that is in the same square of the side 2^l as
// the point before it has a level of at most l, and is left out where 2^l is less than a pixel. Ends have the level 32.
class Lines {
  constructor(first, xy) {
    this.first = first;
    this.xy = xy;
    this.count = first.length - 1;
    this.level = new Uint8Array(xy.length / 2);
    this.box = new Int32Array(4 * this.count);
    for (let i = 0; i < this.count; i++) this.measure(i);
  }

  measure(i) {
    const { first, xy, level, box } = this, end = first[i + 1];
    let west = 2147483647, south = 2147483647, east = -2147483648, north = -2147483648;
    for (let p = first[i]; p < end; p++) {
      const x = xy[2 * p], y = xy[2 * p + 1];
      if (x < west) west = x;
      if (x > east) east = x;
      if (y < south) south = y;
      if (y > north) north = y;
      level[p] = p === first[i] || p === end - 1 ? 32 : 32 - Math.clz32((x ^ xy[2 * p - 2]) | (y ^ xy[2 * p - 1]));
    }
    box.set([west, south, east, north], 4 * i);
  }
}

// The drives, each with its vehicle, its positions and its driven edges.
function drivesOf(data) {
  const drives = [];
  const count = data.driveFirst.length - 1;
  for (let d = 0; d < count; d++) {
    drives.push({ number: d, vehicle: text(data.driveVehicle[d]), trace: data.driveTrace[d], first: data.driveFirst[d],
      after: data.driveFirst[d + 1], edges: [], metres: 0, doubts: 0, begin: NaN, end: NaN, colour: 0 });
  }
  for (const drive of drives) {
    for (let p = drive.first; p < drive.after; p++) {
      const time = data.time[p];
      if (!(time >= drive.begin)) drive.begin = Number.isNaN(time) ? drive.begin : time;
      if (!(time <= drive.end)) drive.end = Number.isNaN(time) ? drive.end : time;
      if (data.flags[p] & (SMALL | BROKEN)) drive.doubts++;
    }
  }
  for (let e = 0; e < data.edgeDrive.length; e++) {
    drives[data.edgeDrive[e]].edges.push(e);
    drives[data.edgeDrive[e]].metres += data.edgeMetres[e];
  }
  return drives;
}

function vehiclesOf(drives) {
  const byId = new Map();
  for (const drive of drives) {
    if (!byId.has(drive.vehicle)) byId.set(drive.vehicle, { id: drive.vehicle, drives: [], colour: byId.size });
    const vehicle = byId.get(drive.vehicle);
    drive.colour = vehicle.colour;
    vehicle.drives.push(drive);
  }
  return [...byId.values()];
}

function timeText(seconds) {
  if (Number.isNaN(seconds)) return "no time";
  return new Date(1000 * (about.begin + seconds)).toISOString().slice(0, 19).replace("T", " ");
}

const costText = (cost) => Math.round(cost).toLocaleString("en");
const metresText = (metres) => metres >= 1000 ? (metres / 1000).toFixed(1) + " km" : metres.toFixed(1) + " m";
