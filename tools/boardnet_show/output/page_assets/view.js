// ---------------------------------------------------------------- the view

const base = $("copper"), over = $("marks"), area = $("board");
const pen = base.getContext("2d"), marker = over.getContext("2d");
const scratch = document.createElement("canvas"), scratchPen = scratch.getContext("2d");
const view = {x: 0, y: 0, s: 1e-5, flip: 1};    // middle in nm, pixels of the canvas per nm, -1 seen from below
let width = 1, height = 1, ratio = 1;
const shown = layers.map(() => true);
let front = 1, showPoints = true;

const toX = x => width / 2 + (x - view.x) * view.s * view.flip;
const toY = y => height / 2 - (y - view.y) * view.s;
const fromX = px => view.x + (px - width / 2) / (view.s * view.flip);
const fromY = py => view.y - (py - height / 2) / view.s;

// What is drawn at a time: a part of the canvas in pixels, and in nanometres what lies in it.
const frame = {x: 0, y: 0, w: 1, h: 1, left: 0, right: 0, low: 0, high: 0};
function setFrame(x = 0, y = 0, w = width, h = height) {
  const one = fromX(x), other = fromX(x + w);
  Object.assign(frame, {x, y, w, h, left: Math.min(one, other), right: Math.max(one, other), low: fromY(y + h), high: fromY(y)});
}
const visible = i => right[i] >= frame.left && left[i] <= frame.right && high[i] >= frame.low && low[i] <= frame.high;

const NOTHING = [Infinity, Infinity, -Infinity, -Infinity];
const around = (box, x, y) => [Math.min(box[0], x), Math.min(box[1], y), Math.max(box[2], x), Math.max(box[3], y)];
function boxOf(list) {
  let [a, b, c, d] = NOTHING;
  for (const i of list) { a = Math.min(a, left[i]); b = Math.min(b, low[i]); c = Math.max(c, right[i]); d = Math.max(d, high[i]); }
  return [a, b, c, d];
}
function wholeBox() {
  let [a, b, c, d] = boxOf(left.keys());
  for (let p = 0; p < pointCount; p++) { a = Math.min(a, pointXs[p]); b = Math.min(b, pointYs[p]); c = Math.max(c, pointXs[p]); d = Math.max(d, pointYs[p]); }
  return a > c ? [0, 0, 1e7, 1e7] : [a, b, c, d];
}
const all = wholeBox();
function look(box, room = 1.15, least = 4e6) {
  const w = Math.max(box[2] - box[0], least), h = Math.max(box[3] - box[1], least);
  view.x = (box[0] + box[2]) / 2;
  view.y = (box[1] + box[3]) / 2;
  view.s = Math.min(width / (w * room), Math.max(height - 100 * ratio, height / 2) / (h * room));   // the scale stands below
  drawSoon();
}

// ---------------------------------------------------------------- colours

const COLOURS = 14, NAMELESS = COLOURS, POUR = COLOURS + 1;
let ink = {};
function readInk() {
  const style = getComputedStyle(root), of = name => style.getPropertyValue("--" + name).trim();
  ink = {};
  for (const name of ["board", "hole", "nameless", "pour", "first", "second", "third", "fourth", "rat", "meet", "between", "halo", "point", "bad", "ink"]) ink[name] = of(name);
  ink.nets = Array.from({length: COLOURS}, (_, k) => of("net" + k)).concat(ink.nameless, ink.pour);
  ink.dots = ink.nets.map(dotOf);
  ink.badDot = dotOf(ink.bad);
}
function dotOf(colour) {                          // #rrggbb as a number of a picture's pixels
  const n = parseInt(colour.slice(1), 16);
  return (0xff000000 | (n & 255) << 16 | n & 0xff00 | n >> 16) >>> 0;
}
// The net of most pieces is mostly a pour and is drawn calmly; nets without a test point are grey; the others have colours by their size.
function coloursOf() {
  const NETS = 2 ** 20, colours = new Uint8Array(board.netCount);
  const bySize = Float64Array.from(colours, (_, net) => net - NETS * piecesOf(net).length).sort().map(key => (key % NETS + NETS) % NETS);
  let widest = -1, most = -1;
  for (const net of bySize.subarray(0, 40)) {
    for (const i of piecesOf(net)) {
      const size = (right[i] - left[i]) * (high[i] - low[i]);
      if (size > most) { most = size; widest = net; }
    }
  }
  bySize.forEach((net, rank) => {
    colours[net] = !pointsOf(net).length ? NAMELESS : net === widest && piecesOf(net).length > 8 ? POUR : rank % COLOURS;
  });
  return colours;
}
const colourOf = coloursOf();
