const $ = id => document.getElementById(id);
const root = document.documentElement;
const darkWanted = matchMedia("(prefers-color-scheme: dark)");
root.dataset.theme = darkWanted.matches ? "dark" : "light";

// ---------------------------------------------------------------- the board's data

function bytesOf(text) {                          // of base64
  const letters = atob(text), bytes = new Uint8Array(letters.length);
  for (let i = 0; i < bytes.length; i++) bytes[i] = letters.charCodeAt(i);
  return bytes;
}
// Byte planes, lowest first: one small loop for each width and one for the sums, which the browser makes fast after the first columns.
const reading = {
  1(raw, at, out) { for (let i = 0; i < out.length; i++) out[i] = raw[at + i] << 24 >> 24; },
  2(raw, at, out) { for (let i = 0, n = out.length; i < n; i++) out[i] = raw[at + i] | raw[at + n + i] << 24 >> 16; },
  4(raw, at, out) { for (let i = 0, n = out.length; i < n; i++) out[i] = raw[at + i] | raw[at + n + i] << 8 | raw[at + 2 * n + i] << 16 | raw[at + 3 * n + i] << 24; },
};
function sum(steps) {
  for (let i = 1, last = steps[0]; i < steps.length; i++) steps[i] = last += steps[i];
}
async function unpack(text) {
  const stream = new Blob([bytesOf(text)]).stream().pipeThrough(new DecompressionStream("deflate"));
  const raw = new Uint8Array(await new Response(stream).arrayBuffer());
  const size = new DataView(raw.buffer).getUint32(0, true);
  const head = JSON.parse(new TextDecoder().decode(raw.subarray(4, 4 + size)));
  let at = 4 + size;
  for (const [name, width, count, isSteps] of head.columns) {
    const column = head[name] = new Int32Array(count);
    reading[width](raw, at, column);
    if (isSteps) sum(column);
    at += width * count;
  }
  return head;
}

let board;
try {
  board = await unpack($("data").textContent);
} catch (fault) {
  $("readout").textContent = "This browser cannot unpack the picture: it wants Chrome 88, Firefox 113 or Safari 16.4, or later ones. All findings stand in the list.";
  for (const rows of document.querySelectorAll("#findings noscript")) rows.outerHTML = rows.textContent;
  return;
}
$("data").remove();

const {files, layers, names, findings, counts, radii, xs, ys, nets, tops, bottoms, pieceFiles, commands, copies, sides} = board;
const {pointXs, pointYs, pointLayers, pointNames, pointNets, pointRecords} = board;
const pieceCount = radii.length, pointCount = pointXs.length;
const starts = new Int32Array(pieceCount + 1);    // the first corner of each piece
const left = new Int32Array(pieceCount), low = new Int32Array(pieceCount);
const right = new Int32Array(pieceCount), high = new Int32Array(pieceCount);
function findBoxes() {
  for (let i = 0; i < pieceCount; i++) {
    const first = starts[i], end = starts[i + 1] = first + counts[i], r = Math.max(radii[i], 0);
    let a = xs[first], b = ys[first], c = a, d = b;
    for (let k = first + 1; k < end; k++) {
      a = Math.min(a, xs[k]); c = Math.max(c, xs[k]);
      b = Math.min(b, ys[k]); d = Math.max(d, ys[k]);
    }
    left[i] = a - r; low[i] = b - r; right[i] = c + r; high[i] = d + r;
  }
}
findBoxes();
const extent = i => Math.max(right[i] - left[i], high[i] - low[i]);
const isDrilled = i => pieceFiles[i] >= board.copper;
const isArea = i => radii[i] < 0;

// What has each key from 0 to count - 1, in order; a negative key is none.
function listsBy(keys, count) {
  const ends = new Int32Array(count + 1);
  for (let i = 0; i < keys.length; i++) if (keys[i] >= 0) ends[keys[i] + 1]++;
  sum(ends);
  const next = ends.slice(), items = new Int32Array(ends[count]);
  for (let i = 0; i < keys.length; i++) if (keys[i] >= 0) items[next[keys[i]]++] = i;
  return key => items.subarray(ends[key], ends[key + 1]);
}
const piecesOf = listsBy(nets, board.netCount), pointsOf = listsBy(pointNets, board.netCount);
const namesOf = net => [...new Set(Array.from(pointsOf(net), p => names[pointNames[p]]))];
