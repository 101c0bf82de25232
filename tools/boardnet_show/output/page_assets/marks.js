// ---------------------------------------------------------------- the marks' picture

let chosen = null, hover = null, pointed = null;
let marksAt = null, marksCost = 0;                // the view that the marks were drawn for, and milliseconds
function drawMarks() {
  const begun = performance.now();
  setFrame();
  marker.clearRect(0, 0, width, height);
  if (chosen) chosen.draw(); else drawAnchors();
  if (hover !== null) outlined(hover, 1.5);
  if (pointed !== null) haloed(ink.meet, 7, 3, () => traceOutline(marker, pointed, 2 * ratio));
  drawScale();
  marksAt = {...view};
  marksCost = performance.now() - begun;
  over.style.transform = "";
}
function haloed(colour, wide, thin, trace, dashes = []) {   // a line that is seen on any copper
  marker.beginPath();
  trace();
  for (const [style, w, dash] of [[ink.halo, wide, []], [colour, thin, dashes]]) {
    marker.strokeStyle = style;
    marker.lineWidth = w * ratio;
    marker.setLineDash(dash.map(d => d * ratio));
    marker.stroke();
  }
  marker.setLineDash([]);
}
function outlined(i, wide) {
  marker.strokeStyle = ink.meet;
  marker.lineWidth = wide * ratio;
  outline(marker, i, 0);
}
function drawScale() {
  let size = 10 ** Math.floor(Math.log10(width / 4 / view.s));
  if (size * 5 * view.s < width / 4) size *= 5; else if (size * 2 * view.s < width / 4) size *= 2;
  const x = 14 * ratio, y = height - 46 * ratio, w = size * view.s;
  marker.lineCap = "butt";
  haloed(ink.ink, 5, 2, () => { marker.moveTo(x, y - 5 * ratio); marker.lineTo(x, y); marker.lineTo(x + w, y); marker.lineTo(x + w, y - 5 * ratio); });
  label(marker, size >= 1e6 ? size / 1e6 + " mm" : size / 1e3 + " µm", x, y - 8 * ratio, 11, ink.ink);
}

// ---- where the findings are: a mark's form tells the kind, not its colour alone
const kindOf = f => f.id.split("-")[0];
const anchorOf = f => f.meets?.length ? [f.meets[0].x, f.meets[0].y] : ["gap", "cut", "neck"].includes(kindOf(f)) ? f.gap.slice(0, 2) : [pointXs[f.points[0]], pointYs[f.points[0]]];
const anchors = findings.map(f => { const [x, y] = anchorOf(f); return {f, x, y}; });
const marks = {
  open(x, y, size) {
    marker.arc(x, y, size, 0.9, 2.25);
    marker.moveTo(x + size * Math.cos(4.05), y + size * Math.sin(4.05));
    marker.arc(x, y, size, 4.05, 5.4);
    for (const side of [-1, 1]) { marker.moveTo(x + side * size * 1.5, y); marker.lineTo(x + side * size * 0.45, y); }
  },
  short(x, y, size) {
    for (const side of [-1, 1]) { marker.moveTo(x - size, y - side * size); marker.lineTo(x + size, y + side * size); }
  },
  missing(x, y, size) { marker.rect(x - size, y - size, 2 * size, 2 * size); },
  gap(x, y, size) {
    for (const side of [-0.45, 0.45]) { marker.moveTo(x + side * size, y - size); marker.lineTo(x + side * size, y + size); }
  },
  cut(x, y, size) {
    marker.arc(x, y, size, 0, 2 * Math.PI);
    marker.moveTo(x - size * 0.7, y + size * 0.7);
    marker.lineTo(x + size * 0.7, y - size * 0.7);
  },
  neck(x, y, size) {
    for (const side of [-1, 1]) { marker.moveTo(x - size, y + side * size); marker.quadraticCurveTo(x, y, x + size, y + side * size); }
  },
  outside(x, y, size) {
    marker.moveTo(x - size, y + size);
    marker.lineTo(x + size, y - size);
    marker.lineTo(x, y - size);
    marker.moveTo(x + size, y - size);
    marker.lineTo(x + size, y);
  },
};
function kindMark(kind, x, y, size) {
  marker.lineCap = "round";
  haloed(ink.bad, 5, 2.2, () => marks[kind](x, y, size));
}
const MOST_MARKS = 500, CROWDED = 60;
function drawAnchors() {
  const seen = anchors.filter(({x, y}) => x >= frame.left && x <= frame.right && y >= frame.low && y <= frame.high);
  if (seen.length > MOST_MARKS) { dotAnchors(seen); return; }
  marker.lineCap = "butt";
  for (const {f} of seen) if (kindOf(f) === "open") rat(...f.points, 1.2);
  for (const {f, x, y} of seen) kindMark(kindOf(f), toX(x), toY(y), (seen.length > CROWDED ? 4.5 : 6.5) * ratio);
}
function dotAnchors(seen) {                       // from afar: where they lie, not which they are
  const image = marker.createImageData(width, height), pixels = new Uint32Array(image.data.buffer);
  const side = Math.round((seen.length > 3000 ? 2 : 4) * ratio);
  for (const {x, y} of seen) plot(pixels, toX(x), toY(y), side, ink.badDot);
  marker.putImageData(image, 0, 0);
}
function line(x, y, x2, y2, thick, dashes) {
  haloed(ink.rat, 2 * thick, thick, () => { marker.moveTo(toX(x), toY(y)); marker.lineTo(toX(x2), toY(y2)); }, dashes);
}
const rat = (here, there, thick) => line(pointXs[here], pointYs[here], pointXs[there], pointYs[there], thick, [9, 6]);

// ---- what is chosen: first and third plain, second and fourth striped, so that they are told apart without colour
const LOOKS = ["first", "second", "third", "fourth"];
const colourOfLook = k => ink[LOOKS[k % 4]];
const lookOf = k => k % 2 ? stripes(colourOfLook(k)) : colourOfLook(k);
function stripes(colour) {
  const size = 8 * ratio, tile = document.createElement("canvas"), c = tile.getContext("2d");
  tile.width = tile.height = size;
  c.fillStyle = ink.halo;
  c.fillRect(0, 0, size, size);
  c.strokeStyle = colour;
  c.lineWidth = size * 0.45;
  for (const d of [-size, 0, size]) { c.beginPath(); c.moveTo(d - 2, size + 2); c.lineTo(d + size + 2, -2); c.stroke(); }
  return marker.createPattern(tile, "repeat");
}
function drawNet(part, style, alpha = 1, behind = 0.35) {   // layers that are not in front are paler
  for (const l of layerOrder()) {
    if (part.layers[l - 1].length) onLayer(marker, l === front ? alpha : alpha * behind, () => paint(scratchPen, part.layers[l - 1], style));
  }
  paintHoles(marker, part.drilled, ink.meet);
}
function ring(p, k, text, away) {                 // a test point, and its name on that side
  const x = toX(pointXs[p]), y = toY(pointYs[p]), wide = 14 * ratio;
  if (x < 0 || y < 0 || x > width || y > height) return;
  haloed(colourOfLook(k), 6, 3, () => marker.arc(x, y, 9 * ratio, 0, 2 * Math.PI));
  if (text) label(marker, text, x + (away < 0 ? -wide - textWidth(text, 13) : wide), y + 5 * ratio, 13, colourOfLook(k), true);
}
function textWidth(text, size) {
  marker.font = fontOf(size, true);
  return marker.measureText(text).width;
}
function meet(x, y, text) {                       // a place where copper meets, or comes nearest
  const px = toX(x), py = toY(y), size = 8 * ratio;
  haloed(ink.meet, 6, 2.5, () => { marker.moveTo(px, py - size); marker.lineTo(px + size, py); marker.lineTo(px, py + size); marker.lineTo(px - size, py); marker.closePath(); });
  label(marker, text, px + 4 * ratio, py + 24 * ratio, 13, ink.meet, true);
}
