// ---------------------------------------------------------------- moving and zooming

// Where a whole picture takes longer than CHEAP, the old one is moved and stretched while it goes on, which costs next to nothing. Every FRESH,
// and when it rests, what has come into sight is painted: where it went by whole pixels that alone, else all anew.
const CHEAP = 8, FRESH = 100, REST = 90;          // milliseconds
let soon = 0, later = 0, cost = 0, paintedAt = 0;
function draw() {                                 // both pictures, whole
  cancelAnimationFrame(soon);
  clearTimeout(later);
  soon = 0;
  const begun = performance.now();
  drawCopper();
  paintedAt = performance.now();
  cost = paintedAt - begun;
  drawMarks();
  tell("whole");
}
function tell(painted) {                          // for tests: what was painted last, and where; "moving" while there is more to paint
  root.dataset.painted = painted;
  root.dataset.drawn = (cost + marksCost).toFixed(1);
  root.dataset.view = [Math.round(view.x), Math.round(view.y), view.s, view.flip].join(" ");
  root.dataset.front = front;
}
function drawSoon() {
  root.dataset.painted = "moving";
  cancelAnimationFrame(soon);
  soon = requestAnimationFrame(draw);
}
function settle() {
  root.dataset.painted = "moving";
  if (!soon) soon = requestAnimationFrame(follow);
}
function follow() {                               // one frame of a movement
  if (cost < (root.dataset.cheap ?? CHEAP) || view.flip !== copperAt.flip) { draw(); return; }   // tests may call all dear
  soon = 0;
  const by = performance.now() - paintedAt < FRESH ? null : pixelsMoved();
  if (by) moveCopper(...by); else stretch(base, copperAt);
  if (by && marksCost < CHEAP) drawMarks(); else stretch(over, marksAt);
  if (by) paintedAt = performance.now();
  tell("moving");
  clearTimeout(later);
  later = setTimeout(rest, REST);
}
function rest() {
  const by = areLabelled ? null : pixelsMoved();
  if (!by) { draw(); return; }
  moveCopper(...by);
  drawMarks();
  tell("part");
}
function pixelsMoved() {                          // since the copper was drawn, or null where it is another picture
  if (view.s !== copperAt.s) return null;
  const dx = (copperAt.x - view.x) * view.s * view.flip, dy = (view.y - copperAt.y) * view.s, by = [Math.round(dx), Math.round(dy)];
  return Math.abs(dx - by[0]) + Math.abs(dy - by[1]) < 0.01 && Math.abs(by[0]) < width && Math.abs(by[1]) < height ? by : null;
}
function stretch(canvas, at) {
  const k = view.s / at.s;
  const dx = (width / 2 + (at.x - view.x) * view.s * view.flip - k * width / 2) / ratio;
  const dy = (height / 2 - (at.y - view.y) * view.s - k * height / 2) / ratio;
  canvas.style.transform = `translate(${dx}px, ${dy}px) scale(${k})`;
}
function zoom(by, px = width / 2, py = height / 2) {
  const s = Math.min(Math.max(view.s * by, 1e-8), 0.05), x = fromX(px), y = fromY(py);
  view.s = s;
  view.x = x - (px - width / 2) / (s * view.flip);
  view.y = y + (py - height / 2) / s;
  settle();
}
function move(dx, dy) {                           // by whole pixels
  view.x -= dx / (view.s * view.flip);
  view.y += dy / view.s;
  settle();
}
const moveBy = (x, y) => move(Math.round(x * ratio), Math.round(y * ratio));

function at(event) {                              // the pixel that it is at
  const box = area.getBoundingClientRect();
  return [Math.round((event.clientX - box.left) * ratio), Math.round((event.clientY - box.top) * ratio)];
}
over.addEventListener("wheel", event => {
  event.preventDefault();
  const lines = event.deltaMode === 1 ? 33 : 1;
  zoom(Math.exp(-event.deltaY * lines * 0.0016), ...at(event));
}, {passive: false});

const fingers = new Map();
let travelled = 0;
over.addEventListener("pointerdown", event => {
  over.setPointerCapture(event.pointerId);
  fingers.set(event.pointerId, at(event));
  travelled = 0;
});
over.addEventListener("pointermove", event => {
  const now = at(event), was = fingers.get(event.pointerId);
  if (!was) { askHover(now); return; }
  travelled += Math.abs(now[0] - was[0]) + Math.abs(now[1] - was[1]);
  if (fingers.size === 2) pinch(event.pointerId, was, now);
  else if (travelled > 4 * ratio) move(now[0] - was[0], now[1] - was[1]);
  fingers.set(event.pointerId, now);
});
function pinch(id, was, now) {
  const [, other] = [...fingers].find(([each]) => each !== id);
  const before = Math.hypot(was[0] - other[0], was[1] - other[1]), after = Math.hypot(now[0] - other[0], now[1] - other[1]);
  if (before > 0) zoom(after / before, (now[0] + other[0]) / 2, (now[1] + other[1]) / 2);
}
for (const kind of ["pointerup", "pointercancel"]) over.addEventListener(kind, event => {
  fingers.delete(event.pointerId);
  if (kind === "pointerup" && travelled <= 4 * ratio) click(at(event));
});
over.addEventListener("pointerleave", () => { hover = null; drawMarks(); });

// ---------------------------------------------------------------- what lies under the pointer

// A plain walk over all boxes takes about a millisecond for 200,000 pieces.
function under(x, y) {
  const seen = [], reach = 1.5 * ratio / view.s;
  for (let i = 0; i < pieceCount; i++) {
    if (x < left[i] - reach || x > right[i] + reach || y < low[i] - reach || y > high[i] + reach) continue;
    if (spanShown(i) && has(i, x, y, reach)) seen.push(i);
  }
  const rank = i => tops[i] <= front && front <= bottoms[i] && shown[front - 1] ? 0 : tops[i];
  return seen.sort((a, b) => rank(a) - rank(b) || isDrilled(a) - isDrilled(b) || b - a);
}
function has(i, x, y, reach) {
  const first = starts[i], end = starts[i + 1];
  if (!isArea(i)) {
    const [fx, fy] = foot(x, y, first, end - 1);
    return Math.hypot(fx - x, fy - y) <= Math.max(radii[i], reach);
  }
  let inside = false;
  for (let k = first, j = end - 1; k < end; j = k++) {
    if ((ys[k] > y) !== (ys[j] > y) && x < xs[k] + (xs[j] - xs[k]) * (y - ys[k]) / (ys[j] - ys[k])) inside = !inside;
  }
  return inside;
}
function pointNear(x, y) {
  let best = -1, least = 7 * ratio / view.s;
  for (let p = 0; p < pointCount; p++) {
    if (!shown[pointLayers[p] - 1]) continue;
    const d = Math.hypot(pointXs[p] - x, pointYs[p] - y);
    if (d < least || d === least && pointLayers[p] === front) { best = p; least = d; }
  }
  return best;
}
function findingNear(px, py) {
  let best = null, least = 11 * ratio;
  for (const {f, x, y} of anchors) {
    const d = Math.hypot(toX(x) - px, toY(y) - py);
    if (d < least) { best = f; least = d; }
  }
  return best;
}
let asked = null;
function askHover(place) {
  if (!asked) requestAnimationFrame(() => { const [px, py] = asked; asked = null; readOut(px, py); });
  asked = place;
}
function readOut(px, py) {
  const x = fromX(px), y = fromY(py), seen = under(x, y), p = pointNear(x, y), f = chosen ? null : findingNear(px, py);
  const parts = [`${mm(x)}, ${mm(y)} mm`];
  if (f) parts.push(`${f.id.replace("-", " ")}: click to see it`);
  if (p >= 0) parts.push(`test point ${p}: ${pinWords(p)}, ${names[pointNames[p]]}, ${pointLine(p)}`);
  if (seen.length) parts.push(netWords(nets[seen[0]]), pieceWords(seen[0]));
  if (seen.length > 1) parts.push(`${plural(seen.length - 1, "piece")} more here`);
  $("readout").textContent = parts.join("  ·  ");
  const now = seen.length ? seen[0] : null;
  if (now !== hover) { hover = now; if (marksCost < 60) drawMarks(); }
}
function click([px, py]) {
  over.focus({preventScroll: true});
  const f = chosen ? null : findingNear(px, py);
  if (f) { go(f.id); return; }
  const seen = under(fromX(px), fromY(py));
  if (seen.length) go("net-" + nets[seen[0]], true);
  else clear();
}
