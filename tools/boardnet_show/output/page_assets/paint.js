// ---------------------------------------------------------------- painting pieces

const DISC = 0, CAPSULE = 1, QUAD = 2, CONTOUR = 3, FORMS = 4;
const form = Uint8Array.from(radii, (r, i) => r < 0 ? (isQuad(i) ? QUAD : CONTOUR) : counts[i] === 1 ? DISC : CAPSULE);
function isQuad(i) {                              // an upright rectangle: its box is its shape
  if (counts[i] !== 4) return false;
  const k = starts[i], isFlat = ys[k] === ys[k + 1];
  return isFlat ? xs[k + 1] === xs[k + 2] && ys[k + 2] === ys[k + 3] && xs[k + 3] === xs[k]
    : xs[k] === xs[k + 1] && ys[k + 1] === ys[k + 2] && xs[k + 2] === xs[k + 3] && ys[k + 3] === ys[k];
}

// Pieces of different nets never overlap on one layer, so a layer is painted colour by colour, form by form and radius by radius.
function groups(list) {
  const found = Array.from({length: (POUR + 1) * FORMS}, () => new Map());
  for (const i of list) {
    const colour = colourOf[nets[i]], ofLook = found[colour * FORMS + form[i]], size = extent(i);
    let group = ofLook.get(radii[i]);
    if (!group) ofLook.set(radii[i], group = {colour, form: form[i], radius: radii[i], list: [], least: size, most: size});
    group.list.push(i);
    if (size < group.least) group.least = size;
    if (size > group.most) group.most = size;
  }
  const out = found.flatMap(ofLook => [...ofLook.values()].sort((a, b) => a.radius - b.radius));
  for (const group of out) group.list = new Int32Array(group.list);
  return out;
}
function grouped(list) {                          // by layer, and the drilled pieces
  const parts = layers.map(() => []), holes = [];
  for (const i of list) if (isDrilled(i)) holes.push(i); else parts[tops[i] - 1].push(i);
  return {layers: parts.map(groups), drilled: groups(holes)};
}

// What is smaller than a dot is plotted as one, straight into the pixels, and so are small discs with soft edges: that is most of a large board.
const DOT = 1.5, SMALL = 4;                       // in grains; a disc's radius
let grain = 1;                                    // the side of a dot, in pixels
const dotSize = () => DOT * grain / view.s;
const isSmallDisc = group => group.form === DISC && group.radius * view.s < SMALL * grain;
function plotSmall(c, list) {
  const under = dotSize(), small = list.filter(group => group.least < under || isSmallDisc(group));
  if (!small.length) return;
  const image = c.createImageData(frame.w, frame.h), pixels = new Uint32Array(image.data.buffer);
  for (const group of small) {
    if (group.least >= under) plotDiscs(pixels, group.list, group.radius * view.s, ink.dots[group.colour]);
    else plotDots(pixels, group.list, under, ink.dots[group.colour]);
  }
  c.putImageData(image, frame.x, frame.y);
}
function plotDots(pixels, list, under, colour) {
  for (const i of list) {
    if (extent(i) < under && visible(i)) plot(pixels, toX((left[i] + right[i]) / 2), toY((low[i] + high[i]) / 2), grain, colour);
  }
}
function plot(pixels, px, py, side, colour) {     // a square of whole pixels, as far as it lies in the frame
  const x = Math.floor(px - side / 2 + 0.5) - frame.x, y = Math.floor(py - side / 2 + 0.5) - frame.y, endX = Math.min(x + side, frame.w), endY = Math.min(y + side, frame.h);
  for (let b = Math.max(y, 0); b < endY; b++) for (let a = Math.max(x, 0); a < endX; a++) pixels[b * frame.w + a] = colour;
}
function plotDiscs(pixels, list, r, colour) {
  for (const i of list) if (visible(i)) plotDisc(pixels, toX(xs[starts[i]]) - frame.x, toY(ys[starts[i]]) - frame.y, r, colour);
}
function plotDisc(pixels, x, y, r, colour) {      // a pixel is as full as its middle is deep in the disc
  const wide = r + 0.5, endX = Math.min(Math.ceil(x + wide), frame.w), endY = Math.min(Math.ceil(y + wide), frame.h);
  for (let b = Math.max(Math.floor(y - wide), 0); b < endY; b++) {
    for (let a = Math.max(Math.floor(x - wide), 0); a < endX; a++) {
      const dx = a + 0.5 - x, dy = b + 0.5 - y, full = Math.min(1, wide - Math.sqrt(dx * dx + dy * dy)) * 255 | 0, at = b * frame.w + a;
      if (full > pixels[at] >>> 24) pixels[at] = colour & 0xffffff | full << 24;
    }
  }
}

const MANY = 300;                                 // as many shapes a path: longer paths are slow to fill
function paint(c, list, how, isPlotted = false) {   // all of it, or what is not plotted
  const least = isPlotted ? dotSize() : 0;
  for (const group of list) {
    if (group.most < least || isPlotted && isSmallDisc(group)) continue;
    c.fillStyle = c.strokeStyle = Array.isArray(how) ? how[group.colour] : how;
    if (group.form === CAPSULE) paintCapsules(c, group, least);
    else if (group.form === CONTOUR) paintContours(c, group, least);
    else if (group.form === DISC && group.radius * view.s > 0.9 * ratio) paintDiscs(c, group);
    else paintBoxes(c, group, least);
  }
}
function paintCapsules(c, group, least) {
  c.lineCap = c.lineJoin = "round";
  c.lineWidth = Math.max(2 * group.radius * view.s, 0.7 * ratio);
  let n = 0;
  c.beginPath();
  for (const i of group.list) {
    if (!visible(i) || extent(i) < least) continue;
    const k = starts[i], x = toX(xs[k]), y = toY(ys[k]), x2 = toX(xs[k + 1]), y2 = toY(ys[k + 1]);
    if (Math.abs(x2 - x) + Math.abs(y2 - y) < 0.5) { c.fillRect(x - c.lineWidth / 2, y - c.lineWidth / 2, c.lineWidth, c.lineWidth); continue; }
    c.moveTo(x, y);
    c.lineTo(x2, y2);
    if (++n % MANY === 0) { c.stroke(); c.beginPath(); }
  }
  c.stroke();
}
function paintDiscs(c, group) {
  const r = group.radius * view.s;
  let n = 0;
  c.beginPath();
  for (const i of group.list) {
    if (!visible(i)) continue;
    const x = toX(xs[starts[i]]), y = toY(ys[starts[i]]);
    c.moveTo(x + r, y);
    c.arc(x, y, r, 0, 2 * Math.PI);
    if (++n % MANY === 0) { c.fill(); c.beginPath(); }
  }
  c.fill();
}
function paintBoxes(c, group, least) {            // upright rectangles, and discs so small that none tells them from squares
  const thin = 0.9 * ratio;
  for (const i of group.list) {
    if (!visible(i) || extent(i) < least) continue;
    const w = Math.max((right[i] - left[i]) * view.s, thin), h = Math.max((high[i] - low[i]) * view.s, thin);
    c.fillRect(Math.min(toX(left[i]), toX(right[i])), toY(high[i]), w, h);
  }
}
function tracePath(c, i) {                        // leaves out corners that no eye would see
  let lastX = Infinity, lastY = Infinity;
  for (let k = starts[i]; k < starts[i + 1]; k++) {
    const x = toX(xs[k]), y = toY(ys[k]);
    if (Math.abs(x - lastX) + Math.abs(y - lastY) < 0.3 && k < starts[i + 1] - 1) continue;
    if (k === starts[i]) c.moveTo(x, y); else c.lineTo(x, y);
    lastX = x; lastY = y;
  }
  c.closePath();
}
function paintContours(c, group, least) {
  c.lineWidth = 0.5 * ratio;
  for (const i of group.list) {
    if (!visible(i) || extent(i) < least) continue;
    c.beginPath();
    tracePath(c, i);
    c.fill("evenodd");
    c.stroke();
  }
}
function traceOutline(c, i, grow) {               // the line round one piece
  const r = radii[i] * view.s + grow, k = starts[i];
  if (isArea(i)) tracePath(c, i);
  else if (counts[i] === 1) c.arc(toX(xs[k]), toY(ys[k]), r, 0, 2 * Math.PI);
  else {
    const x = toX(xs[k]), y = toY(ys[k]), x2 = toX(xs[k + 1]), y2 = toY(ys[k + 1]), turn = Math.atan2(y2 - y, x2 - x);
    c.arc(x, y, r, turn + Math.PI / 2, turn - Math.PI / 2);
    c.arc(x2, y2, r, turn - Math.PI / 2, turn + Math.PI / 2);
    c.closePath();
  }
}
function outline(c, i, grow) {
  c.beginPath();
  traceOutline(c, i, grow);
  c.stroke();
}
function paintHoles(c, list, how) {               // a drilled piece: its hole, and its net as a ring
  for (const group of list) {
    const r = group.radius * view.s;
    if (r < 0.8 * ratio) continue;
    const ring = Array.isArray(how) ? how[group.colour] : how;
    c.lineCap = "round";
    c.fillStyle = ink.hole;
    for (const i of group.list) if (visible(i) && spanShown(i)) paintHole(c, i, r, ring);
  }
}
function paintHole(c, i, r, ring) {
  const k = starts[i];
  c.beginPath();
  if (counts[i] === 1) {
    c.arc(toX(xs[k]), toY(ys[k]), r, 0, 2 * Math.PI);
    c.fill();
  } else {
    c.strokeStyle = ink.hole;
    c.lineWidth = 2 * r;
    c.moveTo(toX(xs[k]), toY(ys[k]));
    c.lineTo(toX(xs[k + 1]), toY(ys[k + 1]));
    c.stroke();
  }
  c.strokeStyle = ring;
  c.lineWidth = Math.min(3 * ratio, Math.max(ratio, r * 0.16));
  outline(c, i, -c.lineWidth / 2);
}
function spanShown(i) {
  for (let l = tops[i]; l <= bottoms[i]; l++) if (shown[l - 1]) return true;
  return false;
}
