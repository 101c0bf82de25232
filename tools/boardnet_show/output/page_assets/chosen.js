// ---------------------------------------------------------------- what can be chosen, and how it is shown

function openShown(f) {
  const [here, there] = f.points, parts = f.nets.map(net => grouped(piecesOf(net)));
  return {
    f, layers: [pointLayers[here], pointLayers[there]],
    box: around(around(NOTHING, pointXs[here], pointYs[here]), pointXs[there], pointYs[there]),
    legend: f.nets.map((net, k) => [k, `${netWords(net)}: ${plural(piecesOf(net).length, "piece")}`]),
    draw() {
      drawNet(parts[1], lookOf(1));
      drawNet(parts[0], lookOf(0));
      rat(here, there, 3);
      const isLeft = toX(pointXs[here]) < toX(pointXs[there]);
      ring(here, 0, pinOrVia(here), isLeft ? -1 : 1);
      ring(there, 1, pinOrVia(there), isLeft ? 1 : -1);
      if (f.gap) meet(f.gap[0], f.gap[1], gapWords(f.gap));
    },
    more() { return [pointList(f.points), ...(f.gap ? [gapList(f.gap)] : [])]; },
  };
}
const gapWords = ([, , , size, below]) => below ? "hole missing?" : mm(size) + " mm apart";
function gapList([x, y, layer, size, below]) {
  const told = below ? `A hole may be missing from ${layers[layer - 1]} to ${layers[below - 1]}` : `Copper ${mm(size)} mm apart at ${layers[layer - 1]}`;
  return listOf([[`${told}, ${mm(x)}, ${mm(y)} mm`, () => lookAt(layer, [x - size, y - size, x + size, y + size], 2, 1e6)]]);
}

// A short: each piece has the number of its name's side, or none where it could be either's.
const AROUND = 1e6;                               // nm of a meeting place
const MOST_SIDES = 8;                             // further names look like the last of them
function shortParts(f, onChains) {
  const rests = [], links = [], between = [], betweenLinks = [];
  for (const i of piecesOf(f.nets[0])) {
    const k = Math.min(sides[i] - 1, MOST_SIDES - 1), chained = onChains.has(i);
    const list = k < 0 ? (chained ? betweenLinks : between) : ((chained ? links : rests)[k] ||= []);
    list.push(i);
  }
  const parts = [...rests.map((list, k) => [grouped(list), k, 0.4, 0.35]), [grouped(between), -1, 0.4, 0.35],
    ...links.map((list, k) => [grouped(list), k, 1, 0.8]), [grouped(betweenLinks), -1, 1, 0.8]].filter(Boolean);
  return [parts, between.length + betweenLinks.length];
}
function shortBox(f) {                            // the place where the names meet; without one the points
  let box = NOTHING;
  for (const {x, y} of f.meets.slice(0, 1)) box = [x - AROUND, y - AROUND, x + AROUND, y + AROUND];
  if (!f.meets.length) for (const p of f.points) box = around(box, pointXs[p], pointYs[p]);
  return box;
}
function shortShown(f) {
  const onChains = new Set(f.meets.flatMap(join => join.chain)), [parts, loose] = shortParts(f, onChains);
  const lookOfPoint = (p, k) => { const at = f.sides.indexOf(names[pointNames[p]]); return at < 0 ? k : Math.min(at, MOST_SIDES - 1); };
  const looseWords = f.meets.length ? "could be either's" : "joined copper";
  return {
    f, box: shortBox(f), layers: [...f.meets.map(join => join.layer), ...f.points.map(p => pointLayers[p])],
    legend: [...f.sides.slice(0, 6).map((name, k) => [k, `copper of ${name}`]), ...(loose ? [["between", `${looseWords}: ${plural(loose, "piece")}`]] : [])],
    draw() {
      for (const [part, k, alpha, behind] of parts) drawNet(part, k < 0 ? ink.between : lookOf(k), alpha, behind);
      for (const i of onChains) if (visible(i) && spanShown(i)) outlined(i, 1);
      f.points.slice(0, 40).forEach((p, k) => ring(p, lookOfPoint(p, k), `${names[pointNames[p]]} ${shortPin(p)}`, k % 2 ? 1 : -1));
      f.meets.forEach(({x, y}, k) => meet(x, y, f.meets.length > 1 ? `meet ${k + 1}` : "meet"));
    },
    more() { return [pointList(f.points), ...f.meets.map(join => chainList(f, join))]; },
  };
}

// The nearest copper on a layer: [piece, x, y, how far].
function nearestCopper(layer, x, y) {
  let best = null;
  const tryOne = (i, [fx, fy], r) => {
    const d = Math.hypot(fx - x, fy - y) - r;
    if (!best || d < best[3]) best = [i, x + (fx - x) * d / (d + r || 1), y + (fy - y) * d / (d + r || 1), d];
  };
  for (let i = 0; i < pieceCount; i++) {
    if (tops[i] > layer || bottoms[i] < layer) continue;
    if (best && Math.hypot(Math.max(left[i] - x, x - right[i], 0), Math.max(low[i] - y, y - high[i], 0)) >= best[3]) continue;
    const first = starts[i], end = starts[i + 1];
    if (!isArea(i)) tryOne(i, foot(x, y, first, end - 1), radii[i]);
    else for (let k = first, j = end - 1; k < end; j = k++) tryOne(i, foot(x, y, j, k), 0);
  }
  return best;
}
function foot(x, y, j, k) {                       // the place of the line from corner j to corner k that is nearest
  const dx = xs[k] - xs[j], dy = ys[k] - ys[j], length = dx * dx + dy * dy;
  const t = length ? Math.min(1, Math.max(0, ((x - xs[j]) * dx + (y - ys[j]) * dy) / length)) : 0;
  return [xs[j] + t * dx, ys[j] + t * dy];
}
function missingShown(f) {
  const p = f.points[0], x = pointXs[p], y = pointYs[p], near = nearestCopper(pointLayers[p], x, y);
  const box = [x - 2e6, y - 2e6, x + 2e6, y + 2e6];
  return {
    f, plain: true, layers: [pointLayers[p]], box: near ? around(box, near[1], near[2]) : box,
    legend: near ? [["line", `${mm(near[3])} mm to the nearest copper of the layer: ${netWords(nets[near[0]])}`]] : [],
    draw() {
      const px = toX(x), py = toY(y), size = 12 * ratio;
      if (near) line(x, y, near[1], near[2], 2, [4, 4]);
      kindMark("missing", px, py, size);
      haloed(ink.bad, 5, 2, () => {
        for (const [dx, dy] of [[1, 0], [-1, 0], [0, 1], [0, -1]]) { marker.moveTo(px + dx * size * 0.4, py + dy * size * 0.4); marker.lineTo(px + dx * size * 2.2, py + dy * size * 2.2); }
      });
      label(marker, `${pinOrVia(p)} (${names[pointNames[p]]})`, px + size * 1.3, py - size * 1.3, 13, ink.bad, true);
    },
    more() { return [pointList(f.points), ...(near ? [pieceList([[`Nearest copper: ${pieceWords(near[0])}`, near[0]]])] : [])]; },
  };
}

function netShown(net) {
  const list = piecesOf(net), points = [...pointsOf(net)], whole = grouped(list);
  return {
    layers: [], box: boxOf(list), legend: [[0, `${netWords(net)}: ${plural(list.length, "piece")}, ${plural(points.length, "test point")}`]],
    draw() { drawNet(whole, lookOf(0)); for (const p of points.slice(0, 60)) ring(p, 0, shortPin(p), 1); },
    about() {
      const title = document.createElement("div");
      title.textContent = `Net ${net}: ${namesOf(net).join(", ") || "no test point"}. ${plural(list.length, "piece")}.`;
      const pinsFirst = [...points].sort((a, b) => (shortPin(a) === "") - (shortPin(b) === "") || a - b);
      return [title, pointList(pinsFirst.slice(0, 200))];
    },
  };
}
function pieceShown(i) {
  const only = grouped([i]);
  return {layers: [tops[i]], box: boxOf([i]), legend: [[0, `${netWords(nets[i])}, ${pieceWords(i)}`]], draw() { drawNet(only, lookOf(0)); }};
}
function pointShown(p) {
  const net = pointNets[p], whole = net < 0 ? null : grouped(piecesOf(net));
  return {
    layers: [pointLayers[p]], box: [pointXs[p] - 4e6, pointYs[p] - 4e6, pointXs[p] + 4e6, pointYs[p] + 4e6], legend: [[0, pointWords(p)]],
    draw() { if (whole) drawNet(whole, lookOf(0), 0.8); ring(p, 1, pinOrVia(p), 1); },
  };
}
// Two nets that are too close, with the nearest test points of both; the distance is rounded down already.
function gapShown(f) {
  const [x, y, layer, size] = f.gap, parts = f.nets.map(net => grouped(piecesOf(net))), wide = Math.max(3 * size, 5e5);
  return {
    f, layers: [layer], box: [x - wide, y - wide, x + wide, y + wide],
    legend: f.nets.map((net, k) => [k, `${netWords(net)}: ${plural(piecesOf(net).length, "piece")}`]),
    draw() {
      drawNet(parts[1], lookOf(1));
      drawNet(parts[0], lookOf(0));
      f.points.forEach(p => ring(p, pointNets[p] === f.nets[0] ? 0 : 1, pinOrVia(p), 1));
      meet(x, y, `${(size / 1e6).toFixed(4)} mm apart`);
    },
    more() { return f.points.length ? [pointList(f.points)] : []; },
  };
}
// A net that a hole or the edge parts, a point that loses its copper when the board is made, or a neck.
function madeShown(f) {
  const nets = f.nets.map(net => grouped(piecesOf(net))), place = f.gap?.slice(0, 2);
  let box = NOTHING;
  for (const p of f.points) box = around(box, pointXs[p], pointYs[p]);
  return {
    f, layers: f.points.map(p => pointLayers[p]), box: place ? around(box, ...place) : box,
    legend: f.nets.map((net, k) => [k, `${netWords(net)}: ${plural(piecesOf(net).length, "piece")}`]),
    draw() {
      nets.forEach((part, k) => drawNet(part, lookOf(k)));
      f.points.forEach((p, k) => ring(p, k % 2, pinOrVia(p), k % 2 ? 1 : -1));
      if (place) meet(...place, kindOf(f));
    },
    more() { return [pointList(f.points)]; },
  };
}
const makers = {open: openShown, short: shortShown, missing: missingShown, gap: gapShown, cut: madeShown, outside: madeShown, neck: madeShown};
const numbered = {net: [board.netCount, netShown], piece: [pieceCount, pieceShown], point: [pointCount, pointShown]};
const byId = new Map(findings.map(f => [f.id, f]));
function shownBy(id) {
  if (byId.has(id)) { const f = byId.get(id); return makers[kindOf(f)](f); }
  const [, kind, k] = /^(net|piece|point)-(\d{1,9})$/.exec(id) ?? [];
  if (!kind || k >= numbered[kind][0]) return null;
  return numbered[kind][1](Number(k));
}
