// ---------------------------------------------------------------- the copper's picture

const picture = grouped(nets.keys());
function layerOrder() {
  const order = [];
  for (let l = layers.length; l >= 1; l--) if (shown[l - 1] && l !== front) order.push(l);
  if (shown[front - 1]) order.push(front);
  return order;
}
function clipped(c, paintIt) {                    // paints in the frame alone
  c.save();
  c.beginPath();
  c.rect(frame.x, frame.y, frame.w, frame.h);
  c.clip();
  paintIt();
  c.restore();
}
function onLayer(c, alpha, paintIt) {             // a layer is painted apart and laid over what is there
  clipped(scratchPen, () => { scratchPen.clearRect(frame.x, frame.y, frame.w, frame.h); paintIt(); });
  c.globalAlpha = alpha;
  c.drawImage(scratch, frame.x, frame.y, frame.w, frame.h, frame.x, frame.y, frame.w, frame.h);
  c.globalAlpha = 1;
}
function paintCopper() {
  pen.fillStyle = ink.board;
  pen.fillRect(frame.x, frame.y, frame.w, frame.h);
  const order = layerOrder();
  for (const l of order) {
    onLayer(pen, l === front || order.length === 1 ? 1 : Math.min(0.38, Math.max(0.1, 0.6 / (order.length - 1))), () => {
      plotSmall(scratchPen, picture.layers[l - 1]);
      paint(scratchPen, picture.layers[l - 1], ink.nets, true);
    });
  }
  paintWider(order);
  paintHoles(pen, picture.drilled, ink.nets);
  paintPoints();
}
function paintWider(order) {                      // what the upper of two bounds has beyond the lower one
  pen.strokeStyle = ink.bad;
  pen.lineWidth = ratio;
  pen.setLineDash([4 * ratio, 3 * ratio]);
  for (const [layer, spots] of board.wider) {
    if (!order.includes(layer)) continue;
    pen.beginPath();
    for (let k = 0; k < spots.length; k += 2) pen.lineTo(toX(spots[k]), toY(spots[k + 1]));
    pen.closePath();
    pen.stroke();
  }
  pen.setLineDash([]);
}
let copperAt = null;                              // the view that the copper was drawn for
function drawCopper() {
  setFrame();
  arePointsTold = showPoints && pointsSeen(MOST_POINTS) !== null;
  paintCopper();
  areLabelled = arePointsTold && labelPoints();
  copperAt = {...view};
  base.style.transform = "";
}
function moveCopper(dx, dy) {                     // by whole pixels: only what comes into sight is painted
  pen.drawImage(base, dx, dy);
  for (const [x, y, w, h] of [[dx > 0 ? 0 : width + dx, 0, Math.abs(dx), height], [0, dy > 0 ? 0 : height + dy, width, Math.abs(dy)]]) {
    if (!w || !h) continue;
    setFrame(x, y, w, h);
    clipped(pen, paintCopper);
  }
  copperAt = {...view};
  base.style.transform = "";
}

// ---------------------------------------------------------------- test points

const MOST_POINTS = 4000, MOST_LABELS = 250;      // of more nobody could tell one from another
let arePointsTold = false, areLabelled = false;
function pointsSeen(most) {                       // those in the frame, or null where they are more
  const seen = [], room = 9 / view.s;
  for (let p = 0; p < pointCount; p++) {
    const x = pointXs[p], y = pointYs[p];
    if (x < frame.left - room || x > frame.right + room || y < frame.low - room || y > frame.high + room || !shown[pointLayers[p] - 1]) continue;
    if (seen.push(p) > most) return null;
  }
  return seen;
}
function paintPoints() {
  if (!arePointsTold) return;
  const size = Math.min(4.5 * ratio, Math.max(0.8 * ratio, 250000 * view.s));
  pen.strokeStyle = ink.point;
  pen.lineWidth = ratio;
  for (const p of pointsSeen(Infinity)) {
    const x = toX(pointXs[p]), y = toY(pointYs[p]);
    if (size < 2 * ratio) { pen.fillStyle = ink.point; pen.fillRect(x - size / 2, y - size / 2, size, size); continue; }
    pen.fillStyle = ink.halo;
    pen.beginPath();
    pen.arc(x, y, size, 0, 2 * Math.PI);
    pen.fill();
    pen.stroke();
    pen.beginPath();
    pen.moveTo(x - size, y); pen.lineTo(x + size, y); pen.moveTo(x, y - size); pen.lineTo(x, y + size);
    pen.stroke();
  }
}
function labelPoints() {                          // where they are few; whether some are labelled
  const taken = new Set(), seen = view.s * 1e6 < 16 * ratio ? null : pointsSeen(MOST_LABELS);
  for (const p of seen ?? []) {
    const text = shortPin(p), key = text + pointXs[p] + "/" + pointYs[p];
    if (text && !taken.has(key)) { taken.add(key); label(pen, text, toX(pointXs[p]) + 6 * ratio, toY(pointYs[p]) - 6 * ratio, 11, ink.ink); }
  }
  return taken.size > 0;
}
const fontOf = (size, bold) => `${bold ? "bold " : ""}${size * ratio}px system-ui, "DejaVu Sans", sans-serif`;
function label(c, text, x, y, size, colour, bold) {
  c.font = fontOf(size, bold);
  const w = c.measureText(text).width;
  x = Math.max(4 * ratio, Math.min(x, width - w - 4 * ratio));
  y = Math.max((size + 4) * ratio, Math.min(y, height - 40 * ratio));
  if (bold) {
    c.globalAlpha = 0.85;
    c.fillStyle = ink.halo;
    c.fillRect(x - 3 * ratio, y - size * ratio, w + 6 * ratio, (size + 4) * ratio);
    c.globalAlpha = 1;
  } else {
    c.lineJoin = "round";
    c.lineWidth = 4 * ratio;
    c.strokeStyle = ink.halo;
    c.strokeText(text, x, y);
  }
  c.fillStyle = colour;
  c.fillText(text, x, y);
}
