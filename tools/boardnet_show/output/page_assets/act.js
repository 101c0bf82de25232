// ---------------------------------------------------------------- switches

function showLayers(list) {
  for (const l of list) shown[l - 1] = true;
  markLayers();
}
function markLayers() {
  layers.forEach((_, k) => {
    $("layer" + k).checked = shown[k];
    $("front" + k).setAttribute("aria-pressed", front === k + 1);
  });
}
const switches = document.querySelector("#layers details");
switches.open = layers.length <= 12;              // else they would hide the board
function switchRow(id, words, isOn, act) {        // a box to tick, with its label
  const row = document.createElement("div"), box = document.createElement("input"), text = document.createElement("label");
  box.type = "checkbox";
  box.id = text.htmlFor = id;
  box.checked = isOn;
  text.append(...words);
  box.addEventListener("change", () => { act(box.checked); draw(); });
  row.append(box, text);
  switches.append(row);
  return row;
}
layers.forEach((word, k) => {
  const file = document.createElement("small"), button = document.createElement("button");
  file.textContent = files[k];
  const row = switchRow("layer" + k, [`${k + 1} ${/^(top|bottom)$/.test(word) ? word + " " : ""}`, file], true, on => { shown[k] = on; });
  row.title = files[k];
  button.type = "button";
  button.id = "front" + k;
  button.textContent = "front";
  button.setAttribute("aria-label", `${word} in front`);
  button.addEventListener("click", () => toFront(k + 1));
  row.append(button);
});
switchRow("points", ["test points"], true, on => { showPoints = on; });
switchRow("others", ["other nets"], true, on => base.classList.toggle("alone", !on));
switchRow("flip", ["seen from below"], false, on => { view.flip = on ? -1 : 1; });
function toFront(l) { front = l; showLayers([l]); draw(); }
$("in").addEventListener("click", () => zoom(1.6));
$("out").addEventListener("click", () => zoom(1 / 1.6));
$("fit").addEventListener("click", () => look(all));
$("theme").addEventListener("click", () => setTheme(root.dataset.theme === "dark" ? "light" : "dark"));
darkWanted.addEventListener("change", () => { if (!before) setTheme(darkWanted.matches ? "dark" : "light"); });
function setTheme(theme) { root.dataset.theme = theme; readInk(); draw(); }

// ---------------------------------------------------------------- keys

const press = id => { $(id).click(); };
const keys = {
  n: () => stepFinding(1), p: () => stepFinding(-1), f: () => look(all), Home: () => look(all), z: () => chosen && look(chosen.box, 1.6),
  "+": () => zoom(1.4), "=": () => zoom(1.4), "-": () => zoom(1 / 1.4), t: () => press("points"), o: () => press("others"), m: () => press("flip"),
  a: () => { shown.fill(true); markLayers(); draw(); }, "/": () => $("seek").focus(), Escape: clear,
  ArrowLeft: () => moveBy(80, 0), ArrowRight: () => moveBy(-80, 0), ArrowUp: () => moveBy(0, 80), ArrowDown: () => moveBy(0, -80),
};
function pressed(key, target) {                   // whether the key was one of the page's
  const typing = target.matches("input[type=search]");
  if (typing && key !== "Escape" || target !== over && !$("everywhere").checked) return false;
  if (key.startsWith("Arrow") && target !== over) return /Up|Down/.test(key) && stepRow(target, key === "ArrowUp" ? -1 : 1);
  const layer = "123456789".indexOf(key);
  if (layer >= 0 && layer < layers.length) toFront(layer + 1);
  else if (keys[key]) keys[key]();
  else return false;
  return true;
}
addEventListener("keydown", event => {
  if (!event.ctrlKey && !event.metaKey && !event.altKey && pressed(event.key, event.target)) event.preventDefault();
});

// ---------------------------------------------------------------- sizes, print, beginning

function measure(w, h, dense) {
  ratio = dense;
  grain = Math.max(1, Math.round(dense));
  width = Math.max(1, Math.round(w * ratio));
  height = Math.max(1, Math.round(h * ratio));
  for (const canvas of [base, over, scratch]) { canvas.width = width; canvas.height = height; }
}
function measureScreen() {                        // whether it changed
  const [w, h, dense] = [area.clientWidth, area.clientHeight, devicePixelRatio || 1];
  if (dense === ratio && width === Math.round(w * ratio) && height === Math.round(h * ratio)) return false;
  measure(w, h, dense);
  return true;
}
let before = null;                                // what to come back to after printing
addEventListener("beforeprint", () => {
  const notes = document.querySelector("details.notes");
  before = {theme: root.dataset.theme, view: {...view}, open: notes.open};
  notes.open = true;
  root.dataset.theme = "light";
  readInk();
  measure(1000, 625, 2);                          // the shape that the style gives the picture on paper
  look(chosen ? chosen.box : all, chosen ? 1.6 : 1.08);
  draw();
  marker.globalCompositeOperation = "destination-over";
  if (chosen) marker.globalAlpha = 0.3;
  marker.drawImage(base, 0, 0);                   // one canvas on paper
  marker.globalCompositeOperation = "source-over";
  marker.globalAlpha = 1;
});
addEventListener("afterprint", () => {
  Object.assign(view, before.view);
  const theme = before.theme;
  document.querySelector("details.notes").open = before.open;
  before = null;
  measureScreen();
  setTheme(theme);
});
readInk();
measureScreen();
markLayers();
look(all);
new ResizeObserver(() => { if (!before && measureScreen()) drawSoon(); }).observe(area);
$("readout").textContent = "Point at copper to read its net, piece and source; click to see the whole net.";
if (idInAddress()) choose(idInAddress());
draw();
// Two frames later the picture is on the screen: milliseconds since the page was asked for.
requestAnimationFrame(() => requestAnimationFrame(() => { root.dataset.opened = Math.round(performance.now()); }));
