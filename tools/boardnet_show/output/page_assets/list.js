// ---------------------------------------------------------------- lists that lead into the picture

function lookAt(layer, box, room, least) {
  front = layer;
  showLayers([layer]);
  look(box, room, least);
}
function listOf(rows) {                           // words, what a click does, and the piece that is pointed at meanwhile
  const box = document.createElement("div"), list = document.createElement("ol");
  for (const [text, go, near] of rows) {
    const item = document.createElement("li"), button = document.createElement("button");
    const point = at => () => { pointed = at; drawMarks(); };
    button.textContent = text;
    button.addEventListener("click", go);
    if (near !== undefined) {
      for (const kind of ["mouseenter", "focus"]) button.addEventListener(kind, point(near));
      for (const kind of ["mouseleave", "blur"]) button.addEventListener(kind, point(null));
    }
    item.append(button);
    list.append(item);
  }
  box.append(list);
  return box;
}
function pointList(list) {
  return listOf(list.map(p => [`${pointWords(p)}; ${pointLine(p)}`, () => lookAt(pointLayers[p], [pointXs[p] - 2e6, pointYs[p] - 2e6, pointXs[p] + 2e6, pointYs[p] + 2e6])]));
}
const pieceList = rows => listOf(rows.map(([text, i]) => [text, () => lookAt(tops[i], boxOf([i]), 1.6, 1.5e6), i]));
function chainList(f, {first, second, chain, near, far, x, y, layer}) {
  const fold = document.createElement("details"), title = document.createElement("summary");
  const [one, other] = [f.sides[first] ?? "one name", f.sides[second] ?? "another"];
  title.textContent = `${one} to ${other}: ${plural(chain.length, "piece")}`;
  fold.append(title, pieceList(chain.map((i, k) => [`${k <= near ? one : k >= far ? other : "either's"}: ${pieceWords(i)}`, i])));
  const box = document.createElement("div"), words = `${one} and ${other} meet at ${layers[layer - 1]}, ${mm(x)}, ${mm(y)} mm`;
  box.append(listOf([[words, () => lookAt(layer, [x - 1e6, y - 1e6, x + 1e6, y + 1e6])]]), fold);
  return box;
}

// ---------------------------------------------------------------- the findings' rows

// The rows of a fold stand in a noscript element, which costs no time until they are wanted.
const folds = [...document.querySelectorAll("#findings details")];
for (const fold of folds) fold.addEventListener("toggle", () => openFold(fold));
function openFold(fold) {
  const rows = fold.querySelector("noscript");
  if (!rows) return;
  rows.outerHTML = rows.textContent;
  hideRows(fold);
}
function rowOf(id) {
  if (!$(id)) openFold(folds.find(fold => fold.textContent.includes(`id="${id}"`)));
  return $(id);
}
let sought = null;                                // the ids of the findings that have the words sought, or null for all
const isSought = id => sought === null || sought.has(id);
function hideRows(part) {
  for (const row of part.querySelectorAll("li[id]")) row.hidden = !isSought(row.id);
}

function choose(id, moving = true) {
  document.querySelector("li[aria-current]")?.removeAttribute("aria-current");
  document.querySelector("#findings .more")?.remove();
  $("about").hidden = true;
  pointed = null;
  chosen = id ? shownBy(id) : null;
  root.dataset.chosen = chosen ? id : "";
  base.classList.toggle("pale", chosen !== null && !chosen.plain);
  $("legend").replaceChildren(...legendRows(chosen ? chosen.legend : []));
  if (!chosen) { drawMarks(); $("spoken").textContent = ""; return; }
  if (chosen.layers.length) { front = chosen.layers[0]; showLayers(chosen.layers); }
  if (chosen.about) { $("about").replaceChildren(...chosen.about()); $("about").hidden = false; }
  $("spoken").textContent = chosen.f ? tellFinding(chosen) : chosen.legend.map(row => row[1]).join("; ");
  if (moving) look(chosen.box, 1.6); else draw();
}
function tellFinding({f, more}) {                 // marks its row, adds what belongs to it, and gives its words
  const item = rowOf(f.id), box = document.createElement("div");
  item.setAttribute("aria-current", "true");
  item.hidden = false;
  if (item.closest("details")) item.closest("details").open = true;
  box.className = "more";
  if (!item.querySelector(".hint")) box.append(...f.hints.map(words => { const line = document.createElement("p"); line.textContent = words; return line; }));
  box.append(...more());
  item.append(box);
  item.scrollIntoView({block: "nearest"});
  requestAnimationFrame(() => item.scrollIntoView({block: "nearest"}));   // rows above it got their heights meanwhile
  return [item.firstElementChild.textContent, ...f.hints].join(" ");
}
function legendRows(rows) {
  return rows.map(([k, text]) => {
    const row = document.createElement("div"), key = document.createElement("span");
    key.className = "key " + (typeof k === "string" ? k : LOOKS[k % 4]);
    row.append(key, text);
    return row;
  });
}
const idInAddress = () => decodeURIComponent(location.hash.slice(1));
let kept = false;                                 // whether what is chosen next leaves the view as it is
addEventListener("hashchange", () => { choose(idInAddress(), !kept); kept = false; });
function go(id, keep = false) {
  if (idInAddress() === id) choose(id, !keep);
  else { kept = keep; location.hash = id; }
}
function clear() {
  if (location.hash) history.pushState(null, "", location.pathname + location.search);
  choose("");
}
function stepFinding(by) {                        // through those that are sought
  const ids = findings.map(f => f.id).filter(isSought), now = ids.indexOf(document.querySelector("#findings li[aria-current]")?.id);
  if (ids.length) go(ids[now < 0 ? (by > 0 ? 0 : ids.length - 1) : (now + by + ids.length) % ids.length]);
}
function stepRow(link, by) {                      // to the next row that is seen
  const rows = [...document.querySelectorAll("#findings li[id]:not([hidden]) > a")].filter(row => row.checkVisibility?.() ?? true), now = rows.indexOf(link);
  if (now >= 0) rows[Math.max(0, Math.min(rows.length - 1, now + by))].focus();
  return now >= 0;
}
