// ---------------------------------------------------------------- search

const MOST_FOUND = 12, MOST_NETS = 6, MOST_ROWS = 300;
const CUT = 14;                                   // so long a name of a netlist may be the front of a longer one
let heard = null;                                 // in small letters, made at the first search: the words of each finding, names, how pins begin
function listen() {
  const words = new Map(), of = new Map(folds.map(fold => [fold, []]));
  for (const row of document.querySelectorAll("#findings li[id]")) {
    words.set(row.id, row.firstElementChild.textContent.toLowerCase());
    of.get(row.closest("details"))?.push(row.id);
  }
  for (const fold of folds) {
    for (const [, id, row] of fold.querySelector("noscript")?.textContent.matchAll(/<li id="([^"]+)"[^>]*>(.*)<\/li>/g) ?? []) {
      words.set(id, plain(row).toLowerCase());
      of.get(fold).push(id);
    }
  }
  const heads = board.components.map(word => word === "" ? "test record " : word === "VIA" ? "the via of test record " : word.toLowerCase());
  return {words, of, heads, names: names.map(name => name.toLowerCase())};
}
const SIGNS = {"&lt;": "<", "&gt;": ">", "&quot;": '"', "&#x27;": "'", "&amp;": "&"};
const plain = markup => markup.replace(/<[^>]*>/g, "").replace(/&[^;]+;/g, sign => SIGNS[sign]);
function linkTo(id, words) {
  const item = document.createElement("li"), link = document.createElement("a");
  link.href = "#" + id;
  link.textContent = words;
  item.append(link);
  return item;
}
function netsFound(text) {                        // by their names
  const isHit = heard.names.map(name => name.includes(text) || name.length === CUT && text.startsWith(name)), number = /^net (\d+)$/.exec(text)?.[1];
  const found = new Set(number < board.netCount ? [Number(number)] : []);
  for (let p = 0; p < pointCount && found.size < MOST_NETS; p++) if (isHit[pointNames[p]] && pointNets[p] >= 0) found.add(pointNets[p]);
  return [...found];
}
function pointsFound(text, most) {                // by component and pin
  const isLikely = heard.heads.map(head => head.startsWith(text) || text.startsWith(head)), found = [];
  for (let p = 0; p < pointCount && found.length < most; p++) {
    if (isLikely[board.recordComponents[pointRecords[p] - 1]] && [pinWords(p), shortPin(p)].some(pin => pin.toLowerCase().startsWith(text))) found.push(p);
  }
  return found;
}
function seek(text) {
  heard ??= listen();
  sought = text ? new Set([...heard.words].filter(([, words]) => words.includes(text)).map(([id]) => id)) : null;
  hideRows($("findings"));
  let room = text ? MOST_ROWS : 0;                // folds open as long as what is found is few
  for (const fold of folds) {
    const count = heard.of.get(fold).filter(isSought).length;
    fold.hidden = count === 0;
    fold.open = count > 0 && room > 0;
    if (fold.open) openFold(fold);
    room -= count;
  }
  const rows = text ? netsFound(text).map(net => linkTo("net-" + net, netWords(net))) : [];
  if (text) rows.push(...pointsFound(text, MOST_FOUND - rows.length).map(p => linkTo("point-" + p, pointWords(p))));
  if (text && !rows.length && !sought.size) {
    const none = document.createElement("li");
    none.textContent = `Nothing here is called ${text}.`;
    rows.push(none);
  }
  $("found").replaceChildren(...rows);
}
$("seek").addEventListener("input", () => seek($("seek").value.trim().toLowerCase()));
