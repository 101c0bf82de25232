// ---------------------------------------------------------------- words

const mm = nm => (nm / 1e6).toFixed(3);
const plural = (n, word) => n + " " + word + (n === 1 ? "" : "s");

function pinOf(p) {                               // component and pin of a point, empty where its record names none
  const record = pointRecords[p] - 1;
  return [board.components[board.recordComponents[record]], board.pins[board.recordPins[record]]];
}
function pinWords(p) {
  const [component, pin] = pinOf(p);
  if (component === "" || component === "VIA") return (component ? "the via of test record " : "test record ") + pointRecords[p];
  return pin ? component + " pin " + pin : component;
}
function shortPin(p) {
  const [component, pin] = pinOf(p);
  return component === "" || component === "VIA" ? "" : pin ? component + "." + pin : component;
}
const pinOrVia = p => shortPin(p) || pinWords(p);
const pointWords = p => `${pinWords(p)}, ${names[pointNames[p]]}, ${layers[pointLayers[p] - 1]}, ${mm(pointXs[p])}, ${mm(pointYs[p])} mm`;
const pointLine = p => `${board.netlist} line ${board.recordLines[pointRecords[p] - 1]}`;

function netWords(net) {
  const all = namesOf(net);
  const told = all.length === 0 ? "no test point" : all.length > 4 ? all.slice(0, 4).join(", ") + ` and ${all.length - 4} more` : all.join(", ");
  return `net ${net} (${told})`;
}
function sourceWords(i) {
  if (!commands[i]) return `${files[pieceFiles[i]]} as it was rewritten`;
  const where = `${files[pieceFiles[i]]} ${isDrilled(i) ? "line" : "command"} ${commands[i]}`;
  return copies[i] ? `${where} copy ${copies[i]}` : where;
}
const spanWords = i => tops[i] === bottoms[i] ? layers[tops[i] - 1] : `${layers[tops[i] - 1]} to ${layers[bottoms[i] - 1]}`;
const pieceWords = i => `piece ${i}, ${sourceWords(i)}, ${spanWords(i)}`;
