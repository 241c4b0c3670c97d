// ---- the plots: a row for each state that is an OR, each datum that may change and each output event
const plots = byId("plots");
const rows = [];
function addGroup(title) {
  const head = document.createElement("h2");
  head.className = "group";
  head.textContent = title;
  plots.append(head);
}
function addRow(label, small, title, height, valueAt, draw) {
  const row = document.createElement("div");
  row.className = "row";
  row.innerHTML = '<span class="label"></span><span class="value"></span><div class="track"></div>';
  const [name, value, track] = row.children;
  name.textContent = label;
  name.title = title;
  if (small) { const word = document.createElement("small"); word.textContent = " " + small; name.append(word); }
  track.style.height = height + "px";
  track.addEventListener("click", event => {
    const frame = track.getBoundingClientRect();
    go(range.from + Math.floor((event.clientX - frame.left) / frame.width * (range.to - range.from + 1)));
  });
  plots.append(row);
  rows.push({value, track, height, valueAt, draw});
}
const SVG = "http://www.w3.org/2000/svg";
function picture(track, height, parts) {
  const count = range.to - range.from + 1;
  const svg = document.createElementNS(SVG, "svg");
  svg.setAttribute("viewBox", `0 0 ${count} ${height}`);
  svg.setAttribute("preserveAspectRatio", "none");
  svg.setAttribute("height", height);
  svg.setAttribute("aria-hidden", "true");
  for (const [name, attributes] of parts) {
    const part = document.createElementNS(SVG, name);
    for (const [key, value] of Object.entries(attributes)) part.setAttribute(key, value);
    svg.append(part);
  }
  track.replaceChildren(svg);
}
function runsOf(valueAt) {
  const found = [];
  for (let at = range.from; at <= range.to; at++) {
    const value = valueAt(at);
    if (found.length && found[found.length - 1].value === value) found[found.length - 1].to = at;
    else found.push({value, from: at, to: at});
  }
  return found;
}
function drawNumber(track, height, valueAt) {
  const runs = runsOf(valueAt), numbers = runs.map(run => Number(run.value));
  const least = Math.min(0, ...numbers), most = Math.max(0, ...numbers), span = most - least || 1;
  const y = value => height - 4 - (value - least) / span * (height - 8);
  let path = "";
  runs.forEach((run, at) => {
    const from = run.from - range.from, to = run.to - range.from + 1;
    path += (at ? ` V${y(numbers[at])} H${to}` : `M${from} ${y(numbers[at])} H${to}`);
  });
  picture(track, height, [["line", {class: "zero", x1: 0, x2: range.to - range.from + 1, y1: y(0), y2: y(0)}],
    ["path", {class: "step", d: path}]]);
  track.title = `least ${least}, greatest ${most} (with 0)`;
}
function drawBands(track, height, valueAt, word) {
  picture(track, height, runsOf(valueAt).filter(run => run.value === "true").map(run => ["rect",
    {class: word, x: run.from - range.from, width: run.to - run.from + 1, y: 4, height: height - 8}]));
}
function drawNames(track, height, valueAt) {
  const count = range.to - range.from + 1, order = [];
  track.replaceChildren(...runsOf(valueAt).filter(run => run.value !== "").map(run => {
    const part = document.createElement("span");
    if (!order.includes(run.value)) order.push(run.value);
    part.className = "seg";
    part.style.left = (run.from - range.from) / count * 100 + "%";
    part.style.width = `calc(${(run.to - run.from + 1) / count * 100}% - 1px)`;
    part.style.setProperty("--hue", hueOf(run.value));
    part.textContent = part.title = run.value;
    return part;
  }));
}
const hues = new Map();
function hueOf(name) {
  if (!hues.has(name)) hues.set(name, (205 + hues.size * 67) % 360);
  return hues.get(name);
}

const PLOTTED = 400;                                         // so many lines are plotted at once
let range = {from: 0, to: Math.min(last, PLOTTED - 1)};
function rangeFor(number) {
  if (last < PLOTTED || (number >= range.from && number <= range.to)) return range;
  const from = Math.max(0, Math.min(last - PLOTTED + 1, number - PLOTTED / 2));
  return {from, to: from + PLOTTED - 1};
}
function drawPlots() {
  for (const row of rows) row.draw(row.track, row.height, row.valueAt);
  byId("plotted").textContent = last < PLOTTED ? "" : `lines ${range.from} to ${range.to}`;
}
const cursor = document.createElement("div");
cursor.className = "cursor";
function moveCursor(number) {
  const track = rows[0] && rows[0].track;
  if (!track) return;
  const outer = plots.getBoundingClientRect(), frame = track.getBoundingClientRect(), count = range.to - range.from + 1;
  const width = frame.width / count;
  cursor.style.left = frame.left - outer.left + (number - range.from) * width + "px";
  cursor.style.width = Math.max(2, width) + "px";
  cursor.style.height = plots.scrollHeight + "px";
}

// The name of the active child of a state at a line, or nothing.
const sets = [];                                             // the active states of each line that was asked for
function childOf(state) {
  const children = model.states.filter(each => each.parent === state.id);
  return number => {
    sets[number] ??= new Set(lines[number].states);
    return children.find(child => sets[number].has(child.path))?.name ?? "";
  };
}

function setUpPlots() {
  const modes = model.states.filter(state => state.composition === "or");
  if (modes.length) addGroup("States");
  for (const state of modes) {
    const indent = "\u2007".repeat(2 * Math.max(0, state.path.split("/").length - 1));
    addRow(indent + state.name, "", "the active child of " + (state.path || state.name), 18, childOf(state), drawNames);
  }
  if (model.data.some(datum => !datum.constant)) addGroup("Data");
  model.data.forEach((datum, at) => {
    if (datum.constant) return;                              // it stands among the declarations
    const flag = datum.sort === "bool";
    addRow(datum.name, datum.kind === "local" ? "" : datum.kind, `${datum.kind} ${datum.name} : ${datum.sort}`, flag ? 18 : 30,
      number => lines[number].values[at], flag ? (track, height, valueAt) => drawBands(track, height, valueAt, "band") : drawNumber);
  });
  const outputs = model.events.filter(each => each.kind === "output");
  if (outputs.length) addGroup("Output events");
  for (const each of outputs)
    addRow(each.name, "", "output event " + each.name, 18, number => String(lines[number].outputs.includes(each.name)),
      (track, height, valueAt) => drawBands(track, height, valueAt, "tick"));
  plots.append(cursor);
}


// The values of a line beside their plots, which are drawn again where the line isn't among those that are plotted.
function showValues(number) {
  const wanted = rangeFor(number);
  if (wanted !== range) { range = wanted; drawPlots(); }
  rows.forEach(row => {
    const now = row.valueAt(number), before = number ? row.valueAt(number - 1) : now;
    row.value.textContent = now === "" ? "\u2013" : now;
    row.value.title = now;
    row.value.classList.toggle("changed", now !== before);
  });
  moveCursor(number);
}
