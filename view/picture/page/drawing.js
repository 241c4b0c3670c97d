// ---- the shapes of the drawings: a thing may be shown more than once

const shapes = new Map();
for (const shape of document.querySelectorAll("svg.flowview [id]")) {
  const id = shape.dataset.id ?? shape.id;
  if (!shapes.has(id)) shapes.set(id, []);
  shapes.get(id).push(shape);
}
const shapesOf = id => shapes.get(id) ?? [];

const marked = new Map();                                    // for each mark the shapes that have it
function setMark(word, ids) {
  const wanted = new Set([...ids].flatMap(shapesOf));
  for (const shape of marked.get(word) ?? []) if (!wanted.has(shape)) shape.classList.remove(word);
  for (const shape of wanted) shape.classList.add(word);
  marked.set(word, wanted);
}

function mark(number, change) {
  const ids = paths => paths.map(path => stateOfPath.get(path).id);
  setMark("active", ids([...change.now]));
  setMark("entered", ids(change.entered.concat(change.again)));
  setMark("left", ids(change.left));
  const fired = new Set(model.fired ? model.fired[number] : []), ended = new Set(model.ended ? model.ended[number] : []);
  const maybe = model.fired ? new Set() : candidates(number, change);
  setMark("fired", fired);
  setMark("ended", [...ended].filter(id => !fired.has(id)));
  setMark("maybe", maybe);
  return {fired, maybe};
}

function showGaps(on) {
  for (const id of Object.keys(model.gaps)) for (const shape of shapesOf(id).concat(shapesOf(transitionOfId.get(id)?.dot))) {
    shape.classList.toggle("never", on);
    for (const text of shape.classList.contains("listed") ? shape.querySelectorAll("text") : []) text.classList.toggle("never", on);
  }
}

// While the pointer is on a transition, what it leads to is outlined.
for (const each of model.transitions) for (const shape of shapesOf(each.id)) {
  const targets = shapesOf(each.state ?? each.junction);
  shape.addEventListener("mouseenter", () => targets.forEach(target => target.classList.add("target")));
  shape.addEventListener("mouseleave", () => targets.forEach(target => target.classList.remove("target")));
}

// ---- which drawing is open

let drawing = null;                                          // its svg
function openSheet(id) {
  const sheet = model.sheets.find(each => each.id === id);
  for (const each of model.sheets) byId(each.id).classList.toggle("shown", each === sheet);
  drawing = byId(id).querySelector("svg");
  byId("crumbs").replaceChildren(...sheet.crumbs.flatMap(([name, to], at) => {
    const part = document.createElement(to && to !== id ? "button" : "span");
    part.textContent = name;
    if (to && to !== id) part.onclick = () => chooseSheet(to);
    return at ? [" / ", part] : [part];
  }));
  chosen = false;
  fitAtFirst();
}
function chooseSheet(id) {
  openSheet(id);
  view.scrollTo(0, 0);
}
byId("crumbs").hidden = model.sheets.length === 1;
for (const link of document.querySelectorAll('svg.flowview a[href^="#sheet-"]')) {
  link.addEventListener("click", event => {
    event.preventDefault();
    if (!wasDragged) chooseSheet(link.getAttribute("href").slice(1));
  });
}

// ---- how large it is

const READABLE = 0.8;                                        // smaller it isn't drawn at first
const GREATEST = 1.3;                                        // nor larger
const view = byId("view");
let zoom = 1, chosen = false;                                // whether somebody chose it
function setZoom(value) {
  zoom = Math.min(4, Math.max(0.05, value));
  drawing.style.width = drawing.viewBox.baseVal.width * zoom + "px";
  drawing.style.height = drawing.viewBox.baseVal.height * zoom + "px";
  byId("zoom").textContent = Math.round(zoom * 100) + "%";
}
const fitWidth = () => (view.clientWidth - 14) / drawing.viewBox.baseVal.width;
const fitHeight = () => (view.clientHeight - 14) / drawing.viewBox.baseVal.height;
function fitAtFirst() {
  const whole = Math.min(fitWidth(), fitHeight(), GREATEST);
  setZoom(whole >= READABLE ? whole : Math.max(READABLE, Math.min(1, fitWidth())));
}
function zoomAt(factor, x, y) {
  chosen = true;
  const before = zoom, left = view.scrollLeft + x, top = view.scrollTop + y;
  setZoom(zoom * factor);
  view.scrollLeft = left * zoom / before - x;
  view.scrollTop = top * zoom / before - y;
}
byId("fit").onclick = () => { chosen = true; setZoom(Math.min(fitWidth(), fitHeight(), GREATEST)); };
byId("whole").onclick = () => { chosen = true; setZoom(1); };
byId("closer").onclick = () => zoomAt(1.25, view.clientWidth / 2, view.clientHeight / 2);
byId("further").onclick = () => zoomAt(0.8, view.clientWidth / 2, view.clientHeight / 2);
view.addEventListener("wheel", event => {
  if (!event.ctrlKey) return;
  event.preventDefault();
  const frame = view.getBoundingClientRect();
  zoomAt(event.deltaY < 0 ? 1.12 : 0.89, event.clientX - frame.left, event.clientY - frame.top);
}, {passive: false});

let drag = null, wasDragged = false;
view.addEventListener("pointerdown", event => {
  wasDragged = false;
  if (event.button === 0 && event.pointerType === "mouse") drag = {x: event.clientX, y: event.clientY, left: view.scrollLeft, top: view.scrollTop};
});
window.addEventListener("pointermove", event => {
  if (!drag) return;
  wasDragged = wasDragged || Math.abs(event.clientX - drag.x) + Math.abs(event.clientY - drag.y) > 4;
  view.classList.toggle("dragged", wasDragged);
  view.scrollLeft = drag.left - event.clientX + drag.x;
  view.scrollTop = drag.top - event.clientY + drag.y;
});
window.addEventListener("pointerup", () => { drag = null; view.classList.remove("dragged"); });

// ---- what changed is brought into sight

const CHANGED = ".state.entered:not(.composite), .state.left:not(.composite), .fired, .maybe, .ended";
function follow() {
  if (!byId("follow").checked) return;
  const found = [...document.querySelectorAll(`svg.flowview :is(${CHANGED})`)];
  const open = found.filter(shape => !shape.classList.contains("shut"));
  if (open.length && !open.some(shape => drawing.contains(shape))) openSheet(open[0].closest(".sheet").id);
  const boxes = found.filter(shape => drawing.contains(shape)).map(shape => shape.getBoundingClientRect()).filter(box => box.width || box.height);
  if (!boxes.length) return;
  const frame = view.getBoundingClientRect();
  const whole = {left: Math.min(...boxes.map(box => box.left)), right: Math.max(...boxes.map(box => box.right)),
    top: Math.min(...boxes.map(box => box.top)), bottom: Math.max(...boxes.map(box => box.bottom))};
  const by = {left: shift(whole, boxes[0], frame, "left", "right"), top: shift(whole, boxes[0], frame, "top", "bottom")};
  if (by.left || by.top) view.scrollBy(by);
}
// How far to scroll: not at all where all is in sight, to its middle where it fits, and else to the middle of the first.
function shift(whole, first, frame, least, most) {
  if (whole[least] >= frame[least] && whole[most] <= frame[most]) return 0;
  const box = whole[most] - whole[least] <= frame[most] - frame[least] ? whole : first;
  return (box[least] + box[most] - frame[least] - frame[most]) / 2;
}
