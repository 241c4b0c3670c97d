// ---- stepping

let noted = 0;                                               // the address is changed after a pause
function go(number) {
  current = Math.max(0, Math.min(last, number));
  const change = changes(current);
  describe(current, change, mark(current, change));
  showValues(current);
  scrollList();
  fillList();
  follow();
  clearTimeout(noted);
  noted = setTimeout(() => { try { history.replaceState(null, "", "#" + current); } catch { /* a page without an address */ } }, 300);
}
byId("slider").max = last;
byId("slider").addEventListener("input", event => go(Number(event.target.value)));
byId("first").onclick = () => go(0);
byId("back").onclick = () => go(current - 1);
byId("next").onclick = () => go(current + 1);
byId("end").onclick = () => go(last);
document.addEventListener("keydown", event => {
  if (event.ctrlKey || event.metaKey || event.altKey || event.target === byId("slider")) return;
  const inView = event.target === view && (event.key === "ArrowUp" || event.key === "ArrowDown");
  const steps = {ArrowLeft: -1, ArrowRight: 1, ArrowUp: -1, ArrowDown: 1, PageUp: -10, PageDown: 10};
  if (event.key in steps && !inView) go(current + steps[event.key]);
  else if (event.key === "Home") go(0);
  else if (event.key === "End") go(last);
  else return;
  event.preventDefault();
});
byId("gaps").addEventListener("change", event => showGaps(event.target.checked));
byId("follow").addEventListener("change", follow);

// ---- the border between drawing and side

const divider = byId("divider"), main = document.querySelector("main");
let share = 64;
function setShare(value) {
  share = Math.min(85, Math.max(25, value));
  main.style.gridTemplateColumns = `minmax(0, ${share}fr) 8px minmax(0, ${100 - share}fr)`;
  divider.setAttribute("aria-valuenow", Math.round(share));
  if (!chosen) fitAtFirst();
  moveCursor(current);
}
divider.addEventListener("pointerdown", event => divider.setPointerCapture(event.pointerId));
divider.addEventListener("pointermove", event => {
  if (divider.hasPointerCapture(event.pointerId)) setShare(event.clientX / main.clientWidth * 100);
});
divider.addEventListener("keydown", event => {
  if (event.key !== "ArrowLeft" && event.key !== "ArrowRight") return;
  setShare(share + (event.key === "ArrowLeft" ? -3 : 3));
  event.preventDefault();
  event.stopPropagation();
});

// ---- light and dark, and paper

function setTheme(theme) {
  document.documentElement.dataset.theme = theme;
  byId("theme").setAttribute("aria-pressed", String(theme === "dark"));
}
const wishes = new URLSearchParams(location.search);
setTheme(wishes.get("theme") || (matchMedia("(prefers-color-scheme: dark)").matches ? "dark" : "light"));
byId("theme").onclick = () => setTheme(document.documentElement.dataset.theme === "dark" ? "light" : "dark");
byId("print").onclick = () => window.print();
// The paper lies as the largest drawing does. No drawing is larger on it than it is.
function setPaper() {
  const sizes = [...document.querySelectorAll(".sheet > svg")].map(svg => svg.viewBox.baseVal);
  const largest = sizes.reduce((one, other) => one.width * one.height < other.width * other.height ? other : one);
  const [word, height] = largest.width > largest.height ? ["landscape", 165] : ["portrait", 250];
  const paper = document.createElement("style");
  paper.textContent = `@page { size: A4 ${word}; margin: 10mm; } :root { --paper-height: ${height}mm; }`;
  document.head.append(paper);
  document.querySelectorAll(".sheet > svg").forEach((svg, at) => svg.style.setProperty("--natural", sizes[at].width + "px"));
}

// ---- the beginning

if (wishes.has("coverage")) { byId("gaps").checked = true; showGaps(true); }
openSheet(model.sheets[0].id);
setPaper();
setUpPlots();
drawPlots();
go(/^#\d+$/.test(location.hash) ? Number(location.hash.slice(1)) : 0);
window.addEventListener("hashchange", () => { if (/^#\d+$/.test(location.hash)) go(Number(location.hash.slice(1))); });
window.addEventListener("resize", () => {
  if (!chosen) fitAtFirst();
  moveCursor(current);
  fillList();
  follow();
});
plots.addEventListener("scroll", () => moveCursor(current));
