"use strict";
// Each chart has the page of its own run in a frame. A step shows the chart that had its turn, at the line of its trace.
const byId = id => document.getElementById(id);
const steps = [...document.querySelectorAll("#steps li:not(.bad)")];
const frames = [...document.querySelectorAll("iframe")], names = [...byId("names").children];
const last = steps.length - 1;
let current = 0;
function show(chart, line) {
  frames.forEach((frame, at) => { frame.hidden = at !== chart; });
  names.forEach((name, at) => name.setAttribute("aria-pressed", String(at === chart)));
  frames[chart].contentWindow.go?.(line);
}
function go(number) {
  current = Math.max(0, Math.min(last, number));
  byId("slider").value = current;
  byId("where").textContent = `${current} of ${last}`;
  steps.forEach((step, at) => { if (at === current) step.setAttribute("aria-current", "true"); else step.removeAttribute("aria-current"); });
  steps[current].scrollIntoView({block: "nearest"});
  const {chart, line} = steps[current].dataset;
  if (chart !== "") show(Number(chart), Number(line));
}
// What line of each chart was reached by this step.
function lineAt(chart) {
  const done = steps.slice(0, current + 1).filter(step => step.dataset.chart === String(chart));
  return done.length ? Number(done[done.length - 1].dataset.line) : 0;
}
steps.forEach((step, at) => step.addEventListener("click", () => go(at)));
names.forEach((name, at) => name.addEventListener("click", () => show(at, lineAt(at))));
byId("slider").max = last;
byId("slider").addEventListener("input", event => go(Number(event.target.value)));
byId("back").onclick = () => go(current - 1);
byId("next").onclick = () => go(current + 1);
document.addEventListener("keydown", event => {
  const by = {ArrowLeft: -1, ArrowRight: 1, ArrowUp: -1, ArrowDown: 1, PageUp: -10, PageDown: 10}[event.key];
  if (by === undefined || event.target === byId("slider")) return;
  go(current + by);
  event.preventDefault();
});
frames.forEach(frame => frame.addEventListener("load", () => { if (!frame.hidden) go(current); }));
go(/^#\d+$/.test(location.hash) ? Number(location.hash.slice(1)) : 0);
