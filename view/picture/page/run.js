"use strict";
// The chart and the run stand in the page as data; these scripts step through the run. Everything is drawn again from the number
// of the line that is shown, so there is no other state than that number, the drawing that is open, and how large it is.
const byId = id => document.getElementById(id);
const model = JSON.parse(byId("model").textContent);
const lines = byId("trace-text").textContent.split("\n").filter(text => text !== "").map(text => {
  const [, index, event, states, values, outputs, result] = text.match(/^(\d+) (\S+) \[([^\]]*)\] (\S+) (\S+) (.*)$/);
  return {
    text, index: Number(index), event, result,
    states: states === "" ? [] : states.split(","),
    values: values === "-" ? [] : values.split(",").map(each => each.slice(each.indexOf("=") + 1)),
    outputs: outputs === "-" ? [] : outputs.split(","),
  };
});
const last = lines.length - 1;
const stateOfPath = new Map(model.states.map(each => [each.path, each]));
const stateOfId = new Map(model.states.map(each => [each.id, each]));
const transitionOfId = new Map(model.transitions.map(each => [each.id, each]));
let current = 0;

// ---- what changed at a line

// The paths that are active now and before, that were entered and left, that were left and entered again, and that were entered
// and left within the event; a trace alone doesn't tell the last two.
function changes(number) {
  const now = new Set(lines[number].states);
  const before = new Set(number > 0 ? lines[number - 1].states : []);
  const entered = [...now].filter(path => !before.has(path));
  const left = [...before].filter(path => !now.has(path));
  const again = [], passed = [];
  for (const id of model.entered ? new Set(model.entered[number]) : []) {
    const path = stateOfId.get(id).path;
    if (path && now.has(path) && before.has(path)) again.push(path);
    if (path && !now.has(path) && !before.has(path)) passed.push(path);
  }
  return {now, before, entered, left, again, passed};
}

// Of a trace alone: the transitions whose source was active before, whose event fits, and whose destination was entered.
function candidates(number, {before, entered}) {
  if (number === 0) return new Set();
  const event = lines[number].event, found = new Set(), news = new Set(entered);
  const path = id => stateOfId.get(id).path;
  const could = each => (each.event === null || each.local || each.event === event) &&
    each.lists.some(([kind, id]) => kind === "default" ? news.has(path(id)) : id === "s0" || before.has(path(id)));
  const possible = model.transitions.filter(could), reached = new Set();
  for (let waiting = possible.filter(each => each.state !== null && news.has(path(each.state))); waiting.length;) {
    const each = waiting.pop();
    if (found.has(each.id)) continue;
    found.add(each.id);
    if (!reached.has(each.owner) && each.owner.startsWith("j")) {
      reached.add(each.owner);
      waiting.push(...possible.filter(other => other.junction === each.owner));
    }
  }
  return found;
}

// The paths below which nothing of the list stands.
function leaves(paths) {
  const above = new Set(paths.map(path => path.slice(0, Math.max(0, path.lastIndexOf("/")))));
  return paths.filter(path => !above.has(path));
}
