// ---- the list of lines: only those in sight are in the page

const ROW = 20;
const list = byId("trace");
const room = document.createElement("div");
room.style.height = lines.length * ROW + "px";
list.append(room);

function listItem(number) {
  const item = document.createElement("div"), line = lines[number];
  item.className = "item";
  item.id = "line" + number;
  item.setAttribute("role", "option");
  item.setAttribute("aria-selected", String(number === current));
  item.setAttribute("aria-posinset", number + 1);
  item.setAttribute("aria-setsize", lines.length);
  item.style.top = number * ROW + "px";
  item.title = line.text;
  const before = new Set(number ? lines[number - 1].states : []);
  const news = leaves(line.states.filter(path => !before.has(path)));
  for (const [text, word] of [[String(number), "number"], [line.event, "event"], [line.result === "ok" ? "" : line.result, "fault"],
    [line.outputs.join(" "), "emits"], [news.map(path => "+" + path).join(" "), "news"]]) {
    const span = document.createElement("span");
    span.className = word;
    span.textContent = text;
    item.append(span);
  }
  item.onclick = () => go(number);
  return item;
}
function fillList() {
  const from = Math.max(0, Math.floor(list.scrollTop / ROW) - 10), to = Math.min(last, from + Math.ceil(list.clientHeight / ROW) + 20);
  room.replaceChildren(...Array.from({length: to - from + 1}, (_, at) => listItem(from + at)));
  list.setAttribute("aria-activedescendant", "line" + current);
}
function scrollList() {
  const top = current * ROW;
  if (top < list.scrollTop + ROW) list.scrollTop = top - ROW;
  else if (top > list.scrollTop + list.clientHeight - 2 * ROW) list.scrollTop = top - list.clientHeight + 2 * ROW;
}
list.addEventListener("scroll", fillList);
