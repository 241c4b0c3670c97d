// ---- the line that is shown, in words

function names(paths, word) {
  return paths.length ? paths.map(path => {
    const span = document.createElement("span");
    span.className = word;
    span.textContent = path;
    return span;
  }) : [document.createTextNode("none")];
}
function put(id, nodes) {
  const place = byId(id);
  place.replaceChildren();
  nodes.forEach((node, number) => place.append(...(number ? [", ", node] : [node])));
}
function putCodes(id, transitions) {
  byId(id).replaceChildren(...(transitions.length ? transitions.map(each => {
    const code = document.createElement("code"), transition = transitionOfId.get(each);
    code.textContent = transition.from + ": " + transition.text.replace(/;$/, "");
    return code;
  }) : [document.createTextNode("none")]));
}
function chip(text, word) {
  const span = document.createElement("span");
  span.className = "chip " + word;
  span.textContent = text;
  return span;
}

function describe(number, change, {fired, maybe}) {
  const line = lines[number];
  byId("event").textContent = line.event;
  byId("event").parentElement.dataset.title = `${document.title}, line ${number}: `;
  const ended = number === last && model.end && line.result === "ok" ? [chip("then refused: " + model.end, "bad")] : [];
  byId("chips").replaceChildren(...line.outputs.map(each => chip("emits " + each, "out")),
    chip(line.result === "ok" ? "ok" : "fault: " + line.result, line.result === "ok" ? "" : "bad"), ...ended);
  put("active", names(leaves(line.states), ""));
  put("entered", names(change.entered.concat(change.again.map(path => path + " (again)")), "plus"));
  put("left", names(change.left.concat(change.passed.map(path => path + " (entered and left)")), "minus"));
  byId("taken-word").textContent = model.fired ? "Fired" : "May have fired";
  putCodes("taken", fired.size ? model.fired[number] : [...maybe]);
  putCodes("ended", model.ended ? model.ended[number] : []);
  byId("ended-word").hidden = byId("ended").hidden = !(model.ended && model.ended[number].length);
  byId("line").textContent = line.text;
  byId("where").textContent = `${number} of ${last}`;
  byId("slider").value = number;
  byId("slider").setAttribute("aria-valuetext", `line ${number} of ${last}, event ${line.event}`);
  byId("first").disabled = byId("back").disabled = number === 0;
  byId("next").disabled = byId("end").disabled = number === last;
  byId("spoken").textContent = spoken(number, change);
}

// What a screen reader says of a line.
function spoken(number, change) {
  const line = lines[number], before = number ? lines[number - 1] : line;
  const data = model.data.map((each, at) => [each.name, line.values[at], before.values[at]])
    .filter(([, now, earlier]) => now !== earlier).map(([name, now]) => `${name} is ${now}`);
  const parts = [["Entered", change.entered], ["Left", change.left], ["Changed", data], ["Emitted", line.outputs]];
  return `Line ${number}, ${line.event}. Active: ${leaves(line.states).join(", ") || "none"}. ` +
    parts.filter(([, found]) => found.length).map(([word, found]) => `${word}: ${found.join(", ")}. `).join("") +
    (line.result === "ok" ? "" : `Fault: ${line.result}.`);
}
