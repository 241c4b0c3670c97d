#!/usr/bin/env python3
"""Tries pages in a browser, by hand: `view/test_page.py PAGE ..`, each a page that flowview wrote. It needs Debian's package
`chromium`.

A script is put after that of the page, in a copy. It steps through all lines, or through 300 of them, and compares what is marked
as active with the line of the trace; it tries keys, the slider, the list, the switches and the drawings of a large chart; it tells
how long the page took to open, and a step in the middle of all; and it notes whether anything scripted failed. It writes a line for
each page, and ends with status 1 where one isn't right."""
import os
import re
import subprocess
import sys
import tempfile

SCRIPT = r"""
<script>
"use strict";
(() => {
  const wrong = [], opened = Math.round(performance.now());
  const taken = [];
  const check = (words, right) => { if (!right) wrong.push(words); };
  const press = (key, target = document.body) =>
    target.dispatchEvent(new KeyboardEvent("keydown", {key, bubbles: true, cancelable: true}));
  const shown = () => Number(document.getElementById("where").textContent.split(" ")[0]);
  const same = (one, other) => [...new Set(one)].sort().join() === [...other].sort().join();
  try {
    const every = Math.max(1, Math.floor(last / 300));
    for (let number = 0; number <= last; number += every) {
      const begun = performance.now();
      go(number);
      taken.push(performance.now() - begun);
      const active = [...document.querySelectorAll("svg .state.active")].map(each => each.dataset.path);
      check("states of line " + number, same(active, lines[number].states));
      const values = [...document.querySelectorAll(".row .value")].map(each => each.title);
      for (const value of lines[number].values.filter((_, at) => !model.data[at].constant)) check("value " + value + " of line " + number, values.includes(value));
      if (model.fired) {
        const fired = [...document.querySelectorAll("svg .fired")].map(each => each.id);
        check("fired of line " + number, same(fired, new Set(model.fired[number])));
      }
    }
    press("Home"); check("Home", shown() === 0);
    press("ArrowLeft"); check("left at the first line", shown() === 0);
    press("ArrowRight"); check("right", shown() === Math.min(1, last));
    press("End"); check("End", shown() === last);
    press("PageUp"); check("PageUp", shown() === Math.max(0, last - 10));
    document.getElementById("first").click(); check("first", shown() === 0);
    document.getElementById("next").click(); check("next", shown() === Math.min(1, last));
    const slider = document.getElementById("slider");
    slider.value = last; slider.dispatchEvent(new Event("input")); check("slider", shown() === last);
    const item = document.querySelector("#trace .item"), number = Number(item.id.slice(4));
    item.click(); check("list", shown() === number);
    check("the list's chosen line", document.querySelector('#trace [aria-selected="true"]').id === "line" + number);
    check("spoken", document.getElementById("spoken").textContent.startsWith("Line " + number));
    const gaps = document.getElementById("gaps");
    gaps.click(); check("coverage", document.querySelectorAll("svg .never").length > 0 === Object.keys(model.gaps).length > 0);
    gaps.click(); check("coverage off", document.querySelectorAll("svg .never").length === 0);
    const theme = document.documentElement.dataset.theme;
    document.getElementById("theme").click(); check("theme", document.documentElement.dataset.theme !== theme);
    const names = [...document.querySelectorAll("button, input, [role]")].filter(each =>
      !(each.textContent.trim() || each.getAttribute("aria-label") || each.closest("label")));
    check("a control without a name", names.length === 0);
    for (const sheet of model.sheets) {
      const link = document.querySelector(`svg a[href="#${sheet.id}"]`);
      check("a link to " + sheet.id, link || sheet === model.sheets[0]);
      if (link) link.dispatchEvent(new MouseEvent("click", {bubbles: true, cancelable: true})); else openSheet(sheet.id);
      check("opens " + sheet.id, document.querySelector(".sheet.shown").id === sheet.id);
      // Does any text of the drawing reach out of its state?
      for (const state of document.querySelectorAll(".sheet.shown svg .state")) {
        const frame = state.querySelector(":scope > .frame").getBBox();
        for (const text of state.querySelectorAll(":scope > text")) {
          const box = text.getBBox();
          check("text of " + state.dataset.path, box.x >= frame.x && box.x + box.width <= frame.x + frame.width);
        }
      }
    }
    check("names twice", new Set([...document.querySelectorAll("[id]")].map(each => each.id)).size === document.querySelectorAll("[id]").length);
  } catch (error) { wrong.push(String(error)); }
  document.title = "tried: " + (wrong.length ? wrong.length + " wrong: " + wrong.slice(0, 5).join("; ") : "right") +
    `, opened in ${opened} ms, a step takes ${Math.round(taken.sort((one, other) => one - other)[taken.length >> 1])} ms`;
})();
</script>
</body>"""


def tried(name):
    with open(name, encoding='utf-8') as file:
        text = file.read()
    with tempfile.TemporaryDirectory() as folder:
        copy = os.path.join(folder, 'page.html')
        with open(copy, 'w', encoding='utf-8') as file:
            file.write(text.replace('</body>', SCRIPT))
        done = subprocess.run(['chromium', '--headless=new', '--no-sandbox', '--disable-gpu', '--enable-logging=stderr',
                               '--user-data-dir=' + os.path.join(folder, 'user'), '--window-size=1366,768', '--timeout=60000',
                               '--dump-dom', 'file://' + copy], capture_output=True, timeout=300, check=False)
    found = re.search('<title>tried: (.*?)</title>', done.stdout.decode(errors='replace'))
    console = re.findall('CONSOLE.*', done.stderr.decode(errors='replace'))
    return (found[1] if found else 'not tried') + ''.join('; ' + line for line in console)


def main(names):
    status = 0
    for name in names:
        answer = tried(name)
        print('%s, %d bytes: %s' % (name, os.path.getsize(name), answer), flush=True)
        status |= not answer.startswith('right') or 'CONSOLE' in answer
    return status


if __name__ == '__main__':
    sys.exit(main(sys.argv[1:]))
