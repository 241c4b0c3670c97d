#!/usr/bin/env python3
"""Generated cases from the rules in words alone: `generated_cases.py chart N` writes the chart text of case N and
`generated_cases.py events N` its event file. N is a number below 2 ** 32.

A number s is N modulo 2 ** 31 at first. draw(k) sets s to (s * 1103515245 + 12345) modulo 2 ** 31 and gives s // 65536
modulo k. Drawn are first the number of regions, 2 + draw(4), and the number of states of each region, 3 + draw(60); then for
each region the two bounds and the state of its junction, and the four numbers of each of its states; then the two numbers of
each of 20,000 event lines. Every line of both texts ends with byte 10.

`generated_cases.py --against PROGRAM N ..` compares the line that `PROGRAM selftest N` writes with the counts that
`PROGRAM check` and `PROGRAM rules` give for these two texts, and prints each that differs."""
import os
import re
import sys
import tempfile

from demands import Wrong, demand
from programs import ended, status_text

EVENT_LINES = 20_000


class Draws:
    """The numbers that are drawn of a case, one after another."""

    def __init__(self, number):
        self.s = number % 2**31

    def draw(self, k):
        self.s = (self.s * 1103515245 + 12345) % 2**31
        return self.s // 65536 % k


class Region:
    """The draws of a region: the bounds and the state of its junction, and four numbers for each of its states."""
    def __init__(self, draws, states):
        self.above = draws.draw(200)
        self.first = draws.draw(states)
        self.below = draws.draw(200)
        self.states = [State(draws, states) for _ in range(states)]


class State:
    """The draws of a state: the event that leads to the junction, the state to which the next event leads, what entering
    the state adds, and the state to which the event of the region leads."""
    def __init__(self, draws, states):
        self.event = draws.draw(4)
        self.other = draws.draw(states)
        self.step = draws.draw(9)
        self.heard = draws.draw(states)

    def next_event(self):
        return (self.event + 1) % 4


def regions_of(draws):
    regions = 2 + draws.draw(4)
    states = 3 + draws.draw(60)
    return [Region(draws, states) for _ in range(regions)]


def chart_of(regions):
    """The lines of the chart: an AND of regions, each with a datum and a local event of its own. A state sends the local
    event of the next region, and in the last region nothing."""
    lines = ["chart G and {"]
    lines += [f"event input e{e};" for e in range(4)]
    lines += [f"event local l{i};" for i in range(len(regions))]
    lines += ["input x : int16;"]
    lines += [f"local n{i} : int32 wrap;" for i in range(len(regions))]
    for i, region in enumerate(regions):
        lines.append(f"state r{i} or {{")
        lines.append("default -> s0;")
        lines.append(f"junction j {{ [x > {region.above}] -> s{region.first}; [x < {region.below}] -> @z; }}")
        lines.append("junction z { }")
        for k, state in enumerate(region.states):
            send = "" if i == len(regions) - 1 else f" {{ send l{i + 1}; }}"
            lines.append(f"state s{k} {{")
            lines.append(f"entry {{ n{i} = n{i} + {state.step}; }}")
            lines.append(f"outer e{state.event} {{ n{i} = n{i} + 1; }} -> @j;")
            lines.append(f"outer e{state.next_event()}{send} -> s{state.other};")
            lines.append(f"outer l{i} / {{ n{i} = n{i} * 3; }} -> s{state.heard};")
            lines.append("}")
        lines.append("}")
    lines.append("}")
    return lines


def events_of(draws):
    """The event lines: one of four events, or a tick, with a value of x from -100 to 99."""
    lines = []
    for _ in range(EVENT_LINES):
        e = draws.draw(5)
        y = draws.draw(200)
        lines.append(f"{'tick' if e == 4 else f'e{e}'} x={y - 100}")
    return lines


def texts_of(number):
    """Chart text and event file of a case."""
    draws = Draws(number)
    chart = chart_of(regions_of(draws))
    return tuple("".join(line + "\n" for line in lines).encode("ascii") for lines in (chart, events_of(draws)))


def line_of(program, number, folder):
    """The line and the status of `selftest`, from what `check` and `rules` of the program write of the two texts."""
    names = [os.path.join(folder, name) for name in ("chart", "events")]
    for name, text in zip(names, texts_of(number)):
        with open(name, "wb") as file:
            file.write(text)
    checked, ran = ended([program, "check", names[0]]), ended([program, "rules", *names])
    counts = re.fullmatch(r"ok ([0-9]+) states .*\n", checked.out)
    told = (checked.out + checked.error)[:200]
    demand(counts, f"`check` of case {number} writes no counts, but {told!r}, {status_text(checked)}")
    lines = ran.out.split("\n")[:-1]
    last = lines[-1].split(" ", 5) if lines else []
    demand(len(last) == 6, f"`rules` of case {number} ends with no line of a trace, {status_text(ran)}")
    line = f"selftest {number}: {counts[1]} states, {len(lines) - 1} events, {len(ran.out)} trace bytes, {last[5]}\n"
    return line, status_text(ran)


def differences(program, numbers):
    """What is wrong of these cases, one after another."""
    with tempfile.TemporaryDirectory() as folder:
        for number in numbers:
            try:
                expected = line_of(program, number, folder)
            except Wrong as wrong:
                yield str(wrong)
                continue
            answer = ended([program, "selftest", str(number)])
            written = answer.out, status_text(answer)
            if written != expected:
                yield f"{written!r} instead of {expected!r}"


def is_number(word):
    return re.fullmatch("[0-9]+", word) is not None and int(word) < 2**32


def main(words):
    if len(words) > 2 and words[0] == "--against" and all(map(is_number, words[2:])):
        wrong = list(differences(os.path.abspath(words[1]), map(int, words[2:])))
        for line in wrong:
            print(line)
        return 1 if wrong else 0
    if len(words) != 2 or words[0] not in ("chart", "events") or not is_number(words[1]):
        sys.exit(__doc__)
    sys.stdout.buffer.write(texts_of(int(words[1]))[words[0] == "events"])
    return 0


if __name__ == "__main__":
    sys.exit(main(sys.argv[1:]))
