"""The chart of a generated case as SCXML for Qt, and the C++ that runs it.

`qscxmlc` compiles the document, with one of two data models: that of C++, where actions and guards become C++ functions, which
is the fastest that Qt has, and ECMAScript, the usual one. SCXML gives an event to all regions at once and queues what is
raised meanwhile. So each region has events of its own, and an event of the chart is submitted once for each region. A
broadcast is an internal event by `<raise>`: it is processed before the next external event, and so before the next region has
its turn, as in the chart. A condition action that counts before a guard stands in two transitions, one with the guard and one
without."""

MAIN = '''#include <QtCore/QCoreApplication>
#include <QtScxml/QScxmlDataModel>
#include "machine.h"
{include}
enum {{ REGIONS = {regions}, STATES = {states} }};
#include "driver.h"

static Machine *machine;
static QString events[TICK][REGIONS], tick = QStringLiteral("tick");
{actions}
static void settle(void) {{
    QCoreApplication::sendPostedEvents();
    show();
}}

static void start(void) {{
    for (int event = 0; event < TICK; event++)
        for (int region = 0; region < REGIONS; region++)
            events[event][region] = QStringLiteral("r%1.e%2").arg(region).arg(event);
    machine->start();
    settle();
}}

static void react(int event) {{
    set_input();
    if (event == TICK)
        machine->submitEvent(tick);
    else
        for (int region = 0; region < REGIONS; region++)
            machine->submitEvent(events[event][region]);
    settle();
}}

int main(int count, char **words) {{
    QCoreApplication application(count, words);
    if (count != 2)
        return 2;
    Machine made;
    machine = &made;
    {model}
    drive(words[1]);
    return 0;
}}
'''


class Cpp:
    """The data model of C++: what the document says calls functions of the program."""
    name = 'cplusplus:CaseData:case_data.h'
    header = '''#ifndef CASE_DATA_H
#define CASE_DATA_H
#include <QtScxml/QScxmlCppDataModel>

void enter(int region, int state, unsigned more);
void add(int region, unsigned more);
void triple(int region);
int input();

class CaseData : public QScxmlCppDataModel {
    Q_OBJECT
    Q_SCXML_DATAMODEL
};
#endif
'''
    actions = '''
void add(int region, unsigned more) { world.n[region] = wrapped((uint32_t)world.n[region] + more); }
void triple(int region) { world.n[region] = wrapped((uint32_t)world.n[region] * 3); }
int input() { return world.x; }
void enter(int region, int state, unsigned more) {
    world.state[region] = state;
    add(region, more);
}

static void set_input(void) {}
static void show(void) {}
'''
    model = 'CaseData data;\n    made.setDataModel(&data);'
    input = 'input()'

    @staticmethod
    def declarations(regions):
        return []

    @staticmethod
    def enter(i, k, step):
        return f'<script>enter({i}, {k}, {step});</script>'

    @staticmethod
    def count(i):
        return f'<script>add({i}, 1);</script>'

    @staticmethod
    def triple(i):
        return f'<script>triple({i});</script>'


class EcmaScript:
    """The data model ECMAScript: the data stand in the document, and the program sets and reads them."""
    name = 'ecmascript'
    header = None
    actions = '''
static QString number[REGIONS], state[REGIONS], input = QStringLiteral("x"), nothing;

static void set_input(void) { machine->dataModel()->setScxmlProperty(input, (int)world.x, nothing); }

static void show(void) {
    for (int region = 0; region < REGIONS; region++) {
        world.n[region] = machine->dataModel()->scxmlProperty(number[region]).toInt();
        world.state[region] = machine->dataModel()->scxmlProperty(state[region]).toInt();
    }
}
'''
    model = '''for (int region = 0; region < REGIONS; region++) {
        number[region] = QStringLiteral("n%1").arg(region);
        state[region] = QStringLiteral("s%1").arg(region);
    }'''
    input = 'x'

    @staticmethod
    def declarations(regions):
        data = ['x'] + [f'{letter}{i}' for i in range(len(regions)) for letter in 'ns']
        return [' <datamodel>', *(f'  <data id="{name}" expr="0"/>' for name in data), ' </datamodel>']

    @staticmethod
    def enter(i, k, step):
        return f'<script>s{i} = {k}; n{i} = (n{i} + {step}) | 0;</script>'

    @staticmethod
    def count(i):
        return f'<script>n{i} = (n{i} + 1) | 0;</script>'

    @staticmethod
    def triple(i):
        return f'<script>n{i} = (n{i} * 3) | 0;</script>'


def state_lines(data, i, region, k, state, is_last):
    """The element of state k of region i, which may be the last region, with that data model."""
    counted, count = f'event="r{i}.e{state.event}"', data.count(i)
    guard = f'cond="{data.input} &gt; {region.above}"'
    sent = '' if is_last else f'<raise event="l{i + 1}"/>'
    yield f'   <state id="r{i}_s{k}">'
    yield f'    <onentry>{data.enter(i, k, state.step)}</onentry>'
    yield f'    <transition {counted} {guard} target="r{i}_s{region.first}">{count}</transition>'
    yield f'    <transition {counted}>{count}</transition>'
    yield f'    <transition event="r{i}.e{state.next_event()}" target="r{i}_s{state.other}">{sent}</transition>'
    yield f'    <transition event="l{i}" target="r{i}_s{state.heard}">{data.triple(i)}</transition>'
    yield '   </state>'


def document(regions, data):
    """The SCXML document, with that data model."""
    lines = ['<?xml version="1.0" encoding="UTF-8"?>',
             '<scxml xmlns="http://www.w3.org/2005/07/scxml" version="1.0" name="Machine"',
             f' datamodel="{data.name}">', *data.declarations(regions), ' <parallel id="G">']
    for i, region in enumerate(regions):
        lines.append(f'  <state id="r{i}" initial="r{i}_s0">')
        for k, state in enumerate(region.states):
            lines += state_lines(data, i, region, k, state, i + 1 == len(regions))
        lines.append('  </state>')
    return '\n'.join(lines + [' </parallel>', '</scxml>', ''])


def program(regions, data):
    """The C++ source of the program that runs the compiled document."""
    include = '' if data.header is None else '#include "case_data.h"\n'
    return MAIN.format(regions=len(regions), states=len(regions[0].states), include=include, actions=data.actions,
                       model=data.model)
