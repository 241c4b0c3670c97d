"""The chart of a generated case for Boost.Statechart: a state for the AND with orthogonal regions, and a state for each
state of a region.

Boost.Statechart gives an event to the regions in turn only until one of them reacts. So each region has events of its own,
and an event of the chart goes to the machine once for each region. A broadcast is a posted event: the machine processes it
before `process_event` returns, and so before the next region has its turn, as in the chart."""

HEAD = '''#include <boost/mpl/list.hpp>
#include <boost/statechart/custom_reaction.hpp>
#include <boost/statechart/event.hpp>
#include <boost/statechart/simple_state.hpp>
#include <boost/statechart/state_machine.hpp>
#include <boost/statechart/transition.hpp>

enum {{ REGIONS = {regions}, STATES = {states} }};
#include "driver.h"

namespace sc = boost::statechart;
namespace mpl = boost::mpl;

struct Tick : sc::event<Tick> {{}};
template <int region, int number> struct Input : sc::event<Input<region, number>> {{}};
template <int region> struct Local : sc::event<Local<region>> {{}};

struct Whole;
struct Machine : sc::state_machine<Machine, Whole> {{}};

static void add(int region, uint32_t more) {{ world.n[region] = wrapped((uint32_t)world.n[region] + more); }}
static void enter(int region, int state, uint32_t more) {{
    world.state[region] = state;
    add(region, more);
}}
'''

TAIL = '''static Machine machine;

static void start(void) {{ machine.initiate(); }}

static void react(int event) {{
    switch (event) {{
{cases}
    default: machine.process_event(Tick()); break;
    }}
}}

int main(int count, char **words) {{
    if (count != 2)
        return 2;
    drive(words[1]);
    return 0;
}}
'''


def forward(regions):
    for i, region in enumerate(regions):
        yield f'struct R{i};'
        yield ' '.join(f'struct R{i}S{k};' for k in range(len(region.states)))
    whole = ', '.join(f'R{i}' for i in range(len(regions)))
    yield f'struct Whole : sc::simple_state<Whole, Machine, mpl::list<{whole}>> {{}};'
    for i in range(len(regions)):
        yield f'struct R{i} : sc::simple_state<R{i}, Whole::orthogonal<{i}>, R{i}S0> {{'
        yield f'    void triple(const Local<{i}> &) {{ world.n[{i}] = wrapped((uint32_t)world.n[{i}] * 3); }}'
        yield '};'


def state_lines(i, region, k, state, is_last):
    """The class of state k of region i, which may be the last region."""
    counted, sent = f'Input<{i}, {state.event}>', f'Input<{i}, {state.next_event()}>'
    heard = f'sc::transition<Local<{i}>, R{i}S{state.heard}, R{i}, &R{i}::triple>'
    to_other = f'sc::transition<{sent}, R{i}S{state.other}>' if is_last else f'sc::custom_reaction<{sent}>'
    yield f'struct R{i}S{k} : sc::simple_state<R{i}S{k}, R{i}> {{'
    yield f'    typedef mpl::list<sc::custom_reaction<{counted}>, {to_other}, {heard}> reactions;'
    yield f'    R{i}S{k}() {{ enter({i}, {k}, {state.step}); }}'
    yield f'    sc::result react(const {counted} &) {{'
    yield f'        add({i}, 1);'
    yield f'        if (world.x > {region.above})'
    yield f'            return transit<R{i}S{region.first}>();'
    yield '        return discard_event();'
    yield '    }'
    if not is_last:
        yield f'    sc::result react(const {sent} &) {{'
        yield f'        post_event(Local<{i + 1}>());'
        yield f'        return transit<R{i}S{state.other}>();'
        yield '    }'
    yield '};'


def source(regions):
    """The C++ source."""
    count = range(len(regions))
    lines = [HEAD.format(regions=len(regions), states=len(regions[0].states))]
    lines += forward(regions)
    for i, region in enumerate(regions):
        for k, state in enumerate(region.states):
            lines += state_lines(i, region, k, state, i + 1 == len(regions))
    calls = [' '.join(f'machine.process_event(Input<{i}, {event}>());' for i in count) for event in range(4)]
    lines.append(TAIL.format(cases='\n'.join(f'    case {event}: {line} break;' for event, line in enumerate(calls))))
    return '\n'.join(lines)
