"""The chart of a generated case as a switch in C: a function for each region that switches over its states and events, a
function for the entry of each state, and broadcasts as calls of the function that hands an event to all regions."""

HEAD = '''enum {{ REGIONS = {regions}, STATES = {states} }};
#include "driver.h"

enum {{ E0, E1, E2, E3, {locals} }};

static void broadcast(int event);
'''

SILENT = '''enum { REGIONS = 2, STATES = 51 };
#include "driver.h"

static void start(void) {}

static void react(int event) { world.n[0] += event; }

'''

MAIN = '''int main(int count, char **words) {
    if (count != 2)
        return 2;
    drive(words[1]);
    return 0;
}
'''

TAIL = '''static void broadcast(int event) {{
{calls}
}}

static void start(void) {{
{starts}
}}

static void react(int event) {{ broadcast(event); }}

'''


def entries(i, region):
    for k, state in enumerate(region.states):
        yield f'static inline void enter_r{i}_s{k}(void) {{'
        yield f'    world.state[{i}] = {k};'
        yield f'    world.n[{i}] = wrapped((uint32_t)world.n[{i}] + {state.step});'
        yield '}'
        yield ''


def cases(i, region, is_last):
    """The cases of the states of region i, which may be the last region."""
    for k, state in enumerate(region.states):
        yield f'    case {k}:'
        yield '        switch (event) {'
        yield f'        case E{state.event}:'
        yield f'            world.n[{i}] = wrapped((uint32_t)world.n[{i}] + 1);'
        yield f'            if (world.x > {region.above})'
        yield f'                enter_r{i}_s{region.first}();'
        yield '            break;'
        yield f'        case E{state.next_event()}:'
        if not is_last:
            yield f'            broadcast(L{i + 1});'
        yield f'            enter_r{i}_s{state.other}();'
        yield '            break;'
        yield f'        case L{i}:'
        yield f'            world.n[{i}] = wrapped((uint32_t)world.n[{i}] * 3);'
        yield f'            enter_r{i}_s{state.heard}();'
        yield '            break;'
        yield '        }'
        yield '        break;'


def source(regions):
    """The C source."""
    count = range(len(regions))
    local_events = ', '.join(f'L{i}' + (' = 5' if i == 0 else '') for i in count)
    lines = [HEAD.format(regions=len(regions), states=len(regions[0].states), locals=local_events)]
    for i, region in enumerate(regions):
        lines += entries(i, region)
        lines += [f'static void region_r{i}(int event) {{', f'    switch (world.state[{i}]) {{']
        lines += cases(i, region, i + 1 == len(regions))
        lines += ['    }', '}', '']
    lines.append(TAIL.format(calls='\n'.join(f'    region_r{i}(event);' for i in count),
                             starts='\n'.join(f'    enter_r{i}_s0();' for i in count)) + MAIN)
    return '\n'.join(lines)


def silent():
    """The C source of a program that reads the events and writes lines, with no machine between."""
    return SILENT + MAIN
