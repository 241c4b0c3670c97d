"""The program that runs the C which `chart_to_c` writes of a generated case."""

MAIN = '''#define REGIONS {regions}
#define STATES {states}
#include "driver.h"
#include "G.h"

static G_chart chart;

/* The number of an active child is one more than that of the state in the chart. */
static void note(void) {{
{notes}
}}

static void start(void) {{
    if (!G_init(&chart) || !G_start(&chart))
        exit(3);
    note();
}}

static void react(int event) {{
    chart.in_x = world.x;
    if (!G_react(&chart, event == TICK ? G_TICK : (uint32_t)event))
        exit(3);
    note();
}}

int main(int count, char **words) {{
    if (count != 2)
        return 2;
    drive(words[1]);
    return 0;
}}
'''


def source(regions):
    """The C source of the program, to which the header and the source of the chart belong."""
    states = len(regions[0].states)
    notes = []
    for i in range(len(regions)):
        notes.append(f'    world.state[{i}] = chart.child_{i} - {3 + i * (states + 1)};')
        notes.append(f'    world.n[{i}] = chart.loc_n{i};')
    return MAIN.format(regions=len(regions), states=states, notes='\n'.join(notes))
