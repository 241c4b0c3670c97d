/* The stopwatch by hand: a switch over the states, and in each state over the events. */
#include "Stopwatch.h"

/* Counts a hundredth of a second. There are never more than 99 of them, nor more than 59 seconds; the minutes saturate. */
static void count(Stopwatch_chart *m)
{
    m->loc_cent++;
    if (m->loc_cent < 100) {
        return;
    }
    m->loc_cent = 0;
    m->loc_sec++;
    if (m->loc_sec < 60) {
        return;
    }
    m->loc_sec = 0;
    if (m->loc_min < UINT8_MAX) {
        m->loc_min++;
    }
}

static void show(Stopwatch_chart *m)
{
    m->out_dcent = m->loc_cent;
    m->out_dsec = m->loc_sec;
    m->out_dmin = m->loc_min;
}

static void clear(Stopwatch_chart *m)
{
    m->loc_cent = m->loc_sec = m->loc_min = 0;
    show(m);
}

bool Stopwatch_init(Stopwatch_chart *m)
{
    *m = (Stopwatch_chart){.loc_cent = 97, .loc_sec = 59};
    return true;
}

bool Stopwatch_start(Stopwatch_chart *m)
{
    m->state = STOP_RESET;
    return true;
}

bool Stopwatch_react(Stopwatch_chart *m, uint32_t event)
{
    switch (m->state) {
    case STOP_RESET:
        switch (event) {
        case Stopwatch_E_START: m->state = RUN_RUNNING; break;
        case Stopwatch_E_LAP: clear(m); break;
        default: break;
        }
        break;
    case STOP_LAP_STOP:
        switch (event) {
        case Stopwatch_E_START: m->state = RUN_LAP; break;
        case Stopwatch_E_LAP: m->state = STOP_RESET; break;
        default: break;
        }
        break;
    case RUN_RUNNING:
        switch (event) {
        case Stopwatch_E_START: m->state = STOP_RESET; break;
        case Stopwatch_E_LAP: m->state = RUN_LAP; break;
        case Stopwatch_E_TIC: count(m); show(m); break;
        default: show(m); break;
        }
        break;
    case RUN_LAP:
        switch (event) {
        case Stopwatch_E_START: m->state = STOP_LAP_STOP; break;
        case Stopwatch_E_LAP: m->state = RUN_RUNNING; break;
        case Stopwatch_E_TIC: count(m); break;
        default: break;
        }
        break;
    default: break;
    }
    return true;
}
