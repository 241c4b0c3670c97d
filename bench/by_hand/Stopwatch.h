/* The stopwatch of examples/stopwatch, by hand. */
#ifndef STOPWATCH_H
#define STOPWATCH_H

#include "by_hand.h"

enum { Stopwatch_E_START, Stopwatch_E_LAP, Stopwatch_E_TIC, Stopwatch_TICK };
FAULTS(Stopwatch);

typedef struct {
    enum { STOP_RESET, STOP_LAP_STOP, RUN_RUNNING, RUN_LAP } state;
    uint8_t loc_cent, loc_sec, loc_min;
    uint8_t out_dcent, out_dsec, out_dmin;
    RESULTS(1);
} Stopwatch_chart;

bool Stopwatch_init(Stopwatch_chart *m);
bool Stopwatch_start(Stopwatch_chart *m);
bool Stopwatch_react(Stopwatch_chart *m, uint32_t event);

static inline bool Stopwatch_in_Stop(const Stopwatch_chart *m) { return m->state <= STOP_LAP_STOP; }
static inline bool Stopwatch_in_Stop_Reset(const Stopwatch_chart *m) { return m->state == STOP_RESET; }
static inline bool Stopwatch_in_Stop_LapStop(const Stopwatch_chart *m) { return m->state == STOP_LAP_STOP; }
static inline bool Stopwatch_in_Run(const Stopwatch_chart *m) { return m->state >= RUN_RUNNING; }
static inline bool Stopwatch_in_Run_Running(const Stopwatch_chart *m) { return m->state == RUN_RUNNING; }
static inline bool Stopwatch_in_Run_Lap(const Stopwatch_chart *m) { return m->state == RUN_LAP; }

#endif
