/* What the charts by hand share. Each has the interface of the header that chart_to_c writes of the chart, so that the driver and
   the table of checks/tables/chart_c.py serve both. */
#ifndef BY_HAND_H
#define BY_HAND_H

#include <stdbool.h>
#include <stdint.h>

/* The faults of the chart X. Depth, steps and zero never come: no loop is without end, and nothing is divided. */
#define FAULTS(X) enum { X##_FAULT_NONE, X##_FAULT_DEPTH, X##_FAULT_STEPS, X##_FAULT_OVERFLOW, X##_FAULT_ZERO }

/* The fields for the events that were emitted, at most so many, and for the fault of the last event. */
#define RESULTS(most) uint32_t outs, out[most], fault, fault_datum

#endif
