/* What driver.c and the table of a chart share. `checks/tables/chart_c.py` writes the table: one instance of the chart, its names, and where
   its data stand. */
#ifndef DRIVER_H
#define DRIVER_H

#include <stdbool.h>
#include <stdint.h>

/* The type of the field that has a datum. */
enum field_type { FLAG, SIGNED_8, SIGNED_16, SIGNED_32, SIGNED_64, UNSIGNED_8, UNSIGNED_16, UNSIGNED_32, UNSIGNED_64 };

/* A datum of the chart. A number has so many bits, so many of them after the point. */
struct datum {
    const char *name;
    void *field;
    enum field_type type;
    unsigned width, fraction;
    bool is_input;
};

/* An event of the chart that isn't local. */
struct event {
    const char *name;
    uint32_t number;
    bool is_input;
};

/* Both in the order of the chart, with one without a name at the end. Among the events is `tick`. */
extern const struct datum chart_data[];
extern const struct event chart_events[];

/* The calls of the chart. */
bool chart_start(void);
bool chart_react(uint32_t event);

/* Shows the path of each active state but the root, in the order of the text. */
void show_active(void (*show)(const char *path));

/* The events that were emitted. */
uint32_t output_count(void);
uint32_t output_at(uint32_t place);

/* The word for the fault, and the number of the datum that overflowed. */
const char *fault_word(void);
uint32_t fault_datum(void);

#endif
