/* Runs a pump by its chart. In a product the loop would wait for the next event and read a sensor; here a table has both. */
#include "Pump.h"
#include <stddef.h>
#include <stdio.h>

struct turn {
    uint32_t event;
    double pressure;
};

static const struct turn turns[] = {
    {Pump_TICK, 9.0},    {Pump_E_START, 9.0},  {Pump_E_START, 7.0},  {Pump_E_STROKE, 7.5}, {Pump_E_STROKE, 8.0},
    {Pump_E_STOP, 8.0},  {Pump_E_START, 7.0},  {Pump_E_CLEAN, 7.0},  {Pump_E_START, 7.0},  {Pump_E_STROKE, 7.0},
};

/* The input has units of 2^-4. */
static int16_t in_units(double pressure)
{
    return (int16_t)(pressure * 16.0);
}

static void show(const Pump_chart *pump)
{
    printf("pressure %.2f: the motor %s, flow %.2f, %u strokes, the filter is %s\n", pump->in_pressure / 16.0,
           Pump_in_Motor_Running(pump) ? "runs" : "rests", pump->out_flow / 256.0, (unsigned)pump->loc_strokes,
           Pump_in_Filter_Blocked(pump) ? "blocked" : "clean");
}

int main(void)
{
    static Pump_chart pump;
    if (!Pump_init(&pump) || !Pump_start(&pump)) {
        return 1;
    }
    for (size_t turn = 0; turn < sizeof turns / sizeof turns[0]; turn++) {
        pump.in_pressure = in_units(turns[turn].pressure);
        /* The bounds of this chart can't be overrun, and nothing in it overflows: so a fault is a defect of the product. */
        if (!Pump_react(&pump, turns[turn].event)) {
            return 1;
        }
        show(&pump);
    }
    return 0;
}
