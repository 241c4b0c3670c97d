/* The motor control of examples/motor, by hand. Numbers are in units of 2^-F where the chart's type ends with _EnF. */
#ifndef MOTOR_H
#define MOTOR_H

#include "by_hand.h"

enum { Motor_E_SAMPLE, Motor_E_START, Motor_E_STOP, Motor_E_stalled, Motor_TICK };
FAULTS(Motor);

typedef struct {
    enum { STOPPED, FOLLOWING, LIMITED, STALLED } state;
    uint8_t in_counter;
    int16_t in_target;
    uint8_t loc_last;
    int8_t loc_speed;
    int32_t loc_way;
    int16_t loc_deviation;
    int16_t loc_integral;
    int32_t loc_wanted;
    bool loc_limited;
    uint8_t loc_still;
    int8_t out_drive;
    RESULTS(1);
} Motor_chart;

bool Motor_init(Motor_chart *m);
bool Motor_start(Motor_chart *m);
bool Motor_react(Motor_chart *m, uint32_t event);

static inline bool Motor_in_Stopped(const Motor_chart *m) { return m->state == STOPPED; }
static inline bool Motor_in_Running(const Motor_chart *m) { return m->state == FOLLOWING || m->state == LIMITED; }
static inline bool Motor_in_Running_Following(const Motor_chart *m) { return m->state == FOLLOWING; }
static inline bool Motor_in_Running_Limited(const Motor_chart *m) { return m->state == LIMITED; }
static inline bool Motor_in_Stalled(const Motor_chart *m) { return m->state == STALLED; }

#endif
