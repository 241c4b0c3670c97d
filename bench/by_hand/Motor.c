/* The motor control by hand: a switch over the states, and fixed point by shifts. */
#include "Motor.h"

enum { WAY = 4 };                           /* the number of the datum `way` in the chart */
enum { ONE_EN8 = 1 << 8, AMPLIFIER_EN16 = 8 << 16, PROPORTIONAL_EN8 = 25, INTEGRAL_EN8 = 7 };

static int32_t held(int32_t number, int32_t least, int32_t most)
{
    return number < least ? least : number > most ? most : number;
}

static void stop(Motor_chart *m)
{
    m->out_drive = 0;
    m->state = STOPPED;
}

static void run(Motor_chart *m)
{
    m->loc_last = m->in_counter;
    m->loc_integral = 0;
    m->loc_still = 0;
    m->state = FOLLOWING;
}

static void stall(Motor_chart *m)
{
    m->out_drive = 0;
    m->out[m->outs++] = Motor_E_stalled;
    m->state = STALLED;
}

/* The control law. False where the way doesn't fit. `wanted` fits, since the integral is held while the amplifier is limited. */
static bool control(Motor_chart *m)
{
    m->loc_speed = (int8_t)(m->in_counter - m->loc_last);
    m->loc_last = m->in_counter;
    int64_t way = (int64_t)m->loc_way + m->loc_speed;
    if (way < INT32_MIN || way > INT32_MAX) {
        m->fault = Motor_FAULT_OVERFLOW;
        m->fault_datum = WAY;
        return false;
    }
    m->loc_way = (int32_t)way;
    m->loc_deviation = (int16_t)held(m->in_target - m->loc_speed * ONE_EN8, INT16_MIN, INT16_MAX);
    m->loc_wanted = PROPORTIONAL_EN8 * m->loc_deviation + m->loc_integral * ONE_EN8;
    m->loc_limited = m->loc_wanted < -AMPLIFIER_EN16 || m->loc_wanted >= AMPLIFIER_EN16;
    m->out_drive = (int8_t)held(m->loc_wanted >> 12, INT8_MIN, INT8_MAX);
    if (!m->loc_limited) {
        m->loc_integral = (int16_t)held(m->loc_integral + ((INTEGRAL_EN8 * m->loc_deviation) >> 8), INT16_MIN, INT16_MAX);
    }
    return true;
}

/* A sample at the limit of the amplifier. */
static void watch(Motor_chart *m)
{
    if (!m->loc_limited) {
        m->loc_still = 0;
        m->state = FOLLOWING;
    } else if (m->loc_speed != 0) {
        m->loc_still = 0;
    } else {
        m->loc_still++;
        if (m->loc_still >= 3) {
            stall(m);
        }
    }
}

bool Motor_init(Motor_chart *m)
{
    *m = (Motor_chart){.in_target = 40 * ONE_EN8};
    return true;
}

bool Motor_start(Motor_chart *m)
{
    stop(m);
    return true;
}

bool Motor_react(Motor_chart *m, uint32_t event)
{
    m->outs = 0;
    switch (m->state) {
    case STOPPED:
        if (event == Motor_E_START) {
            run(m);
        }
        break;
    case FOLLOWING:
        if (event == Motor_E_STOP) {
            stop(m);
        } else if (event == Motor_E_SAMPLE) {
            if (!control(m)) {
                return false;
            }
            if (m->loc_limited) {
                m->state = LIMITED;
            }
        }
        break;
    case LIMITED:
        if (event == Motor_E_STOP) {
            stop(m);
        } else if (event == Motor_E_SAMPLE) {
            if (!control(m)) {
                return false;
            }
            watch(m);
        }
        break;
    case STALLED:
        if (event == Motor_E_START) {
            run(m);
        } else if (event == Motor_E_STOP) {
            stop(m);
        }
        break;
    default: break;
    }
    return true;
}
