/* The mode manager by hand: a function for each region, which switches over its states and their events. What a region sends is
   a call of the functions of the regions that have a transition for it. */
#include "Spacecraft.h"

enum { VOLTS_LEAST = 49 * 128, RATE_MOST = 2 * 256, RATE_CALM = 128 };

static void mission(Spacecraft_chart *m, uint32_t event);
static void attitude(Spacecraft_chart *m, uint32_t event);
static void radio(Spacecraft_chart *m, uint32_t event);

static void emit(Spacecraft_chart *m, uint32_t event)
{
    m->out[m->outs++] = event;
}

/* ---- the monitor */

static void be_healthy(Spacecraft_chart *m)
{
    m->monitor = HEALTHY;
    m->loc_count = 0;
    m->out_cause = 0;
}

static void be_faulty(Spacecraft_chart *m)
{
    m->monitor = FAULTY;
    m->loc_count = 0;
    emit(m, Spacecraft_E_alarm);
    mission(m, FAULT);
    attitude(m, FAULT);
}

/* Counts a sample that speaks against the state, and gives whether it is the third in a row. */
static bool is_third(Spacecraft_chart *m)
{
    m->loc_count++;
    return m->loc_count >= 3;
}

static void bad_sample(Spacecraft_chart *m, uint8_t cause)
{
    m->out_cause = cause;
    if (m->monitor == FAULTY) {
        m->loc_count = 0;
    } else if (is_third(m)) {
        be_faulty(m);
    }
}

static void good_sample(Spacecraft_chart *m)
{
    if (m->monitor == HEALTHY) {
        m->loc_count = 0;
        m->out_cause = 0;
    } else if (is_third(m)) {
        mission(m, CLEAR);
        be_healthy(m);
    }
}

static void monitor(Spacecraft_chart *m, uint32_t event)
{
    if (event != Spacecraft_E_SAMPLE) {
        return;
    }
    if (m->in_volts < VOLTS_LEAST) {
        bad_sample(m, 1);
    } else if (m->in_rate > RATE_MOST || m->in_rate < -RATE_MOST) {
        bad_sample(m, 2);
    } else {
        good_sample(m);
    }
}

/* ---- the mission */

static void observe(Spacecraft_chart *m)
{
    attitude(m, SLEW);
    m->mission = OBSERVING_TURNING;
}

static void link_down(Spacecraft_chart *m)
{
    radio(m, LINK);
    m->mission = DOWNLINK;
}

static void be_safe(Spacecraft_chart *m)
{
    m->interrupted = m->mission;
    emit(m, Spacecraft_E_beacon);
    m->mission = SAFE_WAITING;
}

/* Goes on with what was done before the fault. */
static void resume(Spacecraft_chart *m)
{
    switch (m->interrupted) {
    case OBSERVING_TURNING:
    case OBSERVING_IMAGING: observe(m); break;
    case DOWNLINK: link_down(m); break;
    default: m->mission = IDLE; break;
    }
}

static void take_image(Spacecraft_chart *m)
{
    if (m->out_images < UINT8_MAX) {
        m->out_images++;
    }
    if (m->out_images >= 8) {
        attitude(m, RELEASE);
        m->mission = IDLE;
    }
}

/* While linked there is at least one image. */
static void send_image(Spacecraft_chart *m)
{
    m->out_images--;
    if (m->out_images == 0) {
        radio(m, UNLINK);
        m->mission = IDLE;
    }
}

static void mission(Spacecraft_chart *m, uint32_t event)
{
    switch (m->mission) {
    case IDLE:
        switch (event) {
        case FAULT: be_safe(m); break;
        case Spacecraft_E_OBSERVE: observe(m); break;
        case Spacecraft_E_PASS:
            if (m->out_images > 0) {
                link_down(m);
            }
            break;
        default: break;
        }
        break;
    case OBSERVING_TURNING:
        switch (event) {
        case FAULT: attitude(m, RELEASE); be_safe(m); break;
        case POINTED: m->mission = OBSERVING_IMAGING; break;
        default: break;
        }
        break;
    case OBSERVING_IMAGING:
        switch (event) {
        case FAULT: attitude(m, RELEASE); be_safe(m); break;
        case Spacecraft_E_SAMPLE: take_image(m); break;
        default: break;
        }
        break;
    case DOWNLINK:
        switch (event) {
        case FAULT: radio(m, UNLINK); be_safe(m); break;
        case Spacecraft_E_SAMPLE:
            if (m->radio == HIGH_GAIN_LOCKED) {
                send_image(m);
            }
            break;
        default: break;
        }
        break;
    case SAFE_WAITING:
        if (event == CLEAR) {
            m->mission = SAFE_READY;
        }
        break;
    case SAFE_READY:
        switch (event) {
        case FAULT: m->mission = SAFE_WAITING; break;
        case Spacecraft_E_RESUME:
            if (m->attitude != DAMPING) {
                resume(m);
            }
            break;
        default: break;
        }
        break;
    default: break;
    }
}

/* ---- the attitude */

static void turn(Spacecraft_chart *m)
{
    m->loc_angle = (uint8_t)(m->loc_angle < 15 ? 0 : m->loc_angle - 15);
    if (m->loc_angle == 0) {
        m->attitude = TARGET;
        mission(m, POINTED);
    }
}

static void attitude(Spacecraft_chart *m, uint32_t event)
{
    if (event == FAULT) {
        if (m->out_cause == 2) {
            m->attitude = DAMPING;
        }
        return;
    }
    switch (m->attitude) {
    case SUN:
        if (event == SLEW) {
            m->loc_angle = 40;
            m->attitude = SLEWING;
        }
        break;
    case SLEWING:
        switch (event) {
        case RELEASE: m->attitude = SUN; break;
        case Spacecraft_E_SAMPLE: turn(m); break;
        default: break;
        }
        break;
    case TARGET:
        if (event == RELEASE) {
            m->attitude = SUN;
        }
        break;
    case DAMPING:
        if (event == Spacecraft_E_SAMPLE && m->in_rate < RATE_CALM && m->in_rate > -RATE_CALM) {
            m->attitude = SUN;
        }
        break;
    default: break;
    }
}

/* ---- the radio */

static void radio(Spacecraft_chart *m, uint32_t event)
{
    switch (m->radio) {
    case LOW_GAIN:
        if (event == LINK) {
            m->radio = HIGH_GAIN_ACQUIRING;
        }
        break;
    case HIGH_GAIN_ACQUIRING:
    case HIGH_GAIN_LOCKED:
        switch (event) {
        case UNLINK: m->radio = LOW_GAIN; break;
        case Spacecraft_E_SAMPLE: m->radio = m->in_locked ? HIGH_GAIN_LOCKED : HIGH_GAIN_ACQUIRING; break;
        default: break;
        }
        break;
    default: break;
    }
}

/* ---- the whole */

bool Spacecraft_init(Spacecraft_chart *m)
{
    *m = (Spacecraft_chart){.in_volts = 28 * 256};
    return true;
}

bool Spacecraft_start(Spacecraft_chart *m)
{
    m->mission = IDLE;
    m->attitude = SUN;
    m->radio = LOW_GAIN;
    be_healthy(m);
    return true;
}

bool Spacecraft_react(Spacecraft_chart *m, uint32_t event)
{
    m->outs = 0;
    monitor(m, event);
    mission(m, event);
    attitude(m, event);
    radio(m, event);
    return true;
}
