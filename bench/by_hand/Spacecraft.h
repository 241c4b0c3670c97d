/* The mode manager of examples/spacecraft, by hand. Numbers of inputs are in units of 2^-8. */
#ifndef SPACECRAFT_H
#define SPACECRAFT_H

#include "by_hand.h"

enum {
    Spacecraft_E_SAMPLE, Spacecraft_E_OBSERVE, Spacecraft_E_PASS, Spacecraft_E_RESUME,
    FAULT, CLEAR, SLEW, RELEASE, LINK, UNLINK, POINTED,
    Spacecraft_E_alarm, Spacecraft_E_beacon,
    Spacecraft_TICK
};
FAULTS(Spacecraft);

/* The states of the mission down to the leaves: the first four are nominal, the others safe. */
enum mission { IDLE, OBSERVING_TURNING, OBSERVING_IMAGING, DOWNLINK, SAFE_WAITING, SAFE_READY };

typedef struct {
    enum { HEALTHY, FAULTY } monitor;
    enum mission mission, interrupted;      /* and the nominal state in which the last fault came */
    enum { SUN, SLEWING, TARGET, DAMPING } attitude;
    enum { LOW_GAIN, HIGH_GAIN_ACQUIRING, HIGH_GAIN_LOCKED } radio;
    uint16_t in_volts;
    int16_t in_rate;
    bool in_locked;
    uint8_t loc_count;
    uint8_t loc_angle;
    uint8_t out_cause;
    uint8_t out_images;
    RESULTS(2);
} Spacecraft_chart;

bool Spacecraft_init(Spacecraft_chart *m);
bool Spacecraft_start(Spacecraft_chart *m);
bool Spacecraft_react(Spacecraft_chart *m, uint32_t event);

#define IN(path, test) \
    static inline bool Spacecraft_in_##path(const Spacecraft_chart *m) { (void)m; return test; }

IN(Monitor, true)
IN(Monitor_Healthy, m->monitor == HEALTHY)
IN(Monitor_Faulty, m->monitor == FAULTY)
IN(Mission, true)
IN(Mission_Nominal, m->mission <= DOWNLINK)
IN(Mission_Nominal_Idle, m->mission == IDLE)
IN(Mission_Nominal_Observing, m->mission == OBSERVING_TURNING || m->mission == OBSERVING_IMAGING)
IN(Mission_Nominal_Observing_Turning, m->mission == OBSERVING_TURNING)
IN(Mission_Nominal_Observing_Imaging, m->mission == OBSERVING_IMAGING)
IN(Mission_Nominal_Downlink, m->mission == DOWNLINK)
IN(Mission_Safe, m->mission >= SAFE_WAITING)
IN(Mission_Safe_Waiting, m->mission == SAFE_WAITING)
IN(Mission_Safe_Ready, m->mission == SAFE_READY)
IN(Attitude, true)
IN(Attitude_Sun, m->attitude == SUN)
IN(Attitude_Slewing, m->attitude == SLEWING)
IN(Attitude_Target, m->attitude == TARGET)
IN(Attitude_Damping, m->attitude == DAMPING)
IN(Radio, true)
IN(Radio_LowGain, m->radio == LOW_GAIN)
IN(Radio_HighGain, m->radio != LOW_GAIN)
IN(Radio_HighGain_Acquiring, m->radio == HIGH_GAIN_ACQUIRING)
IN(Radio_HighGain_Locked, m->radio == HIGH_GAIN_LOCKED)

#endif
