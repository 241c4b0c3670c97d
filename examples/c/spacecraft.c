/* Runs the mode manager of a spacecraft for a minute. Commands from ground come at some seconds, and each second there is a sample.
   The C is made with `--depth 3 --steps 6`, so it needs little memory, and an event that takes more than six steps is a fault. */
#include "Spacecraft.h"
#include <stddef.h>
#include <stdio.h>
#include <string.h>

struct command {
    unsigned second;
    uint32_t event;
    const char *name;
};

static const struct command commands[] = {
    {5, Spacecraft_E_OBSERVE, "OBSERVE"},
    {30, Spacecraft_E_RESUME, "RESUME"},
    {40, Spacecraft_E_PASS, "PASS"},
};

static const char *mode_of(const Spacecraft_chart *craft)
{
    if (Spacecraft_in_Mission_Safe(craft)) {
        return "safe";
    }
    if (Spacecraft_in_Mission_Nominal_Observing(craft)) {
        return "observes";
    }
    return Spacecraft_in_Mission_Nominal_Downlink(craft) ? "speaks to ground" : "idle";
}

static void show_outputs(const Spacecraft_chart *craft)
{
    for (uint32_t place = 0; place < craft->outs; place++) {
        printf("    %s\n", craft->out[place] == Spacecraft_E_alarm ? "alarm" : "beacon");
    }
}

/* Gives the chart an event. After a fault it begins anew, with the inputs that it had. */
static bool handle(Spacecraft_chart *craft, uint32_t event)
{
    uint16_t volts = craft->in_volts;
    int16_t rate = craft->in_rate;
    bool locked = craft->in_locked;
    bool is_ok = Spacecraft_react(craft, event);
    show_outputs(craft);
    if (is_ok) {
        return true;
    }
    printf("    fault %u after %u steps: the manager begins anew\n", (unsigned)craft->fault, (unsigned)craft->used);
    is_ok = Spacecraft_init(craft);
    craft->in_volts = volts;
    craft->in_rate = rate;
    craft->in_locked = locked;
    return is_ok && Spacecraft_start(craft);
}

int main(void)
{
    static Spacecraft_chart craft;
    const char *before = "";
    if (!Spacecraft_init(&craft) || !Spacecraft_start(&craft)) {
        return 1;
    }
    for (unsigned second = 1; second <= 60; second++) {
        craft.in_volts = (uint16_t)(second >= 12 && second < 20 ? 24 * 256 : 28 * 256);
        craft.in_locked = second >= 43;
        if (!handle(&craft, Spacecraft_E_SAMPLE)) {
            return 1;
        }
        for (size_t each = 0; each < sizeof commands / sizeof commands[0]; each++) {
            if (commands[each].second == second) {
                printf("second %u: %s\n", second, commands[each].name);
                if (!handle(&craft, commands[each].event)) {
                    return 1;
                }
            }
        }
        if (strcmp(mode_of(&craft), before) != 0) {
            before = mode_of(&craft);
            printf("second %u: %s, %u images\n", second, before, (unsigned)craft.out_images);
        }
    }
    return 0;
}
