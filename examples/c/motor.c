/* Keeps a simulated motor at a speed. Each 10 ms the counter of the encoder is read, the chart has its event, and the amplifier is set. */
#include "Motor.h"
#include <stdio.h>

/* The motor as it is: its speed in counts a sample, and its place in counts. */
struct plant {
    double speed, place;
    int is_blocked;
};

/* One sample under so many volts. */
static void move(struct plant *plant, double volts)
{
    plant->speed += plant->is_blocked ? -plant->speed : (16.0 * volts - plant->speed) / 4.0;
    plant->place += plant->speed;
}

/* What an encoder of 8 bits shows. */
static uint8_t counter_of(const struct plant *plant)
{
    return (uint8_t)((int64_t)plant->place & 255);
}

/* After a fault the run is over. The amplifier goes to 0, and the chart begins anew. */
static bool recover(Motor_chart *motor)
{
    printf("fault %u of datum %u: the motor is stopped\n", (unsigned)motor->fault, (unsigned)motor->fault_datum);
    return Motor_init(motor) && Motor_start(motor);
}

static bool handle(Motor_chart *motor, uint32_t event)
{
    if (!Motor_react(motor, event) && !recover(motor)) {
        return false;
    }
    for (uint32_t place = 0; place < motor->outs; place++) {
        if (motor->out[place] == Motor_E_stalled) {
            printf("the motor is stalled\n");
        }
    }
    return true;
}

int main(void)
{
    static Motor_chart motor;
    struct plant plant = {0.0, 0.0, 0};
    if (!Motor_init(&motor) || !Motor_start(&motor) || !handle(&motor, Motor_E_START)) {
        return 1;
    }
    for (int sample = 0; sample < 120; sample++) {
        motor.in_target = (int16_t)((sample < 60 ? 40 : -25) * 256);
        plant.is_blocked = sample >= 100;
        motor.in_counter = counter_of(&plant);
        if (!handle(&motor, Motor_E_SAMPLE)) {
            return 1;
        }
        move(&plant, motor.out_drive / 16.0);
        if (sample % 10 == 9) {
            printf("sample %3d: %7.3f counts a sample, drive %7.4f volts%s\n", sample + 1, plant.speed, motor.out_drive / 16.0,
                   Motor_in_Running_Limited(&motor) ? ", limited" : "");
        }
    }
    return 0;
}
