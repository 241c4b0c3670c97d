/* A chart as a unit of co-simulation by the Functional Mock-up Interface 2.0. The types and functions are those that the standard
   gives in fmi2TypesPlatform.h, fmi2FunctionTypes.h and fmi2Functions.h; model.h, which flowfmu writes, has the chart.

   The functions are called X_fmi2DoStep .., as the standard has it of sources, and fmi2DoStep .. where
   FMI2_OVERRIDE_FUNCTION_PREFIX is defined, as for a shared library. */
#include <stdarg.h>
#include <stdbool.h>
#include <stddef.h>
#include <stdint.h>
#include <stdlib.h>
#include <string.h>

typedef void *fmi2Component, *fmi2ComponentEnvironment, *fmi2FMUstate;
typedef unsigned int fmi2ValueReference;
typedef double fmi2Real;
typedef int fmi2Integer, fmi2Boolean;
typedef char fmi2Char, fmi2Byte;
typedef const fmi2Char *fmi2String;
typedef enum { fmi2OK, fmi2Warning, fmi2Discard, fmi2Error, fmi2Fatal, fmi2Pending } fmi2Status;
typedef enum { fmi2ModelExchange, fmi2CoSimulation } fmi2Type;
typedef enum { fmi2DoStepStatus, fmi2PendingStatus, fmi2LastSuccessfulTime, fmi2Terminated } fmi2StatusKind;
typedef struct {
    void (*logger)(fmi2ComponentEnvironment, fmi2String, fmi2Status, fmi2String, fmi2String, ...);
    void *(*allocateMemory)(size_t, size_t);
    void (*freeMemory)(void *);
    void (*stepFinished)(fmi2ComponentEnvironment, fmi2Status);
    fmi2ComponentEnvironment componentEnvironment;
} fmi2CallbackFunctions;

/* What a value is: a datum of the chart, the count of an event that goes in or comes out, whether a state is active, the fault. */
enum kind { DATUM, EVENT, OUTPUT, STATE, FAULT };
enum type { FLAG, S8, U8, S16, U16, S32, U32, S64, U64 };

/* A datum of the chart: where its field stands, its type, how much its units are, and the least and the greatest mantissa. */
struct datum {
    size_t offset;
    enum type type;
    double step;
    int64_t least;
    uint64_t greatest;
    bool is_input;
};

/* The value of a reference, and its place among the data, the events, the outputs or the states. */
struct value {
    enum kind kind;
    unsigned place;
};

#include "model.h"

#define JOIN_WORDS(a, b) a##b
#define JOIN(a, b) JOIN_WORDS(a, b)
#ifdef FMI2_OVERRIDE_FUNCTION_PREFIX
#define NAME(name) name
#else
#define NAME(name) JOIN(MODEL_PREFIX, name)
#endif
#if defined(_WIN32)
#define EXPORT __declspec(dllexport)
#elif defined(__GNUC__)
#define EXPORT __attribute__((visibility("default")))
#else
#define EXPORT
#endif

/* Where an instance stands in the standard's automaton of co-simulation. */
enum phase { INSTANTIATED, INITIALIZING, STEPPING, TERMINATED, FAILED };

/* What a snapshot of an instance has. */
struct run {
    CHART chart;
    enum phase phase;
    double time;
    bool begun;
    int32_t wanted[EVENTS], done[EVENTS]; /* how often each event was asked for, and how often it was processed */
    int32_t emitted[OUTPUTS + 1];
};

struct instance {
    struct run run;
    const fmi2CallbackFunctions *calls;
    char *name;
    bool is_logging;
};

static fmi2Status fail(struct instance *of, const char *said)
{
    if (of->calls->logger != NULL) {
        of->calls->logger(of->calls->componentEnvironment, of->name, fmi2Error, "logStatusError", "%s", said);
    }
    return fmi2Error;
}

/* ---- values */

static double load(const CHART *chart, const struct datum *datum)
{
    const void *field = (const char *)chart + datum->offset;
    switch (datum->type) {
    case FLAG: return *(const bool *)field ? 1.0 : 0.0;
    case S8: return *(const int8_t *)field * datum->step;
    case U8: return *(const uint8_t *)field * datum->step;
    case S16: return *(const int16_t *)field * datum->step;
    case U16: return *(const uint16_t *)field * datum->step;
    case S32: return *(const int32_t *)field * datum->step;
    case U32: return *(const uint32_t *)field * datum->step;
    case S64: return (double)*(const int64_t *)field * datum->step;
    default: return (double)*(const uint64_t *)field * datum->step;
    }
}

/* The greatest whole number that is at most x, for an x of at most 2^64. */
static double floor_of(double x)
{
    double whole;
    if (x >= 4503599627370496.0 || x <= -4503599627370496.0) {
        return x;
    }
    whole = (double)(int64_t)x;
    return whole > x ? whole - 1.0 : whole;
}

/* Stores a number: rounded down to units, and at the end of the range where it lies beyond. */
static void store(CHART *chart, const struct datum *datum, double number)
{
    void *field = (char *)chart + datum->offset;
    double mantissa = number / datum->step;
    int64_t whole = datum->least;
    uint64_t natural = 0;
    if (mantissa >= (double)datum->greatest) {
        natural = datum->greatest;
        whole = (int64_t)(datum->greatest & INT64_MAX);
    } else if (mantissa >= (double)datum->least) {
        mantissa = floor_of(mantissa);
        natural = mantissa < 0.0 ? 0 : (uint64_t)mantissa;
        whole = mantissa >= 9223372036854775808.0 ? INT64_MAX : (int64_t)mantissa;
    }
    switch (datum->type) {
    case FLAG: *(bool *)field = number != 0.0; break;
    case S8: *(int8_t *)field = (int8_t)whole; break;
    case U8: *(uint8_t *)field = (uint8_t)natural; break;
    case S16: *(int16_t *)field = (int16_t)whole; break;
    case U16: *(uint16_t *)field = (uint16_t)natural; break;
    case S32: *(int32_t *)field = (int32_t)whole; break;
    case U32: *(uint32_t *)field = (uint32_t)natural; break;
    case S64: *(int64_t *)field = whole; break;
    default: *(uint64_t *)field = natural; break;
    }
}

/* ---- the chart */

static void count_outputs(struct run *run)
{
    for (uint32_t at = 0; at < run->chart.outs; at++) {
        for (unsigned each = 0; each != OUTPUTS; each++) {
            if (output_numbers[each] == run->chart.out[at]) {
                run->emitted[each]++;
            }
        }
    }
}

/* Enters the chart, with the inputs that were stored. */
static bool begin(struct run *run)
{
    bool went = START(&run->chart);
    run->begun = true;
    count_outputs(run);
    return went;
}

/* An instance before its start: data have their first values, and inputs may be stored. */
static void reset(struct run *run)
{
    memset(run, 0, sizeof *run);
    INIT(&run->chart);
}

/* Processes the events that were asked for since the last step, in the order of the chart, the one without a name last. */
static bool react_to_all(struct run *run)
{
    for (unsigned each = 0; each < EVENTS; each++) {
        for (; run->done[each] < run->wanted[each]; run->done[each]++) {
            bool went = REACT(&run->chart, event_numbers[each]);
            count_outputs(run);
            if (!went) {
                return false;
            }
        }
    }
    return true;
}

/* ---- the functions of the standard */

EXPORT const char *NAME(fmi2GetTypesPlatform)(void)
{
    return "default";
}

EXPORT const char *NAME(fmi2GetVersion)(void)
{
    return "2.0";
}

EXPORT fmi2Component NAME(fmi2Instantiate)(fmi2String name, fmi2Type type, fmi2String guid, fmi2String resources,
                                           const fmi2CallbackFunctions *calls, fmi2Boolean visible, fmi2Boolean logging)
{
    struct instance *of;
    (void)resources;
    (void)visible;
    if (calls == NULL || name == NULL || name[0] == 0 || type != fmi2CoSimulation || guid == NULL || strcmp(guid, GUID) != 0) {
        return NULL;
    }
    of = calloc(1, sizeof *of);
    if (of == NULL) {
        return NULL;
    }
    of->name = calloc(1, strlen(name) + 1);
    if (of->name == NULL) {
        free(of);
        return NULL;
    }
    strcpy(of->name, name);
    of->calls = calls;
    of->is_logging = logging != 0;
    reset(&of->run);
    return of;
}

EXPORT void NAME(fmi2FreeInstance)(fmi2Component component)
{
    struct instance *of = component;
    if (of != NULL) {
        free(of->name);
        free(of);
    }
}

EXPORT fmi2Status NAME(fmi2SetDebugLogging)(fmi2Component component, fmi2Boolean on, size_t count, const fmi2String categories[])
{
    struct instance *of = component;
    (void)count;
    (void)categories;
    of->is_logging = on != 0;
    return fmi2OK;
}

EXPORT fmi2Status NAME(fmi2SetupExperiment)(fmi2Component component, fmi2Boolean has_tolerance, fmi2Real tolerance, fmi2Real start,
                                            fmi2Boolean has_stop, fmi2Real stop)
{
    struct instance *of = component;
    (void)has_tolerance;
    (void)tolerance;
    (void)has_stop;
    (void)stop;
    if (of->run.phase != INSTANTIATED) {
        return fail(of, "the experiment is set up after the instance");
    }
    of->run.time = start;
    return fmi2OK;
}

EXPORT fmi2Status NAME(fmi2EnterInitializationMode)(fmi2Component component)
{
    struct instance *of = component;
    if (of->run.phase != INSTANTIATED) {
        return fail(of, "the instance is initialized already");
    }
    of->run.phase = INITIALIZING;
    return fmi2OK;
}

EXPORT fmi2Status NAME(fmi2ExitInitializationMode)(fmi2Component component)
{
    struct instance *of = component;
    if (of->run.phase != INITIALIZING) {
        return fail(of, "the instance isn't being initialized");
    }
    /* Counts that stand there before the start are where counting begins. */
    memcpy(of->run.done, of->run.wanted, sizeof of->run.done);
    if (!begin(&of->run)) {
        of->run.phase = FAILED;
        return fail(of, "the start of the chart ended with a fault");
    }
    of->run.phase = STEPPING;
    return fmi2OK;
}

EXPORT fmi2Status NAME(fmi2Terminate)(fmi2Component component)
{
    struct instance *of = component;
    if (of->run.phase != STEPPING) {
        return fail(of, "the instance doesn't run");
    }
    of->run.phase = TERMINATED;
    return fmi2OK;
}

EXPORT fmi2Status NAME(fmi2Reset)(fmi2Component component)
{
    reset(&((struct instance *)component)->run);
    return fmi2OK;
}

EXPORT fmi2Status NAME(fmi2DoStep)(fmi2Component component, fmi2Real time, fmi2Real step, fmi2Boolean no_return)
{
    struct instance *of = component;
    (void)no_return;
    if (of->run.phase != STEPPING) {
        return fail(of, "the instance doesn't run");
    }
    if (!react_to_all(&of->run)) {
        of->run.phase = FAILED;
        return fail(of, "an event of the chart ended with a fault");
    }
    of->run.time = time + step;
    return fmi2OK;
}

EXPORT fmi2Status NAME(fmi2CancelStep)(fmi2Component component)
{
    return fail(component, "no step is pending");
}

/* ---- getting and setting. A reference of another type than that of its value is refused. */

static const struct value *value_of(fmi2ValueReference reference, char type)
{
    return reference < VALUES && value_types[reference] == type ? &values[reference] : NULL;
}

static double number_of(const struct run *run, const struct value *value)
{
    switch (value->kind) {
    case DATUM: return load(&run->chart, &data[value->place]);
    case EVENT: return run->wanted[value->place];
    case OUTPUT: return run->emitted[value->place];
    case STATE: return is_active(&run->chart, value->place) ? 1.0 : 0.0;
    default: return run->chart.fault;
    }
}

/* Gets each value into numbers of C's type, for values of the type of the standard that the letter stands for. */
#define GETTER(function, ctype, letter)                                                                                     \
    EXPORT fmi2Status NAME(function)(fmi2Component component, const fmi2ValueReference references[], size_t count,            \
                                     ctype numbers[])                                                                         \
    {                                                                                                                         \
        struct instance *of = component;                                                                                      \
        for (size_t at = 0; at < count; at++) {                                                                               \
            const struct value *value = value_of(references[at], letter);                                                     \
            if (value == NULL) {                                                                                              \
                return fail(of, "no value of this type has the reference");                                                   \
            }                                                                                                                 \
            numbers[at] = (ctype)number_of(&of->run, value);                                                                  \
        }                                                                                                                     \
        return fmi2OK;                                                                                                        \
    }

GETTER(fmi2GetReal, fmi2Real, 'R')
GETTER(fmi2GetInteger, fmi2Integer, 'I')
GETTER(fmi2GetBoolean, fmi2Boolean, 'B')

EXPORT fmi2Status NAME(fmi2GetString)(fmi2Component component, const fmi2ValueReference references[], size_t count,
                                      fmi2String texts[])
{
    (void)references;
    (void)texts;
    return count == 0 ? fmi2OK : fail(component, "no value is a text");
}

static fmi2Status set(struct instance *of, const struct value *value, double number)
{
    if (value == NULL || (value->kind != EVENT && !(value->kind == DATUM && data[value->place].is_input))) {
        return fail(of, "no input of this type has the reference");
    }
    if (of->run.phase == TERMINATED || of->run.phase == FAILED) {
        return fail(of, "the run is over");
    }
    if (number != number) {
        return fail(of, "an input is no number");
    }
    if (value->kind == EVENT) {
        if (of->run.begun && number < of->run.done[value->place]) {
            return fail(of, "the count of an event went down");
        }
        of->run.wanted[value->place] = (int32_t)number;
    } else {
        store(&of->run.chart, &data[value->place], number);
    }
    return fmi2OK;
}

#define SETTER(function, ctype, letter)                                                                                     \
    EXPORT fmi2Status NAME(function)(fmi2Component component, const fmi2ValueReference references[], size_t count,            \
                                     const ctype numbers[])                                                                   \
    {                                                                                                                         \
        for (size_t at = 0; at < count; at++) {                                                                               \
            fmi2Status status = set(component, value_of(references[at], letter), (double)numbers[at]);                        \
            if (status != fmi2OK) {                                                                                           \
                return status;                                                                                                \
            }                                                                                                                 \
        }                                                                                                                     \
        return fmi2OK;                                                                                                        \
    }

SETTER(fmi2SetReal, fmi2Real, 'R')
SETTER(fmi2SetInteger, fmi2Integer, 'I')
SETTER(fmi2SetBoolean, fmi2Boolean, 'B')

EXPORT fmi2Status NAME(fmi2SetString)(fmi2Component component, const fmi2ValueReference references[], size_t count,
                                      const fmi2String texts[])
{
    (void)references;
    (void)texts;
    return count == 0 ? fmi2OK : fail(component, "no value is a text");
}

/* ---- snapshots */

EXPORT fmi2Status NAME(fmi2GetFMUstate)(fmi2Component component, fmi2FMUstate *state)
{
    struct instance *of = component;
    if (*state == NULL) {
        *state = malloc(sizeof(struct run));
    }
    if (*state == NULL) {
        return fail(of, "there is no memory");
    }
    memcpy(*state, &of->run, sizeof(struct run));
    return fmi2OK;
}

EXPORT fmi2Status NAME(fmi2SetFMUstate)(fmi2Component component, fmi2FMUstate state)
{
    if (state == NULL) {
        return fail(component, "there is no snapshot");
    }
    memcpy(&((struct instance *)component)->run, state, sizeof(struct run));
    return fmi2OK;
}

EXPORT fmi2Status NAME(fmi2FreeFMUstate)(fmi2Component component, fmi2FMUstate *state)
{
    (void)component;
    free(*state);
    *state = NULL;
    return fmi2OK;
}

EXPORT fmi2Status NAME(fmi2SerializedFMUstateSize)(fmi2Component component, fmi2FMUstate state, size_t *size)
{
    (void)component;
    (void)state;
    *size = sizeof(struct run);
    return fmi2OK;
}

EXPORT fmi2Status NAME(fmi2SerializeFMUstate)(fmi2Component component, fmi2FMUstate state, fmi2Byte bytes[], size_t size)
{
    if (state == NULL || size < sizeof(struct run)) {
        return fail(component, "there is no room for the snapshot");
    }
    memcpy(bytes, state, sizeof(struct run));
    return fmi2OK;
}

EXPORT fmi2Status NAME(fmi2DeSerializeFMUstate)(fmi2Component component, const fmi2Byte bytes[], size_t size, fmi2FMUstate *state)
{
    if (size != sizeof(struct run)) {
        return fail(component, "the bytes are no snapshot");
    }
    if (*state == NULL) {
        *state = malloc(sizeof(struct run));
    }
    if (*state == NULL) {
        return fail(component, "there is no memory");
    }
    memcpy(*state, bytes, sizeof(struct run));
    return fmi2OK;
}

/* ---- what a chart has not, and what is asked of a step that is pending: none is */

EXPORT fmi2Status NAME(fmi2GetDirectionalDerivative)(fmi2Component component, const fmi2ValueReference unknowns[],
                                                     size_t unknown_count, const fmi2ValueReference knowns[], size_t known_count,
                                                     const fmi2Real of[], fmi2Real derivatives[])
{
    (void)unknowns;
    (void)unknown_count;
    (void)knowns;
    (void)known_count;
    (void)of;
    (void)derivatives;
    return fail(component, "a chart has no derivatives");
}

EXPORT fmi2Status NAME(fmi2SetRealInputDerivatives)(fmi2Component component, const fmi2ValueReference references[], size_t count,
                                                    const fmi2Integer orders[], const fmi2Real derivatives[])
{
    (void)references;
    (void)count;
    (void)orders;
    (void)derivatives;
    return fail(component, "a chart has no derivatives");
}

EXPORT fmi2Status NAME(fmi2GetRealOutputDerivatives)(fmi2Component component, const fmi2ValueReference references[], size_t count,
                                                     const fmi2Integer orders[], fmi2Real derivatives[])
{
    (void)references;
    (void)count;
    (void)orders;
    (void)derivatives;
    return fail(component, "a chart has no derivatives");
}

EXPORT fmi2Status NAME(fmi2GetStatus)(fmi2Component component, fmi2StatusKind kind, fmi2Status *status)
{
    (void)component;
    (void)kind;
    (void)status;
    return fmi2Discard;
}

EXPORT fmi2Status NAME(fmi2GetRealStatus)(fmi2Component component, fmi2StatusKind kind, fmi2Real *number)
{
    if (kind != fmi2LastSuccessfulTime) {
        return fmi2Discard;
    }
    *number = ((struct instance *)component)->run.time;
    return fmi2OK;
}

EXPORT fmi2Status NAME(fmi2GetIntegerStatus)(fmi2Component component, fmi2StatusKind kind, fmi2Integer *number)
{
    (void)component;
    (void)kind;
    (void)number;
    return fmi2Discard;
}

EXPORT fmi2Status NAME(fmi2GetBooleanStatus)(fmi2Component component, fmi2StatusKind kind, fmi2Boolean *flag)
{
    if (kind != fmi2Terminated) {
        return fmi2Discard;
    }
    *flag = ((struct instance *)component)->run.phase == FAILED;
    return fmi2OK;
}

EXPORT fmi2Status NAME(fmi2GetStringStatus)(fmi2Component component, fmi2StatusKind kind, fmi2String *text)
{
    (void)component;
    (void)kind;
    (void)text;
    return fmi2Discard;
}
