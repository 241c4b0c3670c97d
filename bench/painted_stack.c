/* Measures the stack of the calls of the chart CHART. The linker puts these functions before the two of the chart, by
   --wrap=CHART_start and --wrap=CHART_react. Each call runs on a stack of its own, which was filled with one byte before; at the
   end of the run standard error gets how many bytes of it were ever used. What comes before the call itself is told by a call of
   an empty function, which uses its return address alone. */
#include <stdbool.h>
#include <stdint.h>
#include <stdio.h>
#include <stdlib.h>
#include <string.h>
#include <ucontext.h>

#define JOINED(first, second, third) first##second##third
#define NAMED(first, second, third) JOINED(first, second, third)
#define REAL(word) NAMED(__real_, CHART, _##word)
#define WRAP(word) NAMED(__wrap_, CHART, _##word)

enum { ROOM = 1 << 24, PAINT = 0xa5, RETURN_ADDRESS = sizeof (void *) };

static unsigned char room[ROOM];
static ucontext_t outside, inside;
static bool (*called)(void *chart, uint32_t event);
static void *given_chart;
static uint32_t given_event;
static bool result;
static size_t used_by_nothing;

bool REAL(start)(void *chart);
bool REAL(react)(void *chart, uint32_t event);

static void run_called(void)
{
    result = called(given_chart, given_event);
}

static bool on_stack(bool (*function)(void *chart, uint32_t event), void *chart, uint32_t event)
{
    called = function;
    given_chart = chart;
    given_event = event;
    getcontext(&inside);
    inside.uc_stack.ss_sp = room;
    inside.uc_stack.ss_size = ROOM;
    inside.uc_link = &outside;
    makecontext(&inside, run_called, 0);
    swapcontext(&outside, &inside);
    return result;
}

static size_t used(void)
{
    size_t untouched = 0;
    while (untouched < ROOM && room[untouched] == PAINT) {
        untouched++;
    }
    return ROOM - untouched;
}

static bool nothing(void *chart, uint32_t event)
{
    return chart != NULL && event == 0;
}

static bool start(void *chart, uint32_t event)
{
    (void)event;
    return REAL(start)(chart);
}

static void tell(void)
{
    fprintf(stderr, "stack %zu\n", used() - used_by_nothing + RETURN_ADDRESS);
}

bool WRAP(start)(void *chart)
{
    memset(room, PAINT, ROOM);
    on_stack(nothing, chart, 0);
    used_by_nothing = used();
    atexit(tell);
    return on_stack(start, chart, 0);
}

bool WRAP(react)(void *chart, uint32_t event)
{
    return on_stack(REAL(react), chart, event);
}
