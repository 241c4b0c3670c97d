/* Reads an event file and writes the trace of a generated case. The program that includes this defines REGIONS and STATES
   before, and the two functions `start` and `react` behind. It is C and C++. Lines are written 60 KiB at a time. */
#include <stdint.h>
#include <stdio.h>
#include <stdlib.h>
#include <string.h>

enum { TICK = 4 };

/* What a line of the trace shows: for each region its active state and its datum, and the input. */
static struct {
    int state[REGIONS];
    int32_t n[REGIONS];
    int16_t x;
} world;

/* The number with a mantissa of 32 bits that the mode `wrap` gives. */
static inline int32_t wrapped(uint32_t mantissa) { return (int32_t)mantissa; }

static void start(void);
static void react(int event);

static char active[REGIONS][STATES][32], datum[REGIONS][16];
static size_t active_length[REGIONS][STATES], datum_length[REGIONS];
static char trace[1 << 16];
static size_t filled;

static void names(void) {
    for (int region = 0; region < REGIONS; region++) {
        datum_length[region] = (size_t)sprintf(datum[region], ",n%d=", region);
        for (int state = 0; state < STATES; state++) {
            active_length[region][state] = (size_t)sprintf(active[region][state], "%sr%d,r%d/s%d",
                                                           region == 0 ? "" : ",", region, region, state);
        }
    }
}

static inline void put(const char *text, size_t length) {
    memcpy(trace + filled, text, length);
    filled += length;
}

static void put_number(int64_t number) {
    char digits[20];
    size_t place = sizeof digits;
    uint64_t rest = number < 0 ? (uint64_t)-number : (uint64_t)number;
    do {
        digits[--place] = (char)('0' + rest % 10);
        rest /= 10;
    } while (rest != 0);
    if (number < 0)
        digits[--place] = '-';
    put(digits + place, sizeof digits - place);
}

static void flush(void) {
    if (fwrite(trace, 1, filled, stdout) != filled || fflush(stdout) != 0)
        exit(5);
    filled = 0;
}

static void put_line(long index, const char *event, size_t length) {
    if (filled > sizeof trace - 4096)
        flush();
    put_number(index);
    put(" ", 1);
    put(event, length);
    put(" [", 2);
    for (int region = 0; region < REGIONS; region++)
        put(active[region][world.state[region]], active_length[region][world.state[region]]);
    put("] x=", 4);
    put_number(world.x);
    for (int region = 0; region < REGIONS; region++) {
        put(datum[region], datum_length[region]);
        put_number(world.n[region]);
    }
    put(" - ok\n", 6);
}

static char *whole_file(const char *name) {
    FILE *file = fopen(name, "rb");
    if (file == NULL || fseek(file, 0, SEEK_END) != 0)
        exit(4);
    long size = ftell(file);
    char *text = (char *)malloc((size_t)size + 1);
    rewind(file);
    if (text == NULL || fread(text, 1, (size_t)size, file) != (size_t)size)
        exit(4);
    text[size] = 0;
    fclose(file);
    return text;
}

/* Runs the machine over lines such as `e2 x=-42` and `tick x=7`. */
static void drive(const char *name) {
    names();
    start();
    put_line(0, "start", 5);
    char *text = whole_file(name);
    long index = 0;
    for (const char *at = text; *at != 0; at++) {
        const char *event = at;
        size_t length = *at == 'e' ? 2 : 4;
        at += length + 3;
        int negative = *at == '-';
        int value = 0;
        for (at += negative; *at != '\n'; at++)
            value = 10 * value + (*at - '0');
        world.x = (int16_t)(negative ? -value : value);
        react(*event == 'e' ? event[1] - '0' : TICK);
        put_line(++index, event, length);
    }
    flush();
    free(text);
}
