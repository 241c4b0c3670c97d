/* Runs the C of a chart over an event file, and writes the trace as `flowc rules` does.

       PROGRAM EVENTS

   The status is 0 where the file ends, 3 where the run ends with a fault, which standard error tells as `flowc` does, and 1 where
   something else is wrong: standard error has a message then, which isn't that of `flowc`. */
#include "driver.h"
#include <inttypes.h>
#include <stdio.h>
#include <stdlib.h>
#include <string.h>

enum { LONGEST_LINE = 4096, MOST_DIGITS = 36, MOST_DATA = 1024 };

static const char *const digits = "0123456789";

/* The number of the line that is read, and the line in which each datum was given a value last. */
static unsigned long line_number;
static unsigned long given_in[MOST_DATA];

static void refuse(const char *what)
{
    fflush(stdout);
    fprintf(stderr, "line %lu: %s\n", line_number, what);
    exit(1);
}

/* ---- the trace */

static bool is_first;

/* Writes what stands between two of a list, or in front of it. */
static void separate(const char *before)
{
    fputs(is_first ? before : ",", stdout);
    is_first = false;
}

static void show_state(const char *path)
{
    separate("");
    fputs(path, stdout);
}

static void show_number(bool is_negative, uint64_t magnitude, unsigned fraction)
{
    uint64_t below = (UINT64_C(1) << fraction) - 1;
    uint64_t part = magnitude & below;
    printf("%s%" PRIu64 "%s", is_negative ? "-" : "", magnitude >> fraction, part != 0 ? "." : "");
    while (part != 0) {
        part *= 10;
        putchar((int)('0' + (part >> fraction)));
        part &= below;
    }
}

static void show_signed(int64_t mantissa, unsigned fraction)
{
    show_number(mantissa < 0, mantissa < 0 ? 0 - (uint64_t)mantissa : (uint64_t)mantissa, fraction);
}

static void show_datum(const struct datum *datum)
{
    separate("");
    printf("%s=", datum->name);
    switch (datum->type) {
    case FLAG: fputs(*(const bool *)datum->field ? "true" : "false", stdout); break;
    case SIGNED_8: show_signed(*(const int8_t *)datum->field, datum->fraction); break;
    case SIGNED_16: show_signed(*(const int16_t *)datum->field, datum->fraction); break;
    case SIGNED_32: show_signed(*(const int32_t *)datum->field, datum->fraction); break;
    case SIGNED_64: show_signed(*(const int64_t *)datum->field, datum->fraction); break;
    case UNSIGNED_8: show_number(false, *(const uint8_t *)datum->field, datum->fraction); break;
    case UNSIGNED_16: show_number(false, *(const uint16_t *)datum->field, datum->fraction); break;
    case UNSIGNED_32: show_number(false, *(const uint32_t *)datum->field, datum->fraction); break;
    case UNSIGNED_64: show_number(false, *(const uint64_t *)datum->field, datum->fraction); break;
    default: break;
    }
}

static void show_output(uint32_t number)
{
    const struct event *event = chart_events;
    while (event->name != NULL && event->number != number) {
        event++;
    }
    separate("");
    fputs(event->name != NULL ? event->name : "no event of the chart", stdout);
}

/* Ends a list, which is `-` where nothing is in it. */
static void end_list(void)
{
    fputs(is_first ? "- " : " ", stdout);
    is_first = true;
}

/* Writes the fault of a line, and ends it. */
static void show_fault(FILE *file)
{
    fputs(fault_word(), file);
    if (strcmp(fault_word(), "overflow") == 0) {
        fprintf(file, " %s", chart_data[fault_datum()].name);
    }
    fputc('\n', file);
}

/* Writes a line of the trace. After a fault the run is over. */
static void show_line(unsigned long index, const char *event, bool is_ok)
{
    printf("%lu %s [", index, event);
    is_first = true;
    show_active(show_state);
    fputs("] ", stdout);
    is_first = true;
    for (const struct datum *datum = chart_data; datum->name != NULL; datum++) {
        show_datum(datum);
    }
    end_list();
    for (uint32_t place = 0; place < output_count(); place++) {
        show_output(output_at(place));
    }
    end_list();
    if (is_ok) {
        puts("ok");
        return;
    }
    show_fault(stdout);
    fflush(stdout);
    fprintf(stderr, "run %lu: ", index);
    show_fault(stderr);
    exit(3);
}

/* ---- values */

/* Doubles the digits behind a point, and gives what comes before it. */
static uint64_t doubled(char *behind, size_t count)
{
    int carry = 0;
    for (size_t place = count; place > 0; place--) {
        int twice = 2 * (behind[place - 1] - '0') + carry;
        behind[place - 1] = (char)('0' + twice % 10);
        carry = twice / 10;
    }
    return (uint64_t)carry;
}

/* The digits behind a point as a whole number of units of 2^-fraction. */
static uint64_t part_of(const char *text, size_t count, unsigned fraction)
{
    char behind[MOST_DIGITS];
    uint64_t part = 0;
    memcpy(behind, text, count);
    for (unsigned bit = 0; bit < fraction; bit++) {
        part = 2 * part + doubled(behind, count);
    }
    for (size_t place = 0; place < count; place++) {
        if (behind[place] != '0') {
            refuse("a number has more digits than its type");
        }
    }
    return part;
}

/* The number that a text without sign stands for, in units of 2^-fraction. */
static uint64_t magnitude_of(const char *text, unsigned fraction)
{
    size_t before = strspn(text, digits);
    bool has_point = text[before] == '.';
    size_t behind = has_point ? strspn(text + before + 1, digits) : 0;
    if (before == 0 || has_point != (behind > 0) || text[before + behind + (has_point ? 1 : 0)] != 0
        || before + behind > MOST_DIGITS) {
        refuse("a number is not written as one");
    }
    uint64_t whole = 0;
    for (size_t place = 0; place < before; place++) {
        uint64_t digit = (uint64_t)(text[place] - '0');
        if (whole > (UINT64_MAX - digit) / 10) {
            refuse("a number is too large");
        }
        whole = 10 * whole + digit;
    }
    uint64_t part = part_of(text + before + 1, behind, fraction);
    if (whole > (UINT64_MAX - part) >> fraction) {
        refuse("a number is too large");
    }
    return (whole << fraction) + part;
}

/* Gives a field that has a sign a number of its type. */
static void store_signed(const struct datum *datum, int64_t mantissa)
{
    switch (datum->type) {
    case SIGNED_8: *(int8_t *)datum->field = (int8_t)mantissa; break;
    case SIGNED_16: *(int16_t *)datum->field = (int16_t)mantissa; break;
    case SIGNED_32: *(int32_t *)datum->field = (int32_t)mantissa; break;
    default: *(int64_t *)datum->field = mantissa; break;
    }
}

/* Gives a field that has no sign a number of its type. */
static void store_unsigned(const struct datum *datum, uint64_t mantissa)
{
    switch (datum->type) {
    case UNSIGNED_8: *(uint8_t *)datum->field = (uint8_t)mantissa; break;
    case UNSIGNED_16: *(uint16_t *)datum->field = (uint16_t)mantissa; break;
    case UNSIGNED_32: *(uint32_t *)datum->field = (uint32_t)mantissa; break;
    default: *(uint64_t *)datum->field = mantissa; break;
    }
}

static void set_number(const struct datum *datum, const char *text)
{
    bool is_signed = datum->type < UNSIGNED_8;
    bool has_minus = text[0] == '-';
    uint64_t magnitude = magnitude_of(text + (has_minus ? 1 : 0), datum->fraction);
    bool is_negative = has_minus && magnitude != 0;
    uint64_t greatest = UINT64_MAX >> (64 - datum->width) >> (is_signed ? 1 : 0);
    if ((is_negative && !is_signed) || magnitude > greatest + (is_negative ? 1 : 0)) {
        refuse("a number is out of range");
    }
    if (!is_signed) {
        store_unsigned(datum, magnitude);
    } else if (is_negative) {
        store_signed(datum, -(int64_t)(magnitude - 1) - 1);
    } else {
        store_signed(datum, (int64_t)magnitude);
    }
}

static void set_flag(const struct datum *datum, const char *text)
{
    if (strcmp(text, "true") != 0 && strcmp(text, "false") != 0) {
        refuse("a flag is true or false");
    }
    *(bool *)datum->field = strcmp(text, "true") == 0;
}

/* ---- the event file */

/* Takes NAME=VALUE. */
static void set_input(char *word)
{
    char *equals = strchr(word, '=');
    size_t number = 0;
    if (equals == NULL) {
        refuse("a word has no `=`");
    }
    *equals = 0;
    while (chart_data[number].name != NULL && strcmp(chart_data[number].name, word) != 0) {
        number++;
    }
    if (chart_data[number].name == NULL || !chart_data[number].is_input) {
        refuse("there is no such input");
    }
    if (number >= MOST_DATA || given_in[number] == line_number) {
        refuse("an input is named twice");
    }
    given_in[number] = line_number;
    (chart_data[number].type == FLAG ? set_flag : set_number)(&chart_data[number], equals + 1);
}

static const struct event *event_named(const char *name)
{
    const struct event *event = chart_events;
    while (event->name != NULL && strcmp(event->name, name) != 0) {
        event++;
    }
    if (event->name == NULL || !event->is_input) {
        refuse("there is no such input event");
    }
    return event;
}

/* Reads a line, and gives whether there was one. */
static bool read_line(FILE *file, char *line)
{
    size_t length = 0;
    int byte = getc(file);
    if (byte == EOF) {
        return false;
    }
    line_number++;
    while (byte != EOF && byte != '\n') {
        if (length == LONGEST_LINE || byte == 0) {
            refuse("the line is too long, or has a byte 0");
        }
        line[length] = (char)byte;
        length++;
        byte = getc(file);
    }
    if (length > 0 && line[length - 1] == '\r') {
        length--;
    }
    line[length] = 0;
    return true;
}

int main(int count, char **words)
{
    static char line[LONGEST_LINE + 1];
    FILE *file = count == 2 ? fopen(words[1], "rb") : NULL;
    if (file == NULL) {
        fputs("usage: PROGRAM EVENTS\n", stderr);
        return 1;
    }
    show_line(0, "start", chart_start());
    unsigned long index = 0;
    while (read_line(file, line)) {
        char *word = strtok(line, " \t");
        if (word == NULL || word[0] == '#') {
            continue;
        }
        const struct event *event = event_named(word);
        for (word = strtok(NULL, " \t"); word != NULL; word = strtok(NULL, " \t")) {
            set_input(word);
        }
        index++;
        show_line(index, event->name, chart_react(event->number));
    }
    if (ferror(file) || fflush(stdout) != 0) {
        refuse("reading or writing failed");
    }
    return 0;
}
