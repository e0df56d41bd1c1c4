/* Times calls of the C library: the best of many short runs of each, in nanoseconds. docs/PERF.md says how to build it. */
#include "wagpisud.h"
#include <stdio.h>
#include <time.h>

static wp_chassis chassis = WP_CLOSED, closed = WP_CLOSED;
static wp_answer answer;
static wp_unit unit;
static const wp_serial serial = { { 'A', 'B', 'C', 'D', 0, 0, 0, 1 } };
static const uint8_t stray[13] = { 0, 4, 0, 0, 0, 0, 0, 0, 0, 0, 0, 0, 0x7c };
static uint32_t count;
static uint8_t text[256];
static size_t length;

static uint32_t frame(void) { return wp_frame(&chassis, 0, &answer); }
static uint32_t burst(void) { return wp_burst(&chassis, 0, 100000, stray, &answer); }
static uint32_t no_port(void) { return wp_frame(&chassis, 1, &answer); }
static uint32_t not_open(void) { return wp_frame(&closed, 0, &answer); }
static uint32_t no_command(void) { return wp_command(&chassis, 0, 10, &serial, 0, &answer); }
static uint32_t no_unit(void) { return wp_show(&chassis, 0, &serial, &unit); }
static uint32_t free_count(void) { return wp_free(&chassis, &count); }
static uint32_t line(void) { return wp_line(&chassis, 0, answer.number, text, sizeof text, &length); }

static double now(void)
{
    struct timespec time;
    clock_gettime(CLOCK_MONOTONIC, &time);
    return (double)time.tv_sec * 1e9 + (double)time.tv_nsec;
}

static void measure(const char *what, uint32_t (*call)(void), uint32_t status)
{
    double best = 1e18;
    for (int run = 0; run < 2000; run++) {
        wp_cut(&chassis, 0);
        burst();
        const double start = now();
        for (int i = 0; i < 2000; i++)
            if (call() != status)
                return;
        const double took = now() - start;
        best = took < best ? took : best;
    }
    printf("%-24s %6.1f ns\n", what, best / 2000);
}

int main(void)
{
    const wp_settings settings = { .licences = 1, .journal_limit = 4096 };
    const wp_port port = { .teqd = 311040, .admitted = 1, .alloc_last = 4095, .max_units = 254, .cycles = 1 };
    if (wp_open(&chassis, &settings, &port, 1, &serial, 1) != WP_DONE)
        return 1;
    measure("an idle frame", frame, WP_DONE);
    measure("a stray burst", burst, WP_DONE);
    measure("no such port", no_port, WP_NO_PORT);
    measure("a closed handle", not_open, WP_NOT_OPEN);
    measure("no such command", no_command, WP_NO_COMMAND);
    measure("no such unit", no_unit, WP_NO_UNIT);
    measure("the free licences", free_count, WP_DONE);
    measure("the line of a burst", line, WP_DONE);
    return wp_close(&chassis) != WP_DONE;
}
