/* Finds one unit, ranges it, and prints its equalization delay: 211040. crates/olt_one_unit is the same in Rattle, and
 * tools/embed builds and runs this. */
#include "wagpisud.h"
#include <stdio.h>
#include <stdlib.h>

static wp_chassis chassis = WP_CLOSED;
static wp_answer answer;

static void must(uint32_t status)
{
    if (status != WP_DONE) {
        fprintf(stderr, "find_one_unit: status %u\n", (unsigned)status);
        exit(1);
    }
}

static void frames(int count)
{
    while (count-- > 0)
        must(wp_frame(&chassis, 0, &answer));
}

int main(void)
{
    const wp_settings settings = { .licences = 1, .journal_limit = 4096 };
    const wp_serial serial = { { 'A', 'B', 'C', 'D', 0, 0, 0, 1 } };
    const wp_port port = { .teqd = 311040, .admitted = 1, .alloc_last = 4095, .max_units = 254, .cycles = 1 };
    /* what the unit says: Serial_number_ONU without an ONU-ID, and then with ONU-ID 0, each with its check octet */
    const uint8_t unnamed[13] = { 0xff, 0x01, 'A', 'B', 'C', 'D', 0, 0, 0, 1, 0, 0, 0x2c };
    const uint8_t named[13] = { 0x00, 0x01, 'A', 'B', 'C', 'D', 0, 0, 0, 1, 0, 0, 0x6b };

    must(wp_open(&chassis, &settings, &port, 1, &serial, 1));
    must(wp_command(&chassis, 0, WP_COMMAND_SEARCH, &serial, 0, &answer));
    frames(5); /* three copies of Upstream_Overhead, then a serial number request */
    must(wp_burst(&chassis, 0, 100000, unnamed, &answer));
    if (answer.reply != WP_FOUND)
        return 2;
    frames(4); /* three copies of Assign_ONU-ID, then a ranging request */
    must(wp_burst(&chassis, 0, 100000, named, &answer));
    if (answer.reply != WP_RANGED)
        return 3;
    printf("%u\n", (unsigned)answer.eqd);
    must(wp_close(&chassis));
    return 0;
}
