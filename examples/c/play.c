/* Plays lines of turns from standard input, and writes the trace that `oltctl replay` writes of the same events.
 *
 *     play LICENCES JOURNAL_LIMIT
 *
 * First a line `port OVERHEAD TEQD MAX_UNITS ALLOC_LAST CYCLES SEARCH_PERIOD QUARANTINE MASK COUNT SERIAL..` for each
 * port, with OVERHEAD of 20 and so many serial numbers of 16 hexadecimal digits; then a line for each turn, as wp_turn
 * reads it. tools/embed makes such lines, and compares. */
#include "wagpisud.h"
#include <ctype.h>
#include <inttypes.h>
#include <stdio.h>
#include <stdlib.h>
#include <string.h>

static const char *const replies[] = {
    "ok", "refused", "searching", "found", "again", "repeat", "restarted", "disabled-seen", "ranged", "too-far",
    "still-ranging", "alive", "acked", "gasp", "allocated", "releasing", "deactivated", "disabled", "enabled",
    "enabled-all", "popped-up", "popped-up-all", "unit"
};
static const char *const refusals[] = {
    "", "stray", "garbled", "wrong-window", "not-admitted", "no-id", "no-licence", "busy", "not-active",
    "not-operating", "pending-alloc", "alloc-full", "not-held", "no-alloc", "already-searching"
};
static const char *const alarms[] = { "", "LOS", "LOAM", "LOA", "SUF", "DF", "DG" };
static wp_chassis chassis = WP_CLOSED;
static wp_port ports[16];
static wp_serial serials[16 * 512];
static size_t port_count, serial_count;

static void fail(const char *what, uint32_t status)
{
    uint8_t words[40];
    fprintf(stderr, "play: %s: %.*s\n", what, (int)wp_text(status, words, sizeof words), (const char *)words);
    exit(1);
}

static void must(const char *what, uint32_t status)
{
    if (status != WP_DONE)
        fail(what, status);
}

static void read_octets(const char *digits, uint8_t *octets, size_t count)
{
    for (size_t i = 0; i < count; i++) {
        unsigned octet;
        if (sscanf(digits + 2 * i, "%2x", &octet) != 1)
            fail("digits", 0);
        octets[i] = (uint8_t)octet;
    }
}

static void write_octets(const uint8_t *octets, size_t count, const char *form)
{
    for (size_t i = 0; i < count; i++)
        printf(form, octets[i]);
}

static void write_serial(const uint8_t *octets)
{
    size_t plain = 0;
    while (plain < 4 && (isupper(octets[plain]) || isdigit(octets[plain])))
        plain++;
    if (plain == 4)
        printf("%.4s", (const char *)octets);
    write_octets(octets + (plain == 4 ? 4 : 0), plain == 4 ? 4 : 8, "%02X");
}

static void read_port(char *words)
{
    wp_port *port = &ports[port_count++];
    uint32_t numbers[8];
    read_octets(strtok(words, " "), port->overhead, 10);
    for (size_t i = 0; i < 8; i++)
        numbers[i] = (uint32_t)strtoul(strtok(NULL, " "), NULL, 10);
    port->teqd = numbers[0];
    port->max_units = (uint8_t)numbers[1];
    port->alloc_last = (uint16_t)numbers[2];
    port->cycles = (uint8_t)numbers[3];
    port->search_period = numbers[4];
    port->quarantine = (uint16_t)numbers[5];
    port->is_masked = numbers[6] != 0;
    port->admitted = numbers[7];
    for (uint32_t i = 0; i < port->admitted; i++)
        read_octets(strtok(NULL, " "), serials[serial_count++].octets, 8);
}

static void write_unit(const wp_asked *asked)
{
    wp_serial serial;
    wp_unit unit;
    memcpy(serial.octets, asked->event.serial, 8);
    must("show", wp_show(&chassis, asked->port, &serial, &unit));
    if (unit.is_operating)
        printf(" operating %" PRIu32, unit.eqd);
    else
        printf(" ranging %u", unit.attempts);
    printf(" allocs ");
    for (size_t i = 0; i < 8 && unit.allocs[i].is_there; i++)
        printf("%s%u%s", i ? "," : "", unit.allocs[i].alloc, unit.allocs[i].is_leaving ? "!" : "");
    if (!unit.allocs[0].is_there)
        printf("-");
}

static void write_answer(const char *event, const wp_asked *asked, const wp_answer *answer)
{
    printf("%u %" PRIu64 " %s = %s", asked->port, answer->number, event, replies[answer->reply]);
    switch (answer->reply) {
    case WP_TICKED: case WP_SEARCHING: case WP_DISABLED_SEEN: case WP_DISABLED: case WP_ENABLED: case WP_ENABLED_ALL:
        break;
    case WP_REFUSED: printf(" %u %s", answer->refusal, refusals[answer->refusal]); break;
    case WP_RANGED: printf(" %u %" PRIu32, answer->onu, answer->eqd); break;
    case WP_ACKED: case WP_ALLOCATED: case WP_RELEASING: printf(" %u", answer->alloc); break;
    case WP_POPPED_UP_ALL: printf(" %u", answer->count); break;
    default: printf(" %u", answer->onu);
    }
    if (answer->reply == WP_SHOWN)
        write_unit(asked);
    if (answer->is_sent) {
        printf(" sent ");
        write_octets(answer->sent, 13, "%02x");
    }
    switch (answer->grant) {
    case WP_GRANT_SEARCH: printf(" grant search"); break;
    case WP_GRANT_RANGE: printf(" grant range %u", answer->grant_onu); break;
    case WP_GRANT_POLL: printf(" grant poll %u", answer->grant_onu); break;
    }
    if (answer->alarm) {
        printf(" alarm %s ", alarms[answer->alarm]);
        write_serial(answer->alarm_serial);
    }
    printf("\n");
}

/* Writes the line that the library has of the last entry, which wp_entry has to tell too. */
static void write_line(const wp_asked *asked, const wp_answer *answer)
{
    uint8_t line[256];
    size_t length;
    wp_event event;
    wp_answer again;
    must("line", wp_line(&chassis, asked->port, answer->number, line, sizeof line, &length));
    fwrite(line, 1, length, stdout);
    must("entry", wp_entry(&chassis, asked->port, answer->number, &event, &again));
    if (memcmp(event.octets, asked->event.octets, 13) || event.kind != asked->event.kind
        || memcmp(again.sent, answer->sent, 13) || again.reply != answer->reply || again.number != answer->number)
        fail("another entry", 0);
    if (wp_entry(&chassis, asked->port, answer->number + 1, &event, &again) != WP_NO_ENTRY)
        fail("an entry too many", 0);
}

/* Makes the call that an event stands for: its own, or wp_apply. */
static uint32_t call(const wp_asked *asked, int own, wp_answer *answer)
{
    const wp_event *event = &asked->event;
    wp_serial serial;
    memcpy(serial.octets, event->serial, 8);
    if (!own)
        return wp_apply(&chassis, asked->port, event, answer);
    switch (event->kind) {
    case WP_EVENT_FRAME: return wp_frame(&chassis, asked->port, answer);
    case WP_EVENT_BURST: return wp_burst(&chassis, asked->port, event->at, event->octets, answer);
    default: return wp_command(&chassis, asked->port, event->command, &serial, event->alloc, answer);
    }
}

int main(int argc, char **argv)
{
    static char line[16384];
    wp_asked asked;
    wp_answer answer;
    if (argc != 3)
        fail("LICENCES JOURNAL_LIMIT", 0);
    const wp_settings settings = { (uint32_t)strtoul(argv[1], NULL, 10), (uint32_t)strtoul(argv[2], NULL, 10) };
    for (int own = 0; fgets(line, sizeof line, stdin); own = !own) {
        line[strcspn(line, "\n")] = 0;
        if (strncmp(line, "port ", 5) == 0) {
            read_port(line + 5);
            continue;
        }
        if (!chassis.is_open)
            must("open", wp_open(&chassis, &settings, ports, port_count, serials, serial_count));
        must("turn", wp_turn((const uint8_t *)line, strlen(line), &asked));
        uint32_t status = call(&asked, own, &answer);
        if (status == WP_JOURNAL_FULL) {
            must("cut", wp_cut(&chassis, asked.port));
            status = call(&asked, own, &answer);
        }
        must("call", status);
        if (own)
            write_answer(strchr(line, ' ') + 1, &asked, &answer);
        else
            write_line(&asked, &answer);
    }
    must("close", wp_close(&chassis));
    return 0;
}
