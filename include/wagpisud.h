/* Wagpisud: a GPON line terminal (ITU-T G.984.3) as a C library. A chassis of 1 to 16 ports, each with its journal,
 * and one stock of licences. The library is crates/gp_c/out/libgp_c.a, with the kit's c/liblibc_c.a beside it.
 *
 * Who calls keeps these rules, which nothing checks:
 *   - A wp_chassis is all zeros before its first call (WP_CLOSED). Nobody but these functions writes to it, and while
 *     it is open no copy of it is used.
 *   - A chassis is used by one call at a time, and on the thread that opened it. Threads may each have their own; from
 *     Go its goroutine calls runtime.LockOSThread before wp_open.
 *   - No pointer is null, but that of an array of no elements. What a call writes overlaps nothing else that it is
 *     passed.
 *   - malloc, realloc and free are those of the C library. No call comes from a signal handler.
 *
 * All else is answered: a handle that is closed, opened twice or closed twice, a port or a unit that isn't there, any
 * thirteen octets, any number in a struct. Every function but wp_text returns a wp_status. Where that is not WP_DONE
 * the chassis is as it was, and nothing was written to what the caller passed.
 *
 * A shared library, for Python's ctypes and others that load one, is made of the two by `tools/install PREFIX`, as
 * libwagpisud.so.1. By hand (KIT is the folder of `rt doc`'s page):
 *
 *     cc -shared -o libwagpisud.so -Wl,--whole-archive crates/gp_c/out/libgp_c.a \
 *         -Wl,--no-whole-archive KIT/c/liblibc_c.a */
#ifndef WAGPISUD_H
#define WAGPISUD_H

#include <stddef.h>
#include <stdint.h>

#ifdef __cplusplus
extern "C" {
#endif

/* The version of the library, as `oltctl --version` has it: CHANGELOG.md says what came with which. */
#define WP_VERSION "1.11.0"
#define WP_VERSION_MAJOR 1
#define WP_VERSION_MINOR 11
#define WP_VERSION_PATCH 0

/* What a call answers. */
enum wp_status {
    WP_DONE = 0,
    WP_NOT_OPEN = 1,     /* the handle is closed */
    WP_IS_OPEN = 2,      /* the handle is open already */
    WP_LIMIT = 3,        /* a number of the configuration is outside its range, or a serial number is admitted twice:
                          * wp_open has the list */
    WP_NO_MEMORY = 4,    /* malloc or realloc refused memory */
    WP_NO_PORT = 5,      /* the chassis has no such port */
    WP_JOURNAL_FULL = 6, /* the port's journal keeps as many entries as it may: wp_cut makes room */
    WP_NO_UNIT = 7,      /* no active unit of the port has this serial number */
    WP_NO_COMMAND = 8,   /* there is no command of this kind */
    WP_SERIALS = 9,      /* the ports admit more or fewer serial numbers in all than are given */
    WP_NO_EVENT = 10,    /* there is no event of these numbers */
    WP_LINE_WORD = 11,   /* of a line: a word is unknown, or parts are missing or too many */
    WP_LINE_NUMBER = 12, /* of a line: a number has a character that is no decimal digit, or none at all */
    WP_LINE_SERIAL = 13, /* of a line: a text spells no serial number */
    WP_LINE_HEX = 14,    /* of a line: a code isn't 26 hexadecimal digits */
    WP_LINE_RANGE = 15,  /* of a line: a number is outside its range */
    WP_LINE_LONG = 16,   /* of a line: it has more than 4,096 octets */
    WP_NO_ENTRY = 17,    /* the port's journal keeps no entry with this number */
    WP_LINE_SPACE = 18   /* of a line: a space too many, at its front, at its end, or beside another one */
};

/* A chassis: closed where it is all zeros. Its fields are the library's. */
typedef struct wp_chassis {
    void *at;
    uint64_t is_open;
} wp_chassis;

/* wp_chassis chassis = WP_CLOSED; */
#define WP_CLOSED { 0, 0 }

/* A serial number: four octets of the vendor (ASCII), and four that the vendor numbers its units by. */
typedef struct wp_serial {
    uint8_t octets[8];
} wp_serial;

/* What a chassis is opened with, beside its ports. */
typedef struct wp_settings {
    uint32_t licences;      /* the active units that it may have on all ports together, at most 4064 */
    uint32_t journal_limit; /* the entries that the journal of each port keeps at most, 1 to 1,000,000 */
} wp_settings;

/* What a port is opened with. */
typedef struct wp_port {
    uint32_t teqd;          /* the equalized round-trip delay in bit times: 311,040 is usual */
    uint32_t search_period; /* frames in standby before a search begins by itself, at most 1,000,000; 0 for never */
    uint32_t admitted;      /* how many serial numbers it admits, at most 512: the next of those given to wp_open */
    uint16_t alloc_last;    /* the greatest Alloc-ID that it may assign, 256 to 4095 */
    uint16_t quarantine;    /* frames in which a freed ONU-ID is given to no other unit, at most 8000; 0 for none */
    uint8_t is_masked;      /* 0: check octets are as they are; else each is XORed with 85 */
    uint8_t max_units;      /* the units that may be active at once, 1 to 254 */
    uint8_t cycles;         /* the search windows of one acquisition, 1 to 10 */
    uint8_t overhead[10];   /* the octets of Upstream_Overhead, which are passed on unread */
} wp_port;

/* The kinds of reply, and which numbers of a wp_answer each has. */
enum wp_reply {
    WP_TICKED = 0,         /* to a frame */
    WP_REFUSED = 1,        /* refusal: why the burst or the command was refused */
    WP_SEARCHING = 2,      /* a search is now wanted */
    WP_FOUND = 3,          /* onu: a new unit has this ONU-ID */
    WP_AGAIN = 4,          /* onu: a ranging unit is told its ONU-ID once more */
    WP_REPEAT = 5,         /* onu: a ranging unit was heard that is still to be told its ONU-ID */
    WP_RESTARTED = 6,      /* onu: an operating unit was heard as one without an ONU-ID, and is removed */
    WP_DISABLED_SEEN = 7,  /* a disabled unit was heard */
    WP_RANGED = 8,         /* onu, eqd: the unit operates, with this equalization delay */
    WP_TOO_FAR = 9,        /* onu: the unit is farther away than the equalized round-trip delay */
    WP_STILL_RANGING = 10, /* onu: a ranging unit sent something other than its serial number */
    WP_ALIVE = 11,         /* onu: the unit answered its poll */
    WP_ACKED = 12,         /* alloc: the unit acknowledged this Alloc-ID */
    WP_GASP = 13,          /* onu: the unit is losing its power */
    WP_ALLOCATED = 14,     /* alloc: the unit is to have this further Alloc-ID */
    WP_RELEASING = 15,     /* alloc: the unit is to give this further Alloc-ID back */
    WP_DEACTIVATED = 16,   /* onu: the unit that had this ONU-ID is removed */
    WP_DISABLED = 17,      /* the unit is disabled */
    WP_ENABLED = 18,       /* the unit is enabled */
    WP_ENABLED_ALL = 19,   /* every unit is enabled */
    WP_POPPED_UP = 20,     /* onu: the unit is to leave the POPUP state */
    WP_POPPED_UP_ALL = 21, /* count: so many operating units are to be ranged anew */
    WP_SHOWN = 22          /* onu: the unit's ONU-ID; wp_show tells all that the port knows of it */
};

/* Why a burst or a command was refused (docs/MACHINE.md). */
enum wp_refusal {
    WP_STRAY = 1,
    WP_GARBLED = 2,
    WP_WRONG_WINDOW = 3,
    WP_NOT_ADMITTED = 4,
    WP_NO_ID = 5,
    WP_NO_LICENCE = 6,
    WP_BUSY = 7,
    WP_NOT_ACTIVE = 8,
    WP_NOT_OPERATING = 9,
    WP_PENDING_ALLOC = 10,
    WP_ALLOC_FULL = 11,
    WP_NOT_HELD = 12,
    WP_NO_ALLOC = 13,
    WP_ALREADY_SEARCHING = 14
};

/* Whom the window asks that opens with a frame. */
enum wp_grant {
    WP_GRANT_NONE = 0,
    WP_GRANT_SEARCH = 1, /* every unit that has no ONU-ID */
    WP_GRANT_RANGE = 2,  /* the ranging unit grant_onu */
    WP_GRANT_POLL = 3    /* the operating unit grant_onu */
};

/* Alarms (G.984.3, clause 11). */
enum wp_alarm {
    WP_ALARM_NONE = 0,
    WP_LOS = 1,
    WP_LOAM = 2,
    WP_LOA = 3,
    WP_SUF = 4,
    WP_DF = 5,
    WP_DG = 6
};

/* Which answers say that a unit was removed. Its ONU-ID, its Alloc-IDs and its licence are then free (the ONU-ID after
 * its quarantine), and wp_show answers WP_NO_UNIT for it.
 *
 *     of       reply            alarm               which unit
 *     a frame  WP_TICKED        WP_LOS, WP_LOAM,    alarm_serial
 *                               WP_LOA or WP_SUF
 *     a frame  WP_TICKED        WP_ALARM_NONE       the ranging unit whose second window ended with this frame, where
 *                                                   nothing at all was heard in either: the answer doesn't tell it
 *     a burst  WP_ALIVE         WP_LOA              alarm_serial
 *     a burst  WP_RESTARTED     WP_ALARM_NONE       onu; its serial number stands in the burst
 *     command  WP_DEACTIVATED   WP_ALARM_NONE       onu; that of the command
 *     command  WP_DISABLED      WP_ALARM_NONE       that of the command, where it was active
 *
 * So each of the alarms 1 to 4 says so. What no answer tells is known by what follows: units of wp_count is one less,
 * and after what was owed before, three frames send Deactivate_ONU-ID (is_sent, sent[1] is 5, sent[0] the ONU-ID), as
 * after every removal but that of WP_DISABLED, which sends Disable_Serial_Number. Nothing else removes a unit: with
 * WP_GASP and WP_DG it stays, WP_DF is of a unit that isn't active, and after WP_AGAIN and WP_POPPED_UP_ALL units are
 * ranged anew. docs/MACHINE.md has the rules. */

/* What an event gave. A number that its kind has no use for is 0. */
typedef struct wp_answer {
    uint64_t number;         /* how many entries the port had before this one */
    uint32_t eqd;            /* an equalization delay in bit times */
    uint16_t alloc;          /* an Alloc-ID, 256 to 4095 */
    uint8_t reply;           /* enum wp_reply */
    uint8_t refusal;         /* enum wp_refusal, where reply is WP_REFUSED */
    uint8_t onu;             /* an ONU-ID, 0 to 253 */
    uint8_t count;           /* a count of units */
    uint8_t grant;           /* enum wp_grant */
    uint8_t grant_onu;       /* the ONU-ID that is asked */
    uint8_t alarm;           /* enum wp_alarm */
    uint8_t alarm_serial[8]; /* the serial number of the alarm's unit */
    uint8_t is_sent;         /* 1 where a message goes out with this frame */
    uint8_t sent[13];        /* that message, with its check octet */
} wp_answer;

/* A place for a further Alloc-ID of a unit. */
typedef struct wp_alloc {
    uint16_t alloc;     /* the Alloc-ID */
    uint8_t is_there;   /* 1 where the place has one */
    uint8_t is_leaving; /* 1 where the unit is to give it back */
} wp_alloc;

/* What a port knows of an active unit. */
typedef struct wp_unit {
    uint32_t eqd;         /* the equalization delay in bit times, 0 of a ranging unit */
    wp_alloc allocs[8];   /* further Alloc-IDs in rising order; places without one come last */
    uint16_t pending;     /* the Alloc-ID that it has still to acknowledge */
    uint8_t is_pending;   /* 1 where there is one */
    uint8_t waiting;      /* in how many poll windows it has not done so, 0 to 2 */
    uint8_t onu;          /* the ONU-ID, 0 to 253, which is also its default Alloc-ID */
    uint8_t is_operating; /* 1 of an operating unit, 0 of a ranging one */
    uint8_t attempts;     /* of a ranging unit: how many ranging windows closed without a result, 0 or 1 */
    uint8_t was_seen;     /* of a ranging unit: 1 where anything was heard in them */
    uint8_t dark;         /* of an operating unit: how many polls in a row nothing answered, 0 to 3 */
    uint8_t garbled;      /* of an operating unit: how many were answered by nothing that could be read, 0 to 2 */
} wp_unit;

/* What is counted of a port. */
typedef struct wp_counts {
    uint64_t entries;    /* how many entries it ever had: the number of the next one */
    uint64_t first_kept; /* the number of the first entry that its journal keeps, or of the next one */
    uint64_t units;      /* how many units are active, at most 254 */
    uint64_t owed;       /* how many copies of messages are still to be sent, one with each frame */
} wp_counts;

/* The kinds of events, and which numbers of a wp_event each has. */
enum wp_event_kind {
    WP_EVENT_FRAME = 0,
    WP_EVENT_BURST = 1,  /* at, octets */
    WP_EVENT_COMMAND = 2 /* command; serial and alloc, where that command looks at them */
};

/* An event. A number that its kind has no use for isn't looked at, and is 0 where wp_turn writes it. */
typedef struct wp_event {
    uint32_t at;        /* the whole measured round-trip delay in bit times */
    uint16_t alloc;     /* an Alloc-ID */
    uint8_t kind;       /* enum wp_event_kind */
    uint8_t command;    /* enum wp_command_kind */
    uint8_t serial[8];  /* a serial number */
    uint8_t octets[13]; /* what arrived */
} wp_event;

/* The kinds of turns, and which numbers of a wp_asked each has. */
enum wp_turn_kind {
    WP_TURN_NOTHING = 0, /* an empty line or a remark */
    WP_TURN_EVENT = 1,   /* port, event */
    WP_TURN_FRAMES = 2,  /* port, count: so many frames */
    WP_TURN_UNTIL = 3,   /* port, grant, grant_onu, count: frames up to the one that makes this grant, at most so many */
    WP_TURN_LIGHT = 4,   /* unit, is_lit: the light of a simulated unit, which this library has none of */
    WP_TURN_UNIT = 5     /* unit: what a simulated unit is */
};

/* What a line of text asks for. A number that its kind has no use for is 0. */
typedef struct wp_asked {
    wp_event event;
    uint32_t count;    /* 1 to 1,000,000 */
    uint16_t unit;     /* 0 to 1023 */
    uint8_t kind;      /* enum wp_turn_kind */
    uint8_t port;      /* 0 to 15 */
    uint8_t is_lit;    /* 1 where the light comes */
    uint8_t grant;     /* enum wp_grant */
    uint8_t grant_onu; /* the ONU-ID that is asked */
} wp_asked;

/* Opens a chassis behind a closed handle: each port without units, in standby, all licences free. The first port
 * admits the first ports[0].admitted of the serial numbers, the second the next ports[1].admitted, and so on; none may
 * be left.
 * Takes all memory that ports ever need, but that of the journals.
 * Answers WP_IS_OPEN, WP_SERIALS, WP_LIMIT or WP_NO_MEMORY; the first that holds, but that memory may run out first.
 *
 * WP_LIMIT doesn't say what it is about. It is one of these, and nothing else: licences above 4064; a journal_limit
 * of 0 or above 1,000,000; no port, or more than 16; of a port max_units of 0 or above 254, an alloc_last below 256 or
 * above 4095, cycles of 0 or above 10, a search_period above 1,000,000, a quarantine above 8000, admitted above 512; or
 * a serial number that is admitted twice, on one port or on two. `oltctl check` of a script with the same numbers names
 * the first of them, with its table and key.
 *
 *     const wp_settings settings = { .licences = 1, .journal_limit = 4096 };
 *     const wp_serial serial = { { 'A', 'B', 'C', 'D', 0, 0, 0, 1 } };
 *     const wp_port port = { .teqd = 311040, .admitted = 1, .alloc_last = 4095, .max_units = 254, .cycles = 1 };
 *     wp_chassis chassis = WP_CLOSED;
 *     uint32_t status = wp_open(&chassis, &settings, &port, 1, &serial, 1); */
uint32_t wp_open(wp_chassis *chassis, const wp_settings *settings, const wp_port *ports, size_t port_count,
                 const wp_serial *serials, size_t serial_count);

/* A downstream frame of 125 microseconds begins at a port, 0 to 15. What it sends and grants is in the answer.
 * Answers WP_NOT_OPEN, WP_NO_PORT, WP_JOURNAL_FULL or WP_NO_MEMORY (for the journal).
 *
 *     if (wp_frame(&chassis, 0, &answer) == WP_DONE && answer.is_sent)
 *         send(answer.sent, 13); */
uint32_t wp_frame(wp_chassis *chassis, uint8_t port, wp_answer *answer);

/* Thirteen octets arrive at a port from a unit. `at` is the whole measured round-trip delay in bit times, without the
 * unit's equalization delay. A burst takes a licence where it finds a unit and one is free.
 * Answers as wp_frame does; octets that can't be read or aren't asked for are WP_DONE with the reply WP_REFUSED.
 *
 *     if (wp_burst(&chassis, 0, 100000, octets, &answer) == WP_DONE && answer.reply == WP_RANGED)
 *         printf("%u\n", answer.eqd); */
uint32_t wp_burst(wp_chassis *chassis, uint8_t port, uint32_t at, const uint8_t octets[13], wp_answer *answer);

/* The kinds of commands, and what each looks at. */
enum wp_command_kind {
    WP_COMMAND_SEARCH = 0,
    WP_COMMAND_ALLOC = 1,      /* serial: the unit gets a further Alloc-ID */
    WP_COMMAND_DEALLOC = 2,    /* serial, alloc: the unit gives this one back */
    WP_COMMAND_DEACTIVATE = 3, /* serial: the unit is removed */
    WP_COMMAND_DISABLE = 4,    /* serial: the unit is not to send, until it is enabled */
    WP_COMMAND_ENABLE = 5,     /* serial */
    WP_COMMAND_ENABLE_ALL = 6,
    WP_COMMAND_POPUP = 7,      /* serial: the unit is to leave the POPUP state */
    WP_COMMAND_POPUP_ALL = 8,
    WP_COMMAND_SHOW = 9        /* serial */
};

/* The operator asks a port for something. `serial` is never null; a kind that needs none doesn't look at it.
 * Answers WP_NO_COMMAND for a kind above 9, before all else; then as wp_frame does.
 *
 *     wp_command(&chassis, 0, WP_COMMAND_SEARCH, &serial, 0, &answer); */
uint32_t wp_command(wp_chassis *chassis, uint8_t port, uint8_t kind, const wp_serial *serial, uint16_t alloc,
                    wp_answer *answer);

/* What a wp_event tells happens at a port: the same as wp_frame, wp_burst or wp_command.
 * Answers WP_NO_EVENT for numbers that are no event, before all else; then as wp_frame does.
 *
 *     wp_asked asked;
 *     if (wp_turn(line, length, &asked) == WP_DONE && asked.kind == WP_TURN_EVENT)
 *         wp_apply(&chassis, asked.port, &asked.event, &answer); */
uint32_t wp_apply(wp_chassis *chassis, uint8_t port, const wp_event *event, wp_answer *answer);

/* Tells what a port knows of the active unit with this serial number. No entry is made.
 * Answers WP_NOT_OPEN, WP_NO_PORT or WP_NO_UNIT.
 *
 *     if (wp_show(&chassis, 0, &serial, &unit) == WP_DONE && unit.is_operating)
 *         printf("ONU-ID %u, %u bit times\n", unit.onu, unit.eqd); */
uint32_t wp_show(wp_chassis *chassis, uint8_t port, const wp_serial *serial, wp_unit *unit);

/* Tells how many licences are free: the active units that the chassis may still find. Answers WP_NOT_OPEN.
 *
 *     uint32_t count;
 *     wp_free(&chassis, &count); */
uint32_t wp_free(wp_chassis *chassis, uint32_t *count);

/* Tells what is counted of a port. Answers WP_NOT_OPEN or WP_NO_PORT.
 *
 *     wp_counts counts;
 *     if (wp_count(&chassis, 0, &counts) == WP_DONE)
 *         printf("%u units\n", (unsigned)counts.units); */
uint32_t wp_count(wp_chassis *chassis, uint8_t port, wp_counts *counts);

/* Tells an entry that a port's journal keeps, as numbers: what happened, and what the port gave for it. Those that are
 * kept are numbered from first_kept up to entries - 1 of wp_count. Takes no memory.
 * Answers WP_NOT_OPEN, WP_NO_PORT or WP_NO_ENTRY.
 *
 *     for (uint64_t number = counts.first_kept; number < counts.entries; number++)
 *         wp_entry(&chassis, 0, number, &event, &answer); */
uint32_t wp_entry(wp_chassis *chassis, uint8_t port, uint64_t number, wp_event *event, wp_answer *answer);

/* The same as a line of the trace, in ASCII with its line feed and without a zero at its end: the line that `oltctl
 * replay` writes of it and `oltctl verify` reads. It is written where the buffer has room for all of it; else nothing
 * is. *length is how many octets it has, at most 256. Takes no memory.
 * Answers WP_NOT_OPEN, WP_NO_PORT or WP_NO_ENTRY.
 *
 *     uint8_t line[256];
 *     size_t length;
 *     if (wp_line(&chassis, 0, answer.number, line, sizeof line, &length) == WP_DONE)
 *         fwrite(line, 1, length, log); */
uint32_t wp_line(wp_chassis *chassis, uint8_t port, uint64_t number, uint8_t *buffer, size_t size, size_t *length);

/* Lets go the entries that a port's journal keeps, so that it has room again. The port stays as it is, and the next
 * entry has the next number. Takes memory for two images of the port, and gives the journal's back.
 * Answers WP_NOT_OPEN, WP_NO_PORT or WP_NO_MEMORY.
 *
 *     if (wp_frame(&chassis, 0, &answer) == WP_JOURNAL_FULL && wp_cut(&chassis, 0) == WP_DONE)
 *         wp_frame(&chassis, 0, &answer); */
uint32_t wp_cut(wp_chassis *chassis, uint8_t port);

/* Closes the handle, and gives all memory back. It may be opened again. Answers WP_NOT_OPEN.
 *
 *     wp_close(&chassis); */
uint32_t wp_close(wp_chassis *chassis);

/* Reads the turn that a line of text asks for, without its line feed: `PORT EVENT` with an event as a trace tells it,
 * `PORT frame COUNT`, `PORT until GRANT`, `PORT until GRANT within COUNT`, `unit I light`, `unit I dark`,
 * `unit I show`, or `PORT say ..`, which is the event of a unit's burst without a mask: for a chassis that is masked
 * XOR its last octet with 85. `oltctl drive --help` has the grammar. Touches no chassis. Answers the first fault of the
 * line: WP_LINE_LONG, then WP_LINE_SPACE, then the first from the left of WP_LINE_WORD to WP_LINE_RANGE.
 *
 *     wp_turn((const uint8_t *)"0 search", 8, &asked); */
uint32_t wp_turn(const uint8_t *line, size_t length, wp_asked *asked);

/* Writes a status in words, in ASCII without a zero at its end, where the buffer has room for all of them; else it
 * writes nothing. Returns how many octets the words have, at most 34.
 *
 *     uint8_t words[40];
 *     printf("%.*s\n", (int)wp_text(status, words, sizeof words), (const char *)words); */
size_t wp_text(uint32_t status, uint8_t *buffer, size_t size);

#ifdef __cplusplus
}
#endif

#endif
