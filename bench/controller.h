/* controller.h - the pack-side charge controller of document 01, in plain C11.
 *
 * The baseline that the product is measured against. The host holds a
 * struct controller and passes it by pointer; nothing is allocated and nothing
 * is kept elsewhere. Every call takes anything and returns the paper's number:
 * 0 is taken, 1 to 17 are its refusals. A refusal alters nothing, but for the
 * silence count as noted at 11.
 */
#ifndef CONTROLLER_H
#define CONTROLLER_H

#include <stdbool.h>
#include <stddef.h>
#include <stdint.h>

enum {
    MAX_STATIONS = 4,
    MAX_WAITING = 4,
    MAX_CELLS = 255,
    VERSION_BYTES = 5,
    RECORD_BASE = 35,               /* a settings record, less its stations */
    FRAME_BYTES = 13,               /* identifier 4, length 1, data 8 */
    TICK_ROOM = 9 * FRAME_BYTES     /* the most that one tick sends */
};

struct settings {
    uint8_t own;
    uint16_t max_cell;              /* 0.01 V */
    uint16_t max_current;           /* 0.1 A */
    uint16_t max_pack;              /* 0.1 V */
    uint16_t max_temperature;       /* raw */
    uint8_t station_count;
    uint8_t stations[MAX_STATIONS];
    uint8_t versions[VERSION_BYTES];
};

struct readings {
    uint8_t status1, status2, soc;
    int16_t current;                /* 0.1 A, positive into the pack */
    uint16_t pack_voltage;          /* 0.1 V */
    uint16_t capacity;              /* 0.1 Ah */
    uint8_t active_faults, latched_faults, active_warnings, latched_warnings;
};

enum state { IDLE, OFFERED, UNVERIFIED, PARAMETERS, READY, CHARGING, STOPPING, ERROR };
enum phase { DRIVE, REST, HOLD };

struct session {
    uint8_t state;                  /* enum state */
    uint8_t station;                /* 0 in Idle */
    uint8_t silence;                /* Offered to Charging: 0 to 200 */
    bool yes;                       /* Ready: what the last CMP came to */
    uint16_t count;                 /* 0 at the state's first tick; see step() */
    uint16_t station_max;           /* Ready: the last CMP's maximum current */
    uint16_t request;               /* Charging: R */
    uint16_t time;                  /* Charging: ticks in this phase */
    uint8_t phase;                  /* Charging: enum phase */
    uint8_t drives;                 /* Charging: Drives begun */
    bool acknowledged;              /* Stopping */
    bool limit_stop;                /* Stopping: pack voltage, or a cell in Hold */
    uint8_t est1, est2;             /* Stopping: fixed at its first tick */
};

struct controller {
    struct settings settings;
    struct session session;
    uint8_t beat;                   /* accepted ticks modulo 60 */
    uint8_t waiting_count;
    uint8_t group;                  /* of the oldest query, the next to send */
    uint16_t waiting[MAX_WAITING];  /* PF in the high byte, source in the low; oldest first */
};

int controller_read(struct controller *c, const uint8_t *bytes, size_t n);
int controller_write(const struct controller *c, uint8_t *buf, size_t room, size_t *written);
int controller_frame(struct controller *c, uint32_t id, const uint8_t *data, size_t n);
int controller_tick(struct controller *c, const struct readings *r, const uint16_t *v, size_t nv,
                    const int16_t *t, size_t nt, uint8_t *buf, size_t room, size_t *written);

#endif
