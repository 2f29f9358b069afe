/* controller.c - the charge controller's library; see controller.h.
 *
 * In the order of the paper: message numbers, settings, received frames, the
 * session by tick, broadcasts and cell answers. A frame's eight data bytes are
 * put together in one 64-bit word, first byte lowest, and stored at once.
 */
#include "controller.h"

/* ---- Message numbers --------------------------------------------------- */

enum {
    CVM = 0x01, CMP = 0x08, CRM = 0x0A, CCS = 0x12, CST = 0x16,
    ACV = 0x1B, ACT = 0x1C, CEM = 0x1F, CIM = 0x26
};

/* Received: the least length by PF; 0 for a PF that is not one of the nine. */
static const uint8_t least_length[CIM + 1] = {
    [CVM] = 1, [CMP] = 8, [CRM] = 1, [CCS] = 5, [CST] = 3,
    [ACV] = 8, [ACT] = 8, [CEM] = 3, [CIM] = 3
};

/* Sent: the identifier's constant part. */
#define ROW(priority, pf) ((uint32_t)(priority) << 26 | (uint32_t)(pf) << 16)
#define BROADCAST(ps) (ROW(7, 0xFA) | (uint32_t)(ps) << 8)

#define EIM ROW(6, 0x27)
#define EVM ROW(7, 0x02)
#define ECP ROW(7, 0x06)
#define ERM ROW(4, 0x09)
#define ECR ROW(6, 0x10)
#define ECS ROW(7, 0x11)
#define ESM ROW(6, 0x13)
#define EST ROW(4, 0x15)
#define EDM ROW(6, 0x1A)
#define EEM ROW(2, 0x1E)
#define PS BROADCAST(0x20)
#define CVS BROADCAST(0x21)
#define CTS BROADCAST(0x22)
#define FWS BROADCAST(0x23)
#define EC BROADCAST(0x27)

enum {
    ZERO_CURRENT = 4000,            /* the raw current of 0 A */
    SILENCE_LIMIT = 200, END_COUNT = 600,
    DRIVE_TICKS = 18000, REST_TICKS = 6000, HOLD_TICKS = 18000,
    LEAST_REQUEST = 60, MOST_DRIVES = 6,
    MAX_VOLTAGE = 1000, TEMPERATURE_OFFSET = 50
};

static uint16_t word(const uint8_t *p)
{
    return (uint16_t)(p[0] | p[1] << 8);
}

/* ---- Settings ---------------------------------------------------------- */

static bool stations_in_range(const struct settings *s)
{
    if (s->station_count < 1 || s->station_count > MAX_STATIONS)
        return false;
    for (unsigned i = 0; i < s->station_count; i++) {
        if (s->stations[i] > 253 || s->stations[i] == s->own)
            return false;
        for (unsigned j = 0; j < i; j++)
            if (s->stations[j] == s->stations[i])
                return false;
    }
    return true;
}

static bool settings_in_range(const struct settings *s)
{
    return s->own <= 253 && s->max_cell >= 200 && s->max_cell <= 500
        && s->max_current >= 60 && s->max_current <= 4000
        && s->max_pack >= 1 && s->max_temperature <= 255 && stations_in_range(s);
}

/* Whether a field with this tag and length stands at p. */
static bool field(const uint8_t *p, unsigned tag, unsigned length)
{
    return p[0] == tag && word(p + 1) == length;
}

/* Whether the record has the layout of the paper. Its length gives the number of stations. */
static bool layout_good(const uint8_t *b, size_t n)
{
    if (n < RECORD_BASE + 1 || n > RECORD_BASE + MAX_STATIONS)
        return false;
    unsigned stations = (unsigned)n - RECORD_BASE;
    return field(b, 1, 1) && field(b + 4, 2, 2) && field(b + 9, 3, 2) && field(b + 14, 4, 2)
        && field(b + 19, 5, 2) && field(b + 24, 6, stations) && field(b + 27 + stations, 7, VERSION_BYTES);
}

int controller_read(struct controller *c, const uint8_t *b, size_t n)
{
    struct settings s = {0};

    if (!layout_good(b, n))
        return 1;
    s.own = b[3];
    s.max_cell = word(b + 7);
    s.max_current = word(b + 12);
    s.max_pack = word(b + 17);
    s.max_temperature = word(b + 22);
    s.station_count = (uint8_t)(n - RECORD_BASE);
    for (unsigned i = 0; i < s.station_count; i++)
        s.stations[i] = b[27 + i];
    for (unsigned i = 0; i < VERSION_BYTES; i++)
        s.versions[i] = b[30 + s.station_count + i];
    if (!settings_in_range(&s))
        return 2;
    *c = (struct controller){ .settings = s };
    return 0;
}

static uint8_t *put_field(uint8_t *p, uint8_t tag, uint8_t length)
{
    p[0] = tag;
    p[1] = length;
    p[2] = 0;
    return p + 3;
}

static uint8_t *put_word_field(uint8_t *p, uint8_t tag, uint16_t value)
{
    p = put_field(p, tag, 2);
    p[0] = (uint8_t)value;
    p[1] = (uint8_t)(value >> 8);
    return p + 2;
}

int controller_write(const struct controller *c, uint8_t *buf, size_t room, size_t *written)
{
    const struct settings *s = &c->settings;
    uint8_t *p = buf;

    *written = 0;
    if (!settings_in_range(s))
        return 2;
    if (room < (size_t)RECORD_BASE + s->station_count)
        return 17;
    p = put_field(p, 1, 1);
    *p++ = s->own;
    p = put_word_field(p, 2, s->max_cell);
    p = put_word_field(p, 3, s->max_current);
    p = put_word_field(p, 4, s->max_pack);
    p = put_word_field(p, 5, s->max_temperature);
    p = put_field(p, 6, s->station_count);
    for (unsigned i = 0; i < s->station_count; i++)
        *p++ = s->stations[i];
    p = put_field(p, 7, VERSION_BYTES);
    for (unsigned i = 0; i < VERSION_BYTES; i++)
        *p++ = s->versions[i];
    *written = (size_t)(p - buf);
    return 0;
}

/* ---- Session by message ------------------------------------------------ */

static void enter(struct session *s, enum state state)
{
    s->state = (uint8_t)state;
    s->count = 0;
}

static void end(struct session *s)
{
    *s = (struct session){ .state = IDLE };
}

static void enter_stopping(struct session *s, bool acknowledged, bool limit_stop)
{
    enter(s, STOPPING);
    s->acknowledged = acknowledged;
    s->limit_stop = limit_stop;
}

/* Drive, or Hold where R is under 60 or six Drives are done. */
static void start_phase(struct session *s)
{
    s->time = 0;
    if (s->request < LEAST_REQUEST || s->drives == MOST_DRIVES) {
        s->phase = HOLD;
    } else {
        s->phase = DRIVE;
        s->drives++;
    }
}

static void enter_charging(struct session *s, const struct settings *set)
{
    enter(s, CHARGING);
    s->request = s->station_max < set->max_current ? s->station_max : set->max_current;
    s->drives = 0;
    start_phase(s);
}

/* A current word of a CMP, in tenths: its distance from 4000, either side. */
static unsigned cmp_current(unsigned raw)
{
    return raw < ZERO_CURRENT ? ZERO_CURRENT - raw : raw - ZERO_CURRENT;
}

/* A taken CMP: Ready with count 0, and a new yes or no. */
static void enter_ready(struct session *s, const struct settings *set, const uint8_t *d)
{
    unsigned max_current = cmp_current(word(d + 4)), min_current = cmp_current(word(d + 6));

    enter(s, READY);
    s->yes = word(d + 2) <= set->max_pack && set->max_pack <= word(d)
          && min_current <= max_current && min_current <= set->max_current;
    s->station_max = s->yes ? (uint16_t)max_current : 0;
}

static bool content_allowed(unsigned pf, const uint8_t *d)
{
    switch (pf) {
    case CIM: return d[0] == 1 && d[1] == 1 && d[2] == 0;
    case CVM: return d[0] == 0 || d[0] == 0xAA;
    case CRM: return d[0] == 0 || d[0] == 0xAA || d[0] == 0xFF;
    case CCS: return d[4] <= 1;
    case CST:
    case CEM: return d[2] == 0 || d[2] == 0xAA;
    default:  return true;          /* CMP */
    }
}

/* Offered to Ready, but for CST and CEM: whether the message is taken. That a
 * frame of ours has gone out since the state's entry is told from the count. */
static bool take_before_charging(struct session *s, const struct settings *set, unsigned pf, const uint8_t *d)
{
    switch (s->state) {
    case OFFERED:
        if (pf == CVM && s->count > 0) {
            enter(s, d[0] ? PARAMETERS : UNVERIFIED);
            return true;
        }
        return pf == CIM;
    case UNVERIFIED:
        if (pf == CVM && d[0])
            enter(s, PARAMETERS);
        return pf == CVM;
    case PARAMETERS:
        if (pf == CMP && s->count > 5) {
            enter_ready(s, set, d);
            return true;
        }
        return pf == CVM && d[0];
    default: /* READY */
        if (pf == CMP) {
            enter_ready(s, set, d);
            return true;
        }
        if (pf != CRM || !s->yes || s->count == 0)
            return false;
        if (d[0] == 0xAA)
            enter_charging(s, set);
        return true;
    }
}

static bool take_stopping(struct session *s, const uint8_t *d)
{
    if (d[2] == 0)
        s->acknowledged = true;
    else if (s->count > 0)          /* an EST has gone out */
        end(s);
    else
        return false;
    return true;
}

/* A charge message of allowed content from the right source, in a session. */
static bool take(struct session *s, const struct settings *set, unsigned pf, const uint8_t *d)
{
    if (pf == CEM) {
        end(s);
        return true;
    }
    if (pf == CST && s->state <= CHARGING) {
        enter_stopping(s, true, false);
        return true;
    }
    if (s->state <= READY) {
        bool taken = take_before_charging(s, set, pf, d);
        if (taken || pf != CIM)
            s->silence = 0;
        return taken;
    }
    if (s->state == CHARGING && pf == CCS) {
        s->silence = 0;
        if (d[4] == 0)
            enter_stopping(s, false, false);
        return true;
    }
    return s->state == STOPPING && pf == CST && take_stopping(s, d);
}

static bool listed(const struct settings *set, unsigned source)
{
    for (unsigned i = 0; i < set->station_count; i++)
        if (set->stations[i] == source)
            return true;
    return false;
}

static int charge_message(struct controller *c, unsigned pf, unsigned source, const uint8_t *d)
{
    struct session *s = &c->session;

    if (s->state == IDLE ? !listed(&c->settings, source) : s->station != source)
        return 9;
    if (!content_allowed(pf, d))
        return 10;
    if (s->state == IDLE) {
        if (pf != CIM)
            return 11;
        *s = (struct session){ .state = OFFERED, .station = (uint8_t)source };
        return 0;
    }
    return take(s, &c->settings, pf, d) ? 0 : 11;
}

static int query(struct controller *c, unsigned pf, unsigned source)
{
    unsigned asked = pf << 8 | source;

    for (unsigned i = 0; i < c->waiting_count; i++)
        if (c->waiting[i] == asked)
            return 12;
    if (c->waiting_count == MAX_WAITING)
        return 13;
    c->waiting[c->waiting_count++] = (uint16_t)asked;
    return 0;
}

int controller_frame(struct controller *c, uint32_t id, const uint8_t *data, size_t n)
{
    unsigned pf = id >> 16 & 0xFF, target = id >> 8 & 0xFF, source = id & 0xFF;

    if (id >> 29 || n > 8)
        return 3;
    if (id & 0x03000000)
        return 4;
    if (pf >= 240 || target != c->settings.own)
        return 5;
    if (source == c->settings.own || source >= 254)
        return 6;
    if (pf > CIM || least_length[pf] == 0)
        return 7;
    if (n < least_length[pf])
        return 8;
    if (pf == ACV || pf == ACT)
        return query(c, pf, source);
    return charge_message(c, pf, source, data);
}

/* ---- The cells --------------------------------------------------------- */

/* Every cell is walked on every tick, so these two loops are worth vector code.
 * clang makes it of a plain loop at -O2; gcc 12 does where it is told to. */
#if defined __GNUC__ && !defined __clang__
#define VECTOR_LOOP __attribute__((optimize("vect-cost-model=dynamic")))
#else
#define VECTOR_LOOP
#endif

/* The highest voltage: it decides the range too, so one walk does for both. */
VECTOR_LOOP static unsigned highest_voltage(const uint16_t *v, size_t n)
{
    uint16_t highest = 0;

    for (size_t i = 0; i < n; i++)
        highest = v[i] > highest ? v[i] : highest;
    return highest;
}

/* Whether each temperature is -50 to 205: as sent, F + 50, it fits a byte. */
VECTOR_LOOP static bool temperatures_in_range(const int16_t *t, size_t n)
{
    uint16_t all = 0;

    for (size_t i = 0; i < n; i++)
        all |= (uint16_t)(t[i] + TEMPERATURE_OFFSET);
    return all <= 255;
}

/* Highest and lowest with their indexes from 1 (ties take the lowest), and the
 * sum; temperatures as sent. */
struct extremes {
    unsigned high_v, high_v_at, low_v, low_v_at, sum_v;
    unsigned high_t, high_t_at, low_t, low_t_at, sum_t;
};

/* What one tick works with. */
struct tick {
    const struct readings *r;
    const uint16_t *v;
    const int16_t *t;
    size_t cells;
    unsigned highest;               /* cell voltage */
    uint8_t *out;                   /* where the next frame goes */
    uint32_t own;
    bool looked;                    /* x is filled */
    struct extremes x;
};

static void look_at_voltages(struct extremes *x, const uint16_t *v, size_t n)
{
    unsigned high = v[0], low = v[0], sum = 0;
    size_t high_at = 0, low_at = 0;

    for (size_t i = 0; i < n; i++) {
        unsigned cell = v[i];
        sum += cell;
        if (cell > high) {
            high = cell;
            high_at = i;
        }
        if (cell < low) {
            low = cell;
            low_at = i;
        }
    }
    x->high_v = high;
    x->high_v_at = (unsigned)high_at + 1;
    x->low_v = low;
    x->low_v_at = (unsigned)low_at + 1;
    x->sum_v = sum;
}

static void look_at_temperatures(struct extremes *x, const int16_t *t, size_t n)
{
    int high = t[0], low = t[0], sum = 0;
    size_t high_at = 0, low_at = 0;

    for (size_t i = 0; i < n; i++) {
        int cell = t[i];
        sum += cell;
        if (cell > high) {
            high = cell;
            high_at = i;
        }
        if (cell < low) {
            low = cell;
            low_at = i;
        }
    }
    x->high_t = (unsigned)(high + TEMPERATURE_OFFSET);
    x->high_t_at = (unsigned)high_at + 1;
    x->low_t = (unsigned)(low + TEMPERATURE_OFFSET);
    x->low_t_at = (unsigned)low_at + 1;
    x->sum_t = (unsigned)(sum + TEMPERATURE_OFFSET * (int)n);
}

/* The extremes, computed at most once a tick and only where they are sent. */
static const struct extremes *look(struct tick *k)
{
    if (!k->looked) {
        k->looked = true;
        look_at_voltages(&k->x, k->v, k->cells);
        look_at_temperatures(&k->x, k->t, k->cells);
    }
    return &k->x;
}

/* ---- Frames ------------------------------------------------------------ */

#define AT(byte, value) ((uint64_t)(value) << 8 * (byte))

static void send(struct tick *k, uint32_t id, uint64_t data)
{
    uint8_t *p = k->out;

    id |= k->own;
    p[0] = (uint8_t)id;
    p[1] = (uint8_t)(id >> 8);
    p[2] = (uint8_t)(id >> 16);
    p[3] = (uint8_t)(id >> 24);
    p[4] = 8;
    p[5] = (uint8_t)data;
    p[6] = (uint8_t)(data >> 8);
    p[7] = (uint8_t)(data >> 16);
    p[8] = (uint8_t)(data >> 24);
    p[9] = (uint8_t)(data >> 32);
    p[10] = (uint8_t)(data >> 40);
    p[11] = (uint8_t)(data >> 48);
    p[12] = (uint8_t)(data >> 56);
    k->out = p + FRAME_BYTES;
}

static void send_eim(struct tick *k, const struct settings *set, uint32_t to, unsigned answer)
{
    send(k, EIM | to, AT(0, set->max_pack) | AT(2, answer));
}

static void send_evm(struct tick *k, uint32_t to, unsigned answer)
{
    send(k, EVM | to, AT(0, 0x45) | AT(1, 0x50) | AT(2, 0x53) | AT(3, answer)
         | AT(4, k->r->capacity) | AT(6, k->r->pack_voltage));
}

static void send_ecp(struct tick *k, const struct settings *set, uint32_t to)
{
    send(k, ECP | to, AT(0, set->max_cell) | AT(2, set->max_current)
         | AT(4, set->max_pack) | AT(6, set->max_temperature));
}

static void send_ecr(struct tick *k, const struct session *s, const struct settings *set, uint32_t to)
{
    if (s->phase == HOLD) {
        unsigned hold = 355 * (unsigned)k->cells / 10;
        if (hold > set->max_pack)
            hold = set->max_pack;
        send(k, ECR | to, AT(0, hold) | AT(2, ZERO_CURRENT) | AT(4, 1));
    } else {
        unsigned asked = s->phase == DRIVE ? s->request : 0;
        send(k, ECR | to, AT(2, ZERO_CURRENT - asked) | AT(4, 2));
    }
}

static void send_ecs_esm(struct tick *k, uint32_t to)
{
    const struct extremes *x = look(k);

    send(k, ECS | to, AT(0, k->r->pack_voltage) | AT(2, (uint16_t)(ZERO_CURRENT - k->r->current))
         | AT(4, x->high_v) | AT(6, k->r->soc));
    send(k, ESM | to, AT(0, x->high_v_at) | AT(1, x->high_t) | AT(2, x->high_t_at)
         | AT(3, x->low_t) | AT(4, x->low_t_at) | AT(5, 1));
}

static void send_edm(struct tick *k, uint32_t to)
{
    const struct extremes *x = look(k);

    send(k, EDM | to, AT(0, k->r->soc) | AT(1, x->low_v) | AT(3, x->high_v)
         | AT(5, x->low_t) | AT(6, x->high_t));
}

/* ---- Session by tick --------------------------------------------------- */

static bool wanted(const struct readings *r)
{
    return (r->status2 & 0xA0) == 0x80 && (r->active_faults & 0xFE) == 0;
}

static void end_phase_rest(struct session *s)
{
    s->request /= 2;
    start_phase(s);
}

/* Charging by phase: the time limit first, then the cell rule. */
static void phase_tick(struct session *s, bool cell_at_max)
{
    if (s->phase == REST && s->time == REST_TICKS)
        end_phase_rest(s);
    if (s->phase == DRIVE) {
        if (s->time == DRIVE_TICKS) {
            enter_stopping(s, false, false);
            return;
        }
        if (cell_at_max) {
            s->phase = REST;
            s->time = 0;
        }
    } else if (s->phase == HOLD && (s->time == HOLD_TICKS || cell_at_max)) {
        enter_stopping(s, false, s->time != HOLD_TICKS);
        return;
    }
    s->time++;
}

/* Charging's own rules, once silence and the wish to charge have been seen to. */
static void charging_tick(struct session *s, const struct settings *set, const struct tick *k)
{
    if (k->r->current > set->max_current)
        enter_stopping(s, false, false);
    else if (k->r->pack_voltage >= set->max_pack)
        enter_stopping(s, false, true);
    else
        phase_tick(s, k->highest >= set->max_cell);
}

/* The changes of state that a tick brings, before its frames. */
static void change_state(struct session *s, const struct settings *set, struct tick *k)
{
    if (s->state > CHARGING) {      /* Stopping, Error */
        if (s->count == END_COUNT)
            end(s);
        return;
    }
    if (s->silence == SILENCE_LIMIT) {
        enter(s, ERROR);
        return;
    }
    s->silence++;
    if (!wanted(k->r)) {
        if (s->state == CHARGING) {
            enter_stopping(s, false, false);
        } else {
            send_eim(k, set, (uint32_t)s->station << 8, 0);
            end(s);
        }
    } else if (s->state == CHARGING) {
        charging_tick(s, set, k);
    }
}

/* EST bytes 1 and 2, at Stopping's first tick. */
static void fix_est(struct session *s, const struct settings *set, const struct tick *k)
{
    s->est1 = (uint8_t)((k->r->soc == 100 ? 0x01 : 0) | (k->r->pack_voltage >= set->max_pack ? 0x04 : 0)
                        | (k->highest >= set->max_cell ? 0x10 : 0) | (s->limit_stop ? 0 : 0x40));
    s->est2 = k->r->current > set->max_current;
}

static void send_stopping(struct tick *k, struct session *s, const struct settings *set, uint32_t to)
{
    if (s->count == 0)
        fix_est(s, set, k);
    send(k, EST | to, AT(0, s->est1) | AT(1, s->est2) | AT(2, s->acknowledged ? 0xAA : 0));
    if (s->count % 5 == 0)
        send_edm(k, to);
}

/* The frames of the resulting state; not for Idle. */
static void send_of_state(struct tick *k, struct session *s, const struct settings *set)
{
    uint32_t to = (uint32_t)s->station << 8;
    bool fifth = s->count % 5 == 0;

    switch (s->state) {
    case CHARGING:
        send_ecr(k, s, set, to);
        if (fifth)
            send_ecs_esm(k, to);
        break;
    case STOPPING:
        send_stopping(k, s, set, to);
        break;
    case PARAMETERS:
        if (s->count == 0)
            send_evm(k, to, 0xAA);
        else if (s->count % 10 == 5)
            send_ecp(k, set, to);
        break;
    case OFFERED:
        if (fifth)
            send_eim(k, set, to, 0xAA);
        break;
    case UNVERIFIED:
        if (fifth)
            send_evm(k, to, 0);
        break;
    case READY:
        if (fifth)
            send(k, ERM | to, s->yes ? 0xAA : 0);
        break;
    default: /* ERROR */
        if (fifth)
            send(k, EEM | to, 0x10);
    }
}

/* The next count. It is asked for its remainder by 10 and compared with numbers
 * up to 600, so past 609 it goes on from 600 and never wraps. */
static uint16_t step(uint16_t count)
{
    return count == END_COUNT + 9 ? END_COUNT : count + 1;
}

static void session_tick(struct session *s, const struct settings *set, struct tick *k)
{
    change_state(s, set, k);
    if (s->state != IDLE) {
        send_of_state(k, s, set);
        s->count = step(s->count);
    }
}

/* ---- Broadcasts and cell answers --------------------------------------- */

static void send_broadcasts(struct tick *k, const struct settings *set, bool second)
{
    const struct readings *r = k->r;
    const struct extremes *x = look(k);
    const uint8_t *e = set->versions;
    unsigned n = (unsigned)k->cells;

    send(k, PS, AT(0, r->status1 | (second ? 0x80 : 0)) | AT(1, r->status2) | AT(2, r->soc) | AT(3, n)
         | AT(4, (uint16_t)r->current) | AT(6, r->pack_voltage));
    send(k, CVS, AT(0, x->sum_v / n) | AT(2, x->high_v_at) | AT(3, x->high_v)
         | AT(5, x->low_v_at) | AT(6, x->low_v));
    send(k, CTS, AT(0, x->high_t_at) | AT(1, x->high_t) | AT(2, x->low_t_at) | AT(3, x->low_t)
         | AT(4, x->sum_t / n));
    send(k, FWS, AT(0, r->active_faults) | AT(1, r->latched_faults)
         | AT(2, r->active_warnings) | AT(3, r->latched_warnings));
    send(k, EC, AT(0, e[0]) | AT(1, e[1]) | AT(2, e[2]) | AT(3, e[3]) | AT(4, e[4]));
}

/* A group's data: its first cell stands last, empty places are 0. */
static uint64_t voltage_group(const struct tick *k, size_t first)
{
    uint64_t data = 0;

    for (size_t i = first; i < first + 4; i++)
        data = data << 16 | (i < k->cells ? k->v[i] : 0);
    return data;
}

static uint64_t temperature_group(const struct tick *k, size_t first)
{
    uint64_t data = 0;

    for (size_t i = first; i < first + 8; i++)
        data = data << 8 | (i < k->cells ? (uint8_t)(k->t[i] + TEMPERATURE_OFFSET) : 0);
    return data;
}

/* One group for the oldest query, which leaves with its last. */
static void answer(struct controller *c, struct tick *k)
{
    bool voltages = c->waiting[0] >> 8 == ACV;
    uint32_t to = (uint32_t)(c->waiting[0] & 0xFF) << 8;
    size_t size = voltages ? 4 : 8, first = c->group * size;

    if (first < k->cells)
        send(k, ROW(7, (voltages ? 0x31 : 0x81) + c->group) | to,
             voltages ? voltage_group(k, first) : temperature_group(k, first));
    c->group++;
    if (first + size >= k->cells) {
        c->group = 0;
        c->waiting_count--;
        for (unsigned i = 0; i < c->waiting_count; i++)
            c->waiting[i] = c->waiting[i + 1];
    }
}

/* ---- The tick ---------------------------------------------------------- */

static bool readings_in_range(const struct readings *r)
{
    return r->status1 <= 127 && r->soc <= 100 && r->current >= -20000 && r->current <= 4000;
}

int controller_tick(struct controller *c, const struct readings *r, const uint16_t *v, size_t nv,
                    const int16_t *t, size_t nt, uint8_t *buf, size_t room, size_t *written)
{
    struct tick k;

    *written = 0;
    if (nv != nt || nv == 0 || nv > MAX_CELLS)
        return 14;
    k.highest = highest_voltage(v, nv);
    if (!readings_in_range(r) || k.highest > MAX_VOLTAGE || !temperatures_in_range(t, nt))
        return 15;
    if (room < TICK_ROOM)
        return 16;
    k.r = r;
    k.v = v;
    k.t = t;
    k.cells = nv;
    k.out = buf;
    k.own = c->settings.own;
    k.looked = false;
    if (c->session.state != IDLE)
        session_tick(&c->session, &c->settings, &k);
    if (c->beat == 0 || c->beat == 30)
        send_broadcasts(&k, &c->settings, c->beat == 30);
    c->beat = c->beat == 59 ? 0 : c->beat + 1;
    if (c->waiting_count > 0)
        answer(c, &k);
    *written = (size_t)(k.out - buf);
    return 0;
}
