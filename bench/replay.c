/* replay.c - runs a replay script from standard input on the controller.
 *
 * Input is read in blocks and parsed where it lies: a block is handed on up to
 * its last newline, so every line is whole and ends in '\n', at which each of
 * the parsing functions stops. They return the place after what they read, or
 * NULL. A line acts only after finish() has seen its end.
 */
#include "controller.h"

#include <errno.h>
#include <string.h>
#include <unistd.h>

enum {
    BLOCK = 65536, SLACK = 16,      /* a keyword may be compared past the block's end */
    OUT = 65536, OUT_ROOM = 512,    /* the most that is put between two looks at the room */
    LINE_LIMIT = 4096, TABLE_LIMIT = 512, BUFFER_LIMIT = 4096,
    TICK_LIMIT = 10000000, DAY_TICKS = 1728000, TICK_MICROS = 50000,
    FRAME_LIMIT = 64, STAMP = 25
};

struct replay {
    struct controller controller;
    bool ready;                     /* there is a controller */
    unsigned shown;                 /* state and station last written */
    struct readings readings;
    uint16_t voltages[2][TABLE_LIMIT];      /* one in use, one to read the next into */
    int16_t temperatures[2][TABLE_LIMIT];
    unsigned v_used, t_used;
    size_t nv, nt, room;
    bool timed;                     /* a log line has set time zero */
    uint64_t zero, log_ticks;
    char stamp[STAMP];              /* of the next accepted tick */
    unsigned long line_number;
    const uint8_t *line, *end;      /* the line's first character and its '\n' */
    size_t out_used;
    char out[OUT];
    uint8_t lent[BUFFER_LIMIT];
    uint8_t in[BLOCK + SLACK];
};

static struct replay replay;
static char hex_pair[256][2];       /* a byte as two capital hex digits */
static const char start_stamp[STAMP + 1] = "(0000000000.000000) can0 ";

/* What a character is: the value of a hex digit, or one of these. */
enum { HEX_MAX = 15, BLANK = 32, NEWLINE = 64, OTHER = 128 };
static uint8_t kind[256];

/* ---- Output ------------------------------------------------------------ */

static void flush(struct replay *r)
{
    size_t done = 0;

    while (done < r->out_used) {
        ssize_t n = write(1, r->out + done, r->out_used - done);
        if (n >= 0)
            done += (size_t)n;
        else if (errno != EINTR)
            _exit(1);
    }
    r->out_used = 0;
}

/* Where the next OUT_ROOM characters can be put. */
static char *out(struct replay *r)
{
    if (r->out_used > OUT - OUT_ROOM)
        flush(r);
    return r->out + r->out_used;
}

static void put_to(struct replay *r, const char *end)
{
    r->out_used = (size_t)(end - r->out);
}

static char *put_text(char *o, const char *text, size_t n)
{
    memcpy(o, text, n);
    return o + n;
}

#define TEXT(literal) literal, sizeof literal - 1

static char *put_hex(char *o, uint8_t byte)
{
    memcpy(o, hex_pair[byte], 2);
    return o + 2;
}

static char *put_number(char *o, unsigned long n)
{
    char digits[20];
    size_t i = sizeof digits;

    do {
        digits[--i] = (char)('0' + n % 10);
        n /= 10;
    } while (n > 0);
    return put_text(o, digits + i, sizeof digits - i);
}

/* One of the paper's numbers, 0 to 17. */
static char *put_answer(char *o, int number)
{
    if (number >= 10) {
        *o++ = '1';
        number -= 10;
    }
    *o++ = (char)('0' + number);
    return o;
}

/* "settings N", "frame N", "tick N". */
static void say_answer(struct replay *r, const char *text, size_t n, int number)
{
    char *o = put_answer(put_text(out(r), text, n), number);

    *o++ = '\n';
    put_to(r, o);
}

static void say_no_controller(struct replay *r)
{
    put_to(r, put_text(out(r), TEXT("no controller\n")));
}

static void say_unreadable(struct replay *r)
{
    char *o = put_text(out(r), TEXT("unreadable line "));

    o = put_number(o, r->line_number);
    *o++ = '\n';
    put_to(r, o);
}

static void say_new_state(struct replay *r)
{
    static const char names[][12] = { "Idle", "Offered", "Unverified", "Parameters",
                                      "Ready", "Charging", "Stopping", "Error" };
    const struct session *s = &r->controller.session;
    char *o = put_text(out(r), TEXT("state "));

    o = put_text(o, names[s->state], strlen(names[s->state]));
    if (s->state != IDLE) {
        *o++ = ' ';
        o = put_hex(o, s->station);
    }
    *o++ = '\n';
    put_to(r, o);
}

/* The state line, where the call has changed the state or the station. */
static inline void say_state(struct replay *r)
{
    unsigned now = (unsigned)r->controller.session.state << 8 | r->controller.session.station;

    if (now != r->shown) {
        r->shown = now;
        say_new_state(r);
    }
}

/* The frames of an accepted tick; nine take 459 characters. */
static void say_frames(struct replay *r, size_t written)
{
    char *o = out(r);

    for (const uint8_t *f = r->lent; f < r->lent + written; f += FRAME_BYTES) {
        o = put_text(o, r->stamp, STAMP);
        o = put_hex(put_hex(put_hex(put_hex(o, f[3]), f[2]), f[1]), f[0]);
        *o++ = '#';
        for (unsigned i = 5; i < FRAME_BYTES; i++)
            o = put_hex(o, f[i]);
        *o++ = '\n';
    }
    put_to(r, o);
}

/* ---- Calls ------------------------------------------------------------- */

/* Adds 50 ms to the stamp's text. */
static void advance(char *stamp)
{
    char *digit = stamp + 12;       /* tenths of a second */

    if (stamp[13] == '0') {
        stamp[13] = '5';
        return;
    }
    stamp[13] = '0';
    while (*digit == '9') {
        *digit = '0';
        digit -= digit == stamp + 12 ? 2 : 1;
    }
    ++*digit;
}

static void run_ticks(struct replay *r, uint64_t n)
{
    const uint16_t *v = r->voltages[r->v_used];
    const int16_t *t = r->temperatures[r->t_used];

    for (; n > 0; n--) {
        size_t written;
        int number = controller_tick(&r->controller, &r->readings, v, r->nv, t, r->nt,
                                     r->lent, r->room, &written);
        if (number != 0) {
            say_answer(r, TEXT("tick "), number);
            continue;
        }
        if (written > 0)
            say_frames(r, written);
        say_state(r);
        advance(r->stamp);
    }
}

static void hand_over(struct replay *r, uint32_t id, const uint8_t *data, size_t n)
{
    if (!r->ready) {
        say_no_controller(r);
        return;
    }
    say_answer(r, TEXT("frame "), controller_frame(&r->controller, id, data, n));
    say_state(r);
}

/* ---- Words and numbers ------------------------------------------------- */

static inline bool word_ends(uint8_t c)
{
    return (kind[c] & (BLANK | NEWLINE)) != 0;
}

static inline const uint8_t *skip_blanks(const uint8_t *p)
{
    while (kind[*p] == BLANK)
        p++;
    return p;
}

/* Whether the line ends here and is not too long; if so, the line is read. */
static inline bool finish(struct replay *r, const uint8_t *p)
{
    p = skip_blanks(p);
    if (*p != '\n' || p - r->line > LINE_LIMIT)
        return false;
    r->end = p;
    return true;
}

/* Past this keyword and the blanks after it. */
static inline const uint8_t *keyword(const uint8_t *p, const char *text, size_t n)
{
    return memcmp(p, text, n) == 0 && word_ends(p[n]) ? skip_blanks(p + n) : NULL;
}

/* A word that is a number from low to high, and the blanks after it. */
static const uint8_t *number(const uint8_t *p, int32_t low, int32_t high, int32_t *value)
{
    bool minus = *p == '-';
    int32_t n = 0;
    unsigned digit;

    if (minus || *p == '+')
        p++;
    if (*p - (unsigned)'0' > 9)
        return NULL;
    for (; (digit = *p - (unsigned)'0') <= 9; p++)
        n = n < 100000000 ? n * 10 + (int32_t)digit : n;    /* beyond every limit */
    if (minus)
        n = -n;
    if (!word_ends(*p) || n < low || n > high)
        return NULL;
    *value = n;
    return skip_blanks(p);
}

/* Pairs of hex digits to the word's end, at most limit of them. */
static inline const uint8_t *hex_bytes(const uint8_t *p, uint8_t *bytes, size_t limit, size_t *count)
{
    size_t n = 0;
    unsigned high, low;

    for (; (high = kind[p[0]]) <= HEX_MAX; p += 2) {
        low = kind[p[1]];
        if (low > HEX_MAX || n == limit)
            return NULL;
        bytes[n++] = (uint8_t)(high << 4 | low);
    }
    *count = n;
    return word_ends(*p) ? p : NULL;
}

/* ID#DATA */
static inline const uint8_t *frame_word(const uint8_t *p, uint32_t *id, uint8_t *data, size_t *n)
{
    const uint8_t *first = p;
    uint32_t value = 0;
    unsigned digit;

    for (; (digit = kind[*p]) <= HEX_MAX; p++)
        value = value << 4 | digit;
    if (p == first || p - first > 8 || *p != '#')
        return NULL;
    *id = value;
    return hex_bytes(p + 1, data, FRAME_LIMIT, n);
}

/* (SECONDS.MICROS) as microseconds. */
static const uint8_t *log_time(const uint8_t *p, uint64_t *micros)
{
    const uint8_t *first = ++p;
    uint64_t value = 0;

    for (; *p - (unsigned)'0' <= 9; p++)
        value = value * 10 + (*p - (unsigned)'0');
    if (p == first || p - first > 12 || *p != '.')
        return NULL;
    first = ++p;
    for (; *p - (unsigned)'0' <= 9; p++)
        value = value * 10 + (*p - (unsigned)'0');
    if (p - first != 6 || *p != ')' || kind[p[1]] != BLANK)
        return NULL;
    *micros = value;
    return p + 1;
}

/* ---- Lines: each returns whether it could be read ---------------------- */

static bool settings_line(struct replay *r, const uint8_t *p)
{
    uint8_t bytes[LINE_LIMIT / 2];
    size_t n = 0;
    int answer;

    if (*p == '-')
        p++;
    else if (*p == '\n' || (p = hex_bytes(p, bytes, sizeof bytes, &n)) == NULL)
        return false;
    if (!word_ends(*p) || !finish(r, p))
        return false;
    answer = controller_read(&r->controller, bytes, n);
    if (answer == 0) {
        r->ready = true;
        memcpy(r->stamp, start_stamp, STAMP);
    }
    say_answer(r, TEXT("settings "), answer);
    say_state(r);
    return true;
}

static bool readings_line(struct replay *r, const uint8_t *p)
{
    static const int32_t high[10] = { 255, 255, 255, 32767, 65535, 65535, 255, 255, 255, 255 };
    int32_t w[10];

    for (unsigned i = 0; i < 10; i++)
        if ((p = number(p, i == 3 ? -32768 : 0, high[i], &w[i])) == NULL)
            return false;
    if (!finish(r, p))
        return false;
    r->readings = (struct readings){
        .status1 = (uint8_t)w[0], .status2 = (uint8_t)w[1], .soc = (uint8_t)w[2],
        .current = (int16_t)w[3], .pack_voltage = (uint16_t)w[4], .capacity = (uint16_t)w[5],
        .active_faults = (uint8_t)w[6], .latched_faults = (uint8_t)w[7],
        .active_warnings = (uint8_t)w[8], .latched_warnings = (uint8_t)w[9]
    };
    return true;
}

static bool voltages_line(struct replay *r, const uint8_t *p)
{
    unsigned spare = !r->v_used;
    size_t n = 0;
    int32_t value;

    for (; *p != '\n'; n++) {
        if (n == TABLE_LIMIT || (p = number(p, 0, 65535, &value)) == NULL)
            return false;
        r->voltages[spare][n] = (uint16_t)value;
    }
    if (!finish(r, p))
        return false;
    r->v_used = spare;
    r->nv = n;
    return true;
}

static bool temperatures_line(struct replay *r, const uint8_t *p)
{
    unsigned spare = !r->t_used;
    size_t n = 0;
    int32_t value;

    for (; *p != '\n'; n++) {
        if (n == TABLE_LIMIT || (p = number(p, -32768, 32767, &value)) == NULL)
            return false;
        r->temperatures[spare][n] = (int16_t)value;
    }
    if (!finish(r, p))
        return false;
    r->t_used = spare;
    r->nt = n;
    return true;
}

static bool buffer_line(struct replay *r, const uint8_t *p)
{
    int32_t n;

    if ((p = number(p, 0, BUFFER_LIMIT, &n)) == NULL || !finish(r, p))
        return false;
    r->room = (size_t)n;
    return true;
}

static bool tick_line(struct replay *r, const uint8_t *p)
{
    int32_t n = 1;

    if (*p != '\n' && (p = number(p, 0, TICK_LIMIT, &n)) == NULL)
        return false;
    if (!finish(r, p))
        return false;
    if (r->ready)
        run_ticks(r, (uint64_t)n);
    else
        say_no_controller(r);
    return true;
}

static bool write_line(struct replay *r, const uint8_t *p)
{
    int32_t n;
    size_t written;
    char *o;

    if ((p = number(p, 0, BUFFER_LIMIT, &n)) == NULL || !finish(r, p))
        return false;
    if (!r->ready) {
        say_no_controller(r);
        return true;
    }
    o = put_text(out(r), TEXT("write "));
    o = put_answer(o, controller_write(&r->controller, r->lent, (size_t)n, &written));
    *o++ = ' ';
    o = put_number(o, written);
    *o++ = ' ';
    if (written == 0)
        *o++ = '-';
    for (size_t i = 0; i < written; i++)
        o = put_hex(o, r->lent[i]);
    *o++ = '\n';
    put_to(r, o);
    return true;
}

static bool frame_line(struct replay *r, const uint8_t *p)
{
    uint8_t data[FRAME_LIMIT];
    uint32_t id;
    size_t n;

    if ((p = frame_word(p, &id, data, &n)) == NULL || !finish(r, p))
        return false;
    hand_over(r, id, data, n);
    return true;
}

/* The ticks that are due by this time and not yet run by log lines. */
static uint64_t ticks_due(const struct replay *r, uint64_t micros)
{
    uint64_t all;

    if (!r->timed || micros < r->zero)
        return 0;
    all = (micros - r->zero) / TICK_MICROS;
    return all > r->log_ticks ? all - r->log_ticks : 0;
}

static bool log_line(struct replay *r, const uint8_t *p)
{
    uint8_t data[FRAME_LIMIT];
    uint64_t micros, due;
    uint32_t id;
    size_t n;

    if ((p = log_time(p, &micros)) == NULL)
        return false;
    p = skip_blanks(p);
    while (!word_ends(*p))          /* the interface */
        p++;
    p = skip_blanks(p);
    if ((p = frame_word(p, &id, data, &n)) == NULL || !finish(r, p))
        return false;
    due = ticks_due(r, micros);
    if (due > DAY_TICKS)
        return false;
    if (!r->timed) {
        r->timed = true;
        r->zero = micros;
    }
    r->log_ticks += due;
    if (r->ready)
        run_ticks(r, due);
    hand_over(r, id, data, n);
    return true;
}

/* ---- The script -------------------------------------------------------- */

static bool other_line(struct replay *r, const uint8_t *p)
{
    static const struct {
        const char *text;
        size_t n;
        bool (*read)(struct replay *, const uint8_t *);
    } words[] = {
        { TEXT("voltages"), voltages_line }, { TEXT("temperatures"), temperatures_line },
        { TEXT("readings"), readings_line }, { TEXT("settings"), settings_line },
        { TEXT("buffer"), buffer_line }, { TEXT("write"), write_line }
    };

    for (size_t i = 0; i < sizeof words / sizeof *words; i++) {
        const uint8_t *q = keyword(p, words[i].text, words[i].n);
        if (q != NULL)
            return words[i].read(r, q);
    }
    return false;
}

static bool read_line(struct replay *r, const uint8_t *p)
{
    const uint8_t *q;

    if (kind[*p] <= HEX_MAX && p[1] != 'u')     /* not "buffer" */
        return frame_line(r, p);
    if ((q = keyword(p, TEXT("tick"))) != NULL)
        return tick_line(r, q);
    if (*p == '(')
        return log_line(r, p);
    return other_line(r, p);
}

/* The whole lines from p up to end, which is past a '\n'. */
static void run_lines(struct replay *r, const uint8_t *p, const uint8_t *end)
{
    while (p < end) {
        r->line = p;
        r->line_number++;
        p = skip_blanks(p);
        if (*p == '\n') {
            p++;
            continue;
        }
        if (*p != '#') {
            if (read_line(r, p)) {
                p = r->end + 1;
                continue;
            }
            say_unreadable(r);
        }
        p = (const uint8_t *)memchr(p, '\n', (size_t)(end - p)) + 1;
    }
}

/* A line that fills the block is too long. All that still matters is that, and
 * how its first word begins: keeps so much of it, and returns its length. */
static size_t shorten(uint8_t *in, size_t have)
{
    size_t first;

    in[have] = '\n';
    first = (size_t)(skip_blanks(in) - in);
    if (first < have && first > LINE_LIMIT)
        in[LINE_LIMIT] = in[first];
    return LINE_LIMIT + 1;
}

/* Runs the whole lines among the first have bytes, of which those before seen
 * hold no newline. Moves the rest to the front and returns its length. */
static size_t run_block(struct replay *r, size_t seen, size_t have)
{
    size_t whole = have;

    while (whole > seen && r->in[whole - 1] != '\n')
        whole--;
    if (whole == seen)
        return have == BLOCK ? shorten(r->in, have) : have;
    run_lines(r, r->in, r->in + whole);
    memmove(r->in, r->in + whole, have - whole);
    return have - whole;
}

static int run(struct replay *r)
{
    size_t have = 0;

    for (;;) {
        ssize_t n = read(0, r->in + have, BLOCK - have);
        if (n < 0 && errno == EINTR)
            continue;
        if (n <= 0) {
            if (have > 0) {         /* a last line without its newline */
                r->in[have] = '\n';
                run_lines(r, r->in, r->in + have + 1);
            }
            flush(r);
            return n < 0;
        }
        have = run_block(r, have, have + (size_t)n);
    }
}

static void make_tables(void)
{
    static const char capitals[] = "0123456789ABCDEF", smalls[] = "0123456789abcdef";

    memset(kind, OTHER, sizeof kind);
    kind[' '] = kind['\t'] = kind['\r'] = BLANK;
    kind['\n'] = NEWLINE;
    for (unsigned i = 0; i < 16; i++)
        kind[(uint8_t)capitals[i]] = kind[(uint8_t)smalls[i]] = (uint8_t)i;
    for (unsigned i = 0; i < 256; i++) {
        hex_pair[i][0] = capitals[i >> 4];
        hex_pair[i][1] = capitals[i & 15];
    }
}

int main(void)
{
    struct replay *r = &replay;

    make_tables();
    r->readings = (struct readings){ .status1 = 1, .status2 = 192, .soc = 50,
                                     .pack_voltage = 3000, .capacity = 1000 };
    r->voltages[0][0] = 330;
    r->temperatures[0][0] = 70;
    r->nv = r->nt = 1;
    r->room = TICK_ROOM;
    return run(r);
}
