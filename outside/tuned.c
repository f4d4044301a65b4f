/*
 * The levels, the pull, the phase and the byte under way stay in registers (struct hot, which is never stored);
 * what comes once a byte or less often goes through the chip. Clocks inside a byte are taken two events at a time.
 */
#include "tuned.h"

#include <string.h>

enum { NOTHING, SECTOR, BITS };         /* what waits */

enum { IDLE, SLAVE, HIGH, LOW, DATA, ACK_W, ACK_R, ACK_H, ACK_D, SEND, WAIT, NEXT };

struct hot {
    unsigned scl, line, pull, phase, busy;
    unsigned bit;       /* receiving: bits received; sending: the bit on the wire */
    unsigned byte;      /* its low eight bits are what was received, or the byte sent */
};

static int good_chip(const struct crep_chip *c)
{
    unsigned flags = c->ppen | c->rpel | c->pel | c->mark | c->busy | c->scl | c->line;
    unsigned most = c->phase == SEND ? 7 : c->phase >= SLAVE && c->phase <= DATA ? 8 : 255;
    int i;

    for (i = 0; i < 32; i++)
        flags |= c->places[i] | (c->wait == SECTOR ? c->wait_places[i] : 0);
    if (c->wait == SECTOR ? c->wait_high > 1 : c->wait == BITS ? c->wait_ppen > 1 || c->wait_bl > 3 : c->wait != 0)
        return 0;
    return flags <= 1 && c->part <= 2 && c->select <= 7 && c->bl <= 3 && c->counter_high <= 0x3f && c->count <= 33
        && c->phase <= NEXT && c->bits <= most;
}

static int good_events(const uint8_t *trace, size_t n)
{
    unsigned high = 0;
    size_t i;

    for (i = 0; i < n; i++)
        high |= trace[i] > 11;
    return !high;
}

/* Chip to registers. */
static struct hot heat(const struct crep_chip *c)
{
    struct hot h = { c->scl, c->line, 0, c->phase, c->busy, c->bits, c->byte };

    h.pull = (h.phase >= ACK_W && h.phase <= ACK_D) || (h.phase == SEND && !(h.byte >> h.bit & 1));
    return h;
}

/* Registers to chip. */
static void cool(struct crep_chip *c, struct hot h)
{
    int carries = (h.phase >= SLAVE && h.phase <= DATA) || h.phase == SEND;

    c->scl = (uint8_t)h.scl;
    c->line = (uint8_t)h.line;
    c->phase = (uint8_t)h.phase;
    c->bits = carries ? (uint8_t)h.bit : 0;
    c->byte = carries ? (uint8_t)h.byte : 0;
    if (h.phase != LOW && h.phase != ACK_H)
        c->high = 0;
    if (c->wait != SECTOR) {
        c->wait_high = c->wait_low = 0;
        memset(c->wait_places, 0, 32);
        memset(c->wait_bytes, 0, 32);
    }
    if (c->wait != BITS)
        c->wait_ppen = c->wait_bl = 0;
}

static unsigned counter(const struct crep_chip *c)
{
    return (unsigned)c->counter_high << 8 | c->counter_low;
}

static void count_to(struct crep_chip *c, unsigned address)
{
    c->counter_high = address >> 8 & 0x3f;
    c->counter_low = (uint8_t)address;
}

static unsigned drop(struct crep_chip *c)
{
    unsigned note = c->count ? 7 : 0;

    memset(&c->count, 0, 65);
    return note;
}

/* The X24F129 has no register: mark, PEL and BL are not read. */
static unsigned bare(const struct crep_chip *c)
{
    return c->part >> 1;
}

static unsigned marked(const struct crep_chip *c)
{
    return c->mark & ~bare(c);
}

/* A data byte at its last fall: the next phase, and note 7 by way of *note. */
static unsigned data(struct crep_chip *c, unsigned byte, unsigned *note)
{
    unsigned mark = marked(c), at = mark ? 0 : c->counter_low & 31;

    if (mark ? c->count != 0 : !(c->pel | bare(c))) {
        if (mark)
            *note = drop(c);
        return IDLE;
    }
    c->load[at] = (uint8_t)byte;
    c->places[at] = 1;
    c->count += c->count < 33;
    if (!mark)
        c->counter_low = (uint8_t)((c->counter_low & 0xe0) | ((at + 1) & 31));
    return ACK_D;
}

static unsigned address(struct crep_chip *c, unsigned low)
{
    unsigned all = (unsigned)c->high << 8 | low;

    c->mark = all == 0xffff && !bare(c);
    if (!c->mark)
        count_to(c, all);
    return ACK_D;
}

/* The phase after the fall that ends a received byte. */
static unsigned taken(struct crep_chip *c, unsigned phase, unsigned byte, unsigned *note)
{
    switch (phase) {
    case SLAVE:
        return (byte & 0xfe) != (0xa0u | c->select * 2u) ? IDLE : byte & 1 ? ACK_R : ACK_W;
    case HIGH:
        c->high = (uint8_t)byte;
        return ACK_H;
    case LOW:
        return address(c, byte);
    default:
        return data(c, byte, note);
    }
}

/* The byte to send, at the fall of its bit 7. */
static unsigned sent(const struct crep_chip *c, const uint8_t *array)
{
    return marked(c) ? (unsigned)(c->ppen << 7 | c->bl << 3 | c->rpel << 2 | c->pel << 1) : array[counter(c)];
}

/* The phase after bit 0 of a sent byte. */
static unsigned sent_all(struct crep_chip *c)
{
    unsigned was = marked(c);

    count_to(c, was ? 0 : counter(c) + 1);
    c->mark ^= was;
    return was ? IDLE : WAIT;
}

/* A cycle; cool clears what its kind of wait does not carry. */
static void begin(struct crep_chip *c, unsigned wait)
{
    c->busy = 1;
    c->rpel = 0;
    c->wait = (uint8_t)wait;
}

static unsigned store(struct crep_chip *c, unsigned pin)
{
    unsigned at = counter(c) >> 5, i, lock = bare(c) ? pin : c->bl;

    if (lock && at >= (lock == 3 ? 0u : 0x200u - lock * 0x80u))
        return 4;
    begin(c, SECTOR);
    c->wait_high = (uint8_t)(at >> 8);
    c->wait_low = (uint8_t)at;
    if (c->part && c->count != 32) {
        memset(c->wait_places, 1, 32);
        memset(c->wait_bytes, c->spoil, 32);
        return 5;
    }
    memcpy(c->wait_places, c->places, 32);
    for (i = 0; i < 32; i++)
        c->wait_bytes[i] = c->load[i] & (0u - c->places[i]);
    return 1;
}

static unsigned set_register(struct crep_chip *c, unsigned v, unsigned pin)
{
    count_to(c, 0);
    c->mark = 0;
    if (v & 0x61)
        return 6;
    if (!c->rpel) {
        if (v != 0 && v != 2 && !(v == 6 && c->pel))
            return 6;
        c->rpel = v == 6;
        c->pel = v != 0;
        return 3;
    }
    if ((v & 7) != 2 || (c->ppen & pin))
        return 6;
    begin(c, BITS);
    c->wait_ppen = (uint8_t)(v >> 7);
    c->wait_bl = v >> 3 & 3;
    return 2;
}

/* placed: in the data phase with one bit received. */
static unsigned stop(struct crep_chip *c, int placed, unsigned pin)
{
    unsigned note = 0;

    if (!placed)
        return drop(c);
    if (c->count)
        note = marked(c) ? set_register(c, c->load[0], pin) : store(c, pin);
    drop(c);
    return note;
}

/* The chosen part of what waits, bit k of `chosen` for place k. */
static void take(struct crep_chip *c, uint8_t *array, unsigned chosen)
{
    unsigned to = ((unsigned)c->wait_high << 8 | c->wait_low) * 32, i;

    if (c->wait == BITS && (chosen & 1)) {
        c->ppen = c->wait_ppen;
        c->bl = c->wait_bl;
    }
    for (i = 0; c->wait == SECTOR && i < 32; i++)
        if (c->wait_places[i] & chosen >> i)
            array[to + i] = c->wait_bytes[i];
}

/* Program-done and the three power-ups. A program-done leaves an idle chip what waits. */
static void other(struct crep_chip *c, struct hot *h, uint8_t *array, unsigned event)
{
    if (h->busy)
        take(c, array, event < 10 ? 0xffffffffu : event == 10 ? 0 : 0xffff);
    if (h->busy || event > 8)
        c->wait = NOTHING;
    c->busy = 0;
    h->busy = 0;
    if (event == 8)
        return;
    c->pel = c->rpel = c->mark = 0;
    count_to(c, 0);
    drop(c);
    *h = (struct hot){ .line = 1 };
}

/* An event that is no sample, or a sample that a busy chip only tracks. */
static void slow(struct crep_chip *c, struct hot *h, uint8_t *array, unsigned event)
{
    if (event > 7) {
        other(c, h, array, event);
    } else {
        h->scl = event & 1;
        h->line = event >> 1 & 1;
    }
}

static inline void rise(struct hot *h, unsigned now)
{
    if (h->phase <= DATA) {
        if (h->bit < 8) {
            h->byte = h->byte << 1 | now;
            h->bit++;
        }
    } else if (h->phase == WAIT) {
        h->phase = now ? IDLE : NEXT;
    }
}

static inline void send_bit(struct hot *h, unsigned bit)
{
    h->bit = bit;
    h->pull = ~(h->byte >> bit) & 1;
}

/* The falls that begin or end a byte. Returns the note. */
static unsigned turn(struct crep_chip *c, struct hot *h, const uint8_t *array)
{
    unsigned note = 0;

    if (h->phase <= DATA) {
        h->phase = taken(c, h->phase, h->byte & 0xff, &note);
        h->pull = h->phase != IDLE;
    } else if (h->phase == ACK_R || h->phase == NEXT) {
        h->byte = sent(c, array);
        h->phase = SEND;
        send_bit(h, 7);
    } else if (h->phase == SEND) {
        h->phase = sent_all(c);
        h->pull = 0;
    } else if (h->phase != WAIT) {
        h->phase = h->phase == ACK_W ? HIGH : h->phase == ACK_H ? LOW : DATA;
        h->byte = h->bit = h->pull = 0;
    }
    return note;
}

static inline unsigned fall(struct crep_chip *c, struct hot *h, const uint8_t *array)
{
    if (h->phase <= DATA && (h->bit < 8 || h->phase == IDLE))
        return 0;
    if (h->phase != SEND || h->bit == 0)
        return turn(c, h, array);
    send_bit(h, h->bit - 1);
    return 0;
}

static unsigned start_or_stop(struct crep_chip *c, struct hot *h, unsigned pin)
{
    unsigned note;

    if (h->line) {
        note = drop(c);
        h->phase = SLAVE;
    } else {
        note = stop(c, h->phase == DATA && h->bit == 1, pin);
        h->phase = IDLE;
        h->busy = c->busy;
    }
    h->byte = h->bit = h->pull = 0;
    return note;
}

/* Whether two events are a whole clock: a sample with SCL low, then one with SCL high. */
static inline int is_clock(const uint8_t *e)
{
    return ((e[0] | (e[1] ^ 1)) & ~6) == 0;
}

/* Whole clocks inside a byte, from SCL high: no rule but that of the bit can apply. Returns the next event. */
static inline size_t clocks(struct hot *h, const uint8_t *trace, size_t i, size_t n, uint8_t *answers)
{
    if (h->phase - SLAVE <= DATA - SLAVE) {
        for (; h->bit < 8 && i + 1 < n && is_clock(trace + i); i += 2, h->bit++) {
            h->line = trace[i + 1] >> 1 & 1;
            h->byte = h->byte << 1 | h->line;
            answers[i] = trace[i] >> 1 & 1;
            answers[i + 1] = (uint8_t)h->line;
        }
    } else if (h->phase == SEND) {
        for (; h->bit > 0 && i + 1 < n && is_clock(trace + i); i += 2) {
            send_bit(h, h->bit - 1);
            h->line = trace[i + 1] >> 1 & ~h->pull & 1;
            answers[i] = (uint8_t)(trace[i] >> 1 & ~h->pull & 1);
            answers[i + 1] = (uint8_t)h->line;
        }
    }
    return i;
}

/* Any one event. Returns its answer. */
static inline uint8_t one(struct crep_chip *c, struct hot *h, uint8_t *array, unsigned e)
{
    unsigned scl = e & 1, sda = e >> 1 & 1, now = sda & ~h->pull, note = 0;

    if (e > 7 || h->busy) {
        slow(c, h, array, e);
        return (uint8_t)h->line;
    }
    if (scl > h->scl)
        rise(h, now);
    else if (scl < h->scl)
        note = fall(c, h, array);
    else if (scl & (now ^ h->line))
        note = start_or_stop(c, h, e >> 2);
    h->scl = scl;
    h->line = sda & ~h->pull;
    return (uint8_t)(h->line | note << 1);
}

static void loop(struct crep_chip *c, uint8_t *array, const uint8_t *trace, size_t n, uint8_t *answers)
{
    struct hot h = heat(c);
    size_t i = 0;

    while (i < n) {
        if (h.scl && !h.busy)
            i = clocks(&h, trace, i, n, answers);
        if (i < n) {
            answers[i] = one(c, &h, array, trace[i]);
            i++;
        }
    }
    cool(c, h);
}

uint8_t tuned_run(struct crep_chip *chip, uint8_t *array, uint64_t array_len,
                  const uint8_t *trace, uint64_t trace_len, uint8_t *answers, uint64_t answers_len)
{
    if (array_len != CREP_ARRAY)
        return 1;
    if (!good_chip(chip))
        return 2;
    if (trace_len > CREP_TRACE)
        return 4;
    if (answers_len < trace_len)
        return 5;
    if (!good_events(trace, trace_len))
        return 6;
    loop(chip, array, trace, trace_len, answers);
    return 0;
}
