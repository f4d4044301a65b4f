/*
 * The chip and the records in plain C, rule by rule from the scope paper. It is meant to be read beside the paper,
 * not to be fast. Comments name the paper's section; "reading" marks a point on which the paper is silent.
 */
#include "model.h"

#include <string.h>

#include "wire.h"

/* Where the chip is in a transfer; the numbers are those of the C interface. */
enum phase {
    STANDBY,
    GET_SLAVE, GET_HIGH, GET_LOW, GET_DATA,
    ACK_WRITE, ACK_READ, ACK_HIGH, ACK_DATA,
    SENDING, WAITING, AGAIN
};

enum note { QUIET, ARRAY_CYCLE, REGISTER_CYCLE, LATCHED, LOCKED, SPOILT, NOT_TAKEN, DROPPED };

/* What waits for the end of a cycle (request T-05); the numbers are those of the C interface. */
enum wait { NOTHING, SECTOR, REGISTER };

/* The 32 choices of a program-done and of event 9. */
#define ALL 0xffffffffu

/* "What a rightly placed STOP does": first locked address for each part with a register and BL, 4000h for none. */
static const unsigned first_locked[2][4] = {
    { 0x4000, 0x3000, 0x2000, 0x0000 },
    { 0x4000, 0x3000, 0x2000, 0x0000 },
};

/* ---- What a chip carries ---- */

static unsigned counter_of(const struct crep_chip *c)
{
    return c->counter_high * 256u + c->counter_low;
}

static void set_counter(struct crep_chip *c, unsigned address)
{
    c->counter_high = (uint8_t)(address / 256);
    c->counter_low = (uint8_t)(address % 256);
}

/* Request T-07: the X24F129 has no register. What it carries of one, the mark too, is written as on the other parts and
 * never read. */
static int has_register(const struct crep_chip *c)
{
    return c->part != CREP_X24F129;
}

static int register_selected(const struct crep_chip *c)
{
    return has_register(c) && c->mark;
}

static int receives(const struct crep_chip *c)
{
    return c->phase >= GET_SLAVE && c->phase <= GET_DATA;
}

/* A phase begins with nothing received, nothing to send and no kept address byte. */
static void go(struct crep_chip *c, enum phase phase)
{
    c->phase = (uint8_t)phase;
    c->bits = 0;
    c->byte = 0;
    c->high = 0;
}

static void no_sector_waits(struct crep_chip *c)
{
    c->wait_high = 0;
    c->wait_low = 0;
    memset(c->wait_places, 0, sizeof c->wait_places);
    memset(c->wait_bytes, 0, sizeof c->wait_bytes);
}

static void no_register_waits(struct crep_chip *c)
{
    c->wait_ppen = 0;
    c->wait_bl = 0;
}

static void nothing_waits(struct crep_chip *c)
{
    c->wait = NOTHING;
    no_sector_waits(c);
    no_register_waits(c);
}

/* C interface: what the phase and the kind of wait do not carry comes back as 0. */
static void tidy(struct crep_chip *c)
{
    int has_bits = receives(c) || c->phase == SENDING;

    if (c->wait != SECTOR)
        no_sector_waits(c);
    if (c->wait != REGISTER)
        no_register_waits(c);
    if (!has_bits) {
        c->bits = 0;
        c->byte = 0;
    }
    if (c->phase != GET_LOW && c->phase != ACK_HIGH)
        c->high = 0;
}

/* An empty load is zeros, no place, count 0. */
static void empty_load(struct crep_chip *c)
{
    c->count = 0;
    memset(c->places, 0, sizeof c->places);
    memset(c->load, 0, sizeof c->load);
}

/* A load exists when its count is 1 or more (reading). */
static enum note drop_load(struct crep_chip *c)
{
    enum note note = c->count > 0 ? DROPPED : QUIET;

    empty_load(c);
    return note;
}

/* ---- Refusals and what they return ---- */

static int places_good(const uint8_t *places)
{
    int i;

    for (i = 0; i < 32; i++)
        if (places[i] > 1)
            return 0;
    return 1;
}

static int flags_good(const struct crep_chip *c)
{
    return places_good(c->places) && c->ppen <= 1 && c->rpel <= 1 && c->pel <= 1 && c->mark <= 1 && c->busy <= 1
        && c->scl <= 1 && c->line <= 1;
}

/* Bits received and the bit being sent are looked at only where the phase carries them (reading). */
static int phase_good(const struct crep_chip *c)
{
    if (c->phase > AGAIN)
        return 0;
    if (receives(c))
        return c->bits <= 8;
    if (c->phase == SENDING)
        return c->bits <= 7;
    return 1;
}

static unsigned waiting_sector(const struct crep_chip *c)
{
    return c->wait_high * 256u + c->wait_low;
}

/* T-05: the wait is looked at wherever it is carried, busy or not; what its kind does not carry is not. */
static int wait_good(const struct crep_chip *c)
{
    if (c->wait == SECTOR)
        return waiting_sector(c) <= 511 && places_good(c->wait_places);
    if (c->wait == REGISTER)
        return c->wait_ppen <= 1 && c->wait_bl <= 3;
    return c->wait == NOTHING;
}

/* The spoil byte is any byte (T-03). */
static int chip_good(const struct crep_chip *c)
{
    return c->part <= 2 && c->select <= 7 && c->bl <= 3 && counter_of(c) <= 0x3fff && c->count <= 33
        && flags_good(c) && phase_good(c) && wait_good(c);
}

/* Refusals 1 and 2, which one event, a trace, a power-up and recovery check first. */
static uint8_t refuse_chip(const struct crep_chip *c, uint64_t array_len)
{
    if (array_len != 16384)
        return 1;
    return chip_good(c) ? 0 : 2;
}

/* ---- Samples and edges ---- */

/* In an acknowledge, and while the bit sent is 0. A busy chip does not pull. */
static int pulls(const struct crep_chip *c)
{
    if (c->busy)
        return 0;
    if (c->phase >= ACK_WRITE && c->phase <= ACK_DATA)
        return 1;
    return c->phase == SENDING && (c->byte >> c->bits & 1) == 0;
}

/* ---- Transfers ---- */

static enum note on_start(struct crep_chip *c)
{
    go(c, GET_SLAVE);
    return drop_load(c);
}

/* A bit is sampled, the most significant first; a ninth has no rule. */
static void on_rise(struct crep_chip *c, int bit)
{
    if (receives(c) && c->bits < 8) {
        c->byte = (uint8_t)(c->byte * 2 + bit);
        c->bits++;
    } else if (c->phase == WAITING) {
        go(c, bit ? STANDBY : AGAIN);
    }
}

/* 1010, S2 S1 S0, R/W. */
static void take_slave(struct crep_chip *c, uint8_t byte)
{
    int named = byte >> 4 == 0xa && (byte >> 1 & 7) == c->select;

    if (!named)
        go(c, STANDBY);
    else
        go(c, byte & 1 ? ACK_READ : ACK_WRITE);
}

/* FFFFh sets the mark and leaves the counter; any other address clears it and sets the counter, and so does FFFFh where
 * there is no register (T-07). */
static void take_address(struct crep_chip *c, uint8_t high, uint8_t low)
{
    unsigned address = high * 256u + low;

    c->mark = has_register(c) && address == 0xffff;
    if (!c->mark)
        set_counter(c, address % 16384);
    go(c, ACK_DATA);
}

/* Stored at the counter's low five bits, which rise and wrap; the rest of the counter stays. */
static void load_byte(struct crep_chip *c, uint8_t byte)
{
    unsigned counter = counter_of(c);
    unsigned at = counter % 32;

    c->load[at] = byte;
    c->places[at] = 1;
    if (c->count < 33)
        c->count++;
    set_counter(c, counter - at + (at + 1) % 32);
}

/* With the mark: the first byte is kept at place 0, a second drops the load. PEL is not asked (reading). */
static enum note take_register_data(struct crep_chip *c, uint8_t byte)
{
    if (c->count > 0) {
        go(c, STANDBY);
        return drop_load(c);
    }
    c->load[0] = byte;
    c->places[0] = 1;
    c->count = 1;
    go(c, ACK_DATA);
    return QUIET;
}

/* Without a register there is no PEL to ask for (T-07). */
static enum note take_data(struct crep_chip *c, uint8_t byte)
{
    if (register_selected(c))
        return take_register_data(c, byte);
    if (has_register(c) && !c->pel) {
        go(c, STANDBY);
        return QUIET;
    }
    load_byte(c, byte);
    go(c, ACK_DATA);
    return QUIET;
}

/* A whole byte is taken at the fall after its eighth bit. */
static enum note take_byte(struct crep_chip *c)
{
    uint8_t byte = c->byte;
    uint8_t high = c->high;

    switch (c->phase) {
    case GET_SLAVE:
        take_slave(c, byte);
        return QUIET;
    case GET_HIGH:
        go(c, ACK_HIGH);
        c->high = byte;
        return QUIET;
    case GET_LOW:
        take_address(c, high, byte);
        return QUIET;
    default:
        return take_data(c, byte);
    }
}

/* PPEN 0 0 BL1 BL0 RPEL PEL 0 */
static uint8_t register_byte(const struct crep_chip *c)
{
    return (uint8_t)(c->ppen << 7 | c->bl << 3 | c->rpel << 2 | c->pel << 1);
}

/* The byte is taken at the fall of bit 7; the mark decides which. */
static void begin_sending(struct crep_chip *c, const uint8_t *array)
{
    uint8_t byte = register_selected(c) ? register_byte(c) : array[counter_of(c)];

    go(c, SENDING);
    c->bits = 7;
    c->byte = byte;
}

/* One bit each fall; after bit 0 the array goes on to the master's bit, the register is read once. */
static void send_on(struct crep_chip *c)
{
    if (c->bits > 0) {
        c->bits--;
    } else if (register_selected(c)) {
        set_counter(c, 0);
        c->mark = 0;
        go(c, STANDBY);
    } else {
        set_counter(c, (counter_of(c) + 1) % 16384);
        go(c, WAITING);
    }
}

/* The fall that ends an acknowledge leads to the next byte. */
static enum note on_fall(struct crep_chip *c, const uint8_t *array)
{
    uint8_t high = c->high;

    if (receives(c))
        return c->bits == 8 ? take_byte(c) : QUIET;
    switch (c->phase) {
    case ACK_WRITE:
        go(c, GET_HIGH);
        break;
    case ACK_HIGH:
        go(c, GET_LOW);
        c->high = high;
        break;
    case ACK_DATA:
        go(c, GET_DATA);
        break;
    case ACK_READ:
    case AGAIN:
        begin_sending(c, array);
        break;
    case SENDING:
        send_on(c);
        break;
    default:
        break;
    }
    return QUIET;
}

/* ---- What a rightly placed STOP does ---- */

/* T-05: a STOP writes nothing. What the cycle will write waits, and whatever waited before is lost. */
static void begin_cycle(struct crep_chip *c, enum wait wait)
{
    nothing_waits(c);
    c->wait = (uint8_t)wait;
    c->busy = 1;
    c->rpel = 0;
}

static void begin_array_cycle(struct crep_chip *c)
{
    unsigned sector = counter_of(c) / 32;

    begin_cycle(c, SECTOR);
    c->wait_high = (uint8_t)(sector / 256);
    c->wait_low = (uint8_t)(sector % 256);
}

/* Request T-03: every place takes the spoil byte, loaded or not, in a cycle. */
static enum note spoil(struct crep_chip *c)
{
    begin_array_cycle(c);
    memset(c->wait_places, 1, 32);
    memset(c->wait_bytes, c->spoil, 32);
    return SPOILT;
}

/* A place that is not loaded waits with byte 0, whatever the load holds there (T-05). */
static enum note store(struct crep_chip *c)
{
    unsigned i;

    begin_array_cycle(c);
    for (i = 0; i < 32; i++) {
        c->wait_places[i] = c->places[i];
        c->wait_bytes[i] = c->places[i] ? c->load[i] : 0;
    }
    return ARRAY_CYCLE;
}

/* By BL in force (T-05); without a register by the pin in this sample, from 3000h on (T-07). */
static int sector_locked(const struct crep_chip *c, int pin)
{
    unsigned sector = counter_of(c) / 32 * 32;

    if (!has_register(c))
        return pin && sector >= 0x3000;
    return sector >= first_locked[c->part][c->bl];
}

/* The lock first, then the count, for which the X24128 alone does not ask. */
static enum note write_array(struct crep_chip *c, int pin)
{
    if (sector_locked(c, pin))
        return LOCKED;
    if (c->part != CREP_X24128 && c->count != 32)
        return spoil(c);
    return store(c);
}

/* Rule 2: with RPEL 0 a register byte only sets and clears the two latches. */
static enum note write_latches(struct crep_chip *c, uint8_t byte)
{
    if (byte == 0x00)
        c->pel = 0;
    else if (byte == 0x02)
        c->pel = 1;
    else if (byte == 0x06 && c->pel)
        c->rpel = 1;
    else
        return NOT_TAKEN;
    return LATCHED;
}

/* Rules 1 to 3. The pin counts in this sample, with PPEN in force; PPEN and BL of the byte wait (T-05). */
static enum note write_register(struct crep_chip *c, uint8_t byte, int pin)
{
    if (byte & 0x61)
        return NOT_TAKEN;
    if (!c->rpel)
        return write_latches(c, byte);
    if ((byte & 7) != 2 || (c->ppen && pin))
        return NOT_TAKEN;
    begin_cycle(c, REGISTER);
    c->wait_ppen = byte >> 7;
    c->wait_bl = byte >> 3 & 3;
    return REGISTER_CYCLE;
}

static enum note placed_stop(struct crep_chip *c, int pin)
{
    enum note note;

    if (c->count == 0)
        return QUIET;
    if (!register_selected(c))
        return write_array(c, pin);
    note = write_register(c, c->load[0], pin);
    set_counter(c, 0);
    c->mark = 0;
    return note;
}

/* A STOP while the chip pulls: standby, note 7 if a load exists. No sample leads here, for a pull keeps the line low; the
 * kit has no such rule, and this one stays so that the comparison would tell. */
static enum note stop_in_pull(struct crep_chip *c)
{
    go(c, STANDBY);
    return drop_load(c);
}

/* Rightly placed: in the data phase with exactly the one bit that the clock's rise before the STOP brings. */
static enum note on_stop(struct crep_chip *c, int pin)
{
    int placed = c->phase == GET_DATA && c->bits == 1;
    enum note note;

    if (pulls(c))
        return stop_in_pull(c);
    go(c, STANDBY);
    if (!placed)
        return drop_load(c);
    note = placed_stop(c, pin);
    empty_load(c);
    return note;
}

/* ---- The end of a cycle (request T-05) ---- */

/* A place that waits and is chosen takes its byte; choice 0 decides a register byte as a whole. */
static void write_waiting(struct crep_chip *c, uint8_t *array, uint32_t choices)
{
    unsigned i;

    if (c->wait == SECTOR)
        for (i = 0; i < 32; i++)
            if (c->wait_places[i] && choices >> i & 1)
                array[waiting_sector(c) * 32 + i] = c->wait_bytes[i];
    if (c->wait == REGISTER && choices & 1) {
        c->ppen = c->wait_ppen;
        c->bl = c->wait_bl;
    }
}

/* Program-done: everything that waits is written. What an idle chip carries stays waiting. */
static void end_cycle(struct crep_chip *c, uint8_t *array)
{
    if (!c->busy)
        return;
    write_waiting(c, array, ALL);
    nothing_waits(c);
    c->busy = 0;
}

static void power_up(struct crep_chip *c)
{
    c->busy = 0;
    c->pel = 0;
    c->rpel = 0;
    set_counter(c, 0);
    c->mark = 0;
    empty_load(c);
    nothing_waits(c);
    go(c, STANDBY);
    c->scl = 0;
    c->line = 1;
}

/* Power-up: it cuts the cycle of a busy chip off. An idle chip's choices are not looked at, and its wait is dropped. */
static void cut_cycle(struct crep_chip *c, uint8_t *array, uint32_t choices)
{
    if (c->busy)
        write_waiting(c, array, choices);
    power_up(c);
}

/* Of the 2^32 outcomes of a cut the event bytes know three: 9 all, 10 none, 11 places 0 to 15. */
static uint32_t choices_of(uint8_t event)
{
    static const uint32_t choices[] = { ALL, 0, 0x0000ffff };

    return choices[event - 9];
}

/* ---- One event ---- */

/* The sample is judged with the pull before it; a changing clock hides what the line does. */
static enum note on_edge(struct crep_chip *c, const uint8_t *array, int scl, int line, int pin)
{
    if (c->scl && scl && c->line && !line)
        return on_start(c);
    if (c->scl && scl && !c->line && line)
        return on_stop(c, pin);
    if (!c->scl && scl)
        on_rise(c, line);
    if (c->scl && !scl)
        return on_fall(c, array);
    return QUIET;
}

/* The line kept has the pull after the event. No sample writes the array (T-05). */
static enum note on_sample(struct crep_chip *c, const uint8_t *array, int scl, int sda, int pin)
{
    enum note note = QUIET;

    if (!c->busy)
        note = on_edge(c, array, scl, sda && !pulls(c), pin);
    c->scl = (uint8_t)scl;
    c->line = sda && !pulls(c);
    return note;
}

/* One event byte in 0-11; returns the answer byte. */
static uint8_t one_event(struct crep_chip *c, uint8_t *array, uint8_t event)
{
    enum note note = QUIET;

    if (event > 8)
        cut_cycle(c, array, choices_of(event));
    else if (event == 8)
        end_cycle(c, array);
    else
        note = on_sample(c, array, event & 1, event >> 1 & 1, event >> 2 & 1);
    return (uint8_t)(c->line | note << 1);
}

/* ---- The entries ---- */

/* A new chip has PPEN 0, BL 0 and the spoil byte FFh, and is at power-up; refused, it is the standard one, an X24F128
 * with select 0. */
uint8_t model_new(struct crep_chip *chip, uint8_t part, uint8_t select)
{
    int refused = part > 2 || select > 7;

    memset(chip, 0, sizeof *chip);
    power_up(chip);
    chip->spoil = 0xff;
    chip->part = refused ? CREP_X24F128 : part;
    chip->select = refused ? 0 : select;
    return refused ? 3 : 0;
}

uint8_t model_step(struct crep_chip *chip, uint8_t *array, uint8_t event)
{
    return one_event(chip, array, event);
}

uint8_t model_event(struct crep_chip *chip, uint8_t *array, uint64_t array_len, uint8_t event, uint8_t *answer)
{
    uint8_t refusal = refuse_chip(chip, array_len);

    *answer = 1;
    if (refusal)
        return refusal;
    if (event > 11)
        return 6;
    tidy(chip);
    *answer = one_event(chip, array, event);
    return 0;
}

uint8_t model_power_up(struct crep_chip *chip, uint8_t *array, uint64_t array_len, uint32_t choices, uint8_t *answer)
{
    uint8_t refusal = refuse_chip(chip, array_len);

    *answer = 1;
    if (refusal)
        return refusal;
    cut_cycle(chip, array, choices);
    return 0;
}

/* Refusals 4, 5 and 6 of a trace. */
static uint8_t refuse_trace(const uint8_t *trace, uint64_t trace_len, uint64_t answers_len)
{
    uint64_t i;

    if (trace_len > 65536)
        return 4;
    if (answers_len < trace_len)
        return 5;
    for (i = 0; i < trace_len; i++)
        if (trace[i] > 11)
            return 6;
    return 0;
}

uint8_t model_run(struct crep_chip *chip, uint8_t *array, uint64_t array_len,
                  const uint8_t *trace, uint64_t trace_len, uint8_t *answers, uint64_t answers_len)
{
    uint8_t refusal = refuse_chip(chip, array_len);
    uint64_t i;

    if (!refusal)
        refusal = refuse_trace(trace, trace_len, answers_len);
    if (refusal)
        return refusal;
    tidy(chip);
    for (i = 0; i < trace_len; i++)
        answers[i] = one_event(chip, array, trace[i]);
    return 0;
}

/* Pulse at least once, look after the high half, then make a START. The pin plays no part: no STOP can come. */
uint8_t model_recover(struct crep_chip *chip, uint8_t *array, uint64_t array_len, uint8_t pin, uint8_t *pulses)
{
    uint8_t refusal = refuse_chip(chip, array_len);
    int level = pin != 0;

    *pulses = 0;
    if (refusal)
        return refusal;
    tidy(chip);
    do {
        on_sample(chip, array, 0, 1, level);
        on_sample(chip, array, 1, 1, level);
        ++*pulses;
    } while (!chip->line && *pulses < 10);
    on_sample(chip, array, 1, 0, level);
    return 0;
}

/* ---- Gate records ---- */

enum { CLOSED = 0, OPENED = 2, STATE = 4, LENGTH = 5, LABEL = 6, SUM = 30, RECORD = 32, LONGEST = 24 };

/* 20h-7Eh, and A1h-FEh of ISO 8859-1 (request T-06): the fixed space A0h is bad, the soft hyphen ADh good (reading). */
static int label_byte(uint8_t byte)
{
    return (byte >= 0x20 && byte <= 0x7e) || (byte >= 0xa1 && byte <= 0xfe);
}

static int limit_good(int32_t limit)
{
    return limit >= -30000 && limit <= 30000;
}

static unsigned sum_of(const uint8_t *record)
{
    unsigned sum = 0;
    int i;

    for (i = 0; i < SUM; i++)
        sum += record[i];
    return sum;
}

static unsigned get_pair(const uint8_t *at)
{
    return at[0] * 256u + at[1];
}

static void put_pair(uint8_t *at, unsigned value)
{
    at[0] = (uint8_t)(value >> 8);
    at[1] = (uint8_t)value;
}

static void put_limits(uint8_t *record, int32_t closed, int32_t opened)
{
    put_pair(record + CLOSED, (unsigned)closed & 0xffff);
    put_pair(record + OPENED, (unsigned)opened & 0xffff);
}

/* Two's complement in 16 bits. */
static int32_t get_limit(const uint8_t *at)
{
    int32_t value = (int32_t)get_pair(at);

    return value < 32768 ? value : value - 65536;
}

static int all_label(const uint8_t *label, uint64_t len)
{
    uint64_t i;

    for (i = 0; i < len; i++)
        if (!label_byte(label[i]))
            return 0;
    return 1;
}

/* Refusals 10 and 11. */
static uint8_t refuse_limits(int32_t closed, int32_t opened)
{
    if (!limit_good(closed) || !limit_good(opened))
        return 10;
    return closed == opened ? 11 : 0;
}

static uint8_t refuse_record(uint64_t record_len, int32_t closed, int32_t opened, const uint8_t *label,
                             uint64_t label_len)
{
    if (record_len != RECORD)
        return 7;
    if (label_len > LONGEST)
        return 8;
    if (!all_label(label, label_len))
        return 9;
    return refuse_limits(closed, opened);
}

uint8_t model_record_write(uint8_t *record, uint64_t record_len, int32_t closed, int32_t opened,
                           const uint8_t *label, uint64_t label_len)
{
    uint8_t refusal = refuse_record(record_len, closed, opened, label, label_len);
    uint64_t i;

    if (refusal)
        return refusal;
    put_limits(record, closed, opened);
    record[STATE] = 0xa5;
    record[LENGTH] = (uint8_t)label_len;
    for (i = 0; i < LONGEST; i++)
        record[LABEL + i] = i < label_len ? label[i] : 0x20;
    put_pair(record + SUM, sum_of(record));
    return 0;
}

static int is_free(const uint8_t *record)
{
    int i;

    for (i = 0; i < RECORD; i++)
        if (record[i] != 0xff)
            return 0;
    return 1;
}

/* Refusal 14: length, label, padding, limits. */
static int layout_good(const uint8_t *record)
{
    int32_t closed = get_limit(record + CLOSED);
    int32_t opened = get_limit(record + OPENED);
    uint64_t length = record[LENGTH];
    uint64_t i;

    if (length > LONGEST || !all_label(record + LABEL, length))
        return 0;
    for (i = length; i < LONGEST; i++)
        if (record[LABEL + i] != 0x20)
            return 0;
    return limit_good(closed) && limit_good(opened) && closed != opened;
}

enum reading { GOOD = 0, BAD_SIZE = 7, BAD_STATE = 12, BAD_SUM = 13, BAD_LAYOUT = 14, FREE = 100 };

/* 7, then free, then 12, 13, 14. */
static enum reading read_record(const uint8_t *record, uint64_t record_len)
{
    if (record_len != RECORD)
        return BAD_SIZE;
    if (is_free(record))
        return FREE;
    if (record[STATE] != 0xa5)
        return BAD_STATE;
    if (get_pair(record + SUM) != sum_of(record))
        return BAD_SUM;
    return layout_good(record) ? GOOD : BAD_LAYOUT;
}

uint8_t model_record_read(const uint8_t *record, uint64_t record_len, int32_t *closed, int32_t *opened,
                          int32_t *travel, uint8_t *label_len, uint8_t *free_record)
{
    enum reading reading = read_record(record, record_len);

    *closed = *opened = *travel = 0;
    *label_len = 0;
    *free_record = reading == FREE;
    if (reading == FREE)
        return 0;
    if (reading != GOOD)
        return (uint8_t)reading;
    *closed = get_limit(record + CLOSED);
    *opened = get_limit(record + OPENED);
    *travel = *opened - *closed;
    *label_len = record[LENGTH];
    return 0;
}

/* What a call refuses that needs a gate's record: what reading does, and a free record, which is no gate's, as 12. */
static uint8_t refuse_no_gate(const uint8_t *record, uint64_t record_len)
{
    enum reading reading = read_record(record, record_len);

    return (uint8_t)(reading == FREE ? BAD_STATE : reading);
}

/* New limits in a good record; 10 and 11 come after what is wrong with the record. */
uint8_t model_record_limits(uint8_t *record, uint64_t record_len, int32_t closed, int32_t opened)
{
    uint8_t refusal = refuse_no_gate(record, record_len);

    if (!refusal)
        refusal = refuse_limits(closed, opened);
    if (refusal)
        return refusal;
    put_limits(record, closed, opened);
    put_pair(record + SUM, sum_of(record));
    return 0;
}

/* The label without its trailing spaces; the standard label where the record is free, refused or blank. */
uint8_t model_name(const uint8_t *record, uint64_t record_len, const uint8_t *standard, uint64_t standard_len,
                   uint64_t *start, uint64_t *len, uint8_t *from_record)
{
    uint64_t n = 0;

    (void)standard;
    if (read_record(record, record_len) == GOOD)
        n = record[LENGTH];
    while (n > 0 && record[LABEL + n - 1] == 0x20)
        n--;
    *from_record = n > 0;
    *start = n > 0 ? LABEL : 0;
    *len = n > 0 ? n : standard_len;
    return 0;
}

/* ---- Sending a record (request T-01) ---- */

/* 77 that set PEL, which a part without a register has not (T-07), 635 with the record and the program-done. */
static uint64_t events_for(uint8_t part)
{
    return part == CREP_X24F129 ? 636 : 713;
}

/* The record first, then 15, 16, 3, 17. */
static uint8_t refuse_send(uint8_t part, uint8_t select, uint16_t gate, const uint8_t *record, uint64_t record_len,
                           uint64_t trace_len)
{
    uint8_t refusal = refuse_no_gate(record, record_len);

    if (refusal)
        return refusal;
    if (gate > 511)
        return 15;
    if (select > 7)
        return 16;
    if (part > 2)
        return 3;
    return trace_len < events_for(part) ? 17 : 0;
}

/* Both messages are spelt as case 13 spells its one: PEL set where there is one, the record at 32 times the gate
 * number, program-done. */
uint8_t model_send(uint8_t part, uint8_t select, uint16_t gate, const uint8_t *record, uint64_t record_len,
                   uint8_t *trace, uint64_t trace_len, uint16_t *events)
{
    uint8_t refusal = refuse_send(part, select, gate, record, record_len, trace_len);
    struct wire wire;

    *events = 0;
    if (refusal)
        return refusal;
    wire_open(&wire, trace, trace_len);
    if (part != CREP_X24F129)
        wire_register(&wire, select, 0x02);
    wire_write(&wire, select, gate * 32u, record, RECORD);
    wire_event(&wire, 8);
    *events = (uint16_t)wire.len;
    return 0;
}

/* ---- The map of free sectors (request T-04) ---- */

/* Sector k is bit k mod 8 of byte k div 8, bit 0 the lowest. */
static unsigned byte_of(unsigned sector)
{
    return sector / 8;
}

static unsigned bit_of(unsigned sector)
{
    return 1u << sector % 8;
}

/* Its bit is set where the record is not all FFh, a bad record's too; the bits beside it stay. */
static void map_sector(uint8_t *map, const uint8_t *array, unsigned sector)
{
    unsigned byte = map[byte_of(sector)] & ~bit_of(sector);

    if (!is_free(array + sector * RECORD))
        byte |= bit_of(sector);
    map[byte_of(sector)] = (uint8_t)byte;
}

/* The sector that a program-done or a cut of this chip writes; 512 where there is none (T-05). */
static unsigned sector_in_cycle(const struct crep_chip *c)
{
    return c->busy && c->wait == SECTOR ? waiting_sector(c) : CREP_NO_SECTOR;
}

/* No sample ends a cycle. */
static unsigned sector_ended_by(const struct crep_chip *c, uint8_t event)
{
    return event > 7 ? sector_in_cycle(c) : CREP_NO_SECTOR;
}

/* A sector whose cycle has ended, whatever was chosen: its bit follows the array as it is now. */
static void map_ended(uint8_t *map, const uint8_t *array, unsigned sector)
{
    if (sector < CREP_SECTORS)
        map_sector(map, array, sector);
}

/* 1, then 18; what else a call refuses comes after them. */
static uint8_t refuse_map(uint64_t array_len, uint64_t map_len)
{
    if (array_len != CREP_ARRAY)
        return 1;
    return map_len == CREP_MAP ? 0 : 18;
}

uint8_t model_map_build(const uint8_t *array, uint64_t array_len, uint8_t *map, uint64_t map_len)
{
    uint8_t refusal = refuse_map(array_len, map_len);
    unsigned sector;

    if (refusal)
        return refusal;
    for (sector = 0; sector < CREP_SECTORS; sector++)
        map_sector(map, array, sector);
    return 0;
}

/* The map alone is read. None free, and a refusal, are 512. */
uint8_t model_map_first(const uint8_t *map, uint64_t map_len, uint16_t *sector)
{
    unsigned k = 0;

    *sector = CREP_NO_SECTOR;
    if (map_len != CREP_MAP)
        return 18;
    while (k < CREP_SECTORS && map[byte_of(k)] & bit_of(k))
        k++;
    *sector = (uint16_t)k;
    return 0;
}

uint8_t model_map_event(struct crep_chip *chip, uint8_t *array, uint64_t array_len, uint8_t *map, uint64_t map_len,
                        uint8_t event, uint8_t *answer)
{
    uint8_t refusal = refuse_map(array_len, map_len);
    unsigned sector = sector_ended_by(chip, event);

    *answer = 1;
    if (!refusal)
        refusal = model_event(chip, array, array_len, event, answer);
    if (!refusal)
        map_ended(map, array, sector);
    return refusal;
}

uint8_t model_map_power_up(struct crep_chip *chip, uint8_t *array, uint64_t array_len, uint8_t *map, uint64_t map_len,
                           uint32_t choices, uint8_t *answer)
{
    uint8_t refusal = refuse_map(array_len, map_len);
    unsigned sector = sector_in_cycle(chip);

    *answer = 1;
    if (!refusal)
        refusal = model_power_up(chip, array, array_len, choices, answer);
    if (!refusal)
        map_ended(map, array, sector);
    return refusal;
}

uint8_t model_map_run(struct crep_chip *chip, uint8_t *array, uint64_t array_len, uint8_t *map, uint64_t map_len,
                      const uint8_t *trace, uint64_t trace_len, uint8_t *answers, uint64_t answers_len)
{
    uint8_t refusal = refuse_map(array_len, map_len);
    uint64_t i;

    if (!refusal && !chip_good(chip))
        refusal = 2;
    if (!refusal)
        refusal = refuse_trace(trace, trace_len, answers_len);
    if (refusal)
        return refusal;
    tidy(chip);
    for (i = 0; i < trace_len; i++) {
        unsigned sector = sector_ended_by(chip, trace[i]);

        answers[i] = one_event(chip, array, trace[i]);
        map_ended(map, array, sector);
    }
    return 0;
}
