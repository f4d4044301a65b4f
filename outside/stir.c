#include "stir.h"

#include <string.h>

#define COUNT(list) (sizeof(list) / sizeof((list)[0]))
#define ONE_OF(chance, list) chance_of(chance, list, COUNT(list))

/* ---- Chips ---- */

static uint8_t flag(struct chance *chance)
{
    return (uint8_t)chance_below(chance, 2);
}

/* A slave byte that names the chip, or one that misses it by a bit. */
static uint8_t stir_slave(struct chance *chance, int select)
{
    unsigned byte = 0xa0u | (unsigned)select << 1 | flag(chance);

    return (uint8_t)(chance_once_in(chance, 4) ? byte ^ 1u << chance_below(chance, 8) : byte);
}

static void stir_phase(struct chance *chance, struct crep_chip *chip)
{
    chip->phase = (uint8_t)chance_below(chance, 12);
    chip->byte = chance_byte(chance);
    chip->high = chance_byte(chance);
    chip->bits = chance_byte(chance);
    if (chip->phase >= CREP_PHASE_SLAVE && chip->phase <= CREP_PHASE_DATA)
        chip->bits = (uint8_t)chance_below(chance, 9);
    else if (chip->phase == CREP_PHASE_SENDING)
        chip->bits = (uint8_t)chance_below(chance, 8);
    else if (flag(chance))
        chip->bits = chip->byte = chip->high = 0;
    /* the addresses that set the mark, and slave bytes that name the chip, would be rare otherwise */
    if (chip->phase == CREP_PHASE_SECOND && chance_once_in(chance, 3))
        chip->byte = chip->high = 0xff;
    if (chip->phase == CREP_PHASE_SLAVE && flag(chance))
        chip->byte = stir_slave(chance, chip->select);
}

static void stir_load(struct chance *chance, struct crep_chip *chip)
{
    static const uint32_t counts[] = { 0, 0, 1, 1, 2, 31, 32, 32, 32, 33 };
    static const uint32_t commands[] = { 0x00, 0x02, 0x06, 0x02, 0x0a, 0x12, 0x1a, 0x82, 0x9a, 0x07, 0x42, 0x22, 0x03 };
    int i, all = chance_once_in(chance, 3);

    chip->count = (uint8_t)ONE_OF(chance, counts);
    for (i = 0; i < 32; i++) {
        chip->places[i] = all ? 1 : flag(chance);
        chip->load[i] = chance_byte(chance);
    }
    /* what frees a sector is bytes FFh */
    if (chance_once_in(chance, 4))
        memset(chip->load, 0xff, sizeof chip->load);
    if (chip->mark)
        chip->load[0] = (uint8_t)ONE_OF(chance, commands);
    if (chip->count == 0 && flag(chance)) {
        memset(chip->places, 0, sizeof chip->places);
        memset(chip->load, 0, sizeof chip->load);
    }
}

/* Any byte; half of the time FFh, as in a new chip, or one that makes another record of a spoilt sector. */
static uint8_t stir_spoil(struct chance *chance)
{
    static const uint32_t bytes[] = { 0xff, 0xff, 0x00, 0xa5 };

    return flag(chance) ? (uint8_t)ONE_OF(chance, bytes) : chance_byte(chance);
}

static void stir_waiting_sector(struct chance *chance, struct crep_chip *chip)
{
    static const uint32_t sectors[] = { 0, 1, 7, 8, 255, 256, 383, 384, 510, 511 };
    uint32_t sector = flag(chance) ? chance_below(chance, 512) : ONE_OF(chance, sectors);
    uint32_t all = chance_below(chance, 8);
    int i;

    chip->wait_high = (uint8_t)(sector / 256);
    chip->wait_low = (uint8_t)sector;
    for (i = 0; i < 32; i++)
        chip->wait_places[i] = all == 0 ? 0 : all < 4 ? 1 : flag(chance);
    chance_fill(chance, chip->wait_bytes, sizeof chip->wait_bytes);
    /* what frees a sector is bytes FFh */
    if (chance_once_in(chance, 3))
        memset(chip->wait_bytes, 0xff, sizeof chip->wait_bytes);
}

/* What the kind does not carry is rubbish or 0. */
static void stir_wait(struct chance *chance, struct crep_chip *chip, uint32_t kind)
{
    uint8_t *wait = (uint8_t *)chip + offsetof(struct crep_chip, wait);

    memset(wait, 0, sizeof *chip - offsetof(struct crep_chip, wait));
    if (flag(chance))
        chance_fill(chance, wait, sizeof *chip - offsetof(struct crep_chip, wait));
    chip->wait = (uint8_t)kind;
    if (kind == 1) {
        stir_waiting_sector(chance, chip);
    } else if (kind == 2) {
        chip->wait_ppen = flag(chance);
        chip->wait_bl = (uint8_t)chance_below(chance, 4);
    }
}

void stir_chip(struct chance *chance, struct crep_chip *chip)
{
    static const uint32_t counters[] = { 0, 0x1fff, 0x2000, 0x2fff, 0x3000, 0x3fff, 0x3fe0, 31 };
    uint32_t counter = flag(chance) ? chance_below(chance, 0x4000) : ONE_OF(chance, counters);

    chip->part = (uint8_t)chance_below(chance, 3);
    chip->select = (uint8_t)chance_below(chance, 8);
    chip->ppen = flag(chance);
    chip->bl = (uint8_t)chance_below(chance, 4);
    chip->rpel = flag(chance);
    chip->pel = flag(chance);
    chip->counter_high = (uint8_t)(counter / 256);
    chip->counter_low = (uint8_t)counter;
    chip->mark = flag(chance);
    chip->busy = chance_once_in(chance, 6);
    chip->scl = flag(chance);
    chip->line = flag(chance);
    stir_phase(chance, chip);
    stir_load(chance, chip);
    chip->spoil = stir_spoil(chance);
    stir_wait(chance, chip, chance_below(chance, 3));
    /* a STOP that is rightly placed, the busiest rule of all */
    if (chance_once_in(chance, 4)) {
        chip->phase = CREP_PHASE_DATA;
        chip->bits = 1;
        chip->high = 0;
        chip->scl = 1;
        chip->line = 0;
    }
    /* the last fall of a data byte, and of a byte that is sent */
    if (chance_once_in(chance, 8)) {
        chip->phase = flag(chance) ? CREP_PHASE_DATA : CREP_PHASE_SENDING;
        chip->bits = chip->phase == CREP_PHASE_DATA ? 8 : 0;
        chip->high = 0;
        chip->scl = 1;
    }
}

/* A number from least to 255. */
static uint8_t above(struct chance *chance, uint32_t least)
{
    return (uint8_t)(flag(chance) ? least : least + chance_below(chance, 256 - least));
}

/* One number of a wait, of the kind that carries it; sector 512 every second time that the sector is the one. */
static void stir_wait_out_of_range(struct chance *chance, struct crep_chip *chip)
{
    uint32_t at = chance_below(chance, 5);

    stir_wait(chance, chip, at < 2 ? 1 : 2);
    switch (at) {
    case 0: chip->wait_high = above(chance, 2); chip->wait_low = flag(chance) ? 0 : chance_byte(chance); break;
    case 1: chance_put(chance, chip->wait_places, 32, above(chance, 2)); break;
    case 2: chip->wait_ppen = above(chance, 2); break;
    case 3: chip->wait_bl = above(chance, 4); break;
    default: chip->wait = above(chance, 3); break;
    }
}

void stir_out_of_range(struct chance *chance, struct crep_chip *chip)
{
    uint8_t *flags[] = { &chip->ppen, &chip->rpel, &chip->pel, &chip->mark, &chip->busy, &chip->scl, &chip->line };
    uint8_t *one = flags[chance_below(chance, 7)];

    switch (chance_below(chance, 14)) {
    case 0: chip->part = above(chance, 3); break;
    case 1: chip->select = above(chance, 8); break;
    case 2: chip->bl = above(chance, 4); break;
    case 3: chip->counter_high = above(chance, 0x40); break;
    case 4: chip->count = above(chance, 34); break;
    case 5: chip->phase = above(chance, 12); break;
    case 6: chance_put(chance, chip->places, 32, above(chance, 2)); break;
    case 7: chip->phase = (uint8_t)(1 + chance_below(chance, 4)); chip->bits = above(chance, 9); break;
    case 8: chip->phase = CREP_PHASE_SENDING; chip->bits = above(chance, 8); break;
    case 9: case 10: case 11: stir_wait_out_of_range(chance, chip); break;
    default: *one = above(chance, 2); break;
    }
}

void stir_array(struct chance *chance, uint8_t *array)
{
    if (chance_once_in(chance, 4))
        chance_fill(chance, array, CREP_ARRAY);
    else
        memset(array, flag(chance) ? 0xff : chance_byte(chance), CREP_ARRAY);
}

/* ---- Traces ---- */

uint8_t stir_end(struct chance *chance)
{
    return (uint8_t)(flag(chance) ? 8 : 9 + chance_below(chance, 3));
}

uint8_t stir_no_event(struct chance *chance)
{
    return (uint8_t)(flag(chance) ? 12 : 12 + chance_below(chance, 244));
}

void stir_bad_event(struct chance *chance, uint8_t *trace, size_t n)
{
    uint8_t byte = stir_no_event(chance);

    if (flag(chance))
        trace[n - 1] = byte;
    else
        chance_put(chance, trace, n, byte);
}

uint32_t stir_choices(struct chance *chance)
{
    static const uint32_t halves[] = { 0xffffffff, 0, 0x0000ffff, 0xffff0000, 0x55555555 };
    uint32_t one = 1u << chance_below(chance, 32);

    switch (chance_below(chance, 4)) {
    case 0: return ONE_OF(chance, halves);
    case 1: return flag(chance) ? one : ~one;
    default: return (uint32_t)chance_word(chance);
    }
}

/* The end of a cycle: program-done most times, else a cut, at times none. */
static void an_end(struct chance *chance, struct wire *wire)
{
    uint32_t kind = chance_below(chance, 8);

    if (kind < 7)
        wire_event(wire, (uint8_t)(kind < 5 ? 8 : 9 + chance_below(chance, 3)));
}

static uint32_t stir_address(struct chance *chance)
{
    static const uint32_t edges[] = { 0, 6, 31, 32, 0x1fe0, 0x1fff, 0x2000, 0x2fe0, 0x2fff, 0x3000, 0x3fe0, 0x3fff,
                                      0x4000, 0x7fff, 0xbfff, 0xc000, 0xfffe, 0xff00, 0x00ff };

    if (chance_once_in(chance, 10))
        return 0xffff;
    return flag(chance) ? ONE_OF(chance, edges) : chance_below(chance, 0x10000);
}

/* A register byte; on a part without a register it begins a cycle, so a program-done comes after it at times. */
static void a_latch(struct chance *chance, struct wire *wire, int select, uint8_t byte)
{
    wire_register(wire, select, byte);
    if (flag(chance))
        wire_event(wire, 8);
}

static void a_command(struct chance *chance, struct wire *wire, int select)
{
    static const uint32_t commands[] = { 0x02, 0x02, 0x02, 0x06, 0x06, 0x00 };
    uint32_t byte = ONE_OF(chance, commands), bl = chance_below(chance, 4);

    if (chance_once_in(chance, 3))
        byte = 0x02 | bl << 3 | chance_below(chance, 2) << 7;
    if (chance_once_in(chance, 12))
        byte = chance_byte(chance);
    a_latch(chance, wire, select, (uint8_t)byte);
}

/* PEL, RPEL, then PPEN and BL. */
static void a_locking(struct chance *chance, struct wire *wire, int select)
{
    uint32_t bl = chance_below(chance, 6);

    wire_register(wire, select, 0x02);
    wire_register(wire, select, 0x06);
    wire_register(wire, select, (uint8_t)(0x02 | (bl > 3 ? 0 : bl) << 3 | chance_once_in(chance, 4) << 7));
    an_end(chance, wire);
}

/* A write, with the pin of its STOP's own sample turned at times. */
static void a_message(struct chance *chance, struct wire *wire, int select, uint32_t address, const uint8_t *bytes,
                      uint32_t n)
{
    wire_write(wire, select, address, bytes, n);
    if (chance_once_in(chance, 5) && wire->len > 0 && wire->events[wire->len - 1] < 8)
        wire->events[wire->len - 1] ^= CREP_PIN;
}

static void a_write(struct chance *chance, struct wire *wire, int select)
{
    static const uint32_t sizes[] = { 0, 1, 2, 5, 26, 27, 31, 32, 32, 32, 32, 33, 34, 40, 64, 65 };
    uint32_t address = stir_address(chance);
    uint8_t bytes[65];

    chance_fill(chance, bytes, sizeof bytes);
    if (chance_once_in(chance, 4))
        memset(bytes, 0xff, sizeof bytes);
    if (flag(chance))
        a_latch(chance, wire, select, 0x02);
    a_message(chance, wire, select, address, bytes, ONE_OF(chance, sizes));
    an_end(chance, wire);
}

static void a_read(struct chance *chance, struct wire *wire, int select)
{
    uint32_t address = stir_address(chance);

    wire_read(wire, select, address, 1 + chance_below(chance, chance_once_in(chance, 8) ? 40 : 3));
}

static void a_current_read(struct chance *chance, struct wire *wire, int select)
{
    uint32_t n = 1 + chance_below(chance, 3), i;

    wire_start(wire);
    wire_send(wire, (uint8_t)(0xa1 | select << 1));
    for (i = 1; i <= n; i++)
        wire_receive(wire, i < n);
    if (flag(chance))
        wire_stop(wire);
}

/* Any bytes after a start, with stops and starts after any number of bits. */
static void a_muddle(struct chance *chance, struct wire *wire, int select)
{
    uint32_t pieces = chance_below(chance, 8), i;

    wire_start(wire);
    wire_send(wire, chance_once_in(chance, 6) ? chance_byte(chance) : stir_slave(chance, select));
    while (pieces-- > 0) {
        uint32_t bits = chance_below(chance, 11);

        for (i = 0; i < bits; i++)
            wire_bit(wire, flag(chance));
        if (chance_once_in(chance, 3))
            wire_stop(wire);
        else if (chance_once_in(chance, 3))
            wire_restart(wire);
        else
            wire_send(wire, chance_byte(chance));
    }
}

uint8_t stir_event(struct chance *chance)
{
    if (chance_once_in(chance, 40))
        return 8;
    if (chance_once_in(chance, 300))
        return (uint8_t)(9 + chance_below(chance, 3));
    return (uint8_t)chance_below(chance, 8);
}

static void a_noise(struct chance *chance, struct wire *wire)
{
    uint32_t n = chance_below(chance, 30);

    while (n-- > 0)
        wire_event(wire, stir_event(chance));
}

static void a_piece(struct chance *chance, struct wire *wire, int select)
{
    wire->pin = chance_once_in(chance, 3);
    if (chance_once_in(chance, 15))
        select = (int)chance_below(chance, 8);
    switch (chance_below(chance, 12)) {
    case 0: case 1: a_command(chance, wire, select); break;
    case 2: a_locking(chance, wire, select); break;
    case 3: case 4: case 5: a_write(chance, wire, select); break;
    case 6: case 7: a_read(chance, wire, select); break;
    case 8: a_current_read(chance, wire, select); break;
    case 9: a_muddle(chance, wire, select); break;
    case 10: a_noise(chance, wire); break;
    default: wire_event(wire, (uint8_t)(chance_once_in(chance, 4) ? 9 + chance_below(chance, 3) : 8)); break;
    }
}

/* A piece that breaks off, as when noise comes or a program crashes. */
static void break_off(struct chance *chance, struct wire *wire, size_t from)
{
    if (chance_once_in(chance, 6) && wire->len > from)
        wire->len = from + chance_below(chance, (uint32_t)(wire->len - from));
}

/* Single samples that noise has changed. */
static void scratch(struct chance *chance, struct wire *wire, size_t from)
{
    size_t i;

    if (!chance_once_in(chance, 6))
        return;
    for (i = from; i < wire->len; i++)
        if (chance_once_in(chance, 60))
            wire->events[i] = stir_event(chance);
}

void stir_trace(struct chance *chance, struct wire *wire, int select)
{
    while (wire->len < wire->room) {
        size_t from = wire->len;

        a_piece(chance, wire, select);
        break_off(chance, wire, from);
        scratch(chance, wire, from);
    }
}

/* One write of a few bytes or of 32, FFh every second time, to one of a few sectors. */
static void a_cycle(struct chance *chance, struct wire *wire, int select)
{
    static const uint32_t sectors[] = { 0, 1, 7, 8, 255, 256, 383, 384, 510, 511 };
    static const uint32_t sizes[] = { 1, 1, 1, 1, 1, 2, 3, 32 };
    uint8_t bytes[32];
    uint32_t n = ONE_OF(chance, sizes), address = 32 * ONE_OF(chance, sectors);

    memset(bytes, flag(chance) ? 0xff : chance_byte(chance), sizeof bytes);
    if (chance_once_in(chance, 3))
        address += chance_below(chance, 32);
    a_message(chance, wire, select, address, bytes, n);
}

void stir_cycles(struct chance *chance, struct wire *wire, int select)
{
    a_latch(chance, wire, select, 0x02);
    while (wire->len < wire->room) {
        wire->pin = chance_once_in(chance, 4);
        if (chance_once_in(chance, 12))
            a_locking(chance, wire, select);
        else
            a_cycle(chance, wire, select);
        if (!chance_once_in(chance, 10))
            wire_event(wire, stir_end(chance));
        if (chance_once_in(chance, 10))
            wire_event(wire, (uint8_t)(9 + chance_below(chance, 3)));
        if (wire->len > 0 && wire->events[wire->len - 1] > 8)
            a_latch(chance, wire, select, 0x02);
    }
}

/* ---- Records ---- */

int32_t stir_limit(struct chance *chance)
{
    static const int32_t edges[] = { 0, 1, -1, 150, -200, 29999, 30000, 30001, -29999, -30000, -30001, 32767, 32768,
                                     -32768, -32769, 40000, 65535, 65536, -65536, 95536, INT32_MAX, INT32_MIN };

    if (flag(chance))
        return (int32_t)chance_below(chance, 60001) - 30000;
    if (chance_once_in(chance, 8))
        return (int32_t)(uint32_t)chance_word(chance);
    return edges[chance_below(chance, COUNT(edges))];
}

/* Any byte, or one at an edge of what may stand in a label, on either side of it. */
static uint8_t odd_byte(struct chance *chance)
{
    static const uint32_t edges[] = { 0x00, 0x1f, 0x7e, 0x7f, 0x80, 0x9f, 0xa0, 0xa1, 0xad, 0xfe, 0xff };

    return flag(chance) ? (uint8_t)ONE_OF(chance, edges) : chance_byte(chance);
}

/* A space, a plain letter, or one with an accent. */
static uint8_t letter(struct chance *chance, int accents)
{
    if (chance_once_in(chance, 4))
        return 0x20;
    if (accents && chance_once_in(chance, 3))
        return (uint8_t)(0xa1 + chance_below(chance, 0x5e));
    return (uint8_t)(0x20 + chance_below(chance, 0x5f));
}

/* An odd byte at the first place, at the last, at any, or at all. */
static void put_odd_byte(struct chance *chance, uint8_t *label, size_t n)
{
    uint8_t byte = odd_byte(chance);

    switch (chance_below(chance, 6)) {
    case 0: memset(label, byte, n); break;
    case 1: label[0] = byte; break;
    case 2: label[n - 1] = byte; break;
    default: label[chance_below(chance, (uint32_t)n)] = byte; break;
    }
}

void stir_label(struct chance *chance, uint8_t *label, size_t n)
{
    int spaces = chance_once_in(chance, 4), accents = flag(chance);
    size_t i;

    for (i = 0; i < n; i++)
        label[i] = spaces ? 0x20 : letter(chance, accents);
    if (n > 0 && flag(chance))
        put_odd_byte(chance, label, n);
}

static void put_sum(uint8_t *record)
{
    unsigned sum = 0;
    int i;

    for (i = 0; i < 30; i++)
        sum += record[i];
    record[30] = (uint8_t)(sum >> 8);
    record[31] = (uint8_t)sum;
}

/* A record by the layout, limits and label by chance: mostly good. */
static void lay_out(struct chance *chance, uint8_t *record)
{
    uint32_t length = chance_below(chance, 25);
    int32_t limits[2];
    int i;

    for (i = 0; i < 2; i++) {
        limits[i] = chance_once_in(chance, 8) ? stir_limit(chance) : (int32_t)chance_below(chance, 60001) - 30000;
        record[2 * i] = (uint8_t)((uint32_t)limits[i] >> 8);
        record[2 * i + 1] = (uint8_t)limits[i];
    }
    record[4] = 0xa5;
    record[5] = (uint8_t)length;
    memset(record + 6, 0x20, 24);
    stir_label(chance, record + 6, length);
    put_sum(record);
}

static void damage(struct chance *chance, uint8_t *record)
{
    switch (chance_below(chance, 6)) {
    case 0: chance_put(chance, record, 32, chance_byte(chance)); break;
    case 1: record[5] = (uint8_t)chance_below(chance, 40); break;
    case 2: chance_put(chance, record + 6, 24, odd_byte(chance)); break;
    case 3: record[2] = record[0]; record[3] = record[1]; break;
    case 4: record[4] ^= (uint8_t)(1u << chance_below(chance, 8)); break;
    default: chance_flip(chance, record + 30, 2); break;
    }
    if (!chance_once_in(chance, 3))
        put_sum(record);
}

void stir_record(struct chance *chance, uint8_t *record)
{
    uint32_t kind = chance_below(chance, 10);

    lay_out(chance, record);
    if (kind >= 4 && kind <= 7)
        damage(chance, record);
    if (kind == 8)
        chance_fill(chance, record, 32);
    if (kind == 9)
        memset(record, 0xff, 32);
    if (kind == 9 && flag(chance))
        chance_put(chance, record, 32, chance_byte(chance));
}

static void stir_gate(struct chance *chance, uint8_t *record)
{
    uint32_t kind = chance_below(chance, 4);

    stir_record(chance, record);
    if (kind < 2)
        memset(record, kind == 0 ? 0xff : chance_byte(chance), 32);
    if (kind == 0)
        chance_flip(chance, record, 32);
}

/* A few records, each in many sectors: 512 of their own would take longer than what is compared on them. */
void stir_gates(struct chance *chance, uint8_t *array)
{
    uint32_t share = chance_below(chance, 5), i;
    uint8_t records[8][32];

    for (i = 0; i < 8; i++)
        stir_gate(chance, records[i]);
    memset(array, 0xff, CREP_ARRAY);
    for (i = 0; i < CREP_SECTORS; i++) {
        uint64_t word = chance_word(chance);

        if (word % 4 < share)
            memcpy(array + 32 * i, records[word >> 32 & 7], 32);
    }
}

uint64_t stir_length(struct chance *chance, uint64_t usual, uint64_t most)
{
    uint64_t n = usual;

    switch (chance_below(chance, 16)) {
    case 0: n = usual - 1; break;
    case 1: n = usual + 1; break;
    case 2: n = 0; break;
    case 3: n = chance_below(chance, (uint32_t)most + 1); break;
    default: break;
    }
    return n > most ? most : n;
}
