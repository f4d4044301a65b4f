/*
 * The paper's worked cases 1 to 13, its errors that look right, demand 3 on random noise, and what the requests for the
 * sender, for short loads, for the map, for power cuts, for accents and for the part without a register say, on the
 * model and on the library. What is expected stands here as the paper gives it.
 */
#include <stdio.h>
#include <string.h>

#include "chance.h"
#include "kit.h"
#include "wire.h"

/* A chip with its array and the trace that is run on it. */
struct bench {
    const struct kit *kit;
    struct crep_chip chip;
    uint8_t array[CREP_ARRAY];
    uint8_t trace[CREP_TRACE];
    uint8_t answers[CREP_TRACE];
    struct wire wire;
};

static struct bench bench;

static unsigned counter_of(const struct crep_chip *chip)
{
    return chip->counter_high * 256u + chip->counter_low;
}

/* The paper's first locked address at this level of the pin: by BL, or by the pin where there is no register. */
static unsigned first_locked(const struct crep_chip *chip, int pin)
{
    static const unsigned by_bl[4] = { 0x4000, 0x3000, 0x2000, 0x0000 };

    if (chip->part == CREP_X24F129)
        return pin ? 0x3000 : 0x4000;
    return by_bl[chip->bl];
}

/* A new chip of this part on an array of FFh, and an empty trace. */
static void open_bench(const struct kit *kit, uint8_t part)
{
    bench.kit = kit;
    kit->make(&bench.chip, part, 0);
    memset(bench.array, 0xff, sizeof bench.array);
    wire_open(&bench.wire, bench.trace, sizeof bench.trace);
}

/* Runs the trace; the last event's note, or -1 where it is refused. */
static int last_note(void)
{
    size_t n = bench.wire.len;

    if (bench.kit->run(&bench.chip, bench.array, CREP_ARRAY, bench.trace, n, bench.answers, CREP_TRACE) != 0)
        return -1;
    return n ? CREP_NOTE(bench.answers[n - 1]) : 0;
}

/* Runs one event; its note, or -1 where it is refused. */
static int note_of(uint8_t event)
{
    uint8_t answer;

    return bench.kit->event(&bench.chip, bench.array, CREP_ARRAY, event, &answer) == 0 ? CREP_NOTE(answer) : -1;
}

/* The register's bits as a read of it gives them, and the mark in bit 0. */
static void put_bits(uint8_t bits)
{
    bench.chip.ppen = bits >> 7;
    bench.chip.bl = bits >> 3 & 3;
    bench.chip.rpel = bits >> 2 & 1;
    bench.chip.pel = bits >> 1 & 1;
    bench.chip.mark = bits & 1;
}

/* Whether every byte of the array is this one. */
static int array_is(uint8_t byte)
{
    int i;

    for (i = 0; i < CREP_ARRAY && bench.array[i] == byte; i++)
        ;
    return i == CREP_ARRAY;
}

/* The byte whose eight clocks begin at event `at`: the line in each high half. */
static uint8_t byte_at(size_t at)
{
    unsigned byte = 0;
    int i;

    for (i = 0; i < 8; i++)
        byte = byte * 2 + CREP_LINE(bench.answers[at + 2 * (size_t)i + 1]);
    return (uint8_t)byte;
}

static int notes_of_writes(const struct kit *kit, uint8_t part, uint8_t bl, unsigned address, size_t n)
{
    static uint8_t bytes[64];

    open_bench(kit, part);
    bench.chip.pel = 1;
    bench.chip.bl = bl;
    wire_write(&bench.wire, 0, address, bytes, n);
    return last_note();
}

/* 1. PPEN 1, BL 3, PEL 1 reads 9Ah. */
static int case_1(const struct kit *kit)
{
    size_t at;

    open_bench(kit, 0);
    bench.chip.ppen = bench.chip.pel = bench.chip.mark = 1;
    bench.chip.bl = 3;
    wire_start(&bench.wire);
    wire_send(&bench.wire, 0xa1);
    at = bench.wire.len;
    wire_receive(&bench.wire, 0);
    return last_note() == 0 && byte_at(at) == 0x9a && !bench.chip.mark && counter_of(&bench.chip) == 0;
}

static int travel_is(const struct kit *kit, int32_t closed, int32_t opened, int32_t wanted)
{
    uint8_t record[32], length, empty;
    int32_t a, b, travel;

    return kit->record_write(record, 32, closed, opened, (const uint8_t *)"", 0) == 0
        && kit->record_read(record, 32, &a, &b, &travel, &length, &empty) == 0
        && a == closed && b == opened && travel == wanted && length == 0 && empty == 0;
}

/* 2. Closed 150, open -200: travel -350. Ends: -60,000 and 60,000. */
static int case_2(const struct kit *kit)
{
    return travel_is(kit, 150, -200, -350) && travel_is(kit, 30000, -30000, -60000)
        && travel_is(kit, -30000, 30000, 60000);
}

/* 3. -30,000 is 8AD0h, -1 is FFFFh; 30,001 refused 10. */
static int case_3(const struct kit *kit)
{
    static const uint8_t limits[4] = { 0x8a, 0xd0, 0xff, 0xff };
    uint8_t record[32];

    return kit->record_write(record, 32, -30000, -1, (const uint8_t *)"", 0) == 0
        && memcmp(record, limits, 4) == 0
        && kit->record_write(record, 32, 30001, 0, (const uint8_t *)"", 0) == 10
        && kit->record_write(record, 32, 0, -30001, (const uint8_t *)"", 0) == 10;
}

/* 4. Closed 0, open 1,200, "NORTH". */
static int case_4(const struct kit *kit)
{
    static const uint8_t head[11] = { 0, 0, 0x04, 0xb0, 0xa5, 5, 0x4e, 0x4f, 0x52, 0x54, 0x48 };
    uint8_t record[32], wanted[32];

    memset(wanted, 0x20, sizeof wanted);
    memcpy(wanted, head, sizeof head);
    wanted[30] = 0x05;
    wanted[31] = 0x49;
    return kit->record_write(record, 32, 0, 1200, (const uint8_t *)"NORTH", 5) == 0 && memcmp(record, wanted, 32) == 0;
}

/* 5. Label of 24 taken, 25 refused 8. */
static int case_5(const struct kit *kit)
{
    static const uint8_t label[] = "ABCDEFGHIJKLMNOPQRSTUVWXYZ";
    uint8_t record[32], before[32];

    memset(record, 0x55, 32);
    memset(before, 0x55, 32);
    return kit->record_write(record, 32, 0, 1, label, 25) == 8 && memcmp(record, before, 32) == 0
        && kit->record_write(record, 32, 0, 1, label, 24) == 0 && record[29] == 'X';
}

/* New limits keep the label and all that stands beside limits and sum; a free record is refused as 12. */
static int limits_keep_the_label(const struct kit *kit)
{
    uint8_t record[32], wanted[32];

    memset(record, 0xff, 32);
    if (kit->record_limits(record, 32, 0, 1200) != 12 || record[0] != 0xff)
        return 0;
    return kit->record_write(record, 32, 7, -7, (const uint8_t *)"NORTH", 5) == 0
        && kit->record_write(wanted, 32, 0, 1200, (const uint8_t *)"NORTH", 5) == 0
        && kit->record_limits(record, 32, 0, 30001) == 10 && kit->record_limits(record, 32, 5, 5) == 11
        && kit->record_limits(record, 32, 0, 1200) == 0 && memcmp(record, wanted, 32) == 0;
}

/* 6. X24128, unlocked, PEL 1, 27 bytes at 0006h, program-done: bytes 6-31 and byte 0 change, counter 0001h. */
static int case_6(const struct kit *kit)
{
    static uint8_t wanted[CREP_ARRAY];

    memset(wanted, 0xff, sizeof wanted);
    memset(wanted + 6, 0, 26);
    wanted[0] = 0;
    return notes_of_writes(kit, 0, 0, 6, 27) == 1 && array_is(0xff) && counter_of(&bench.chip) == 1 && bench.chip.busy
        && note_of(8) == 0 && memcmp(bench.array, wanted, CREP_ARRAY) == 0
        && counter_of(&bench.chip) == 1 && !bench.chip.busy;
}

/* n bytes 00h from an address of an X24F128 on, with PEL and RPEL 1 and an array of 77h: whether the note is this one,
 * notes 1 and 5 alone begin a cycle and clear RPEL, no byte is written, and after a program-done the sector holds
 * `byte` and 77h stands beside it. */
static int leaves(const struct kit *kit, uint8_t bl, uint8_t spoil, unsigned address, size_t n, int note, uint8_t byte)
{
    static const uint8_t bytes[64];
    static uint8_t wanted[CREP_ARRAY];
    unsigned sector = address / 32 * 32;
    int cycle = note == 1 || note == 5;

    open_bench(kit, CREP_X24F128);
    bench.chip.pel = bench.chip.rpel = 1;
    bench.chip.bl = bl;
    bench.chip.spoil = spoil;
    memset(bench.array, 0x77, CREP_ARRAY);
    memset(wanted, 0x77, CREP_ARRAY);
    memset(wanted + sector, byte, 32);
    wire_write(&bench.wire, 0, address, bytes, n);
    return last_note() == note && array_is(0x77)
        && bench.chip.busy == cycle && bench.chip.rpel == !cycle && bench.chip.pel && bench.chip.spoil == spoil
        && bench.chip.phase == CREP_PHASE_STANDBY && bench.chip.count == 0
        && counter_of(&bench.chip) == sector + (address + n) % 32
        && note_of(8) == 0 && !bench.chip.busy && memcmp(bench.array, wanted, CREP_ARRAY) == 0;
}

/* 7. X24F128: 31 bytes note 5, 32 note 1, 33 note 5; after program-done the first and the last leave 32 spoil bytes. */
static int case_7(const struct kit *kit)
{
    static const uint8_t spoils[] = { 0xff, 0x00, 0xa5, 0x3c };
    size_t i;
    int good = 1;

    for (i = 0; i < sizeof spoils; i++)
        good = good && leaves(kit, 0, spoils[i], 0x100, 31, 5, spoils[i])
            && leaves(kit, 0, spoils[i], 0x100, 32, 1, 0x00) && leaves(kit, 0, spoils[i], 0x100, 33, 5, spoils[i])
            && leaves(kit, 0, spoils[i], 0x006, 27, 5, spoils[i]) && leaves(kit, 0, spoils[i], 0x3fff, 1, 5, spoils[i]);
    return good;
}

/* A locked sector never spoils, note 4, nor does a STOP with no data byte, or a START that drops a load, note 7. */
static int short_loads_that_stay(const struct kit *kit)
{
    int good = leaves(kit, 1, 0x3c, 0x3000, 31, 4, 0x77) && leaves(kit, 1, 0x3c, 0x3fff, 33, 4, 0x77)
        && leaves(kit, 1, 0x3c, 0x2fe0, 31, 5, 0x3c) && leaves(kit, 2, 0x3c, 0x2000, 1, 4, 0x77)
        && leaves(kit, 2, 0x3c, 0x1fe0, 1, 5, 0x3c) && leaves(kit, 3, 0x3c, 0x0000, 64, 4, 0x77)
        && leaves(kit, 0, 0x3c, 0x0100, 0, 0, 0x77);

    open_bench(kit, CREP_X24F128);
    bench.chip.pel = 1;
    bench.chip.spoil = 0x3c;
    wire_address(&bench.wire, 0, 0x0100);
    wire_send(&bench.wire, 0x00);
    wire_restart(&bench.wire);
    return good && last_note() == 7 && bench.array[0x100] == 0xff && !bench.chip.busy;
}

/* An X24128 takes any count, and a register byte is no short load. */
static int what_never_spoils(const struct kit *kit)
{
    int good = notes_of_writes(kit, 0, 0, 0x100, 31) == 1 && note_of(8) == 0
        && bench.array[0x11e] == 0x00 && bench.array[0x11f] == 0xff
        && notes_of_writes(kit, 0, 0, 0x100, 33) == 1 && note_of(8) == 0
        && bench.array[0x11f] == 0x00 && bench.array[0x120] == 0xff;

    open_bench(kit, CREP_X24F128);
    bench.chip.spoil = 0x3c;
    wire_register(&bench.wire, 0, 0x02);
    return good && last_note() == 3 && note_of(8) == 0 && bench.array[0] == 0xff && !bench.chip.busy;
}

/* FFh in a new chip of any part and in that of refusal 3; program-done, power-ups and a recovery keep any other. */
static int spoil_is_kept(const struct kit *kit)
{
    uint8_t pulses;
    int good = kit->make(&bench.chip, 0, 7) == 0 && bench.chip.spoil == 0xff && kit->make(&bench.chip, 1, 0) == 0
        && bench.chip.spoil == 0xff && kit->make(&bench.chip, 2, 0) == 0 && bench.chip.spoil == 0xff
        && kit->make(&bench.chip, 3, 0) == 3 && bench.chip.spoil == 0xff && leaves(kit, 0, 0x3c, 0x0100, 31, 5, 0x3c);

    good = good && note_of(9) == 0 && note_of(10) == 0 && note_of(11) == 0 && bench.chip.spoil == 0x3c;
    return good && kit->recover(&bench.chip, bench.array, CREP_ARRAY, 0, &pulses) == 0 && bench.chip.spoil == 0x3c;
}

/* What a panel makes of a sector spoilt with this byte: the refusal, or 100 for a free record. */
static int spoilt_reads(const struct kit *kit, uint8_t spoil)
{
    int32_t closed, opened, travel;
    uint8_t length, empty, refusal;

    if (!leaves(kit, 0, spoil, 0x0106, 24, 5, spoil))
        return -1;
    refusal = kit->record_read(bench.array + 0x100, 32, &closed, &opened, &travel, &length, &empty);
    return empty ? 100 : refusal;
}

static int spoilt_sector_is_no_gate(const struct kit *kit)
{
    return spoilt_reads(kit, 0xff) == 100 && spoilt_reads(kit, 0x00) == 12 && spoilt_reads(kit, 0x3c) == 12
        && spoilt_reads(kit, 0xa5) == 13;
}

/* 8. BL 1 locks 3000h and not 2FFFh; BL 2 locks 2000h and not 1FFFh. On both parts that have BL. */
static int case_8(const struct kit *kit)
{
    int part, good = 1;

    for (part = 0; part < 2; part++)
        good = good && notes_of_writes(kit, (uint8_t)part, 1, 0x3000, 32) == 4 && note_of(8) == 0 && array_is(0xff)
            && notes_of_writes(kit, (uint8_t)part, 1, 0x2fff, 32) == 1
            && notes_of_writes(kit, (uint8_t)part, 2, 0x2000, 32) == 4
            && notes_of_writes(kit, (uint8_t)part, 2, 0x1fff, 32) == 1
            && notes_of_writes(kit, (uint8_t)part, 3, 0x0000, 32) == 4
            && notes_of_writes(kit, (uint8_t)part, 0, 0x3fe0, 32) == 1;
    return good;
}

/* Every sector of every part, at each BL and level of the pin: note 4 from the first locked address on, else note 1. */
static int every_sector_by_its_lock(const struct kit *kit)
{
    static const uint8_t bytes[32];
    unsigned i, address;
    int good = 1;

    for (i = 0; i < 3 * 4 * 2; i++)
        for (address = 0; address < CREP_ARRAY; address += 32) {
            open_bench(kit, (uint8_t)(i / 8));
            bench.chip.pel = 1;
            bench.chip.bl = i / 2 % 4;
            bench.wire.pin = i % 2;
            wire_write(&bench.wire, 0, address, bytes, sizeof bytes);
            good = good && last_note() == (address < first_locked(&bench.chip, bench.wire.pin) ? 1 : 4);
        }
    return good;
}

/* 9. Register 06h with PEL 0: note 6. */
static int case_9(const struct kit *kit)
{
    open_bench(kit, 0);
    wire_register(&bench.wire, 0, 0x06);
    return last_note() == 6 && bench.chip.rpel == 0 && bench.chip.mark == 0;
}

/* 10. Read at 3FFFh, then 0000h. */
static int case_10(const struct kit *kit)
{
    size_t end;

    open_bench(kit, 0);
    bench.array[0x3fff] = 0x5a;
    bench.array[0x0000] = 0xc3;
    wire_read(&bench.wire, 0, 0x3fff, 2);
    end = bench.wire.len - 3;
    return last_note() == 0 && byte_at(end - 36) == 0x5a && byte_at(end - 18) == 0xc3 && counter_of(&bench.chip) == 1;
}

/* The pulses of a chip stopped in the acknowledge of A1h, with the byte at the counter 00h. */
static int pulses_in_acknowledge(const struct kit *kit, int scl)
{
    uint8_t pulses;

    open_bench(kit, 0);
    bench.array[0] = 0x00;
    wire_start(&bench.wire);
    wire_send(&bench.wire, 0xa1);
    bench.wire.len -= scl ? 0 : 1;
    if (last_note() != 0 || kit->recover(&bench.chip, bench.array, CREP_ARRAY, 0, &pulses) != 0)
        return -1;
    return bench.chip.phase == CREP_PHASE_SLAVE && bench.chip.bits == 0 ? pulses : -1;
}

/* 11. Stopped with SCL low: 10 pulses. */
static int case_11(const struct kit *kit)
{
    return pulses_in_acknowledge(kit, 0) == 10;
}

/* 12. The same, stopped with SCL high: 9. */
static int case_12(const struct kit *kit)
{
    return pulses_in_acknowledge(kit, 1) == 9;
}

/* 13. 9, the message that sets PEL: 78 events, note 3 at 77 and no other, on either part that has PEL. */
static int case_13(const struct kit *kit)
{
    uint8_t part;
    int i, good = 1;

    for (part = 0; part < 2; part++) {
        open_bench(kit, part);
        wire_event(&bench.wire, 9);
        wire_register(&bench.wire, 0, 0x02);
        good = good && bench.wire.len == 78 && last_note() == 3 && bench.chip.pel == 1;
        for (i = 0; i < 77; i++)
            good = good && CREP_NOTE(bench.answers[i]) == 0;
    }
    return good;
}

/* Refusal 3, for the part or for the select, leaves a new X24F128 with select 0. */
static int standard_chip(const struct kit *kit)
{
    struct crep_chip standard, chip;

    return kit->make(&standard, CREP_X24F128, 0) == 0 && standard.part == 1 && standard.select == 0
        && kit->make(&chip, 3, 0) == 3 && memcmp(&chip, &standard, sizeof chip) == 0
        && kit->make(&chip, CREP_X24128, 8) == 3 && memcmp(&chip, &standard, sizeof chip) == 0
        && kit->make(&chip, 255, 255) == 3 && memcmp(&chip, &standard, sizeof chip) == 0;
}

/* A STOP with no bit received writes nothing; with exactly one it ends the write. */
static int stop_needs_one_bit(const struct kit *kit)
{
    open_bench(kit, 0);
    bench.chip.pel = 1;
    bench.chip.phase = CREP_PHASE_DATA;
    bench.chip.count = bench.chip.places[0] = 1;
    bench.chip.scl = 1;
    bench.chip.line = 0;
    wire_sample(&bench.wire, 1, 1);
    return last_note() == 7 && note_of(8) == 0 && bench.array[0] == 0xff && notes_of_writes(kit, 0, 0, 0, 1) == 1;
}

/* The pin counts at the STOP, not when PPEN was set: low in the data, high in the last sample. */
static int pin_at_the_stop(const struct kit *kit, int at_stop)
{
    open_bench(kit, 0);
    bench.chip.ppen = bench.chip.rpel = bench.chip.pel = 1;
    bench.wire.pin = !at_stop;
    wire_register(&bench.wire, 0, 0x02);
    bench.trace[bench.wire.len - 1] = (uint8_t)(3 | at_stop << 2);
    return last_note();
}

static int pin_is_read_at_the_stop(const struct kit *kit)
{
    return pin_at_the_stop(kit, 1) == 6 && pin_at_the_stop(kit, 0) == 2;
}

/* Random events with the pin high; power-ups of all kinds among them. */
static void noise(struct chance *chance, size_t n)
{
    size_t i;

    for (i = 0; i < n; i++)
        wire_event(&bench.wire, (uint8_t)(chance_once_in(chance, 500) ? 8 + chance_below(chance, 4)
                                                                         : 4 + chance_below(chance, 4)));
}

/* Messages that try to unlock, to write and to spoil, with the pin high, each with its program-done or a power-up. */
static void attack(struct chance *chance)
{
    static const uint8_t commands[] = { 0x02, 0x06, 0x02 };
    static const uint8_t bytes[32] = { 0 };
    int i, k;

    bench.wire.pin = 1;
    for (i = 0; i < 4; i++) {
        for (k = 0; k < 3; k++) {
            wire_register(&bench.wire, bench.chip.select, commands[k]);
            wire_event(&bench.wire, 8);
        }
        wire_write(&bench.wire, bench.chip.select, chance_below(chance, 0x4000), bytes, i % 2 ? 31 : 32);
        wire_event(&bench.wire, (uint8_t)(8 + chance_below(chance, 4)));
        noise(chance, chance_below(chance, 40));
    }
}

/* A chip that is not busy, with PPEN set and a region locked, or an X24F129 with any register bits and mark, and its
 * noise. Returns the first locked address. */
static unsigned noisy_bench(const struct kit *kit, struct chance *chance, uint8_t part)
{
    open_bench(kit, part);
    bench.chip.select = (uint8_t)chance_below(chance, 8);
    if (part == CREP_X24F129)
        put_bits(chance_byte(chance));
    else
        put_bits((uint8_t)(0x80 | (1 + chance_below(chance, 3)) << 3));
    bench.chip.spoil = chance_byte(chance);
    chance_fill(chance, bench.array, CREP_ARRAY);
    attack(chance);
    noise(chance, chance_below(chance, 2000));
    return first_locked(&bench.chip, 1);
}

/* A random read that goes on from the START that the recovery has made, pin free. */
static int read_on(unsigned address, unsigned n, int pin)
{
    wire_open(&bench.wire, bench.trace, sizeof bench.trace);
    bench.wire.pin = pin;
    wire_read(&bench.wire, bench.chip.select, address, n);
    bench.wire.len -= 2;
    memmove(bench.trace, bench.trace + 2, bench.wire.len);
    return last_note() >= 0;
}

/* Demand 3: after any noise a recovery of at most ten pulses, and a random read gives the bytes held before. */
static int one_demand_3(const struct kit *kit, struct chance *chance, uint8_t part)
{
    static uint8_t before[CREP_ARRAY];
    uint8_t pulses, pin;
    unsigned first = noisy_bench(kit, chance, part), n = 1 + chance_below(chance, 8), i;
    unsigned address = first + chance_below(chance, 0x4000 - first - n + 1);

    memcpy(before, bench.array, CREP_ARRAY);
    if (last_note() < 0 || note_of(8) != 0)
        return 0;
    pin = (uint8_t)chance_below(chance, 2);
    if (kit->recover(&bench.chip, bench.array, CREP_ARRAY, pin, &pulses) != 0 || pulses < 1 || pulses > 10)
        return 0;
    if (!read_on(address, n, (int)chance_below(chance, 2)))
        return 0;
    for (i = 0; i < n; i++)
        if (byte_at(bench.wire.len - 3 - 18 * (n - i)) != before[address + i])
            return 0;
    return memcmp(bench.array + first, before + first, CREP_ARRAY - first) == 0;
}

static int demand_3(const struct kit *kit)
{
    struct chance chance = { 3 };
    int i;

    for (i = 0; i < 500; i++)
        if (!one_demand_3(kit, &chance, (uint8_t)chance_below(&chance, 2)))
            return 0;
    return 1;
}

/* The same of 3000h-3FFFh on an X24F129, by the pin alone. */
static int demand_3_by_the_pin(const struct kit *kit)
{
    struct chance chance = { 7 };
    int i;

    for (i = 0; i < 500; i++)
        if (!one_demand_3(kit, &chance, CREP_X24F129))
            return 0;
    return 1;
}

/* Why it starts from a chip that is not busy: BL 0 and PPEN 0 that wait unlock the array at the first program-done, and
 * a message with the pin high then changes a byte that was locked; not so where a cut drops them. */
static int busy_start_may_unlock(const struct kit *kit)
{
    static const uint8_t bytes[32] = { 0 };
    uint8_t end;
    int good = 1;

    for (end = 8; end < 12; end++) {
        int unlocked = end != 10;

        open_bench(kit, CREP_X24F128);
        bench.chip.ppen = bench.chip.busy = 1;
        bench.chip.bl = 3;
        bench.chip.wait = 2;
        bench.wire.pin = 1;
        wire_event(&bench.wire, end);
        wire_register(&bench.wire, 0, 0x02);
        wire_write(&bench.wire, 0, 0x0100, bytes, 32);
        good = good && last_note() == (unlocked ? 1 : 4) && bench.chip.bl == (unlocked ? 0 : 3) && note_of(8) == 0
            && bench.array[0x100] == (unlocked ? 0x00 : 0xff);
    }
    return good;
}

/* ---- The sender ---- */

static uint8_t north[CREP_RECORD];      /* the record of case 4 */

/* A new chip with this select, and on its trace what sends case 4's record to a gate of it. Returns the refusal. */
static uint8_t open_send(const struct kit *kit, uint8_t part, uint8_t select, uint16_t gate)
{
    uint16_t events;
    uint8_t refusal;

    open_bench(kit, part);
    bench.chip.select = select;
    refusal = kit->record_write(north, sizeof north, 0, 1200, (const uint8_t *)"NORTH", 5);
    if (refusal == 0)
        refusal = kit->send(part, select, gate, north, sizeof north, bench.trace, CREP_SEND, &events);
    bench.wire.len = refusal == 0 ? events : 0;
    return refusal;
}

/* Runs what was sent: these notes at events 76 and 711, 0 at all others. */
static int notes_are(int first, int second)
{
    int i, good = last_note() == 0 && bench.wire.len == 713;

    for (i = 0; i < 713; i++)
        good = good && CREP_NOTE(bench.answers[i]) == (i == 76 ? first : i == 711 ? second : 0);
    return good;
}

/* Runs what was sent to an X24F129: this note at event 634, 0 at all others. */
static int note_634_is(int note)
{
    int i, good = last_note() == 0 && bench.wire.len == 636;

    for (i = 0; i < 636; i++)
        good = good && CREP_NOTE(bench.answers[i]) == (i == 634 ? note : 0);
    return good;
}

/* Gate 17: 02h to FFFFh and the record to 0220h, each from 3, 1 to 0, 1, 3 with the pin low, and 8 at the end. */
static int spelt(uint8_t select)
{
    static const uint8_t command = 0x02;
    static uint8_t wanted[713];
    struct wire wire;

    wire_open(&wire, wanted, sizeof wanted);
    wire_write(&wire, select, 0xffff, &command, 1);
    wire_write(&wire, select, 0x0220, north, sizeof north);
    wire_event(&wire, 8);
    return wire.len == 713 && memcmp(bench.trace, wanted, sizeof wanted) == 0;
}

/* Gate 17 stands at 0220h afterwards on either part with a register, every other byte is kept, and the chip is idle
 * with PEL 1. */
static int gate_17_is_sent(const struct kit *kit)
{
    static uint8_t wanted[CREP_ARRAY];
    uint8_t part;
    int good = 1;

    for (part = 0; part < 2; part++) {
        good = good && open_send(kit, part, (uint8_t)(7 * part), 17) == 0 && spelt((uint8_t)(7 * part));
        memset(wanted, 0xff, sizeof wanted);
        memcpy(wanted + 0x220, north, sizeof north);
        good = good && notes_are(3, 1) && memcmp(bench.array, wanted, sizeof wanted) == 0;
        good = good && bench.chip.pel && !bench.chip.busy && bench.chip.phase == CREP_PHASE_STANDBY;
    }
    return good;
}

/* BL 1 locks gate 384 and not gate 383; PPEN and BL stay. */
static int locked_gates_stay(const struct kit *kit)
{
    uint8_t part;
    int good = 1;

    for (part = 0; part < 2; part++) {
        good = good && open_send(kit, part, 3, 384) == 0;
        bench.chip.ppen = bench.chip.bl = 1;
        good = good && notes_are(3, 4) && bench.array[0x3000] == 0xff && bench.chip.ppen == 1 && bench.chip.bl == 1;
        good = good && open_send(kit, part, 3, 383) == 0;
        bench.chip.ppen = bench.chip.bl = 1;
        good = good && notes_are(3, 1) && bench.array[0x2fe2] == 0x04 && bench.chip.ppen == 1 && bench.chip.bl == 1;
    }
    return good;
}

/* With RPEL 1 the first message is a register write, and the chip is busy in the second. */
static int rpel_unlocks(const struct kit *kit)
{
    int good = open_send(kit, 0, 0, 17) == 0;

    bench.chip.ppen = bench.chip.pel = bench.chip.rpel = 1;
    bench.chip.bl = 3;
    return good && notes_are(2, 0) && bench.chip.ppen == 0 && bench.chip.bl == 0 && bench.array[0x220] == 0xff;
}

/* One sending with rubbish before it: the refusal that is given where it counts no events and writes none; else 255. */
static uint8_t refusal_of(const struct kit *kit, uint8_t part, uint8_t select, uint16_t gate, const uint8_t *record,
                          size_t n, size_t room)
{
    static uint8_t before[CREP_SEND + 1];
    uint16_t events = 1, wanted = part == CREP_X24F129 ? 636 : 713;
    uint8_t refusal;

    memset(before, 0x77, sizeof before);
    memset(bench.trace, 0x77, sizeof before);
    refusal = kit->send(part, select, gate, record, n, bench.trace, room, &events);
    if (refusal == 0)
        return events == wanted && bench.trace[wanted - 1] == 8 && bench.trace[wanted] == 0x77 ? 0 : 255;
    return events == 0 && memcmp(bench.trace, before, sizeof before) == 0 ? refusal : 255;
}

/* 7, 12 (free too), 13, 14, 15, 16, 3, 17, each at its edge and before the next. */
static int sender_refuses(const struct kit *kit)
{
    static uint8_t empty[32], bad[33];

    memset(empty, 0xff, sizeof empty);
    if (open_send(kit, 0, 0, 0) != 0)
        return 0;
    memcpy(bad, north, 32);
    bad[29] = 0x21;
    bad[4] = 0xa4;
    if (refusal_of(kit, 3, 8, 512, bad, 31, 712) != 7 || refusal_of(kit, 3, 8, 512, bad, 33, 712) != 7
        || refusal_of(kit, 0, 0, 0, empty, 31, 713) != 7 || refusal_of(kit, 0, 0, 0, empty, 32, 713) != 12
        || refusal_of(kit, 3, 8, 512, bad, 32, 712) != 12)
        return 0;
    bad[4] = 0xa5;
    if (refusal_of(kit, 3, 8, 512, bad, 32, 712) != 13)
        return 0;
    bad[31]++;
    return refusal_of(kit, 3, 8, 512, bad, 32, 712) == 14 && refusal_of(kit, 3, 8, 512, north, 32, 712) == 15
        && refusal_of(kit, 3, 8, 511, north, 32, 712) == 16 && refusal_of(kit, 3, 7, 511, north, 32, 712) == 3
        && refusal_of(kit, 3, 7, 511, north, 32, 714) == 3 && refusal_of(kit, 255, 7, 511, north, 32, 0) == 3;
}

/* The buffer: 713 events, and 636 for an X24F129; one short is 17. */
static int sender_needs_room(const struct kit *kit)
{
    uint8_t part;
    int good = open_send(kit, 0, 0, 0) == 0;

    for (part = 0; part < 3; part++) {
        size_t n = part == CREP_X24F129 ? 636 : 713;

        good = good && refusal_of(kit, part, 7, 511, north, 32, n - 1) == 17
            && refusal_of(kit, part, 7, 511, north, 32, 0) == 17 && refusal_of(kit, part, 7, 511, north, 32, n) == 0
            && refusal_of(kit, part, 7, 511, north, 32, n + 1) == 0;
    }
    return good;
}

/* ---- The map of free sectors ---- */

static uint8_t map[CREP_MAP + 1];       /* one byte more than is lent */

/* Every sector of the bench is used, or free, and the map is built, with rubbish before it and beside it. */
static int open_map(const struct kit *kit, uint8_t part, uint8_t byte)
{
    open_bench(kit, part);
    memset(bench.array, byte, CREP_ARRAY);
    memset(map, 0x5a, sizeof map);
    return kit->map_build(bench.array, CREP_ARRAY, map, CREP_MAP) == 0 && map[CREP_MAP] == 0x5a;
}

/* The first free sector by the map, where it is the map of the array and a full reading finds the same; else 1000. */
static unsigned first_free(const struct kit *kit)
{
    int32_t closed, opened, travel;
    uint8_t length, empty = 0, built[CREP_MAP];
    uint16_t sector;
    unsigned k;

    for (k = 0; k < 512 && !empty; k++)
        if (kit->record_read(bench.array + 32 * k, 32, &closed, &opened, &travel, &length, &empty) != 0)
            empty = 0;
    k -= empty;
    if (kit->map_build(bench.array, CREP_ARRAY, built, CREP_MAP) != 0 || memcmp(built, map, CREP_MAP) != 0)
        return 1000;
    return kit->map_first(map, CREP_MAP, &sector) == 0 && sector == k ? k : 1000;
}

/* None free is 512; erased it is 0; alone free 0, 7, 8, 255, 256 and 511 are found, and each has its own bit. */
static int map_finds(const struct kit *kit)
{
    static const unsigned sectors[] = { 0, 7, 8, 255, 256, 511 };
    int good = open_map(kit, 0, 0x00) && first_free(kit) == 512 && open_map(kit, 0, 0xff) && first_free(kit) == 0;
    size_t i;
    unsigned k;

    for (i = 0; i < sizeof sectors / sizeof sectors[0]; i++) {
        good = good && open_map(kit, 0, 0x00);
        memset(bench.array + 32 * sectors[i], 0xff, 32);
        good = good && kit->map_build(bench.array, CREP_ARRAY, map, CREP_MAP) == 0 && first_free(kit) == sectors[i];
        for (k = 0; k < 512; k++)
            good = good && (map[k / 8] >> k % 8 & 1) == (k != sectors[i]);
    }
    return good;
}

/* A byte alone that is not FFh makes its sector used, wherever it stands. */
static int one_byte_is_used(const struct kit *kit)
{
    int i, good = 1;

    for (i = 0; i < 32; i++) {
        good = good && open_map(kit, 0, 0xff);
        bench.array[9 * 32 + i] = 0xfe;
        good = good && kit->map_build(bench.array, CREP_ARRAY, map, CREP_MAP) == 0 && map[0] == 0 && map[1] == 2;
    }
    return good;
}

/* Runs the trace with the map; the last event's note, or -1 where it is refused. */
static int mapped_note(void)
{
    size_t n = bench.wire.len;

    if (bench.kit->map_run(&bench.chip, bench.array, CREP_ARRAY, map, CREP_MAP, bench.trace, n, bench.answers,
                           CREP_TRACE) != 0)
        return -1;
    wire_open(&bench.wire, bench.trace, sizeof bench.trace);
    return n ? CREP_NOTE(bench.answers[n - 1]) : 0;
}

/* n bytes to an address of a chip with PEL 1, and the program-done after it. */
static int mapped_write(unsigned address, uint8_t byte, size_t n)
{
    uint8_t bytes[32];
    int note;

    memset(bytes, byte, sizeof bytes);
    bench.chip.pel = 1;
    wire_write(&bench.wire, 0, address, bytes, n);
    note = mapped_note();
    wire_event(&bench.wire, 8);
    return mapped_note() == 0 ? note : -1;
}

/* A store takes a sector, 32 bytes FFh free it, and so does a spoil with FFh; spoilt with 00h it is taken. */
static int map_follows(const struct kit *kit)
{
    int good = open_map(kit, 1, 0xff) && mapped_write(0, 0x11, 32) == 1 && first_free(kit) == 1
        && mapped_write(0, 0xff, 32) == 1 && first_free(kit) == 0 && mapped_write(0, 0x11, 32) == 1
        && first_free(kit) == 1 && mapped_write(0, 0x11, 31) == 5 && first_free(kit) == 0;

    bench.chip.spoil = 0x00;
    good = good && mapped_write(0, 0x11, 31) == 5 && first_free(kit) == 1;
    bench.chip.spoil = 0xff;
    good = good && open_map(kit, 1, 0x11) && mapped_write(0x3fe0, 0x11, 1) == 5 && first_free(kit) == 511;
    return good && mapped_write(0x3fff, 0x22, 32) == 1 && first_free(kit) == 512;
}

/* Locked, latch, register cycle, its program-done and a power-up change no bit, not even a wrong one. */
static int map_stays(const struct kit *kit)
{
    static const uint8_t commands[] = { 0x02, 0x06, 0x8a };
    uint8_t before[CREP_MAP];
    int i, good = open_map(kit, 1, 0xff);

    for (i = 0; i < CREP_MAP; i++)
        map[i] = before[i] = (uint8_t)(0xa5 + i);
    for (i = 0; i < 3; i++) {
        wire_register(&bench.wire, 0, commands[i]);
        good = good && mapped_note() == (i == 2 ? 2 : 3);
    }
    wire_event(&bench.wire, 8);
    wire_event(&bench.wire, 9);
    good = good && mapped_note() == 0 && mapped_write(0x3000, 0x11, 32) == 4 && mapped_write(0x3fe0, 0x11, 31) == 4;
    return good && memcmp(map, before, CREP_MAP) == 0;
}

/* Whether the map still has its rubbish, and the chip and the array what they had. */
static int nothing_written(const struct crep_chip *chip)
{
    int i, good = memcmp(&bench.chip, chip, sizeof *chip) == 0;

    for (i = 0; i <= CREP_MAP; i++)
        good = good && map[i] == 0x5a;
    for (i = 0; i < CREP_ARRAY; i++)
        good = good && bench.array[i] == 0xff;
    return good;
}

/* An event and a trace of it with these lengths and this BL: the refusal, where both give it (but for 5, which is the
 * trace's alone) and write nothing; else 255. */
static uint8_t map_refusal(const struct kit *kit, size_t array_len, size_t map_len, uint8_t bl, uint8_t event,
                           size_t room)
{
    struct crep_chip chip;
    uint8_t one, whole, answer = 0;

    open_bench(kit, 0);
    memset(map, 0x5a, sizeof map);
    wire_event(&bench.wire, event);
    bench.chip.bl = bl;
    chip = bench.chip;
    whole = kit->map_run(&bench.chip, bench.array, array_len, map, map_len, bench.trace, 1, bench.answers, room);
    one = kit->map_event(&bench.chip, bench.array, array_len, map, map_len, event, &answer);
    if (one != whole && !(whole == 5 && (one == 6 || one == 0)))
        return 255;
    return nothing_written(&chip) && (one == 0 || answer == 1) ? whole : 255;
}

/* 1, 18, 2, then 5 and 6, each before the next; first free is 512 where it is refused. */
static int map_refuses(const struct kit *kit)
{
    static const size_t lengths[] = { 0, 63, 65 };
    uint16_t sector;
    size_t i;
    int good = map_refusal(kit, 16383, 63, 4, 12, 0) == 1 && map_refusal(kit, 16385, 64, 0, 3, 1) == 1
        && map_refusal(kit, 16384, 64, 4, 12, 0) == 2 && map_refusal(kit, 16384, 64, 3, 12, 0) == 5
        && map_refusal(kit, 16384, 64, 3, 12, 1) == 6;

    for (i = 0; i < 3; i++) {
        sector = 7;
        good = good && map_refusal(kit, 16384, lengths[i], 4, 12, 0) == 18
            && map_refusal(kit, 16384, lengths[i], 0, 3, 1) == 18 && map_refusal(kit, 0, lengths[i], 0, 3, 1) == 1
            && kit->map_first(map, lengths[i], &sector) == 18 && sector == 512
            && kit->map_build(bench.array, CREP_ARRAY, map, lengths[i]) == 18
            && kit->map_build(bench.array, CREP_ARRAY - 1, map, lengths[i]) == 1 && nothing_written(&bench.chip);
    }
    return good && kit->map_build(bench.array, CREP_ARRAY - 1, map, CREP_MAP) == 1 && nothing_written(&bench.chip);
}

/* Gates are added where the map says until all 512 are there; then none is free and the sender refuses. */
static int all_gates_are_added(const struct kit *kit, uint8_t part)
{
    uint16_t sector, events;
    unsigned k;
    int good = open_map(kit, part, 0xff)
        && kit->record_write(north, sizeof north, 0, 1200, (const uint8_t *)"NORTH", 5) == 0;

    for (k = 0; good && k < 512; k++) {
        good = kit->map_first(map, CREP_MAP, &sector) == 0 && sector == k
            && kit->send(part, 0, sector, north, sizeof north, bench.trace, CREP_TRACE, &events) == 0;
        bench.wire.len = good ? events : 0;
        good = good && mapped_note() == 0 && CREP_NOTE(bench.answers[events - 2]) == 1;
    }
    return good && first_free(kit) == 512 && kit->map_first(map, CREP_MAP, &sector) == 0
        && kit->send(part, 0, sector, north, sizeof north, bench.trace, CREP_TRACE, &events) == 15;
}

static int gates_are_added(const struct kit *kit)
{
    return all_gates_are_added(kit, CREP_X24F128) && all_gates_are_added(kit, CREP_X24F129);
}

/* ---- Power lost in the cycle ---- */

/* A chip with RPEL and PEL 1 on an array of 77h that gets n bytes from 40h up at an address. Returns the note. */
static int begin(const struct kit *kit, uint8_t part, unsigned address, size_t n)
{
    uint8_t bytes[32];
    int i;

    for (i = 0; i < 32; i++)
        bytes[i] = (uint8_t)(0x40 + i);
    open_bench(kit, part);
    bench.chip.pel = bench.chip.rpel = 1;
    bench.chip.spoil = 0x3c;
    memset(bench.array, 0x77, CREP_ARRAY);
    wire_write(&bench.wire, 0, address, bytes, n);
    return last_note();
}

/* The fields of the wait are the last ones. */
enum { WAIT = offsetof(struct crep_chip, wait), WAIT_BYTES = CREP_STATE - WAIT };

static uint8_t *wait_of(struct crep_chip *chip)
{
    return (uint8_t *)chip + WAIT;
}

static int nothing_waits(struct crep_chip *chip)
{
    static const uint8_t none[WAIT_BYTES];

    return memcmp(wait_of(chip), none, WAIT_BYTES) == 0;
}

/* Whether sector 1FFh holds 40h and up where the bit of `written` is set, else 77h, as all beside it. */
static int top_holds(uint32_t written)
{
    int i;

    for (i = 0; i < 32; i++) {
        if (bench.array[0x3fe0 + i] != (written >> i & 1 ? 0x40 + i : 0x77))
            return 0;
        bench.array[0x3fe0 + i] = 0x77;
    }
    return array_is(0x77);
}

/* A STOP makes a sector wait, its loaded places with their bytes, the others with 0, and writes nothing. */
static int stop_makes_it_wait(const struct kit *kit)
{
    int i, good = begin(kit, 0, 0x3fe5, 3) == 1 && array_is(0x77);
    struct crep_chip chip = bench.chip;

    good = good && chip.busy && !chip.rpel && chip.pel && chip.count == 0 && chip.wait == 1 && chip.wait_high == 1
        && chip.wait_low == 0xff && chip.wait_ppen == 0 && chip.wait_bl == 0;
    for (i = 0; i < 32; i++) {
        int loaded = i >= 5 && i < 8;

        good = good && chip.wait_places[i] == loaded && chip.wait_bytes[i] == (loaded ? 0x3b + i : 0)
            && chip.places[i] == 0 && chip.load[i] == 0;
    }
    good = good && begin(kit, 1, 0x0100, 31) == 5 && array_is(0x77) && bench.chip.wait == 1 && bench.chip.wait_low == 8;
    for (i = 0; i < 32; i++)
        good = good && bench.chip.wait_places[i] == 1 && bench.chip.wait_bytes[i] == 0x3c;
    return good;
}

/* A program-done writes it, ends busy and changes nothing else; a second one does nothing. */
static int done_writes_on(const struct kit *kit, uint8_t part)
{
    int good = begin(kit, part, 0x3fe0, 32) == 1;
    struct crep_chip chip = bench.chip;

    good = good && note_of(8) == 0 && nothing_waits(&bench.chip);
    chip.busy = 0;
    memset(wait_of(&chip), 0, WAIT_BYTES);
    good = good && memcmp(&chip, &bench.chip, sizeof chip) == 0 && note_of(8) == 0
        && memcmp(&chip, &bench.chip, sizeof chip) == 0;
    return good && top_holds(0xffffffff);
}

static int done_writes(const struct kit *kit)
{
    return done_writes_on(kit, 0) && done_writes_on(kit, 1) && done_writes_on(kit, 2);
}

/* A power-up with these choices; whether it says line high, note 0, and leaves a chip as new but for its spoil byte. */
static int cut_off(const struct kit *kit, uint32_t choices)
{
    struct crep_chip chip;
    uint8_t answer = 0;

    kit->make(&chip, bench.chip.part, 0);
    chip.spoil = bench.chip.spoil;
    return kit->power_up(&bench.chip, bench.array, CREP_ARRAY, choices, &answer) == 0 && answer == 1
        && memcmp(&chip, &bench.chip, sizeof chip) == 0;
}

/* 9 writes all 32 places, 10 none, 11 places 0 to 15; after 10 a short load leaves the old bytes, after 11 half. */
static int three_cuts(const struct kit *kit)
{
    static const uint32_t written[] = { 0xffffffff, 0, 0x0000ffff };
    uint8_t event, part;
    int i, good = 1;

    for (part = 1; part < 3; part++)
        for (event = 9; event < 12; event++) {
            good = good && begin(kit, part, 0x3fe0, 32) == 1 && note_of(event) == 0 && nothing_waits(&bench.chip)
                && !bench.chip.busy && !bench.chip.pel && top_holds(written[event - 9]);
            good = good && begin(kit, part, 0x3fe0, 31) == 5 && note_of(event) == 0;
            for (i = 0; i < 32; i++)
                good = good && bench.array[0x3fe0 + i] == (written[event - 9] >> i & 1 ? 0x3c : 0x77);
        }
    return good;
}

/* Each choice is its own place's; a place that is not loaded stays, chosen or not. */
static int choices_by_place(const struct kit *kit)
{
    int k, good = 1;

    for (k = 0; k < 32; k++)
        good = good && begin(kit, 1, 0x3fe0, 32) == 1 && cut_off(kit, 1u << k) && top_holds(1u << k)
            && begin(kit, 1, 0x3fe0, 32) == 1 && cut_off(kit, ~(1u << k)) && top_holds(~(1u << k));
    return good && begin(kit, 0, 0x3fe0, 3) == 1 && cut_off(kit, 0xffffffff) && top_holds(7)
        && begin(kit, 0, 0x3fe0, 3) == 1 && cut_off(kit, 0xfffffff8) && top_holds(0)
        && begin(kit, 0, 0x3fe0, 20) == 1 && note_of(11) == 0 && top_holds(0x0000ffff);
}

/* PPEN 1 and BL 2 wait; whether they are taken by the end that comes, an event, or choices where it is 0. */
static int register_taken(const struct kit *kit, uint8_t event, uint32_t choices)
{
    uint8_t answer;

    open_bench(kit, 0);
    bench.chip.pel = bench.chip.rpel = bench.chip.bl = 1;
    wire_register(&bench.wire, 0, 0x92);
    if (last_note() != 2 || bench.chip.wait != 2 || !bench.chip.wait_ppen || bench.chip.wait_bl != 2)
        return -1;
    if (bench.chip.ppen || bench.chip.bl != 1 || bench.chip.rpel || !bench.chip.busy)
        return -1;
    if (event ? note_of(event) != 0 : kit->power_up(&bench.chip, bench.array, CREP_ARRAY, choices, &answer) != 0)
        return -1;
    if (!nothing_waits(&bench.chip) || bench.chip.busy || bench.chip.pel != (event == 8) || !array_is(0xff))
        return -1;
    return bench.chip.ppen == (bench.chip.bl == 2) ? bench.chip.ppen : -1;
}

/* Choice 0 takes both bits, no other choice any: 8, 9 and 11 take them, 10 does not. */
static int register_byte_is_cut(const struct kit *kit)
{
    return register_taken(kit, 8, 0) == 1 && register_taken(kit, 9, 0) == 1 && register_taken(kit, 10, 0) == 0
        && register_taken(kit, 11, 0) == 1 && register_taken(kit, 0, 1) == 1 && register_taken(kit, 0, 0) == 0
        && register_taken(kit, 0, 0xfffffffe) == 0 && register_taken(kit, 0, 0xffffffff) == 1;
}

/* Idle with something waiting: done does nothing, each power-up drops it, a new cycle overwrites it. Busy with nothing
 * waiting: done ends busy and that alone. */
static int waits_of_a_caller(const struct kit *kit)
{
    uint8_t event;
    int good = begin(kit, 1, 0x3fe0, 32) == 1;
    struct crep_chip chip = bench.chip;

    bench.chip.busy = chip.busy = 0;
    good = good && note_of(8) == 0 && memcmp(&chip, &bench.chip, sizeof chip) == 0 && array_is(0x77);
    for (event = 9; event < 12; event++) {
        bench.chip = chip;
        good = good && note_of(event) == 0 && nothing_waits(&bench.chip) && array_is(0x77);
    }
    bench.chip = chip;
    wire_open(&bench.wire, bench.trace, sizeof bench.trace);
    wire_register(&bench.wire, 0, 0x06);
    wire_register(&bench.wire, 0, 0x0a);
    good = good && last_note() == 2 && bench.chip.wait == 2 && bench.chip.wait_bl == 1 && bench.chip.wait_low == 0
        && bench.chip.wait_places[0] == 0 && note_of(8) == 0 && bench.chip.bl == 1 && array_is(0x77);
    open_bench(kit, 1);
    chip = bench.chip;
    bench.chip.busy = 1;
    return good && note_of(8) == 0 && memcmp(&chip, &bench.chip, sizeof chip) == 0 && array_is(0xff);
}

/* The note of a message to a chip with these bits in force and others waiting. */
static int note_in_force(const struct kit *kit, uint8_t bits, uint8_t waiting, unsigned address, uint8_t byte)
{
    static uint8_t bytes[32];

    open_bench(kit, 1);
    bench.chip.pel = bench.chip.rpel = 1;
    bench.chip.ppen = bits >> 7;
    bench.chip.bl = bits >> 3 & 3;
    bench.chip.wait = 2;
    bench.chip.wait_ppen = waiting >> 7;
    bench.chip.wait_bl = waiting >> 3 & 3;
    bench.wire.pin = 1;
    bytes[0] = byte;
    wire_write(&bench.wire, 0, address, bytes, address == 0xffff ? 1 : 32);
    return last_note();
}

/* Locks, the pin's protection and a read of the register look at the bits in force; what waits is read by nobody. */
static int bits_in_force(const struct kit *kit)
{
    size_t at;
    int good = note_in_force(kit, 0x18, 0x00, 0x0000, 0) == 4 && note_in_force(kit, 0x00, 0x18, 0x0000, 0) == 1
        && note_in_force(kit, 0x80, 0x00, 0xffff, 0x02) == 6 && note_in_force(kit, 0x00, 0x80, 0xffff, 0x02) == 2;

    open_bench(kit, 1);
    bench.chip.mark = bench.chip.bl = 1;
    bench.chip.wait = 2;
    bench.chip.wait_ppen = 1;
    bench.chip.wait_bl = 2;
    wire_start(&bench.wire);
    wire_send(&bench.wire, 0xa1);
    at = bench.wire.len;
    wire_receive(&bench.wire, 0);
    return good && last_note() == 0 && byte_at(at) == 0x08 && bench.chip.wait == 2;
}

/* The refusal of a chip, busy or not, by each call that takes one; 255 where they differ. */
static int wait_refusal(const struct kit *kit, const struct crep_chip *chip)
{
    struct crep_chip copies[4];
    uint8_t refusals[4], number, i;

    for (i = 0; i < 4; i++) {
        copies[i] = *chip;
        copies[i].busy = i & 1;
    }
    refusals[0] = kit->event(&copies[0], bench.array, CREP_ARRAY, 10, &number);
    refusals[1] = kit->run(&copies[1], bench.array, CREP_ARRAY, bench.trace, 0, bench.answers, 0);
    refusals[2] = kit->power_up(&copies[2], bench.array, CREP_ARRAY, 0, &number);
    refusals[3] = kit->recover(&copies[3], bench.array, CREP_ARRAY, 0, &number);
    for (i = 1; i < 4; i++)
        if (refusals[i] != refusals[0])
            return 255;
    return refusals[0];
}

/* A new chip in which a kind waits, with one of its numbers at an edge: `field` counts from `wait` on. */
static int edge(const struct kit *kit, uint8_t wait, size_t field, uint8_t value)
{
    open_bench(kit, 0);
    bench.chip.wait = wait;
    wait_of(&bench.chip)[field] = value;
    return wait_refusal(kit, &bench.chip);
}

/* A kind above 2, a sector above 511, a place that is no flag, a PPEN that is none, a BL above 3; and none of these
 * where the kind does not carry it. */
static int wait_out_of_range(const struct kit *kit)
{
    int good = edge(kit, 0, 0, 3) == 2 && edge(kit, 0, 0, 255) == 2
        && edge(kit, 1, 1, 1) == 0 && edge(kit, 1, 1, 2) == 2 && edge(kit, 1, 2, 255) == 0
        && edge(kit, 1, 5, 2) == 2 && edge(kit, 1, 36, 2) == 2 && edge(kit, 1, 37, 2) == 0
        && edge(kit, 2, 3, 1) == 0 && edge(kit, 2, 3, 2) == 2 && edge(kit, 2, 4, 3) == 0 && edge(kit, 2, 4, 4) == 2;
    size_t field;

    for (field = 1; field < WAIT_BYTES; field++)
        good = good && edge(kit, 0, field, 255) == 0 && (field < 3 || field > 4 || edge(kit, 1, field, 255) == 0)
            && (field == 3 || field == 4 || edge(kit, 2, field, 255) == 0);
    return good;
}

/* What the kind does not carry is 0 after any call that is not refused; an empty trace is one. */
static int wait_is_tidied(const struct kit *kit)
{
    uint8_t wait;
    int good = 1;

    for (wait = 0; wait < 3; wait++) {
        open_bench(kit, 0);
        memset(wait_of(&bench.chip), 1, WAIT_BYTES);
        bench.chip.wait = wait;
        good = good && last_note() == 0 && bench.chip.wait == wait && bench.chip.wait_high == (wait == 1)
            && bench.chip.wait_low == (wait == 1) && bench.chip.wait_places[31] == (wait == 1)
            && bench.chip.wait_bytes[31] == (wait == 1) && bench.chip.wait_ppen == (wait == 2)
            && bench.chip.wait_bl == (wait == 2);
    }
    return good;
}

/* A recovery of a busy chip: one pulse, nothing written, what waits stays. */
static int recovery_leaves_the_wait(const struct kit *kit)
{
    struct crep_chip chip;
    uint8_t pulses;
    int good = begin(kit, 1, 0x3fe0, 32) == 1;

    chip = bench.chip;
    good = good && kit->recover(&bench.chip, bench.array, CREP_ARRAY, 0, &pulses) == 0 && pulses == 1 && array_is(0x77)
        && memcmp(wait_of(&bench.chip), wait_of(&chip), WAIT_BYTES) == 0;
    return good && note_of(8) == 0 && top_holds(0xffffffff);
}

/* A sending cut off before its program-done leaves the sector old or new, byte by byte, and all other sectors. */
static int sender_is_cut_off(const struct kit *kit)
{
    static const uint32_t choices[] = { 0, 0x0000ffff, 0xffffffff, 0x80000001, 0x12345678 };
    size_t i;
    int k, good = 1;

    for (i = 0; i < sizeof choices / sizeof choices[0]; i++) {
        good = good && open_send(kit, (uint8_t)(i % 3), 0, 511) == 0;
        memset(bench.array, 0x77, CREP_ARRAY);
        bench.wire.len--;
        good = good && last_note() == 1 && array_is(0x77) && cut_off(kit, choices[i]);
        for (k = 0; k < 32; k++) {
            good = good && bench.array[0x3fe0 + k] == (choices[i] >> k & 1 ? north[k] : 0x77);
            bench.array[0x3fe0 + k] = 0x77;
        }
        good = good && array_is(0x77);
    }
    return good;
}

/* The map stays at the STOP and follows the end of the cycle: a sector is taken where a byte was written that is not
 * FFh, not where a cut wrote nothing; a wrong bit of it is then right, and every other bit stays, right or wrong. */
static int map_follows_cuts(const struct kit *kit)
{
    static const struct { uint8_t end; uint32_t choices; unsigned first; } ends[] = {
        { 8, 0, 1 }, { 9, 0, 1 }, { 10, 0, 0 }, { 11, 0, 1 }, { 0, 0, 0 }, { 0, 0x80000000, 1 }, { 0, 0xffffffff, 1 },
    };
    static uint8_t bytes[32];
    uint8_t answer;
    size_t i;
    int k, good = 1;

    for (i = 0; i < sizeof ends / sizeof ends[0]; i++) {
        good = good && open_map(kit, 1, 0xff);
        bench.chip.pel = 1;
        wire_write(&bench.wire, 0, 0, bytes, 32);
        good = good && mapped_note() == 1 && first_free(kit) == 0;
        memset(map, 0xff, CREP_MAP);
        if (ends[i].end)
            good = good && kit->map_event(&bench.chip, bench.array, CREP_ARRAY, map, CREP_MAP, ends[i].end,
                                          &answer) == 0;
        else
            good = good && kit->map_power_up(&bench.chip, bench.array, CREP_ARRAY, map, CREP_MAP, ends[i].choices,
                                             &answer) == 0;
        good = good && answer == 1;
        good = good && map[0] == 0xfe + ends[i].first;
        for (k = 1; k < CREP_MAP; k++)
            good = good && map[k] == 0xff;
    }
    return good;
}

/* Power-up with choices refuses 1, 2, with a map 1, 18, 2; the answer is 1 in each case and nothing is written. */
static int power_up_refuses(const struct kit *kit)
{
    static const struct { size_t array_len, map_len; uint8_t bl, plain, mapped; } calls[] = {
        { 16383, 63, 4, 1, 1 }, { 16385, 64, 0, 1, 1 }, { 16384, 63, 4, 2, 18 }, { 16384, 65, 3, 0, 18 },
        { 16384, 64, 4, 2, 2 },
    };
    struct crep_chip chip;
    uint8_t first, second;
    size_t i;
    int good = 1;

    for (i = 0; i < sizeof calls / sizeof calls[0]; i++) {
        open_bench(kit, 0);
        memset(map, 0x5a, sizeof map);
        bench.chip.busy = bench.chip.wait = bench.chip.wait_places[0] = 1;
        bench.chip.bl = calls[i].bl;
        chip = bench.chip;
        first = second = 0;
        good = good && kit->map_power_up(&bench.chip, bench.array, calls[i].array_len, map, calls[i].map_len,
                                         0xffffffff, &first) == calls[i].mapped && first == 1 && nothing_written(&chip);
        good = good && kit->power_up(&bench.chip, bench.array, calls[i].array_len, 0xffffffff,
                                     &second) == calls[i].plain
            && second == 1 && (calls[i].plain == 0 || nothing_written(&chip));
    }
    return good;
}

/* Event bytes are taken up to 11; 12 is refused with 6. */
static int event_12_is_refused(const struct kit *kit)
{
    open_bench(kit, 0);
    wire_event(&bench.wire, 11);
    wire_event(&bench.wire, 12);
    return last_note() == -1 && note_of(12) == -1 && note_of(10) == 0 && note_of(11) == 0
        && kit->run(&bench.chip, bench.array, CREP_ARRAY, bench.trace, 2, bench.answers, 2) == 6;
}

/* ---- Accents on labels ---- */

/* Porton Nunez with its three accents. */
static const uint8_t porton[12] = { 0x50, 0x6f, 0x72, 0x74, 0xf3, 0x6e, 0x20, 0x4e, 0xfa, 0xf1, 0x65, 0x7a };

/* A record with limits 0 and 1,200 by the layout, whatever its label. */
static void lay_out(uint8_t *record, const uint8_t *label, uint8_t n)
{
    static const uint8_t head[5] = { 0, 0, 0x04, 0xb0, 0xa5 };
    unsigned sum = 0;
    int i;

    memset(record, 0x20, 32);
    memcpy(record, head, sizeof head);
    record[5] = n;
    memcpy(record + 6, label, n);
    for (i = 0; i < 30; i++)
        sum += record[i];
    record[30] = (uint8_t)(sum >> 8);
    record[31] = (uint8_t)sum;
}

/* 1 where a label is written, and its record read, sent and given its limits anew; 0 where they are refused with 9 and
 * 14 and write nothing; else -1. */
static int label_taken(const struct kit *kit, const uint8_t *label, uint8_t n)
{
    static const uint8_t none[4] = { 0, 0, 0, 0 }, all[4] = { 9, 14, 14, 14 };
    uint8_t record[32], before[32], wanted[32], length, empty, refusals[4];
    int32_t closed, opened, travel;

    lay_out(wanted, label, n);
    memset(record, 0x55, 32);
    memset(before, 0x55, 32);
    refusals[0] = kit->record_write(record, 32, 0, 1200, label, n);
    if (memcmp(record, refusals[0] ? before : wanted, 32) != 0)
        return -1;
    memcpy(record, wanted, 32);
    refusals[1] = kit->record_read(record, 32, &closed, &opened, &travel, &length, &empty);
    refusals[2] = refusal_of(kit, 0, 0, 17, record, 32, 713);
    refusals[3] = kit->record_limits(record, 32, 0, 1200);
    if (memcmp(record, wanted, 32) != 0)
        return -1;
    if (memcmp(refusals, none, 4) == 0)
        return length == n && opened == 1200 ? 1 : -1;
    return memcmp(refusals, all, 4) == 0 && length == 0 && opened == 0 ? 0 : -1;
}

/* Every byte as the first of 24, as the last and as all of them: 00h-1Fh, 7Fh-A0h and FFh are bad, the others good. */
static int label_bytes(const struct kit *kit)
{
    uint8_t label[24];
    int byte, good = 1;

    for (byte = 0; byte < 256; byte++) {
        int taken = byte > 0x1f && byte < 0xff && (byte < 0x7f || byte > 0xa0);

        memset(label, 'A', sizeof label);
        label[0] = (uint8_t)byte;
        good = good && label_taken(kit, label, 24) == taken;
        label[0] = 'A';
        label[23] = (uint8_t)byte;
        good = good && label_taken(kit, label, 24) == taken;
        memset(label, byte, sizeof label);
        good = good && label_taken(kit, label, 24) == taken;
    }
    return good;
}

/* FFh throughout is refused at every length but 0, at which there is none. */
static int erased_label(const struct kit *kit)
{
    uint8_t label[24], n;
    int good = 1;

    memset(label, 0xff, sizeof label);
    for (n = 0; n <= 24; n++)
        good = good && label_taken(kit, label, n) == (n == 0);
    return good;
}

/* Whether the name shown of a record is its first n label bytes, or the standard label where n is 0. */
static int shows(const struct kit *kit, const uint8_t *record, size_t n)
{
    static const uint8_t standard[3] = { 0xff, 0xa0, 0x00 };
    uint64_t start, len;
    uint8_t from_record;

    return kit->record_name(record, 32, standard, sizeof standard, &start, &len, &from_record) == 0
        && from_record == (n > 0) && start == (n > 0 ? 6 : 0) && len == (n > 0 ? n : sizeof standard);
}

/* Porton Nunez is written, sent to gate 17 of each part, read there and shown whole. */
static int accents_are_sent(const struct kit *kit)
{
    static uint8_t wanted[CREP_ARRAY];
    uint8_t record[32], part, length, empty;
    int32_t closed, opened, travel;
    uint16_t events;
    int good = 1;

    for (part = 0; part < 3; part++) {
        open_bench(kit, part);
        good = good && kit->record_write(record, 32, 0, 1200, porton, sizeof porton) == 0
            && kit->send(part, 0, 17, record, 32, bench.trace, CREP_SEND, &events) == 0;
        bench.wire.len = good ? events : 0;
        memset(wanted, 0xff, sizeof wanted);
        lay_out(wanted + 0x220, porton, sizeof porton);
        good = good && (part == CREP_X24F129 ? note_634_is(1) : notes_are(3, 1))
            && memcmp(bench.array, wanted, sizeof wanted) == 0
            && kit->record_read(bench.array + 0x220, 32, &closed, &opened, &travel, &length, &empty) == 0
            && closed == 0 && opened == 1200 && travel == 1200 && length == sizeof porton && !empty
            && shows(kit, bench.array + 0x220, sizeof porton);
    }
    return good;
}

/* Spaces after an accent are trimmed, a soft hyphen is not; A0h makes the record bad, and the standard label, which may
 * be any bytes, is shown. */
static int accents_are_shown(const struct kit *kit)
{
    static const struct { uint8_t label[4]; size_t shown; } names[] = {
        { { 'A', 0xf1, 0x20, 0x20 }, 2 }, { { 'A', 0x20, 0xad, 0x20 }, 3 }, { { 'A', 0xf1, 0xa0, 0x20 }, 0 },
    };
    uint8_t record[32];
    size_t i;
    int good = 1;

    for (i = 0; i < sizeof names / sizeof names[0]; i++) {
        lay_out(record, names[i].label, 4);
        good = good && shows(kit, record, names[i].shown);
    }
    return good;
}

/* Whatever byte stands right behind a label of one byte, 20h alone is padding. */
static int padding_is_20h(const struct kit *kit)
{
    uint8_t label[2] = { 'A', 0 }, record[32], length, empty;
    int32_t closed, opened, travel;
    int byte, good = 1;

    for (byte = 0; byte < 256; byte++) {
        label[1] = (uint8_t)byte;
        lay_out(record, label, 2);
        record[5] = 1;
        record[30] -= record[31] == 0;
        record[31]--;
        good = good && kit->record_read(record, 32, &closed, &opened, &travel, &length, &empty)
            == (byte == 0x20 ? 0 : 14);
    }
    return good;
}

/* New limits leave the record that writing them with the label would. */
static int limits_keep_accents(const struct kit *kit)
{
    uint8_t record[32], wanted[32];

    lay_out(wanted, porton, sizeof porton);
    return kit->record_write(record, 32, 7, -7, porton, sizeof porton) == 0 && memcmp(record, wanted, 32) != 0
        && kit->record_limits(record, 32, 0, 1200) == 0 && memcmp(record, wanted, 32) == 0;
}

/* ---- The part without a register ---- */

/* An X24F129 with spoil byte 3Ch and these bits on an array of 77h. */
static void open_bare(const struct kit *kit, uint8_t bits)
{
    open_bench(kit, CREP_X24F129);
    put_bits(bits);
    bench.chip.spoil = 0x3c;
    memset(bench.array, 0x77, CREP_ARRAY);
}

/* n bytes 00h to an address of such a chip, with one level of the pin in the STOP's own sample and another before it.
 * The note, where 1 and 5 alone begin a cycle and clear RPEL, the mark is clear, all other bits stay, no byte is
 * written before the program-done, and after it the sector holds 00h or 3Ch as the note says, with 77h beside it; else
 * -1. */
static int bare_write(const struct kit *kit, uint8_t bits, unsigned address, size_t n, int pin, int at_stop)
{
    static const uint8_t bytes[64];
    static uint8_t wanted[CREP_ARRAY];
    unsigned sector = address % 0x4000 / 32 * 32;
    const struct crep_chip *chip = &bench.chip;
    int note, cycle, good;

    open_bare(kit, bits);
    bench.wire.pin = pin;
    wire_write(&bench.wire, 0, address, bytes, n);
    bench.trace[bench.wire.len - 1] = (uint8_t)(3 | at_stop << 2);
    note = last_note();
    cycle = note == 1 || note == 5;
    memset(wanted, 0x77, CREP_ARRAY);
    if (cycle)
        memset(wanted + sector, note == 1 ? 0x00 : 0x3c, 32);
    good = array_is(0x77) && chip->busy == cycle && counter_of(chip) == sector + (address + n) % 32 && !chip->mark
        && chip->ppen == bits >> 7 && chip->bl == (bits >> 3 & 3) && chip->rpel == (cycle ? 0 : bits >> 2 & 1)
        && chip->pel == (bits >> 1 & 1) && note_of(8) == 0 && !chip->busy
        && memcmp(bench.array, wanted, CREP_ARRAY) == 0;
    return good ? note : -1;
}

/* 3000h and above are locked with the pin high, and nothing is with the pin low. */
static int pin_locks_from_3000(const struct kit *kit)
{
    return bare_write(kit, 0, 0x3000, 32, 1, 1) == 4 && bare_write(kit, 0, 0x301f, 32, 1, 1) == 4
        && bare_write(kit, 0, 0x3fff, 32, 1, 1) == 4 && bare_write(kit, 0, 0x2fff, 32, 1, 1) == 1
        && bare_write(kit, 0, 0x2000, 32, 1, 1) == 1 && bare_write(kit, 0, 0x0000, 32, 1, 1) == 1
        && bare_write(kit, 0, 0x3000, 32, 0, 0) == 1 && bare_write(kit, 0, 0x3fff, 32, 0, 0) == 1
        && bare_write(kit, 0, 0x2fff, 32, 0, 0) == 1 && bare_write(kit, 0, 0x7000, 32, 1, 1) == 4;
}

/* The STOP's own sample counts: the pin high in it alone locks, low in it alone does not. */
static int pin_of_its_own_sample(const struct kit *kit)
{
    return bare_write(kit, 0, 0x3000, 32, 0, 1) == 4 && bare_write(kit, 0, 0x3000, 32, 1, 0) == 1
        && bare_write(kit, 0, 0x3fe0, 31, 0, 1) == 4 && bare_write(kit, 0, 0x3fe0, 31, 1, 0) == 5;
}

/* Any count but 32 is note 5, and where it is locked note 4, which spoils nothing; no data byte is nothing. */
static int bare_counts(const struct kit *kit)
{
    static const size_t counts[] = { 1, 2, 31, 33, 64 };
    size_t i;
    int good = bare_write(kit, 0, 0x3000, 0, 0, 0) == 0 && bare_write(kit, 0, 0x3000, 0, 1, 1) == 0;

    for (i = 0; i < sizeof counts / sizeof counts[0]; i++)
        good = good && bare_write(kit, 0, 0x3000, counts[i], 1, 1) == 4
            && bare_write(kit, 0, 0x3000, counts[i], 0, 0) == 5 && bare_write(kit, 0, 0x2fff, counts[i], 1, 1) == 5
            && bare_write(kit, 0, 0x0106, counts[i], 0, 0) == 5;
    return good;
}

/* FFFFh is 3FFFh: a register byte sent there spoils sector 511, or is note 4; a read gives the array's last byte. */
static int ffff_is_3fff(const struct kit *kit)
{
    size_t end;
    int good = bare_write(kit, 0, 0xffff, 1, 0, 0) == 5 && bare_write(kit, 0, 0xffff, 32, 0, 0) == 1
        && bare_write(kit, 0, 0xffff, 1, 1, 1) == 4 && bare_write(kit, 0x9f, 0xffff, 1, 0, 0) == 5
        && bare_write(kit, 0x9f, 0xffff, 0, 0, 0) == 0;

    open_bare(kit, 0x9f);
    bench.array[0x3fff] = 0x5a;
    bench.array[0x0000] = 0xc3;
    wire_read(&bench.wire, 0, 0xffff, 2);
    end = bench.wire.len - 3;
    return good && last_note() == 0 && byte_at(end - 36) == 0x5a && byte_at(end - 18) == 0xc3
        && counter_of(&bench.chip) == 1 && !bench.chip.mark;
}

/* There is no PEL: right after a power-up all 35 bytes of a message are acknowledged, and stored. */
static int data_without_pel(const struct kit *kit)
{
    static const uint8_t bytes[32];
    int i, good;

    open_bare(kit, 0);
    wire_event(&bench.wire, 9);
    wire_write(&bench.wire, 0, 0x0100, bytes, sizeof bytes);
    good = last_note() == 1 && note_of(8) == 0 && bench.array[0x100] == 0x00 && !bench.chip.pel;
    for (i = 0; i < 35; i++)
        good = good && CREP_LINE(bench.answers[20 + 18 * i]) == 0;
    return good;
}

/* Whatever PPEN, BL, RPEL, PEL and the mark are, the same is locked. */
static int bits_lock_nothing(const struct kit *kit)
{
    int bits, good = 1;

    for (bits = 0; bits < 256; bits++)
        good = good && bare_write(kit, (uint8_t)(bits & 0x9f), 0x0000, 32, bits & 1, bits & 1) == 1
            && bare_write(kit, (uint8_t)(bits & 0x9f), 0x3000, 32, 0, 0) == 1
            && bare_write(kit, (uint8_t)(bits & 0x9f), 0x3000, 32, 1, 1) == 4
            && bare_write(kit, (uint8_t)(bits & 0x9f), 0x2fe0, 31, 1, 1) == 5;
    return good;
}

/* A mark that a caller sets in mid-message changes nothing and stays: data goes to the array, 32 bytes are a store. */
static int mark_is_no_register(const struct kit *kit)
{
    int i, good;

    open_bare(kit, 0x9e);
    wire_address(&bench.wire, 0, 0x0100);
    good = last_note() == 0;
    bench.chip.mark = 1;
    wire_open(&bench.wire, bench.trace, sizeof bench.trace);
    for (i = 0; i < 32; i++)
        wire_send(&bench.wire, 0x02);
    wire_stop(&bench.wire);
    good = good && last_note() == 1 && bench.chip.mark && counter_of(&bench.chip) == 0x100 && note_of(8) == 0
        && bench.chip.mark && bench.array[0x11f] == 0x02 && bench.chip.bl == 3 && bench.chip.pel;
    return good && note_of(9) == 0 && !bench.chip.mark && !bench.chip.pel && bench.chip.ppen && bench.chip.bl == 3;
}

/* A current read with the mark: bytes of the array, the counter goes on, the mark stays. */
static int mark_reads_the_array(const struct kit *kit)
{
    size_t at;

    open_bare(kit, 0x9f);
    bench.array[0x3fff] = 0x5a;
    bench.array[0x0000] = 0xc3;
    bench.chip.counter_high = 0x3f;
    bench.chip.counter_low = 0xff;
    wire_start(&bench.wire);
    wire_send(&bench.wire, 0xa1);
    at = bench.wire.len;
    wire_receive(&bench.wire, 1);
    wire_receive(&bench.wire, 0);
    return last_note() == 0 && byte_at(at) == 0x5a && byte_at(at + 18) == 0xc3 && counter_of(&bench.chip) == 1
        && bench.chip.mark && bench.chip.phase == CREP_PHASE_STANDBY;
}

/* A cycle that began with the pin low ends with the pin high, by a program-done and by each power-up. */
static int begun_unlocked_ends(const struct kit *kit)
{
    static const uint32_t written[] = { 0xffffffff, 0xffffffff, 0, 0x0000ffff };
    uint8_t event, pin;
    int good = 1;

    for (event = 8; event < 12; event++) {
        good = good && begin(kit, CREP_X24F129, 0x3fe0, 32) == 1;
        for (pin = 7; pin > 3; pin--)
            good = good && note_of(pin) == 0;
        good = good && note_of(event) == 0 && top_holds(written[event - 8]);
    }
    return good;
}

/* PPEN and BL that wait in a caller's busy chip are taken as on the other parts, by 8, 9 and 11 and not by 10. */
static int bare_wait_is_taken(const struct kit *kit)
{
    uint8_t event;
    int good = 1;

    for (event = 8; event < 12; event++) {
        open_bare(kit, 0x0f);
        bench.chip.busy = bench.chip.wait_ppen = 1;
        bench.chip.wait = bench.chip.wait_bl = 2;
        good = good && note_of(event) == 0 && !bench.chip.busy && nothing_waits(&bench.chip) && array_is(0x77)
            && bench.chip.ppen == (event != 10) && bench.chip.bl == (event != 10 ? 2 : 1)
            && bench.chip.pel == (event == 8) && bench.chip.rpel == (event == 8) && bench.chip.mark == (event == 8);
    }
    return good;
}

/* Part 2 is in range and part 3 is not, for every call that takes a chip and for a new one; BL 4 is not either. */
static int part_3_is_refused(const struct kit *kit)
{
    struct crep_chip chip;
    int good = kit->make(&chip, CREP_X24F129, 7) == 0 && chip.part == 2 && chip.select == 7
        && kit->make(&chip, CREP_X24F129, 8) == 3 && chip.part == CREP_X24F128 && kit->make(&chip, 3, 0) == 3
        && chip.part == CREP_X24F128 && kit->make(&chip, 255, 0) == 3 && chip.part == CREP_X24F128;

    open_bare(kit, 0x9f);
    good = good && wait_refusal(kit, &bench.chip) == 0;
    bench.chip.part = 3;
    good = good && wait_refusal(kit, &bench.chip) == 2;
    bench.chip.part = 255;
    good = good && wait_refusal(kit, &bench.chip) == 2;
    bench.chip.part = CREP_X24F129;
    bench.chip.bl = 4;
    return good && wait_refusal(kit, &bench.chip) == 2;
}

/* Gate 17 for an X24F129: the record's message alone and 8, the pin low; PEL stays as it is, RPEL 1 does no harm. */
static int gate_17_without_pel(const struct kit *kit)
{
    static uint8_t spelling[636], wanted[CREP_ARRAY];
    struct wire wire;
    uint8_t bits;
    int good = 1;

    for (bits = 0; bits < 0x20; bits++) {
        good = good && open_send(kit, CREP_X24F129, 7, 17) == 0;
        put_bits(bits);
        wire_open(&wire, spelling, sizeof spelling);
        wire_write(&wire, 7, 0x0220, north, sizeof north);
        wire_event(&wire, 8);
        memset(wanted, 0xff, sizeof wanted);
        memcpy(wanted + 0x220, north, sizeof north);
        good = good && wire.len == 636 && memcmp(bench.trace, spelling, sizeof spelling) == 0 && note_634_is(1)
            && memcmp(bench.array, wanted, sizeof wanted) == 0 && bench.chip.pel == (bits >> 1 & 1)
            && bench.chip.bl == (bits >> 3 & 3) && !bench.chip.rpel && !bench.chip.mark && !bench.chip.busy;
    }
    return good;
}

/* Every gate from 384 on is sent too: the pin is low. */
static int bare_gates_are_sent(const struct kit *kit)
{
    uint16_t gate;
    int good = 1;

    for (gate = 383; gate < 512; gate++)
        good = good && open_send(kit, CREP_X24F129, 0, gate) == 0 && note_634_is(1)
            && memcmp(bench.array + 32 * gate, north, sizeof north) == 0;
    return good;
}

/* What is sent for a part with a register spoils sector 511 of an X24F129, and the record is not stored. */
static int sent_for_another_part(const struct kit *kit)
{
    static uint8_t wanted[CREP_ARRAY];
    uint8_t part;
    int good = 1;

    for (part = 0; part < 2; part++) {
        good = good && open_send(kit, part, 0, 17) == 0;
        bench.chip.part = CREP_X24F129;
        bench.chip.spoil = 0x3c;
        memset(wanted, 0xff, sizeof wanted);
        memset(wanted + 0x3fe0, 0x3c, 32);
        good = good && notes_are(5, 0) && memcmp(bench.array, wanted, sizeof wanted) == 0 && !bench.chip.busy;
    }
    return good;
}

/* ---- The header ---- */

/* CREP_VERSION_NUMBER is CREP_VERSION by its own rule; each refusal has a text. */
static int header_agrees(const struct kit *kit)
{
    int first, second, third;

    (void)kit;
    return strcmp(CREP_VERSION, "0.10.0") == 0 && sscanf(CREP_VERSION, "%d.%d.%d", &first, &second, &third) == 3
        && CREP_VERSION_NUMBER == 10000 * first + 100 * second + third
        && strcmp(crep_refusal_text(6), "an event byte above 11") == 0
        && strcmp(crep_refusal_text(17), "buffer shorter than 713 events, X24F129: 636") == 0
        && strcmp(crep_refusal_text(18), "map is not 64 bytes") == 0
        && strcmp(crep_refusal_text(19), "no such refusal") == 0;
}

static const struct {
    const char *text;
    int (*holds)(const struct kit *);
} cases[] = {
    { "1   PPEN 1, BL 3, PEL 1 reads 9Ah", case_1 },
    { "2   travel -350, -60,000 and 60,000", case_2 },
    { "3   -30,000 is 8AD0h, -1 is FFFFh, 30,001 refused", case_3 },
    { "4   the record of NORTH", case_4 },
    { "5   label of 24 taken, 25 refused", case_5 },
    { "6   27 bytes at 0006h reach byte 0", case_6 },
    { "7   X24F128: 31, 32, 33 bytes, and the array", case_7 },
    { "8   BL 1 and BL 2 at their edges", case_8 },
    { "-   every part, BL, pin and sector: 4 or 1", every_sector_by_its_lock },
    { "9   register 06h with PEL 0", case_9 },
    { "10  read at 3FFFh, then 0000h", case_10 },
    { "11  stopped with SCL low: 10 pulses", case_11 },
    { "12  stopped with SCL high: 9 pulses", case_12 },
    { "13  PEL set: note 3 at 77 on both parts that have it", case_13 },
    { "-   the standard chip: an X24F128 with select 0", standard_chip },
    { "-   short loads that leave a sector: locked, empty", short_loads_that_stay },
    { "-   no spoil on an X24128, nor by a register byte", what_never_spoils },
    { "-   the spoil byte: FFh when new, kept by all events", spoil_is_kept },
    { "-   a spoilt sector: free with FFh, else 12 or 13", spoilt_sector_is_no_gate },
    { "-   a STOP needs exactly one bit", stop_needs_one_bit },
    { "-   the pin is read at the STOP", pin_is_read_at_the_stop },
    { "-   new limits keep the label", limits_keep_the_label },
    { "-   demand 3 on 500 random noises", demand_3 },
    { "-   a waiting BL 0 unlocks: why it starts idle", busy_start_may_unlock },
    { "-   gate 17 sent: 713 events, notes at 76 and 711", gate_17_is_sent },
    { "-   BL 1: gate 384 stays, note 4; 383 is sent", locked_gates_stay },
    { "-   RPEL 1: the sender unlocks and stores nothing", rpel_unlocks },
    { "-   what the sender refuses, and in which order", sender_refuses },
    { "-   713 events of room, 636 for an X24F129", sender_needs_room },
    { "-   first free: none, all, and each alone", map_finds },
    { "-   one byte that is not FFh takes its sector", one_byte_is_used },
    { "-   the map follows stores and spoils, FFh frees", map_follows },
    { "-   the map stays in all other events", map_stays },
    { "-   what the calls with a map refuse, and the order", map_refuses },
    { "-   512 gates added where the map says; then none", gates_are_added },
    { "-   a STOP makes it wait and writes nothing", stop_makes_it_wait },
    { "-   program-done writes what waits", done_writes },
    { "-   events 9, 10, 11: all, none, places 0-15", three_cuts },
    { "-   each choice is its own place's", choices_by_place },
    { "-   choice 0 takes a register byte: 11 does, 10 not", register_byte_is_cut },
    { "-   idle with a wait, busy with none", waits_of_a_caller },
    { "-   locks, pin and read: the bits in force", bits_in_force },
    { "-   a wait out of its range, where it is carried", wait_out_of_range },
    { "-   what its kind does not carry comes back as 0", wait_is_tidied },
    { "-   a recovery leaves what waits", recovery_leaves_the_wait },
    { "-   the sender cut off: old or new, byte by byte", sender_is_cut_off },
    { "-   the map follows the end of a cycle, each cut", map_follows_cuts },
    { "-   what power-ups with choices refuse", power_up_refuses },
    { "-   event 11 is taken, 12 refused", event_12_is_refused },
    { "-   label bytes: 20h-7Eh and A1h-FEh, no other", label_bytes },
    { "-   a label of all FFh is refused", erased_label },
    { "-   a label with accents is sent, read and shown", accents_are_sent },
    { "-   what is trimmed is 20h alone", accents_are_shown },
    { "-   padding is 20h alone", padding_is_20h },
    { "-   new limits keep a label with accents", limits_keep_accents },
    { "-   X24F129: pin high locks 3000h and not 2FFFh", pin_locks_from_3000 },
    { "-   X24F129: the pin of the STOP's own sample", pin_of_its_own_sample },
    { "-   X24F129: short loads, note 4 before note 5", bare_counts },
    { "-   X24F129: FFFFh is 3FFFh", ffff_is_3fff },
    { "-   X24F129: data is acknowledged without PEL", data_without_pel },
    { "-   X24F129: no bit of a register locks", bits_lock_nothing },
    { "-   X24F129: a mark makes no register byte", mark_is_no_register },
    { "-   X24F129: a read with the mark reads the array", mark_reads_the_array },
    { "-   X24F129: begun with the pin low, it ends", begun_unlocked_ends },
    { "-   X24F129: a waiting register byte is taken", bare_wait_is_taken },
    { "-   X24F129: demand 3 by the pin, 500 noises", demand_3_by_the_pin },
    { "-   part 2 is taken, 3 refused; BL 4 refused", part_3_is_refused },
    { "-   gate 17 of an X24F129: 636 events, note at 634", gate_17_without_pel },
    { "-   gates 383 to 511 of an X24F129 are sent", bare_gates_are_sent },
    { "-   713 events to an X24F129 spoil sector 511", sent_for_another_part },
    { "-   the header's version and refusal texts", header_agrees },
};

int main(void)
{
    size_t i;
    int failed = 0;

    printf("%-52s %-7s %s\n", "worked case", kit_model.name, kit_library.name);
    for (i = 0; i < sizeof cases / sizeof cases[0]; i++) {
        int model = cases[i].holds(&kit_model);
        int library = cases[i].holds(&kit_library);

        printf("%-52s %-7s %s\n", cases[i].text, model ? "ok" : "WRONG", library ? "ok" : "WRONG");
        failed += !model + !library;
    }
    printf("%d wrong\n", failed);
    return failed != 0;
}
