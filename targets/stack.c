/*
 * How far the stack goes below each call of the kit, on random chips, traces, records and maps: it is painted before a call
 * and looked at after it, so what memcpy and its like take is in it. Prints each call with the most bytes that it took.
 */
#include <stdio.h>

#include "crepulanter.h"
#include "stir.h"

#if defined(__riscv)
#define STACK(at) __asm__ volatile("mv %0, sp" : "=r"(at))
#else
#define STACK(at) __asm__ volatile("mov %0, sp" : "=r"(at))
#endif

enum { ROUNDS = 400, DEEP = 8192, PAINT = 0x5a };

static uint8_t array[CREP_ARRAY], map[CREP_MAP], trace[CREP_SEND], answers[CREP_SEND], record[CREP_RECORD], label[CREP_LABEL];
static struct crep_chip chip;
static uint8_t event, byte, flag, refusal;
static int32_t closed, opened, travel;
static uint64_t start, len;
static uint32_t choices;
static uint16_t number;

/* Where the stack stood at the call, and the lowest byte below it that lost its paint. */
static uintptr_t at_call, lowest;

#define CALL(name, ...) \
    static void do_##name(void) \
    { \
        STACK(at_call); \
        refusal = crep_##name(__VA_ARGS__); \
    }

CALL(new, &chip, chip.part, chip.select)
CALL(event, &chip, array, sizeof array, event, &byte)
CALL(run, &chip, array, sizeof array, trace, sizeof trace, answers, sizeof answers)
CALL(power_up, &chip, array, sizeof array, choices, &byte)
CALL(recover, &chip, array, sizeof array, 0, &byte)
CALL(record_write, record, sizeof record, closed, opened, label, sizeof label)
CALL(record_limits, record, sizeof record, closed, opened)
CALL(record_read, record, sizeof record, &closed, &opened, &travel, &byte, &flag)
CALL(name, record, sizeof record, label, sizeof label, &start, &len, &flag)
CALL(send, chip.part, chip.select, 17, record, sizeof record, trace, sizeof trace, &number)
CALL(map_build, array, sizeof array, map, sizeof map)
CALL(map_first, map, sizeof map, &number)
CALL(map_event, &chip, array, sizeof array, map, sizeof map, event, &byte)
CALL(map_power_up, &chip, array, sizeof array, map, sizeof map, choices, &byte)
CALL(map_run, &chip, array, sizeof array, map, sizeof map, trace, sizeof trace, answers, sizeof answers)

static struct {
    const char *name;
    void (*run)(void);
    unsigned most;
} calls[] = {
    { "crep_new", do_new, 0 },
    { "crep_event", do_event, 0 },
    { "crep_run", do_run, 0 },
    { "crep_power_up", do_power_up, 0 },
    { "crep_recover", do_recover, 0 },
    { "crep_record_write", do_record_write, 0 },
    { "crep_record_limits", do_record_limits, 0 },
    { "crep_record_read", do_record_read, 0 },
    { "crep_name", do_name, 0 },
    { "crep_send", do_send, 0 },
    { "crep_map_build", do_map_build, 0 },
    { "crep_map_first", do_map_first, 0 },
    { "crep_map_event", do_map_event, 0 },
    { "crep_map_power_up", do_map_power_up, 0 },
    { "crep_map_run", do_map_run, 0 },
};

enum { CALLS = sizeof calls / sizeof calls[0] };

/* Both in one function: the array then stands in one place. */
static void paint_or_look(int painting)
{
    volatile uint8_t room[DEEP];
    int i;

    for (i = 0; i < DEEP && (painting || room[i] == PAINT); i++)
        if (painting)
            room[i] = PAINT;
    lowest = (uintptr_t)&room[i];
}

static void (*volatile stack)(int painting) = paint_or_look;

/* Brings the chip before a STOP of the trace, where most is done. */
static void to_a_stop(struct chance *chance)
{
    uint32_t n = 1 + chance_below(chance, sizeof trace - 1);

    while (n + 1 < sizeof trace && (trace[n - 1] != CREP_SCL || trace[n] != (CREP_SCL | CREP_SDA)))
        n++;
    refusal = crep_run(&chip, array, sizeof array, trace, n, answers, sizeof answers);
    event = trace[n];
}

static void stir(struct chance *chance)
{
    struct wire wire;

    stir_chip(chance, &chip);
    event = stir_event(chance);
    choices = stir_choices(chance);
    wire_open(&wire, trace, sizeof trace);
    stir_cycles(chance, &wire, chip.select);
    stir_record(chance, record);
    stir_label(chance, label, sizeof label);
    closed = stir_limit(chance);
    opened = stir_limit(chance);
    if (chance_once_in(chance, 2))
        to_a_stop(chance);
}

static void measure(int k)
{
    stack(1);
    calls[k].run();
    stack(0);
    if (lowest < at_call && calls[k].most < at_call - lowest)
        calls[k].most = (unsigned)(at_call - lowest);
}

int main(void)
{
    struct chance chance = { 1 };
    int round, k;

    for (round = 0; round < ROUNDS; round++) {
        stir_gates(&chance, array);
        for (k = 0; k < CALLS; k++) {
            stir(&chance);
            measure(k);
        }
    }
    for (k = 0; k < CALLS; k++)
        printf("%s %u\n", calls[k].name, calls[k].most);
    return 0;
}
