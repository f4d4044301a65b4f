/*
 * What calls cost on a processor that QEMU plays: instructions of the library and of the model in plain C, in one run. The
 * clock goes on with each instruction (-icount), and a loop of known length tells how far.
 */
#include <stdio.h>

#include "crepulanter.h"
#include "kit.h"

#define FULL 0xffffffu          /* the clock has 24 bits */

#if defined(__riscv)
static uint32_t ticks(void)
{
    return *(volatile uint32_t *)0x0200bff8 & FULL;     /* mtime */
}

static void begin(void)
{
}
#else
static volatile uint32_t *const systick = (volatile uint32_t *)0xe000e010;

static uint32_t ticks(void)
{
    return FULL - systick[2];   /* it counts down */
}

static void begin(void)
{
    systick[1] = FULL;
    systick[2] = 0;
    systick[0] = 5;             /* on, by the processor's clock, without an interrupt */
}
#endif

static uint8_t array[CREP_ARRAY], map[CREP_MAP], trace[CREP_SEND], answers[CREP_SEND], record[CREP_RECORD];
static const uint8_t label[] = { 'N', 'O', 'R', 'T', 'H', ' ', 'Y', 'A', 'R', 'D' };
static struct crep_chip chip;
static uint8_t refusal, byte, flag;
static int32_t closed, opened, travel;
static uint64_t start, len;
static uint16_t number;

#define CALL(name, ...) \
    static void do_##name(const struct kit *kit) \
    { \
        refusal |= kit->name(__VA_ARGS__); \
    }

CALL(record_write, record, sizeof record, 150, -900, label, sizeof label)
CALL(record_limits, record, sizeof record, -160, 890)
CALL(record_read, record, sizeof record, &closed, &opened, &travel, &byte, &flag)
CALL(record_name, record, sizeof record, label, sizeof label, &start, &len, &flag)
CALL(send, CREP_X24F128, 0, 17, record, sizeof record, trace, sizeof trace, &number)
CALL(map_build, array, sizeof array, map, sizeof map)
CALL(map_first, map, sizeof map, &number)
CALL(run, &chip, array, sizeof array, trace, sizeof trace, answers, sizeof answers)
CALL(map_run, &chip, array, sizeof array, map, sizeof map, trace, sizeof trace, answers, sizeof answers)

static void do_event(const struct kit *kit)
{
    static int at;

    refusal |= kit->event(&chip, array, sizeof array, trace[at], &byte);
    at = (at + 1) % CREP_SEND;
}

/* A thousand instructions. */
static void do_loop(const struct kit *kit)
{
    uint32_t n = 500;

    (void)kit;
#if defined(__riscv)
    __asm__ volatile("1: addi %0, %0, -1\n bnez %0, 1b" : "+r"(n));
#else
    __asm__ volatile(".syntax unified\n1: subs %0, #1\n bne 1b" : "+l"(n) : : "cc");
#endif
}

/* Ticks of some calls. */
static uint32_t cost(void (*call)(const struct kit *), const struct kit *kit, int times)
{
    uint32_t begun = ticks();

    while (times-- > 0)
        call(kit);
    return (ticks() - begun) & FULL;
}

int main(void)
{
    static const struct {
        const char *name;
        void (*call)(const struct kit *);
        int times, events;
    } calls[] = {
        { "crep_record_write", do_record_write, 500, 1 },
        { "crep_record_limits", do_record_limits, 500, 1 },
        { "crep_record_read", do_record_read, 500, 1 },
        { "crep_name", do_record_name, 500, 1 },
        { "crep_send", do_send, 50, 1 },
        { "crep_map_build, all used", do_map_build, 5, 1 },
        { "crep_map_first, none free", do_map_first, 50, 1 },
        { "crep_run, an event", do_run, 5, CREP_SEND },
        { "crep_map_run, an event", do_map_run, 5, CREP_SEND },
        { "crep_event", do_event, CREP_SEND, 1 },
    };
    uint64_t million;
    size_t k;

    begin();
    refusal = crep_new(&chip, CREP_X24F128, 0);
    million = cost(do_loop, &kit_library, 1000);
    printf("| | library | plain C | ratio |\n|---|---|---|---|\n");
    for (k = 0; k < sizeof calls / sizeof calls[0]; k++) {
        uint32_t n = (uint32_t)calls[k].times * calls[k].events;
        uint32_t library = (uint32_t)(cost(calls[k].call, &kit_library, calls[k].times) * UINT64_C(1000000) / million / n);
        uint32_t model = (uint32_t)(cost(calls[k].call, &kit_model, calls[k].times) * UINT64_C(1000000) / million / n);

        printf("| %s | %lu | %lu | %lu.%02lu |\n", calls[k].name, (unsigned long)library, (unsigned long)model,
               (unsigned long)(library / model), (unsigned long)(library * 100 / model % 100));
    }
    if (refusal != CREP_OK)
        printf("a call was refused: this measures nothing\n");
    return refusal;
}
