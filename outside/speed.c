/*
 * Measures the library against plain C in one run, its calls with a map against those without, and first free against a
 * full reading by crep_record_read, best of many passes. Only the ratios mean anything.
 *
 *     crep_run      the library, a trace a call            crep_event    the library, an event a call
 *     model_event   the model with all refusals, an event a call
 *     model_step    the model with no refusal looked for, an event a call: plain C as one writes it
 *     model_run     the model, a trace a call
 *     tuned_run     a C loop tuned by hand, a trace a call
 *     crep_map_run  the library, a trace a call, with a map that it keeps
 *     crep_map_event   the library, an event a call, with the map
 *
 *     speed [PASSES]       default 40
 *     speed ENGINE WORK    one pass of one engine on one workload (numbers from 0), for a counter such as callgrind
 */
#define _POSIX_C_SOURCE 199309L
#include <stdio.h>
#include <stdlib.h>
#include <string.h>
#include <time.h>

#include "crepulanter.h"
#include "model.h"
#include "stir.h"
#include "tuned.h"
#include "wire.h"

#define ROOM 1000000

static struct crep_chip chip;
static uint8_t array[CREP_ARRAY], map[CREP_MAP], answers[ROOM];

/* ---- Workloads ---- */

struct work {
    const char *name;
    void (*spell)(struct wire *);
    uint8_t events[ROOM];
    size_t len;
};

static void spell_read(struct wire *wire)
{
    wire_read(wire, 0, 0, CREP_ARRAY);
}

static void spell_writes(struct wire *wire)
{
    uint8_t bytes[32];
    unsigned sector;

    wire_register(wire, 0, 0x02);
    for (sector = 0; sector < 512; sector++) {
        memset(bytes, (int)(sector * 7 & 0xff), sizeof bytes);
        wire_write(wire, 0, sector * 32, bytes, sizeof bytes);
        wire_event(wire, 8);
    }
}

static void spell_random(struct wire *wire)
{
    struct chance chance = { 5 };
    size_t i;

    for (i = 0; i < 500000; i++)
        wire_event(wire, stir_event(&chance));
}

static void spell_noisy(struct wire *wire)
{
    struct chance chance = { 6 };

    wire->room = 500000;
    stir_trace(&chance, wire, 0);
}

static struct work works[] = {
    { .name = "whole read", .spell = spell_read },
    { .name = "512 writes", .spell = spell_writes },
    { .name = "random", .spell = spell_random },
    { .name = "noisy", .spell = spell_noisy },
};

enum { WORKS = sizeof works / sizeof works[0] };

static void spell_all(void)
{
    int i;

    for (i = 0; i < WORKS; i++) {
        struct wire wire;

        wire_open(&wire, works[i].events, ROOM);
        works[i].spell(&wire);
        works[i].len = wire.len;
    }
}

/* ---- Engines ---- */

typedef uint8_t runner(struct crep_chip *, uint8_t *, uint64_t, const uint8_t *, uint64_t, uint8_t *, uint64_t);
typedef uint8_t stepper(struct crep_chip *, uint8_t *, uint64_t, uint8_t, uint8_t *);

struct engine {
    const char *name;
    runner *run;        /* one of the two */
    stepper *step;
};

/* The model with no refusal looked for, as a plain C model is called. */
static uint8_t step_plainly(struct crep_chip *c, uint8_t *a, uint64_t array_len, uint8_t event, uint8_t *answer)
{
    (void)array_len;
    *answer = model_step(c, a, event);
    return 0;
}

static uint8_t run_mapped(struct crep_chip *c, uint8_t *a, uint64_t array_len, const uint8_t *trace,
                          uint64_t trace_len, uint8_t *taken, uint64_t taken_len)
{
    return crep_map_run(c, a, array_len, map, sizeof map, trace, trace_len, taken, taken_len);
}

static uint8_t step_mapped(struct crep_chip *c, uint8_t *a, uint64_t array_len, uint8_t event, uint8_t *answer)
{
    return crep_map_event(c, a, array_len, map, sizeof map, event, answer);
}

static const struct engine engines[] = {
    { "crep_run", crep_run, NULL },
    { "crep_event", NULL, crep_event },
    { "model_event", NULL, model_event },
    { "model_step", NULL, step_plainly },
    { "model_run", model_run, NULL },
    { "tuned_run", tuned_run, NULL },
    { "crep_map_run", run_mapped, NULL },
    { "crep_map_event", NULL, step_mapped },
};

enum { RUN, EVENT, MODEL_EVENT, MODEL_STEP, MODEL_RUN, TUNED, MAP_RUN, MAP_EVENT, ENGINES };

/* All events of a workload, in traces as long as one call takes. */
static int pass(const struct engine *engine, const struct work *work)
{
    size_t i, n;
    uint8_t refusal = 0;

    for (i = 0; engine->run && i < work->len; i += n) {
        n = work->len - i > CREP_TRACE ? CREP_TRACE : work->len - i;
        refusal |= engine->run(&chip, array, CREP_ARRAY, work->events + i, n, answers + i, n);
    }
    for (i = 0; engine->step && i < work->len; i++)
        refusal |= engine->step(&chip, array, CREP_ARRAY, work->events[i], answers + i);
    return refusal;
}

/* Called through this pointer, so that pass keeps a frame of its own for --toggle-collect=pass. */
static int (*volatile const passing)(const struct engine *, const struct work *) = pass;

static double now(void)
{
    struct timespec t;

    clock_gettime(CLOCK_MONOTONIC, &t);
    return (double)t.tv_sec * 1e9 + (double)t.tv_nsec;
}

/* Nanoseconds an event, from a new chip on an array of random bytes with its map. */
static double time_pass(const struct engine *engine, const struct work *work)
{
    struct chance chance = { 7 };
    double begun;

    model_new(&chip, 0, 0);
    chance_fill(&chance, array, CREP_ARRAY);
    model_map_build(array, sizeof array, map, sizeof map);
    begun = now();
    if (passing(engine, work) != 0) {
        printf("%s refuses %s\n", engine->name, work->name);
        exit(1);
    }
    return (now() - begun) / (double)work->len;
}

/* A sum of the answers, so that engines that do not do the same work are found. */
static uint32_t sum_answers(const struct work *work)
{
    uint32_t sum = 0;
    size_t i;

    for (i = 0; i < work->len; i++)
        sum = sum * 31 + answers[i];
    return sum;
}

static double best[ENGINES][WORKS];

static void measure(int passes)
{
    static uint32_t sums[WORKS];
    int p, e, w;

    for (p = 0; p < passes; p++)
        for (w = 0; w < WORKS; w++)
            for (e = 0; e < ENGINES; e++) {
                double ns = time_pass(&engines[e], &works[w]);

                if (p == 0 && e == 0)
                    sums[w] = sum_answers(&works[w]);
                if (p == 0 && sums[w] != sum_answers(&works[w]))
                    printf("%s answers otherwise than %s on %s\n", engines[e].name, engines[0].name, works[w].name);
                if (p == 0 || ns < best[e][w])
                    best[e][w] = ns;
            }
}

/* ---- Where a gate can be added ---- */

static const unsigned places[] = { 0, 255, 511, CREP_NO_SECTOR };

enum { PLACES = sizeof places / sizeof places[0], TIMES = 200 };

enum { READING, FIRST, BUILD, SEARCHES };

static const char *const searches[] = { "reading", "crep_map_first", "crep_map_build" };
static double quickest[SEARCHES][PLACES];
static volatile unsigned found;         /* so that no search is left out */

/* As a panel does it without a map: one record after the other until one is free. */
static unsigned read_all(void)
{
    int32_t closed, opened, travel;
    uint8_t length, empty = 0;
    unsigned k;

    for (k = 0; k < CREP_SECTORS; k++)
        if (crep_record_read(array + CREP_RECORD * k, CREP_RECORD, &closed, &opened, &travel, &length, &empty) == 0
            && empty)
            return k;
    return CREP_NO_SECTOR;
}

static unsigned search(int kind)
{
    uint16_t sector = 0;

    if (kind == READING)
        return read_all();
    if (kind == BUILD ? crep_map_build(array, sizeof array, map, sizeof map) : crep_map_first(map, sizeof map, &sector))
        exit(1);
    return sector;
}

/* Good records in all sectors but this one. */
static void fill_gates(unsigned place)
{
    unsigned k;

    for (k = 0; k < CREP_SECTORS; k++)
        model_record_write(array + CREP_RECORD * k, CREP_RECORD, -1, (int32_t)k, (const uint8_t *)"NORTH YARD", 10);
    if (place < CREP_SECTORS)
        memset(array + CREP_RECORD * place, 0xff, CREP_RECORD);
    model_map_build(array, sizeof array, map, sizeof map);
}

static void measure_searches(int passes)
{
    int p, at, kind, i;

    for (p = 0; p < passes; p++)
        for (at = 0; at < PLACES; at++) {
            fill_gates(places[at]);
            for (kind = 0; kind < SEARCHES; kind++) {
                double ns = now();

                for (i = 0; i < TIMES; i++)
                    found = search(kind);
                ns = (now() - ns) / TIMES;
                if (kind != BUILD && found != places[at])
                    printf("%s finds %u, not %u\n", searches[kind], found, places[at]);
                if (p == 0 || ns < quickest[kind][at])
                    quickest[kind][at] = ns;
            }
        }
}

static void print_searches(void)
{
    char text[64];
    int kind, at;

    printf("%-29s %11s %11s %11s %11s\n", "ns per search, first free", "0", "255", "511", "none");
    for (kind = 0; kind < SEARCHES; kind++) {
        printf("  %-27s", searches[kind]);
        for (at = 0; at < PLACES; at++)
            printf(" %11.1f", quickest[kind][at]);
        printf("\n");
    }
    printf("ratio, below 1 is faster\n");
    for (kind = FIRST; kind < SEARCHES; kind++) {
        snprintf(text, sizeof text, "%s / %s", searches[kind], searches[READING]);
        printf("  %-27s", text);
        for (at = 0; at < PLACES; at++)
            printf(" %11.4f", quickest[kind][at] / quickest[READING][at]);
        printf("\n");
    }
}

/* ---- The table ---- */

static void print_heading(const char *text)
{
    int w;

    printf("%-29s", text);
    for (w = 0; w < WORKS; w++)
        printf(" %11s", works[w].name);
    printf("\n");
}

static void print_ratio(int a, int b)
{
    char text[64];
    int w;

    snprintf(text, sizeof text, "%s / %s", engines[a].name, engines[b].name);
    printf("  %-27s", text);
    for (w = 0; w < WORKS; w++)
        printf(" %11.2f", best[a][w] / best[b][w]);
    printf("\n");
}

static void print_table(int passes)
{
    int e, w;

    printf("speed: best of %d passes\n", passes);
    print_heading("ns per event");
    for (e = 0; e < ENGINES; e++) {
        printf("  %-27s", engines[e].name);
        for (w = 0; w < WORKS; w++)
            printf(" %11.2f", best[e][w]);
        printf("\n");
    }
    print_heading("ratio, below 1 is faster");
    print_ratio(RUN, MODEL_EVENT);
    print_ratio(RUN, MODEL_STEP);
    print_ratio(RUN, MODEL_RUN);
    print_ratio(RUN, TUNED);
    print_ratio(EVENT, MODEL_EVENT);
    print_ratio(EVENT, MODEL_STEP);
    print_ratio(MAP_RUN, RUN);
    print_ratio(MAP_EVENT, EVENT);
}

int main(int argc, char **argv)
{
    int passes = argc == 2 ? atoi(argv[1]) : 40;

    spell_all();
    if (argc == 3) {
        int e = atoi(argv[1]), w = atoi(argv[2]);

        if (e < 0 || e >= ENGINES || w < 0 || w >= WORKS)
            return 2;
        printf("%s, %s: %zu events\n", engines[e].name, works[w].name, works[w].len);
        return time_pass(&engines[e], &works[w]) < 0;
    }
    passes = passes > 0 ? passes : 1;
    measure(passes);
    measure_searches(passes);
    print_table(passes);
    print_searches();
    return 0;
}
