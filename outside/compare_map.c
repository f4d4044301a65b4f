/* Compares the calls with a map of free sectors, on maps that are true and on maps that are not, and holds the library
 * to the request's own words and to its calls without a map. */
#include <inttypes.h>
#include <stdio.h>
#include <string.h>

#include "compare.h"
#include "kit.h"
#include "model.h"
#include "show.h"
#include "stir.h"
#include "tally.h"

#define MARGIN 16                       /* bytes past a buffer's end that must stay */
#define LONGEST 1200                    /* longest trace but for those that are refused for it */
#define LONG_TRACE (CREP_TRACE + 2)

/* One side of the comparison: all that a call may change, and what it returned. */
struct side {
    const struct kit *kit;
    struct crep_chip chip;
    uint8_t array[CREP_ARRAY + MARGIN], map[CREP_MAP + MARGIN];
    uint8_t answers[LONG_TRACE + 2 + MARGIN];
    uint8_t refusal, number;            /* number: the answer byte */
    uint16_t first;
};

struct lengths {
    uint64_t array, map, trace, answers;
};

static struct side library = { .kit = &kit_library };
static struct side model = { .kit = &kit_model };
static struct side plain = { .kit = &kit_library };     /* the library's calls without a map, from the same start */
static uint8_t trace[LONG_TRACE];
static uint8_t held[CREP_MAP];          /* the map as the ends of cycles tell it */
static int is_true;                     /* whether the map was that of the array at the start */

/* ---- What is asked for ---- */

/* The map of the array, or one that is not: any bytes, all free, all used, or wrong in one sector. */
static void stir_map(struct chance *chance, const uint8_t *array, uint8_t *map)
{
    uint32_t kind = chance_below(chance, 8);

    kit_model.map_build(array, CREP_ARRAY, map, CREP_MAP);
    is_true = kind < 4;
    if (kind == 4)
        chance_fill(chance, map, CREP_MAP);
    if (kind == 5 || kind == 6)
        memset(map, kind == 5 ? 0x00 : 0xff, CREP_MAP);
    if (kind == 7)
        chance_flip(chance, map, CREP_MAP);
}

static void copy_model(struct side *side)
{
    side->chip = model.chip;
    memcpy(side->array, model.array, sizeof model.array);
    memcpy(side->map, model.map, sizeof model.map);
    side->number = model.number;
    side->first = model.first;
}

/* Gives all sides the same chip, array, map and rubbish in what is to be written. */
static void same_start(struct chance *chance, const struct crep_chip *chip)
{
    if (chance_once_in(chance, 2))
        stir_gates(chance, model.array);
    else
        stir_array(chance, model.array);
    memset(model.array + CREP_ARRAY, 0x77, MARGIN);
    stir_map(chance, model.array, model.map);
    memset(model.map + CREP_MAP, 0x55, MARGIN);
    model.chip = *chip;
    model.number = chance_byte(chance);
    model.first = (uint16_t)chance_word(chance);
    memcpy(held, model.map, CREP_MAP);
    copy_model(&library);
    copy_model(&plain);
}

/* A new chip with any spoil byte, or any chip in range, busy more often than by chance alone. */
static void first_chip(struct chance *chance, struct crep_chip *chip)
{
    stir_chip(chance, chip);
    if (chance_once_in(chance, 2)) {
        uint8_t spoil = chip->spoil;

        new_chip(chance, chip);
        chip->spoil = spoil;
    }
    if (chance_once_in(chance, 6))
        chip->busy = 1;
}

/* Of array and map, right most times; no trace. */
static struct lengths any_lengths(struct chance *chance)
{
    struct lengths n = { 0, 0, 0, 0 };

    n.array = stir_length(chance, CREP_ARRAY, CREP_ARRAY + MARGIN);
    n.map = stir_length(chance, CREP_MAP, CREP_MAP + MARGIN);
    return n;
}

/* ---- Reports ---- */

static int agree(void)
{
    return library.refusal == model.refusal && library.number == model.number && library.first == model.first
        && memcmp(&library.chip, &model.chip, sizeof model.chip) == 0
        && memcmp(library.array, model.array, sizeof model.array) == 0
        && memcmp(library.map, model.map, sizeof model.map) == 0;
}

/* Chip, array and answer are what the calls without a map make of the same start. */
static int as_plain(void)
{
    return library.refusal == plain.refusal && library.number == plain.number
        && memcmp(&library.chip, &plain.chip, sizeof plain.chip) == 0
        && memcmp(library.array, plain.array, sizeof plain.array) == 0;
}

static int same_answers(const struct side *other, const struct lengths *n)
{
    return memcmp(library.answers, other->answers, n->answers + MARGIN) == 0;
}

static int differ(const char *what, const struct side *other, const struct lengths *n)
{
    static const char *const titles[2] = { "library", "other" };
    const struct crep_chip *chips[2];

    chips[0] = &library.chip;
    chips[1] = &other->chip;
    tally_difference(what);
    printf("    array of %" PRIu64 " bytes, map of %" PRIu64 ", trace of %" PRIu64 ", answers of %" PRIu64
           "; the map was %strue at the start\n", n->array, n->map, n->trace, n->answers, is_true ? "" : "not ");
    printf("    returned: library %d, other %d; answer byte: library %d, other %d; first free: library %d, other %d\n",
           library.refusal, other->refusal, library.number, other->number, library.first, other->first);
    show_difference(stdout, "map", library.map, other->map, sizeof library.map);
    show_difference(stdout, "array", library.array, other->array, sizeof library.array);
    show_difference(stdout, "answers", library.answers, other->answers, n->answers + MARGIN);
    show_chips(stdout, titles, chips, 2);
    return 1;
}

/* ---- What the request says: the library's side is looked at, so that a mistake which both share is found too ---- */

static int bit_in(const uint8_t *map, unsigned sector)
{
    return map[sector / 8] >> sector % 8 & 1;
}

/* Whether reading the record of a sector finds that it is free. */
static int reads_free(unsigned sector)
{
    int32_t closed, opened, travel;
    uint8_t length, empty;

    kit_model.record_read(library.array + 32 * sector, 32, &closed, &opened, &travel, &length, &empty);
    return empty;
}

/* What a full reading finds: the map, and the first free sector. */
static int as_read(void)
{
    unsigned first = CREP_SECTORS, k;
    uint16_t found = 0;

    for (k = CREP_SECTORS; k-- > 0; ) {
        int is_free = reads_free(k);

        if (bit_in(library.map, k) == is_free)
            return 0;
        if (is_free)
            first = k;
    }
    return kit_library.map_first(library.map, CREP_MAP, &found) == 0 && found == first;
}

/* A program-done and a power-up say of the map that the bit of a busy chip's waiting sector is taken from the array,
 * whatever was written; all else says nothing. */
static void hold(const struct crep_chip *before)
{
    unsigned sector = before->wait_high * 256u + before->wait_low;
    int was, is;

    if (!before->busy || before->wait != 1)
        return;
    was = bit_in(held, sector);
    is = !reads_free(sector);
    if (was != is)
        held[sector / 8] ^= (uint8_t)(1u << sector % 8);
    tally.bits[2 * was + is]++;
}

/* The map is what the ends of cycles made of it, and true where it was true. */
static int as_held(const char *call, const struct lengths *n)
{
    if (memcmp(library.map, held, CREP_MAP) == 0 && (!is_true || as_read()))
        return 1;
    memcpy(plain.map, held, CREP_MAP);
    differ(call, &plain, n);
    printf("    both sides break it: the map beside what the ends of cycles say, or beside a full reading\n");
    return 0;
}

/* ---- Building, and the first free sector ---- */

static void do_first(struct side *side, uint64_t map_len)
{
    side->refusal = side->kit->map_first(side->map, map_len, &side->first);
}

static int compare_first(uint64_t map_len)
{
    struct lengths n = { 0, map_len, 0, 0 };

    do_first(&library, map_len);
    do_first(&model, map_len);
    if (!agree())
        return differ("crep_map_first", &model, &n);
    tally.maps++;
    tally.refusals[model.refusal]++;
    if (model.refusal == 0)
        tally.first[model.first == CREP_NO_SECTOR]++;
    return 0;
}

int compare_map_build(struct chance *chance)
{
    struct lengths n = any_lengths(chance);
    struct crep_chip chip;

    stir_chip(chance, &chip);
    same_start(chance, &chip);
    library.refusal = kit_library.map_build(library.array, n.array, library.map, n.map);
    model.refusal = kit_model.map_build(model.array, n.array, model.map, n.map);
    if (!agree())
        return differ("crep_map_build", &model, &n);
    tally.refusals[model.refusal]++;
    if (model.refusal == 0 && !as_read())
        return differ("what a full reading finds: both sides break it", &model, &n);
    return compare_first(stir_length(chance, CREP_MAP, CREP_MAP + MARGIN));
}

/* All used but for a bit or two, at the ends of the map often, or any bytes. */
int compare_map_first(struct chance *chance)
{
    static const uint32_t bytes[] = { 0, 1, 31, 32, 62, 63 };
    int holes = (int)chance_below(chance, 3);

    memset(library.map, 0xff, CREP_MAP);
    if (chance_once_in(chance, 4))
        chance_fill(chance, library.map, CREP_MAP);
    while (holes-- > 0) {
        uint8_t bit = (uint8_t)(1u << chance_below(chance, 8));

        library.map[chance_once_in(chance, 2) ? chance_of(chance, bytes, 6) : chance_below(chance, CREP_MAP)]
            &= (uint8_t)~bit;
    }
    memset(library.map + CREP_MAP, chance_once_in(chance, 2) ? 0x00 : 0xff, MARGIN);
    memcpy(model.map, library.map, sizeof model.map);
    library.first = model.first = (uint16_t)chance_word(chance);
    return compare_first(stir_length(chance, CREP_MAP, CREP_MAP + MARGIN));
}

/* ---- One event ---- */

static void one_event(struct side *side, const struct lengths *n, uint8_t event)
{
    side->refusal = side->kit->map_event(&side->chip, side->array, n->array, side->map, n->map, event, &side->number);
}

/* One event on all sides as they stand. Refused with 18, the call without a map is not. */
static int compare_one(const struct lengths *n, uint8_t event)
{
    struct crep_chip before = model.chip;

    one_event(&library, n, event);
    one_event(&model, n, event);
    if (!agree())
        return differ("crep_map_event", &model, n);
    tally.mapped++;
    tally.refusals[model.refusal]++;
    if (model.refusal == CREP_REFUSED_MAP_LENGTH)
        return 0;
    plain.refusal = plain.kit->event(&plain.chip, plain.array, n->array, event, &plain.number);
    if (!as_plain())
        return differ("crep_map_event beside crep_event", &plain, n);
    if (model.refusal == 0 && event > 7)
        hold(&before);
    return 0;
}

int compare_map_chips(struct chance *chance)
{
    struct lengths n = any_lengths(chance);
    uint8_t event = chance_once_in(chance, 2) ? CREP_SCL | CREP_SDA : stir_event(chance);
    struct crep_chip chip;

    stir_chip(chance, &chip);
    if (chance_once_in(chance, 4))
        stir_out_of_range(chance, &chip);
    if (chance_once_in(chance, chip.busy ? 2 : 20))
        event = stir_end(chance);
    if (chance_once_in(chance, 20))
        event = stir_no_event(chance);
    same_start(chance, &chip);
    return compare_one(&n, event) || !as_held("crep_map_event", &n);
}

/* ---- A power-up with any choices ---- */

static void one_power_up(struct side *side, const struct lengths *n, uint32_t choices)
{
    side->refusal = side->kit->map_power_up(&side->chip, side->array, n->array, side->map, n->map, choices,
                                            &side->number);
}

int compare_map_power_ups(struct chance *chance)
{
    struct lengths n = any_lengths(chance);
    uint32_t choices = stir_choices(chance);
    struct crep_chip chip;

    stir_chip(chance, &chip);
    chip.busy = !chance_once_in(chance, 4);
    if (chance_once_in(chance, 4))
        stir_out_of_range(chance, &chip);
    same_start(chance, &chip);
    one_power_up(&library, &n, choices);
    one_power_up(&model, &n, choices);
    if (!agree())
        return differ("crep_map_power_up", &model, &n);
    tally.mapped++;
    tally.refusals[model.refusal]++;
    if (model.refusal == CREP_REFUSED_MAP_LENGTH)
        return !as_held("crep_map_power_up", &n);
    plain.refusal = plain.kit->power_up(&plain.chip, plain.array, n.array, choices, &plain.number);
    if (!as_plain())
        return differ("crep_map_power_up beside crep_power_up", &plain, &n);
    if (model.refusal == 0)
        hold(&chip);
    return !as_held("crep_map_power_up", &n);
}

/* ---- Traces ---- */

/* With rubbish in the answers before. */
static void run_trace(struct side *side, const struct lengths *n)
{
    memset(side->answers, 0xee, n->answers + MARGIN);
    side->refusal = side->kit->map_run(&side->chip, side->array, n->array, side->map, n->map, trace, n->trace,
                                       side->answers, n->answers);
}

/* The trace on all sides as they stand. */
static int compare_run(const struct lengths *n)
{
    run_trace(&library, n);
    run_trace(&model, n);
    if (!agree() || !same_answers(&model, n))
        return differ("crep_map_run", &model, n);
    tally.refusals[model.refusal]++;
    if (model.refusal == CREP_REFUSED_MAP_LENGTH)
        return 0;
    memset(plain.answers, 0xee, n->answers + MARGIN);
    plain.refusal = plain.kit->run(&plain.chip, plain.array, n->array, trace, n->trace, plain.answers, n->answers);
    return as_plain() && same_answers(&plain, n) ? 0 : differ("crep_map_run beside crep_run", &plain, n);
}

/* The end of a cycle is the first event at times. */
static void spell(struct chance *chance, uint64_t len, int select)
{
    struct wire wire;

    wire_open(&wire, trace, len);
    if (chance_once_in(chance, 4))
        wire_event(&wire, stir_end(chance));
    if (chance_once_in(chance, 3))
        stir_trace(chance, &wire, select);
    else
        stir_cycles(chance, &wire, select);
}

/* Event by event, where ends of cycles tell the map, then the same trace whole, which has to end in the same map. */
static int compare_both_ways(struct chance *chance, const struct crep_chip *chip, const struct lengths *n)
{
    struct chance again = *chance;
    uint8_t told[CREP_MAP];
    uint64_t i;

    same_start(chance, chip);
    for (i = 0; i < n->trace; i++)
        if (compare_one(n, trace[i]))
            return 1;
    if (!as_held("crep_map_event", n))
        return 1;
    memcpy(told, held, CREP_MAP);
    *chance = again;
    same_start(chance, chip);
    if (compare_run(n))
        return 1;
    tally.mapped += n->trace;
    memcpy(held, told, CREP_MAP);
    return !as_held("crep_map_run", n);
}

int compare_map_events(struct chance *chance)
{
    struct lengths n = { CREP_ARRAY, CREP_MAP, chance_below(chance, LONGEST), 0 };
    struct crep_chip chip;

    first_chip(chance, &chip);
    spell(chance, n.trace, chip.select);
    n.answers = n.trace + chance_below(chance, 3);
    return compare_both_ways(chance, &chip, &n);
}

int compare_map_traces(struct chance *chance)
{
    struct lengths n = any_lengths(chance);
    struct crep_chip chip;
    uint32_t kind = chance_below(chance, 8);

    n.trace = chance_below(chance, 300);
    if (chance_once_in(chance, 30))
        n.trace = CREP_TRACE + chance_below(chance, 3);
    n.answers = n.trace + (kind == 0 && n.trace > 0 ? UINT64_MAX : chance_below(chance, 3));
    first_chip(chance, &chip);
    spell(chance, n.trace, chip.select);
    if (kind == 1)
        stir_out_of_range(chance, &chip);
    if (kind <= 3 && n.trace > 0)
        stir_bad_event(chance, trace, n.trace);
    same_start(chance, &chip);
    if (compare_run(&n))
        return 1;
    if (model.refusal == 0)
        return is_true && !as_read() ? differ("what a full reading finds: both sides break it", &plain, &n) : 0;
    return !as_held("what a refused crep_map_run leaves", &n);
}

/* ---- A gate added: its record is sent to the first free sector of a true map, and cut off at times ---- */

/* A chip that takes it, most times; the sector may be locked. */
static void ready(struct chance *chance, struct crep_chip *chip)
{
    new_chip(chance, chip);
    chip->bl = (uint8_t)chance_below(chance, 4);
    chip->rpel = chance_once_in(chance, 10);
    chip->busy = chance_once_in(chance, 10);
}

/* Whether the sector is used now: a record was stored, and the end of its cycle wrote all of it or half. */
static int added(const struct lengths *n)
{
    return CREP_NOTE(library.answers[n->trace - 2]) == CREP_NOTE_STORED && trace[n->trace - 1] != CREP_CUT_NONE;
}

int compare_map_send(struct chance *chance)
{
    static const uint8_t label[] = "NORTH";
    struct lengths n = { CREP_ARRAY, CREP_MAP, 0, 0 };
    struct crep_chip chip;
    uint8_t record[CREP_RECORD];
    uint16_t gate, next, events;

    ready(chance, &chip);
    kit_model.record_write(record, sizeof record, -1, (int32_t)chance_below(chance, 30000), label, 5);
    same_start(chance, &chip);
    kit_model.map_build(model.array, CREP_ARRAY, model.map, CREP_MAP);
    memcpy(library.map, model.map, CREP_MAP);
    is_true = 1;
    if (compare_first(CREP_MAP))
        return 1;
    gate = library.first;
    if (kit_library.send(chip.part, chip.select, gate, record, sizeof record, trace, sizeof trace, &events) != 0)
        return gate == CREP_NO_SECTOR ? 0 : differ("crep_send to the first free sector", &model, &n);
    n.trace = n.answers = events;
    trace[n.trace - 1] = stir_end(chance);
    if (compare_run(&n))
        return 1;
    if (!as_read())
        return differ("what a full reading finds: both sides break it", &plain, &n);
    do_first(&library, CREP_MAP);
    next = library.first;
    if ((next > gate) != added(&n) || next < gate)
        return differ("the first free sector after a gate was added", &plain, &n);
    return 0;
}
