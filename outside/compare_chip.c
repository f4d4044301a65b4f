/* Compares new chips, events, power-ups, traces and recoveries, and holds the library to what the notes and the
 * requests for power cuts and for the part without a register say. */
#include <inttypes.h>
#include <stdio.h>
#include <string.h>

#include "compare.h"
#include "kit.h"
#include "show.h"
#include "stir.h"
#include "tally.h"
#include "tuned.h"

#define MARGIN 16                       /* bytes past a buffer's end that must stay */
#define LONG_TRACE (CREP_TRACE + 2)     /* longest trace lent; its answers may be longer by 2 */

/* One side of the comparison: all that a call may change, and what it returned. */
struct side {
    const struct kit *kit;
    struct crep_chip chip;
    uint8_t array[CREP_ARRAY + MARGIN];
    uint8_t answers[LONG_TRACE + 2 + MARGIN];
    uint8_t refusal, number;            /* number: the answer byte, or the pulses */
};

static struct side library = { .kit = &kit_library };
static struct side model = { .kit = &kit_model };
static uint8_t trace[LONG_TRACE];
static uint8_t held[CREP_ARRAY];        /* the array as the ends of cycles tell it */
static struct crep_chip told;           /* what waits as the notes tell it; PPEN and BL in force */

/* Gives both sides the same chip, array and rubbish in what is to be written. */
static void same_start(struct chance *chance, const struct crep_chip *chip)
{
    stir_array(chance, library.array);
    memset(library.array + CREP_ARRAY, 0x77, MARGIN);
    memcpy(model.array, library.array, sizeof model.array);
    memcpy(held, library.array, CREP_ARRAY);
    library.chip = model.chip = told = *chip;
    library.number = model.number = chance_byte(chance);
}

static int agree(void)
{
    return library.refusal == model.refusal && library.number == model.number
        && memcmp(&library.chip, &model.chip, sizeof model.chip) == 0
        && memcmp(library.array, model.array, sizeof model.array) == 0;
}

/* Prints both sides beside the chip before the call. */
static void show_sides(const struct crep_chip *before, const char *number)
{
    static const char *const titles[3] = { "before", "library", "model" };
    const struct crep_chip *chips[3];

    chips[0] = before;
    chips[1] = &library.chip;
    chips[2] = &model.chip;
    printf("    returned: library %d, model %d\n", library.refusal, model.refusal);
    printf("    %s: library %d, model %d\n", number, library.number, model.number);
    show_difference(stdout, "array", library.array, model.array, sizeof model.array);
    show_chips(stdout, titles, chips, 3);
}

static int differ_new(int part, int select)
{
    struct crep_chip none;

    memset(&none, 0, sizeof none);
    tally_difference("crep_new");
    printf("    part %d, select %d\n", part, select);
    show_sides(&none, "number");
    return 1;
}

int compare_new(void)
{
    int part, select;

    for (part = 0; part < 256; part++)
        for (select = 0; select < 256; select++) {
            memset(&library.chip, 0x55, sizeof library.chip);
            memset(&model.chip, 0xaa, sizeof model.chip);
            library.refusal = crep_new(&library.chip, (uint8_t)part, (uint8_t)select);
            model.refusal = kit_model.make(&model.chip, (uint8_t)part, (uint8_t)select);
            tally.refusals[model.refusal]++;
            if (!agree())
                return differ_new(part, select);
        }
    return 0;
}

/* ---- What the notes and the request for power cuts say ---- */

/* A note: 1 that the loaded places of the counter's sector wait, 5 all of them with the spoil byte, 2 the bits of the
 * register byte. No sample writes the array. */
static void tell(const struct crep_chip *before, int note)
{
    unsigned sector = (before->counter_high * 256u + before->counter_low) / 32, i;

    if (note == CREP_NOTE_REGISTER) {
        told.wait = 2;
        told.wait_ppen = before->load[0] >> 7;
        told.wait_bl = before->load[0] >> 3 & 3;
    }
    if (note != CREP_NOTE_STORED && note != CREP_NOTE_NOT_32)
        return;
    told.wait = 1;
    told.wait_high = (uint8_t)(sector / 256);
    told.wait_low = (uint8_t)sector;
    for (i = 0; i < 32; i++) {
        told.wait_places[i] = note == CREP_NOTE_NOT_32 || before->places[i];
        told.wait_bytes[i] = note == CREP_NOTE_NOT_32 ? before->spoil : before->load[i];
    }
}

/* The end of a cycle: what waits is written where it is chosen. */
static void hold(uint32_t choices)
{
    unsigned sector = (told.wait_high * 256u + told.wait_low) * 32, i;

    for (i = 0; told.wait == 1 && i < 32; i++)
        if (told.wait_places[i] && choices >> i & 1)
            held[sector + i] = told.wait_bytes[i];
    if (told.wait == 2 && choices & 1) {
        told.ppen = told.wait_ppen;
        told.bl = told.wait_bl;
    }
}

/* How many of the waiting places are chosen: 0 none, 1 some, 2 all. */
static int share(const struct crep_chip *chip, uint32_t choices)
{
    int i, waiting = 0, taken = 0;

    for (i = 0; i < 32; i++) {
        waiting += chip->wait_places[i];
        taken += chip->wait_places[i] && choices >> i & 1;
    }
    return taken == 0 ? 0 : taken < waiting ? 1 : 2;
}

/* A program-done writes all of it, and an idle chip's wait stays. */
static void hold_done(const struct crep_chip *before)
{
    if (!before->busy) {
        tally.dones[3] += before->wait != 0;
        return;
    }
    tally.dones[before->wait == 0 ? 2 : before->wait - 1]++;
    hold(0xffffffff);
    told.wait = 0;
}

/* A power-up writes by its choices, and an idle chip's wait is dropped. */
static void hold_cut(const struct crep_chip *before, uint32_t choices)
{
    if (!before->busy)
        tally.cuts[6] += before->wait != 0;
    else if (before->wait == 1)
        tally.cuts[share(before, choices)]++;
    else
        tally.cuts[before->wait == 0 ? 5 : 3 + (choices & 1)]++;
    if (before->busy)
        hold(choices);
    told.wait = 0;
}

static void hold_event(const struct crep_chip *before, uint8_t event, int note)
{
    static const uint32_t choices[] = { 0xffffffff, 0, 0x0000ffff };

    if (event < 8)
        tell(before, note);
    else if (event == 8)
        hold_done(before);
    else
        hold_cut(before, choices[event - 9]);
}

/* The library's side is looked at, so that a write beside all this which both sides share is found too. */
static int as_held(void)
{
    if (memcmp(library.array, held, CREP_ARRAY) == 0 && library.chip.wait == told.wait && library.chip.ppen == told.ppen
        && library.chip.bl == told.bl)
        return 1;
    tally_difference("what notes and ends of cycles say: both sides break it");
    printf("    wait, PPEN, BL: library %d, %d, %d, said %d, %d, %d\n", library.chip.wait, library.chip.ppen,
           library.chip.bl, told.wait, told.ppen, told.bl);
    show_difference(stdout, "array, with what is said as the model's", library.array, held, CREP_ARRAY);
    return 0;
}

/* ---- What the request for the part without a register says ---- */

/* A STOP that ends a load: the line rises with SCL high and one bit of a data byte received. */
static int ends_a_load(const struct crep_chip *before, uint8_t event)
{
    return before->phase == CREP_PHASE_DATA && before->bits == 1 && before->count > 0 && before->scl && !before->line
        && (event | CREP_PIN) == (CREP_SCL | CREP_SDA | CREP_PIN);
}

/* The fall that takes a data byte. */
static int takes_data(const struct crep_chip *before, uint8_t event)
{
    return before->phase == CREP_PHASE_DATA && before->bits == 8 && before->scl && event < 8 && !(event & CREP_SCL);
}

/* An X24F129: the end of a load is note 4 from 3000h on with the pin high in its own sample, whatever the count, else 1
 * for 32 bytes and 5 for others; no other event has these, and none 2, 3 or 6. Data is acknowledged. No event sets the
 * mark. */
static int as_asked(const struct crep_chip *before, uint8_t event, int note)
{
    int locked = (event & CREP_PIN) && before->counter_high >= 0x30;

    if (library.chip.mark > before->mark)
        return 0;
    if (!before->busy && takes_data(before, event) && library.chip.phase != CREP_PHASE_ACK_BYTE)
        return 0;
    if (!before->busy && ends_a_load(before, event))
        return note == (locked ? CREP_NOTE_LOCKED : before->count == 32 ? CREP_NOTE_STORED : CREP_NOTE_NOT_32);
    return note == CREP_NOTE_NONE || note == CREP_NOTE_DROPPED;
}

/* ---- One event ---- */

static void one_event(struct side *side, uint64_t array_len, uint8_t event)
{
    side->refusal = side->kit->event(&side->chip, side->array, array_len, event, &side->number);
}

/* Whether an event led from one phase to another. */
static int went(const struct crep_chip *before, int from, int to)
{
    return before->phase == from && model.chip.phase == to;
}

/* On an X24F129: the STOPs of its loads, and where another part would look at the register or at the mark. */
static void count_bare(const struct crep_chip *before, uint8_t event, int note)
{
    static const unsigned first_locked[4] = { 0x4000, 0x3000, 0x2000, 0x0000 };
    unsigned counter = before->counter_high * 256u + before->counter_low;

    if (note == CREP_NOTE_STORED || note == CREP_NOTE_LOCKED || note == CREP_NOTE_NOT_32) {
        tally.stops[4 * (before->count != 32) + 2 * ((event & CREP_PIN) != 0) + (counter >= 0x3000)]++;
        tally.unread[5] += before->mark;
        tally.unread[6] += note != CREP_NOTE_LOCKED && counter / 32 * 32 >= first_locked[before->bl];
    }
    tally.unread[0] += went(before, CREP_PHASE_SECOND, CREP_PHASE_ACK_BYTE) && before->high == 0xff
        && before->byte == 0xff;
    tally.unread[1] += went(before, CREP_PHASE_DATA, CREP_PHASE_ACK_BYTE) && !before->pel;
    tally.unread[2] += went(before, CREP_PHASE_DATA, CREP_PHASE_ACK_BYTE) && before->mark;
    tally.unread[3] += went(before, CREP_PHASE_ACK_READ, CREP_PHASE_SENDING) && before->mark;
    tally.unread[4] += went(before, CREP_PHASE_SENDING, CREP_PHASE_WAITING) && before->mark;
}

static void count_event(const struct crep_chip *before, uint8_t event)
{
    int note = CREP_NOTE(model.number);

    tally.events++;
    tally.refusals[model.refusal]++;
    tally.notes[note]++;
    if (model.refusal == 0) {
        tally.phases[model.chip.phase]++;
        tally.waits[3 * model.chip.busy + model.chip.wait]++;
    }
    if (note == CREP_NOTE_NOT_32)
        tally.short_loads[before->spoil != 0xff]++;
    if (note == CREP_NOTE_LOCKED && before->part != CREP_X24128 && before->count != 32)
        tally.short_loads[2]++;
    if (before->part == CREP_X24F129 && model.refusal == 0)
        count_bare(before, event, note);
}

static int differ_event(const struct crep_chip *before, uint64_t array_len, uint8_t event, uint64_t at)
{
    tally_difference("crep_event");
    printf("    event ");
    show_event(stdout, event);
    printf(", number %" PRIu64 " of its trace, array of %" PRIu64 " bytes\n", at, array_len);
    if (at > 0)
        show_trace(stdout, trace, at > 72 ? at - 72 : 0, at);
    printf("    answer: library ");
    show_answer(stdout, library.number);
    printf(", model ");
    show_answer(stdout, model.number);
    printf("\n");
    show_sides(before, "answer byte");
    return 1;
}

/* Compares one event on both sides as they stand; `at` is its index in the trace. */
static int compare_one(uint64_t array_len, uint8_t event, uint64_t at)
{
    struct crep_chip before = model.chip;

    one_event(&library, array_len, event);
    one_event(&model, array_len, event);
    if (!agree())
        return differ_event(&before, array_len, event, at);
    count_event(&before, event);
    if (model.refusal == 0)
        hold_event(&before, event, CREP_NOTE(model.number));
    if (before.part == CREP_X24F129 && model.refusal == 0 && !as_asked(&before, event, CREP_NOTE(library.number))) {
        differ_event(&before, array_len, event, at);
        printf("    both sides break it: what an X24F129 does\n");
        return 1;
    }
    return 0;
}

int compare_chips(struct chance *chance)
{
    struct crep_chip chip;
    uint8_t event = stir_event(chance);
    uint64_t array_len = stir_length(chance, CREP_ARRAY, CREP_ARRAY + MARGIN);

    stir_chip(chance, &chip);
    if (chance_once_in(chance, 3))
        stir_out_of_range(chance, &chip);
    if (chance_once_in(chance, 4))
        event |= CREP_SCL | CREP_SDA;
    if (chance_once_in(chance, chip.busy ? 2 : 20))
        event = stir_end(chance);
    if (chance_once_in(chance, 20))
        event = stir_no_event(chance);
    same_start(chance, &chip);
    return compare_one(array_len, event, 0) || !as_held();
}

/* ---- A power-up with any choices ---- */

static void one_power_up(struct side *side, uint64_t array_len, uint32_t choices)
{
    side->refusal = side->kit->power_up(&side->chip, side->array, array_len, choices, &side->number);
}

/* In standby with SCL low and the line high, nothing waiting; part, select, PPEN and BL in force and spoil stay. */
static int powered_up(const struct crep_chip *before)
{
    struct crep_chip wanted;

    memset(&wanted, 0, sizeof wanted);
    wanted.part = before->part;
    wanted.select = before->select;
    wanted.ppen = told.ppen;
    wanted.bl = told.bl;
    wanted.spoil = before->spoil;
    wanted.line = 1;
    return memcmp(&library.chip, &wanted, sizeof wanted) == 0 && library.number == 1;
}

static int differ_power_up(const char *what, const struct crep_chip *before, uint64_t array_len, uint32_t choices)
{
    tally_difference(what);
    printf("    choices %08" PRIx32 ", array of %" PRIu64 " bytes\n", choices, array_len);
    show_sides(before, "answer byte");
    return 1;
}

int compare_power_ups(struct chance *chance)
{
    uint64_t array_len = stir_length(chance, CREP_ARRAY, CREP_ARRAY + MARGIN);
    uint32_t choices = stir_choices(chance);
    struct crep_chip chip;

    stir_chip(chance, &chip);
    chip.busy = !chance_once_in(chance, 4);
    if (chance_once_in(chance, 4))
        stir_out_of_range(chance, &chip);
    same_start(chance, &chip);
    one_power_up(&library, array_len, choices);
    one_power_up(&model, array_len, choices);
    if (!agree())
        return differ_power_up("crep_power_up", &chip, array_len, choices);
    tally.power_ups++;
    tally.refusals[model.refusal]++;
    if (model.refusal)
        return !as_held();
    hold_cut(&chip, choices);
    if (!powered_up(&chip))
        return differ_power_up("what a power-up leaves: both sides break it", &chip, array_len, choices);
    return !as_held();
}

/* ---- Traces ---- */

typedef uint8_t runner(struct crep_chip *, uint8_t *, uint64_t, const uint8_t *, uint64_t, uint8_t *, uint64_t);

struct lengths {
    uint64_t array, trace, answers;
};

/* Runs a trace on one side, with rubbish in the answers before. */
static void run_trace(struct side *side, runner *run, const struct lengths *n)
{
    memset(side->answers, 0xee, n->answers + MARGIN);
    side->refusal = run(&side->chip, side->array, n->array, trace, n->trace, side->answers, n->answers);
}

static int differ_run(const char *call, const struct crep_chip *before, const struct lengths *n)
{
    uint64_t at = 0;

    tally_difference(call);
    printf("    array of %" PRIu64 " bytes, trace of %" PRIu64 ", answers of %" PRIu64 "\n", n->array, n->trace,
           n->answers);
    while (at < n->answers + MARGIN && library.answers[at] == model.answers[at])
        at++;
    if (at < n->answers + MARGIN)
        printf("    first answer that differs: %" PRIu64 ", library 0x%02x, model 0x%02x\n", at, library.answers[at],
               model.answers[at]);
    if (at < n->trace)
        show_trace(stdout, trace, at > 72 ? at - 72 : 0, at + 1);
    show_sides(before, "number");
    return 1;
}

/* Runs the trace by `run` and by the model from the same start, and compares all that either changed. */
static int compare_run(const char *call, runner *run, const struct crep_chip *chip, const struct lengths *n)
{
    run_trace(&library, run, n);
    run_trace(&model, kit_model.run, n);
    if (!agree() || memcmp(library.answers, model.answers, n->answers + MARGIN) != 0)
        return differ_run(call, chip, n);
    tally.refusals[model.refusal]++;
    return 0;
}

void new_chip(struct chance *chance, struct crep_chip *chip)
{
    uint8_t part = (uint8_t)chance_below(chance, 3), select = (uint8_t)chance_below(chance, 8);

    kit_model.make(chip, part, select);
}

/* A chip as new, or any chip in range that is in standby or not. */
static void first_chip(struct chance *chance, struct crep_chip *chip)
{
    new_chip(chance, chip);
    if (chance_once_in(chance, 2))
        stir_chip(chance, chip);
}

int compare_events(struct chance *chance)
{
    struct lengths n = { CREP_ARRAY, chance_below(chance, chance_once_in(chance, 100) ? CREP_TRACE + 1 : 3000), 0 };
    struct chance again;
    struct crep_chip chip;
    struct wire wire;
    uint64_t i;

    first_chip(chance, &chip);
    wire_open(&wire, trace, n.trace);
    stir_trace(chance, &wire, chip.select);
    n.answers = n.trace + chance_below(chance, 3);
    again = *chance;
    same_start(chance, &chip);
    for (i = 0; i < n.trace; i++)
        if (compare_one(CREP_ARRAY, trace[i], i))
            return 1;
    if (!as_held())
        return 1;
    *chance = again;
    same_start(chance, &chip);
    if (compare_run("crep_run", kit_library.run, &chip, &n))
        return 1;
    tally.traced += n.trace;
    *chance = again;
    same_start(chance, &chip);
    return compare_run("the tuned loop", tuned_run, &chip, &n);
}

int compare_traces(struct chance *chance)
{
    struct lengths n;
    struct crep_chip chip;
    struct wire wire;
    uint32_t kind = chance_below(chance, 8);

    n.trace = chance_below(chance, 200);
    if (chance_once_in(chance, 60))
        n.trace = CREP_TRACE - 1 + chance_below(chance, 4);
    n.answers = n.trace + (kind == 0 && n.trace > 0 ? UINT64_MAX : chance_below(chance, 3));
    n.array = stir_length(chance, CREP_ARRAY, CREP_ARRAY + MARGIN);
    stir_chip(chance, &chip);
    wire_open(&wire, trace, n.trace);
    stir_trace(chance, &wire, chip.select);
    if (kind == 1)
        stir_out_of_range(chance, &chip);
    if (kind <= 3 && n.trace > 0)
        stir_bad_event(chance, trace, n.trace);
    same_start(chance, &chip);
    return compare_run("crep_run", kit_library.run, &chip, &n);
}

/* The same chip with another register and another mark. */
static struct crep_chip twin_of(struct chance *chance, struct crep_chip chip)
{
    uint8_t bits = (uint8_t)(1 + chance_below(chance, 63));

    chip.ppen ^= bits >> 5;
    chip.bl ^= bits >> 3 & 3;
    chip.rpel ^= bits >> 2 & 1;
    chip.pel ^= bits >> 1 & 1;
    chip.mark ^= bits & 1;
    return chip;
}

/* Nothing of an X24F129's register is read: the library runs a trace on it and on its twin, with the same answers, and
 * chips that differ in register and mark alone. */
int compare_twins(struct chance *chance)
{
    struct lengths n = { CREP_ARRAY, chance_below(chance, 1000), 0 };
    struct crep_chip chip, twin;
    struct wire wire;

    first_chip(chance, &chip);
    chip.part = CREP_X24F129;
    twin = twin_of(chance, chip);
    wire_open(&wire, trace, n.trace);
    stir_trace(chance, &wire, chip.select);
    n.answers = n.trace;
    same_start(chance, &chip);
    model.chip = twin;
    run_trace(&library, kit_library.run, &n);
    run_trace(&model, kit_library.run, &n);
    twin = model.chip;
    model.chip.ppen = library.chip.ppen;
    model.chip.bl = library.chip.bl;
    model.chip.rpel = library.chip.rpel;
    model.chip.pel = library.chip.pel;
    model.chip.mark = library.chip.mark;
    if (agree() && memcmp(library.answers, model.answers, n.answers) == 0) {
        tally.twins[memcmp(&twin, &library.chip, sizeof twin) == 0]++;
        return 0;
    }
    model.chip = twin;
    return differ_run("crep_run on an X24F129 and, as the model, on its twin", &chip, &n);
}

/* ---- Recovery ---- */

/* A chip that holds the line, as noise leaves it, or any other. */
static void held_chip(struct chance *chance, struct crep_chip *chip)
{
    stir_chip(chance, chip);
    if (chance_once_in(chance, 2)) {
        chip->phase = (uint8_t)(CREP_PHASE_ACK_WRITE + chance_below(chance, 4));
        if (chance_once_in(chance, 2))
            chip->phase = CREP_PHASE_SENDING;
        chip->bits = (uint8_t)chance_below(chance, 8);
        chip->byte = chance_once_in(chance, 2) ? 0 : chance_byte(chance);
        chip->busy = 0;
    }
    if (chance_once_in(chance, 8))
        stir_out_of_range(chance, chip);
}

int compare_recovery(struct chance *chance)
{
    struct crep_chip chip;
    uint64_t array_len = stir_length(chance, CREP_ARRAY, CREP_ARRAY + MARGIN);
    uint8_t pin = (uint8_t)(chance_once_in(chance, 8) ? chance_byte(chance) : chance_below(chance, 2));

    held_chip(chance, &chip);
    same_start(chance, &chip);
    if (chance_once_in(chance, 2)) {
        memset(library.array, 0, CREP_ARRAY);
        memset(model.array, 0, CREP_ARRAY);
    }
    library.refusal = crep_recover(&library.chip, library.array, array_len, pin, &library.number);
    model.refusal = kit_model.recover(&model.chip, model.array, array_len, pin, &model.number);
    if (agree()) {
        tally.recoveries++;
        tally.refusals[model.refusal]++;
        tally.pulses[model.number]++;
        return 0;
    }
    tally_difference("crep_recover");
    printf("    pin %d, array of %" PRIu64 " bytes\n", pin, array_len);
    show_sides(&chip, "pulses");
    return 1;
}
