/* Compares the sender: the events that it writes, what they do to a chip, whole and cut off in the cycle, and what the
 * requests say they do. */
#include <inttypes.h>
#include <stdio.h>
#include <string.h>

#include "compare.h"
#include "kit.h"
#include "show.h"
#include "stir.h"
#include "tally.h"

#define ROOM 64                         /* longest record lent */
#define LONGEST (CREP_SEND + 64)        /* longest buffer lent for the events */
#define MARGIN 16                       /* bytes past it that must stay */

/* The message that sets PEL, 77 events, which is left out for an X24F129; in it and in the one with the record the
 * first clock that acknowledges, and their last events. */
enum { FIRST = 77, NINTH = 19, BYTE = 18, FIRST_STOP = 76, SECOND_STOP = 634 };

struct order {
    uint8_t part, select;
    uint16_t gate;
    uint64_t record_len, trace_len;
    uint8_t record[ROOM];
};

/* One side of the comparison: all that the call and the run of its events may change. */
struct side {
    const struct kit *kit;
    uint8_t record[ROOM], trace[LONGEST + MARGIN];
    uint16_t events;
    struct crep_chip chip;
    uint8_t array[CREP_ARRAY], answers[CREP_SEND];
    uint8_t refusal;
};

static struct side library = { .kit = &kit_library };
static struct side model = { .kit = &kit_model };

/* ---- What is asked for ---- */

/* The number of events is that of the part most times, else that of the other ones. */
static uint64_t usual_length(struct chance *chance, uint8_t part)
{
    int turned = chance_once_in(chance, 5);

    return (part == CREP_X24F129) != turned ? CREP_SEND_X24F129 : CREP_SEND;
}

/* Parts, gates and selects that are good most times, at the edges of their range often. */
static void stir_send(struct chance *chance, struct order *o)
{
    static const uint32_t gates[] = { 0, 1, 255, 256, 257, 383, 384, 510, 511, 511, 512, 513, 768, 1023, 65535 };
    static const uint32_t selects[] = { 7, 8, 8, 9, 15, 16, 128, 255 };
    static const uint32_t parts[] = { 2, 3, 3, 3, 4, 128, 254, 255 };

    o->part = (uint8_t)chance_below(chance, 3);
    if (chance_once_in(chance, 8))
        o->part = (uint8_t)chance_of(chance, parts, sizeof parts / sizeof parts[0]);
    o->gate = (uint16_t)chance_below(chance, 512);
    if (chance_once_in(chance, 2))
        o->gate = (uint16_t)chance_of(chance, gates, sizeof gates / sizeof gates[0]);
    o->select = (uint8_t)chance_below(chance, 8);
    if (chance_once_in(chance, 5))
        o->select = (uint8_t)chance_of(chance, selects, sizeof selects / sizeof selects[0]);
    o->record_len = stir_length(chance, CREP_RECORD, ROOM);
    o->trace_len = stir_length(chance, usual_length(chance, o->part), LONGEST);
    chance_fill(chance, o->record, ROOM);
    stir_record(chance, o->record);
}

/* A chip that is idle in standby, as the request asks for it most times, or beside that. */
static void standing_by(struct chance *chance, struct crep_chip *chip, const struct order *o)
{
    stir_chip(chance, chip);
    chip->busy = 0;
    chip->phase = CREP_PHASE_STANDBY;
    if (!chance_once_in(chance, 5))
        chip->part = o->part;
    chip->rpel = chance_once_in(chance, chip->part == CREP_X24F129 ? 2 : 20);
    chip->line = !chance_once_in(chance, 20);
    if (!chance_once_in(chance, 20))
        chip->select = o->select;
    if (!chance_once_in(chance, 20)) {
        chip->count = 0;
        memset(chip->places, 0, sizeof chip->places);
        memset(chip->load, 0, sizeof chip->load);
    }
}

/* ---- Reports ---- */

static void show_order(const struct order *o)
{
    printf("    part %d, select %d, gate %d, record of %" PRIu64 " bytes, buffer of %" PRIu64 "\n", o->part, o->select,
           o->gate, o->record_len, o->trace_len);
    printf("    returned: library %d, model %d; events: library %d, model %d\n", library.refusal, model.refusal,
           library.events, model.events);
    show_bytes(stdout, o->record, ROOM);
}

static int differ_send(const struct order *o)
{
    tally_difference("crep_send");
    show_order(o);
    show_difference(stdout, "record", library.record, model.record, ROOM);
    show_difference(stdout, "buffer", library.trace, model.trace, sizeof model.trace);
    return 1;
}

static int differ_run(const char *what, const struct order *o, const struct crep_chip *before)
{
    static const char *const titles[3] = { "before", "library", "model" };
    const struct crep_chip *chips[3];

    chips[0] = before;
    chips[1] = &library.chip;
    chips[2] = &model.chip;
    tally_difference(what);
    show_order(o);
    show_difference(stdout, "answers", library.answers, model.answers, CREP_SEND);
    show_difference(stdout, "array", library.array, model.array, CREP_ARRAY);
    show_chips(stdout, titles, chips, 3);
    return 1;
}

/* ---- What the request says ---- */

/* Whether a part has no register. */
static int bare(uint8_t part)
{
    return part == CREP_X24F129;
}

/* A chip for which it speaks, or one of a part for which the events are not. RPEL is not asked where it is not read. */
static int standing(const struct order *o, const struct crep_chip *chip)
{
    int i, loaded = chip->count;

    for (i = 0; i < 32; i++)
        loaded += chip->places[i] + chip->load[i];
    return chip->select == o->select && (bare(chip->part) || !chip->rpel) && chip->line && !loaded;
}

/* The events are the same for both parts with a register. */
static int as_asked(const struct order *o, const struct crep_chip *chip)
{
    return standing(o, chip) && bare(chip->part) == bare(o->part);
}

/* n bytes acknowledged from a message's start on. */
static int acknowledged(const uint8_t *answers, int n)
{
    int i, low = 0;

    for (i = 0; i < n; i++)
        low += !CREP_LINE(answers[NINTH + BYTE * i]);
    return low == n;
}

/* In n events: note `note` at event `at`, 0 elsewhere. */
static int noted(const uint8_t *answers, int n, int at, int note)
{
    int i;

    for (i = 0; i < n; i++)
        if (CREP_NOTE(answers[i]) != (i == at ? note : CREP_NOTE_NONE))
            return 0;
    return 1;
}

/* Note 3 at the end of the first message, where there is one, and `last` at that of the second, 0 elsewhere; each of
 * the 39 bytes acknowledged, or of the 35. */
static int answered(const struct order *o, const uint8_t *answers, int last)
{
    if (!bare(o->part)) {
        if (!noted(answers, FIRST, FIRST_STOP, CREP_NOTE_LATCH) || !acknowledged(answers, 4))
            return 0;
        answers += FIRST;
    }
    return noted(answers, CREP_SEND_X24F129, SECOND_STOP, last) && acknowledged(answers, 35);
}

/* A chip of zeros with the line high, but for part, select, PPEN, BL and spoil, which are as before. */
static struct crep_chip as_before(const struct crep_chip *before)
{
    struct crep_chip chip;

    memset(&chip, 0, sizeof chip);
    chip.part = before->part;
    chip.select = before->select;
    chip.ppen = before->ppen;
    chip.bl = before->bl;
    chip.spoil = before->spoil;
    chip.line = 1;
    return chip;
}

/* What waited in an idle chip: a sending that begins no cycle leaves it. */
static void keep_wait(struct crep_chip *chip, const struct crep_chip *before)
{
    chip->wait = before->wait;
    if (before->wait == 1) {
        chip->wait_high = before->wait_high;
        chip->wait_low = before->wait_low;
        memcpy(chip->wait_places, before->wait_places, 32);
        memcpy(chip->wait_bytes, before->wait_bytes, 32);
    }
    if (before->wait == 2) {
        chip->wait_ppen = before->wait_ppen;
        chip->wait_bl = before->wait_bl;
    }
}

/* Idle in standby with PEL 1, on an X24F129 as it was, and the sector's address, both wires high. */
static int left(const struct order *o, const struct crep_chip *before, int locked)
{
    struct crep_chip wanted = as_before(before);

    wanted.scl = 1;
    wanted.pel = bare(before->part) ? before->pel : 1;
    wanted.counter_high = (uint8_t)(o->gate / 8);
    wanted.counter_low = (uint8_t)(o->gate % 8 * 32);
    if (locked)
        keep_wait(&wanted, before);
    return memcmp(&library.chip, &wanted, sizeof wanted) == 0;
}

/* The pin is low, so that an X24F129 has nothing locked. */
static int is_locked(const struct order *o, const struct crep_chip *before)
{
    static const unsigned first_locked[4] = { 0x4000, 0x3000, 0x2000, 0x0000 };

    return !bare(before->part) && o->gate * 32u >= first_locked[before->bl];
}

/* The library's side is looked at, so that a mistake which both share is found too; `array` is what was before. */
static int promised(const struct order *o, const struct crep_chip *before, uint8_t *array)
{
    int locked = is_locked(o, before);

    if (!locked)
        memcpy(array + o->gate * 32u, o->record, CREP_RECORD);
    tally.locked[locked]++;
    tally.sent[before->part]++;
    return answered(o, library.answers, locked ? CREP_NOTE_LOCKED : CREP_NOTE_STORED)
        && left(o, before, locked) && memcmp(library.array, array, CREP_ARRAY) == 0;
}

/* The events for a part with a register on an X24F129: 02h is a load of one byte at 3FFFh, which spoils sector 511, and
 * the chip is busy until the program-done. Those for an X24F129 on another part are a message as any other. */
static int promised_crossed(const struct order *o, const struct crep_chip *before, uint8_t *array)
{
    struct crep_chip wanted = as_before(before);

    tally.sent[bare(o->part) ? 4 : 3]++;
    if (bare(o->part))
        return 1;
    memset(array + 0x3fe0, before->spoil, 32);
    wanted.scl = 1;
    wanted.pel = before->pel;
    wanted.counter_high = 0x3f;
    wanted.counter_low = 0xe0;
    return noted(library.answers, CREP_SEND, FIRST_STOP, CREP_NOTE_NOT_32) && acknowledged(library.answers, 4)
        && memcmp(&library.chip, &wanted, sizeof wanted) == 0 && memcmp(library.array, array, CREP_ARRAY) == 0;
}

/* Cut off before its program-done: the sector holds, byte by byte, old or new, and all beside it is kept. */
static int promised_cut(const struct order *o, const struct crep_chip *before, uint8_t *array, uint32_t choices)
{
    struct crep_chip wanted = as_before(before);
    int i, locked = is_locked(o, before);

    for (i = 0; !locked && i < CREP_RECORD; i++)
        if (choices >> i & 1)
            array[o->gate * 32 + i] = o->record[i];
    if (!locked)
        tally.cut_sends[choices == 0 ? 0 : choices != 0xffffffff ? 1 : 2]++;
    return memcmp(&library.chip, &wanted, sizeof wanted) == 0 && memcmp(library.array, array, CREP_ARRAY) == 0;
}

/* ---- The call, then the run ---- */

static void do_send(struct side *side, const struct order *o)
{
    memcpy(side->record, o->record, ROOM);
    side->refusal = side->kit->send(o->part, o->select, o->gate, side->record, o->record_len, side->trace, o->trace_len,
                                    &side->events);
}

/* The first n of its events. */
static void do_run(struct side *side, const struct crep_chip *chip, const uint8_t *array, uint64_t n)
{
    side->chip = *chip;
    memcpy(side->array, array, CREP_ARRAY);
    memset(side->answers, 0xee, sizeof side->answers);
    side->refusal = side->kit->run(&side->chip, side->array, CREP_ARRAY, side->trace, n, side->answers,
                                   sizeof side->answers);
}

static int same_run(void)
{
    return library.refusal == model.refusal && memcmp(&library.chip, &model.chip, sizeof model.chip) == 0
        && memcmp(library.array, model.array, CREP_ARRAY) == 0
        && memcmp(library.answers, model.answers, CREP_SEND) == 0;
}

static int compare_sent(struct chance *chance, const struct order *o)
{
    static uint8_t array[CREP_ARRAY];
    struct crep_chip chip;

    standing_by(chance, &chip, o);
    stir_array(chance, array);
    do_run(&library, &chip, array, library.events);
    do_run(&model, &chip, array, model.events);
    if (!same_run())
        return differ_run("crep_run on what crep_send wrote", o, &chip);
    if (as_asked(o, &chip) && (library.refusal || !promised(o, &chip, array)))
        return differ_run("what crep_send promises: both sides break it", o, &chip);
    if (standing(o, &chip) && !as_asked(o, &chip) && !promised_crossed(o, &chip, array))
        return differ_run("what crep_send does to another part: both sides break it", o, &chip);
    return 0;
}

/* All but the program-done, then a power-up. */
static void do_cut(struct side *side, const struct crep_chip *chip, const uint8_t *array, uint32_t choices)
{
    uint8_t answer;

    do_run(side, chip, array, side->events - 1u);
    if (side->refusal == 0)
        side->refusal = side->kit->power_up(&side->chip, side->array, CREP_ARRAY, choices, &answer);
}

static int compare_cut(struct chance *chance, const struct order *o)
{
    static uint8_t array[CREP_ARRAY];
    uint32_t choices = stir_choices(chance);
    struct crep_chip chip;

    standing_by(chance, &chip, o);
    stir_array(chance, array);
    do_cut(&library, &chip, array, choices);
    do_cut(&model, &chip, array, choices);
    if (!same_run())
        return differ_run("crep_power_up before the end of what crep_send wrote", o, &chip);
    if (as_asked(o, &chip) && (library.refusal || !promised_cut(o, &chip, array, choices)))
        return differ_run("what crep_send promises where it is cut off: both sides break it", o, &chip);
    return 0;
}

int compare_send(struct chance *chance)
{
    struct order o;

    stir_send(chance, &o);
    chance_fill(chance, library.trace, sizeof library.trace);
    memcpy(model.trace, library.trace, sizeof model.trace);
    library.events = model.events = (uint16_t)chance_word(chance);
    do_send(&library, &o);
    do_send(&model, &o);
    if (library.refusal != model.refusal || library.events != model.events
        || memcmp(library.record, model.record, ROOM) != 0
        || memcmp(library.trace, model.trace, sizeof model.trace) != 0)
        return differ_send(&o);
    tally.sends++;
    tally.refusals[model.refusal]++;
    return model.refusal ? 0 : compare_sent(chance, &o) || compare_cut(chance, &o);
}
