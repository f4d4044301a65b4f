/* Compares the writing and reading of records, the change of their limits, and the name shown. */
#include <inttypes.h>
#include <stdio.h>
#include <string.h>

#include "compare.h"
#include "kit.h"
#include "show.h"
#include "stir.h"
#include "tally.h"

#define ROOM 64                         /* longest buffer lent */

/* ---- Writing, and changing the limits ---- */

struct order {
    uint64_t record_len, label_len;
    int32_t closed, opened;
    uint8_t label[ROOM], before[ROOM];
};

typedef uint8_t writer(const struct kit *, const struct order *, uint8_t *record);

static uint8_t do_write(const struct kit *kit, const struct order *o, uint8_t *record)
{
    return kit->record_write(record, o->record_len, o->closed, o->opened, o->label, o->label_len);
}

static uint8_t do_limits(const struct kit *kit, const struct order *o, uint8_t *record)
{
    return kit->record_limits(record, o->record_len, o->closed, o->opened);
}

static void show_titled(const char *title, const uint8_t *bytes, uint64_t n)
{
    printf("    %s\n", title);
    show_bytes(stdout, bytes, n);
}

/* Runs the order on both sides, on the same bytes before, and compares all that either wrote. */
static int compare_written(const char *call, writer *write, const struct order *o)
{
    uint8_t records[2][ROOM], library, model;

    memcpy(records[0], o->before, ROOM);
    memcpy(records[1], o->before, ROOM);
    library = write(&kit_library, o, records[0]);
    model = write(&kit_model, o, records[1]);
    if (library == model && memcmp(records[0], records[1], ROOM) == 0) {
        tally.records++;
        tally.refusals[model]++;
        return 0;
    }
    tally_difference(call);
    printf("    returned: library %d, model %d\n", library, model);
    printf("    closed %" PRId32 ", opened %" PRId32 ", record of %" PRIu64 " bytes, label of %" PRIu64 "\n", o->closed,
           o->opened, o->record_len, o->label_len);
    show_titled("label", o->label, o->label_len);
    show_difference(stdout, "record", records[0], records[1], ROOM);
    show_titled("before", o->before, ROOM);
    show_titled("library", records[0], ROOM);
    show_titled("model", records[1], ROOM);
    return 1;
}

/* Lengths and limits, equal ones at times; no label, rubbish before. */
static void stir_order(struct chance *chance, struct order *o)
{
    o->record_len = stir_length(chance, 32, ROOM);
    o->label_len = 0;
    o->closed = stir_limit(chance);
    o->opened = chance_once_in(chance, 8) ? o->closed : stir_limit(chance);
    chance_fill(chance, o->before, ROOM);
}

int compare_record_write(struct chance *chance)
{
    struct order o;

    stir_order(chance, &o);
    o.label_len = chance_once_in(chance, 4) ? stir_length(chance, 24, ROOM) : chance_below(chance, 25);
    chance_fill(chance, o.label, ROOM);
    stir_label(chance, o.label, o.label_len);
    return compare_written("crep_record_write", do_write, &o);
}

int compare_record_limits(struct chance *chance)
{
    struct order o;

    stir_order(chance, &o);
    stir_record(chance, o.before);
    return compare_written("crep_record_limits", do_limits, &o);
}

/* ---- Reading ---- */

struct found {
    int32_t closed, opened, travel;
    uint8_t refusal, label_len, free_record;
};

static struct found do_read(const struct kit *kit, const uint8_t *record, uint64_t n)
{
    struct found f = { 111, 222, 333, 0, 44, 55 };

    f.refusal = kit->record_read(record, n, &f.closed, &f.opened, &f.travel, &f.label_len, &f.free_record);
    return f;
}

static int same_found(const struct found *a, const struct found *b)
{
    return a->closed == b->closed && a->opened == b->opened && a->travel == b->travel && a->refusal == b->refusal
        && a->label_len == b->label_len && a->free_record == b->free_record;
}

static void show_found(const char *name, const struct found *f)
{
    printf("    %-8s returned %d, closed %" PRId32 ", opened %" PRId32 ", travel %" PRId32, name, f->refusal, f->closed,
           f->opened, f->travel);
    printf(", label length %d, free %d\n", f->label_len, f->free_record);
}

int compare_record_read(struct chance *chance)
{
    uint8_t record[ROOM], before[ROOM];
    uint64_t n = stir_length(chance, 32, ROOM);
    struct found library, model;

    chance_fill(chance, record, ROOM);
    stir_record(chance, record);
    memcpy(before, record, ROOM);
    library = do_read(&kit_library, record, n);
    model = do_read(&kit_model, before, n);
    if (same_found(&library, &model) && memcmp(record, before, ROOM) == 0) {
        tally.records++;
        tally.refusals[model.refusal]++;
        return 0;
    }
    tally_difference("crep_record_read");
    show_found("library", &library);
    show_found("model", &model);
    printf("    record of %" PRIu64 " bytes%s\n", n,
           memcmp(record, before, ROOM) ? ", which the library has written" : "");
    show_bytes(stdout, before, ROOM);
    return 1;
}

/* ---- The name shown ---- */

struct shown {
    uint64_t start, len;
    uint8_t refusal, from_record;
};

static struct shown do_name(const struct kit *kit, const uint8_t *record, uint64_t n, const uint8_t *standard,
                            uint64_t m)
{
    struct shown s = { 111, 222, 0, 33 };

    s.refusal = kit->record_name(record, n, standard, m, &s.start, &s.len, &s.from_record);
    return s;
}

static void show_shown(const char *name, const struct shown *s)
{
    printf("    %-8s returned %d, start %" PRIu64 ", length %" PRIu64 ", from the record %d\n", name, s->refusal,
           s->start, s->len, s->from_record);
}

/* Which of the three kinds of tally.shown a name is. */
static int kind_of(const struct shown *s, const uint8_t *record)
{
    uint64_t i;

    if (!s->from_record)
        return 0;
    for (i = s->start; i < s->start + s->len; i++)
        if (record[i] > 0x7e)
            return 2;
    return 1;
}

int compare_name(struct chance *chance)
{
    uint8_t record[ROOM], standard[ROOM];
    uint64_t n = stir_length(chance, 32, ROOM), m = chance_below(chance, ROOM + 1);
    struct shown library, model;

    chance_fill(chance, record, ROOM);
    stir_record(chance, record);
    chance_fill(chance, standard, ROOM);
    library = do_name(&kit_library, record, n, standard, m);
    model = do_name(&kit_model, record, n, standard, m);
    if (library.start == model.start && library.len == model.len && library.refusal == model.refusal
        && library.from_record == model.from_record) {
        tally.names++;
        tally.shown[kind_of(&model, record)]++;
        return 0;
    }
    tally_difference("crep_name");
    show_shown("library", &library);
    show_shown("model", &model);
    printf("    standard label of %" PRIu64 " bytes, record of %" PRIu64 " bytes\n", m, n);
    show_bytes(stdout, record, ROOM);
    return 1;
}
