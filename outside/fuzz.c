/*
 * Lends the library buffers of any length and sees that it stays within them. No buffer has a byte to spare:
 *
 *     fuzz [-s SEED] [-n CALLS]            each ends at, or begins after, a page that may not be touched, and what is
 *                                          lent as const stands in pages that may not be written: a stray access ends
 *                                          the program with a report
 *     fuzz -m [-s SEED] [-n CALLS]         each is a malloc of its exact length, for valgrind or a sanitizer
 *
 * Answers are not looked at here but for their range; the comparison does that.
 */
#define _DEFAULT_SOURCE
#include <signal.h>
#include <stdio.h>
#include <stdlib.h>
#include <string.h>
#include <sys/mman.h>
#include <unistd.h>

#include "crepulanter.h"
#include "stir.h"

#define PAGE 4096u
#define BUFFERS 8
#define MOST (CREP_TRACE + 2)           /* longest buffer */
#define PAGES ((MOST + PAGE - 1) / PAGE)

/* A lent buffer; in malloc mode `area` is null. */
struct buffer {
    uint8_t *area;                      /* PAGES pages between two that may not be touched */
    uint8_t *bytes;
    size_t len;
};

static struct buffer buffers[BUFFERS];
static int by_malloc;
static const char *volatile doing = "nothing";

static void stop_badly(const char *why)
{
    fprintf(stderr, "fuzz: %s in %s\n", why, doing);
    exit(1);
}

static void on_fault(int signal_number)
{
    static const char text[] = "fuzz: an access outside a lent buffer, or a write to a const one, in ";
    ssize_t said = write(2, text, sizeof text - 1);

    (void)signal_number;
    said += write(2, doing, strlen(doing));
    said += write(2, "\n", 1);
    _exit(said > 0 ? 1 : 2);
}

static void make_areas(void)
{
    int i;

    for (i = 0; i < BUFFERS; i++) {
        uint8_t *all = mmap(NULL, (PAGES + 2) * PAGE, PROT_NONE, MAP_PRIVATE | MAP_ANONYMOUS, -1, 0);

        if (all == MAP_FAILED || mprotect(all + PAGE, PAGES * PAGE, PROT_READ | PROT_WRITE) != 0)
            stop_badly("no memory");
        buffers[i].area = all + PAGE;
    }
}

/* The i-th buffer, `len` bytes, against the page behind it or the one before it. */
static uint8_t *lend(struct chance *chance, int i, size_t len)
{
    struct buffer *b = &buffers[i];

    b->len = len;
    if (by_malloc)
        b->bytes = malloc(len ? len : 1);
    else
        b->bytes = chance_once_in(chance, 2) ? b->area : b->area + PAGES * PAGE - len;
    if (b->bytes == NULL)
        stop_badly("no memory");
    /* malloc(0) may be null: an empty buffer is the end of one byte, so that touching it is found too */
    return b->bytes + (by_malloc && len == 0);
}

/* What is lent as const may not be written from now on. */
static void keep(int i)
{
    if (!by_malloc && mprotect(buffers[i].area, PAGES * PAGE, PROT_READ) != 0)
        stop_badly("mprotect fails");
}

static void take_back(int i)
{
    if (by_malloc)
        free(buffers[i].bytes);
    else if (mprotect(buffers[i].area, PAGES * PAGE, PROT_READ | PROT_WRITE) != 0)
        stop_badly("mprotect fails");
}

static void take_all_back(int n)
{
    while (n-- > 0)
        take_back(n);
}

/* A chip in range, out of it, or of random bytes. */
static struct crep_chip *lend_chip(struct chance *chance, int i)
{
    uint8_t *bytes = lend(chance, i, sizeof(struct crep_chip));
    struct crep_chip chip;

    stir_chip(chance, &chip);
    if (chance_once_in(chance, 3))
        chip.busy = 1;
    if (chance_once_in(chance, 4))
        stir_out_of_range(chance, &chip);
    if (chance_once_in(chance, 10))
        chance_fill(chance, (uint8_t *)&chip, sizeof chip);
    memcpy(bytes, &chip, sizeof chip);
    return (struct crep_chip *)(void *)bytes;
}

/* An array of 16384 bytes, or 0, 16383, 16385 or another length. */
static uint8_t *lend_array(struct chance *chance, int i, size_t *len)
{
    uint8_t *array;

    *len = stir_length(chance, CREP_ARRAY, CREP_ARRAY + 100);
    array = lend(chance, i, *len);
    memset(array, chance_byte(chance), *len);
    return array;
}

static void check(int good)
{
    if (!good)
        stop_badly("an answer out of its range");
}

static void fuzz_new(struct chance *chance)
{
    struct crep_chip *chip = lend_chip(chance, 0);
    uint8_t part = (uint8_t)(chance_once_in(chance, 2) ? chance_byte(chance) : chance_below(chance, 4));

    doing = "crep_new";
    check(crep_new(chip, part, (uint8_t)chance_below(chance, 10)) <= 14);
    take_all_back(1);
}

/* What one event and a recovery are lent. */
struct lent {
    struct crep_chip *chip;
    uint8_t *array, *number;
    size_t array_len;
};

static struct lent lend_three(struct chance *chance)
{
    struct lent l;

    l.chip = lend_chip(chance, 0);
    l.array = lend_array(chance, 1, &l.array_len);
    l.number = lend(chance, 2, 1);
    return l;
}

/* The ends of a cycle as often as all other events: they alone write the array. */
static uint8_t any_event(struct chance *chance)
{
    if (chance_once_in(chance, 20))
        return chance_byte(chance);
    return chance_once_in(chance, 2) ? stir_end(chance) : stir_event(chance);
}

static void fuzz_event(struct chance *chance)
{
    struct lent l = lend_three(chance);
    uint8_t event = any_event(chance);

    doing = "crep_event";
    check(crep_event(l.chip, l.array, l.array_len, event, l.number) <= 6 && *l.number <= 15);
    take_all_back(3);
}

static void fuzz_power_up(struct chance *chance)
{
    struct lent l = lend_three(chance);

    doing = "crep_power_up";
    check(crep_power_up(l.chip, l.array, l.array_len, stir_choices(chance), l.number) <= 2 && *l.number == 1);
    take_all_back(3);
}

/* What a trace is lent. */
struct lent_run {
    struct crep_chip *chip;
    uint8_t *array, *trace, *answers;
    size_t array_len, trace_len, answers_len;
};

static struct lent_run lend_run(struct chance *chance)
{
    struct lent_run l;
    struct wire wire;
    size_t n = chance_below(chance, 2000), m;

    if (chance_once_in(chance, 40))
        n = CREP_TRACE - 1 + chance_below(chance, 4);
    m = chance_once_in(chance, 4) ? chance_below(chance, (uint32_t)n + 2) : n;
    l.chip = lend_chip(chance, 0);
    l.array = lend_array(chance, 1, &l.array_len);
    l.trace_len = n;
    l.answers_len = m > MOST ? MOST : m;
    l.trace = lend(chance, 2, l.trace_len);
    l.answers = lend(chance, 3, l.answers_len);
    wire_open(&wire, l.trace, n);
    stir_trace(chance, &wire, l.chip->select & 7);
    if (n > 0 && chance_once_in(chance, 6))
        chance_put(chance, l.trace, n, chance_byte(chance));
    keep(2);
    return l;
}

static void fuzz_run(struct chance *chance)
{
    struct lent_run l = lend_run(chance);

    doing = "crep_run";
    check(crep_run(l.chip, l.array, l.array_len, l.trace, l.trace_len, l.answers, l.answers_len) <= 6);
    take_all_back(4);
}

static void fuzz_recover(struct chance *chance)
{
    struct lent l = lend_three(chance);

    doing = "crep_recover";
    check(crep_recover(l.chip, l.array, l.array_len, chance_byte(chance), l.number) <= 2 && *l.number <= 10);
    take_all_back(3);
}

static void fuzz_record_write(struct chance *chance)
{
    size_t n = stir_length(chance, 32, 100), m = chance_once_in(chance, 3) ? stir_length(chance, 24, 100)
                                                                            : chance_below(chance, 25);
    uint8_t *record = lend(chance, 0, n), *label = lend(chance, 1, m);
    int32_t closed = stir_limit(chance), opened = stir_limit(chance);

    stir_label(chance, label, m);
    keep(1);
    doing = "crep_record_write";
    check(crep_record_write(record, n, closed, opened, label, m) <= 11);
    take_all_back(2);
}

/* A record cut or lengthened to a length that chance gives. */
static uint8_t *lend_record(struct chance *chance, int i, size_t *len)
{
    uint8_t whole[100], *record;

    *len = stir_length(chance, 32, sizeof whole);
    chance_fill(chance, whole, sizeof whole);
    stir_record(chance, whole);
    record = lend(chance, i, *len);
    memcpy(record, whole, *len);
    return record;
}

static void fuzz_record_limits(struct chance *chance)
{
    size_t n;
    uint8_t *record = lend_record(chance, 0, &n);
    int32_t closed = stir_limit(chance), opened = stir_limit(chance);

    doing = "crep_record_limits";
    check(crep_record_limits(record, n, closed, opened) <= 14);
    take_all_back(1);
}

static void fuzz_record_read(struct chance *chance)
{
    size_t n;
    uint8_t *record = lend_record(chance, 0, &n);
    int32_t *limits[3];
    uint8_t *length = lend(chance, 4, 1), *empty = lend(chance, 5, 1);
    int i;

    for (i = 0; i < 3; i++)
        limits[i] = (int32_t *)(void *)lend(chance, 1 + i, sizeof(int32_t));
    keep(0);
    doing = "crep_record_read";
    check(crep_record_read(record, n, limits[0], limits[1], limits[2], length, empty) <= 14);
    check(*length <= 24 && *empty <= 1 && *limits[2] == *limits[1] - *limits[0]);
    take_all_back(6);
}

static void fuzz_name(struct chance *chance)
{
    size_t n, m = chance_below(chance, 60);
    uint8_t *record = lend_record(chance, 0, &n), *standard = lend(chance, 1, m);
    uint64_t *start = (uint64_t *)(void *)lend(chance, 2, sizeof *start);
    uint64_t *len = (uint64_t *)(void *)lend(chance, 3, sizeof *len);
    uint8_t *from = lend(chance, 4, 1);

    chance_fill(chance, standard, m);
    keep(0);
    keep(1);
    doing = "crep_name";
    check(crep_name(record, n, standard, m, start, len, from) == 0 && *from <= 1);
    check(*start + *len <= (*from ? n : m));
    take_all_back(5);
}

static void fuzz_send(struct chance *chance)
{
    uint8_t part = (uint8_t)(chance_once_in(chance, 10) ? chance_byte(chance) : chance_below(chance, 4));
    size_t n, events_of_part = part == CREP_X24F129 ? CREP_SEND_X24F129 : CREP_SEND;
    size_t m = stir_length(chance, events_of_part, 1000);
    uint8_t *record = lend_record(chance, 0, &n), *trace = lend(chance, 1, m), refusal;
    uint16_t *events = (uint16_t *)(void *)lend(chance, 2, sizeof *events), gate = (uint16_t)chance_below(chance, 600);
    uint8_t select = (uint8_t)chance_below(chance, 10);

    if (chance_once_in(chance, 10))
        gate = (uint16_t)chance_word(chance);
    keep(0);
    doing = "crep_send";
    refusal = crep_send(part, select, gate, record, n, trace, m, events);
    check(refusal <= 17 && *events == (refusal ? 0 : events_of_part));
    take_all_back(3);
}

/* A map of 64 bytes, or 0, 63, 65 or another length, of any bytes. */
static uint8_t *lend_map(struct chance *chance, int i, size_t *len)
{
    uint8_t *map;

    *len = stir_length(chance, CREP_MAP, 100);
    map = lend(chance, i, *len);
    if (chance_once_in(chance, 2))
        chance_fill(chance, map, *len);
    else
        memset(map, 0xff, *len);
    return map;
}

static void fuzz_map_build(struct chance *chance)
{
    size_t n, m;
    uint8_t *array = lend_array(chance, 0, &n), *map = lend_map(chance, 1, &m);

    keep(0);
    doing = "crep_map_build";
    check(crep_map_build(array, n, map, m) <= 18);
    take_all_back(2);
}

static void fuzz_map_first(struct chance *chance)
{
    size_t n;
    uint8_t *map = lend_map(chance, 0, &n), refusal;
    uint16_t *sector = (uint16_t *)(void *)lend(chance, 1, sizeof *sector);

    keep(0);
    doing = "crep_map_first";
    refusal = crep_map_first(map, n, sector);
    check(*sector <= CREP_NO_SECTOR && (refusal == 0 || (refusal == 18 && *sector == CREP_NO_SECTOR)));
    take_all_back(2);
}

static void fuzz_map_event(struct chance *chance)
{
    struct lent l = lend_three(chance);
    size_t n;
    uint8_t *map = lend_map(chance, 3, &n), event = any_event(chance);

    doing = "crep_map_event";
    check(crep_map_event(l.chip, l.array, l.array_len, map, n, event, l.number) <= 18 && *l.number <= 15);
    take_all_back(4);
}

static void fuzz_map_power_up(struct chance *chance)
{
    struct lent l = lend_three(chance);
    size_t n;
    uint8_t *map = lend_map(chance, 3, &n);

    doing = "crep_map_power_up";
    check(crep_map_power_up(l.chip, l.array, l.array_len, map, n, stir_choices(chance), l.number) <= 18);
    check(*l.number == 1);
    take_all_back(4);
}

static void fuzz_map_run(struct chance *chance)
{
    struct lent_run l = lend_run(chance);
    size_t n;
    uint8_t *map = lend_map(chance, 4, &n);

    doing = "crep_map_run";
    check(crep_map_run(l.chip, l.array, l.array_len, map, n, l.trace, l.trace_len, l.answers, l.answers_len) <= 18);
    take_all_back(5);
}

static void (*const calls[])(struct chance *) = {
    fuzz_new, fuzz_event, fuzz_event, fuzz_run, fuzz_power_up, fuzz_recover, fuzz_record_write, fuzz_record_limits,
    fuzz_record_read, fuzz_name, fuzz_send, fuzz_map_build, fuzz_map_first, fuzz_map_event, fuzz_map_power_up,
    fuzz_map_run,
};

int main(int argc, char **argv)
{
    struct chance chance = { 1 };
    unsigned long n = 100000, i;
    int option;

    while ((option = getopt(argc, argv, "ms:n:")) != -1) {
        if (option == 'm')
            by_malloc = 1;
        else if (option == 's')
            chance.state = strtoull(optarg, NULL, 10);
        else if (option == 'n')
            n = strtoul(optarg, NULL, 10);
        else
            return 2;
    }
    if (!by_malloc) {
        make_areas();
        signal(SIGSEGV, on_fault);
        signal(SIGBUS, on_fault);
    }
    for (i = 0; i < n; i++)
        calls[chance_below(&chance, sizeof calls / sizeof calls[0])](&chance);
    printf("fuzz: %lu calls, every access within the buffers lent (%s)\n", n, by_malloc ? "exact mallocs"
                                                                                         : "guard pages");
    return 0;
}
