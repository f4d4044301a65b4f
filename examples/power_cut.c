/*
 * The power fails while a gate's record is overwritten. The events of crep_send put a new record over an old one; the
 * supply is lost before the first of them, between any two and after the last, and comes back with all, none or half of
 * what waited written, as after the events 9, 10 and 11. Then random choices, at the one point where choices count: in
 * the cycle. Each time start-up code says what it makes of the gate.
 *
 * Put your own start-up code into start_up, the first function: it is what must live with all this. PART is the part
 * that your panel has.
 *
 * Exit status: 0; 1 where a cut changed another sector, left a byte that is neither old nor new, or made the board's
 * map untrue; 2 where the test itself went wrong.
 */
#include <stdio.h>
#include <string.h>

#include "board.h"
#include "driver.h"
#include "latin1.h"

enum { PART = CREP_X24F128, SELECT = 2, GATE = 7, RANDOM = 1000 };

/* What crep_send writes for the part; before the last event, CREP_DONE, the cycle runs. */
enum { EVENTS = PART == CREP_X24F129 ? CREP_SEND_X24F129 : CREP_SEND, IN_CYCLE = EVENTS - 1 };

/* What start-up code says: the record is taken, there is no gate, or a reason of its own to do neither, 1 to 255. */
enum { TAKEN = 0, NO_ANSWER = 255, FREE = 256 };

/*
 * YOUR START-UP CODE, in the place of these lines. The power is back, both wires are high and the chip is in standby:
 * read gate 7 with your driver, and leave in bytes the record that the gate is to move by. Here the kit decides, and
 * its refusals are the reasons.
 */
static int start_up(uint8_t *bytes)
{
    int32_t closed, opened, travel;
    uint8_t length, free_record, refusal;

    if (!memory_read_sector(SELECT, GATE, bytes))
        return NO_ANSWER;
    refusal = crep_record_read(bytes, CREP_RECORD, &closed, &opened, &travel, &length, &free_record);
    return free_record ? FREE : refusal;
}

/* ---- The panel before the cut ---- */

static uint8_t image[CREP_ARRAY], new_record[CREP_RECORD], events[EVENTS];
static const uint8_t *const old_record = image + GATE * CREP_RECORD;

static void make_record(uint8_t *record, int32_t closed, int32_t opened, const char *label)
{
    board_taken(crep_record_write(record, CREP_RECORD, closed, opened, (const uint8_t *)label, strlen(label)));
}

/* A gate in every sector, and the events that overwrite one of them. */
static void make_panel(void)
{
    uint16_t n;
    int gate;

    for (gate = 0; gate < CREP_SECTORS; gate++)
        make_record(image + gate * CREP_RECORD, gate, 1000, "ANOTHER");
    make_record(image + GATE * CREP_RECORD, 150, 900, "NORTH YARD");
    make_record(new_record, 160, 890, "NORTH ROAD");
    board_taken(crep_send(PART, SELECT, GATE, new_record, CREP_RECORD, events, sizeof events, &n));
}

/* The cycle ends where CREP_DONE stands, and the board ends none. */
static void send_events(unsigned n)
{
    unsigned i;

    board_new(PART, SELECT);
    board.polls = BOARD_NEVER;
    memcpy(board.array, image, sizeof image);
    board_map();
    for (i = 0; i < n; i++)
        if (events[i] == CREP_DONE)
            board_done();
        else
            board_wires(events[i] & CREP_SCL, events[i] & CREP_SDA);
}

/* ---- One cut ---- */

enum { OLD = FREE + 1, NEW, MIXTURE, OUTCOMES };
enum { LIMITS = 4 };

static uint8_t mixture[CREP_RECORD];
static int mixtures, cuts, wrong;

/* What no cut may change, whatever was chosen. */
static int rest_is_kept(void)
{
    uint8_t built[CREP_MAP];
    int i, at;

    board_taken(crep_map_build(board.array, sizeof board.array, built, sizeof built));
    if (memcmp(built, board.map, sizeof built) != 0)
        return 0;
    for (i = 0; i < CREP_ARRAY; i++) {
        at = i - GATE * CREP_RECORD;
        if (board.array[i] != image[i] && !(at >= 0 && at < CREP_RECORD && board.array[i] == new_record[at]))
            return 0;
    }
    return 1;
}

/* The one to show has, if there is such a one, limits that never belonged together. */
static int keep_mixture(const uint8_t *bytes)
{
    int neither = memcmp(bytes, old_record, LIMITS) != 0 && memcmp(bytes, new_record, LIMITS) != 0;

    if (mixtures++ == 0 || neither)
        memcpy(mixture, bytes, sizeof mixture);
    return MIXTURE;
}

/* A record that start-up code takes need not be one of the two: a mixture's sum can be right. */
static int ask_start_up(void)
{
    uint8_t bytes[CREP_RECORD];
    int said = start_up(bytes);

    if (said != TAKEN)
        return said;
    if (memcmp(bytes, old_record, sizeof bytes) == 0)
        return OLD;
    return memcmp(bytes, new_record, sizeof bytes) == 0 ? NEW : keep_mixture(bytes);
}

static int cut_after(unsigned n, uint32_t choices)
{
    send_events(n);
    board_cut(choices);
    cuts++;
    wrong += !rest_is_kept();
    return ask_start_up();
}

/* ---- All of them ---- */

enum { ALL, NONE, HALF, SETS, CHANCE = SETS, COLUMNS };

static const uint32_t choices_of[SETS] = { 0xffffffffu, 0, 0xffff };
static int outcome[EVENTS + 1][SETS];
static int count[OUTCOMES][COLUMNS];

static void cut_everywhere(void)
{
    unsigned n;
    int set;

    for (n = 0; n <= EVENTS; n++)
        for (set = 0; set < SETS; set++) {
            outcome[n][set] = cut_after(n, choices_of[set]);
            count[outcome[n][set]][set]++;
        }
}

/* The same choices in every run: xorshift, from a fixed seed. */
static uint32_t random_choices(void)
{
    static uint32_t x = 2463534242u;

    x ^= x << 13;
    x ^= x >> 17;
    x ^= x << 5;
    return x;
}

static void cut_at_random(void)
{
    int i;

    for (i = 0; i < RANDOM; i++)
        count[cut_after(IN_CYCLE, random_choices())][CHANCE]++;
}

/* ---- The report ---- */

static const char *name_of(int what)
{
    static char text[20];

    switch (what) {
    case OLD: return "old record";
    case NEW: return "new record";
    case MIXTURE: return "a mixture";
    case FREE: return "no gate";
    case NO_ANSWER: return "no answer";
    default:
        snprintf(text, sizeof text, "refused %d", what);
        return text;
    }
}

static void print_head(const char *title, int columns)
{
    static const char *const heads[COLUMNS] = { "all (9)", "none (10)", "half (11)", "random" };
    int column;

    printf("\n%-18s", title);
    for (column = 0; column < columns; column++)
        printf("%12s", heads[column]);
    printf("\n");
}

static void print_run(unsigned first, unsigned last)
{
    char text[40];
    int set;

    if (first == last)
        snprintf(text, sizeof text, "after %u events", first);
    else
        snprintf(text, sizeof text, "after %u-%u events", first, last);
    printf("%-18s", text);
    for (set = 0; set < SETS; set++)
        printf("%12s", name_of(outcome[last][set]));
    printf("\n");
}

/* Points with the same outcomes share a line. */
static void print_runs(void)
{
    unsigned n, first = 0;

    print_head("power lost", SETS);
    for (n = 0; n <= EVENTS; n++)
        if (n == EVENTS || memcmp(outcome[n], outcome[n + 1], sizeof outcome[n]) != 0) {
            print_run(first, n);
            first = n + 1;
        }
}

/* Outcomes that came up, the records first. */
static void print_counts(void)
{
    static const int none[COLUMNS];
    int i, what, column;

    print_head("how often", COLUMNS);
    for (i = 0; i < OUTCOMES; i++) {
        what = (OLD + i) % OUTCOMES;
        if (memcmp(count[what], none, sizeof none) == 0)
            continue;
        printf("%-18s", name_of(what));
        for (column = 0; column < COLUMNS; column++)
            printf("%12d", count[what][column]);
        printf("\n");
    }
    printf("random: %d choices of crep_power_up, after %d events\n\n", RANDOM, IN_CYCLE);
}

static void print_record(const char *text, const uint8_t *record)
{
    int32_t closed, opened, travel;
    uint8_t length, free_record;

    if (crep_record_read(record, CREP_RECORD, &closed, &opened, &travel, &length, &free_record) != CREP_OK)
        return;
    printf("%s \"", text);
    latin1_print(record + 6, length);
    printf("\", %d to %d\n", (int)closed, (int)opened);
}

int main(void)
{
    make_panel();
    cut_everywhere();
    cut_at_random();
    print_record("old record:", old_record);
    print_record("new record:", new_record);
    if (mixtures)
        print_record("a mixture: ", mixture);
    print_runs();
    print_counts();
    if (wrong)
        printf("%d cuts of %d WRONG\n", wrong, cuts);
    else
        printf("%d cuts: every other sector kept, every byte of the sector old or new\n", cuts);
    return wrong != 0;
}
