/* Compares every call with a length past 32 bits, one length at a time: 2^32 more than the right one, or 2^32 itself
 * where more room than is needed is taken. A call that kept the low half alone would answer otherwise. */
#include <inttypes.h>
#include <stdio.h>
#include <string.h>

#include "compare.h"
#include "kit.h"
#include "tally.h"

enum { ARRAY, MAP, TRACE, ANSWERS, RECORD, LABEL, STANDARD, EVENTS, LENGTHS };
enum { SAID = 17 };             /* what fourteen calls return, and the name's start, length and place */

static uint8_t array[CREP_ARRAY], map[CREP_MAP], trace[CREP_SEND], answers[CREP_SEND];

static void on_records(const struct kit *kit, const uint64_t *n, uint64_t *said)
{
    static const uint8_t label[5] = { 'G', 'A', 'T', 'E', '1' };
    uint8_t record[32], label_len, is_free, from_record;
    int32_t limits[3];
    uint16_t events;

    memset(record, 0xff, sizeof record);
    said[0] = kit->record_name(record, n[RECORD], label, n[STANDARD], &said[1], &said[2], &from_record);
    said[3] = from_record;
    said[4] = kit->record_write(record, n[RECORD], 150, 900, label, n[LABEL]);
    (void)kit->record_write(record, 32, 150, 900, label, sizeof label);
    said[5] = kit->record_limits(record, n[RECORD], 160, 890);
    said[6] = kit->record_read(record, n[RECORD], &limits[0], &limits[1], &limits[2], &label_len, &is_free);
    said[7] = kit->send(CREP_X24F128, 0, 17, record, n[RECORD], trace, n[EVENTS], &events);
}

static void on_chips(const struct kit *kit, const uint64_t *n, uint64_t *said)
{
    struct crep_chip chip;
    uint8_t number;
    uint16_t sector;

    memset(array, 0xff, sizeof array);
    memset(map, 0, sizeof map);
    memset(trace, 3, sizeof trace);
    (void)kit->make(&chip, CREP_X24F128, 0);
    said[8] = kit->event(&chip, array, n[ARRAY], 3, &number);
    said[9] = kit->run(&chip, array, n[ARRAY], trace, n[TRACE], answers, n[ANSWERS]);
    said[10] = kit->power_up(&chip, array, n[ARRAY], 0, &number);
    said[11] = kit->recover(&chip, array, n[ARRAY], 0, &number);
    said[12] = kit->map_build(array, n[ARRAY], map, n[MAP]);
    said[13] = kit->map_first(map, n[MAP], &sector);
    said[14] = kit->map_event(&chip, array, n[ARRAY], map, n[MAP], 3, &number);
    said[15] = kit->map_power_up(&chip, array, n[ARRAY], map, n[MAP], 0, &number);
    said[16] = kit->map_run(&chip, array, n[ARRAY], map, n[MAP], trace, n[TRACE], answers, n[ANSWERS]);
}

static void show_said(const char *name, const uint64_t *said)
{
    int i;

    printf("    %-8s", name);
    for (i = 0; i < SAID; i++)
        printf(" %" PRIu64, said[i]);
    printf("\n");
}

int compare_lengths(void)
{
    static const char *const names[LENGTHS] = { "array", "map", "trace", "answers", "record", "label", "standard label",
                                                "sender's buffer" };
    static const uint64_t right[LENGTHS] = { CREP_ARRAY, CREP_MAP, 7, 7, 32, 5, 5, CREP_SEND };
    static const uint64_t low_half[LENGTHS] = { CREP_ARRAY, CREP_MAP, 7, 0, 32, 5, 5, 0 };
    uint64_t n[LENGTHS], library[SAID], model[SAID];
    int past;

    for (past = 0; past < LENGTHS; past++) {
        memcpy(n, right, sizeof n);
        n[past] = low_half[past] + ((uint64_t)1 << 32);
        on_records(&kit_library, n, library);
        on_chips(&kit_library, n, library);
        on_records(&kit_model, n, model);
        on_chips(&kit_model, n, model);
        if (memcmp(library, model, sizeof library) != 0) {
            tally_difference("lengths past 32 bits");
            printf("    length of the %s: %" PRIu64 "; name: returned, start, length, place; then 13 returned\n",
                   names[past], n[past]);
            show_said(kit_library.name, library);
            show_said(kit_model.name, model);
            return 1;
        }
    }
    return 0;
}
