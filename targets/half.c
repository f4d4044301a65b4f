/*
 * The panel's half of the kit as a small firmware: records, new limits, the name, the sender, the map and the first free
 * sector. Linked with --gc-sections it carries these seven calls and no chip; it prints what came of each.
 */
#include <stdio.h>

#include "crepulanter.h"

#define FREE 37                 /* the one free sector of the array */

/* All at odd addresses: a Cortex-M0 stops where an access is not aligned. */
static struct {
    uint64_t even;
    uint8_t odd, record[CREP_RECORD], map[CREP_MAP], array[CREP_ARRAY], events[CREP_SEND];
} lent;

static void show(const char *call, uint8_t refusal, const uint8_t *bytes, unsigned n)
{
    unsigned i;

    printf("%s: %d,", call, refusal);
    for (i = 0; i < n; i++)
        printf(" %02x", bytes[i]);
    printf("\n");
}

int main(void)
{
    static const uint8_t label[] = { 'N', 'O', 'R', 'T', 'H', ' ', 'Y', 'A', 'R', 'D' };
    uint8_t label_len, is_free, from_record, refusal;
    int32_t closed, opened, travel;
    uint64_t start, len;
    uint16_t n, sector;
    unsigned i;

    refusal = crep_record_write(lent.record, sizeof lent.record, 150, -900, label, sizeof label);
    show("write", refusal, lent.record, sizeof lent.record);
    refusal = crep_record_limits(lent.record, sizeof lent.record, -160, 890);
    show("limits", refusal, lent.record, sizeof lent.record);
    refusal = crep_record_read(lent.record, sizeof lent.record, &closed, &opened, &travel, &label_len, &is_free);
    printf("read: %d, %ld %ld %ld %d %d\n", refusal, (long)closed, (long)opened, (long)travel, label_len, is_free);
    refusal = crep_name(lent.record, sizeof lent.record, label, sizeof label, &start, &len, &from_record);
    printf("name: %d, %lu %lu %d\n", refusal, (unsigned long)start, (unsigned long)len, from_record);
    refusal = crep_send(CREP_X24F128, 3, FREE, lent.record, sizeof lent.record, lent.events, sizeof lent.events, &n);
    show("send", refusal, lent.events, n);
    for (i = 0; i < 32; i++)
        lent.array[32 * FREE + i] = 0xff;
    refusal = crep_map_build(lent.array, sizeof lent.array, lent.map, sizeof lent.map);
    show("map", refusal, lent.map, sizeof lent.map);
    refusal = crep_map_first(lent.map, sizeof lent.map, &sector);
    printf("first free: %d, %d\n", refusal, sector);
    return 0;
}
