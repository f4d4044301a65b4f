/*
 * A trace of 65,536 events on a chip of each part, good messages and bad ones mixed with noise: every event with its
 * answer, then the chip and the sectors that are not all FFh. Linked with the independent model under the library's
 * names it writes what must come out, linked with the library of a processor what comes out there.
 */
#include <stdio.h>
#include <string.h>

#include "crepulanter.h"
#include "stir.h"

#define ROW 32

/* All at odd addresses: a Cortex-M0 stops where an access is not aligned. */
static struct {
    uint64_t even;
    uint8_t odd, array[CREP_ARRAY], trace[CREP_TRACE], answers[CREP_TRACE];
    struct crep_chip chip;
} lent;

/* A hexadecimal digit each: an event byte is below 12, an answer byte below 16. */
static void put_digits(const uint8_t *bytes)
{
    int i;

    for (i = 0; i < ROW; i++)
        printf("%x", bytes[i]);
}

static void put_bytes(const uint8_t *bytes, size_t n)
{
    size_t i;

    for (i = 0; i < n; i++)
        printf("%02x", bytes[i]);
    printf("\n");
}

static void run(uint8_t part)
{
    struct chance chance = { part };
    struct wire wire;
    uint8_t free_sector[32], refusal;
    uint32_t i;

    wire_open(&wire, lent.trace, sizeof lent.trace);
    stir_trace(&chance, &wire, part);
    memset(lent.array, 0xff, sizeof lent.array);
    memset(free_sector, 0xff, sizeof free_sector);
    refusal = crep_new(&lent.chip, part, part);
    if (refusal == CREP_OK)
        refusal = crep_run(&lent.chip, lent.array, sizeof lent.array, lent.trace, sizeof lent.trace, lent.answers,
                           sizeof lent.answers);
    printf("part %d, select %d: refusal %d\n", part, part, refusal);
    for (i = 0; i < sizeof lent.trace; i += ROW) {
        printf("part %d, from event %05u: events ", part, (unsigned)i);
        put_digits(lent.trace + i);
        printf(" answers ");
        put_digits(lent.answers + i);
        printf("\n");
    }
    printf("part %d, chip ", part);
    put_bytes((const uint8_t *)&lent.chip, sizeof lent.chip);
    for (i = 0; i < CREP_SECTORS; i++)
        if (memcmp(lent.array + 32 * i, free_sector, 32) != 0) {
            printf("part %d, sector %u ", part, (unsigned)i);
            put_bytes(lent.array + 32 * i, 32);
        }
}

int main(void)
{
    run(CREP_X24128);
    run(CREP_X24F128);
    run(CREP_X24F129);
    return 0;
}
