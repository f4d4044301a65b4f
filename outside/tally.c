#include "tally.h"

#include <inttypes.h>
#include <stdio.h>

struct tally tally;

void tally_difference(const char *call)
{
    printf("DIFFERENCE in %s, after %" PRIu64 " events that agree\n", call, tally.events + tally.traced);
    printf("  repeat it: compare -s %" PRIu64 " -r %" PRIu64 "\n", tally.seed, tally.round);
}

/* One row of counts from `first` on; returns how many are 0. */
static int row(const char *title, const uint64_t *counts, int first, int last)
{
    int i, missing = 0;

    printf("  %-9s", title);
    for (i = first; i <= last; i++) {
        printf(" %d:%" PRIu64, i, counts[i]);
        missing += counts[i] == 0;
    }
    printf("\n");
    return missing;
}

int tally_print(void)
{
    int missing;

    printf("  %" PRIu64 " events one by one, %" PRIu64 " in traces, %" PRIu64 " power-ups with choices, %" PRIu64
           " recoveries, %" PRIu64 " records, %" PRIu64 " names, %" PRIu64 " sends\n", tally.events, tally.traced,
           tally.power_ups, tally.recoveries, tally.records, tally.names, tally.sends);
    printf("  %" PRIu64 " maps, %" PRIu64 " events with a map, one by one and in traces\n", tally.maps, tally.mapped);
    missing = row("notes", tally.notes, 0, 7);
    missing += row("refusals", tally.refusals, 0, 18);
    missing += row("phases", tally.phases, 0, 11);
    missing += row("pulses", tally.pulses, 1, 10);
    missing += row("shown", tally.shown, 0, 2);
    missing += row("locked", tally.locked, 0, 1);
    missing += row("sent", tally.sent, 0, 4);
    missing += row("short", tally.short_loads, 0, 2);
    missing += row("stops", tally.stops, 0, 7);
    missing += row("unread", tally.unread, 0, 6);
    missing += row("twins", tally.twins, 0, 1);
    missing += row("waits", tally.waits, 0, 5);
    missing += row("dones", tally.dones, 0, 3);
    missing += row("cuts", tally.cuts, 0, 6);
    missing += row("cut sends", tally.cut_sends, 0, 2);
    missing += row("bits", tally.bits, 0, 3);
    missing += row("first", tally.first, 0, 1);
    return missing;
}
