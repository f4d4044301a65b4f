/*
 * Compares the library with the independent model: random and structured traces on all parts, chips in and out of
 * range, cycles that are cut off, all refusals, recoveries, records, names, sendings, maps. Stops at the first
 * difference and prints it in full.
 *
 *     compare [-s SEED] [-n EVENTS] [-r ROUND]
 *
 * A round draws its numbers from the seed and its own number, so -r runs that one round alone.
 */
#include "compare.h"

#include <inttypes.h>
#include <stdio.h>
#include <stdlib.h>
#include <string.h>

#include "kit.h"
#include "tally.h"

/* Below this many events a note or refusal that is never reached means nothing. */
#define ENOUGH 1000000

static const struct {
    int (*compare)(struct chance *);
    int times;
} parts[] = {
    { compare_events, 1 },
    { compare_chips, 60 },
    { compare_power_ups, 20 },
    { compare_traces, 4 },
    { compare_twins, 2 },
    { compare_recovery, 12 },
    { compare_record_write, 30 },
    { compare_record_limits, 30 },
    { compare_record_read, 30 },
    { compare_name, 15 },
    { compare_send, 15 },
    { compare_map_build, 1 },
    { compare_map_first, 10 },
    { compare_map_events, 1 },
    { compare_map_chips, 10 },
    { compare_map_power_ups, 5 },
    { compare_map_traces, 2 },
    { compare_map_send, 1 },
};

static int run_round(uint64_t round)
{
    struct chance chance = { tally.seed * 0x100000001b3u + round };
    size_t i;
    int times;

    tally.round = round;
    chance_word(&chance);
    for (i = 0; i < sizeof parts / sizeof parts[0]; i++)
        for (times = 0; times < parts[i].times; times++)
            if (parts[i].compare(&chance))
                return 1;
    return 0;
}

static int all_rounds(uint64_t events)
{
    uint64_t round;

    for (round = 0; tally.events + tally.traced < events; round++)
        if (run_round(round))
            return 1;
    return 0;
}

static int usage(void)
{
    fprintf(stderr, "usage: compare [-s SEED] [-n EVENTS] [-r ROUND]\n");
    return 2;
}

int main(int argc, char **argv)
{
    uint64_t events = 1000000, round = 0;
    int i, one = 0, missing;

    tally.seed = 1;
    for (i = 1; i + 1 < argc; i += 2) {
        uint64_t value = strtoull(argv[i + 1], NULL, 10);

        if (strcmp(argv[i], "-s") == 0)
            tally.seed = value;
        else if (strcmp(argv[i], "-n") == 0)
            events = value;
        else if (strcmp(argv[i], "-r") == 0)
            round = value;
        else
            return usage();
        one = one || strcmp(argv[i], "-r") == 0;
    }
    if (i < argc)
        return usage();
    if (compare_new() || (one ? run_round(round) : all_rounds(events)) || compare_lengths())
        return 1;
    printf("compare: the %s and the model agree (seed %" PRIu64 ")\n", kit_library.name, tally.seed);
    missing = tally_print();
    if (missing && !one && events >= ENOUGH)
        printf("  %d of these were never reached\n", missing);
    return missing && !one && events >= ENOUGH;
}
