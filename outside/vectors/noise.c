/*
 * Writes a trace for the bench program, raw event bytes, that the number given repeats: messages and noise, of any
 * length up to and beyond what the bench takes, at times with a byte that is no event.
 *
 *     noise NUMBER
 */
#include <stdio.h>
#include <stdlib.h>

#include "stir.h"

int main(int argc, char **argv)
{
    static const uint32_t edges[] = { 0, 1, 78, 4095, 4096, 4097, 4098, 5000 };
    static uint8_t events[5000];
    struct chance chance = { 0 };
    struct wire wire;
    uint32_t n;

    if (argc != 2)
        return 2;
    chance.state = strtoull(argv[1], NULL, 10) * 0x9e3779b9u;
    n = chance_once_in(&chance, 4) ? chance_of(&chance, edges, 8) : chance_below(&chance, 4097);
    wire_open(&wire, events, n);
    stir_trace(&chance, &wire, 0);
    if (n > 0 && chance_once_in(&chance, 8))
        stir_bad_event(&chance, events, n);
    return fwrite(events, 1, n, stdout) != n;
}
