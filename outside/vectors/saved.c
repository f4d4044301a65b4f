/*
 * Writes the stored input of the bench programs: two runs, each from its own power-up. The first is worked case 13, 78
 * events. The second sets PEL in the same way, sends 27 bytes from 0006h on, where a whole sector has 32, and ends with a
 * program-done: the parts tell it apart.
 */
#include <stdio.h>

#include "wire.h"

static void pel_from_power_up(struct wire *wire)
{
    wire_event(wire, 9);
    wire_register(wire, 0, 0x02);
}

int main(void)
{
    static const uint8_t label[] = "ABCDEFGHIJKLMNOPQRSTUVWXYZ[";
    static uint8_t events[4096];
    struct wire wire;

    wire_open(&wire, events, sizeof events);
    pel_from_power_up(&wire);
    pel_from_power_up(&wire);
    wire_write(&wire, 0, 0x0006, label, sizeof label - 1);
    wire_event(&wire, 8);
    return fwrite(events, 1, wire.len, stdout) != wire.len;
}
