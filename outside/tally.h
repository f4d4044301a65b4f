/* What a comparison has reached, and where it stands: printed with the first difference and at the end. */
#ifndef TALLY_H
#define TALLY_H

#include <stdint.h>

struct tally {
    uint64_t seed, round;       /* `compare -s SEED -r ROUND` comes back to this round */
    uint64_t events, traced, power_ups, recoveries, records, names, sends, maps, mapped;
    uint64_t notes[8];
    uint64_t refusals[19];
    uint64_t phases[12];
    uint64_t pulses[11];
    uint64_t shown[3];          /* names: the standard label, a label of plain characters, one with accents */
    uint64_t locked[2];         /* records sent to a chip for which they are: its sector not locked, locked */
    uint64_t sent[5];           /* to a chip of part 0, 1 or 2 for which they are; those for another part to an X24F129,
                                   those for an X24F129 to another part */
    uint64_t short_loads[3];    /* on the other parts than the X24128: spoilt with FFh, with another byte, locked */
    uint64_t stops[8];          /* of a load on an X24F129: pin low, below 3000h and above, pin high likewise; 32 bytes,
                                   then another count */
    uint64_t unread[7];         /* on an X24F129: address FFFFh, a data byte with PEL 0, one with the mark, a byte sent
                                   with the mark, its end, a STOP with the mark, a cycle where BL would lock */
    uint64_t twins[2];          /* an X24F129 and its twin after a trace: still different, alike */
    uint64_t waits[6];          /* what waits after an event: nothing, a sector, a register byte; idle, then busy */
    uint64_t dones[4];          /* of a sector, of a register byte, of nothing; on an idle chip with a wait */
    uint64_t cuts[7];           /* of a sector, none of what waits written, some, all; of a register byte, not taken,
                                   taken; of nothing; of an idle chip with a wait */
    uint64_t cut_sends[3];      /* records cut off before their program-done: none of the places written, some, all */
    uint64_t bits[4];           /* a cycle's bit: 0 and 0 after it, 0 and 1, 1 and 0, 1 and 1 */
    uint64_t first[2];          /* first free in a map: a sector, none */
};

extern struct tally tally;

/* Prints where the comparison stands, as the head of a report of a difference. */
void tally_difference(const char *call);

/* Prints the counts. Returns how many notes, refusals, phases, pulse numbers, kinds of name, of sector and of sending,
 * ends of a short load, STOPs, unread bits and twins of an X24F129, kinds of wait and of its end, changes of a map's
 * bit and kinds of first free were never reached. */
int tally_print(void);

#endif
