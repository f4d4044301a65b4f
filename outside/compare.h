/* The parts of the comparison. Each compares one call on random input; 0 where both agree, 1 after a report. */
#ifndef COMPARE_H
#define COMPARE_H

#include "chance.h"
#include "crepulanter.h"

int compare_new(void);                                  /* every part and select byte */
int compare_lengths(void);                              /* every length past 32 bits */
int compare_events(struct chance *chance);              /* a trace, event by event, then whole */
int compare_chips(struct chance *chance);               /* one event on a random chip, in range or not */
int compare_power_ups(struct chance *chance);           /* a power-up with any choices on a random chip, likewise */
int compare_traces(struct chance *chance);              /* traces that ask to be refused */
int compare_twins(struct chance *chance);               /* an X24F129 beside one with another register and mark */
int compare_recovery(struct chance *chance);
int compare_record_write(struct chance *chance);
int compare_record_limits(struct chance *chance);
int compare_record_read(struct chance *chance);
int compare_name(struct chance *chance);
int compare_send(struct chance *chance);                /* then its events on a chip */
int compare_map_build(struct chance *chance);           /* then the first free sector, against a full reading */
int compare_map_first(struct chance *chance);           /* in maps of any bytes */
int compare_map_events(struct chance *chance);          /* a trace with a map, event by event, then whole */
int compare_map_chips(struct chance *chance);           /* one event with a map on a random chip, in range or not */
int compare_map_power_ups(struct chance *chance);       /* a power-up with any choices and a map, likewise */
int compare_map_traces(struct chance *chance);          /* traces with a map that ask to be refused */
int compare_map_send(struct chance *chance);            /* a record sent to the first free sector */

/* Makes a new chip of any part, with any select. */
void new_chip(struct chance *chance, struct crep_chip *chip);

#endif
