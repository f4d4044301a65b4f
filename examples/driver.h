/*
 * A bit-banging driver for the X24128, X24F128 and X24F129 on two wires, small enough to read before it is trusted. It
 * stands over board_wires and board_line of board.h: on a panel they move port pins, in a host test they move the
 * model. The part is the panel's own, CREP_X24128, CREP_X24F128 or CREP_X24F129: a wrong one can cost a record.
 */
#ifndef DRIVER_H
#define DRIVER_H

#include <stddef.h>
#include <stdint.h>

/* ---- The wires ---- */

void wires_start(void);                 /* also as a repeated start, after a ninth clock */
void wires_stop(void);                  /* after a ninth clock: the chip then sees exactly one bit before it */
void wires_abandon(void);               /* ends a write that is not to be: a start drops the load, a stop follows */
int wires_clock(int sda);               /* one clock; returns the level of the data wire in its high half */
int wires_send(uint8_t byte);           /* returns whether the chip acknowledged */
uint8_t wires_receive(int more);        /* more: another byte is to follow */

/* Frees a hung bus and makes a start. Returns the pulses it took, 1 to 10; 0 where ten did not do. */
int wires_free(void);

/* ---- The memory: each returns whether the chip acknowledged every byte ---- */

/* Sets PEL: data bytes are taken until the next power-up. An X24F129 has none and needs none: no pin moves. */
int memory_enable(uint8_t part, uint8_t select);

int memory_read(uint8_t select, uint16_t address, uint8_t *bytes, size_t n);

/* Begins a cycle, and memory_wait waits it out: power that fails before its end can leave old bytes beside new ones.
 * An X24F128 and an X24F129 acknowledge any n, and spoil the sector where n is not 32. */
int memory_write(uint8_t select, uint16_t address, const uint8_t *bytes, size_t n);

/* Asks the chip until it answers again, at most `polls` times. Returns how often it was asked; 0: still busy. */
int memory_wait(uint8_t select, int polls);

/* One sector, which is one gate's record; waits out the cycle. */
int memory_write_sector(uint8_t select, unsigned sector, const uint8_t *bytes);
int memory_read_sector(uint8_t select, unsigned sector, uint8_t *bytes);

/* Plays events as crep_send writes them, from wires that are let go: samples on the pins, and where CREP_DONE stands
 * the cycle is waited out. At the first byte that is not acknowledged it abandons the write and plays no more. */
int memory_play(uint8_t select, const uint8_t *events, size_t n);

/* A gate's record as crep_send spells it: PEL set where the part has it, 32 bytes written, the cycle waited out. 0 also
 * where crep_send refuses, and no pin moves then. A chip whose RPEL may be set is powered up first, see crepulanter.h.
 */
int memory_send_record(uint8_t part, uint8_t select, uint16_t gate, const uint8_t *record);

#endif
