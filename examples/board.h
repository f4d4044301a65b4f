/*
 * A board for host tests: one memory chip with its array behind the pins that a driver writes and reads. On a panel a
 * file of the same name gives the driver board_wires (or board_scl and board_sda) and board_line over port pins.
 *
 *     board_new(CREP_X24F128, 2);                 a chip as it comes from the drawer, both wires high
 *     board.polls = 3;                            its cycles last three polls
 *     .. your driver writes and waits ..
 *     if (board_note() != CREP_NOTE_STORED) ..    what the chip did; its array changes where the cycle ends
 *
 * A call that the kit refuses stops the test: file, line and reason go to standard error and the exit status is 2. A
 * test runner sets board_stop to take it instead (cmocka_test.c does).
 */
#ifndef BOARD_H
#define BOARD_H

#include <stddef.h>
#include <stdint.h>

#include "crepulanter.h"

#define BOARD_NEVER (-1)                /* for polls: cycles end by board_done alone */

/* The board. All of it may be looked at; chip, array (then its map), pin, polls and the trace may be set. */
struct board {
    struct crep_chip chip;
    uint8_t array[CREP_ARRAY];
    uint8_t map[CREP_MAP];              /* which sectors are used; kept true. After setting array bytes: board_map() */
    int scl, sda;                       /* the driver's pins: 0 pulls, 1 lets go */
    int pin;                            /* level of the protect pin in the samples to come */
    int polls;                          /* STARTs that a cycle lasts: 0 it ends at once; BOARD_NEVER */
    int polled;                         /* STARTs since the cycle began */
    int note;                           /* the last note but 0, see board_note */
    uint8_t *trace;                     /* lent: takes each event, as crep_run reads it; null records nothing. Set */
    size_t trace_room, trace_len;       /* before board_new it has them all; where it is full the test stops */
};

extern struct board board;

/* Called where a test cannot go on; it does not return. Null: print, and exit with 2. */
extern void (*board_stop)(const char *file, int line, const char *reason);

/* A new chip, array of FFh, both wires high, pin low, polls 0, trace as lent and empty. */
#define board_new(part, select) board_new_at(__FILE__, __LINE__, part, select)

/* The pins: both wires at once, or one after the other as most drivers do. */
#define board_wires(scl, sda) board_wires_at(__FILE__, __LINE__, scl, sda)
#define board_scl(level) board_wires_at(__FILE__, __LINE__, level, board.sda)
#define board_sda(level) board_wires_at(__FILE__, __LINE__, board.scl, level)

/* The pin read: the level of the data wire, which the chip may pull too. */
int board_line(void);

/* Program-done: what waits is written. */
#define board_done() board_event_at(__FILE__, __LINE__, CREP_DONE)

/* Power-up, after which both wires are high again. A cycle that it finds (none with polls 0) is cut off: all of it is
 * written, or the places whose bits are set in choices, see crep_power_up. A trace takes FFFFFFFFh, 0 and FFFFh alone,
 * which have an event byte; with other choices the test stops. */
#define board_power_up() board_cut(0xffffffffu)
#define board_cut(choices) board_cut_at(__FILE__, __LINE__, choices)

/* Builds the map again, after the test has set bytes of the array itself. */
#define board_map() board_map_at(__FILE__, __LINE__)

/* crep_recover on the chip as it was left; the pins follow. Returns the pulses. */
#define board_recover() board_recover_at(__FILE__, __LINE__)

/* Stops the test where a call of the kit is refused: board_taken(crep_record_write(..)). */
#define board_taken(call) board_taken_at(__FILE__, __LINE__, #call, call)

/* The last note but 0 since this was last asked; 0 where there was none. */
int board_note(void);

/* The macros above, with the place that a stop names. */
void board_new_at(const char *file, int line, uint8_t part, uint8_t select);
void board_wires_at(const char *file, int line, int scl, int sda);
void board_event_at(const char *file, int line, uint8_t event);
void board_cut_at(const char *file, int line, uint32_t choices);
void board_map_at(const char *file, int line);
int board_recover_at(const char *file, int line);
void board_taken_at(const char *file, int line, const char *call, uint8_t refusal);

#endif
