/* The board of board.h over the model. */
#include "board.h"

#include <stdio.h>
#include <stdlib.h>
#include <string.h>

struct board board;
void (*board_stop)(const char *file, int line, const char *reason);

/* ---- Stopping the test ---- */

static void stop(const char *file, int line, const char *reason)
{
    if (board_stop != NULL)
        board_stop(file, line, reason);
    fprintf(stderr, "%s:%d: TEST WRONG: %s\n", file, line, reason);
    exit(2);
}

void board_taken_at(const char *file, int line, const char *call, uint8_t refusal)
{
    char reason[256];

    if (refusal == CREP_OK)
        return;
    snprintf(reason, sizeof reason, "refused %d, %s: %.150s", refusal, crep_refusal_text(refusal), call);
    stop(file, line, reason);
}

/* ---- Events ---- */

static void record(const char *file, int line, uint8_t event)
{
    if (board.trace == NULL)
        return;
    if (board.trace_len == board.trace_room)
        stop(file, line, "the trace lent to the board is full");
    board.trace[board.trace_len++] = event;
}

/* One event, with no program-done of the board's own; the map follows what it writes. */
static void plain_event(const char *file, int line, uint8_t event)
{
    uint8_t answer;

    record(file, line, event);
    board_taken_at(file, line, "crep_map_event", crep_map_event(&board.chip, board.array, sizeof board.array, board.map,
                                                                sizeof board.map, event, &answer));
    if (CREP_NOTE(answer) != CREP_NOTE_NONE)
        board.note = CREP_NOTE(answer);
}

/* A cycle that lasts no poll ends before the driver can look. */
void board_event_at(const char *file, int line, uint8_t event)
{
    int was_busy = board.chip.busy;

    plain_event(file, line, event);
    if (board.chip.busy && !was_busy)
        board.polled = 0;
    if (board.chip.busy && board.polls == 0)
        plain_event(file, line, CREP_DONE);
}

static uint8_t sample(int scl, int sda)
{
    return (uint8_t)((scl ? CREP_SCL : 0) | (sda ? CREP_SDA : 0) | (board.pin ? CREP_PIN : 0));
}

/* A busy chip ignores a START, so the cycle is over before the one that is to be heard. */
static void count_poll(const char *file, int line)
{
    if (board.polls == BOARD_NEVER || board.polled++ < board.polls)
        return;
    plain_event(file, line, CREP_DONE);
}

void board_wires_at(const char *file, int line, int scl, int sda)
{
    int starts = board.scl && scl && board.sda && !sda;

    if (board.chip.busy && starts)
        count_poll(file, line);
    board.scl = scl != 0;
    board.sda = sda != 0;
    board_event_at(file, line, sample(scl, sda));
}

int board_line(void)
{
    return board.chip.line;
}

/* ---- The chip ---- */

/* The resistors of a board pull both wires high before a driver moves them. */
static void let_go(const char *file, int line)
{
    board_wires_at(file, line, 1, 1);
}

void board_map_at(const char *file, int line)
{
    board_taken_at(file, line, "crep_map_build",
                   crep_map_build(board.array, sizeof board.array, board.map, sizeof board.map));
}

void board_new_at(const char *file, int line, uint8_t part, uint8_t select)
{
    uint8_t *trace = board.trace;
    size_t room = board.trace_room;

    memset(&board, 0, sizeof board);
    memset(board.array, 0xff, sizeof board.array);
    board_map_at(file, line);
    board.trace = trace;
    board.trace_room = room;
    board_taken_at(file, line, "crep_new", crep_new(&board.chip, part, select));
    let_go(file, line);
}

static void record_cut(const char *file, int line, uint32_t choices)
{
    if (choices == 0xffffffffu)
        record(file, line, CREP_POWER_UP);
    else if (choices == 0)
        record(file, line, CREP_CUT_NONE);
    else if (choices == 0xffff)
        record(file, line, CREP_CUT_HALF);
    else if (board.trace != NULL)
        stop(file, line, "no event byte has these choices, and a trace is recorded");
}

void board_cut_at(const char *file, int line, uint32_t choices)
{
    uint8_t answer;

    record_cut(file, line, choices);
    board_taken_at(file, line, "crep_map_power_up",
                   crep_map_power_up(&board.chip, board.array, sizeof board.array, board.map, sizeof board.map, choices,
                                     &answer));
    let_go(file, line);
}

/* crep_recover hands no events out: its pulses and its START are put into the trace as it makes them. */
int board_recover_at(const char *file, int line)
{
    uint8_t pulses;
    int i;

    board_taken_at(file, line, "crep_recover",
                   crep_recover(&board.chip, board.array, sizeof board.array, (uint8_t)board.pin, &pulses));
    for (i = 0; i < pulses; i++) {
        record(file, line, sample(0, 1));
        record(file, line, sample(1, 1));
    }
    record(file, line, sample(1, 0));
    board.scl = 1;
    board.sda = 0;
    return pulses;
}

int board_note(void)
{
    int note = board.note;

    board.note = CREP_NOTE_NONE;
    return note;
}
