/*
 * The first test a builder writes: 27 characters sent where 24 fit, and what that does to the limits on each part.
 * Exit status: 0 the limits are as before, 1 a write reached them, 2 the test itself went wrong and says nothing about
 * the firmware.
 */
#include <stdio.h>
#include <stdlib.h>
#include <string.h>
#include "crepulanter.h"

static struct crep_chip chip;
static uint8_t array[CREP_ARRAY], answer;
static int sent;

static void wrong(const char *what, int number, const char *why)
{
    printf("TEST WRONG: %s %d: %s\n", what, number, why);
    exit(2);
}

static void call(uint8_t refusal)
{
    if (refusal != CREP_OK)
        wrong("refused", refusal, crep_refusal_text(refusal));
}

/* The chip pulls the data wire in the ninth clock of a byte that it takes. */
static void acknowledged(void)
{
    if (CREP_LINE(answer))
        wrong("not acknowledged, byte", sent, chip.busy ? "the chip is busy"
              : sent == 0 ? "it names another select, or no START came before it" : "PEL is not set");
    sent++;
}

static void event(int byte) { call(crep_event(&chip, array, sizeof array, (uint8_t)byte, &answer)); }
static void wires(int scl, int sda) { event(scl | sda << 1); }
static void bit(int level) { wires(0, level); wires(1, level); }
static void send(int byte) { for (int i = 7; i >= 0; i--) bit(byte >> i & 1); bit(1); acknowledged(); }

/* Returns whether the write reached the limits of gate 0. */
static int label_on(uint8_t part, const char *name)
{
    sent = 0; memset(array, 0, sizeof array);       /* every limit 0 */
    call(crep_new(&chip, part, 0));                 /* select 0 */
    chip.pel = 1;                                   /* as after 02h at FFFFh: data is taken; an X24F129 does not ask */
    wires(1, 1); wires(1, 0);                       /* START */
    send(0xa0); send(0x00); send(0x06);             /* write, from byte 6 of gate 0: its label */
    for (int i = 0; i < 27; i++) send('A' + i);     /* your firmware's mistake */
    wires(0, 0); wires(1, 0); wires(1, 1);          /* STOP: a cycle begins */
    int note = CREP_NOTE(answer), spoilt = note == CREP_NOTE_NOT_32;
    event(CREP_DONE);                               /* the cycle ends: the array is written now */
    int hit = spoilt || array[0] || array[1] || array[2] || array[3];
    if (!spoilt && note != CREP_NOTE_STORED) wrong("nothing stored, note", note, crep_note_text(note));
    printf("%s: note %d, closed limit %02x %02x: %s\n", name, note, array[0], array[1], !hit ? "as before"
           : spoilt ? "MISTAKE FOUND, the sector is spoilt" : "MISTAKE FOUND, the label ran into it");
    return hit;
}

int main(void)
{
    int hits = label_on(CREP_X24128, "X24128");
    hits += label_on(CREP_X24F128, "X24F128");
    hits += label_on(CREP_X24F129, "X24F129");
    return hits > 0;
}
