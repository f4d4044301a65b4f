/* Chips, events and bytes in words, for reports that people read. */
#ifndef SHOW_H
#define SHOW_H

#include <stdio.h>

#include "crepulanter.h"

/* "7 (SCL 1, SDA 1, pin 1)" */
void show_event(FILE *out, uint8_t event);

/* "0x0f (line 1, note 7)" */
void show_answer(FILE *out, uint8_t answer);

/* Sixteen bytes a row, in hex, with the offset of each row. */
void show_bytes(FILE *out, const uint8_t *bytes, size_t n);

/* The events from first to last - 1, in decimal, with the offset of each row. */
void show_trace(FILE *out, const uint8_t *trace, size_t first, size_t last);

/* Up to three chips side by side, a field a row; a row whose last two columns differ is marked. */
void show_chips(FILE *out, const char *const *titles, const struct crep_chip *const *chips, int n);

/* Where two stretches of memory differ first, and in how many bytes. Returns whether they differ. */
int show_difference(FILE *out, const char *what, const uint8_t *library, const uint8_t *model, size_t n);

#endif
