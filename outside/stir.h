/* Random chips, traces and records, made so that every rule of the paper is reached often. */
#ifndef STIR_H
#define STIR_H

#include "chance.h"
#include "crepulanter.h"
#include "wire.h"

/* A chip in range, any phase, anything waiting, busy or not; half of the time with rubbish in the fields that its phase
 * or its kind of wait does not carry. */
void stir_chip(struct chance *chance, struct crep_chip *chip);

/* Puts one field of a chip out of its range. */
void stir_out_of_range(struct chance *chance, struct crep_chip *chip);

/* An array of FFh, of one byte or of random bytes. */
void stir_array(struct chance *chance, uint8_t *array);

/* The same array in gates: each sector free, a record of any kind, or free but for one byte; all are free, or none,
 * or any share of them. */
void stir_gates(struct chance *chance, uint8_t *array);

/* Messages for a chip with this select, good and bad, mixed with noise, until `room` events are spelt. */
void stir_trace(struct chance *chance, struct wire *wire, int select);

/* The same with cycle after cycle in a few sectors: stores, spoils and register bytes, most of them ended, some cut. */
void stir_cycles(struct chance *chance, struct wire *wire, int select);

/* An event byte 0-11; the samples of a clock often, program-done and power-up seldom. */
uint8_t stir_event(struct chance *chance);

/* An event byte 8-11, which ends a cycle: program-done as often as all power-ups. */
uint8_t stir_end(struct chance *chance);

/* A byte that is no event: the first of them often. */
uint8_t stir_no_event(struct chance *chance);

/* Puts one into a trace that is not empty, at its end every second time. */
void stir_bad_event(struct chance *chance, uint8_t *trace, size_t n);

/* The 32 choices of a power-up: any, or all, none, a half, one alone, all but one. */
uint32_t stir_choices(struct chance *chance);

/* A limit, at or around an end of the range every second time. */
int32_t stir_limit(struct chance *chance);

/* A label, often with accents; every second one has a byte that may be bad, or is nothing but that byte. */
void stir_label(struct chance *chance, uint8_t *label, size_t n);

/* 32 bytes: a good record, a damaged one (often with its sum put right), a free one, or rubbish. */
void stir_record(struct chance *chance, uint8_t *record);

/* A length: `usual` most times, else one beside it, 0, or another that asks for trouble. */
uint64_t stir_length(struct chance *chance, uint64_t usual, uint64_t most);

#endif
