/*
 * A trace runner in plain C, tuned by hand: what the measurement holds crep_run against. A second reading of the
 * paper besides model.c, and compared with it. Same call as crep_run.
 */
#ifndef TUNED_H
#define TUNED_H

#include "crepulanter.h"

uint8_t tuned_run(struct crep_chip *chip, uint8_t *array, uint64_t array_len,
                  const uint8_t *trace, uint64_t trace_len, uint8_t *answers, uint64_t answers_len);

#endif
