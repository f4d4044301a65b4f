/*
 * An independent model of the chip and the records, in plain C, written from the scope paper and not from the
 * proved code. Same calls as crepulanter.h under the prefix model_, so one program can link both and compare.
 */
#ifndef MODEL_H
#define MODEL_H

#include "crepulanter.h"

uint8_t model_new(struct crep_chip *chip, uint8_t part, uint8_t select);
uint8_t model_event(struct crep_chip *chip, uint8_t *array, uint64_t array_len, uint8_t event, uint8_t *answer);
uint8_t model_run(struct crep_chip *chip, uint8_t *array, uint64_t array_len,
                  const uint8_t *trace, uint64_t trace_len, uint8_t *answers, uint64_t answers_len);
uint8_t model_power_up(struct crep_chip *chip, uint8_t *array, uint64_t array_len, uint32_t choices, uint8_t *answer);
uint8_t model_recover(struct crep_chip *chip, uint8_t *array, uint64_t array_len, uint8_t pin, uint8_t *pulses);
uint8_t model_record_write(uint8_t *record, uint64_t record_len, int32_t closed, int32_t opened,
                           const uint8_t *label, uint64_t label_len);
uint8_t model_record_limits(uint8_t *record, uint64_t record_len, int32_t closed, int32_t opened);
uint8_t model_record_read(const uint8_t *record, uint64_t record_len, int32_t *closed, int32_t *opened,
                          int32_t *travel, uint8_t *label_len, uint8_t *free_record);
uint8_t model_name(const uint8_t *record, uint64_t record_len, const uint8_t *standard, uint64_t standard_len,
                   uint64_t *start, uint64_t *len, uint8_t *from_record);
uint8_t model_send(uint8_t part, uint8_t select, uint16_t gate, const uint8_t *record, uint64_t record_len,
                   uint8_t *trace, uint64_t trace_len, uint16_t *events);
uint8_t model_map_build(const uint8_t *array, uint64_t array_len, uint8_t *map, uint64_t map_len);
uint8_t model_map_first(const uint8_t *map, uint64_t map_len, uint16_t *sector);
uint8_t model_map_event(struct crep_chip *chip, uint8_t *array, uint64_t array_len, uint8_t *map, uint64_t map_len,
                        uint8_t event, uint8_t *answer);
uint8_t model_map_power_up(struct crep_chip *chip, uint8_t *array, uint64_t array_len, uint8_t *map, uint64_t map_len,
                           uint32_t choices, uint8_t *answer);
uint8_t model_map_run(struct crep_chip *chip, uint8_t *array, uint64_t array_len, uint8_t *map, uint64_t map_len,
                      const uint8_t *trace, uint64_t trace_len, uint8_t *answers, uint64_t answers_len);

/* One event byte in 0-11 on a chip in range, with no refusal looked for: a plain C model as one writes it. */
uint8_t model_step(struct crep_chip *chip, uint8_t *array, uint8_t event);

#endif
