/* The calls of crepulanter.h as one value, so that a test runs on the library and on the model alike. */
#ifndef KIT_H
#define KIT_H

#include "crepulanter.h"

struct kit {
    const char *name;           /* in reports: "library", or what stands in its place */
    uint8_t (*make)(struct crep_chip *, uint8_t, uint8_t);
    uint8_t (*event)(struct crep_chip *, uint8_t *, uint64_t, uint8_t, uint8_t *);
    uint8_t (*run)(struct crep_chip *, uint8_t *, uint64_t, const uint8_t *, uint64_t, uint8_t *, uint64_t);
    uint8_t (*power_up)(struct crep_chip *, uint8_t *, uint64_t, uint32_t, uint8_t *);
    uint8_t (*recover)(struct crep_chip *, uint8_t *, uint64_t, uint8_t, uint8_t *);
    uint8_t (*record_write)(uint8_t *, uint64_t, int32_t, int32_t, const uint8_t *, uint64_t);
    uint8_t (*record_limits)(uint8_t *, uint64_t, int32_t, int32_t);
    uint8_t (*record_read)(const uint8_t *, uint64_t, int32_t *, int32_t *, int32_t *, uint8_t *, uint8_t *);
    uint8_t (*record_name)(const uint8_t *, uint64_t, const uint8_t *, uint64_t, uint64_t *, uint64_t *, uint8_t *);
    uint8_t (*send)(uint8_t, uint8_t, uint16_t, const uint8_t *, uint64_t, uint8_t *, uint64_t, uint16_t *);
    uint8_t (*map_build)(const uint8_t *, uint64_t, uint8_t *, uint64_t);
    uint8_t (*map_first)(const uint8_t *, uint64_t, uint16_t *);
    uint8_t (*map_event)(struct crep_chip *, uint8_t *, uint64_t, uint8_t *, uint64_t, uint8_t, uint8_t *);
    uint8_t (*map_power_up)(struct crep_chip *, uint8_t *, uint64_t, uint8_t *, uint64_t, uint32_t, uint8_t *);
    uint8_t (*map_run)(struct crep_chip *, uint8_t *, uint64_t, uint8_t *, uint64_t, const uint8_t *, uint64_t,
                       uint8_t *, uint64_t);
};

extern const struct kit kit_library;
extern const struct kit kit_model;

#endif
