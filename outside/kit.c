#include "kit.h"

#include "model.h"

/* `make self` links a copy of the model in the library's place, and says so here. */
#ifndef LIBRARY
#define LIBRARY "library"
#endif

const struct kit kit_library = {
    LIBRARY, crep_new, crep_event, crep_run, crep_power_up, crep_recover, crep_record_write, crep_record_limits,
    crep_record_read, crep_name, crep_send, crep_map_build, crep_map_first, crep_map_event, crep_map_power_up,
    crep_map_run,
};

const struct kit kit_model = {
    "model", model_new, model_event, model_run, model_power_up, model_recover, model_record_write,
    model_record_limits, model_record_read, model_name, model_send, model_map_build, model_map_first,
    model_map_event, model_map_power_up, model_map_run,
};
