/* The least cost by a min-cost flow: slots are units of flow along time, and keeping an item is a
 * route beside the idle one. */
#ifndef SECOND_FLOW_H
#define SECOND_FLOW_H

#include "model.h"

/* The least cost of the trace; flags and rents are those of a plan that proves it. */
uint64_t flow_least(const struct trace *trace, uint8_t *flags, uint32_t *rents);

#endif
