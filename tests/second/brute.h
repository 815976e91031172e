/* The least cost over all allowed contents, by trying every set in every gap. */
#ifndef SECOND_BRUTE_H
#define SECOND_BRUTE_H

#include "model.h"

enum { MOST_BRUTE_ITEMS = 6 };

/* The trace has at most MOST_BRUTE_ITEMS items. */
uint64_t brute_least(const struct trace *trace);

#endif
