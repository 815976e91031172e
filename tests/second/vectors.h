/* Document 01's own table, example and limits, and the null pointers that go with length 0. */
#ifndef SECOND_VECTORS_H
#define SECOND_VECTORS_H

#include <stdint.h>

/* Tries them all; answers how many there are. */
uint64_t try_vectors(void);

#endif
