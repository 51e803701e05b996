/* The step and the running place written in C, to be measured beside those of the archive. */
#ifndef STEP_IN_C_H
#define STEP_IN_C_H

#include "step.h"

uint32_t step_in_c(const uint8_t *table, size_t length, uint32_t letters, uint32_t state, uint32_t letter);
uint32_t advance_in_c(struct step_place *place, const uint8_t *table, size_t length, uint32_t letters, uint32_t letter);

#endif
