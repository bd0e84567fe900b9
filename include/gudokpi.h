/* Gudokpi: admission of a dashboard table, for the drawing side. */
#ifndef GUDOKPI_H
#define GUDOKPI_H

#include <stddef.h>
#include <stdint.h>

/* Takes a table text of `length` bytes and answers the longest period of the
 * collector, in ticks, from 1 to 1,000,000; or minus the number of the first
 * refusal: -2 to -6 of the text, -7 to -10 of admission. It keeps no state,
 * allocates nothing, and does not change the text. `text` may not be null
 * unless `length` is 0. */
int32_t gudokpi_period(const uint8_t *text, size_t length);

#endif
