/* Prints the collector's period of the table text on standard input, or minus
 * the number of its refusal. */
#include "gudokpi.h"
#include <stdio.h>

int main(void) {
    static uint8_t text[8193]; /* one byte more than the longest text */
    size_t length = fread(text, 1, sizeof text, stdin);
    printf("%d\n", (int)gudokpi_period(text, length));
    return 0;
}
