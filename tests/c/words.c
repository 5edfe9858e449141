/* The numbers and their words as the rows of README's table. */
#include "rcst.h"

#include <stdio.h>

int main(void) {
    uint32_t number;

    for (number = RCST_DONE; number <= RCST_KEY_UNKNOWN; number++) {
        printf("| %u | %s |\n", (unsigned)number, rcst_words(number));
    }
    return 0;
}
