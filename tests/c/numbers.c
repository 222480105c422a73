/* What each number means, as plumtree_number_text says it: 0 to 17 and 23, and seven that are no answer. The binding's errors are held against the same
 * lines (bindings/rust/tests/numbers.txt). */
#include <stdio.h>

#include "plumtree.h"

int main(void)
{
    unsigned number;
    for (number = 0; number <= PLUMTREE_NEIGHBORS_BROADCAST + 1; number++)
        printf("%u %s\n", number, plumtree_number_text((uint8_t)number));
    printf("%u %s\n", UINT8_MAX, plumtree_number_text(UINT8_MAX));
    return 0;
}
