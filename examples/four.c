/* Four requests on one panel, as the scanner program takes and prints them: open 3, split 2, split 8, split 4. Node 8 isn't there yet
 * at the third, which says what is above it: that is the node that the fourth splits. */
#include "jolpibhar.h"

#include <inttypes.h>
#include <stdio.h>

static void print(uint32_t number, uint32_t what)
{
    printf("%" PRIu32 " %" PRIu32 "\n", number, what);
}

int main(void)
{
    uint8_t panel[PANEL_BYTES(3)];
    uint32_t ancestor, count, node;
    print(1, panel_open(panel, sizeof panel, 3));
    print(2, panel_split(panel, sizeof panel, 2, &ancestor));
    uint32_t answer = panel_split(panel, sizeof panel, 8, &ancestor);
    print(3, answer);
    if (answer == PANEL_BELOW_LEAF) /* ancestor is 4, the leaf above node 8 */
        print(4, panel_split(panel, sizeof panel, ancestor, &ancestor));

    panel_count(panel, sizeof panel, &count);
    for (uint32_t number = 0; number < count; number++) {
        panel_leaf(panel, sizeof panel, number, &node);
        print(number, node);
    }
    return 0;
}
