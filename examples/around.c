/* What lies around a few nodes: their neighbours and corners, and which way the corners turn, or why there are none. */
#include "jolpibhar.h"

#include <inttypes.h>
#include <stdio.h>

static void around(uint32_t node)
{
    uint32_t left, right, edge, ax, ay, bx, by, cx, cy;
    uint32_t answer = node_neighbours(node, &left, &right, &edge);
    if (answer != PANEL_DONE) {
        printf("node %" PRIu32 ": refused with %" PRIu32 "\n", node, answer);
        return;
    }
    node_corners(node, &ax, &ay, &bx, &by, &cx, &cy);
    /* what twice the area adds is more than what it takes away where the corners turn counterclockwise, with y upward */
    const char *turn = ax * by + bx * cy + cx * ay > ax * cy + bx * ay + cx * by ? "counterclockwise" : "clockwise";
    printf("node %" PRIu32 ": left %" PRIu32 ", right %" PRIu32 ", edge %" PRIu32, node, left, right, edge);
    printf("; A (%" PRIu32 ",%" PRIu32 "), B (%" PRIu32 ",%" PRIu32 "), C (%" PRIu32 ",%" PRIu32 "), %s\n", ax, ay, bx, by, cx, cy, turn);
}

int main(void)
{
    static const uint32_t nodes[] = {2, 4, 8, 10, 17, 262143, 262144, 1};
    for (size_t i = 0; i < sizeof nodes / sizeof *nodes; i++)
        around(nodes[i]);
    return 0;
}
