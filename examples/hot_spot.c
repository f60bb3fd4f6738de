/* A hot spot is pinned, so that it is not merged away. Each line is a call, its answer and the leaves after it, the pinned ones with a
 * star: the split of 2 cuts 3 with it and passes its pin on, and the merge is refused until both pins are gone. */
#include "jolpibhar.h"

#include <inttypes.h>
#include <stdio.h>

static uint8_t panel[PANEL_BYTES(4)];

static void show(const char *call, uint32_t answer)
{
    uint32_t count, node, pinned, ancestor;
    panel_count(panel, sizeof panel, &count);
    printf("%s: %" PRIu32 ", leaves", call, answer);
    for (uint32_t number = 0; number < count; number++) {
        panel_leaf(panel, sizeof panel, number, &node);
        panel_pinned(panel, sizeof panel, node, &pinned, &ancestor);
        printf(" %" PRIu32 "%s", node, pinned ? "*" : "");
    }
    printf("\n");
}

int main(void)
{
    uint32_t ancestor;
    show("open 4", panel_open(panel, sizeof panel, 4));
    show("pin 3", panel_pin(panel, sizeof panel, 3, &ancestor));
    show("split 2", panel_split(panel, sizeof panel, 2, &ancestor));
    show("merge 4", panel_merge(panel, sizeof panel, 4, &ancestor));
    show("unpin 6", panel_unpin(panel, sizeof panel, 6, &ancestor));
    show("merge 4", panel_merge(panel, sizeof panel, 4, &ancestor));
    show("unpin 7", panel_unpin(panel, sizeof panel, 7, &ancestor));
    show("merge 4", panel_merge(panel, sizeof panel, 4, &ancestor));
    return 0;
}
