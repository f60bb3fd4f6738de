/* A card is a panel's bytes in a file, and may be damaged. This reads the one that it is given, says what it is, mends it, and says what came of
 * that: how many cuts were added, and the leaves, the pinned ones with a star. The file stays as it is. */
#include "jolpibhar.h"

#include <inttypes.h>
#include <stdio.h>

static uint8_t card[PANEL_BYTES(PANEL_GREATEST_DEPTH) + 1]; /* a byte more, so that a file that is too long shows */

/* Reads a card, and gives its length. Of no file it is 0. */
static size_t read_card(const char *name)
{
    FILE *file = fopen(name, "rb");
    if (file == NULL)
        return 0;
    size_t len = fread(card, 1, sizeof card, file);
    fclose(file);
    return len;
}

/* The depth that has this length, or 0. */
static uint32_t depth_of(size_t len)
{
    for (uint32_t depth = 3; depth <= PANEL_GREATEST_DEPTH; depth++)
        if (PANEL_BYTES(depth) == len)
            return depth;
    return 0;
}

static void judge(size_t len)
{
    uint32_t answer = panel_judge(card, len);
    printf("judge answers %" PRIu32 ": %s\n", answer, answer == PANEL_DONE ? "a good panel" : "not a good panel");
}

static void print_leaves(size_t len)
{
    uint32_t count, node, pinned, ancestor;
    panel_count(card, len, &count);
    printf("%" PRIu32 " leaves:", count);
    for (uint32_t number = 0; number < count; number++) {
        panel_leaf(card, len, number, &node);
        panel_pinned(card, len, node, &pinned, &ancestor);
        printf(" %" PRIu32 "%s", node, pinned ? "*" : "");
    }
    printf("\n");
}

int main(int argc, char **argv)
{
    size_t len = argc == 2 ? read_card(argv[1]) : 0;
    uint32_t depth = depth_of(len), added;
    if (depth == 0) { /* the one thing that mend refuses */
        printf("a card of %zu bytes: no panel has this length\n", len);
        return 1;
    }
    printf("a card of %zu bytes, as a panel of depth %" PRIu32 " has\n", len, depth);
    judge(len);
    panel_mend(card, len, &added);
    printf("mended: %" PRIu32 " cuts added\n", added);
    judge(len);
    print_leaves(len);
    return 0;
}
