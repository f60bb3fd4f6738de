/* A round: splits and merges in one call, which judges the panel once. Each record prints its answer. Two are refused, with 10 and 7: they
 * change nothing, and the round goes on. With too little room for the answers, or with bytes left over, a round writes nothing. */
#include "jolpibhar.h"

#include <inttypes.h>
#include <stdio.h>

static const struct {
    uint8_t kind;
    uint32_t node;
} asked[] = {
    {PANEL_RECORD_SPLIT, 2}, {PANEL_RECORD_SPLIT, 8}, {PANEL_RECORD_SPLIT, 4},
    {PANEL_RECORD_MERGE, 5}, {PANEL_RECORD_MERGE, 9}, {PANEL_RECORD_SPLIT, 7},
};
enum { MANY = sizeof asked / sizeof *asked };

static uint8_t panel[PANEL_BYTES(4)], records[MANY * PANEL_RECORD_BYTES], answers[MANY];

/* A record is its kind, three zero bytes, and the node, lowest byte first. */
static void fill(uint8_t *record, uint8_t kind, uint32_t node)
{
    record[0] = kind;
    record[1] = record[2] = record[3] = 0;
    for (int i = 0; i < 4; i++)
        record[4 + i] = (uint8_t)(node >> 8 * i);
}

static void show(const char *round, uint32_t answer)
{
    uint32_t count;
    panel_count(panel, sizeof panel, &count);
    printf("%s: %" PRIu32 ", %" PRIu32 " leaves\n", round, answer, count);
}

int main(void)
{
    for (size_t i = 0; i < MANY; i++)
        fill(records + i * PANEL_RECORD_BYTES, asked[i].kind, asked[i].node);

    show("open 4", panel_open(panel, sizeof panel, 4));
    show("a round", panel_round(panel, sizeof panel, records, sizeof records, answers, sizeof answers));
    for (size_t i = 0; i < MANY; i++)
        printf("  %s %" PRIu32 ": %d\n", asked[i].kind == PANEL_RECORD_SPLIT ? "split" : "merge", asked[i].node, answers[i]);

    show("room for an answer less", panel_round(panel, sizeof panel, records, sizeof records, answers, sizeof answers - 1));
    show("a byte left over", panel_round(panel, sizeof panel, records, PANEL_RECORD_BYTES + 1, answers, sizeof answers));
    return 0;
}
