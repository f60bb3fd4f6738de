// What bench/emulated counts: emulated DEPTH CUT CALL TIMES makes a panel of a depth, fresh (CUT 0) or fully cut with every fourth leaf pinned (1),
// and then a call on it so many times: 0 testing all sums, 1 the whole judge, 2 making all sums. It uses no header, since there may be none for the
// machine it is compiled for.
typedef unsigned char byte;
typedef unsigned long size;

extern _Bool measure_all_right(const byte *bytes, size len, size deep);
extern unsigned panel_judge(const byte *panel, size len);
extern void measure_make_sums(byte *bytes, size len, size deep);
extern int atoi(const char *text);

enum { GREATEST_DEPTH = 17 };

static byte panel[5 << (GREATEST_DEPTH - 3)];

int main(int count, char **words)
{
    if (count != 5)
        return 2;
    size deep = (size)atoi(words[1]), pins = 1ul << (deep - 1), len = pins + pins / 4; // the pins stand behind the words
    int cut = atoi(words[2]), call = atoi(words[3]), times = atoi(words[4]);
    size root = 3 * 2 * pins + pins; // the leaf bits begin at bit 3 * 2^D, and node 1's is the middle one
    for (size i = 3 * pins / 4; i < pins; i++)
        panel[i] = cut ? 255 : 0;
    for (size i = pins; i < len; i++)
        panel[i] = cut ? 0x11 : 0;
    panel[3 * pins / 4] |= 1;
    panel[root / 8] |= (byte)(1u << root % 8);
    panel[0] = (byte)(4 * deep);
    measure_make_sums(panel, len, deep);
    int good = 1;
    for (int i = 0; i < times; i++) {
        if (call == 0)
            good &= measure_all_right(panel, len, deep);
        else if (call == 1)
            good &= panel_judge(panel, len) == 0;
        else
            measure_make_sums(panel, len, deep);
    }
    return good ? 0 : 1;
}
