/* Judges the record of a small loop, lists it, and judges it again without its retiming. */
#include <stdio.h>
#include <string.h>

#include "rsk.h"

/* Two classes, three nodes, three edges, a schedule of length 2; the retiming of node 0 is at offset 46. */
static const uint8_t small_loop[53] = {
    'R', 'S', 'K', 1, 0, 2, 3, 3, 0, 2, 0,                           /* mark, version, counts, length */
    1,   1,   0,   2, 1, 0,                                          /* latency, units, flag */
    1,   2,   3,   0, 0, 0, 0, 0, 1, 0, 0, 0, 0, 0, 0, 0, 0, 0,      /* class, operation, constant */
    0,   1,   0,   1, 2, 0, 2, 0, 2,                                 /* from, to, delays */
    1,   0,   1,   1, 0, 0, 2, 0, 0,                                 /* start, retiming */
};

static void judge(const char *name, const uint8_t *record, size_t size)
{
    uint32_t answer[RSK_ANSWER];
    if (rsk_judge(record, size, answer) == 0)
        printf("%s: accepted\n", name);
    else
        printf("%s: refused %u, %u\n", name, (unsigned)answer[RSK_REFUSAL], (unsigned)answer[RSK_FIRST]);
}

int main(void)
{
    uint8_t changed[sizeof small_loop];
    uint8_t text[200];
    uint32_t answer[RSK_ANSWER];

    judge("small loop", small_loop, sizeof small_loop);
    if (rsk_list(small_loop, sizeof small_loop, text, sizeof text, answer) == 0)
        fwrite(text, 1, answer[RSK_FIRST], stdout);

    memcpy(changed, small_loop, sizeof small_loop);
    changed[46] = 0;
    judge("without its retiming", changed, sizeof changed);
    return 0;
}
