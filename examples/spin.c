/* The sample game (docs/FORMAT.md) through the C interface: replays the log 10, 20 from spin[2] and prints the rules and the last configuration. */
#include "hethalip.h"
#include <inttypes.h>
#include <stdio.h>

enum { LOG_LEN = 2, LIMIT = 4, WORK_LEN = (LOG_LEN + 1) * (2 * LIMIT + 2) };

static const int64_t table[] = {
    3,                                                                  /* three rules */
    10, 1, 9, 1, 3, 0, 9, 1, 4, 9, 3, 0, 2, 1, 4, 12, 2, 0, 3, 0, 1, 1, /* action 10: spin[X] to spin[X-1] if 0 < X */
    10, 0, 9, 1, 3, 0, 10, 2, 3, 0, 9, 1, 3, 0,                         /* action 10: spin[X] to bonus[X, spin[X]] */
    20, 0, 10, 2, 3, 0, 3, 1, 3, 1,                                     /* action 20: bonus[X, Y] to Y */
};
static const int64_t configuration[] = {9, 1, 2, 2}; /* spin[2] */
static const uint16_t actions[LOG_LEN] = {10, 20};

int main(void) {
    int64_t out[2 * LIMIT], work[WORK_LEN];
    uint16_t choices[LOG_LEN];
    /* A replay does not say how many words it wrote. No tag is -1, so the configuration ends before the first one. */
    for (size_t i = 0; i < 2 * LIMIT; i++) out[i] = -1;
    uint64_t answer = hethalip_replay(table, sizeof table / sizeof *table, configuration, sizeof configuration / sizeof *configuration,
                                      actions, LOG_LEN, LIMIT, out, 2 * LIMIT, choices, LOG_LEN, work, WORK_LEN);
    if (hethalip_kind(answer) != HETHALIP_REPRODUCED) {
        printf("kind %u\n", hethalip_kind(answer));
        return 1;
    }
    printf("rules:");
    for (size_t i = 0; i < LOG_LEN; i++) printf(" %u", (unsigned)choices[i]);
    printf("\nconfiguration:");
    for (size_t i = 0; i < 2 * LIMIT && out[i] >= 0; i += 2) printf(" %" PRId64 " %" PRId64, out[i], out[i + 1]);
    printf("\n");
    return 0;
}
