/* The header's names over the library's answers: every kind comes up, and the values are taken apart. It ends at the first one that is wrong. */
#undef NDEBUG
#include "hethalip.h"
#include <assert.h>
#include <string.h>

#define LEN(array) (sizeof(array) / sizeof *(array))

/* The sample table, spin[2], and a term that no rule matches. */
static const int64_t table[] = {3,  10, 1,  9, 1, 3, 0, 9,  1, 4, 9, 3, 0, 2, 1, 4,  12, 2,  0, 3, 0, 1, 1, 10,
                                0,  9,  1,  3, 0, 10, 2, 3, 0, 9, 1, 3, 0, 20, 0, 10, 2,  3, 0, 3, 1, 3, 1};
static const int64_t spin[] = {9, 1, 2, 2};
static const int64_t idle[] = {2, 2};
static const uint16_t actions[HETHALIP_MAX_LOG + 1] = {10, 20};

static int64_t out[8], spare[8], work[64], list[8];
static uint16_t choices[2];

static void checks(void) {
    assert(hethalip_check_table(table, LEN(table)) == HETHALIP_GOOD);
    assert(hethalip_check_table(table, 46) == HETHALIP_BAD_TABLE);
    assert(hethalip_check_configuration(spin, LEN(spin)) == HETHALIP_GOOD);
    assert(hethalip_check_configuration(spin, 2) == HETHALIP_BAD_CONFIGURATION);
}

static uint64_t match(const int64_t *configuration, size_t configuration_len, size_t rule) {
    return hethalip_match(table, LEN(table), configuration, configuration_len, rule);
}

static void matches(void) {
    uint64_t answer = match(spin, LEN(spin), 1);
    assert(hethalip_kind(answer) == HETHALIP_MATCHES && hethalip_compared(answer) == 2);
    answer = match(spin, LEN(spin), 2);
    assert(hethalip_kind(answer) == HETHALIP_DIFFERS && hethalip_compared(answer) == 1);
    assert(match(spin, LEN(spin), 3) == HETHALIP_DIFFERS);
    assert(match(spin, 2, 3) == HETHALIP_BAD_CONFIGURATION);
    assert(hethalip_match(table, 46, spin, 2, 3) == HETHALIP_BAD_TABLE);
}

static uint64_t reasons(const int64_t *rules, size_t rules_len, const int64_t *configuration, size_t configuration_len, size_t list_len) {
    memset(list, 0xff, sizeof list);
    return hethalip_reasons(rules, rules_len, configuration, configuration_len, list, list_len);
}

/* Of the sample's rule 0 alone, spin[X] if 0 < X, the left matches spin[0] and the condition fails. */
static void lists(void) {
    static const int64_t rule[] = {1, 10, 1, 9, 1, 3, 0, 9, 1, 4, 9, 3, 0, 2, 1, 4, 12, 2, 0, 3, 0, 1, 1};
    static const int64_t still[] = {9, 1, 2, 0}, fails[] = {HETHALIP_REASON_CONDITION, 0, -1};
    static const int64_t heads[] = {HETHALIP_REASON_LEFT, 0, HETHALIP_REASON_LEFT, 0, HETHALIP_REASON_LEFT, 0, -1, -1}, kept[] = {-1, -1, -1};
    assert(reasons(rule, LEN(rule), still, LEN(still), LEN(list)) == HETHALIP_STUCK_LISTED && memcmp(list, fails, sizeof fails) == 0);
    assert(reasons(table, LEN(table), idle, LEN(idle), hethalip_reasons_len(3)) == HETHALIP_STUCK_LISTED);
    assert(memcmp(list, heads, sizeof heads) == 0);
    uint64_t answer = reasons(table, LEN(table), still, LEN(still), LEN(list));
    assert(hethalip_kind(answer) == HETHALIP_NOT_STUCK && hethalip_rule(answer) == 1 && memcmp(list, kept, sizeof kept) == 0);
    assert(reasons(table, LEN(table), still, LEN(still), hethalip_reasons_len(3) - 1) == HETHALIP_SHORT_BUFFER);
    assert(reasons(table, LEN(table), still, 2, 0) == HETHALIP_BAD_CONFIGURATION);
    assert(reasons(table, 46, still, 2, 0) == HETHALIP_BAD_TABLE);
}

static void steps(void) {
    static const int64_t successor[] = {10, 2, 2, 2, 9, 1, 2, 2};
    uint64_t answer = hethalip_step_by_rule(table, LEN(table), spin, LEN(spin), 1, out, LEN(out));
    assert(hethalip_kind(answer) == HETHALIP_STEPPED);
    assert(hethalip_rule(answer) == 1 && hethalip_action(answer) == 10 && hethalip_nodes(answer) == 4);
    assert(memcmp(out, successor, sizeof successor) == 0);
    answer = hethalip_step(table, LEN(table), successor, LEN(successor), out, LEN(out));
    assert(hethalip_kind(answer) == HETHALIP_STEPPED);
    assert(hethalip_rule(answer) == 2 && hethalip_action(answer) == 20 && hethalip_nodes(answer) == 2);
    assert(hethalip_step(table, LEN(table), idle, LEN(idle), out, LEN(out)) == HETHALIP_STUCK);
    assert(hethalip_step(table, LEN(table), spin, LEN(spin), out, 2) == HETHALIP_OVER_LIMIT);
}

static uint64_t run(const int64_t *configuration, size_t configuration_len, uint64_t budget, uint64_t limit) {
    return hethalip_run(table, LEN(table), configuration, configuration_len, budget, limit, out, LEN(out), spare, LEN(spare));
}

static void runs(void) {
    uint64_t answer = run(spin, LEN(spin), 2, 4);
    assert(hethalip_kind(answer) == HETHALIP_RUN_SPENT && hethalip_steps(answer) == 2);
    answer = run(spin, LEN(spin), 3, 3);
    assert(hethalip_kind(answer) == HETHALIP_OVER_LIMIT && hethalip_steps(answer) == 2);
    answer = run(idle, LEN(idle), HETHALIP_MAX_BUDGET, 4);
    assert(hethalip_kind(answer) == HETHALIP_RUN_STUCK && hethalip_steps(answer) == 0);
    assert(run(spin, LEN(spin), HETHALIP_MAX_BUDGET + 1, 4) == HETHALIP_TOO_LONG);
    assert(run(spin, LEN(spin), 2, HETHALIP_MAX_NODES + 1) == HETHALIP_BAD_LIMIT);
    assert(run(spin, LEN(spin), 2, HETHALIP_MAX_NODES) == HETHALIP_SHORT_BUFFER);
}

static uint64_t replay(const uint16_t *log, size_t log_len, uint64_t limit, size_t work_len) {
    return hethalip_replay(table, LEN(table), spin, LEN(spin), log, log_len, limit, out, LEN(out), choices, LEN(choices), work, work_len);
}

static void replays(void) {
    size_t needed = hethalip_work_len(2, 4);
    assert(needed <= LEN(work));
    assert(replay(actions, 2, 4, needed) == HETHALIP_REPRODUCED);
    assert(replay(actions, 2, 4, needed - 1) == HETHALIP_SHORT_BUFFER);
    assert(replay(actions + 1, 1, 4, needed) == HETHALIP_NOT_REPRODUCED);
    assert(replay(actions, 2, 3, needed) == HETHALIP_OVER_LIMIT);
    assert(replay(actions, HETHALIP_MAX_LOG, 4, needed) == HETHALIP_SHORT_BUFFER);
    assert(replay(actions, HETHALIP_MAX_LOG + 1, 4, needed) == HETHALIP_TOO_LONG);
    assert(replay(actions, 2, 1, needed) == HETHALIP_BAD_LIMIT);
}

int main(void) {
    checks();
    matches();
    lists();
    steps();
    runs();
    replays();
    return 0;
}
