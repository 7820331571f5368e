/* Hethalip: a proved interpreter and replay checker for conditional rewrite rules.
 *
 * Link with libhethalip.a. Words are signed 64-bit numbers; docs/FORMAT.md says what a table, a configuration and a log are. A limit is in nodes, two words each.
 *
 * The caller owes what C cannot say: a pointer is not null, is aligned, and has as many elements behind it as the length after it says; nothing
 * else uses them during the call; and a slice that is written (list, out, spare, choices, work) overlaps no other. Nothing else is asked: every call ends,
 * with an answer for all words and numbers.
 *
 * The answer's low byte is its kind; the bits above it are its values, all else is 0. Later versions add functions and kinds; a number once given keeps its meaning.
 */
#ifndef HETHALIP_H
#define HETHALIP_H

#include <stddef.h>
#include <stdint.h>

#ifdef __cplusplus
extern "C" {
#endif

/* The kinds. 1 to 6 are refusals, of several the lowest; 7, unreadable text, is the command line program's own and no function gives it. */
enum {
    HETHALIP_GOOD = 0,              /* the two checks */
    HETHALIP_BAD_TABLE = 1,
    HETHALIP_BAD_CONFIGURATION = 2, /* or empty, or above HETHALIP_MAX_NODES */
    HETHALIP_TOO_LONG = 3,          /* the log or the budget */
    HETHALIP_BAD_LIMIT = 4,         /* 0, above HETHALIP_MAX_NODES, or below the configuration's nodes */
    HETHALIP_SHORT_BUFFER = 5,      /* a lent slice is shorter than stated */
    HETHALIP_OVER_LIMIT = 6,        /* of a run: bits 8 up, the count of steps */
    HETHALIP_STUCK = 16,            /* no rule applies (step); the rule does not apply (step by rule) */
    HETHALIP_STEPPED = 17,          /* bits 8 to 15 the rule, 16 to 31 the action, 32 up the node count */
    HETHALIP_RUN_STUCK = 18,        /* bits 8 up, the count of steps */
    HETHALIP_RUN_SPENT = 19,        /* bits 8 up, the count of steps */
    HETHALIP_REPRODUCED = 20,
    HETHALIP_NOT_REPRODUCED = 21,
    HETHALIP_MATCHES = 22,          /* bits 8 up, the left's nodes compared: all */
    HETHALIP_DIFFERS = 23,          /* bits 8 up, those up to and including the first that disagrees; 0: the number names no rule */
    HETHALIP_STUCK_LISTED = 24,     /* no rule applies: the list says why */
    HETHALIP_NOT_STUCK = 25         /* bits 8 up, the rule that a step takes */
};

/* The highest limit, the longest log, the highest budget. */
enum { HETHALIP_MAX_NODES = 32768, HETHALIP_MAX_LOG = 4096, HETHALIP_MAX_BUDGET = 1000000 };

/* The first of a rule's two words in a list of reasons: what the second one is. */
enum {
    HETHALIP_REASON_LEFT = 0,       /* the place, from 0, of the left's first node in preorder that disagrees */
    HETHALIP_REASON_CONDITION = 1   /* the left matches: the lowest number, from 0, of a condition that fails */
};

/* An answer's kind. */
static inline unsigned hethalip_kind(uint64_t answer) { return (unsigned)(answer & 0xff); }

/* The values of HETHALIP_STEPPED; HETHALIP_NOT_STUCK has the rule alone. */
static inline unsigned hethalip_rule(uint64_t answer) { return (unsigned)(answer >> 8 & 0xff); }
static inline unsigned hethalip_action(uint64_t answer) { return (unsigned)(answer >> 16 & 0xffff); }
static inline size_t hethalip_nodes(uint64_t answer) { return (size_t)(answer >> 32); }

/* The count of steps of a run: of HETHALIP_RUN_STUCK, HETHALIP_RUN_SPENT and HETHALIP_OVER_LIMIT. */
static inline uint64_t hethalip_steps(uint64_t answer) { return answer >> 8; }

/* The left's nodes that a match compared: of HETHALIP_MATCHES and HETHALIP_DIFFERS. */
static inline uint64_t hethalip_compared(uint64_t answer) { return answer >> 8; }

/* The words of list that the reasons need, for a table of so many rules. */
static inline size_t hethalip_reasons_len(size_t rules) { return 2 * rules; }

/* The words of work that a replay needs, for a log and a limit up to the highest. */
static inline size_t hethalip_work_len(size_t log_len, uint64_t limit) { return (log_len + 1) * (2 * (size_t)limit + 2); }

/* Kinds 0 and 1; 0 and 2. */
uint64_t hethalip_check_table(const int64_t *table, size_t table_len);
uint64_t hethalip_check_configuration(const int64_t *configuration, size_t configuration_len);

/* Kinds 1, 2, 22, 23: whether the left of one rule matches the configuration, conditions aside, and how many of its nodes were compared, in preorder. */
uint64_t hethalip_match(const int64_t *table, size_t table_len, const int64_t *configuration, size_t configuration_len, size_t rule);

/* Kinds 1, 2, 5, 25: list keeps. Kind 24: two words for each rule, in number order, stand at the start of list, later ones keep. Kind 5 goes by the rule
 * count, whether or not a rule applies. */
uint64_t hethalip_reasons(const int64_t *table, size_t table_len, const int64_t *configuration, size_t configuration_len,
                          int64_t *list, size_t list_len);

/* Kinds 1, 2, 6, 16, 17. Stepped: the successor stands at the start of out, the words behind it keep; else out keeps. The limit is half of out's words,
 * at most 32,768 nodes. */
uint64_t hethalip_step(const int64_t *table, size_t table_len, const int64_t *configuration, size_t configuration_len,
                       int64_t *out, size_t out_len);
uint64_t hethalip_step_by_rule(const int64_t *table, size_t table_len, const int64_t *configuration, size_t configuration_len,
                               size_t rule, int64_t *out, size_t out_len);

/* Kinds 1 to 5: both slices keep. Kinds 6, 18, 19: the last configuration stands at the start of out, zeros follow up to 2 * limit words; the first
 * 2 * limit words of spare are 0; later words of both keep. */
uint64_t hethalip_run(const int64_t *table, size_t table_len, const int64_t *configuration, size_t configuration_len,
                      uint64_t budget, uint64_t limit, int64_t *out, size_t out_len, int64_t *spare, size_t spare_len);

/* Kinds 1 to 5: all three slices keep. Kinds 6, 20, 21: the first (log_len + 1) * (2 * limit + 2) words of work are 0, later ones keep. Kind 20: the rule
 * numbers stand at the start of choices, the last configuration at the start of out, what is behind them keeps; else both keep. */
uint64_t hethalip_replay(const int64_t *table, size_t table_len, const int64_t *configuration, size_t configuration_len,
                         const uint16_t *log, size_t log_len, uint64_t limit, int64_t *out, size_t out_len,
                         uint16_t *choices, size_t choices_len, int64_t *work, size_t work_len);

#ifdef __cplusplus
}
#endif

#endif
