/* Rozsvelen: a proved rule checker for job logs. Link with libexports.a (`rt lib` in crates/exports).
 *
 * Every function answers one number of four parts, 16 bits each, from the low bits up: a count or length; the number of the question that
 * got a no (0: accepted); the line that the question is about (from 1; 0 for questions not about a line); and what a function gives besides
 * (each says what; else 0). Where a list of logs is judged, the upper 32 bits are the log that the question is about; where a rule is printed,
 * they are the upper bits of the text's length.
 * A refusal alters nothing that was lent. The questions about texts, profiles and printed rules and their numbers stand in docs/SHEETS.md and
 * docs/LOGS.md, those about formulas in docs/FORMULAS.md, those about judging and walks in document 01; three are the boundary's own:
 *   35  a table or row to be written has its fixed length. Asked first.
 *   43  a way is ROZSVELEN_AHEAD or ROZSVELEN_BACK. Asked after 35.
 *   44  a page fits in the lent bytes.
 * A table that is only read and has another length, or a number that no table has, stands for the table of zeros, which no sheet gives: 31.
 *
 * A slice is a pointer and the number of its elements. The pointer is aligned as its type asks, and may be NULL or anything else where the
 * number is 0: then it is not followed. What is lent for writing overlaps nothing else that is lent to the same call; what is only read may
 * overlap. No function keeps a pointer, keeps anything between calls, allocates, or calls anything but memcpy, memmove and memset: threads may
 * call at the same time where none writes what another is lent.
 * Stack: a call takes no more than is said at it, in kilobytes of 1024 bytes (measured, on x86-64, by tests/boundary.c). */
#ifndef ROZSVELEN_H
#define ROZSVELEN_H

#include <stddef.h>
#include <stdint.h>

#ifdef __cplusplus
extern "C" {
#endif

#define ROZSVELEN_TABLE 1507   /* numbers of a table */
#define ROZSVELEN_NODES 128    /* at most so many nodes stand on a sheet */
#define ROZSVELEN_ROW 128      /* numbers of a row, one for each node */
#define ROZSVELEN_WORDS 2      /* verdict words of an entry */
#define ROZSVELEN_ENTRIES 512  /* at most so many entries are judged at once */
#define ROZSVELEN_WALK 8191    /* a buffer of so many places takes every walk */
#define ROZSVELEN_PAGE 40000   /* a buffer of so many bytes takes every page */
#define ROZSVELEN_AHEAD 1
#define ROZSVELEN_BACK 2

/* The parts of an answer. */
static inline uint32_t rozsvelen_count(uint64_t answer) { return (uint32_t)(answer & 0xffff); }
static inline uint32_t rozsvelen_number(uint64_t answer) { return (uint32_t)(answer >> 16 & 0xffff); }
static inline uint32_t rozsvelen_line(uint64_t answer) { return (uint32_t)(answer >> 32 & 0xffff); }
static inline uint32_t rozsvelen_extra(uint64_t answer) { return (uint32_t)(answer >> 48); }

/* The field that an answer of rozsvelen_read_sheet is about: what it gives besides. */
static inline uint32_t rozsvelen_field(uint64_t answer) { return rozsvelen_extra(answer); }

/* The log that an answer of rozsvelen_judge_logs is about, in place of line and extra: it can be 65,536, which 16 bits do not hold. */
static inline uint32_t rozsvelen_log(uint64_t answer) { return (uint32_t)(answer >> 32); }

/* The length that an answer of rozsvelen_print_rule gives, in place of count, line and extra: up to 48 bits, the lowest 16 of them where a count
 * stands, the others in the upper 32. 0 for a refusal. */
static inline uint64_t rozsvelen_length(uint64_t answer) { return answer >> 32 << 16 | (answer & 0xffff); }

/* The one way to read a verdict: 1 where a node, below ROZSVELEN_NODES, holds at an entry of a judged log or part, else 0. Both words of the entry
 * are there. Of a list of logs, verdicts is where the words of the entry's own log begin. */
static inline int rozsvelen_verdict(const uint64_t *verdicts, size_t entry, uint32_t node) {
    return (int)(verdicts[ROZSVELEN_WORDS * entry + node / 64] >> node % 64 & 1);
}

/* Reads a rule sheet's text into a table of ROZSVELEN_TABLE numbers. Questions 35, then 1 to 6, 71 to 76, 8 to 11. 71 to 76 ask whether a
 * line's numbers are in range, from the left: of a fact 71, a node 72, an automaton 73, a state 74, a direction 75, a count of states 76.
 * rozsvelen_field of these is the field of the number that is not, the letter being field 1; of all else it is 0. Stack: 16 KB. */
uint64_t rozsvelen_read_sheet(const uint8_t *text, size_t text_len, uint16_t *table, size_t table_len);

/* Reads a rule that is one line of text, a formula, into the table of its sheet, of ROZSVELEN_TABLE numbers; no LF stands behind it. Questions 35;
 * 50 (it has no more than 4,096 bytes); 51 (a formula can go on) and 52 (no more than 16 marks are open), by the first byte that is about either;
 * 54 (no path mark stands within an ahead or back step); 53 (its sheet is no larger than a sheet may be). rozsvelen_extra of 51 is the place, from
 * 0, of the first byte with which no formula can go on, text_len where the text stops short; of all else it is 0. Stack: 100 KB. */
uint64_t rozsvelen_read_formula(const uint8_t *text, size_t text_len, uint16_t *table, size_t table_len);

/* Puts the plain profile of a table, where N stands directly on a fact, into a table of ROZSVELEN_TABLE numbers: node k gives node 2k with the
 * same meaning and node 2k+1 with its opposite, and a last node repeats the rule's. Questions 35, 31, 42 (it has no more nodes than a sheet
 * may have, 128). Stack: 8 KB. */
uint64_t rozsvelen_profile(const uint16_t *table, size_t table_len, uint16_t *out, size_t out_len);

/* Counts 1 where a table is in the plain profile, each N line of it naming a fact's line; else 0. Question 31. Stack: 8 KB. */
uint64_t rozsvelen_in_profile(const uint16_t *table, size_t table_len);

/* Which ways the rule looks, in the count's place: ROZSVELEN_AHEAD if it stands on an edge that goes ahead, plus ROZSVELEN_BACK if on one that
 * goes back; so 0 to 3. The rule, the last node, stands on itself; on the nodes that a node it stands on names; and where that is a D or B, on
 * each edge of its automaton, reached or not, and on the node that the edge tests. A log may be cut looking ahead unless the rule looks back,
 * and looking back unless it looks ahead. Question 31. Stack: 8 KB. */
uint64_t rozsvelen_rule_looks(const uint16_t *table, size_t table_len);

/* Reads a job log's text into words, bit f for fact f, and counts the entries. The words take the first places, the rest keep their content.
 * Questions 21 to 27. Stack: 1 KB. */
uint64_t rozsvelen_read_log(const uint8_t *text, size_t text_len, uint32_t *words, size_t words_len);

/* Reads a job log whose lines have the platesetter's counter before the facts: the words and their count as above, and rozsvelen_extra is the
 * first line's counter. Questions 21, 22; of each line 23, 24, 28, 29, 25, 26; then 27. Stack: 1 KB. */
uint64_t rozsvelen_read_counted(const uint8_t *text, size_t text_len, uint32_t *words, size_t words_len);

/* Counts the steps from an earlier counter to a later one, round 65,535 to 0 where the later is less. Asks nothing. Stack: 1 KB. */
uint64_t rozsvelen_steps_between(uint16_t earlier, uint16_t later);

/* The entry, in the count's place, that bears a counter in a log of so many entries whose first has the counter `first`. Questions 32 (1 to
 * ROZSVELEN_ENTRIES entries), 30. Stack: 1 KB. */
uint64_t rozsvelen_entry_bearing(uint16_t first, size_t entries, uint16_t counter);

/* Judges a whole log: ROZSVELEN_WORDS words per entry, those of entry i at 2i and 2i+1, in the first places of verdicts; counts the entries at
 * which the rule, the last node, holds. Node k below 64 is bit k of an entry's first word, another one bit k-64 of the second; bits of nodes that
 * are not there are 0. rozsvelen_verdict reads them. Places from twice the log's length on keep their content. Questions 31, 32, 33 (verdicts has
 * at least twice the log's length). Stack: 72 KB. */
uint64_t rozsvelen_judge(const uint16_t *table, size_t table_len, const uint32_t *log, size_t log_len, uint64_t *verdicts, size_t verdicts_len);

/* Judges a list of logs of one sheet. Their words stand one after the other; lengths says how many entries each log has. The verdict words, two
 * per entry, stand likewise in the first places of verdicts: a log's begin at twice the number of entries of the logs before it. Each log's count
 * of entries at which the rule holds stands in the first places of held. Question 31; 32 of each log in turn: it is among the first 65,535, has 1
 * to ROZSVELEN_ENTRIES entries, and they are among the words; words left over are about the log after the last; 33 of each log in turn: twice the
 * entries up to and including it have room in verdicts, and it has room in held. rozsvelen_log of a refusal is the log, from 1 (31: 0). A list of
 * no logs and no words is accepted. Stack: 72 KB. */
uint64_t rozsvelen_judge_logs(const uint16_t *table, size_t table_len, const uint32_t *words, size_t words_len, const uint16_t *lengths,
                              size_t lengths_len, uint64_t *verdicts, size_t verdicts_len, uint16_t *held, size_t held_len);

/* Puts the plain row, which the first part of a run gets, into a row of ROZSVELEN_ROW numbers: of a B that the rule stands on the bits of its
 * automaton's states are set, all others are 0. Questions 35, 31. Stack: 8 KB. */
uint64_t rozsvelen_plain_row(const uint16_t *table, size_t table_len, uint16_t *row, size_t row_len);

/* Judges a part of a log, given the row of the entry just outside it, and puts the row for the next part in its place. The verdict words are as
 * rozsvelen_judge has them, two per entry.
 * way: ROZSVELEN_AHEAD, parts come from the last to the first; ROZSVELEN_BACK, from the first to the last.
 * Only the nodes that the rule stands on (rozsvelen_rule_looks) are judged: the verdict bits of the others are 0, and their bits of the row are
 * ignored and put there as 0. Questions 35 (the row), 43, 31, 34 (the rule stands on no edge that goes the other way), 32, 33 (verdicts has at
 * least twice the part's length). Stack: 72 KB. */
uint64_t rozsvelen_judge_part(const uint16_t *table, size_t table_len, uint32_t way, uint16_t *row, size_t row_len,
                              const uint32_t *words, size_t words_len, uint64_t *verdicts, size_t verdicts_len);

/* The edge numbers of the shortest walk, with the lowest edges, that shows node `node` at entry `entry`, in the first places of edges;
 * counts them. Every number that is no node's or entry's is refused, by 36 or 37. Questions 31, 32, 36 to 40. Stack: 112 KB. */
uint64_t rozsvelen_walk(const uint16_t *table, size_t table_len, const uint32_t *log, size_t log_len, uint32_t node, uint32_t entry,
                        uint16_t *edges, size_t edges_len);

/* The rule as text, in the first places of text; rozsvelen_length is how many bytes it has. Each node stands in full brackets, down to the facts,
 * and an automaton as `m` and its number: T, F, P, N, A, O, D and B lines are `true`, `false`, `f3`, `(!f3)`, `(f1&f2)`, `(f1|f2)`, `(<m0>f1)` and
 * `([m0]f1)`, with no space and no LF. A node that is named twice is printed twice, so that a text can be exponentially longer than its sheet: no
 * buffer takes every text. Places behind the text keep their content; those from 2^48 - 1 on are not used. Questions 31, 55 (the text is no longer
 * than the lent bytes). Stack: 24 KB. */
uint64_t rozsvelen_print_rule(const uint16_t *table, size_t table_len, uint8_t *text, size_t text_len);

/* The page of a sheet and a log as text, in the first places of page; counts its bytes. A refusal of the sheet or the log is a page too:
 * its one line. Question 44, which a buffer of ROZSVELEN_PAGE bytes always gets a yes from. Stack: 176 KB. */
uint64_t rozsvelen_page(const uint8_t *rules, size_t rules_len, const uint8_t *steps, size_t steps_len, uint8_t *page, size_t page_len);

#ifdef __cplusplus
}
#endif

#endif
