/* Prints the page of a rule sheet and a job log by the library: the verdict at each entry, the rule's line, the rule's walk.
 * Nothing is judged before both files have been read to their ends; a failure to read or write is said on standard error, with status 1.
 *
 *     page RULES STEPS
 */
#include "rozsvelen.h"

#include <errno.h>
#include <stdio.h>
#include <stdlib.h>

enum { BYTES = 49153 }; /* one byte more than a text may have, so that a longer one is refused by its number */

static void failed(const char *what) {
    perror(what);
    exit(1);
}

/* The bytes of a file; only a missing file counts as empty. */
static size_t content(const char *name, uint8_t *bytes) {
    errno = 0;
    FILE *file = fopen(name, "rb");
    if (file == NULL && errno == ENOENT) return 0;
    if (file == NULL) failed(name);
    size_t got = fread(bytes, 1, BYTES, file);
    if (ferror(file)) failed(name);
    fclose(file);
    return got;
}

static void refused(uint64_t answer) {
    printf("refused,%u,%u\n", rozsvelen_number(answer), rozsvelen_line(answer));
}

/* A sheet's refusal tells the field too. */
static void refused_sheet(uint64_t answer) {
    printf("refused,%u,%u,%u\n", rozsvelen_number(answer), rozsvelen_line(answer), rozsvelen_field(answer));
}

/* The line of the rule's walk at entry 0. */
static void print_walk(const uint16_t *table, const uint32_t *words, uint32_t entries, uint32_t rule) {
    static uint16_t edges[ROZSVELEN_WALK];
    uint64_t walk = rozsvelen_walk(table, ROZSVELEN_TABLE, words, entries, rule, 0, edges, ROZSVELEN_WALK);
    if (rozsvelen_number(walk) != 0) {
        printf("walk,none\n");
        return;
    }
    printf("walk,%u", rozsvelen_count(walk));
    for (uint32_t e = 0; e < rozsvelen_count(walk); e++) printf(",%u", edges[e]);
    printf("\n");
}

static void print_page(const uint8_t *rules, size_t rules_len, const uint8_t *steps, size_t steps_len) {
    static uint16_t table[ROZSVELEN_TABLE];
    static uint32_t words[ROZSVELEN_ENTRIES];
    static uint64_t verdicts[ROZSVELEN_WORDS * ROZSVELEN_ENTRIES];
    uint64_t sheet = rozsvelen_read_sheet(rules, rules_len, table, ROZSVELEN_TABLE);
    if (rozsvelen_number(sheet) != 0) {
        refused_sheet(sheet);
        return;
    }
    uint64_t log = rozsvelen_read_log(steps, steps_len, words, ROZSVELEN_ENTRIES);
    if (rozsvelen_number(log) != 0) {
        refused(log);
        return;
    }
    uint32_t entries = rozsvelen_count(log);
    uint64_t held = rozsvelen_judge(table, ROZSVELEN_TABLE, words, entries, verdicts, ROZSVELEN_WORDS * ROZSVELEN_ENTRIES);
    if (rozsvelen_number(held) != 0) {
        refused(held);
        return;
    }

    uint32_t rule = table[ROZSVELEN_TABLE - 3] - 1u;
    for (uint32_t i = 0; i < entries; i++) printf("%u,%d\n", i, rozsvelen_verdict(verdicts, i, rule));
    printf("rule,%d,held,%u,of,%u\n", rozsvelen_verdict(verdicts, 0, rule), rozsvelen_count(held), entries);
    print_walk(table, words, entries, rule);
}

int main(int argc, char **argv) {
    static uint8_t rules[BYTES], steps[BYTES];
    if (argc != 3) {
        fprintf(stderr, "usage: %s RULES STEPS\n", argv[0]);
        return 2;
    }
    size_t rules_len = content(argv[1], rules);
    size_t steps_len = content(argv[2], steps);
    print_page(rules, rules_len, steps, steps_len);
    if (fclose(stdout) != 0) failed("standard output");
    return 0;
}
